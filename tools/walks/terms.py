"""Terms of antt as text: nested pairs, parentheses, and names put in the place of parameters."""
import re

NAME = re.compile(r"[A-Za-z][\w-]*")


def nest(items):
    """(a, (b, tt))"""
    return 'tt' if not items else '(%s, %s)' % (items[0], nest(items[1:]))


def nest_types(items):
    """(A × (B × Unit))"""
    return 'Unit {0}' if not items else '(%s × %s)' % (items[0], nest_types(items[1:]))


def product(items):
    """(A) × ((B) × (C)): antt's × is flat, so the parentheses are needed"""
    out = items[-1]
    for item in reversed(items[:-1]):
        out = '(%s) × (%s)' % (item, out)
    return out


def pair(items):
    """(a, (b, c))"""
    out = items[-1]
    for item in reversed(items[:-1]):
        out = '(%s, %s)' % (item, out)
    return out


def part(value, index, count):
    """the part of a nested pair of `count` parts that stands at `index`"""
    if count == 1:
        return value
    return value + ' .1' * index + (' .0' if index < count - 1 else '')


def place(value, index):
    """the place of a nested pair that ends in tt"""
    return value + ' .1' * index + ' .0'


def atom(term):
    """the term, in parentheses unless it is a name or a numeral"""
    return term if re.match(r"^[\w₀-₉′#-]+$", term) else '(%s)' % term


def filled(term, values):
    """the term with the names that are keys of `values` replaced"""
    return NAME.sub(lambda m: values.get(m.group(0), m.group(0)), term)


def at_turn(text, **values):
    """the text with {name}s replaced: what a description says of a loop"""
    return re.sub(r'{(\w+)}', lambda m: values[m.group(1)], text)
