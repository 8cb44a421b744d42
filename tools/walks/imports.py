"""The `use` lines of a generated file: each name once, and only those that the file names."""
import re

USE = re.compile(r'^use (\S+?)(?:\.\{(.*)\}| as (\S+))$')
# a `use` that the layout has spread over lines, a name in each
SPREAD = re.compile(r'^use (\S+)\.\{\n(.*?)\n\}$', re.M | re.S)
WIDTH = 116


def words(text):
    """the words of a text without comments; of `A.b` also `A`"""
    out = set()
    for line in text.split('\n'):
        for word in re.split(r'[\s(){};,]+', line.split('-- ')[0] if line.lstrip().startswith('--') else line):
            out.add(word)
            out.add(word.rstrip('.'))
            if '.' in word[1:]:
                out.add(word[:word.index('.', 1)])
    return out


def named(name, said):
    """whether a name, which may be an operator with places, stands among the words"""
    own = name.split(' as ')[-1].strip()
    parts = [p for p in own.split('_') if p] if '_' in own else [own]
    return all(p in said for p in parts)


def packed(module, names):
    """lines `use MODULE.{..}` that hold the names"""
    lines, line = [], ''
    for name in names:
        longer = name if not line else line + ', ' + name
        if line and len('use %s.{%s}' % (module, longer)) > WIDTH:
            lines.append(line)
            longer = name
        line = longer
    return ['use %s.{%s}' % (module, line) for line in lines + [line]]


def pruned(text):
    """the text with its `use` lines put together and those left out that name nothing used in it"""
    text = SPREAD.sub(lambda m: 'use %s.{%s}' % (m.group(1), ' '.join(m.group(2).split()).rstrip(',')), text)
    comments, uses, rest = [], [], []
    for line in text.split('\n'):
        if line.startswith('use '):
            uses.append(line)
        else:
            (comments if not uses and line.startswith('--') else rest).append(line)
    said = words('\n'.join(rest))
    modules = {}
    for line in uses:
        module, names, alias = USE.match(line).groups()
        if alias:
            if alias in said:
                modules.setdefault((module, alias), None)
            continue
        kept = modules.setdefault(module, [])
        kept += [n for n in (n.strip() for n in names.split(',')) if n and n not in kept and named(n, said)]
    lines = []
    for key, names in modules.items():
        if names is None:
            lines.append('use %s as %s' % key)
        elif names:
            lines += packed(key, names)
    return '\n'.join(comments + lines + rest)
