"""Lays long lines of antt out within 120 columns: a line is broken after `$`, before `→`, or between arguments, and goes
on four columns deeper. What a file says does not change; `rt fmt` does the rest."""
import re

WIDTH = 118


def depth_at(line):
    """how many parentheses are open at each place"""
    depth, out = 0, []
    for c in line:
        if c in '({':
            depth += 1
        if c in ')}':
            depth -= 1
        out.append(depth)
    return out


def cut(line, start):
    """where to break: the place after the break's space, or 0"""
    depth = depth_at(line)
    best, at = None, 0
    for k in range(start + 24, min(len(line), WIDTH)):
        if line[k] != ' ' or line[k + 1:k + 2] in (')', '') or line[:k].rstrip().endswith('λ'):
            continue
        left, right = line[:k], line[k + 1:]
        rank = 3
        if left.endswith(' $') or left.endswith(' ∵'):
            rank = 0
        elif right.startswith('→ ') or (left.endswith('.') and re.search(r'λ [^().]*\.$', left)):
            rank = 1
        elif right.startswith('(') or left.endswith(')'):
            rank = 2
        elif re.search(r'( \.| ⊛| ∷|: | =|\(λ .*)$', left) or right.startswith('.') or right.startswith(':'):
            rank = 5
        score = (rank * 40 + depth[k] * 6 - k, )
        if best is None or score < best:
            best, at = score, k + 1
    return at


def comment(line, indent):
    """a comment's words, filled into lines"""
    body = line.strip()
    gap = re.match(r'--(\s*)', body).group(1)
    out, now = [], ' ' * indent + '--'
    for j, word in enumerate(body[2:].strip().split(' ')):
        if len(now) + 1 + len(word) > 120:
            out.append(now)
            now = ' ' * indent + '--' + gap + word
        else:
            now = now + (' ' if j else gap) + word
    return out + [now]


def broken(line, going=False):
    """the line as lines within the width"""
    if len(line) <= 120:
        return [line]
    indent = len(line) - len(line.lstrip())
    if line.lstrip().startswith('--'):
        return comment(line, indent)
    at = cut(line, indent)
    if not at:
        return [line]
    more = ' ' * (indent + (0 if going else 4))
    return [line[:at].rstrip()] + broken(more + line[at:].lstrip(), True)


def laid_out(text):
    return '\n'.join(part for line in text.split('\n') for part in broken(line))
