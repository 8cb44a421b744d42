#!/usr/bin/env python3
# usage: python3 tools/draft.py CRATE FN[:UNFOLD,..]..
# Drafts the open `returns` of functions that call others, branch and match: each becomes an `rw` with the equations
# that are known there. First those of the calls after the last branch, then those of the enums, and then, from the first
# on, each call that fed a branch, from right to left, with what the branch told. UNFOLD are definitions of the crate's
# specs that the answer opens. A proof file with holes must be there, as an older kit's `rt dev CRATE` printed it: this
# drafted for that toolchain's walks, whose statements it reads, and has nothing to draft now.
import glob
import os
import re
import subprocess
import sys
import tempfile

LOWER = '₁₂₃₄₅₆₇₈₉'
TOLD = {('taken', '<'): 'lt-ltb', ('taken', '≤'): 'le-leb', ('taken', 'ℕ'): 'eq-eqb',
        ('left', '≤'): 'le-ltb', ('left', '<'): 'lt-leb', ('left', 'ℕ'): 'ne-eqb'}


def places(crate, fn, folder):
    """what is known at each place of a function, and the place of each need, from the statements that rt generates"""
    found = glob.glob(os.path.join(folder, 'Rattle·%s·proofs' % crate, '**', fn, 'Lts.antt'), recursive=True)
    records, needs, current = {}, {}, None
    lines = open(found[0]).read().split('\n') if found else []
    for i, line in enumerate(lines):
        m = re.match(r'\s+pub record (\S+) : Type', line)
        if m:
            current = records.setdefault(m.group(1), [])
            continue
        m = re.match(r'\s+pub (\S+) : (.*)', line)
        if m and current is not None:
            current.append(m.groups())
        m = re.match(r'\s+(Need-\S+)(?: .*)? ?=', line)
        if m:
            at = re.search(r'\(c : ([^\s)]+)', '\n'.join(lines[i:i + 8]))
            if at:
                needs[m.group(1)[5:]] = at.group(1)
    return records, needs


def known(records, place):
    """the paths into `c` at a place, nearest first, each with the names and types that it has"""
    path, out = 'c', []
    while place:
        before = None
        for name, kind in records.get(place, []):
            if name == 'before':
                before = kind.split(' ')[0]
            else:
                out.append((path + ' .' + name, records.get(place + '·own') or [(kind.split(' ')[0], '')]))
        path, place = path + ' .before', before
    return out


def told(path, own):
    """what a branch told, as an equation of a test, and the law that makes it one"""
    side = 'taken' if 'taken' in dict(own) else 'left'
    kind = dict(own)[side]
    sort = next((s for s, start in (('<', 'Nat._<_'), ('≤', 'Nat._≤_')) if kind.startswith(start)),
                'ℕ' if 'Nat.ℕ' in kind else None)
    law = TOLD.get((side, sort))
    return ('%s _ _ (%s .%s)' % (law, path, side) if law else '%s .%s' % (path, side)), law


def equations(entries):
    after, enums, before, laws, last = [], [], [], set(), ''
    for path, own in entries:
        name = path.split(' .')[-1]
        if 'ensures' in dict(own) or own[0][0].startswith('After-'):
            (before if before else after).append(('← ' if before else '') + path + ' .ensures')
        elif re.match(r'if\d+$', name):
            text, law = told(path, own)
            before.append(text)
            laws |= {law} if law else set()
        elif name.startswith('enum-told') or last.startswith('known-told'):
            enums.append(path + ' .given .1')
        last = name
    return after + enums + before[::-1], laws


def laid(head, facts):
    """the answer within 120 columns: long paths get names"""
    line = '%s = rw (%s)' % (head, ', '.join(facts))
    if len(line) <= 118:
        return line
    far = [0]

    def short(m):
        steps = m.group(1).count('.before')
        far.append(steps // 4)
        return ('at' + LOWER[steps // 4 - 1] if steps > 3 else 'c') + ' .before' * (steps % 4)

    facts = [re.sub(r'(?<![\w.])c((?: \.before)+)', short, f) for f in facts]
    out = [head + ' =']
    for k in range(max(far)):
        nearer = 'at' + LOWER[k - 1] if k else 'c'
        out.append('    let at%s = %s .before .before .before .before in' % (LOWER[k], nearer))
    return '\n'.join(out + ['    rw ('] + ['      %s,' % f for f in facts] + ['    )'])


def spec_of(crate, name):
    for f in glob.glob('crates/%s/specs/*.antt' % crate):
        if re.search(r'^(?:unfoldable |abbrev )?pub %s :' % re.escape(name), open(f).read(), flags=re.M):
            return os.path.basename(f)[:-5]


def draft(crate, fn, unfold, folder):
    found = glob.glob('crates/%s/proofs/**/%s/Proof.antt' % (crate, fn), recursive=True)
    if not found:
        return print('%s: no proof file' % fn)
    text, count, uses = open(found[0]).read(), 0, set()
    text = re.sub(r'^(\S+-requires(?:-\d+)? c κs|enum-told(?:-\d+)? c) = \?$', r'\1 = search needs', text, flags=re.M)
    records, needs = places(crate, fn, folder)
    for need in re.findall(r'^(returns(?:-\d+)?) c = \?$', text, flags=re.M):
        facts, laws = equations(known(records, needs.get(need)))
        if facts:
            head = ('unfolding %s\n' % ' '.join(unfold) if unfold else '') + need + ' c'
            text = re.sub(r'^%s c = \?$' % need, lambda m: laid(head, facts), text, flags=re.M)
            uses |= {'use borrow.Author.Tests.{%s}\n' % law for law in laws}
            count += 1
    uses |= {'use Rattle·%s·specs.specs.%s.{%s}\n' % (crate, spec_of(crate, u), u) for u in unfold}
    open(found[0], 'w').write(''.join(sorted(u for u in uses if u not in text)) + text)
    print('%s: %d answers drafted' % (fn, count))


def main():
    crate = sys.argv[1]
    with tempfile.TemporaryDirectory() as folder:
        subprocess.run(['rt', 'dev', crate, '--generated', folder], capture_output=True)
        for word in sys.argv[2:]:
            fn, _, unfold = word.partition(':')
            draft(crate, fn, [u for u in unfold.split(',') if u], folder)


main()
