"""What the makers of cases share: building meanings, and writing the two files.

A meaning in a case file is 71 bytes, numbers little-endian: three counts (1
byte each), four reads and four writes (2 each), four actions of 13 bytes:
kind (1; 0 is nothing), r (2), s (2), c (8).
"""

from functools import cache

from packed import (KINDS, NOTHING, NUMBER_OF_KIND, Action, Transaction, kind_of, little, number,
                    operands)

MEANING_LENGTH = 71
KIND_NAMES = [kind.name for kind in KINDS.values()]
LARGEST_NUMBER = 2**64 - 1


# A meaning in a case file ---------------------------------------------------

def action_record(action):
    kind = NUMBER_OF_KIND.get(action.kind, 0)
    return little(kind, 1) + little(action.r, 2) + little(action.s, 2) + little(action.c, 8)


def meaning_record(meaning):
    counts = bytes([meaning.read_count, meaning.write_count, meaning.action_count])
    sets = b"".join(little(record, 2) for record in meaning.reads + meaning.writes)
    return counts + sets + b"".join(action_record(action) for action in meaning.actions)


def read_action(data):
    kind = KINDS[data[0]].name if data[0] else "nothing"
    return Action(kind, number(data[1:3]), number(data[3:5]), number(data[5:13]))


def read_meaning(data):
    records = [number(data[3 + 2 * k : 5 + 2 * k]) for k in range(8)]
    actions = [read_action(data[19 + 13 * k : 32 + 13 * k]) for k in range(4)]
    return Transaction(*data[0:3], tuple(records[:4]), tuple(records[4:]), tuple(actions))


# Building meanings ----------------------------------------------------------

def four(items, filler):
    """The items, filled up to four."""
    return tuple(items) + (filler,) * (4 - len(items))


def action_of(name, r, s, c):
    """An action of this kind with those of the three fields that the kind has."""
    has = operands(KINDS[NUMBER_OF_KIND[name]])
    return Action(name, **{f: v for f, v in (("r", r), ("s", s), ("c", c)) if f in has})


def transaction(reads, writes, actions):
    """A meaning with these sets and actions, filled up with zeros."""
    return Transaction(len(reads), len(writes), len(actions),
                       four(reads, 0), four(writes, 0), four(actions, NOTHING))


def declaring(actions):
    """A meaning with these actions and the sets they need, no more."""
    reads = {getattr(action, f) for action in actions for f in kind_of(action).reads}
    writes = {getattr(action, f) for action in actions for f in kind_of(action).writes}
    return transaction(sorted(reads), sorted(writes), actions)


@cache       # makers of random transactions ask for the same few sets again and again
def possible_actions(reads, writes):
    """Every kind with every choice of r and s that these sets allow, c still 0."""
    records = sorted({*reads, *writes})
    actions = {action_of(name, r, s, 0) for name in KIND_NAMES for r in records for s in records}
    return sorted((action for action in actions
                   if all(getattr(action, f) in reads for f in kind_of(action).reads)
                   and all(getattr(action, f) in writes for f in kind_of(action).writes)),
                  key=lambda action: (action.kind, action.r, action.s))


# The two files --------------------------------------------------------------

@cache       # a maker and the tests of its cases ask more than once
def every_case(generators):
    """Every generator's cases in order; one that comes twice is kept once."""
    return list(dict.fromkeys(case for generator in generators for case in generator()))


def write_files(data_file, stdout_file, cases, case_record, answer):
    """The cases end to end, and the line that each must give."""
    with open(data_file, "wb") as file:
        file.write(b"".join(case_record(case) for case in cases))
    with open(stdout_file, "w", encoding="ascii", newline="\n") as file:
        file.writelines(answer(case) + "\n" for case in cases)
