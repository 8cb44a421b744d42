"""Makes the cases of deciding and the output they must give.

Usage: python3 reference/cases_decide.py DATA_FILE STDOUT_FILE

Each function below whose name is in GENERATORS yields cases; its first line
says what it covers. The same cases come out at every run.

A case in DATA_FILE: a meaning in 71 bytes, then four values of 8 bytes,
little-endian. Packing accepts every meaning for N = 1,024.
"""

import random
import sys
from dataclasses import dataclass

from case_files import (KIND_NAMES, LARGEST_NUMBER, action_of, declaring, every_case, four,
                        meaning_record, possible_actions, transaction, write_files)
from counters import decide
from packed import ZERO_MEANING, Action, Transaction, kind_of, little, read_set

N = 1024


@dataclass(frozen=True)
class Case:
    meaning: Transaction
    values: tuple        # four numbers; those past the read count are never looked at


def case_on(meaning, contents, past=0):
    """A meaning and the values it reads in these contents; values past the count are `past`."""
    return Case(meaning, four([contents[record] for record in read_set(meaning)], past))


# A case in the case file, and the line it must give -------------------------

def case_record(case):
    return meaning_record(case.meaning) + b"".join(little(value, 8) for value in case.values)


def answer(case):
    decision = decide(case.meaning, case.values)
    contents = " ".join(str(number) for number in decision.contents)
    marks = " ".join(str(int(carried)) for carried in decision.carries)
    return f"{decision.outcome} {contents} : {marks}"


# Building blocks ------------------------------------------------------------

# Actions by name, with the fields of their kind.
def set_(r, c): return Action("set", r=r, c=c)
def add(r, c): return Action("add", r=r, c=c)
def take(r, c): return Action("take", r=r, c=c)
def copy(r, s): return Action("copy", r=r, s=s)
def move(r, s): return Action("move", r=r, s=s)
def floor(r, c): return Action("floor", r=r, c=c)


STOPPERS = (take, floor)                  # the two kinds that can abort
TENS = {1: 10, 2: 20, 3: 30, 4: 40}       # the contents in most cases


def run(*actions):
    """These actions on the tens, with the sets they need, no more."""
    return case_on(declaring(actions), TENS)


# Each kind, and its edges ---------------------------------------------------

def each_kind_alone():
    """Each kind alone, r before and after s, c below, between and above the two values."""
    for name in KIND_NAMES:
        for r, s in ((1, 2), (2, 1)):
            for c in (0, 7, 15, 25):
                yield run(action_of(name, r, s, c))


# Pairs whose sums are just below, at and above 2^64, and some that carry within.
SUMS = [
    (LARGEST_NUMBER, 0), (LARGEST_NUMBER, 1), (LARGEST_NUMBER, 2), (LARGEST_NUMBER, LARGEST_NUMBER),
    (0, LARGEST_NUMBER), (1, LARGEST_NUMBER), (2, LARGEST_NUMBER),
    (2**63, 2**63 - 1), (2**63, 2**63), (2**63, 2**63 + 1),
    (0x0123456789ABCDEF, 0xFEDCBA9876543210), (0x0123456789ABCDEF, 0xFEDCBA9876543211),
    (0x0123456789ABCDEF, 0xFEDCBA9876543212),
    (0, 0), (2**32 - 1, 1), (2**53, 1), (2**63 - 1, 1),
]


def sums_around_2_64():
    """Add and move: sums just below, at and above 2^64."""
    for first, second in SUMS:
        yield case_on(declaring([add(1, second)]), {1: first})
        yield case_on(declaring([move(1, 2)]), {1: first, 2: second})
        yield case_on(declaring([move(2, 1)]), {1: second, 2: first})


def sums_that_wrap_again():
    """A wrapped sum is wrapped again, taken from and held to a floor."""
    largest = {1: LARGEST_NUMBER, 2: LARGEST_NUMBER, 3: LARGEST_NUMBER}
    for count in (2, 3, 4):
        yield case_on(declaring([add(1, LARGEST_NUMBER)] * count), largest)
    yield case_on(declaring([move(1, 2), move(1, 3), add(1, LARGEST_NUMBER)]), largest)
    yield case_on(declaring([move(1, 2), move(3, 1), copy(2, 3), move(2, 3)]), largest)
    for stopper in STOPPERS:
        for c in (0, 2, 3, LARGEST_NUMBER):
            yield case_on(declaring([add(1, 3), stopper(1, c)]), largest)


def take_and_floor_at_the_edge():
    """Take and floor: r at c, one below, one above, at 0 and at 2^64 - 1."""
    for stopper in STOPPERS:
        for c in (0, 1, 5, 2**32, 2**63, LARGEST_NUMBER - 1, LARGEST_NUMBER):
            for value in (c, c - 1, c + 1, 0, LARGEST_NUMBER):
                if 0 <= value <= LARGEST_NUMBER:
                    yield case_on(declaring([stopper(1, c)]), {1: value})


def sets_to_the_edge():
    """Set and copy: 0, 2^64 - 1 and a constant of eight different bytes."""
    for number in (0, 1, 2**32, 2**63, LARGEST_NUMBER, 0x0123456789ABCDEF):
        yield case_on(declaring([set_(1, number)]), {})
        yield case_on(declaring([copy(1, 2)]), {2: number})


# Aborts ---------------------------------------------------------------------

def aborts_at_each_action():
    """Take or floor at each of four actions, after and before writes: at its limit and past it."""
    writers = [set_(1, 7), add(2, 7), copy(3, 4), move(1, 2)]
    for k in range(4):
        for first in range(4):
            for stopper in STOPPERS:
                for c in (TENS[4], TENS[4] + 1):
                    actions = writers[first:] + writers[:first]
                    actions[k] = stopper(4, c)
                    yield case_on(transaction((1, 2, 3, 4), (1, 2, 3, 4), actions), TENS)


def aborts_by_own_writes():
    """Take or floor of what an earlier action left in the record: at its limit and past it."""
    left_in_1 = [(set_(1, 5), 5), (add(1, 5), 15), (take(1, 5), 5), (copy(1, 2), 20), (copy(1, 1), 10),
                 (move(1, 2), 30), (move(2, 1), 0), (move(1, 1), 0), (add(1, LARGEST_NUMBER), 9)]
    for writer, left in left_in_1:
        for stopper in STOPPERS:
            for c in (left, left + 1):
                yield run(writer, stopper(1, c))


def aborts_with_each_number_of_writes():
    """An aborted transaction carries every declared write, reached or not, and no more."""
    for count in range(5):
        writes = (1, 2, 3, 4)[:count]
        yield case_on(transaction((4,), writes, [floor(4, 41)]), TENS)
        actions = [set_(record, 7) for record in writes[:3]] + [floor(4, 41)]
        yield case_on(transaction((4,), writes, actions), TENS)


def two_that_may_abort():
    """Two takes or floors of one record: both pass, the first aborts, the second aborts."""
    for first in STOPPERS:
        for second in STOPPERS:
            for c in (4, 11):
                for d in (4, 8):
                    yield run(set_(2, 7), first(1, c), set_(3, 8), second(1, d))


# Reads of own writes --------------------------------------------------------

def reads_of_own_writes():
    """Every two actions on two records, the second reading a record that the first wrote."""
    possible = possible_actions((1, 2), (1, 2))
    for first in possible:
        for second in possible:
            written = {getattr(first, field) for field in kind_of(first).writes}
            read = {getattr(second, field) for field in kind_of(second).reads}
            if written & read:
                yield run(action_of(first.kind, first.r, first.s, 7),
                          action_of(second.kind, second.r, second.s, 12))


def chains_of_own_writes():
    """Three and four actions, each seeing what the earlier ones wrote."""
    yield run(set_(1, 5), add(1, 6), take(1, 7), floor(1, 4))
    yield run(set_(1, 5), add(1, 6), take(1, 7), floor(1, 5))
    yield run(add(1, 5), copy(2, 1), add(2, 1), copy(3, 2))
    yield run(add(1, 5), copy(2, 1), move(2, 1), take(2, 30))
    yield run(move(1, 2), take(2, 1))
    yield run(move(1, 2), take(1, 30), take(1, 0), floor(1, 0))
    yield run(move(1, 2), move(2, 3), move(3, 4), move(4, 1))
    yield run(move(1, 2), move(3, 1), move(4, 3))
    yield run(move(1, 2), move(1, 2), move(2, 1), move(2, 1))
    yield run(copy(1, 2), copy(2, 1), copy(3, 1), copy(4, 3))
    yield run(copy(3, 1), copy(1, 2), copy(2, 3))                # 1 and 2 change places
    yield run(set_(1, 5), set_(1, 6), set_(1, 7), set_(1, 8))
    yield run(set_(1, 5), copy(2, 1), set_(1, 6), copy(3, 1))
    yield run(take(1, 4), take(1, 4), take(1, 2))
    yield run(take(1, 4), take(1, 4), take(1, 3))
    yield run(take(1, 10), add(1, LARGEST_NUMBER), add(1, 1), floor(1, 1))
    yield run(floor(1, 10), take(1, 1), floor(1, 10))
    yield run(floor(1, 10), take(1, 1), floor(1, 9), set_(2, 3))


# Carried writes -------------------------------------------------------------

def writes_with_no_action():
    """No to four declared writes, all carried: no action or a floor alone, read as well or not."""
    for count in range(5):
        writes = (1, 2, 3, 4)[:count]
        for reads in ((), (1,), (1, 2, 3, 4)):
            yield case_on(transaction(reads, writes, ()), TENS)
            if reads:
                yield case_on(transaction(reads, writes, [floor(1, 10)]), TENS)


def some_writes_reached():
    """Each choice among four declared writes is reached, upwards and downwards; the others are carried."""
    for choice in range(16):
        reached = [record for record in (1, 2, 3, 4) if choice >> (record - 1) & 1]
        sets = [set_(record, 100 + record) for record in reached]
        adds = [add(record, 100) for record in reversed(reached)]
        yield case_on(transaction((), (1, 2, 3, 4), sets), TENS)
        yield case_on(transaction((1, 2, 3, 4), (1, 2, 3, 4), adds), TENS)


def reached_with_0():
    """A write reached with contents 0 is not carried; nor one left as it was."""
    yield run(set_(1, 0))
    yield run(take(1, 10))
    yield run(add(1, 0))
    yield run(take(1, 0))
    yield case_on(transaction((1, 2), (1, 2, 3), [move(1, 2)]), TENS)
    yield case_on(transaction((1, 2), (1, 2, 3), [copy(2, 1)]), {1: 0, 2: 0})
    yield case_on(transaction((1,), (1, 2, 3), [set_(1, 5), move(1, 1)]), TENS)


# One record as r and s ------------------------------------------------------

def moves_onto_itself():
    """Move onto itself leaves 0: alone, after and before other writes to it."""
    for number in (0, 1, 10, 2**63, LARGEST_NUMBER):
        yield case_on(declaring([move(1, 1)]), {1: number})
    for other in (set_(1, 5), add(1, 5), take(1, 5), copy(1, 2), move(1, 2), move(2, 1), move(1, 1)):
        yield run(other, move(1, 1))
        yield run(move(1, 1), other)
        yield run(add(1, 3), other, move(1, 1), add(1, 4))


def copies_onto_itself():
    """Copy onto itself reaches the record and leaves it: alone, after and before other writes to it."""
    for number in (0, 1, 10, 2**63, LARGEST_NUMBER):
        yield case_on(declaring([copy(1, 1)]), {1: number})
        yield case_on(transaction((1,), (1, 2), [copy(1, 1)]), {1: number})
    for other in (set_(1, 5), add(1, 5), take(1, 5), copy(1, 2), move(1, 2), move(2, 1), move(1, 1)):
        yield run(other, copy(1, 1))
        yield run(copy(1, 1), other)


# The sets -------------------------------------------------------------------

def empty_transactions():
    """The empty transaction, and reads with no action."""
    for past in (0, 1, LARGEST_NUMBER):
        yield case_on(ZERO_MEANING, {}, past)
        for count in range(1, 5):
            yield case_on(transaction((1, 2, 3, 4)[:count], (), ()), TENS, past)


def reads_that_are_not_writes():
    """Records only read: copied from, held to a floor, or not used."""
    yield case_on(transaction((1, 2), (3, 4), [copy(3, 1), copy(4, 2)]), TENS)
    yield case_on(transaction((3, 4), (1, 2), [copy(2, 3), copy(1, 4)]), TENS)
    yield case_on(transaction((1, 3), (2, 4), [copy(2, 3), copy(4, 1), copy(2, 1)]), TENS)
    yield case_on(transaction((1, 2, 3, 4), (2,), [copy(2, 4), add(2, 5), floor(3, 30)]), TENS)
    yield case_on(transaction((1, 2, 3, 4), (4,), [add(4, 5)]), TENS)
    yield case_on(transaction((1, 2, 3, 4), (3,), [copy(3, 1), take(3, 11)]), TENS)
    for record in (1, 2, 3, 4):
        for c in (TENS[record], TENS[record] + 1):
            yield case_on(transaction((1, 2, 3, 4), (), [floor(record, c)]), TENS)


def writes_that_are_not_reads():
    """Records only written: set and copied to, once and again."""
    yield case_on(transaction((), (1, 2), [set_(2, 5)]), TENS)
    yield case_on(transaction((), (1, 2), [set_(2, 5), set_(1, 6), set_(2, 7)]), TENS)
    yield case_on(transaction((4,), (1, 2, 3), [copy(3, 4), set_(1, 6)]), TENS)
    yield case_on(transaction((4,), (1, 2, 3), [set_(3, 6), copy(3, 4), copy(1, 4), set_(1, 8)]), TENS)
    yield case_on(transaction((4,), (1, 2, 4), [add(4, 1), copy(1, 4), take(4, 2), copy(2, 4)]), TENS)
    yield case_on(transaction((4,), (1, 2), [set_(1, 6), copy(2, 4), floor(4, 41)]), TENS)


def four_around(record, place, distance):
    """Four ascending records with this one at this place."""
    return tuple(record + distance * (k - place) for k in range(4))


def places_that_differ():
    """One record at each read place and each write place, the other records all different."""
    for read_place in range(4):
        for write_place in range(4):
            reads, writes = four_around(500, read_place, 7), four_around(500, write_place, 11)
            contents = {record: 1000 + record for record in reads}
            yield case_on(transaction(reads, writes, [add(500, 5)]), contents)
            yield case_on(transaction(reads, writes, [take(500, 1), floor(500, 1499)]), contents)


def records_0_and_1023():
    """Each kind on the first and the last record, alone and among four."""
    contents = {0: 10, 1: 20, 1022: 30, 1023: 40}
    ends = (0, 1, 1022, 1023)
    for name in KIND_NAMES:
        for r, s in ((0, 1023), (1023, 0), (0, 0), (1023, 1023)):
            action = action_of(name, r, s, 15)
            yield case_on(declaring([action]), contents)
            yield case_on(transaction(ends, ends, [action]), contents)


def values_past_the_read_count():
    """Values past the read count are never looked at; record 0 is also in the zeros past the counts."""
    contents = {0: 10, 1: 20, 2: 30, 3: 40}
    for past in (1, LARGEST_NUMBER):
        for action in (set_(0, 5), add(0, 5), take(0, 5), take(0, 11), copy(0, 0), move(0, 0),
                       floor(0, 10), floor(0, 11)):
            for records in ((0,), (0, 1, 2)):
                yield case_on(transaction(records, records, [action]), contents, past)
        yield case_on(transaction((), (0, 1), [set_(0, 5)]), contents, past)
        yield case_on(transaction((1,), (0, 1, 2), [copy(0, 1), move(1, 1)]), contents, past)


# At random, from a fixed seed -----------------------------------------------

# Few numbers, so that one is often just below, at or just above another.
SMALL_NUMBERS = (0, 1, 2, 3, 4, 5)
EDGE_NUMBERS = (0, 1, 2, 2**63, LARGEST_NUMBER - 1, LARGEST_NUMBER)


def random_action(chance, possible, numbers):
    """One of these actions, its kind chosen first; at least every third may abort, if any can."""
    names = sorted({action.kind for action in possible})
    may_abort = [name for name in names if name in ("take", "floor")]
    name = chance.choice(may_abort if may_abort and chance.random() < 0.33 else names)
    action = chance.choice([action for action in possible if action.kind == name])
    return action_of(name, action.r, action.s, chance.choice(numbers))


def random_transaction(chance, records, numbers):
    """A proper transaction on some of these records, with constants among these numbers."""
    def some_records():
        return tuple(sorted(chance.sample(records, min(len(records), chance.choice((0, 1, 2, 3, 4, 4))))))

    reads, writes = some_records(), some_records()
    possible = possible_actions(reads, writes)
    count = chance.choice((0, 1, 2, 3, 4, 4)) if possible else 0
    return transaction(reads, writes, [random_action(chance, possible, numbers) for _ in range(count)])


def random_cases():
    """Proper transactions at random, four values each, also past the read count."""
    chance = random.Random(103)
    for numbers in (SMALL_NUMBERS, EDGE_NUMBERS):
        for _ in range(90):
            records = [0, 1023] + chance.sample(range(1, 1023), chance.randint(1, 3))
            meaning = random_transaction(chance, records, numbers)
            yield Case(meaning, tuple(chance.choice(numbers) for _ in range(4)))


GENERATORS = (
    each_kind_alone, sums_around_2_64, sums_that_wrap_again, take_and_floor_at_the_edge,
    sets_to_the_edge,
    aborts_at_each_action, aborts_by_own_writes, aborts_with_each_number_of_writes,
    two_that_may_abort,
    reads_of_own_writes, chains_of_own_writes,
    writes_with_no_action, some_writes_reached, reached_with_0,
    moves_onto_itself, copies_onto_itself,
    empty_transactions, reads_that_are_not_writes, writes_that_are_not_reads,
    places_that_differ, records_0_and_1023, values_past_the_read_count,
    random_cases,
)


def all_cases():
    return every_case(GENERATORS)


if __name__ == "__main__":
    write_files(*sys.argv[1:], all_cases(), case_record, answer)
