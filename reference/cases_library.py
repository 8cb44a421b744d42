"""Makes the cases of the C library and the lines they must give.

Usage: python3 reference/cases_library.py CASES_FILE STDOUT_FILE

Each function below whose name is in GENERATORS yields cases; its first line
says what it covers. The same cases come out at every run. The README says the
form of the two files.
"""

import random
import sys

from case_files import LARGEST_NUMBER, every_case, write_files
from cases_decide import EDGE_NUMBERS, SMALL_NUMBERS, random_transaction
from cases_desk import LISTING_LOG, LISTING_STEPS
from cases_packed import LAYOUTS, N, UNPACK, all_cases as packed_cases
from desk_schedules import any_bytes, any_step, backwards, forwards, in_any_order, nearby, schedule
from engine_moments import adder, log_of, tens
from library_files import Batch, Check, answer, case_record
from program import opening

ORDERS = (forwards, backwards, nearby, in_any_order)
ONE = log_of([adder(0)])


# One entry ------------------------------------------------------------------

def entries_of_every_sort():
    """The cases of unpacking: each refusal of one entry, the order of the checks, wrong lengths and N."""
    for case in packed_cases():
        if case.call == UNPACK:
            yield Check(case.n, case.lent)


def entries_of_other_lengths():
    """1 before 2 before 4 to 8, and lengths around 88."""
    bad = LAYOUTS[0]((4, 5, 6, 7, 8))
    for length in (0, 1, 87, 88, 89, 176):
        for records in (0, 1, N, 1024, 1025, 2**32, 2**32 + 10, LARGEST_NUMBER):
            yield Check(records, (bad * 2)[:length])


# Batches at random ----------------------------------------------------------

def first_positions(n):
    """Small ones, large ones and those with which the last position is the last there is."""
    return (1, 2, 255, 1000, 2**32 - 1, 2**63 - 2, 2**63, LARGEST_NUMBER - n - 1, LARGEST_NUMBER - n)


def random_case(chance, partitions, workers, n, order):
    """A batch that some steps of it bring to a seal, mostly; else they break off."""
    numbers = chance.choice((SMALL_NUMBERS, EDGE_NUMBERS))
    record_count = chance.choice((1, 2, 3, 5, 9, 30))
    records = tuple(chance.choice(numbers) for _ in range(record_count))
    log = log_of([random_transaction(chance, range(record_count), numbers) for _ in range(n)])
    first = chance.choice(first_positions(n))
    parties = (0, 1, partitions - 1, workers - 1, partitions, workers, 8, 255)
    steps = schedule(chance, opening(records, log, partitions, workers, first), order,
                     chance.choice((0, 0.05, 0.2)), parties)
    if chance.random() < 0.2:
        steps = steps[: chance.randrange(len(steps))]
    after = b"".join(any_step(chance, parties) for _ in range(chance.choice((0, 0, 3))))
    return Batch(partitions, workers, first, records, log, steps + after)


def every_number_of_parties():
    """Each P with each W, eight times: small batches in each order."""
    chance = random.Random(88)
    for partitions in range(1, 9):
        for workers in range(1, 9):
            for k in range(8):
                yield random_case(chance, partitions, workers, chance.choice((1, 2, 3, 4, 6)), ORDERS[k % 4])


def batches_of_64():
    """64 transactions, the fewest and the most parties."""
    chance = random.Random(64)
    for partitions, workers in ((1, 1), (1, 8), (8, 1), (8, 8), (3, 5)):
        for order in (forwards, nearby):
            yield random_case(chance, partitions, workers, 64, order)


def garbage_steps():
    """Steps of random bytes, mostly small ones, with any numbers of parties."""
    chance = random.Random(404)
    for length in (0, 1, 3, 4, 30, 400):
        for partitions, workers in ((1, 1), (2, 2), (8, 8)):
            for steps in (any_bytes(chance, length), b"".join(any_step(chance) for _ in range(length))):
                yield Batch(partitions, workers, 1, tens(4), LISTING_LOG, steps)


# Openings -------------------------------------------------------------------

def numbers_at_their_bounds():
    """1: record count, P, W and first position at, just inside and just outside their bounds."""
    for count in (0, 1, 2, 1023, 1024, 1025):
        yield Batch(2, 2, 1, (7,) * count, ONE, LISTING_STEPS)
    for parties in (0, 1, 8, 9, 16, 255, 256, 257, 2**32, 2**32 + 1, LARGEST_NUMBER):
        yield Batch(parties, 2, 1, tens(4), LISTING_LOG, LISTING_STEPS)
        yield Batch(2, parties, 1, tens(4), LISTING_LOG, LISTING_STEPS)
    for first in (0, 1, 2**32, LARGEST_NUMBER - 4, LARGEST_NUMBER - 3, LARGEST_NUMBER - 1, LARGEST_NUMBER):
        yield Batch(2, 2, first, tens(4), LISTING_LOG, LISTING_STEPS)


def lengths_of_the_log():
    """2: lengths that open and others."""
    for length in (0, 1, 87, 88, 89, 176, 5631, 5632, 5633, 5720, 22_528):
        yield Batch(1, 1, 1, (5,), bytes(length), b"\1\0\0\0")


def last_positions():
    """3: the last position that a batch of 1, 2 and 64 may begin at, and the next."""
    for n in (1, 2, 64):
        for first in (LARGEST_NUMBER - n - 1, LARGEST_NUMBER - n, LARGEST_NUMBER - n + 1, LARGEST_NUMBER):
            yield Batch(1, 1, first, (5,), bytes(88 * n), b"\1\0\0\0")


def faulty_transactions():
    """4 to 8, at the first and at a later transaction."""
    for layout in LAYOUTS:
        for fault in (4, 5, 6, 7, 8):
            for log in (layout((fault,)), layout(()) * 3 + layout((fault,))):
                yield Batch(3, 3, 9, tens(N), log, LISTING_STEPS)


def order_of_the_opening():
    """1 before 2 before 3 before 4 to 8; the first faulty transaction decides."""
    bad = LAYOUTS[1]((8,)) + LAYOUTS[1]((4,))
    for partitions in (2, 9):
        for rest in (b"", b"\0"):
            for first in (1, LARGEST_NUMBER):
                yield Batch(partitions, 2, first, tens(N), bad + rest, LISTING_STEPS)


GENERATORS = (
    entries_of_every_sort, entries_of_other_lengths,
    every_number_of_parties, batches_of_64, garbage_steps,
    numbers_at_their_bounds, lengths_of_the_log, last_positions, faulty_transactions, order_of_the_opening,
)


def all_cases():
    return every_case(GENERATORS)


if __name__ == "__main__":
    write_files(*sys.argv[1:], all_cases(), case_record, answer)
