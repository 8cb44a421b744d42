"""Makes whole cases of the program and the output they must give.

Usage: python3 reference/cases_desk.py DATA_FILE STDOUT_FILE

A case is the bytes of records.bin, log.bin and steps.bin. Each function below
whose name is in GENERATORS yields cases; its first line says what it covers.
The same cases come out at every run. The README says the form of the two
files. At the end a table goes to stderr: how many cases end how.
"""

import random
import sys
from collections import Counter

from case_files import LARGEST_NUMBER, every_case, transaction
from cases_decide import EDGE_NUMBERS, SMALL_NUMBERS, add, copy, random_transaction, set_, take
from cases_packed import LAYOUTS, N
from desk_files import Case, data_file, output, stdout_file
from desk_schedules import any_bytes, any_step, backwards, forwards, in_any_order, nearby, schedule
from engine_moments import adder, carrier, log_of, reader, tens, writer
from program import (ADVANCE, CLAIM, FIRST_POSITION, PARTITIONS, PLACE, SEAL, WORKERS, opening, read_records,
                     record_bytes, step_bytes)

LISTING_LOG = log_of([adder(0), transaction((0,), (1,), [copy(1, 0)]),
                      transaction((1,), (1, 2), [take(1, 100)]), writer(0)])
LISTING_STEPS = b"".join(step_bytes(*step) for step in (
    [(PLACE, 0)] * 4 + [(PLACE, 1)] * 4
    + [(CLAIM, 0, 3)] + [(ADVANCE, 0)] * 2 + [(CLAIM, 1, 1), (ADVANCE, 1)]
    + [(CLAIM, 0, 0)] + [(ADVANCE, 0)] * 3 + [(CLAIM, 1, 1)] + [(ADVANCE, 1)] * 3
    + [(CLAIM, 0, 2)] + [(ADVANCE, 0)] * 6 + [(SEAL,)]))
TENS = record_bytes(tens(4))
N_TENS = record_bytes(tens(N))       # for the layouts of faults
THE_LISTING = Case(TENS, LISTING_LOG, LISTING_STEPS)


# The listing, and openings that are refused ---------------------------------

def the_listing():
    """Document 01's listing, and its steps cut off at every byte of the first and last ones."""
    yield THE_LISTING
    for length in [*range(9), 30, 51, 52, 53, *range(108, 116)]:
        yield Case(TENS, LISTING_LOG, LISTING_STEPS[:length])


def missing_files():
    """Each choice of files that are missing or empty."""
    for choice in range(8):
        files = (TENS, LISTING_LOG, LISTING_STEPS)
        yield Case(*(file if choice >> k & 1 else b"" for k, file in enumerate(files)))


def lengths_of_records():
    """1: records.bin of lengths that give a proper N and of others."""
    for length in (1, 4, 7, 8, 9, 12, 15, 16, 23, 31, 33, 8 * 1023 + 4, 8 * 1024 - 1, 8 * 1024,
                   8 * 1024 + 1, 8 * 1024 + 7, 8 * 1025, 65_536):
        yield Case(bytes(length), bytes(88), step_bytes(PLACE))
        if length < 40:
            yield Case(bytes(length), bytes(87), b"")


def lengths_of_the_log():
    """2: log.bin of lengths that open and of others."""
    for length in (1, 44, 86, 87, 88, 89, 175, 176, 177, 264, 5543, 5544, 5545, 5631, 5632, 5633, 5719,
                   5720, 5721, 22_528, 23_232):
        yield Case(bytes(8), bytes(length), step_bytes(PLACE) + step_bytes(SEAL))


def faulty_transactions():
    """4 to 8: an entry with this fault alone or with higher ones too, first, in between and last."""
    faults = (4, 5, 6, 7, 8)
    for k, layout in enumerate(LAYOUTS):
        for first in range(5):
            for chosen in (faults[first : first + 1], faults[first:]):
                entry, good = layout(chosen), layout(())
                yield Case(N_TENS, entry, step_bytes(PLACE))
                yield Case(N_TENS, good * (k + 1) + entry + good, step_bytes(SEAL))


def several_faulty_transactions():
    """The first faulty transaction decides, though a later one has a lower number; 1 and 2 come before."""
    layout = LAYOUTS[0]
    entries = {fault: layout((fault,)) for fault in (4, 5, 6, 7, 8)}
    for first in entries:
        for second in entries:
            if first != second:
                yield Case(N_TENS, bytes(88) + entries[first] + entries[second], b"")
        yield Case(N_TENS, entries[first] + b"\0", LISTING_STEPS)
        yield Case(N_TENS + b"\0", entries[first], LISTING_STEPS)


def bytes_changed_at_random():
    """The listing's log with one byte changed: refused, or another batch."""
    chance = random.Random(88)
    for _ in range(40):
        log = bytearray(LISTING_LOG)
        at = chance.choice((chance.randrange(352), 88 * chance.randrange(4) + chance.randrange(32)))
        log[at] = chance.choice((0, 1, 2, 3, 4, 5, 6, 7, 255))
        yield Case(TENS, bytes(log), LISTING_STEPS)


# Sealed in many orders ------------------------------------------------------

def steps_for(chance, files, order, senseless=0.0):
    """Steps that seal the batch of these records and this log."""
    records, log = files
    run = opening(read_records(records), log, PARTITIONS, WORKERS, FIRST_POSITION)
    return schedule(chance, run, order, senseless)


def random_batch(chance, record_count, n, numbers):
    """Files of records and log at random."""
    records = [chance.choice(numbers) for _ in range(record_count)]
    log = [random_transaction(chance, range(record_count), numbers) for _ in range(n)]
    return record_bytes(records), log_of(log)


def sealed_in_many_orders():
    """Random batches of each small size, worked off forwards, backwards, nearby and in any order."""
    chance = random.Random(1)
    for n in (1, 2, 3, 4, 5, 6, 8, 10, 12, 16, 20, 24, 32, 48):
        for order in (forwards, backwards, nearby, in_any_order):
            numbers = chance.choice((SMALL_NUMBERS, EDGE_NUMBERS))
            files = random_batch(chance, chance.choice((1, 2, 3, 5, 8, 20)), n, numbers)
            yield Case(*files, steps_for(chance, files, order, senseless=chance.choice((0, 0.1))))


def batches_of_64():
    """64 transactions on few and on many records, in each order."""
    chance = random.Random(64)
    for record_count in (1, 6, 64):
        for order in (forwards, nearby, nearby, in_any_order):
            files = random_batch(chance, record_count, 64, SMALL_NUMBERS)
            yield Case(*files, steps_for(chance, files, order, senseless=0.02))
    yield Case(record_bytes([1]), bytes(5632), steps_for(chance, (record_bytes([1]), bytes(5632)), backwards))


def chains_of_one_record():
    """Every transaction reads or carries what the one before writes; claimed backwards they wait."""
    chance = random.Random(7)
    for one in (adder(0), carrier(0), transaction((), (0,), ()), transaction((0,), (0,), [take(0, 4)])):
        for n in (2, 5, 9):
            files = (record_bytes([chance.choice((10, LARGEST_NUMBER))]), log_of([one] * n))
            yield Case(*files, steps_for(chance, files, backwards))


def stores_of_1024():
    """N = 1,024: the last records read and written, sealed and not."""
    chance = random.Random(1024)
    ends = (0, 1, 1022, 1023)
    log = log_of([carrier(*ends), transaction(ends, ends, [add(1023, 5), copy(0, 1022)]), writer(1023),
                  reader(*ends), transaction((), (512, 1023), [set_(512, LARGEST_NUMBER)])])
    for numbers in ([1000 + record for record in range(1024)], [LARGEST_NUMBER] * 1024):
        files = (record_bytes(numbers), log)
        yield Case(*files, steps_for(chance, files, in_any_order))
    files = random_batch(chance, 1024, 12, EDGE_NUMBERS)
    yield Case(*files, steps_for(chance, files, nearby))
    yield Case(*files, b"")


def stores_of_one_record():
    """N = 1: each number of transactions from 1 to 8."""
    chance = random.Random(11)
    for n in range(1, 9):
        files = random_batch(chance, 1, n, EDGE_NUMBERS)
        yield Case(*files, steps_for(chance, files, in_any_order, senseless=0.1))


# Not sealed, and steps that are refused -------------------------------------

def never_sealed():
    """A run cut off somewhere, with the seal offered there and not; the seal alone left out."""
    chance = random.Random(9)
    for n in (1, 2, 3, 5, 8, 13):
        files = random_batch(chance, 4, n, SMALL_NUMBERS)
        steps = steps_for(chance, files, nearby)
        for end in (step_bytes(SEAL), b""):
            yield Case(*files, steps[: 4 * chance.randrange(len(steps) // 4)] + end)
            yield Case(*files, steps[:-4] + end * 2)


def steps_after_the_seal():
    """Every kind of step after an accepted seal, another seal, the whole run again."""
    more = [step_bytes(kind, party, i) for kind in (PLACE, CLAIM, ADVANCE, SEAL, 0)
            for party in (0, 1, 2) for i in (0, 1)]
    yield Case(TENS, LISTING_LOG, LISTING_STEPS + b"".join(more))
    yield Case(TENS, LISTING_LOG, LISTING_STEPS * 3)
    for step in (*more, step_bytes(7, 7, 7)):
        yield Case(TENS, LISTING_LOG, LISTING_STEPS + step)


def one_step_put_in(step, at):
    """The listing with another step before its step number `at`."""
    return Case(TENS, LISTING_LOG, LISTING_STEPS[: 4 * at] + step + LISTING_STEPS[4 * at :])


def transactions_where_none_belongs():
    """Place, advance and seal with a nonzero transaction, in place of the proper step and before it."""
    for at, kind, party in ((0, PLACE, 0), (4, PLACE, 1), (9, ADVANCE, 0), (20, ADVANCE, 1), (28, SEAL, 0)):
        for i in (1, 3, 255, 256, 65_535):
            step = step_bytes(kind, party, i)
            yield Case(TENS, LISTING_LOG, LISTING_STEPS[: 4 * at] + step + LISTING_STEPS[4 * at + 4 :])
            yield one_step_put_in(step, at)


def other_kinds_and_parties():
    """Steps of kinds that there are not, parties that there are not, any party of a seal."""
    for kind in (0, 5, 6, 127, 128, 255):
        yield one_step_put_in(step_bytes(kind, 0, 0), 3)
        yield one_step_put_in(step_bytes(kind, 1, 2), 13)
    for party in (2, 3, 8, 128, 255):
        for at, kind, i in ((2, PLACE, 0), (8, CLAIM, 3), (9, ADVANCE, 0)):
            yield one_step_put_in(step_bytes(kind, party, i), at)
        yield Case(TENS, LISTING_LOG, LISTING_STEPS[:-4] + step_bytes(SEAL, party))


def claims_of_other_transactions():
    """Claims of transactions that there are not, of busy ones, by busy workers and of complete ones."""
    for i in (1, 3, 4, 63, 64, 255, 256, 259, 768, 65_535):
        for at in (8, 10, 14, 27, 28):
            yield one_step_put_in(step_bytes(CLAIM, 1, i), at)


def garbage_steps():
    """Steps of random bytes: any, and mostly small ones; also between those of a sealed run."""
    chance = random.Random(404)
    for length in (1, 4, 40, 401, 2003):
        yield Case(TENS, LISTING_LOG, any_bytes(chance, length))
        yield Case(TENS, LISTING_LOG, b"".join(any_step(chance) for _ in range(length)))
    for n in (1, 3, 9):
        files = random_batch(chance, 5, n, SMALL_NUMBERS)
        for senseless in (0.3, 0.6, 0.8):
            yield Case(*files, steps_for(chance, files, nearby, senseless) + any_bytes(chance, 11))


def short_last_steps():
    """One, two and three bytes after the last whole step, which would seal or not."""
    for rest in (b"\4", b"\4\0", b"\4\0\0", b"\3\1\0", b"\xff\xff\xff"):
        yield Case(TENS, LISTING_LOG, LISTING_STEPS + rest)
        yield Case(TENS, LISTING_LOG, LISTING_STEPS[:-4] + rest)


def long_files_of_steps():
    """The listing's steps after and between so many that are refused that the file is read in pieces."""
    refused = step_bytes(0)
    yield Case(TENS, LISTING_LOG, refused * 1015 + LISTING_STEPS)
    yield Case(TENS, LISTING_LOG, refused * 16_370 + LISTING_STEPS + refused + b"\4")
    yield Case(TENS, LISTING_LOG, b"".join(step_bytes(9) * 160 + LISTING_STEPS[at : at + 4]
                                           for at in range(0, len(LISTING_STEPS), 4)))
    yield Case(TENS, LISTING_LOG, LISTING_STEPS[:-4] + refused * 20_000)


GENERATORS = (
    the_listing, missing_files, lengths_of_records, lengths_of_the_log, faulty_transactions,
    several_faulty_transactions, bytes_changed_at_random,
    sealed_in_many_orders, batches_of_64, chains_of_one_record, stores_of_1024, stores_of_one_record,
    never_sealed, steps_after_the_seal, transactions_where_none_belongs, other_kinds_and_parties,
    claims_of_other_transactions, garbage_steps, short_last_steps, long_files_of_steps,
)


def all_cases():
    return every_case(GENERATORS)


def ending(text):
    """How a case ends: sealed, not sealed, or refused and its number."""
    return "sealed" if text.startswith("tx") else text.splitlines()[0]


def main(data_name, stdout_name):
    outputs = [output(case) for case in all_cases()]
    with open(data_name, "wb") as file:
        file.write(data_file(all_cases()))
    with open(stdout_name, "w", encoding="ascii", newline="\n") as file:
        file.write(stdout_file(outputs))
    for how, count in sorted(Counter(map(ending, outputs)).items()):
        print(f"{how:12} {count:5}", file=sys.stderr)


if __name__ == "__main__":
    main(*sys.argv[1:])
