"""Tests of the program's output. Run: python3 -m unittest discover reference"""

import os
import random
import subprocess
import sys
import tempfile
import unittest

import program
from case_files import transaction
from cases_decide import SMALL_NUMBERS, add, random_transaction
from counters import one_by_one
from engine_moments import adder, log_of, reader, tens, writer
from packed import encode
from program import ADVANCE, CLAIM, PLACE, SEAL, printed, record_bytes, run_batch, step_bytes
from test_counters import LISTING
from test_packed import FAULTY

# The listing's files byte by byte, and its output as document 01 has it.
LISTING_RECORDS = bytes.fromhex("0a00000000000000 1400000000000000 1e00000000000000 2800000000000000")
LISTING_STEPS = bytes.fromhex(
    "01000000 01000000 01000000 01000000  01010000 01010000 01010000 01010000"
    "02000300 03000000 03000000  02010100 03010000"
    "02000000 03000000 03000000 03000000  02010100 03010000 03010000 03010000"
    "02000200 03000000 03000000 03000000 03000000 03000000 03000000  04000000")
LISTING_OUTPUT = """\
tx 1 committed 10
tx 2 committed 15
tx 3 aborted 15
tx 4 committed
rec 0 7
rec 1 15
rec 2 30
rec 3 40
steps 29 refused 0 waits 1
"""
LISTING_FILES = (LISTING_RECORDS, log_of(LISTING), LISTING_STEPS)

# One transaction that adds 5 to record 0, placed and completed by worker 0.
ONE_LOG = log_of([adder(0)])
ONE_RUN = [(PLACE, 0), (PLACE, 1), (CLAIM, 0, 0)] + [(ADVANCE, 0)] * 3
ONE_SEALED = "tx 1 committed 10\nrec 0 15\nrec 1 20\nrec 2 30\nrec 3 40\n"


def steps_of(steps):
    return b"".join(step_bytes(*step) for step in steps)


def one(steps, more=b""):
    """The output for the one transaction and these steps."""
    return printed(record_bytes(tens(4)), ONE_LOG, steps_of(steps) + more)


class Listing(unittest.TestCase):
    def test_listing(self):
        self.assertEqual(printed(*LISTING_FILES), LISTING_OUTPUT)

    def test_listing_from_a_folder(self):
        with tempfile.TemporaryDirectory() as folder:
            for name, data in zip(program.FILES, LISTING_FILES):
                with open(os.path.join(folder, name), "wb") as file:
                    file.write(data)
            got = subprocess.run([sys.executable, program.__file__, folder], check=True,
                                 stdout=subprocess.PIPE).stdout
        self.assertEqual(got, LISTING_OUTPUT.encode("ascii"))

    def test_every_shorter_listing_is_not_sealed(self):
        for length in range(len(LISTING_STEPS)):
            got = printed(*LISTING_FILES[:2], LISTING_STEPS[:length])
            steps, waits = length // 4, int(length >= 52)
            self.assertEqual(got, f"not sealed\nsteps {steps} refused 0 waits {waits}\n")

    def test_missing_files(self):
        with tempfile.TemporaryDirectory() as folder:
            for name in program.FILES:
                self.assertEqual(program.file_bytes(folder, name), b"")
        self.assertEqual(printed(b"", b"", b""), "refused 1\n")
        self.assertEqual(printed(LISTING_RECORDS, b"", LISTING_STEPS), "refused 2\n")
        self.assertEqual(printed(*LISTING_FILES[:2], b""), "not sealed\nsteps 0 refused 0 waits 0\n")


class Openings(unittest.TestCase):
    def test_lengths_of_records(self):
        for length in (0, 1, 7, 9, 15, 8 * 1024 - 1, 8 * 1024 + 1, 8 * 1025, 2**19 + 8):
            self.assertEqual(printed(bytes(length), bytes(88), b""), "refused 1\n")
        for length in (8, 16, 8 * 1024):
            self.assertEqual(printed(bytes(length), bytes(88), b"").splitlines()[0], "not sealed")

    def test_lengths_of_the_log(self):
        for length in (0, 1, 87, 89, 5631, 5633, 5720, 88 * 65_537):
            self.assertEqual(printed(bytes(8), bytes(length), b""), "refused 2\n")
        for length in (88, 5632):
            self.assertEqual(printed(bytes(8), bytes(length), b"").splitlines()[0], "not sealed")

    def test_faulty_transactions(self):
        for refusal, entry in FAULTY.items():
            for log in (entry, ONE_LOG + entry, bytes(5632 - 88) + entry):
                self.assertEqual(printed(bytes(32), log, LISTING_STEPS), f"refused {refusal}\n")

    def test_order_of_checks(self):
        every = b"".join(FAULTY.values())
        self.assertEqual(printed(bytes(33), every + b"x", b""), "refused 1\n")
        self.assertEqual(printed(b"", b"", b""), "refused 1\n")
        self.assertEqual(printed(bytes(32), every + b"x", b""), "refused 2\n")
        self.assertEqual(printed(bytes(32), every * 13, b""), "refused 2\n")
        # "each transaction in turn 4 to 8": the first faulty one decides, whatever its number
        self.assertEqual(printed(bytes(32), every, b""), "refused 4\n")
        self.assertEqual(printed(bytes(32), FAULTY[8] + every, b""), "refused 8\n")

    def test_the_last_positions(self):
        # The program begins at 1; elsewhere "F + n above 2^64 - 1" is refused by 3.
        two = log_of([adder(0), reader(0)])
        self.assertEqual(run_batch([10], two, b"", 1, 1, 2**64 - 2).refused, 3)
        self.assertEqual(run_batch([10], two, b"", 1, 1, 2**64 - 3).refused, 0)
        self.assertEqual(run_batch([10], FAULTY[4] * 2, b"", 1, 1, 2**64 - 2).refused, 3)
        self.assertEqual(run_batch([10], two, b"", 9, 1, 1).refused, 1)


class Steps(unittest.TestCase):
    def test_sealed(self):
        self.assertEqual(one(ONE_RUN + [(SEAL,)]), ONE_SEALED + "steps 7 refused 0 waits 0\n")

    def test_not_sealed(self):
        self.assertEqual(one(ONE_RUN), "not sealed\nsteps 6 refused 0 waits 0\n")
        self.assertEqual(one([(SEAL,)] + ONE_RUN), "not sealed\nsteps 7 refused 1 waits 0\n")

    def test_steps_after_the_seal_are_refused_and_counted(self):
        more = [(SEAL,), (PLACE, 0), (CLAIM, 0, 0), (ADVANCE, 0), (9, 0)]
        self.assertEqual(one(ONE_RUN + [(SEAL,)] + more), ONE_SEALED + "steps 12 refused 5 waits 0\n")

    def test_other_kinds(self):
        for kind in (0, 5, 6, 128, 255):
            self.assertEqual(one(ONE_RUN + [(kind, 0), (SEAL,)]),
                             ONE_SEALED + "steps 8 refused 1 waits 0\n")

    def test_a_transaction_where_none_belongs(self):
        for transaction_number in (1, 255, 256, 65_535):
            for k, step in enumerate(ONE_RUN + [(SEAL, 0)]):
                if step[0] != CLAIM:
                    self.assertEqual(one(ONE_RUN[:k] + [(*step, transaction_number)]),
                                     f"not sealed\nsteps {k + 1} refused 1 waits 0\n")

    def test_both_bytes_of_a_claimed_transaction_are_read(self):
        for transaction_number in (1, 256, 65_280):
            self.assertEqual(one(ONE_RUN[:2] + [(CLAIM, 0, transaction_number)]),
                             "not sealed\nsteps 3 refused 1 waits 0\n")

    def test_the_party_of_a_seal_is_not_read(self):
        for party in (1, 2, 255):
            self.assertEqual(one(ONE_RUN + [(SEAL, party)]), ONE_SEALED + "steps 7 refused 0 waits 0\n")

    def test_there_are_two_of_each_party(self):
        steps = [(PLACE, 2), (PLACE, 255), *ONE_RUN, (ADVANCE, 2), (CLAIM, 2, 0), (SEAL,)]
        self.assertEqual(one(steps), ONE_SEALED + "steps 11 refused 4 waits 0\n")

    def test_a_short_last_step_is_dropped(self):
        for length in (1, 2, 3):
            self.assertEqual(one(ONE_RUN + [(SEAL,)], bytes([SEAL, 0, 0])[:length]),
                             ONE_SEALED + "steps 7 refused 0 waits 0\n")
            self.assertEqual(one(ONE_RUN, bytes([SEAL, 0, 0])[:length]),
                             "not sealed\nsteps 6 refused 0 waits 0\n")

    def test_waits_are_counted_each_time(self):
        log = log_of([writer(0), reader(0)])
        plan = [(PLACE, p) for p in (0, 1)] * 2
        steps = plan + [(CLAIM, 0, 1), (ADVANCE, 0)] * 3
        self.assertEqual(printed(record_bytes([10]), log, steps_of(steps)),
                         "not sealed\nsteps 10 refused 0 waits 3\n")

    def test_values_that_are_zero_are_printed(self):
        log = log_of([reader(0, 1, 2, 3), transaction((), (), ()), transaction((0,), (0,), [add(0, 0)])])
        steps = [(PLACE, 0)] * 3 + [(PLACE, 1)] * 3
        for i in range(3):
            steps += [(CLAIM, 1, i)] + [(ADVANCE, 1)] * (5, 1, 3)[i]
        self.assertEqual(printed(bytes(32), log, steps_of(steps + [(SEAL,)])).splitlines()[:4],
                         ["tx 1 committed 0 0 0 0", "tx 2 committed", "tx 3 committed 0", "rec 0 0"])


def in_log_order(log):
    """Steps that place all and let worker 0 take each transaction to its end; 13 advances suffice."""
    size = len(log) // 88
    steps = [(PLACE, p) for p in (0, 1)] * size
    for i in range(size):
        steps += [(CLAIM, 0, i)] + [(ADVANCE, 0)] * 13
    return steps_of(steps + [(SEAL,)])


class RandomBatches(unittest.TestCase):
    def test_sealed_batches_tell_the_one_by_one_run(self):
        chance = random.Random(3)
        for size in (1, 2, 5, 13, 64):
            records = [chance.choice(SMALL_NUMBERS) for _ in range(5)]
            batch = [random_transaction(chance, range(5), SMALL_NUMBERS) for _ in range(size)]
            log = b"".join(encode(each) for each in batch)
            outcomes, values, after = one_by_one(batch, records)
            expected = [" ".join(map(str, ["tx", i + 1, outcomes[i], *values[i]])) for i in range(size)]
            expected += [f"rec {record} {contents}" for record, contents in enumerate(after)]
            got = printed(record_bytes(records), log, in_log_order(log)).splitlines()
            self.assertEqual(got[:-1], expected)


if __name__ == "__main__":
    unittest.main()
