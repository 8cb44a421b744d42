"""Tests of the cases of the C library. Run: python3 -m unittest discover reference"""

import inspect
import os
import subprocess
import sys
import tempfile
import unittest

import cases_library
from cases_desk import LISTING_LOG, LISTING_STEPS
from cases_library import all_cases
from counters import one_by_one
from engine_moments import tens
from library_files import Batch, Check, answer, case_record, run_of
from packed import decode, part, read_set
from test_program import LISTING_FILES

LISTING = Batch(2, 2, 1, tens(4), LISTING_LOG, LISTING_STEPS)


class Lines(unittest.TestCase):
    def test_listing(self):
        self.assertEqual((LISTING.log, LISTING.steps), LISTING_FILES[1:])
        self.assertEqual(answer(LISTING), "run 0\nrecords 7 15 30 40\nresults 0 10 4 15 8 15\n"
                                          "outcomes 0 1 1 1 2 2 3 1\ncounts 29 0 1 1")

    def test_a_batch_that_is_not_sealed(self):
        case = Batch(2, 2, 1, tens(4), LISTING_LOG, LISTING_STEPS[: 4 * 17])
        self.assertEqual(answer(case), "run 0\nrecords 10 20 30 40\nresults 0 10\noutcomes 0 1 3 1\ncounts 17 0 1 0")

    def test_refused(self):
        for case, number in ((Batch(9, 2, 1, tens(4), LISTING_LOG, b""), 1), (Batch(2, 2, 1, (), LISTING_LOG, b""), 1),
                             (Batch(2, 2, 1, tens(4), b"", b""), 2),
                             (Batch(2, 2, 2**64 - 4, tens(4), LISTING_LOG, b""), 3),
                             (Batch(2, 2, 1, tens(2), LISTING_LOG, b""), 5)):
            self.assertEqual(answer(case), f"run {number} all kept")
        self.assertEqual(answer(Check(4, bytes(88))), "check 0 at 0")
        self.assertEqual(answer(Check(0, bytes(87))), "check 1 at 0")
        self.assertEqual(answer(Check(4, bytes(87))), "check 2 at 0")
        self.assertEqual(answer(Check(4, bytes(87) + b"\1")), "check 4 at 0")

    def test_the_form_of_a_case(self):
        self.assertEqual(case_record(Check(4, b"\5\6")),
                         bytes.fromhex("0100000000000000 0400000000000000 0200000000000000 0506"))
        self.assertEqual(case_record(Batch(3, 4, 2**64 - 2, (9, 8), b"\5", b"\6\7")), bytes.fromhex(
            "0200000000000000 0300000000000000 0400000000000000 feffffffffffffff 0200000000000000"
            "0100000000000000 0200000000000000 0900000000000000 0800000000000000 05 0607"))


class Cases(unittest.TestCase):
    @classmethod
    def setUpClass(cls):
        cls.batches = [case for case in all_cases() if isinstance(case, Batch)]
        cls.runs = [run_of(case) for case in cls.batches]

    def test_no_generator_is_forgotten(self):
        own = {function for _, function in inspect.getmembers(cases_library, inspect.isgeneratorfunction)
               if function.__module__ == cases_library.__name__}
        self.assertEqual(own, set(cases_library.GENERATORS))

    def test_sealed_batches_are_the_one_by_one_run(self):
        for case, run in zip(self.batches, self.runs):
            if run.sealed:
                log = [decode(part(case.log, 0, 88, i)) for i in range(len(case.log) // 88)]
                outcomes, values, records = one_by_one(log, case.records)
                self.assertEqual([row.outcome for row in run.state.rows[: len(log)]], outcomes)
                self.assertEqual(list(run.tables.records), records)
                for i, transaction in enumerate(log):
                    results = run.tables.results[4 * i : 4 * i + len(read_set(transaction))]
                    self.assertEqual(list(results), values[i])

    def test_what_they_reach(self):
        opened = [case for case, run in zip(self.batches, self.runs) if not run.refused]
        parties = {(case.partitions, case.workers) for case in opened}
        self.assertEqual(parties, {(P, W) for P in range(1, 9) for W in range(1, 9)})
        self.assertGreaterEqual(len(opened), 500)
        last = [case for case in opened if case.first + len(case.log) // 88 == 2**64 - 1]
        self.assertGreaterEqual(len(last), 20)
        self.assertEqual({run.refused for run in self.runs}, {0, 1, 2, 3, 4, 5, 6, 7, 8})
        sealed = sum(run.sealed for run in self.runs)
        self.assertGreaterEqual(sealed, 300)
        self.assertGreaterEqual(len(opened) - sealed, 100)
        self.assertGreaterEqual(sum(run.waits > 0 for run in self.runs), 100)

    def test_the_written_files(self):
        with tempfile.TemporaryDirectory() as folder:
            names = [os.path.join(folder, name) for name in ("cases", "stdout")]
            subprocess.run([sys.executable, cases_library.__file__, *names], check=True)
            with open(names[0], "rb") as file:
                self.assertEqual(file.read(), b"".join(map(case_record, all_cases())))
            with open(names[1], encoding="ascii") as file:
                lines = file.read().splitlines()
        self.assertEqual([line for line in lines if line.startswith("check")],
                         [answer(case) for case in all_cases() if isinstance(case, Check)])
        self.assertEqual([line for line in lines if line.startswith("run")],
                         [f"run {run.refused} all kept" if run.refused else "run 0" for run in self.runs])


if __name__ == "__main__":
    unittest.main()
