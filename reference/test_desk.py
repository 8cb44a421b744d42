"""Tests of the whole cases of the program. Run: python3 -m unittest discover reference"""

import inspect
import os
import re
import subprocess
import sys
import tempfile
import unittest

import cases_desk
from cases_desk import THE_LISTING, all_cases, ending
from counters import one_by_one
from desk_files import Case, data_file, output, read_cases
from packed import decode, first_refusal, part
from program import SEAL, read_records
from test_program import LISTING_FILES, LISTING_OUTPUT

COUNTS = re.compile(r"steps (\d+) refused (\d+) waits (\d+)")


def entries(log):
    return [part(log, 0, 88, i) for i in range(len(log) // 88)]


def expected_refusal(case):
    """The number by the lengths and the entries alone, or 0."""
    N = len(case.records) // 8
    if len(case.records) % 8 or not 1 <= N <= 1024:
        return 1
    if len(case.log) % 88 or not 1 <= len(case.log) // 88 <= 64:
        return 2
    return next(filter(None, (first_refusal(N, entry) for entry in entries(case.log))), 0)


def one_by_one_lines(case):
    """The lines of a sealed batch, from the one-by-one run."""
    outcomes, values, after = one_by_one(list(map(decode, entries(case.log))), read_records(case.records))
    told = [" ".join(map(str, ["tx", i + 1, outcomes[i], *values[i]])) for i in range(len(outcomes))]
    return told + [f"rec {record} {contents}" for record, contents in enumerate(after)]


class Desk(unittest.TestCase):
    @classmethod
    def setUpClass(cls):
        with tempfile.TemporaryDirectory() as folder:
            names = [os.path.join(folder, name) for name in ("data", "stdout")]
            subprocess.run([sys.executable, cases_desk.__file__, *names], check=True,
                           stderr=subprocess.DEVNULL)
            with open(names[0], "rb") as file:
                cls.data = file.read()
            with open(names[1], "rb") as file:
                cls.stdout = file.read()
        cls.cases = list(read_cases(cls.data))
        cls.outputs = re.split(r"^case \d+\n", cls.stdout.decode("ascii"), flags=re.MULTILINE)[1:]

    def test_the_same_at_every_run(self):
        self.assertEqual(self.cases, all_cases())

    def test_no_generator_is_forgotten(self):
        own = {function for _, function in inspect.getmembers(cases_desk, inspect.isgeneratorfunction)
               if function.__module__ == cases_desk.__name__}
        self.assertEqual(own, set(cases_desk.GENERATORS))

    def test_sizes(self):
        self.assertGreaterEqual(len(self.cases), 300)
        self.assertEqual(len(self.outputs), len(self.cases))
        self.assertLess(len(self.data), 1_500_000)
        self.assertLess(len(self.stdout), 1_500_000)

    def test_numbers_of_cases(self):
        told = re.findall(rb"^case (\d+)\n", self.stdout, flags=re.MULTILINE)
        self.assertEqual(list(map(int, told)), list(range(len(self.cases))))

    def test_the_listing_comes_first(self):
        self.assertEqual(self.cases[0], Case(*LISTING_FILES))
        self.assertEqual(self.outputs[0], LISTING_OUTPUT)

    def test_sealed_cases_tell_the_one_by_one_run(self):
        for case, text in zip(self.cases, self.outputs):
            if ending(text) == "sealed":
                self.assertEqual(text.splitlines()[:-1], one_by_one_lines(case))

    def test_refused_openings(self):
        for case, text in zip(self.cases, self.outputs):
            refusal = expected_refusal(case)
            self.assertEqual(text.startswith("refused"), refusal != 0)
            if refusal:
                self.assertEqual(text, f"refused {refusal}\n")

    def test_counts(self):
        for case, text in zip(self.cases, self.outputs):
            if not text.startswith("refused"):
                steps, refused, waits = map(int, COUNTS.fullmatch(text.splitlines()[-1]).groups())
                self.assertEqual(steps, len(case.steps) // 4)
                self.assertLessEqual(refused + waits, steps)

    def test_every_ending(self):
        self.assertEqual(set(map(ending, self.outputs)),
                         {"sealed", "not sealed"} | {f"refused {k}" for k in (1, 2, 4, 5, 6, 7, 8)})

    def test_the_sealed_ones_reach_the_edges(self):
        sealed = [(case, text) for case, text in zip(self.cases, self.outputs) if ending(text) == "sealed"]
        self.assertGreaterEqual(len(sealed), 100)
        self.assertLessEqual({1, 1024}, {len(case.records) // 8 for case, _ in sealed})
        self.assertLessEqual({1, 64}, {len(case.log) // 88 for case, _ in sealed})
        self.assertGreaterEqual(sum("waits 0" not in text for _, text in sealed), 50)
        self.assertGreaterEqual(sum("aborted" in text for _, text in sealed), 50)
        self.assertGreaterEqual(sum("refused 0" not in text for _, text in sealed), 50)
        self.assertTrue(any(len(case.steps) % 4 for case, _ in sealed))

    def test_outputs_change_with_the_steps(self):
        """A sealed run without its last step is not sealed."""
        case = THE_LISTING
        self.assertEqual(case.steps[-4], SEAL)
        self.assertEqual(output(Case(case.records, case.log, case.steps[:-4])).splitlines()[0], "not sealed")

    def test_the_form_of_the_data_file(self):
        two = [Case(b"\1" * 8, b"", b"\2\3"), Case(b"", b"\4", b"")]
        self.assertEqual(data_file(two), bytes.fromhex(
            "02000000 08000000 00000000 02000000 0101010101010101 0203 00000000 01000000 00000000 04"))
        self.assertEqual(list(read_cases(data_file(two))), two)


if __name__ == "__main__":
    unittest.main()
