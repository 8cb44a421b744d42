"""Tests of the one-by-one run and of deciding. Run: python3 -m unittest discover reference"""

import os
import random
import subprocess
import sys
import tempfile
import unittest

import cases_decide
from case_files import KIND_NAMES, MEANING_LENGTH, declaring, four, read_meaning, transaction
from cases_decide import (EDGE_NUMBERS, N, SMALL_NUMBERS, Case, add, all_cases, answer, copy, floor,
                          move, random_transaction, set_, take)
from counters import ABORTED, COMMITTED, Decision, decide, one_by_one, one_step
from packed import ZERO_MEANING, number, pack, read_set, records_written, write_set

# "Transactions: reads 0 writes 0, add 0 by 5; reads 0 writes 1, copy 1 from 0;
# reads 1 writes 1 and 2, take 100 from 1; writes 0, set 0 to 7."
LISTING = [
    transaction((0,), (0,), [add(0, 5)]),
    transaction((0,), (1,), [copy(1, 0)]),
    transaction((1,), (1, 2), [take(1, 100)]),
    transaction((), (0,), [set_(0, 7)]),
]

# The listing's output, without its last line.
LISTING_LINES = """\
tx 1 committed 10
tx 2 committed 15
tx 3 aborted 15
tx 4 committed
rec 0 7
rec 1 15
rec 2 30
rec 3 40
"""


def run(records, *actions):
    """Outcome and records after one transaction of these actions."""
    outcome, _, records = one_step(declaring(actions), records)
    return outcome, records


def lines_of(first_position, transactions, records):
    """The listing's tx and rec lines."""
    outcomes, values_read, records = one_by_one(transactions, records)
    for position, (outcome, values) in enumerate(zip(outcomes, values_read), first_position):
        yield " ".join(["tx", str(position), outcome, *map(str, values)])
    for record, contents in enumerate(records):
        yield f"rec {record} {contents}"


class Instances(unittest.TestCase):
    def test_take_and_floor(self):
        # "Take 5 from 5 commits with 0; take 6 from 5 aborts. Floor 5 on 5 commits."
        self.assertEqual(run([5], take(0, 5)), (COMMITTED, [0]))
        self.assertEqual(run([5], take(0, 6)), (ABORTED, [5]))
        self.assertEqual(run([5], floor(0, 5)), (COMMITTED, [5]))
        self.assertEqual(decide(declaring([take(0, 5)]), [5]),
                         Decision(COMMITTED, (0, 0, 0, 0), (False,) * 4))
        self.assertEqual(decide(declaring([take(0, 6)]), [5]),
                         Decision(ABORTED, (0, 0, 0, 0), (True, False, False, False)))
        self.assertEqual(decide(declaring([floor(0, 5)]), [5]),
                         Decision(COMMITTED, (0, 0, 0, 0), (False,) * 4))

    def test_abort_after_an_add(self):
        # "Records 10, 20; add 5 to record 0, then floor 99 on record 1: aborted, record 0
        # stays 10."
        self.assertEqual(run([10, 20], add(0, 5), floor(1, 99)), (ABORTED, [10, 20]))
        self.assertEqual(decide(declaring([add(0, 5), floor(1, 99)]), [10, 20]),
                         Decision(ABORTED, (0, 0, 0, 0), (True, False, False, False)))

    def test_move(self):
        # "Move 0 from 1 on 10, 20: 30, 0. Move 0 from 0 on 10: 0."
        self.assertEqual(run([10, 20], move(0, 1)), (COMMITTED, [30, 0]))
        self.assertEqual(run([10], move(0, 0)), (COMMITTED, [0]))
        self.assertEqual(decide(declaring([move(0, 1)]), [10, 20]),
                         Decision(COMMITTED, (30, 0, 0, 0), (False,) * 4))
        self.assertEqual(decide(declaring([move(0, 0)]), [10]),
                         Decision(COMMITTED, (0, 0, 0, 0), (False,) * 4))

    def test_listing(self):
        self.assertEqual(list(lines_of(1, LISTING, [10, 20, 30, 40])), LISTING_LINES.splitlines())


class OneByOne(unittest.TestCase):
    def test_each_kind(self):
        records = [10, 20, 30]
        self.assertEqual(run(records, set_(1, 7)), (COMMITTED, [10, 7, 30]))
        self.assertEqual(run(records, add(1, 7)), (COMMITTED, [10, 27, 30]))
        self.assertEqual(run(records, take(1, 7)), (COMMITTED, [10, 13, 30]))
        self.assertEqual(run(records, copy(1, 2)), (COMMITTED, [10, 30, 30]))
        self.assertEqual(run(records, move(1, 2)), (COMMITTED, [10, 50, 0]))
        self.assertEqual(run(records, floor(1, 7)), (COMMITTED, [10, 20, 30]))
        self.assertEqual(run(records, floor(1, 21)), (ABORTED, [10, 20, 30]))

    def test_sums_wrap(self):
        self.assertEqual(run([2**64 - 1], add(0, 1)), (COMMITTED, [0]))
        self.assertEqual(run([2**64 - 1, 2**64 - 1], move(0, 1)), (COMMITTED, [2**64 - 2, 0]))

    def test_the_lent_records_are_kept(self):
        records = [10, 20]
        one_by_one([declaring([move(0, 1)]), declaring([take(0, 99)])], records)
        self.assertEqual(records, [10, 20])

    def test_no_transaction(self):
        self.assertEqual(one_by_one([], [10, 20]), ([], [], [10, 20]))


class Deciding(unittest.TestCase):
    def test_empty_transaction(self):
        self.assertEqual(decide(ZERO_MEANING, []), Decision(COMMITTED, (0,) * 4, (False,) * 4))

    def test_carries(self):
        writes = (1, 3, 5)
        self.assertEqual(decide(transaction((), writes, [set_(3, 7)]), []),
                         Decision(COMMITTED, (0, 7, 0, 0), (True, False, True, False)))
        self.assertEqual(decide(transaction((), writes, []), []),
                         Decision(COMMITTED, (0,) * 4, (True, True, True, False)))
        self.assertEqual(decide(transaction((3,), writes, [set_(3, 7), floor(3, 8)]), [9]),
                         Decision(ABORTED, (0,) * 4, (True, True, True, False)))

    def test_own_writes_are_seen(self):
        self.assertEqual(decide(declaring([set_(1, 5), add(1, 6), copy(2, 1)]), [99]),
                         Decision(COMMITTED, (11, 11, 0, 0), (False,) * 4))
        self.assertEqual(decide(declaring([move(1, 2), take(2, 1)]), [10, 20]).outcome, ABORTED)

    def test_values_past_the_count_are_never_looked_at(self):
        for case in all_cases():
            decision = decide(case.meaning, case.values)
            values = case.values[: case.meaning.read_count]
            self.assertEqual(decide(case.meaning, values), decision)
            self.assertEqual(decide(case.meaning, four(values, None)), decision)


def stored(transaction, decision, records):
    """The records with the contents of the writes that are not carried."""
    records = list(records)
    for place, record in enumerate(write_set(transaction)):
        if not decision.carries[place]:
            records[record] = decision.contents[place]
    return records


class DecidingIsOneStep(unittest.TestCase):
    def compare(self, transaction, records):
        """Deciding on the values read, then storing, is one step of the one-by-one run."""
        outcome, values, after = one_step(transaction, records)
        decision = decide(transaction, values)
        self.assertEqual(decision.outcome, outcome)
        self.assertEqual(stored(transaction, decision, records), after)
        self.check_places(transaction, decision)
        return after

    def check_places(self, transaction, decision):
        """Marks are as document 01 says; contents are 0 where carried and past the count."""
        unreached = [decision.outcome == ABORTED or record not in records_written(transaction)
                     for record in write_set(transaction)]
        self.assertEqual(decision.carries, four(unreached, False))
        for place in range(4):
            if decision.carries[place] or place >= transaction.write_count:
                self.assertEqual(decision.contents[place], 0)

    def test_random_logs(self):
        chance = random.Random(64)
        outcomes_seen = []
        for _ in range(1000):
            numbers = chance.choice((SMALL_NUMBERS, EDGE_NUMBERS))
            n = chance.randint(1, 6)
            records = [chance.choice(numbers) for _ in range(n)]
            log = [random_transaction(chance, range(n), numbers) for _ in range(chance.randint(1, 12))]
            outcomes, _, final = one_by_one(log, records)
            for transaction_of_log in log:
                records = self.compare(transaction_of_log, records)
            self.assertEqual(records, final)
            outcomes_seen += outcomes
        for outcome in (COMMITTED, ABORTED):
            self.assertGreater(outcomes_seen.count(outcome), len(outcomes_seen) // 4)

    def test_cases(self):
        for case in all_cases():
            records = [7] * N
            for record, value in zip(read_set(case.meaning), case.values):
                records[record] = value
            self.compare(case.meaning, records)


def read_cases(data):
    """The cases of a case file."""
    for start in range(0, len(data), 103):
        case = data[start : start + 103]
        values = case[MEANING_LENGTH:]
        yield Case(read_meaning(case), tuple(number(values[8 * k : 8 * k + 8]) for k in range(4)))


class Cases(unittest.TestCase):
    def test_every_meaning_is_proper(self):
        for case in all_cases():
            self.assertEqual(pack(N, case.meaning, bytes(88))[0], 0)

    def test_every_kind_commits_and_aborts(self):
        seen = {(action.kind, decide(case.meaning, case.values).outcome)
                for case in all_cases() for action in case.meaning.actions if action.kind != "nothing"}
        outcomes = (COMMITTED, ABORTED)
        self.assertEqual(seen, {(name, outcome) for name in KIND_NAMES for outcome in outcomes})

    def test_sizes(self):
        self.assertTrue(400 <= len(all_cases()) <= 900)

    def test_the_written_files(self):
        with tempfile.TemporaryDirectory() as folder:
            data_file, stdout_file = os.path.join(folder, "data"), os.path.join(folder, "stdout")
            subprocess.run([sys.executable, cases_decide.__file__, data_file, stdout_file], check=True)
            with open(data_file, "rb") as file:
                cases = list(read_cases(file.read()))
            with open(stdout_file, encoding="ascii") as file:
                lines = file.read().splitlines()
        self.assertEqual(cases, all_cases())
        self.assertEqual(lines, [answer(case) for case in cases])

    def test_lines(self):
        meaning = transaction((1,), (0, 1, 2), [copy(2, 1), take(1, 5)])
        self.assertEqual(answer(Case(meaning, (5, 9, 9, 9))), "committed 0 0 5 0 : 1 0 0 0")
        self.assertEqual(answer(Case(meaning, (4, 9, 9, 9))), "aborted 0 0 0 0 : 1 1 1 0")
        self.assertEqual(answer(Case(meaning, (2**64 - 1, 0, 0, 0))),
                         "committed 0 18446744073709551610 18446744073709551615 0 : 1 0 0 0")


if __name__ == "__main__":
    unittest.main()
