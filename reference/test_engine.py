"""Tests of the engine. Run: python3 -m unittest discover reference"""

import os
import random
import subprocess
import sys
import tempfile
import unittest
from dataclasses import replace

import cases_engine
from cases_decide import EDGE_NUMBERS, SMALL_NUMBERS, random_transaction
from cases_engine import all_cases
from cases_engine_steps import LISTING_STEPS
from counters import one_by_one
from engine import (EMPTY, IDLE_WORKER, NO_SLOT, ZERO_STATE, Accepted, Complete, Executing,
                    Refused, Unprocessed, Version, Waits, is_done, is_idle, make)
from engine_files import (CALLS, answer, case_record, making, outcome_of, read_cases)
from engine_moments import (adder, after, any_step, answered, carrier, case, fresh, opened,
                            placed_all, planned, reader, run_through, tens, useful_steps,
                            with_chain, with_newest, with_row, with_state, with_version,
                            with_worker, writer)
from packed import decode, part, read_set
from test_counters import LISTING, LISTING_LINES

def meanings(log):
    return [decode(part(log, 0, 88, i)) for i in range(len(log) // 88)]


def lines_of(first_position, before, after_it):
    """The listing's tx and rec lines, from the moments before the opening and after the seal."""
    for i, transaction in enumerate(meanings(before.log)):
        values = after_it.tables.results[4 * i : 4 * i + transaction.read_count]
        outcome = after_it.state.rows[i].outcome
        yield " ".join(["tx", str(first_position + i), outcome, *map(str, values)])
    for record, contents in enumerate(after_it.tables.records):
        yield f"rec {record} {contents}"


class Instances(unittest.TestCase):
    def test_listing(self):
        before = fresh(LISTING, records=(10, 20, 30, 40))
        moment = after(before, ("open",))
        answers = []
        for step in LISTING_STEPS:
            got, moment = answered(moment, *step)
            answers.append(got)
        self.assertEqual(list(lines_of(1, before, moment)), LISTING_LINES.splitlines())
        self.assertEqual(moment.tables.records, (7, 15, 30, 40))
        # "steps 29 refused 0 waits 1"
        self.assertEqual(len(answers), 29)
        self.assertEqual([got for got in answers if got != Accepted()], [Waits(1)])
        self.assertEqual((moment.state.next, moment.state.batch), (5, 1))

    def opening(self, length, **store):
        """The answer to a log of this length, all its transactions empty."""
        return answered(replace(fresh([], **store), log=bytes(length)), "open")[0]

    def test_lengths(self):
        # "Lengths 88 and 5,632 open; 0, 87 and 5,720 are refused."
        for length in (88, 5632):
            self.assertEqual(self.opening(length), Accepted())
        for length in (0, 87, 5720):
            self.assertEqual(self.opening(length), Refused(2, 0))

    def test_last_positions(self):
        # "From next position 2^64 - 2 one transaction opens, two are refused by 3."
        self.assertEqual(self.opening(88, start=2**64 - 2), Accepted())
        self.assertEqual(self.opening(176, start=2**64 - 2), Refused(3, 0))
        self.assertEqual(self.opening(88, start=2**64 - 1), Refused(3, 0))

    def chain_4_9(self, t):
        """What transaction t reads in record 0, whose versions begin at 4 and 9."""
        moment = planned([reader(0)] * 12, start=1, records=(10, 20, 30, 40))
        moment = with_chain(moment, 0, [4 * 8, 4 * 3])
        moment = after(moment, ("claim", 0, t - 1), ("advance", 0))
        return moment.state.crew[0].values[0]

    def test_versions_begun_at_4_and_9(self):
        # "reading at 4 finds the stored record, at 5 and at 9 the version of 4, at 10 that of 9"
        found = [self.chain_4_9(t) for t in (4, 5, 9, 10)]
        self.assertEqual(found, [10, 1012, 1012, 1032])

    def test_version_begun_at_16777216(self):
        # "Reading at 16,777,217 finds the version begun at 16,777,216."
        moment = planned([writer(0), reader(0)], start=16_777_216)
        moment = after(run_through(moment, 0, 0), ("claim", 0, 1), ("advance", 0))
        self.assertEqual(moment.state.crew[0].values[0], 7)


class Making(unittest.TestCase):
    def test_fresh_store(self):
        got, state = make(3, 2, 1, 5)
        self.assertEqual(got, Accepted())
        self.assertEqual((state.N, state.P, state.W, state.next, state.size, state.batch),
                         (3, 2, 1, 5, 0, 0))
        self.assertEqual((state.placed, set(state.rows), set(state.crew)),
                         ((0,) * 8, {Unprocessed()}, {IDLE_WORKER}))

    def test_refused(self):
        for wrong in ((0, 1, 1, 1), (1025, 1, 1, 1), (1, 0, 1, 1), (1, 9, 1, 1), (1, 1, 0, 1),
                      (1, 1, 9, 1), (1, 1, 1, 0), (1, 1, 1, 2**64)):
            self.assertEqual(make(*wrong), (Refused(1, 0), ZERO_STATE))


class Steps(unittest.TestCase):
    def test_place_links(self):
        moment = after(opened([writer(0, 1), writer(0)], P=1), ("place", 0))
        # "begin is its position, end 2^64 - 1, previous is the newest slot, not produced"
        self.assertEqual(moment.tables.versions[:3],
                         (Version(1, 2**64 - 1, NO_SLOT, 0, False),) * 2 + (EMPTY,))
        moment = after(moment, ("place", 0))
        # "a preceding entry's end becomes this position; the new slot becomes newest"
        self.assertEqual(moment.tables.versions[0].end, 2)
        self.assertEqual(moment.tables.versions[4], Version(2, 2**64 - 1, 0, 0, False))
        self.assertEqual(moment.tables.newest, (4, 1, NO_SLOT, NO_SLOT))

    def test_wait_drops_all(self):
        moment = planned([writer(1), reader(0, 1)])
        moment = after(moment, ("claim", 0, 1), ("advance", 0))
        self.assertEqual(moment.state.rows[1], Executing(0))
        got, moment = answered(moment, "advance", 0)
        self.assertEqual(got, Waits(1))
        self.assertEqual(moment.state.crew[0], IDLE_WORKER)
        self.assertEqual(moment.state.rows[1], Unprocessed())

    def test_own_write_is_not_seen(self):
        # "a reader of its own write finds its own placeholder and waits for itself"
        moment = planned([adder(0)])
        moment = after(moment, ("claim", 0, 0), ("advance", 0))
        self.assertEqual(moment.state.crew[0].values, (10, 0, 0, 0))

    def test_seal_leaves_results_and_outcomes(self):
        moment = after(run_through(planned([adder(0)]), 0, 0), ("seal",))
        self.assertEqual(moment.state.rows[0], Complete("committed"))
        self.assertEqual(moment.tables.results[:4], (10, 0, 0, 0))
        self.assertEqual(moment.tables.records, (15, 20, 30, 40))
        self.assertEqual((moment.state.size, moment.state.next, moment.state.batch), (0, 2, 1))
        self.assertEqual((set(moment.tables.newest), set(moment.tables.versions)),
                         ({NO_SLOT}, {EMPTY}))

    def test_decided_with_fewer_values_than_reads(self):
        # reading 4: "its results are the values it has, then zeros"
        moment = planned([adder(0)])
        moment = after(moment, ("claim", 0, 0), ("advance", 0), ("advance", 0))
        phase = moment.state.crew[0].phase
        moment = with_worker(moment, 0, phase=replace(phase, values=0))
        moment = after(moment, ("advance", 0))
        self.assertEqual(moment.tables.results[:4], (0, 0, 0, 0))
        self.assertEqual(moment.state.rows[0], Complete("committed"))

    def test_order_of_checks(self):
        moment = planned([adder(0)])
        wrong = with_state(moment, batch=9)
        self.assertEqual(answered(wrong, "claim", 9, 9)[0], Refused(14, 0))
        self.assertEqual(answered(moment, "claim", 9, 9)[0], Refused(10, 0))
        busy = after(moment, ("claim", 0, 0))
        self.assertEqual(answered(busy, "claim", 0, 0)[0], Refused(12, 0))
        self.assertEqual(answered(busy, "claim", 1, 0)[0], Refused(13, 0))
        self.assertEqual(answered(busy, "seal")[0], Refused(9, 0))

    def test_unproduced_at_the_seal(self):
        moment = run_through(planned([adder(0)]), 0, 0)
        self.assertEqual(answered(with_version(moment, 0, produced=False), "seal")[0],
                         Refused(15, 0))
        self.assertEqual(answered(with_newest(moment, 1, 4), "seal")[0], Refused(15, 0))
        self.assertEqual(answered(with_row(moment, 0, Unprocessed()), "seal")[0], Refused(9, 0))


# Random batches -------------------------------------------------------------

def random_store(chance):
    """Numbers of a small store, and a log for it."""
    numbers = chance.choice((SMALL_NUMBERS, EDGE_NUMBERS))
    N = chance.randint(1, 6)
    log = [random_transaction(chance, range(N), numbers) for _ in range(chance.randint(1, 8))]
    store = {"N": N, "P": chance.randint(1, 8), "W": chance.randint(1, 8),
             "start": chance.choice((1, 2, 1000, 2**64 - 1 - len(log))),
             "records": [chance.choice(numbers) for _ in range(N)]}
    return log, store


def shuffled_run(chance, moment):
    """The moment after steps in random order, some of them senseless, up to the seal."""
    batch = moment.state.batch
    while moment.state.batch == batch:
        senseless = chance.random() < 0.2
        step = (any_step(chance, moment.state) if senseless
                else chance.choice(useful_steps(moment.state)))
        got, after_it = answered(moment, *step)
        assert not isinstance(got, Refused) or senseless and after_it == moment
        moment = after_it
    return moment


def steps_to_the_seal(moment):
    """How many, all accepted: place all, then the transactions in log order, then seal."""
    steps = moment.state.P * moment.state.size - sum(moment.state.placed)
    moment = placed_all(moment)
    while not is_done(moment.state):
        step = next_in_order(moment.state)
        moment = after(moment, step)
        steps += 1
    after(moment, ("seal",))
    return steps + 1


def next_in_order(state):
    """Advance or claim the first transaction that is not Complete; free a worker if need be."""
    i = next(i for i in range(state.size) if not isinstance(state.rows[i], Complete))
    if isinstance(state.rows[i], Executing):
        return "advance", state.rows[i].worker
    idle = [w for w in range(state.W) if is_idle(state.crew[w])]
    return ("claim", idle[0], i) if idle else ("advance", 0)


class RandomBatches(unittest.TestCase):
    def compare(self, before, sealed):
        """A sealed batch is the one-by-one run."""
        transactions = meanings(before.log)
        outcomes, values, records = one_by_one(transactions, before.tables.records)
        rows = sealed.state.rows
        self.assertEqual([row.outcome for row in rows[: len(transactions)]], outcomes)
        self.assertEqual(list(sealed.tables.records), records)
        for i, transaction in enumerate(transactions):
            past = [0] * (4 - len(read_set(transaction)))
            self.assertEqual(list(sealed.tables.results[4 * i : 4 * i + 4]), values[i] + past)
        self.assertEqual(sealed.state.next, before.state.next + len(transactions))
        self.assertEqual(sealed.state.batch, before.state.batch + 1)

    def test_sealed_batches_are_the_one_by_one_run(self):
        chance = random.Random(29)
        for _ in range(250):
            log, store = random_store(chance)
            before = fresh(log, **store)
            sealed = shuffled_run(chance, after(before, ("open",)))
            self.compare(before, sealed)

    def test_the_bound(self):
        """From every state of a run a seal is at most nP + 14n + 10 accepted steps away."""
        chance = random.Random(14)
        for _ in range(12):
            log, store = random_store(chance)
            moment = opened(log, **store)
            bound = len(log) * store["P"] + 14 * len(log) + 10
            while not is_done(moment.state):
                self.assertLessEqual(steps_to_the_seal(moment), bound)
                moment = after(moment, chance.choice(useful_steps(moment.state)))

    def test_the_longest_transactions(self):
        """4 reads, 4 carries and 4 fills each take nP + 14n + 1 steps in log order."""
        for n, P in ((1, 1), (3, 2), (5, 8)):
            log = [carrier(0, 1, 2, 3)] * n
            self.assertEqual(steps_to_the_seal(opened(log, P=P)), n * P + 14 * n + 1)

    def test_64_transactions(self):
        chance = random.Random(64)
        log = [random_transaction(chance, range(6), SMALL_NUMBERS) for _ in range(64)]
        before = fresh(log, N=6, P=3, W=8, records=tens(6))
        sealed = shuffled_run(chance, after(before, ("open",)))
        self.compare(before, sealed)


# The cases ------------------------------------------------------------------

TRANSACTIONS_OWN = {4, 5, 6, 7, 8}
REFUSALS = {
    "make": {1},
    "open": {1, 14, 9, 2, 3} | TRANSACTIONS_OWN,
    "place": {1, 14, 9, 10, 11, 2, 15} | TRANSACTIONS_OWN,
    "claim": {14, 9, 10, 12, 13},
    "advance": {1, 14, 9, 10, 12, 2, 15} | TRANSACTIONS_OWN,
    "seal": {1, 14, 9, 15},
}
STORED_TYPES = {"N": 2**16, "P": 2**8, "W": 2**8, "next": 2**64, "size": 2**8, "batch": 2**64}


class Cases(unittest.TestCase):
    @classmethod
    def setUpClass(cls):
        cls.cases = all_cases()
        cls.answers = [outcome_of(each)[0] for each in cls.cases]

    def test_every_refusal_of_every_call(self):
        seen = {call: set() for call in CALLS}
        for each, got in zip(self.cases, self.answers):
            if isinstance(got, Refused):
                seen[each.call].add(got.number)
        self.assertEqual(seen, REFUSALS)

    def test_sizes(self):
        refused = sum(isinstance(got, Refused) for got in self.answers)
        self.assertGreaterEqual(len(self.cases), 2400)
        self.assertGreaterEqual(2 * refused, len(self.cases))
        self.assertLess(sum(len(case_record(each)) for each in self.cases), 3_000_000)
        self.assertLess(sum(len(answer(each)) + 1 for each in self.cases), 4_000_000)

    def test_numbers_fit_the_stored_types(self):
        for each in self.cases:
            for field, limit in STORED_TYPES.items():
                self.assertLess(getattr(each.state, field), limit)
            self.assertLess(max(each.state.placed), 256)
            self.assertTrue(all(worker.transaction < 256 for worker in each.state.crew))
            self.assertTrue(all(slot < 2**16 for slot in each.tables.newest))
            self.assertTrue(all(entry.previous < 2**16 for entry in each.tables.versions))

    def test_lengths_of_tables(self):
        for each in self.cases:
            lent = each.call not in ("make", "claim")
            self.assertIn(len(each.tables.versions), (256, 70_000) if lent else (255, 256, 257, 70_000))
            self.assertIn(len(each.tables.results), (0, 255, 256, 257, 70_000))
            for table in (each.tables.newest, each.tables.records):
                self.assertTrue(len(table) <= 1025 or len(table) == 70_000)
            self.assertLessEqual(len(each.log), 5720)

    def test_the_written_files(self):
        with tempfile.TemporaryDirectory() as folder:
            names = [os.path.join(folder, name) for name in ("data", "stdout")]
            subprocess.run([sys.executable, cases_engine.__file__, *names], check=True,
                           stderr=subprocess.DEVNULL)
            with open(names[0], "rb") as file:
                self.assertEqual(list(read_cases(file.read())), self.cases)
            with open(names[1], encoding="ascii") as file:
                lines = file.read()
        self.assertEqual(lines, "".join(answer(each) + "\n" for each in self.cases))

    def test_lines(self):
        self.assertEqual(answer(making(3, 2, 1, 5)),
                         "accepted\nstate 3 2 1 5 0 0 0 0 0 0 0 0 0 0 64 8\n"
                         "newest 0\nversions 256\nrecords 0\nresults 0")
        moment = after(planned([adder(0)]), ("claim", 1, 0))
        self.assertEqual(answer(case(moment, "advance", 1)),
                         "accepted\nstate 4 2 2 1 1 0 1 1 0 0 0 0 0 0 0 1 64 "
                         "1 1 0 0 1 0 0 10 0 0 0 0 0 0 0 0 0 0 0 8\n"
                         "newest 4 0 0\nversions 256 0 1 18446744073709551615 65535 0 0\n"
                         "records 4 0 10 1 20 2 30 3 40\nresults 256")
        self.assertEqual(answer(case(moment, "claim", 1, 0)).splitlines()[0], "refused 12 at 0")


if __name__ == "__main__":
    unittest.main()
