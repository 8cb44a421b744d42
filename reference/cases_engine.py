"""Makes the cases of the engine and the output they must give.

Usage: python3 reference/cases_engine.py CASES_FILE STDOUT_FILE

A case is one call with all it is given. Each function here and in
cases_engine_steps.py whose name is in GENERATORS yields cases; its first line
says what it covers. The same cases come out at every run. The README says the
form of the two files. At the end a table goes to stderr: calls, and how many
were refused by each number.
"""

import random
import sys
from collections import Counter
from dataclasses import replace
from itertools import combinations

import cases_engine_steps
from case_files import LARGEST_NUMBER, every_case, transaction, write_files
from cases_decide import add, copy, floor, move, set_, take
from cases_packed import FULL, FULL_MEANING, action_at, changed, with_action, without
from counters import ABORTED, COMMITTED
from engine import (Complete, Decided, Executing, Idle, LENT, Reading, Refused, Unprocessed,
                    Version)
from engine_files import CALLS, answer, case_record, making, outcome_of
from engine_moments import (BATCH, adder, after, carrier, case, done, fresh, opened, planned,
                            reader, with_entry, with_length, with_N, with_newest, with_placed,
                            with_row, with_state, with_tables, with_version, with_worker, writer)
from packed import ENTRY_LENGTH, READS_AT, WRITES_AT, encode


# Moments at which a call is accepted ----------------------------------------

def dirty(moment):
    """Tables with something left over in each."""
    moment = with_newest(with_newest(moment, 0, 7), 3, 65_534)
    moment = with_version(moment, 0, begin=3, end=4, previous=2, contents=5, produced=True)
    moment = with_version(moment, 255, begin=9, contents=6)
    results = (1, 2, 3) + moment.tables.results[3:255] + (4,)
    return with_tables(moment, results=results)


def moments_of_advance():
    """Worker 0 at transaction 0: about to read, to decide, to carry, to fill, to fill the last."""
    moment = after(planned(BATCH), ("claim", 0, 0))
    for name in ("read", "decide", "carry", "fill", "last fill"):
        yield name, moment
        moment = after(moment, ("advance", 0))


ADVANCES = dict(moments_of_advance())
GOOD = {
    "open": (dirty(fresh(BATCH)), ("open",)),
    "place": (after(opened(BATCH), ("place", 0)), ("place", 1)),
    "claim": (planned(BATCH), ("claim", 0, 1)),
    "advance": (ADVANCES["carry"], ("advance", 0)),
    "seal": (done(BATCH), ("seal",)),
}


def good_moments():
    """Each call at a moment when it is accepted; advance at all of its sorts."""
    yield from GOOD.values()
    for moment in ADVANCES.values():
        yield moment, ("advance", 0)


def calls_that_are_accepted():
    """Each call at the moments that the refusals below change."""
    for moment, step in good_moments():
        yield case(moment, *step)


# Refusal 1 ------------------------------------------------------------------

def makings_at_the_edges():
    """1 of making: N, P, W and the start at, just inside and just outside their bounds."""
    for N in (0, 1, 2, 255, 256, 257, 1023, 1024, 1025, 1280, 65_535):
        yield making(N, 3, 4, 5)
    for count in (0, 1, 2, 7, 8, 9, 16, 128, 255):
        yield making(10, count, 4, 5)
        yield making(10, 3, count, 5)
    for start in (0, 1, 2, 255, 256, 2**32, 2**63, LARGEST_NUMBER - 1, LARGEST_NUMBER):
        yield making(10, 3, 4, start)


def makings_with_several_edges():
    """1 of making: smallest, largest and wrong numbers together, some of them at random."""
    yield making(1, 1, 1, 1)
    yield making(1024, 8, 8, LARGEST_NUMBER)
    yield making(0, 0, 0, 0)
    chance = random.Random(1)
    for _ in range(24):
        yield making(chance.choice((0, 1, 1024, 1025)), chance.choice((0, 1, 8, 9)),
                     chance.choice((1, 1, 8, 9)), chance.choice((0, 1, 5, LARGEST_NUMBER)))


def wrong_lengths(moment, table):
    """Lengths of the table that are wrong at this moment; of the version table the one that a case can have."""
    if table in ("newest", "records"):
        return sorted({0, moment.state.N - 1, moment.state.N + 1, 1025})
    return (70_000,) if table == "versions" else (0, 255, 257)


def tables_of_wrong_length():
    """1: each table that a call is lent, too short and too long."""
    for moment, step in GOOD.values():
        for table in LENT.get(step[0], ()):
            for length in wrong_lengths(moment, table):
                yield case(with_length(moment, table, length), *step)
    for moment in ADVANCES.values():
        for table in LENT["advance"]:
            length = len(getattr(moment.tables, table))
            for wrong in (70_000,) if table == "versions" else (length - 1, length + 1):
                yield case(with_length(moment, table, wrong), "advance", 0)


def far_entries(moment, table):
    """The table in 70,000 entries, with contents where a shortened index would lie."""
    moment = with_length(moment, table, 70_000)
    far = {"records": 5, "newest": 3, "versions": Version(1, 2, 3, 4, True), "results": 6}[table]
    entries = list(getattr(moment.tables, table))
    for index in (255, 256, 4464, 65_535, 65_536, 69_999):
        entries[index] = far
    return with_tables(moment, **{table: tuple(entries)})


def tables_of_70000_entries():
    """1: each table that a call is lent in 70,000 entries, all of which it keeps."""
    for moment, step in GOOD.values():
        for table in LENT.get(step[0], ()):
            yield case(far_entries(moment, table), *step)
    for name in ("read", "decide", "last fill"):
        yield case(far_entries(ADVANCES[name], "versions"), "advance", 0)


def tables_not_lent():
    """No 1: tables of wrong lengths that the call is not lent."""
    for moment, step in GOOD.values():
        for table in ("records", "newest", "versions", "results"):
            if table not in LENT.get(step[0], ()):
                yield case(with_length(moment, table, 257), *step)
                yield case(far_entries(moment, table), *step)
    moment, step = GOOD["claim"]
    for table in ("records", "newest", "results"):
        moment = with_length(moment, table, 0)
    yield case(with_length(moment, "versions", 255), *step)


def lengths_at_the_edges_of_N():
    """1: tables one too short and one too long, and right ones, for N = 1 and N = 1,024."""
    for N in (1, 1024):
        log = [adder(N - 1)]
        moments = ((fresh(log, N=N, records=(3,) + (0,) * (N - 1)), ("open",)),
                   (opened(log, N=N, P=1, records=(3,) + (0,) * (N - 1)), ("place", 0)),
                   (done(log, N=N, records=(3,) + (0,) * (N - 1)), ("seal",)))
        for moment, step in moments:
            for length in (N - 1, N, N + 1):
                for table in ("newest", "records"):
                    yield case(with_length(moment, table, length), *step)


def lengths_of_a_wrong_N():
    """1 before 14: a state whose N is out of range, with tables of other lengths."""
    for moment, step in GOOD.values():
        for N in (0, 1025, 65_535):
            yield case(with_state(moment, N=N), *step)


# Refusal 14 -----------------------------------------------------------------

def numbers_out_of_range(moment):
    """N, P, W, n, F and the batch number out of range."""
    state = moment.state
    for N in (0, 1025):
        yield with_N(moment, N)
    for count in (0, 9, 255):
        yield with_state(moment, P=count)
        yield with_state(moment, W=count)
    yield with_state(moment, P=0, placed=(0,) * 8)
    for size in (65, 255):
        yield with_state(moment, size=size)
    yield with_state(moment, next=0)
    if state.size:
        yield with_state(moment, next=2**64 - state.size)
        yield with_state(moment, next=LARGEST_NUMBER)
    for batch in (state.next, state.next + 1, LARGEST_NUMBER):
        yield with_state(moment, batch=batch)


def placed_out_of_range(moment):
    """Placed counts above n, and not 0 past P."""
    state = moment.state
    for p in range(state.P):
        for count in (state.size + 1, 128, 255):
            yield with_placed(moment, p, count)
    for p in (state.P, 7):
        yield with_placed(moment, p, max(state.size, 1))
    yield with_placed(moment, 7, 255)


def holding(moment, w, i, phase=Reading(0)):
    """Worker w holds transaction i, as check 14 wants it."""
    return with_worker(with_row(moment, i, Executing(w)), w, phase=phase, transaction=i)


def workers_out_of_range(moment):
    """Workers that check 14 refuses: past W, their transaction, their counts, their row."""
    n = moment.state.size
    last = max(n, 1) - 1
    for w in (2, 7):                                       # past W
        yield holding(moment, w, last)
    yield holding(moment, 7, last, Decided(ABORTED, 0, 0, 0))
    for i in (n, n + 1, 63):                               # not below n
        yield holding(moment, 1, i)
        yield holding(moment, 1, i, Decided(COMMITTED, 0, 0, 0))
    for i in (64, 128, 255):
        yield with_worker(moment, 1, phase=Reading(0), transaction=i)
    for count in (5, 255):
        for phase in (Reading(count), Decided(COMMITTED, count, 0, 0),
                      Decided(ABORTED, 0, count, 0), Decided(COMMITTED, 0, 0, count)):
            yield holding(moment, 1, last, phase)
    for row in (Unprocessed(), Complete(COMMITTED), Complete(ABORTED), Executing(0), Executing(7),
                Executing(255)):                           # not Executing by it
        yield with_row(holding(moment, 1, last), last, row)
    yield with_worker(holding(moment, 1, last), 0, phase=Reading(1), transaction=last)


def rows_out_of_range(moment):
    """Rows below n, Executing by a worker that does not hold them."""
    last = moment.state.size - 1
    for w in (0, 1, 2, 7, 8, 9, 64, 255):
        yield with_row(moment, last, Executing(w))
    yield with_row(moment, 0, Executing(1))
    stale = with_worker(moment, 1, transaction=last, values=(1, 2, 3, 4))
    yield with_row(stale, last, Executing(1))              # idle, with the number left over
    yield with_row(holding(moment, 1, last), last - 1, Executing(1))     # it holds another


def range_of(moments):
    for moment, step in moments:
        changes = [*numbers_out_of_range(moment), *placed_out_of_range(moment),
                   *workers_out_of_range(moment)]
        if moment.state.size:
            changes += rows_out_of_range(moment)
        for wrong in changes:
            yield case(wrong, *step)


def states_out_of_range():
    """14: each clause, for each call, at a moment when it is accepted otherwise."""
    yield from range_of(GOOD.values())


def ranges_with_no_batch_open():
    """14 before 9: each clause with n = 0, for the four steps; and a batch number above F."""
    moment = fresh(BATCH)
    for step in (("place", 0), ("claim", 0, 0), ("advance", 0), ("seal",)):
        for wrong in (with_placed(moment, 1, 1), with_state(moment, batch=1),
                      with_state(moment, next=0), holding(moment, 0, 0),
                      holding(moment, 1, 63, Decided(COMMITTED, 1, 0, 0))):
            yield case(wrong, *step)


def edges_within_range():
    """No 14: the largest and smallest numbers that check 14 lets pass."""
    for moment, step in GOOD.values():
        n = moment.state.size
        if step != ("open",):
            yield case(with_state(moment, next=LARGEST_NUMBER - n), *step)
            yield case(with_state(moment, next=LARGEST_NUMBER - n, batch=LARGEST_NUMBER - n - 1),
                       *step)
        yield case(with_state(moment, W=8), *step)
        yield case(with_state(moment, next=5, batch=4), *step)
        yield case(with_state(moment, next=LARGEST_NUMBER - 3, batch=0), *step)
        for row in (Executing(0), Executing(255), Complete(ABORTED)):
            yield case(with_row(with_row(moment, n, row), 63, row), *step)
    moment, step = GOOD["claim"]
    yield case(with_state(moment, W=1), *step)
    busy = holding(with_state(moment, W=8), 7, 2, Decided(ABORTED, 4, 4, 4))
    yield case(busy, *step)
    yield case(holding(moment, 1, 0, Reading(4)), *step)


def stale_numbers():
    """No 14: idle workers with numbers left over, within W and past it."""
    for moment, step in GOOD.values():
        for w in (1, 2, 7):
            for i in (0, 255):
                yield case(with_worker(moment, w, transaction=i, values=(1, 0, LARGEST_NUMBER, 3),
                                       contents=(0, 5, 0, 7), carried=(True, False, True, True)),
                           *step)
    moment, step = GOOD["claim"]
    for left in ({"transaction": 1}, {"transaction": 255}, {"values": (0, 0, 0, 9)},
                 {"contents": (8, 0, 0, 0)}, {"carried": (False, False, True, False)}):
        yield case(with_worker(moment, 0, **left), *step)      # the worker that claims


# Refusal 9 ------------------------------------------------------------------

def opening_with_a_batch_open():
    """9: opening in planning, in execution and when all is done."""
    for moment in (opened(BATCH), opened([reader()]), after(opened(BATCH), ("place", 1)),
                   planned(BATCH), ADVANCES["fill"], done(BATCH)):
        yield case(moment, "open")


def place_outside_planning():
    """9: place with none open, and after planning, for each number of partitions."""
    for P in range(1, 9):
        for p in sorted({0, P - 1, P, 255}):
            yield case(fresh([adder(0)], P=P), "place", p)
            yield case(planned([adder(0)], P=P), "place", p)
    yield case(done(BATCH), "place", 0)
    yield case(after(done(BATCH), ("seal",)), "place", 0)


def steps_before_planning_ends():
    """9: claim and advance with none open, and with one partition's count one short."""
    steps = (("claim", 0, 0), ("claim", 9, 9), ("advance", 0), ("advance", 9))
    for step in steps:
        yield case(fresh(BATCH), *step)
        yield case(opened(BATCH), *step)
        yield case(after(done(BATCH), ("seal",)), *step)
    for P in (1, 2, 5, 8):
        for p in range(P):
            moment = after(planned([carrier(0, 1)], P=P), ("claim", 0, 0))
            yield case(with_placed(moment, p, 0), "advance", 0)
            yield case(with_placed(moment, p, 0), "claim", 1, 0)


def seal_too_early():
    """9: seal with none open, with one transaction Unprocessed or Executing, each in turn."""
    yield case(fresh(BATCH), "seal")
    yield case(opened(BATCH), "seal")
    yield case(planned(BATCH), "seal")
    yield case(after(done(BATCH), ("seal",)), "seal")
    for i in range(3):
        yield case(with_row(done(BATCH), i, Unprocessed()), "seal")
        yield case(holding(done(BATCH), 1, i), "seal")
        yield case(holding(done(BATCH), 1, i, Decided(COMMITTED, 1, 0, 4)), "seal")


def seal_with_planning_unfinished():
    """No 9 at the seal: every transaction is Complete, though a partition has not placed all."""
    for p in (0, 1):
        for count in (0, 2):
            yield case(with_placed(done(BATCH), p, count), "seal")


# Refusals 10 to 13 ----------------------------------------------------------

# Numbers that are small ones when they are cut to 8, 16 or 32 bits.
LONG_NUMBERS = (256, 257, 65_536, 2**32, 2**32 + 1, 2**63, LARGEST_NUMBER)


def no_such_party():
    """10: partitions from P on, workers from W on, transactions from n on."""
    for p in (2, 3, 7, 8, 9, 64, 255, *LONG_NUMBERS):
        yield case(GOOD["place"][0], "place", p)
        yield case(GOOD["claim"][0], "claim", p, 0)
        yield case(GOOD["advance"][0], "advance", p)
    for i in (3, 4, 63, 64, 65, 255, *LONG_NUMBERS):
        yield case(GOOD["claim"][0], "claim", 0, i)
    yield case(GOOD["claim"][0], "claim", 2, 3)
    moment = planned([reader()] * 64, W=8)
    for w, i in ((8, 0), (7, 64)):
        yield case(moment, "claim", w, i)


def partitions_that_have_placed_all():
    """11: one partition has placed all n, another has not."""
    for P in (2, 3, 8):
        moment = opened([writer(0), writer(1)], P=P)
        for p in range(P):
            full = after(moment, ("place", p), ("place", p))
            yield case(full, "place", p)
            yield case(full, "place", (p + 1) % P)
            others = with_state(moment, placed=(2,) * P + (0,) * (8 - P))
            yield case(with_placed(others, p, 1), "place", (p + 1) % P)


def busy_and_idle_workers():
    """12: claim by a worker in each phase, advance by an idle one with and without numbers left."""
    for moment in ADVANCES.values():
        for i in range(3):
            yield case(moment, "claim", 0, i)
        yield case(moment, "advance", 1)
        stale = with_worker(moment, 1, transaction=1, values=(1, 2, 3, 4), carried=(True,) * 4)
        yield case(stale, "advance", 1)
    for w in (0, 1):
        yield case(planned(BATCH), "advance", w)
        yield case(done(BATCH), "advance", w)


def claims_of_what_is_not_unprocessed():
    """13: claim of a transaction that is Executing or Complete, the others Unprocessed."""
    for i in range(3):
        yield case(holding(planned(BATCH), 1, i), "claim", 0, i)
        yield case(holding(planned(BATCH), 1, i, Decided(ABORTED, 1, 0, 0)), "claim", 0, i)
        for outcome in (COMMITTED, ABORTED):
            moment = with_row(planned(BATCH), i, Complete(outcome))
            for claimed in range(3):
                yield case(moment, "claim", 0, claimed)


# Refusals 2 and 3 -----------------------------------------------------------

def lengths_of_the_log_at_opening():
    """2: lengths at opening that are 0, above 5,632 or no multiple of 88, and proper ones."""
    moment = fresh([])
    for length in (0, 1, 8, 44, 87, 88, 89, 175, 176, 177, 264, 5631, 5632):
        yield case(replace(moment, log=bytes(length)), "open")
    for length in (5633, 5720):
        yield case(replace(moment, log=bytes(length)), "open")


def lengths_of_the_log_later():
    """2: lengths that are not 88n in place and advance."""
    moments = [GOOD["place"]] + [(moment, ("advance", 0)) for moment in ADVANCES.values()]
    for moment, step in moments:
        whole = moment.log
        for log in (b"", whole[:88], whole[:-88], whole[:-1], whole + b"\0", whole + bytes(88)):
            yield case(replace(moment, log=log), *step)
    moment, step = GOOD["place"]
    yield case(replace(moment, log=bytes(5720)), *step)


def logs_not_lent():
    """No 2: claim and seal are lent no log."""
    for call in ("claim", "seal"):
        moment, step = GOOD[call]
        for log in (b"", bytes(1), b"\xff" * 264):
            yield case(replace(moment, log=log), *step)


def positions_that_run_out():
    """3: F + n at and above 2^64 - 1."""
    for size in (1, 2, 3, 64):
        for beyond in (-1, 0, 1, size):
            start = LARGEST_NUMBER - size + beyond
            if start <= LARGEST_NUMBER:
                yield case(fresh([reader()] * size, start=start), "open")


# Refusals 4 to 8 ------------------------------------------------------------

N_FAULTS = 10


def entries_failing_4():
    for position in (0, 1, 2):
        for count in (5, 255):
            yield changed(FULL, position, count)
    for kind in (0, 7, 255):
        yield changed(FULL, action_at(0), kind)
    yield changed(FULL, action_at(3), 7)
    for position in (3, 20, 23, action_at(0) + 1, action_at(2) + 6, action_at(3) + 7,
                     action_at(0) + 4, action_at(0) + 5, action_at(1) + 8, action_at(2) + 15):
        yield changed(FULL, position, 1)
    short = encode(transaction((1, 2), (1, 2), [set_(1, 5)]))
    for position in (READS_AT + 4, READS_AT + 7, WRITES_AT + 4, WRITES_AT + 7, action_at(1),
                     action_at(1) + 2, action_at(3) + 15):
        yield changed(short, position, 1)
    yield changed(bytes(ENTRY_LENGTH), 87, 128)


def entries_failing_5():
    for record in (N_FAULTS, 1024, 65_535):
        yield encode(transaction((1, record), (1,), ()))
        yield encode(transaction((1,), (record,), ()))
        yield encode(with_action(1, set_(record, 5)))
        yield encode(with_action(1, copy(1, record)))
    yield encode(with_action(3, floor(N_FAULTS, 5)))
    yield encode(with_action(0, move(1, N_FAULTS)))


def entries_failing_6():
    for records in ((1, 1), (2, 1), (1, 2, 2), (1, 2, 3, 0), (0, 0)):
        yield encode(transaction(records, (), ()))
        yield encode(transaction((), records, ()))


def entries_failing_7():
    declared = (0, 1, 2)
    for action in (add(1, 5), take(1, 5), copy(2, 1), move(1, 2), move(2, 1), floor(1, 5)):
        yield encode(with_action(1, action, reads=without(declared, 1)))
    yield encode(transaction((), (1,), [set_(1, 5), add(1, 5)]))     # "also after an earlier set"
    yield encode(transaction((), (), [floor(0, 0)]))


def entries_failing_8():
    declared = (0, 1, 2)
    for action in (set_(1, 5), add(1, 5), take(1, 5), copy(1, 2), move(1, 2), move(2, 1)):
        yield encode(with_action(3, action, writes=without(declared, 1)))
    yield encode(transaction((), (), [set_(0, 0)]))


def faulty_entries():
    """Entries for ten records, each failing one of 4 to 8."""
    for entries in (entries_failing_4, entries_failing_5, entries_failing_6, entries_failing_7,
                    entries_failing_8):
        yield from entries()


FAULT_LOG = (adder(0), FULL_MEANING, writer(1))
TEN = {"N": N_FAULTS, "P": 2, "records": (3,) + (0,) * 9}


def faults_at_opening():
    """4 to 8 of opening: each fault at the first, the middle or the last transaction."""
    moment = fresh(FAULT_LOG, **TEN)
    for number, entry in enumerate(faulty_entries()):
        for i in (number % 3, (number + 1) % 3):
            yield case(with_entry(moment, i, entry), "open")


def faults_in_two_transactions():
    """4 to 8 of opening: of two faulty transactions the earlier, whatever the numbers."""
    samples = [list(entries())[0] for entries in (entries_failing_4, entries_failing_5,
               entries_failing_6, entries_failing_7, entries_failing_8)]
    moment = fresh(FAULT_LOG, **TEN)
    for first in samples:
        for second in samples:
            yield case(with_entry(with_entry(moment, 1, first), 2, second), "open")


def faults_at_place():
    """4 to 8 of place: each fault in the partition's next transaction."""
    moment = after(opened(FAULT_LOG, **TEN), ("place", 0), ("place", 1))
    for number, entry in enumerate(faulty_entries()):
        yield case(with_entry(moment, 1, entry), "place", number % 2)


def faults_at_advance():
    """4 to 8 of advance: each fault in the transaction of a reading and of a decided worker."""
    reading = after(planned(FAULT_LOG, **TEN), ("claim", 1, 1))
    decided = with_worker(reading, 1, phase=Decided(COMMITTED, 4, 0, 0))
    for number, entry in enumerate(faulty_entries()):
        yield case(with_entry((reading, decided)[number % 2], 1, entry), "advance", 1)


def faults_elsewhere():
    """No 4 to 8: faults in transactions that the step does not look at."""
    opening = opened(FAULT_LOG, **TEN)
    executing = after(planned(FAULT_LOG, **TEN), ("claim", 1, 1))
    for entries in (entries_failing_4, entries_failing_5, entries_failing_6, entries_failing_7,
                    entries_failing_8):
        entry = list(entries())[0]
        for moment, step in ((opening, ("place", 0)), (opening, ("place", 1))):
            yield case(with_entry(with_entry(moment, 1, entry), 2, entry), *step)
        for moment in (executing, with_worker(executing, 1, phase=Decided(COMMITTED, 4, 0, 0))):
            yield case(with_entry(with_entry(moment, 0, entry), 2, entry), "advance", 1)


def faults_at_the_last_of_64():
    """4 to 8 of opening 64 transactions: the place is 63."""
    moment = fresh([reader()] * 64)
    for entry in (entries_failing_4, entries_failing_8):
        yield case(with_entry(moment, 63, list(entry())[0]), "open")


# The order of the checks ----------------------------------------------------

# Reads 0, 1 and writes 0, 1, 2: byte edits of it fail 4 to 8 alone and together.
ORDER_LOG = (transaction((0, 1), (0, 1, 2), [add(0, 5), add(1, 6), set_(2, 7)]), writer(1))


def edits(*bytes_at):
    """A change of the first transaction: these bytes at these places."""
    def change(moment, step):
        entry = moment.log[:88]
        for position, value in bytes_at:
            entry = changed(entry, position, value)
        return with_entry(moment, 0, entry), step
    return change


def on_moment(change):
    return lambda moment, step: (change(moment), step)


def on_step(*step):
    return lambda moment, _: (moment, step)


OWN_FAULTS = [
    (4, edits((3, 1))),
    (5, edits((WRITES_AT + 4, 200))),
    (6, edits((READS_AT, 1), (READS_AT + 2, 0))),
    (7, edits((action_at(1), 6), (action_at(1) + 2, 3))),       # floor of record 3
    (8, edits((action_at(2) + 2, 3))),                          # set of record 3
]
FAULT_1 = (1, on_moment(lambda moment: with_length(moment, "versions", 70_000)))
FAULT_14 = (14, on_moment(lambda moment: with_state(moment, W=9)))
FAULT_2 = (2, on_moment(lambda moment: replace(moment, log=moment.log + b"\0")))
UNPLANNED = (9, on_moment(lambda moment: with_placed(moment, 1, 1)))


def made_idle(moment):
    """Worker 0 idle, with its numbers left over, and its transaction Unprocessed."""
    return with_worker(with_row(moment, 0, Unprocessed()), 0, phase=Idle())


def order_of_open():
    return (fresh(ORDER_LOG), ("open",)), [
        FAULT_1, FAULT_14,
        (9, on_moment(lambda moment: with_state(moment, size=1))),
        FAULT_2,
        (3, on_moment(lambda moment: with_state(moment, next=LARGEST_NUMBER - 1))),
        *OWN_FAULTS]


def order_of_place():
    all_placed = (2, 2) + (0,) * 6
    return (opened(ORDER_LOG), ("place", 1)), [
        FAULT_1, FAULT_14,
        (9, on_moment(lambda moment: with_state(moment, placed=all_placed))),
        (10, on_step("place", 2)),
        (11, on_moment(lambda moment: with_placed(moment, 1, 2))),
        FAULT_2, *OWN_FAULTS,
        (15, on_moment(lambda moment: with_newest(moment, 1, 1)))]


def order_of_claim(wrong_claim):
    return (planned(ORDER_LOG), ("claim", 0, 0)), [
        FAULT_14, UNPLANNED, (10, on_step(*wrong_claim)),
        (12, on_moment(lambda moment: holding(moment, 0, 1))),
        (13, on_moment(lambda moment: with_row(moment, 0, Complete(COMMITTED))))]


def order_of_advance(phase, wrong):
    moment = after(planned(ORDER_LOG), ("claim", 0, 0))
    return (with_worker(moment, 0, phase=phase), ("advance", 0)), [
        FAULT_1, FAULT_14, UNPLANNED, (10, on_step("advance", 2)), (12, on_moment(made_idle)),
        FAULT_2, *OWN_FAULTS, (15, on_moment(wrong))]


def order_of_seal():
    return (done(ORDER_LOG), ("seal",)), [
        FAULT_1, FAULT_14,
        (9, on_moment(lambda moment: with_row(moment, 1, Unprocessed()))),
        (15, on_moment(lambda moment: with_version(moment, 0, produced=False)))]


ORDERS = [
    order_of_open(), order_of_place(), order_of_claim(("claim", 2, 0)),
    order_of_claim(("claim", 0, 2)),
    order_of_advance(Reading(0), lambda moment: with_worker(moment, 0, phase=Reading(3))),
    order_of_advance(Decided(COMMITTED, 2, 0, 0), lambda moment: with_worker(
        moment, 0, phase=Decided(COMMITTED, 2, 0, 3))),
    order_of_seal(),
]


def faulted(moment, step, *faults):
    for _, change in faults:
        moment, step = change(moment, step)
    return case(moment, *step)


def every_fault_alone():
    """The faults of the order below, each alone, and none of them."""
    for (moment, step), faults in ORDERS:
        yield case(moment, *step)
        for fault in faults:
            yield expecting(fault[0], faulted(moment, step, fault))


def two_faults_at_once():
    """The order of the checks: every two faults at once, of which the earlier one wins."""
    for (moment, step), faults in ORDERS:
        for fault, later in combinations(faults, 2):
            if (fault[0], later[0]) != (12, 15):     # an idle worker has nothing for 15
                yield expecting(fault[0], faulted(moment, step, later, fault))


def expecting(number, wrong):
    """The case, which must be refused by this number."""
    refused = outcome_of(wrong)[0]
    assert isinstance(refused, Refused) and refused.number == number, (number, refused)
    return wrong


GENERATORS = (
    calls_that_are_accepted,
    makings_at_the_edges, makings_with_several_edges, tables_of_wrong_length,
    tables_of_70000_entries, tables_not_lent, lengths_at_the_edges_of_N, lengths_of_a_wrong_N,
    states_out_of_range, ranges_with_no_batch_open, edges_within_range, stale_numbers,
    opening_with_a_batch_open, place_outside_planning, steps_before_planning_ends, seal_too_early,
    seal_with_planning_unfinished,
    no_such_party, partitions_that_have_placed_all, busy_and_idle_workers,
    claims_of_what_is_not_unprocessed,
    lengths_of_the_log_at_opening, lengths_of_the_log_later, logs_not_lent, positions_that_run_out,
    faults_at_opening, faults_in_two_transactions, faults_at_place, faults_at_advance,
    faults_elsewhere, faults_at_the_last_of_64,
    every_fault_alone, two_faults_at_once,
    *cases_engine_steps.GENERATORS,
)


def all_cases():
    return every_case(GENERATORS)


# The table of counts --------------------------------------------------------

REFUSAL_NUMBERS = range(1, 16)


def column(answered):
    """The column of the table that an answer counts in."""
    if isinstance(answered, Refused):
        return answered.number
    return type(answered).__name__.lower()


def table_lines(cases):
    """Calls, and how many were accepted, wait, and were refused by each number."""
    counts = Counter((each.call, column(outcome_of(each)[0])) for each in cases)
    columns = ["accepted", "waits", *REFUSAL_NUMBERS]
    yield " ".join(f"{name:>8}" if name in columns[:2] else f"{name:>5}"
                   for name in ["call   ", *columns, "all"])
    for call in (*CALLS, "all"):
        calls = CALLS if call == "all" else (call,)
        row = [sum(counts[each, name] for each in calls) for name in columns]
        yield " ".join([f"{call:<7}"] + [f"{count:>8}" for count in row[:2]]
                       + [f"{count:>5}" for count in [*row[2:], sum(row)]])


if __name__ == "__main__":
    every = all_cases()
    write_files(*sys.argv[1:], every, case_record, answer)
    print(*table_lines(every), sep="\n", file=sys.stderr)
