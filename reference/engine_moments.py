"""Moments of the engine: a state with its tables and log, reached by calls or changed by hand."""

from dataclasses import dataclass, replace

import engine
from case_files import transaction
from cases_decide import add, copy, set_, take
from engine import (EMPTY, NO_SLOT, TABLE_LENGTH, Complete, Refused, State, Tables, Unprocessed,
                    Version, is_done, is_idle, is_planned, replaced)
from engine_files import Case, outcome_of
from packed import encode


@dataclass(frozen=True)
class Moment:
    state: State
    tables: Tables
    log: bytes


def case(moment, call, *given):
    return Case(call, given, moment.state, moment.tables, moment.log)


# Transactions ---------------------------------------------------------------

def reader(*records):
    return transaction(records, (), ())


def writer(*records):
    return transaction((), records, [set_(record, 7) for record in records])


def adder(record):
    return transaction((record,), (record,), [add(record, 5)])


def carrier(*records):
    """Reads these records and carries them."""
    return transaction(records, records, ())


# A commit with a carry, a copy, an abort with two carries.
BATCH = (
    transaction((0,), (0, 1), [add(0, 5)]),
    transaction((0, 1), (1,), [copy(1, 0)]),
    transaction((1,), (1, 2), [take(1, 100)]),
)


# Reached by calls -----------------------------------------------------------

def log_of(transactions):
    return b"".join(encode(transaction) for transaction in transactions)


def tens(N):
    return tuple(10 * (record + 1) for record in range(N))


def fresh(transactions, N=4, P=2, W=2, start=1, records=None):
    """A fresh store and a log that is not yet opened; the records are tens unless given."""
    tables = Tables(tens(N) if records is None else tuple(records), (NO_SLOT,) * N,
                    (EMPTY,) * TABLE_LENGTH, (0,) * TABLE_LENGTH)
    return Moment(engine.make(N, P, W, start)[1], tables, log_of(transactions))


def answered(moment, call, *given):
    """The answer of a call, and the moment after it."""
    answer, state, tables = outcome_of(case(moment, call, *given))
    return answer, Moment(state, tables, moment.log)


def after(moment, *calls):
    """The moment after these calls, none of which is refused."""
    for call in calls:
        answer, moment = answered(moment, *call)
        assert not isinstance(answer, Refused), (call, answer)
    return moment


def opened(transactions, **store):
    return after(fresh(transactions, **store), ("open",))


def placed_all(moment):
    for p in range(moment.state.P):
        while moment.state.placed[p] < moment.state.size:
            moment = after(moment, ("place", p))
    return moment


def planned(transactions, **store):
    return placed_all(opened(transactions, **store))


def run_through(moment, w, i):
    """The moment after worker w has claimed and completed transaction i."""
    moment = after(moment, ("claim", w, i))
    while not isinstance(moment.state.rows[i], Complete):
        moment = after(moment, ("advance", w))
    return moment


def done(transactions, **store):
    """Every transaction is Complete, the batch is not sealed."""
    moment = planned(transactions, **store)
    for i in range(len(transactions)):
        moment = run_through(moment, 0, i)
    return moment


# Changed by hand ------------------------------------------------------------

def with_state(moment, **changes):
    return replace(moment, state=replace(moment.state, **changes))


def with_tables(moment, **changes):
    return replace(moment, tables=replace(moment.tables, **changes))


def with_placed(moment, p, count):
    return with_state(moment, placed=replaced(moment.state.placed, p, count))


def with_row(moment, i, row):
    return with_state(moment, rows=replaced(moment.state.rows, i, row))


def with_worker(moment, w, **changes):
    worker = replace(moment.state.crew[w], **changes)
    return with_state(moment, crew=replaced(moment.state.crew, w, worker))


def with_newest(moment, record, slot):
    return with_tables(moment, newest=replaced(moment.tables.newest, record, slot))


def with_version(moment, slot, **changes):
    version = replace(moment.tables.versions[slot], **changes)
    return with_tables(moment, versions=replaced(moment.tables.versions, slot, version))


def with_entry(moment, i, entry):
    """The log with other bytes for transaction i."""
    return replace(moment, log=moment.log[: 88 * i] + entry + moment.log[88 * i + 88 :])


USUAL = {"records": 0, "newest": NO_SLOT, "versions": EMPTY, "results": 0}


def with_length(moment, table, length):
    """The table cut or filled up with its usual entry."""
    entries = getattr(moment.tables, table)[:length]
    filled = entries + (USUAL[table],) * (length - len(entries))
    return with_tables(moment, **{table: filled})


def with_N(moment, N):
    """Another N, right or wrong, with tables of that length."""
    return with_state(with_length(with_length(moment, "records", N), "newest", N), N=N)


def with_chain(moment, record, slots, last=NO_SLOT):
    """The record's chain from its newest slot back, each begun at its transaction's position."""
    end = 2**64 - 1
    for slot, previous in zip(slots, [*slots[1:], last]):
        begin = moment.state.next + slot // 4
        entry = Version(begin, end, previous, 1000 + slot, True)
        versions = replaced(moment.tables.versions, slot, entry)
        moment, end = with_tables(moment, versions=versions), begin
    return with_newest(moment, record, slots[0])


# Offered steps --------------------------------------------------------------

def useful_steps(state):
    """The steps that checks 9 to 13 let pass."""
    if not is_planned(state):
        return [("place", p) for p in range(state.P) if state.placed[p] < state.size]
    idle = [w for w in range(state.W) if is_idle(state.crew[w])]
    free = [i for i in range(state.size) if isinstance(state.rows[i], Unprocessed)]
    steps = [("claim", w, i) for w in idle for i in free]
    steps += [("advance", w) for w in range(state.W) if w not in idle] * 3
    return steps + [("seal",)] * is_done(state)


def any_step(chance, state):
    """A step with numbers that are mostly small, whatever the state."""
    number = chance.choice((0, 1, state.P - 1, state.W - 1, state.P, state.W, 8, 2**64 - 1))
    i = chance.choice((0, 1, max(state.size, 1) - 1, state.size, 64, 256))
    return chance.choice((("place", number), ("claim", number, i), ("advance", number), ("seal",),
                          ("open",)))
