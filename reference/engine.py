"""The engine of document 01: making, opening, the four steps and the seal.

Sentences in quotation marks are document 01's. "Reading" is a number in the
list of readings of document 01.

States and tables are values: a call answers with new ones, and those it was
given keep their contents. A call takes any state and any tables, also such as
no run reaches.
"""

from dataclasses import dataclass, replace
from functools import cache, wraps

from counters import decide
from packed import ENTRY_LENGTH, LARGEST_N, decode, first_refusal, part, read_set, write_set

NO_SLOT = 65_535                 # "a slot or 65,535 for none"
NO_END = 2**64 - 1               # '2^64 - 1 stands for "no end"'
LARGEST_P = LARGEST_W = 8        # "P partitions, W workers, each 1 to 8"
LARGEST_SIZE = 64                # 14: "n above 64"
LARGEST_COUNT = 4                # 14: "one of its counts above 4"
TABLE_LENGTH = 256               # "256 versions", "256 numbers"
LARGEST_LOG = 5632               # 2: "above 5,632"


# What the engine holds ------------------------------------------------------

@dataclass(frozen=True)
class Version:
    """An entry: "begin, end, previous slot, contents and a produced mark"."""
    begin: int
    end: int
    previous: int
    contents: int
    produced: bool


# "empty entries (begin, end and contents 0, previous 65,535, not produced)"
EMPTY = Version(0, 0, NO_SLOT, 0, False)


@dataclass(frozen=True)
class Tables:
    """What the caller lends, besides the log."""
    records: tuple
    newest: tuple
    versions: tuple
    results: tuple


# "A transaction is Unprocessed, Executing by a named worker, or Complete with an outcome"

@dataclass(frozen=True)
class Unprocessed:
    pass


@dataclass(frozen=True)
class Executing:
    worker: int


@dataclass(frozen=True)
class Complete:
    outcome: str


# "A worker is idle; or holds a transaction and the values read so far; or, once decided, also
# outcome, new contents, carry marks and how many carries and fills are done." Counts belong to a
# worker that has them (reading 3).

@dataclass(frozen=True)
class Idle:
    pass


@dataclass(frozen=True)
class Reading:
    values: int          # how many values are read


@dataclass(frozen=True)
class Decided:
    outcome: str
    values: int
    carries: int         # how many are done
    fills: int           # how many are done


@dataclass(frozen=True)
class Worker:
    """Every phase has the other fields; an idle worker's are never looked at."""
    phase: object
    transaction: int
    values: tuple        # four numbers
    contents: tuple      # four numbers, one for each write place
    carried: tuple       # four marks, one for each write place


# "An idle worker is the same everywhere: all zero." (reading 3)
IDLE_WORKER = Worker(Idle(), 0, (0,) * 4, (0,) * 4, (False,) * 4)


@dataclass(frozen=True)
class State:
    N: int
    P: int
    W: int
    next: int            # F, the next position
    size: int            # n, "0 when no batch is open"
    batch: int
    placed: tuple        # for each of 8 partitions
    rows: tuple          # for each of 64 transactions
    crew: tuple          # 8 workers


# "counts 0, transactions Unprocessed, workers idle"
NOTHING_DONE = {"placed": (0,) * LARGEST_P, "rows": (Unprocessed(),) * LARGEST_SIZE,
                "crew": (IDLE_WORKER,) * LARGEST_W}
ZERO_STATE = State(0, 0, 0, 0, 0, 0, **NOTHING_DONE)


# Answers and refusals -------------------------------------------------------

@dataclass(frozen=True)
class Accepted:
    pass


@dataclass(frozen=True)
class Waits:
    position: int


@dataclass(frozen=True)
class Refused:
    number: int
    place: int


class Refusal(Exception):
    """Ends a call at the first check that fails."""


def refuse_if(wrong, number, place=0):
    """A refusal has "its number and a place (transaction index for 4-8, else 0)"."""
    if wrong:
        raise Refusal(Refused(number, place))


def keeps_all_if_refused(call):
    """Of a refused call: "State and all tables keep their contents"."""
    @wraps(call)
    def answered(state, tables, *given):
        try:
            return call(state, tables, *given)
        except Refusal as refusal:
            return refusal.args[0], state, tables
    return answered


def replaced(items, index, item):
    """The items with another one at this index."""
    return items[:index] + (item,) + items[index + 1 :]


# Check 1: "a lent table's length is wrong" ----------------------------------

# Which call is lent which tables (reading 1). A claim is lent none.
LENT = {
    "open": ("newest", "versions", "results"),
    "place": ("newest", "versions"),
    "advance": ("records", "newest", "versions", "results"),
    "seal": ("records", "newest", "versions"),
}


def proper_length(state, table):
    """Lengths are judged "against the state's N and the fixed 256" (reading 1)."""
    return state.N if table in ("records", "newest") else TABLE_LENGTH


def check_lengths(state, tables, call):
    for table in LENT[call]:
        refuse_if(len(getattr(tables, table)) != proper_length(state, table), 1)


# Check 14: "the state has a number out of range" ----------------------------

def is_idle(worker):
    return isinstance(worker.phase, Idle)


def counts_of(phase):
    """The counts that a worker of this phase has."""
    if isinstance(phase, Reading):
        return [phase.values]
    if isinstance(phase, Decided):
        return [phase.values, phase.carries, phase.fills]
    return []


def holds(state, w, i):
    """Worker w holds transaction i. Of number 8 or more "there is nobody" (reading 8)."""
    return w < LARGEST_W and not is_idle(state.crew[w]) and state.crew[w].transaction == i


def number_out_of_range(state):
    """14: "N, P, W; n above 64; F zero or F + n above 2^64 - 1; batch number not below F"."""
    return (not 1 <= state.N <= LARGEST_N
            or not 1 <= state.P <= LARGEST_P
            or not 1 <= state.W <= LARGEST_W
            or state.size > LARGEST_SIZE
            or state.next == 0
            or state.next + state.size > NO_END
            or state.batch >= state.next)


def placed_out_of_range(state):
    """14: "a placed count above n, or not 0 past P"."""
    return (any(count > state.size for count in state.placed[: state.P])
            or any(count != 0 for count in state.placed[state.P :]))


def worker_out_of_range(state, w):
    worker = state.crew[w]
    if is_idle(worker):
        return False
    return (w >= state.W                                    # "a worker past W not idle"
            or worker.transaction >= state.size             # "transaction not below n"
            or any(count > LARGEST_COUNT for count in counts_of(worker.phase))
            # "a worker holding a transaction that is not Executing by it"
            or state.rows[worker.transaction] != Executing(w))


def row_out_of_range(state):
    """14: "a transaction below n Executing by a worker that does not hold it"."""
    return any(isinstance(row, Executing) and not holds(state, row.worker, i)
               for i, row in enumerate(state.rows[: state.size]))


def check_state(state):
    refuse_if(number_out_of_range(state), 14)
    refuse_if(placed_out_of_range(state), 14)
    refuse_if(any(worker_out_of_range(state, w) for w in range(LARGEST_W)), 14)
    refuse_if(row_out_of_range(state), 14)


# Moments, for check 9 -------------------------------------------------------

def is_open(state):
    return state.size != 0


def is_planned(state):
    """The end of planning: "every partition has placed all n"."""
    return all(count == state.size for count in state.placed[: state.P])


def is_done(state):
    """The moment to seal: "every transaction is Complete"."""
    return all(isinstance(row, Complete) for row in state.rows[: state.size])


# Checks 2 and 4 to 8 --------------------------------------------------------

def check_log(state, log):
    """2, once a batch is open: "length not 88n"."""
    refuse_if(len(log) != ENTRY_LENGTH * state.size, 2)


@cache       # every step looks at an entry again, and says the same of it
def judged(N, entry):
    """The first of 4 to 8 that the entry fails, or None; its meaning."""
    return first_refusal(N, entry), decode(entry)


def check_transaction(state, log, i):
    """Transaction i's 4 to 8; its meaning."""
    number, meaning = judged(state.N, part(log, 0, ENTRY_LENGTH, i))
    refuse_if(number is not None, number, i)
    return meaning


# Making and opening ---------------------------------------------------------

def make(N, P, W, start):
    """A fresh store. "A refused making ... hands back the all-zero store"."""
    proper = (1 <= N <= LARGEST_N and 1 <= P <= LARGEST_P and 1 <= W <= LARGEST_W
              and 1 <= start <= NO_END)      # "its next position from the caller (1 to 2^64 - 1)
    if not proper:
        return Refused(1, 0), ZERO_STATE
    return Accepted(), State(N, P, W, start, 0, 0, **NOTHING_DONE)   # and batch number 0"


@keeps_all_if_refused
def open(state, tables, log):
    """Its order: "1, 14, 9, 2, 3, then each transaction in turn 4 to 8"."""
    check_lengths(state, tables, "open")                                    # 1
    check_state(state)                                                      # 14
    refuse_if(is_open(state), 9)                # "opening with a batch open"
    # "length 0, above 5,632, or no multiple of 88"
    refuse_if(len(log) == 0 or len(log) > LARGEST_LOG or len(log) % ENTRY_LENGTH != 0, 2)
    size = len(log) // ENTRY_LENGTH
    refuse_if(state.next + size > NO_END, 3)    # "F + n above 2^64 - 1"
    for i in range(size):
        check_transaction(state, log, i)                                    # 4 to 8
    # "all transactions Unprocessed, all workers idle"; the counts are 0 by check 14
    state = replace(state, size=size, rows=NOTHING_DONE["rows"], crew=NOTHING_DONE["crew"])
    return Accepted(), state, replace(emptied(tables), results=(0,) * TABLE_LENGTH)


def emptied(tables):
    """The newest-version table filled "with 65,535, the version table with empty entries"."""
    return replace(tables, newest=(NO_SLOT,) * len(tables.newest),
                   versions=(EMPTY,) * len(tables.versions))


# Place ----------------------------------------------------------------------

@keeps_all_if_refused
def place(state, tables, log, p):
    """Partition p "takes the partition's next transaction"."""
    check_lengths(state, tables, "place")                                   # 1
    check_state(state)                                                      # 14
    refuse_if(not is_open(state) or is_planned(state), 9)  # "place outside planning"
    refuse_if(p >= state.P, 10)                            # "no such partition"
    refuse_if(state.placed[p] == state.size, 11)           # "the partition has placed all"
    i = state.placed[p]
    check_log(state, log)                                                   # 2
    transaction = check_transaction(state, log, i)                          # 4 to 8
    # "Record r belongs to partition r mod P.", "Write j of transaction i always uses slot 4i + j."
    links = [(record, 4 * i + j) for j, record in enumerate(write_set(transaction))
             if record % state.P == p]
    for record, slot in links:       # looked for in all before the first is linked (reading 6)
        met = tables.newest[record]
        # "a slot met in placing is not below its own"
        refuse_if(met != NO_SLOT and met >= slot, 15)
    for record, slot in links:
        tables = linked(tables, record, slot, state.next + i)
    return Accepted(), replace(state, placed=replaced(state.placed, p, i + 1)), tables


def linked(tables, record, slot, position):
    """One write linked. The entry's contents stay as they are (reading 2)."""
    preceding = tables.newest[record]
    versions = tables.versions
    # "begin is its position, end 2^64 - 1, previous is the newest slot, not produced;
    entry = replace(versions[slot], begin=position, end=NO_END, previous=preceding, produced=False)
    versions = replaced(versions, slot, entry)
    if preceding != NO_SLOT:         # a preceding entry's end becomes this position;
        ended = replace(versions[preceding], end=position)
        versions = replaced(versions, preceding, ended)
    # the new slot becomes newest."
    return replace(tables, versions=versions, newest=replaced(tables.newest, record, slot))


# Claim ----------------------------------------------------------------------

@keeps_all_if_refused
def claim(state, tables, w, i):
    """Worker w takes transaction i. No table is lent, so that there is no check 1."""
    check_state(state)                                                      # 14
    # "claim or advance before planning ends or with none open"
    refuse_if(not is_open(state) or not is_planned(state), 9)
    refuse_if(w >= state.W or i >= state.size, 10)         # "no such ... worker or transaction"
    refuse_if(not is_idle(state.crew[w]), 12)              # "claim by a busy worker"
    refuse_if(state.rows[i] != Unprocessed(), 13)          # "that is not Unprocessed"
    worker = replace(IDLE_WORKER, phase=Reading(0), transaction=i)
    return Accepted(), with_worker(with_row(state, i, Executing(w)), w, worker), tables


def with_row(state, i, row):
    return replace(state, rows=replaced(state.rows, i, row))


def with_worker(state, w, worker):
    return replace(state, crew=replaced(state.crew, w, worker))


# Advance --------------------------------------------------------------------

@keeps_all_if_refused
def advance(state, tables, log, w):
    """Worker w does "one of: read the next declared read; with none left, decide; carry the
    next carried write; fill the next write"."""
    check_lengths(state, tables, "advance")                                 # 1
    check_state(state)                                                      # 14
    refuse_if(not is_open(state) or not is_planned(state), 9)
    refuse_if(w >= state.W, 10)                            # "no such ... worker"
    worker = state.crew[w]
    refuse_if(is_idle(worker), 12)                         # "advance by an idle one"
    check_log(state, log)                                                   # 2
    transaction = check_transaction(state, log, worker.transaction)         # 4 to 8
    check_worker(worker, transaction)                                       # 15
    if isinstance(worker.phase, Decided):
        if worker.phase.carries < sum(worker.carried):     # "Carries all come before fills"
            return carry(state, tables, w, transaction)
        return fill(state, tables, w, transaction)
    if worker.phase.values < transaction.read_count:
        return read(state, tables, w, transaction)
    return decide_now(state, tables, w, transaction)


def check_worker(worker, transaction):
    """15: a worker that does not fit its transaction."""
    phase = worker.phase
    refuse_if(phase.values > transaction.read_count, 15)   # "more values than declared reads"
    if isinstance(phase, Reading):
        return
    marks = sum(worker.carried)
    # "a carry mark past the write count, more carries done than marks,
    refuse_if(any(worker.carried[transaction.write_count :]), 15)
    refuse_if(phase.carries > marks, 15)
    # a fill done before the last carry, or no fill left"
    refuse_if(phase.fills > 0 and phase.carries < marks, 15)
    refuse_if(phase.carries == marks and phase.fills >= transaction.write_count, 15)


def read(state, tables, w, transaction):
    worker = state.crew[w]
    k = worker.phase.values
    value = seen(state, tables, read_set(transaction)[k], state.next + worker.transaction)
    if isinstance(value, Waits):
        return dropped(state, tables, w, value)
    worker = replace(worker, phase=Reading(k + 1), values=replaced(worker.values, k, value))
    return Accepted(), with_worker(state, w, worker), tables


def carry(state, tables, w, transaction):
    """The next carried write, "in write-set order", takes "the preceding version's contents"."""
    worker = state.crew[w]
    done = worker.phase.carries
    j = [place for place in range(LARGEST_COUNT) if worker.carried[place]][done]
    value = seen(state, tables, write_set(transaction)[j], state.next + worker.transaction)
    if isinstance(value, Waits):
        return dropped(state, tables, w, value)
    worker = replace(worker, phase=replace(worker.phase, carries=done + 1),
                     contents=replaced(worker.contents, j, value))
    return Accepted(), with_worker(state, w, worker), tables


def seen(state, tables, record, t):
    """What "a read or carry at position t" finds: a number, or Waits.

    It "walks from the newest slot back to the first version with begin < t; past the last one
    lies the stored record". Only slots really followed are judged (reading 7).
    """
    slot, limit = tables.newest[record], 4 * state.size
    while slot != NO_SLOT:
        # "neither 65,535 nor below 4n, or does not fall along the chain"
        refuse_if(slot >= limit, 15)
        version = tables.versions[slot]
        if version.begin < t:
            # 'If it is not produced, the answer is "waits for" its begin'
            return version.contents if version.produced else Waits(version.begin)
        slot, limit = version.previous, slot
    return tables.records[record]


def dropped(state, tables, w, waits):
    """A wait: the worker "becomes idle, the transaction becomes Unprocessed"."""
    state = with_row(state, state.crew[w].transaction, Unprocessed())
    return waits, with_worker(state, w, IDLE_WORKER), tables


def decide_now(state, tables, w, transaction):
    """Deciding "runs the actions on the values read, choosing outcome, new contents ... and
    carries"."""
    worker = state.crew[w]
    decision = decide(transaction, worker.values)
    phase = Decided(decision.outcome, worker.phase.values, 0, 0)
    worker = replace(worker, phase=phase, contents=decision.contents, carried=decision.carries)
    state = with_worker(state, w, worker)
    if transaction.write_count == 0:     # "or the decision when there are no writes, completes"
        return completed(state, tables, w)
    return Accepted(), state, tables


def fill(state, tables, w, transaction):
    """The next write: it "stores contents and marks produced"."""
    worker = state.crew[w]
    j = worker.phase.fills
    slot = 4 * worker.transaction + j
    filled = replace(tables.versions[slot], contents=worker.contents[j], produced=True)
    tables = replace(tables, versions=replaced(tables.versions, slot, filled))
    if j + 1 == transaction.write_count:         # "The last fill ... completes the transaction"
        return completed(state, tables, w)
    worker = replace(worker, phase=replace(worker.phase, fills=j + 1))
    return Accepted(), with_worker(state, w, worker), tables


def completed(state, tables, w):
    """The "four result numbers at 4i are the values read, then zeros, and the worker becomes
    idle". The values read are those that the worker has (reading 4)."""
    worker = state.crew[w]
    i, count = worker.transaction, worker.phase.values
    four_results = worker.values[:count] + (0,) * (4 - count)
    results = tables.results[: 4 * i] + four_results + tables.results[4 * i + 4 :]
    state = with_row(state, i, Complete(worker.phase.outcome))
    return Accepted(), with_worker(state, w, IDLE_WORKER), replace(tables, results=results)


# Seal -----------------------------------------------------------------------

@keeps_all_if_refused
def seal(state, tables):
    """Its order: "The seal checks 1, 14, 9, 15"."""
    check_lengths(state, tables, "seal")                                    # 1
    check_state(state)                                                      # 14
    refuse_if(not is_open(state) or not is_done(state), 9)  # "none open or something not Complete"
    for slot in tables.newest:
        if slot != NO_SLOT:
            refuse_if(slot >= 4 * state.size, 15)
            # "at the seal, a newest version is not produced"
            refuse_if(not tables.versions[slot].produced, 15)
    # "Each record with a newest version takes its contents."
    records = tuple(contents if slot == NO_SLOT else tables.versions[slot].contents
                    for contents, slot in zip(tables.records, tables.newest))
    # "the next position rises by n, the batch number by 1, and n and all placed counts become 0"
    state = replace(state, next=state.next + state.size, batch=state.batch + 1, size=0,
                    placed=NOTHING_DONE["placed"])
    return Accepted(), state, replace(emptied(tables), records=records)
