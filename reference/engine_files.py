"""A case of the engine: one call with all it is given; its form in a file; its lines.

Numbers in a case file are 8 bytes, little-endian. The README says the form.
"""

from dataclasses import dataclass

import engine
from counters import ABORTED, COMMITTED
from engine import (EMPTY, IDLE_WORKER, NO_SLOT, TABLE_LENGTH, ZERO_STATE, Accepted, Complete,
                    Decided, Executing, Idle, Reading, State, Tables, Unprocessed, Version, Waits,
                    Worker)
from packed import little, number

CALLS = ("make", "open", "place", "claim", "advance", "seal")
TAKES_LOG = ("open", "place", "advance")
GIVEN = {"make": 4, "open": 0, "place": 1, "claim": 2, "advance": 1, "seal": 0}  # how many numbers

END_OF_TABLE = 2**64 - 1
END_OF_ROWS = 64
END_OF_CREW = 8
COMPLETE_CODES = {COMMITTED: 256, ABORTED: 257}
OUTCOME_CODES = {COMMITTED: 0, ABORTED: 1}
OUTCOMES = (COMMITTED, ABORTED)


@dataclass(frozen=True)
class Case:
    call: str
    given: tuple         # a, b, c, d as far as the call has them
    state: State
    tables: Tables
    log: bytes


NO_TABLES = Tables((), (), (EMPTY,) * TABLE_LENGTH, ())


def making(N, P, W, start):
    """A case of making: the state is all zero, the tables are as good as none."""
    return Case("make", (N, P, W, start), ZERO_STATE, NO_TABLES, b"")


def outcome_of(case):
    """The call made: the answer, the state and the tables after it."""
    if case.call == "make":
        answer, state = engine.make(*case.given)
        return answer, state, case.tables
    logs = (case.log,) if case.call in TAKES_LOG else ()
    return getattr(engine, case.call)(case.state, case.tables, *logs, *case.given)


# State and tables as numbers ------------------------------------------------

def row_code(row):
    return row.worker if isinstance(row, Executing) else COMPLETE_CODES[row.outcome]


def rows_numbers(rows):
    numbers = []
    for index, row in enumerate(rows):
        if not isinstance(row, Unprocessed):
            numbers += [index, row_code(row)]
    return numbers + [END_OF_ROWS]


def phase_numbers(worker):
    """Phase, transaction, outcome and the three counts; 0 where the phase has none."""
    phase = worker.phase
    if isinstance(phase, Idle):
        return [0, worker.transaction, 0, 0, 0, 0]
    if isinstance(phase, Reading):
        return [1, worker.transaction, 0, phase.values, 0, 0]
    return [2, worker.transaction, OUTCOME_CODES[phase.outcome],
            phase.values, phase.carries, phase.fills]


def crew_numbers(crew):
    numbers = []
    for index, worker in enumerate(crew):
        if worker != IDLE_WORKER:
            numbers += [index, *phase_numbers(worker), *worker.values, *worker.contents,
                        *map(int, worker.carried)]
    return numbers + [END_OF_CREW]


def state_numbers(state):
    return [state.N, state.P, state.W, state.next, state.size, state.batch, *state.placed,
            *rows_numbers(state.rows), *crew_numbers(state.crew)]


def sparse(table, usual, numbers_of):
    """The length, then index and numbers of each entry that is not the usual one."""
    numbers = [len(table)]
    for index, entry in enumerate(table):
        if entry is not usual and entry != usual:    # most are the very same
            numbers += [index, *numbers_of(entry)]
    return numbers


def version_numbers(version):
    return [version.begin, version.end, version.previous, version.contents, int(version.produced)]


def itself(entry):
    return [entry]


def tables_numbers(tables):
    """The four tables in the order of the files, without their end marks."""
    return {
        "newest": sparse(tables.newest, NO_SLOT, itself),
        "versions": sparse(tables.versions, EMPTY, version_numbers),
        "records": sparse(tables.records, 0, itself),
        "results": sparse(tables.results, 0, itself),
    }


# A case in the case file, and its lines -------------------------------------

def case_record(case):
    given = case.given + (0,) * (4 - len(case.given))
    numbers = [CALLS.index(case.call), *given, *state_numbers(case.state)]
    for table in tables_numbers(case.tables).values():
        numbers += [*table, END_OF_TABLE]
    numbers.append(len(case.log))
    padding = bytes(-len(case.log) % 8)
    return b"".join(little(item, 8) for item in numbers) + case.log + padding


def answer_text(answer):
    if isinstance(answer, Accepted):
        return "accepted"
    if isinstance(answer, Waits):
        return f"waits {answer.position}"
    return f"refused {answer.number} at {answer.place}"


def line(name, numbers):
    return " ".join([name, *map(str, numbers)])


def answer(case):
    """The six lines of one case."""
    answered, state, tables = outcome_of(case)
    lines = [answer_text(answered), line("state", state_numbers(state))]
    lines += [line(name, numbers) for name, numbers in tables_numbers(tables).items()]
    return "\n".join(lines)


# Reading a case file back ---------------------------------------------------

class Reader:
    def __init__(self, data):
        self.data, self.at = data, 0

    def bytes(self, length):
        self.at += length
        return self.data[self.at - length : self.at]

    def number(self):
        return number(self.bytes(8))

    def numbers(self, count):
        return tuple(self.number() for _ in range(count))

    def at_end(self):
        return self.at == len(self.data)


def read_indexed(reader, length, usual, end_mark, read_entry):
    """Entries of which only those that are not the usual one stand in the file."""
    entries = [usual] * length
    while (index := reader.number()) != end_mark:
        entries[index] = read_entry(reader)
    return tuple(entries)


def read_row(reader):
    code = reader.number()
    for outcome, complete in COMPLETE_CODES.items():
        if code == complete:
            return Complete(outcome)
    return Executing(code)


def read_worker(reader):
    phase, transaction, outcome, values, carries, fills = reader.numbers(6)
    phases = (Idle(), Reading(values), Decided(OUTCOMES[outcome], values, carries, fills))
    arrays = [reader.numbers(4) for _ in range(3)]
    return Worker(phases[phase], transaction, *arrays[:2], tuple(map(bool, arrays[2])))


def read_state(reader):
    numbers, placed = reader.numbers(6), reader.numbers(8)
    rows = read_indexed(reader, 64, Unprocessed(), END_OF_ROWS, read_row)
    crew = read_indexed(reader, 8, IDLE_WORKER, END_OF_CREW, read_worker)
    return State(*numbers, placed, rows, crew)


def read_version(reader):
    *numbers, produced = reader.numbers(5)
    return Version(*numbers, bool(produced))


def read_table(reader, usual, read_entry):
    return read_indexed(reader, reader.number(), usual, END_OF_TABLE, read_entry)


def read_tables(reader):
    newest = read_table(reader, NO_SLOT, Reader.number)
    versions = read_table(reader, EMPTY, read_version)
    records = read_table(reader, 0, Reader.number)
    results = read_table(reader, 0, Reader.number)
    return Tables(records, newest, versions, results)


def read_case(reader):
    call = CALLS[reader.number()]
    given = reader.numbers(4)[: GIVEN[call]]
    state, tables = read_state(reader), read_tables(reader)
    length = reader.number()
    log = reader.bytes(length)
    reader.bytes(-length % 8)
    return Case(call, given, state, tables, log)


def read_cases(data):
    """The cases of a case file."""
    reader = Reader(data)
    while not reader.at_end():
        yield read_case(reader)
