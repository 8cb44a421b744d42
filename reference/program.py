"""The program of document 01: what it prints from records.bin, log.bin and steps.bin.

Usage: python3 reference/program.py FOLDER

Sentences in quotation marks are document 01's. The README lists how this file
reads what the document leaves open.
"""

import os
import sys
from dataclasses import dataclass, replace

import engine
from engine import (EMPTY, NO_SLOT, TABLE_LENGTH, Accepted, Complete, Refused, State, Tables,
                    Waits)
from packed import ENTRY_LENGTH, decode, little, number, part, read_set

PARTITIONS = WORKERS = 2     # "P and W are 2, first position 1"
FIRST_POSITION = 1
NUMBER_LENGTH = 8            # "records.bin (8-byte numbers)"
STEP_LENGTH = 4              # "4 bytes a step"
FILES = ("records.bin", "log.bin", "steps.bin")

# "kind 1 place, 2 claim, 3 advance, 4 seal"
PLACE, CLAIM, ADVANCE, SEAL = 1, 2, 3, 4


def step_bytes(kind, party=0, transaction=0):
    """A step: kind, "party; 16-bit transaction, zero except for a claim"."""
    return bytes([kind, party]) + little(transaction, 2)


def record_bytes(records):
    return b"".join(little(contents, NUMBER_LENGTH) for contents in records)


# A batch worked off by steps ------------------------------------------------

@dataclass(frozen=True)
class Run:
    """A store with one batch, and what became of the steps offered so far."""
    refused: int         # the number of a refused making or opening, else 0
    first: int           # the position of transaction 0
    log: bytes
    state: State
    tables: Tables
    sealed: bool = False
    steps: int = 0
    refusals: int = 0
    waits: int = 0


def opening(records, log, partitions, workers, first):
    """A store of these records that has opened this log, or the number that refuses it."""
    tables = Tables(tuple(records), (NO_SLOT,) * len(records), (EMPTY,) * TABLE_LENGTH,
                    (0,) * TABLE_LENGTH)
    made, state = engine.make(len(records), partitions, workers, first)
    if isinstance(made, Refused):
        return Run(made.number, first, log, state, tables)
    opened, state, tables = engine.open(state, tables, log)
    return Run(opened.number if isinstance(opened, Refused) else 0, first, log, state, tables)


def belongs(kind, transaction):
    """No "step of another kind, or with a nonzero transaction where none belongs"."""
    return kind == CLAIM or kind in (PLACE, ADVANCE, SEAL) and transaction == 0


def answer_to(run, step):
    """The engine's answer to four bytes, with the state and the tables after it."""
    kind, party, transaction = step[0], step[1], number(step[2:4])
    state, tables = run.state, run.tables
    if not belongs(kind, transaction):
        return None, state, tables
    if kind == PLACE:
        return engine.place(state, tables, run.log, party)
    if kind == CLAIM:
        return engine.claim(state, tables, party, transaction)
    if kind == ADVANCE:
        return engine.advance(state, tables, run.log, party)
    return engine.seal(state, tables)        # "a seal's party is not read"


def offered(run, step):
    """The run after one more step."""
    answer, state, tables = answer_to(run, step)
    accepted_seal = step[0] == SEAL and answer == Accepted()
    return replace(run, state=state, tables=tables, steps=run.steps + 1,
                   refusals=run.refusals + (answer is None or isinstance(answer, Refused)),
                   waits=run.waits + isinstance(answer, Waits), sealed=run.sealed or accepted_seal)


def run_batch(records, log, steps, partitions, workers, first):
    """All steps offered, unless the opening is refused. "A short last step is dropped"."""
    run = opening(records, log, partitions, workers, first)
    if run.refused:
        return run
    for k in range(len(steps) // STEP_LENGTH):   # "Steps after an accepted seal are still offered."
        run = offered(run, part(steps, 0, STEP_LENGTH, k))
    return run


# What is printed ------------------------------------------------------------

def transaction_lines(run):
    """Each has "position, outcome and values read"."""
    for i in range(len(run.log) // ENTRY_LENGTH):
        reads = read_set(decode(part(run.log, 0, ENTRY_LENGTH, i)))
        row = run.state.rows[i]
        assert isinstance(row, Complete), "only a sealed batch is told"
        values = run.tables.results[4 * i : 4 * i + len(reads)]
        yield " ".join(["tx", str(run.first + i), row.outcome, *map(str, values)])


def record_lines(run):
    """Each has "number and contents"."""
    return (f"rec {record} {contents}" for record, contents in enumerate(run.tables.records))


def lines(run):
    if run.refused:                              # 'prints only "refused" and the number'
        return [f"refused {run.refused}"]
    told = [*transaction_lines(run), *record_lines(run)] if run.sealed else ["not sealed"]
    return [*told, f"steps {run.steps} refused {run.refusals} waits {run.waits}"]


def read_records(records_file):
    """The records, or None: "a length that gives no proper N is a refused opening with 1"."""
    if len(records_file) % NUMBER_LENGTH:
        return None
    return [number(part(records_file, 0, NUMBER_LENGTH, r))
            for r in range(len(records_file) // NUMBER_LENGTH)]


def printed(records_file, log_file, steps_file):
    """The whole output for the bytes of the three files."""
    records = read_records(records_file)
    if records is None:
        return "refused 1\n"
    run = run_batch(records, log_file, steps_file, PARTITIONS, WORKERS, FIRST_POSITION)
    return "".join(line + "\n" for line in lines(run))


def file_bytes(folder, name):
    """ "A missing file counts as empty." """
    path = os.path.join(folder, name)
    if not os.path.exists(path):
        return b""
    with open(path, "rb") as file:
        return file.read()


if __name__ == "__main__":
    print(printed(*(file_bytes(sys.argv[1], name) for name in FILES)), end="")
