"""What happens in a batch, for the picture of the listing: read off a run of the reference."""

import os
import sys
from dataclasses import dataclass

ROOT = os.path.join(os.path.dirname(os.path.abspath(__file__)), "..")
sys.path[:0] = [os.path.join(ROOT, "reference"), os.path.join(ROOT, "tools")]

from batch_shown import transaction_text
from engine import NO_END, NO_SLOT, Reading, Waits, is_done
from packed import ENTRY_LENGTH, decode, part, write_set
from program import (ADVANCE, CLAIM, FILES, FIRST_POSITION, PARTITIONS, PLACE, STEP_LENGTH, WORKERS, answer_to,
                     file_bytes, offered, opening, read_records)


@dataclass(frozen=True)
class Version:
    """A placeholder that became a version. `before` is the transaction of the preceding one, or None."""
    record: int
    transaction: int
    slot: int
    begin: int
    end: int | None
    contents: int
    before: int | None


@dataclass(frozen=True)
class Look:
    """A read or a carry: whose, of which record, and whose version it found (None: the stored record)."""
    what: str            # "read" or "carry"
    transaction: int
    record: int
    found: int | None
    value: int
    waited: bool


@dataclass(frozen=True)
class Turn:
    """What one step did: what is "place", "claim", "read", "decide", "carry", "fill", "waits" or "seal"."""
    what: str
    party: int
    transaction: int | None
    record: int | None = None        # of a read, of a carry and of a wait


@dataclass(frozen=True)
class Facts:
    stored: tuple
    sealed: tuple
    texts: tuple
    outcomes: tuple
    versions: tuple
    looks: tuple
    turns: tuple


# Steps ----------------------------------------------------------------------

def turn_of(run, step):
    """What this step does to this run; it is not refused."""
    kind, party = step[0], step[1]
    if kind == PLACE:
        return Turn("place", party, run.state.placed[party])
    if kind == CLAIM:
        return Turn("claim", party, step[2])
    if kind != ADVANCE:
        return Turn("seal", party, None)
    worker = run.state.crew[party]
    what, record = advance_of(worker, decode(part(run.log, 0, ENTRY_LENGTH, worker.transaction)))
    if isinstance(answer_to(run, step)[0], Waits):
        what = "waits"
    return Turn(what, party, worker.transaction, record)


def advance_of(worker, meaning):
    """What a worker does next, and with which record."""
    phase = worker.phase
    if isinstance(phase, Reading):
        return ("read", meaning.reads[phase.values]) if phase.values < meaning.read_count else ("decide", None)
    carried = [record for record, mark in zip(meaning.writes, worker.carried) if mark]
    return ("carry", carried[phase.carries]) if phase.carries < len(carried) else ("fill", None)


# Versions, and who finds which ----------------------------------------------

def versions_of(run):
    """Every version, when all are produced and the batch is not yet sealed."""
    for i in range(run.state.size):
        for j, record in enumerate(write_set(decode(part(run.log, 0, ENTRY_LENGTH, i)))):
            entry = run.tables.versions[4 * i + j]
            before = None if entry.previous == NO_SLOT else entry.previous // 4
            end = None if entry.end == NO_END else entry.end
            yield Version(record, i, 4 * i + j, entry.begin, end, entry.contents, before)


def look_of(stored, versions, turn, waited):
    """What a read or carry found: the version with the largest begin below its position, or what is stored."""
    earlier = [version for version in versions
               if version.record == turn.record and version.transaction < turn.transaction]
    if not earlier:
        return Look(turn.what, turn.transaction, turn.record, None, stored[turn.record], waited)
    found = max(earlier, key=lambda version: version.begin)
    return Look(turn.what, turn.transaction, turn.record, found.transaction, found.contents, waited)


def looks_of(stored, versions, turns):
    waits = {(turn.transaction, turn.record) for turn in turns if turn.what == "waits"}
    return tuple(look_of(stored, versions, turn, (turn.transaction, turn.record) in waits)
                 for turn in turns if turn.what in ("read", "carry"))


def facts(folder):
    """The facts of the batch in this folder, in which no step is refused."""
    records_file, log_file, steps_file = (file_bytes(folder, name) for name in FILES)
    run = opening(read_records(records_file), log_file, PARTITIONS, WORKERS, FIRST_POSITION)
    stored, turns, versions = run.tables.records, [], ()
    for k in range(len(steps_file) // STEP_LENGTH):
        step = part(steps_file, 0, STEP_LENGTH, k)
        turns.append(turn_of(run, step))
        run = offered(run, step)
        if is_done(run.state) and not run.sealed:
            versions = tuple(versions_of(run))
    size = len(log_file) // ENTRY_LENGTH
    texts = tuple(transaction_text(part(log_file, 0, ENTRY_LENGTH, i)) for i in range(size))
    outcomes = tuple(row.outcome for row in run.state.rows[:size])
    looks = looks_of(stored, versions, turns)
    return Facts(stored, run.tables.records, texts, outcomes, versions, looks, tuple(turns))
