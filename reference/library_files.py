"""A case of the C library: its form in a file, and its lines. The README says the form."""

from dataclasses import dataclass

from counters import ABORTED, COMMITTED
from engine import Complete
from packed import ENTRY_LENGTH, little, refusal
from program import Run, run_batch

CHECK, RUN = 1, 2
OUTCOME_NUMBERS = {COMMITTED: 1, ABORTED: 2}


@dataclass(frozen=True)
class Check:
    """One entry checked for so many records."""
    records: int
    entry: bytes


@dataclass(frozen=True)
class Batch:
    """One batch from its opening to its last step."""
    partitions: int
    workers: int
    first: int
    records: tuple
    log: bytes
    steps: bytes


def eights(*numbers):
    return b"".join(little(each, 8) for each in numbers)


def case_record(case):
    if isinstance(case, Check):
        return eights(CHECK, case.records, len(case.entry)) + case.entry
    return (eights(RUN, case.partitions, case.workers, case.first, len(case.records), len(case.log),
                   len(case.steps), *case.records)
            + case.log + case.steps)


# The lines ------------------------------------------------------------------

def run_of(case) -> Run:
    return run_batch(case.records, case.log, case.steps, case.partitions, case.workers, case.first)


def few(numbers):
    """Index and number of those that are not 0."""
    return [part for index, each in enumerate(numbers) if each for part in (index, each)]


def line(name, numbers):
    return " ".join([name, *map(str, numbers)])


def outcome_number(row):
    return OUTCOME_NUMBERS[row.outcome] if isinstance(row, Complete) else 0


def answer(case):
    """The lines of one case."""
    if isinstance(case, Check):
        # A lone entry is transaction 0, so its place is 0.
        return f"check {refusal(case.records, len(case.entry) == ENTRY_LENGTH, case.entry)} at 0"
    run = run_of(case)
    if run.refused:
        return f"run {run.refused} all kept"
    return "\n".join(["run 0", line("records", run.tables.records), line("results", few(run.tables.results)),
                      line("outcomes", few(map(outcome_number, run.state.rows))),
                      line("counts", (run.steps, run.refusals, run.waits, int(run.sealed)))])
