"""Which refusal an opening gives, at which byte, and in words.

The rules are those of reference/packed.py; here each also says where it fails.
"""

import os
import sys
from dataclasses import dataclass

sys.path.insert(0, os.path.join(os.path.dirname(os.path.abspath(__file__)), "..", "reference"))

from packed import (ACTION_FIELDS, ACTION_LENGTH, ACTIONS_AT, ENTRY_LENGTH, KINDS, LARGEST_COUNT, LARGEST_N,
                    READS_AT, RECORD_LENGTH, WRITES_AT, bytes_that_must_be_zero, decode, kind_bytes, kind_of,
                    part, read_set, write_set)

LARGEST_LOG = 64 * ENTRY_LENGTH
ANY_RECORD = 2**16       # an N that every record number is below


@dataclass(frozen=True)
class Fault:
    """A refusal, where it is found (a byte of its file, or of its entry) and why."""
    number: int
    file: str
    at: int
    words: str
    transaction: int | None = None       # its index, for 4 to 8

    def told(self):
        which = "" if self.transaction is None else f", transaction {self.transaction}"
        return f"refused by {self.number}{which}: {self.words}"


# One entry: 4 to 8, each looked for in the whole entry before the next -------

def fault_4(entry):
    """A count, a kind or a byte that must be zero."""
    for at, name in enumerate(("read", "write", "action")):
        if entry[at] > LARGEST_COUNT:
            return at, f"the {name} count is {entry[at]}, and the most is 4"
    for k, kind in enumerate(kind_bytes(entry)):
        if kind not in KINDS:
            return ACTIONS_AT + ACTION_LENGTH * k, f"action {k} is of kind {kind}, and the kinds are 1 to 6"
    for at in sorted(bytes_that_must_be_zero(entry)):
        if entry[at]:
            return at, f"byte {at} of the entry is {entry[at]}, and must be zero"
    return None


def declared(meaning):
    """Byte, record and set of each declared record."""
    sets = ((READS_AT, read_set(meaning), "read"), (WRITES_AT, write_set(meaning), "write"))
    return [(start + RECORD_LENGTH * k, record, name)
            for start, records, name in sets for k, record in enumerate(records)]


def used(meaning, how):
    """Byte, record and kind of each record that actions read, or write: `how` is a column of the table."""
    return [(ACTIONS_AT + ACTION_LENGTH * k + ACTION_FIELDS[field].start, getattr(action, field), action.kind)
            for k, action in enumerate(meaning.actions[: meaning.action_count])
            for field in getattr(kind_of(action), how)]


def fault_5(N, meaning):
    for at, record, name in declared(meaning):
        if record >= N:
            return at, f"record {record} in the {name} set, and the records end at {N - 1}"
    for at, record, kind in sorted(used(meaning, "reads") + used(meaning, "writes")):
        if record >= N:
            return at, f"{kind} uses record {record}, and the records end at {N - 1}"
    return None


def fault_6(meaning):
    places = declared(meaning)
    for (_, record, name), (at, after, name_after) in zip(places, places[1:]):
        if name == name_after and after <= record:
            return at, f"the {name} set does not ascend: {after} after {record}"
    return None


def fault_7_or_8(meaning, how, records, verb):
    for at, record, kind in used(meaning, how):
        if record not in records:
            return at, f"{kind} {verb} record {record}, which is not declared"
    return None


def entry_fault(N, entry):
    """The first of 4 to 8 that 88 bytes fail: number, byte and words; or None."""
    found = fault_4(entry)
    if found:
        return 4, *found
    meaning = decode(entry)
    checks = ((5, lambda: fault_5(N, meaning)), (6, lambda: fault_6(meaning)),
              (7, lambda: fault_7_or_8(meaning, "reads", read_set(meaning), "reads")),
              (8, lambda: fault_7_or_8(meaning, "writes", write_set(meaning), "writes")))
    for number, check in checks:
        found = check()
        if found:
            return number, *found
    return None


# An opening: 1, 2, then each transaction in turn ----------------------------

def record_count(records_file):
    """N, or None for a length that gives no proper one."""
    N, rest = divmod(len(records_file), 8)
    return N if rest == 0 and 1 <= N <= LARGEST_N else None


def records_fault(records_file):
    if record_count(records_file) is not None:
        return None
    N, rest = divmod(len(records_file), 8)
    words = (f"records.bin has {len(records_file)} bytes, no multiple of 8" if rest
             else f"there are {N} records, and 1 to 1,024 are proper")
    return Fault(1, "records.bin", min(8 * N, 8 * LARGEST_N), words)


def log_fault(log_file):
    """2: "length 0, above 5,632, or no multiple of 88"."""
    size, rest = divmod(len(log_file), ENTRY_LENGTH)
    if rest:
        words = f"log.bin has {len(log_file)} bytes, no multiple of 88"
    elif not 1 <= size <= 64:
        words = f"there are {size} transactions, and 1 to 64 are proper"
    else:
        return None
    return Fault(2, "log.bin", min(ENTRY_LENGTH * size, LARGEST_LOG), words)


def transaction_fault(N, log_file, i):
    found = entry_fault(N, part(log_file, 0, ENTRY_LENGTH, i))
    if found is None:
        return None
    number, at, words = found
    return Fault(number, "log.bin", ENTRY_LENGTH * i + at, words, i)


def opening_fault(records_file, log_file):
    """The refusal of the program's opening, or None. Its first position is 1, so 3 cannot arise."""
    early = records_fault(records_file) or log_fault(log_file)
    if early:
        return early
    N = record_count(records_file)
    faults = (transaction_fault(N, log_file, i) for i in range(len(log_file) // ENTRY_LENGTH))
    return next(filter(None, faults), None)
