"""Transactions run one by one, and one transaction decided from the values it read.

Sentences in quotation marks are document 01's. Transactions are meanings that
packing accepts. The two halves share no rule but the wrapped sum, so that
they can be compared.
"""

from dataclasses import dataclass

from packed import read_set, write_set

COMMITTED, ABORTED = "committed", "aborted"


def wrapped(total):
    """A sum "wrapped at 2^64"."""
    return total % 2**64


def actions_within_count(transaction):
    return transaction.actions[: transaction.action_count]


# One by one: "without versions or workers" ----------------------------------

def act(action, records):
    """One action changes the records. False if it aborts."""
    r, s, c = action.r, action.s, action.c
    if action.kind == "set":
        records[r] = c                                  # "r becomes c"
    elif action.kind == "add":
        records[r] = wrapped(records[r] + c)            # "r + c, wrapped at 2^64"
    elif action.kind == "take":
        if records[r] < c:                              # "abort if r < c,
            return False
        records[r] = records[r] - c                     # else r - c"
    elif action.kind == "copy":
        records[r] = records[s]                         # "r becomes s"
    elif action.kind == "move":
        records[r] = wrapped(records[r] + records[s])   # "r becomes r + s wrapped,
        records[s] = 0                                  # then s becomes 0"
    elif action.kind == "floor":
        if records[r] < c:                              # "abort if r < c"
            return False
    return True


def one_step(transaction, records):
    """One transaction: its outcome, its values read and the records after it."""
    values = [records[record] for record in read_set(transaction)]
    changed = list(records)
    for action in actions_within_count(transaction):    # "Actions run in order"
        if not act(action, changed):
            return ABORTED, values, list(records)       # the changed copy is dropped
    return COMMITTED, values, changed


def one_by_one(transactions, records):
    """A log's transactions in order: their outcomes, their values read, the final records."""
    outcomes, values_read = [], []
    for transaction in transactions:
        outcome, values, records = one_step(transaction, records)
        outcomes.append(outcome)
        values_read.append(values)
    return outcomes, values_read, list(records)


# Deciding: it "runs the actions on the values read, choosing outcome, new
# contents (0 for a carried write until its carry) and carries" ---------------

@dataclass(frozen=True)
class Decision:
    """Contents and carry marks stand at the four write places: 0 and False past the count."""
    outcome: str
    contents: tuple
    carries: tuple


def writes_of(action, seen):
    """The writes of an action in order, each a record and its contents. None if it aborts.

    `seen` gives what the action sees in a record.
    """
    r, s, c = action.r, action.s, action.c
    if action.kind in ("take", "floor") and seen(r) < c:   # "abort if r < c"
        return None
    return {
        "set":   lambda: [(r, c)],
        "add":   lambda: [(r, wrapped(seen(r) + c))],
        "take":  lambda: [(r, seen(r) - c)],
        "copy":  lambda: [(r, seen(s))],
        "move":  lambda: [(r, wrapped(seen(r) + seen(s))), (s, 0)],
        "floor": lambda: [],
    }[action.kind]()


def all_writes(transaction, values):
    """The last contents of each record that an action reached. None if one aborts."""
    declared = read_set(transaction)
    written = {}

    def seen(record):
        """Actions "see earlier writes of their own transaction", else the value read."""
        return written[record] if record in written else values[declared.index(record)]

    for action in actions_within_count(transaction):
        writes = writes_of(action, seen)
        if writes is None:
            return None
        written.update(writes)
    return written


def decide(transaction, values):
    """The decision from the values read. "Values ... past a count are never looked at" (reading 5)."""
    written = all_writes(transaction, values)
    outcome = ABORTED if written is None else COMMITTED
    # "A declared write that no action reached, and every declared write of an
    # aborted transaction, is carried"
    kept = {} if written is None else written
    declared = write_set(transaction)
    past_count = 4 - len(declared)
    contents = [kept.get(record, 0) for record in declared] + [0] * past_count
    carries = [record not in kept for record in declared] + [False] * past_count
    return Decision(outcome, tuple(contents), tuple(carries))
