"""The packed transaction of document 01: its 88 bytes, its meaning, its refusals.

Sentences in quotation marks are document 01's. "Reading" is a number in the
list of readings of document 01.
"""

from dataclasses import dataclass

ENTRY_LENGTH = 88        # "A packed transaction: 88 bytes, no header"
LARGEST_N = 1024         # "N from 1 to 1,024"
LARGEST_COUNT = 4        # "each 0 to 4"

# Where the parts of an entry begin.
READS_AT = 4             # "Bytes 4-11: four 16-bit read record numbers."
WRITES_AT = 12           # "12-19: four write record numbers."
ACTIONS_AT = 24          # "24-87: four actions of 16 bytes"
RECORD_LENGTH = 2
ACTION_LENGTH = 16

# The bytes of an action: "kind (1), zero (1), record r (2), record s (2),
# zero (2), constant c (8)".
ACTION_FIELDS = {"r": range(2, 4), "s": range(4, 6), "c": range(8, 16)}
ACTION_ZEROS = (1, 6, 7)


# The table of six kinds -----------------------------------------------------

@dataclass(frozen=True)
class Kind:
    """One row of the table: the fields it reads, those it writes, its zero field."""
    name: str
    reads: tuple
    writes: tuple
    zero_field: str


KINDS = {
    1: Kind("set",   reads=(),         writes=("r",),     zero_field="s"),
    2: Kind("add",   reads=("r",),     writes=("r",),     zero_field="s"),
    3: Kind("take",  reads=("r",),     writes=("r",),     zero_field="s"),
    4: Kind("copy",  reads=("s",),     writes=("r",),     zero_field="c"),
    5: Kind("move",  reads=("r", "s"), writes=("r", "s"), zero_field="c"),
    6: Kind("floor", reads=("r",),     writes=(),         zero_field="s"),
}

NUMBER_OF_KIND = {kind.name: number for number, kind in KINDS.items()}


def kind_of(action):
    """The row of the table for an action that is not "nothing"."""
    return KINDS[NUMBER_OF_KIND[action.kind]]


def operands(kind):
    """The fields a kind has: all but its zero field."""
    return [field for field in ("r", "s", "c") if field != kind.zero_field]


# The meaning ----------------------------------------------------------------

@dataclass(frozen=True)
class Action:
    """An action. A field that its kind does not have is 0."""
    kind: str            # "nothing" or a name from the table
    r: int = 0
    s: int = 0
    c: int = 0


NOTHING = Action("nothing")


@dataclass(frozen=True)
class Transaction:
    """The meaning of an entry. Counts are single bytes, 0 to 255 (reading 11)."""
    read_count: int
    write_count: int
    action_count: int
    reads: tuple         # four record numbers
    writes: tuple        # four record numbers
    actions: tuple       # four actions


ZERO_MEANING = Transaction(0, 0, 0, (0,) * 4, (0,) * 4, (NOTHING,) * 4)


# Bytes to meaning and back --------------------------------------------------

def number(some_bytes):
    """Bytes as a number: "numbers are little-endian"."""
    return int.from_bytes(some_bytes, "little")


def little(value, length):
    """A number as `length` bytes, little-endian."""
    return value.to_bytes(length, "little")


def part(entry, start, length, k):
    """Item k of the items of this length that begin at byte `start`."""
    return entry[start + length * k : start + length * (k + 1)]


def decode_action(action_bytes):
    """The meaning of 16 bytes. A kind byte outside 1-6 gives "nothing"."""
    kind = KINDS.get(action_bytes[0])
    if kind is None:
        return NOTHING
    values = {}
    for field in operands(kind):
        place = ACTION_FIELDS[field]
        values[field] = number(action_bytes[place.start : place.stop])
    return Action(kind.name, **values)


def decode(entry):
    """The meaning of any 88 bytes, proper or not."""
    return Transaction(
        read_count=entry[0],
        write_count=entry[1],
        action_count=entry[2],
        reads=tuple(number(part(entry, READS_AT, RECORD_LENGTH, k)) for k in range(4)),
        writes=tuple(number(part(entry, WRITES_AT, RECORD_LENGTH, k)) for k in range(4)),
        actions=tuple(decode_action(part(entry, ACTIONS_AT, ACTION_LENGTH, k)) for k in range(4)),
    )


def encode_action(action):
    """16 bytes. The zero field and the bytes that must be zero are 0."""
    action_bytes = bytearray(ACTION_LENGTH)
    if action.kind == "nothing":
        return bytes(action_bytes)
    action_bytes[0] = NUMBER_OF_KIND[action.kind]
    for field in operands(kind_of(action)):
        place = ACTION_FIELDS[field]
        action_bytes[place.start : place.stop] = little(getattr(action, field), len(place))
    return bytes(action_bytes)


def encode(meaning):
    """The 88 bytes of any meaning, proper or not (reading 11)."""
    counts = bytes([meaning.read_count, meaning.write_count, meaning.action_count])
    reads = b"".join(little(record, RECORD_LENGTH) for record in meaning.reads)
    writes = b"".join(little(record, RECORD_LENGTH) for record in meaning.writes)
    actions = b"".join(encode_action(action) for action in meaning.actions)
    # "3: zero" and "20-23: zero"
    return counts + bytes(1) + reads + writes + bytes(4) + actions


# Refusal 4: "a count above 4, a kind outside 1-6 within the count, or a byte
# that must be zero is not" --------------------------------------------------

def count_above_4(entry):
    return any(count > LARGEST_COUNT for count in entry[0:3])


def kind_bytes(entry):
    """The kind bytes within the action count."""
    return [entry[ACTIONS_AT + ACTION_LENGTH * k] for k in range(entry[2])]


def kind_outside_1_to_6(entry):
    return any(kind not in KINDS for kind in kind_bytes(entry))


def bytes_that_must_be_zero(entry):
    """Their positions, for an entry whose counts and kinds are proper."""
    positions = [3, 20, 21, 22, 23]              # "3: zero", "20-23: zero"
    for k in range(4):                           # "zero (1)", "zero (2)" of an action
        positions += [ACTIONS_AT + ACTION_LENGTH * k + byte for byte in ACTION_ZEROS]
    for k, kind in enumerate(kind_bytes(entry)):  # 'The "zero field" must hold zero.'
        zero_field = ACTION_FIELDS[KINDS[kind].zero_field]
        positions += [ACTIONS_AT + ACTION_LENGTH * k + byte for byte in zero_field]
    # "Entries past a count are all zero."
    positions += range(READS_AT + RECORD_LENGTH * entry[0], WRITES_AT)
    positions += range(WRITES_AT + RECORD_LENGTH * entry[1], WRITES_AT + RECORD_LENGTH * 4)
    positions += range(ACTIONS_AT + ACTION_LENGTH * entry[2], ENTRY_LENGTH)
    return positions


def fails_4(entry):
    if count_above_4(entry):
        return True
    if kind_outside_1_to_6(entry):
        return True
    return any(entry[position] != 0 for position in bytes_that_must_be_zero(entry))


# Refusals 5 to 8, asked only of an entry that passed check 4, so that counts
# are at most 4 and every action within the count has a kind ------------------

def read_set(meaning):
    return meaning.reads[: meaning.read_count]


def write_set(meaning):
    return meaning.writes[: meaning.write_count]


def records_read(meaning):
    """The records that actions read, by the table's column "reads"."""
    return [getattr(action, field)
            for action in meaning.actions[: meaning.action_count]
            for field in kind_of(action).reads]


def records_written(meaning):
    """The records that actions write, by the table's column "writes"."""
    return [getattr(action, field)
            for action in meaning.actions[: meaning.action_count]
            for field in kind_of(action).writes]


def fails_5(n, meaning):
    """Refusal 5: "a record number, in a set or used by an action, is N or more"."""
    in_sets = read_set(meaning) + write_set(meaning)
    used = records_read(meaning) + records_written(meaning)
    return any(record >= n for record in [*in_sets, *used])


def ascends_strictly(records):
    return all(first < second for first, second in zip(records, records[1:]))


def fails_6(meaning):
    """Refusal 6: "a set does not ascend strictly"."""
    return not (ascends_strictly(read_set(meaning)) and ascends_strictly(write_set(meaning)))


def fails_7(meaning):
    """Refusal 7: "an action reads an undeclared record", "also after an earlier set"."""
    return any(record not in read_set(meaning) for record in records_read(meaning))


def fails_8(meaning):
    """Refusal 8: "an action writes an undeclared record"."""
    return any(record not in write_set(meaning) for record in records_written(meaning))


def first_refusal(n, entry):
    """The first of 4 to 8 that 88 bytes fail, or None.

    Each is looked for in the whole entry before the next (reading 9).
    """
    if fails_4(entry):
        return 4
    meaning = decode(entry)
    if fails_5(n, meaning):
        return 5
    if fails_6(meaning):
        return 6
    if fails_7(meaning):
        return 7
    if fails_8(meaning):
        return 8
    return None


# The three calls. Each answers a refusal number (0 for accepted), a place and
# what it hands back ----------------------------------------------------------

def refusal(n, length_is_right, entry):
    """The order of all three: "checks 1, 2 (length not 88), 4 to 8". 0 is accepted."""
    if not 1 <= n <= LARGEST_N:
        return 1
    if not length_is_right:
        return 2
    return first_refusal(n, entry) or 0


def unpack(n, entry):
    """Unpacking one entry. The place is 0: there is only transaction 0."""
    refused = refusal(n, len(entry) == ENTRY_LENGTH, entry)
    if refused:
        return refused, 0, ZERO_MEANING   # "hands back the all-zero ... meaning"
    return 0, 0, decode(entry)


def pack(n, meaning, buffer):
    """Packing into a lent buffer: encode first, then judge the bytes (reading 10)."""
    entry = encode(meaning)
    refused = refusal(n, len(buffer) == ENTRY_LENGTH, entry)
    if refused:
        return refused, 0, buffer         # "writes only if all pass"
    return 0, 0, entry


def unpack_at(n, log, index):
    """Unpacking entry number `index` of a log: "such entries end to end".

    Refusal 2: the log holds no whole entry there. The place is the index for
    4 to 8, "else 0".
    """
    holds_it = index < len(log) // ENTRY_LENGTH
    entry = part(log, 0, ENTRY_LENGTH, index)
    refused = refusal(n, holds_it, entry)
    if refused in (1, 2):
        return refused, 0, ZERO_MEANING
    if refused:
        return refused, index, ZERO_MEANING
    return 0, 0, decode(entry)
