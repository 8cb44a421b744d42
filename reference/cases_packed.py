"""Makes the cases of the packed transaction and the output they must give.

Usage: python3 reference/cases_packed.py DATA_FILE STDOUT_FILE

Each function below whose name is in GENERATORS yields cases; its first line
says what it covers. The same cases come out at every run.

A case in DATA_FILE: what is asked (1 byte), N (8), index (8), length L of the
lent bytes (2), little-endian; then the L bytes, or, for a pack, a meaning in
71 bytes and no buffer, because the buffer is L bytes of 170.
"""

import random
import sys
from dataclasses import dataclass, replace
from itertools import combinations

from case_files import (KIND_NAMES, LARGEST_NUMBER, action_of, declaring, every_case,
                        meaning_record, possible_actions, transaction, write_files)
from packed import (ACTION_FIELDS, ACTIONS_AT, ENTRY_LENGTH, KINDS, NOTHING, READS_AT, WRITES_AT,
                    Action, Transaction, decode, encode, kind_of, little, operands, pack, unpack,
                    unpack_at)

UNPACK, PACK, ENTRY = 1, 2, 3
CALL_NAMES = {UNPACK: "unpack", PACK: "pack", ENTRY: "entry"}
BUFFER_BYTE = 0xAA
LARGEST_RECORD = 65_535


@dataclass(frozen=True)
class Case:
    call: int
    n: int
    index: int = 0
    lent: bytes = b""                 # the entry, the log or the buffer
    meaning: Transaction = None       # for a pack


def unpack_case(n, entry):
    return Case(UNPACK, n, lent=entry)


def pack_case(n, meaning, length=ENTRY_LENGTH):
    return Case(PACK, n, lent=bytes([BUFFER_BYTE]) * length, meaning=meaning)


def entry_case(n, log, index):
    return Case(ENTRY, n, index, log)


# A case in the case file ----------------------------------------------------

def case_record(case):
    head = little(case.call, 1) + little(case.n, 8) + little(case.index, 8) + little(len(case.lent), 2)
    return head + (meaning_record(case.meaning) if case.call == PACK else case.lent)


# The line a case must give --------------------------------------------------

def action_text(action):
    if action.kind == "nothing":
        return "nothing"
    numbers = [str(getattr(action, field)) for field in operands(kind_of(action))]
    return " ".join([action.kind, *numbers])


def meaning_text(meaning):
    counts = (meaning.read_count, meaning.write_count, meaning.action_count)
    groups = [" ".join(str(number) for number in numbers)
              for numbers in (counts, meaning.reads, meaning.writes)]
    return " : ".join(groups + [action_text(action) for action in meaning.actions])


def buffer_text(buffer):
    return buffer.hex() or "-"


def answer(case):
    """The line of one case."""
    if case.call == PACK:
        number, place, buffer = pack(case.n, case.meaning, case.lent)
        handed_back = buffer_text(buffer)
    elif case.call == UNPACK:
        number, place, meaning = unpack(case.n, case.lent)
        handed_back = meaning_text(meaning)
    else:
        number, place, meaning = unpack_at(case.n, case.lent, case.index)
        handed_back = meaning_text(meaning)
    verdict = "refused" if number else "accepted"
    return f"{CALL_NAMES[case.call]} {verdict} {number} {place} {handed_back}"


# Building blocks ------------------------------------------------------------

def changed(entry, position, value):
    """The entry with one byte changed."""
    return entry[:position] + bytes([value]) + entry[position + 1 :]


def action_at(k):
    """Where action k begins."""
    return ACTIONS_AT + 16 * k


N = 10
READ_FIELDS = [(kind.name, field) for kind in KINDS.values() for field in kind.reads]
WRITE_FIELDS = [(kind.name, field) for kind in KINDS.values() for field in kind.writes]
USED_FIELDS = sorted(set(READ_FIELDS + WRITE_FIELDS))
ZEROS = bytes(ENTRY_LENGTH)
CONSTANTS = [0, 1, 255, 256, 2**63, LARGEST_NUMBER, 0x0123456789ABCDEF]

# Every count 4; records 1, 2 and 3 are read and written.
FULL_MEANING = transaction(
    (1, 2, 3, 8), (1, 2, 3, 9),
    (Action("add", r=1, c=5), Action("move", r=2, s=3),
     Action("copy", r=9, s=8), Action("floor", r=8, c=6)))
FULL = encode(FULL_MEANING)


def with_action(k, action, reads=(0, 1, 2), writes=(0, 1, 2)):
    """Four actions, action k the given one and the others "set 0 5"."""
    actions = [Action("set", r=0, c=5)] * 4
    actions[k] = action
    return transaction(reads, writes, actions)


def without(records, record):
    return tuple(other for other in records if other != record)


# Refusal 4 ------------------------------------------------------------------

def fixed_zero_bytes():
    """4: each of byte 3, bytes 20-23 and bytes 1, 6, 7 of each action, nonzero alone."""
    positions = [3, 20, 21, 22, 23] + [action_at(k) + byte for k in range(4) for byte in (1, 6, 7)]
    for position in positions:
        yield unpack_case(N, changed(FULL, position, 1))


def zero_fields():
    """4: each byte of the zero field of each kind, nonzero alone, first and last action."""
    for kind in KINDS.values():
        for byte in ACTION_FIELDS[kind.zero_field]:
            for k in (0, 3):
                entry = encode(with_action(k, action_of(kind.name, 1, 2, 7)))
                yield unpack_case(N, changed(entry, action_at(k) + byte, 1))


def set_entries_past_the_count():
    """4: each byte of each set entry past each count, nonzero alone."""
    for count in range(4):
        some = range(1, count + 1)
        with_reads = encode(transaction(some, (), ()))
        with_writes = encode(transaction((), some, ()))
        for byte in range(2 * count, 8):
            yield unpack_case(N, changed(with_reads, READS_AT + byte, 9))
            yield unpack_case(N, changed(with_writes, WRITES_AT + byte, 9))


def actions_past_the_count():
    """4: each byte of the first action past each count, and kind and r of the later ones."""
    for count in range(4):
        entry = encode(transaction((1,), (1,), [Action("add", r=1, c=5)] * count))
        for byte in range(16):
            yield unpack_case(N, changed(entry, action_at(count) + byte, 1))
        for k in range(count + 1, 4):
            yield unpack_case(N, changed(entry, action_at(k), 1))
            yield unpack_case(N, changed(entry, action_at(k) + 2, 1))


def counts_above_4():
    """4: counts 5 and 255 in each place, in a full entry and in one of zeros."""
    for position in range(3):
        for count in (5, 255):
            yield unpack_case(N, changed(FULL, position, count))
            yield unpack_case(N, changed(ZEROS, position, count))


def kinds_outside_1_to_6():
    """4: kinds 0, 7 and 255 within the count, at each action."""
    for k in range(4):
        for kind in (0, 7, 255):
            yield unpack_case(N, changed(FULL, action_at(k), kind))


# Refusal 5 ------------------------------------------------------------------

def large_records_in_sets():
    """5: record N and 65,535 in either set at each position, last or followed by smaller ones."""
    for record in (N, LARGEST_RECORD):
        for position in range(4):
            last = list(range(position)) + [record]
            followed = list(range(4))
            followed[position] = record
            for records in (last, followed):
                yield unpack_case(N, encode(transaction(records, (), ())))
                yield unpack_case(N, encode(transaction((), records, ())))


def large_records_in_actions():
    """5: record N and 65,535 in r and s of each kind that uses them, first and last action."""
    for record in (N, LARGEST_RECORD):
        for name, field in USED_FIELDS:
            for k in (0, 3):
                action = replace(action_of(name, 1, 2, 7), **{field: record})
                yield unpack_case(N, encode(with_action(k, action)))


def records_at_the_edge():
    """5 or accepted: record N - 1 and N for some N, in sets and action alike."""
    for n in (1, 256, 257, 1024):
        for record in (n - 1, n):
            for name in ("set", "floor"):
                yield unpack_case(n, encode(declaring([action_of(name, record, 0, 7)])))


# Refusal 6 ------------------------------------------------------------------

def sets_that_do_not_ascend():
    """6: equal and descending neighbours at each pair of either set; also first and last."""
    for pair in range(3):
        equal, descending = [1, 3, 5, 7], [1, 3, 5, 7]
        equal[pair + 1] = equal[pair]
        descending[pair], descending[pair + 1] = descending[pair + 1], descending[pair]
        for records in (equal, descending):
            yield unpack_case(N, encode(transaction(records, (), ())))
            yield unpack_case(N, encode(transaction((), records, ())))
    for records in ((0, 0), (1, 0), (256, 1), (511, 256)):
        yield unpack_case(1024, encode(transaction(records, (), ())))
        yield unpack_case(1024, encode(transaction((), records, ())))


# Refusals 7 and 8 -----------------------------------------------------------

def undeclared_reads():
    """7: each kind reading a record declared only as a write, at each action."""
    for name, field in READ_FIELDS:
        for k in range(4):
            action = action_of(name, 1, 2, 7)
            reads = without((0, 1, 2), getattr(action, field))
            yield unpack_case(N, encode(with_action(k, action, reads=reads)))


def undeclared_writes():
    """8: each kind writing a record declared only as a read, at each action."""
    for name, field in WRITE_FIELDS:
        for k in range(4):
            action = action_of(name, 1, 2, 7)
            writes = without((0, 1, 2), getattr(action, field))
            yield unpack_case(N, encode(with_action(k, action, writes=writes)))


def undeclared_after_a_set():
    """7 and 8: the same after an earlier set of the same record."""
    for fields, undeclared in ((READ_FIELDS, "reads"), (WRITE_FIELDS, "writes")):
        for name, field in fields:
            action = action_of(name, 1, 2, 7)
            record = getattr(action, field)
            sets = {"reads": (1, 2), "writes": (1, 2)}
            sets[undeclared] = without((1, 2), record)
            actions = [Action("set", r=record, c=7), action]
            yield unpack_case(N, encode(transaction(sets["reads"], sets["writes"], actions)))


def record_0_past_the_count():
    """7 and 8: record 0 is not declared by the zeros past a count."""
    for count in range(4):
        some = tuple(range(1, count + 1))
        yield unpack_case(N, encode(transaction(some, (0,), [Action("floor", r=0, c=7)])))
        yield unpack_case(N, encode(transaction(some, (0, 1), [Action("copy", r=1, s=0)])))
        yield unpack_case(N, encode(transaction((0,), some, [Action("set", r=0, c=7)])))
        yield unpack_case(N, encode(transaction((0, 1), some, [Action("move", r=1, s=0)])))


# Several faults -------------------------------------------------------------

def faults_backwards(faults):
    """The first action has the last fault: 8, 7, 5, 4; the write set has 6."""
    reads, writes = [1, 2, 3, 4], [1, 2, 3, 4]
    actions = [Action("set", r=1, c=7), Action("floor", r=2, c=7),
               Action("add", r=3, c=7), Action("copy", r=4, s=1)]
    if 5 in faults:
        actions[2] = Action("add", r=N, c=7)
    if 6 in faults:
        writes = [1, 3, 2, 4]
    if 7 in faults:
        actions[1] = Action("floor", r=6, c=7)
    if 8 in faults:
        actions[0] = Action("set", r=6, c=7)
    entry = encode(transaction(reads, writes, actions))
    return changed(entry, 87, 1) if 4 in faults else entry


def faults_forwards(faults):
    """The first action has the first fault: 4, 5, 7, 8; the read set has 6."""
    reads, writes = [1, 2, 3, 4], [1, 2, 3, 4]
    actions = [Action("add", r=1, c=7), Action("take", r=2, c=7),
               Action("copy", r=3, s=4), Action("move", r=4, s=1)]
    if 5 in faults:
        actions[1] = Action("take", r=LARGEST_RECORD, c=7)
    if 6 in faults:
        reads = [1, 2, 4, 3]
    if 7 in faults:
        actions[2] = Action("copy", r=3, s=6)
    if 8 in faults:
        writes[-1] = 5
    entry = encode(transaction(reads, writes, actions))
    return changed(entry, action_at(0) + 4, 1) if 4 in faults else entry


def faults_in_counts_and_sets(faults):
    """4 is in a count, 5 and 6 in the sets, 7 and 8 in one action."""
    reads, writes = [1, 2, 3, 6], [1, 2, 3, 6]
    if 5 in faults:
        writes[3] = N
    if 6 in faults:
        reads[1] = 1
    if 7 in faults:
        reads[3] = 7
    if 8 in faults:
        writes[2] = 4
    entry = encode(transaction(reads, writes, [Action("move", r=3, s=6)] * 2))
    return changed(entry, 2, 5) if 4 in faults else entry


LAYOUTS = (faults_backwards, faults_forwards, faults_in_counts_and_sets)


def several_faults():
    """Every two or more faults among 4 to 8, in three layouts: the lowest number is the answer."""
    for count in range(2, 6):
        for faults in combinations((4, 5, 6, 7, 8), count):
            for layout in LAYOUTS:
                yield unpack_case(N, layout(faults))


def faults_with_1_and_2():
    """1 and 2, alone, together and with each of 4 to 8, for each call."""
    for fault in (4, 5, 6, 7, 8):
        entry = faults_forwards([fault])
        meaning = MEANINGS_WITH_FAULT[fault]
        for n in (0, N):
            yield unpack_case(n, entry[:87])
            yield pack_case(n, meaning, 87)
            yield entry_case(n, entry[:87], 0)
        yield unpack_case(0, entry)
        yield pack_case(0, meaning)
        yield entry_case(0, entry + entry, 1)


# N and lengths --------------------------------------------------------------

def every_n():
    """1 or not: N at and beyond its edges, and N that look proper when cut short, each call."""
    for n in (0, 1, 1024, 1025, 2**16 + 8, 2**32 + 8, 2**64 - 1):
        for meaning in (decode(ZEROS), declaring([Action("add", r=0, c=7)]),
                        declaring([Action("move", r=1, s=1023)])):
            yield unpack_case(n, encode(meaning))
            yield pack_case(n, meaning)
            yield entry_case(n, ZEROS + encode(meaning), 1)


def every_length():
    """2: lengths other than 88, for entry and buffer, with zeros and with a full entry."""
    for length in (0, 1, 87, 88, 89, 128, 176):
        yield unpack_case(N, bytes(length))
        yield unpack_case(N, (FULL + FULL)[:length])
    for length in (0, 1, 87, 88, 89, 128):
        yield pack_case(N, decode(ZEROS), length)
        yield pack_case(N, FULL_MEANING, length)


# Accepted entries -----------------------------------------------------------

def proper_meanings():
    """Zeros, each kind alone and four times, full entries, extreme constants and records."""
    yield decode(ZEROS)
    yield FULL_MEANING
    for name in KIND_NAMES:
        yield declaring([action_of(name, 1, 2, 7)])
        yield declaring([action_of(name, 2, 1, 7)] * 4)
    for name in ("copy", "move"):                     # r and s may be one record
        yield declaring([action_of(name, 1, 1, 0)])
    for number, constant in enumerate(CONSTANTS):
        for name in ("set", "add", "take", "floor"):
            yield with_action(number % 4, action_of(name, 1, 2, constant))
    for record in (0, 1, 255, 256, 1023):
        for name in KIND_NAMES:
            yield declaring([action_of(name, record, 511, 7)])
        yield declaring([Action("copy", r=511, s=record)])
    for count in range(5):                            # declared, with no action
        yield transaction(range(count), range(1020, 1020 + 4 - count), ())
    yield transaction((0, 255, 256, 1023), (1, 257, 512, 1022), (
        Action("set", r=1, c=0x0123456789ABCDEF), Action("copy", r=257, s=255),
        Action("copy", r=1022, s=1023), Action("floor", r=256, c=LARGEST_NUMBER)))


def proper_unpacked():
    """Accepted: proper entries, unpacked."""
    for meaning in proper_meanings():
        yield unpack_case(1024, encode(meaning))


def proper_packed():
    """Accepted: the same meanings, packed."""
    for meaning in proper_meanings():
        yield pack_case(1024, meaning)


# Packing improper meanings --------------------------------------------------

MEANINGS_WITH_FAULT = {
    4: transaction((1,), (1,), [NOTHING]),
    5: transaction((1, N), (1,), [Action("add", r=1, c=7)]),
    6: transaction((2, 1), (1,), [Action("add", r=1, c=7)]),
    7: transaction((2,), (1,), [Action("add", r=1, c=7)]),
    8: transaction((1,), (2,), [Action("add", r=1, c=7)]),
}


def packs_with_one_fault():
    """4 to 8: one plain meaning for each."""
    for meaning in MEANINGS_WITH_FAULT.values():
        yield pack_case(N, meaning)


def packs_with_nothing_or_past_the_count():
    """4: nothing within the count, an action or a set entry past the count."""
    for k in range(4):
        yield pack_case(N, with_action(k, NOTHING))
        for name in KIND_NAMES:
            actions = [Action("set", r=1, c=7)] * k + [action_of(name, 1, 2, 7)]
            meaning = transaction((1, 2), (1, 2), actions)
            yield pack_case(N, replace(meaning, action_count=k))
        records = tuple(9 if position == k else 0 for position in range(4))
        yield pack_case(N, replace(decode(ZEROS), reads=records))
        yield pack_case(N, replace(decode(ZEROS), writes=records))


def packs_with_counts_changed():
    """4 or accepted: each count of a full meaning from 0 to 5 and 255."""
    for count in (0, 1, 2, 3, 4, 5, 255):
        yield pack_case(N, replace(FULL_MEANING, read_count=count))
        yield pack_case(N, replace(FULL_MEANING, write_count=count))
        yield pack_case(N, replace(FULL_MEANING, action_count=count))


def packs_with_bad_records():
    """5, 6, 7 and 8 in meanings: records too large, sets not ascending, undeclared."""
    for name, field in USED_FIELDS:
        for record in (N, LARGEST_RECORD):
            action = replace(action_of(name, 1, 2, 7), **{field: record})
            yield pack_case(N, with_action(2, action))
    for records in ((N,), (1, 2, 3, LARGEST_RECORD), (1, 1), (2, 1), (1, 2, 4, 3), (0, 0)):
        yield pack_case(N, transaction(records, (), ()))
        yield pack_case(N, transaction((), records, ()))
    for name, field in READ_FIELDS:
        action = action_of(name, 1, 2, 7)
        yield pack_case(N, with_action(1, action, reads=without((0, 1, 2), getattr(action, field))))
    for name, field in WRITE_FIELDS:
        action = action_of(name, 1, 2, 7)
        yield pack_case(N, with_action(1, action, writes=without((0, 1, 2), getattr(action, field))))


# Entries of a log -----------------------------------------------------------

LOG_N = 100


def log_entry(k):
    """A proper entry that differs from index to index."""
    return encode(declaring([Action("set", r=k, c=1000 + k)]))


def log_of(count):
    return b"".join(log_entry(k) for k in range(count))


def log_with_fault(count, index, fault):
    """A log in which the entry at this index alone has this fault, for LOG_N records."""
    faulty = {4: changed(ZEROS, 3, 1),
              5: encode(transaction((LOG_N,), (), ())),
              6: encode(transaction((2, 1), (), ())),
              7: encode(transaction((), (1,), [Action("add", r=1, c=7)])),
              8: encode(transaction((1,), (), [Action("add", r=1, c=7)]))}[fault]
    log = log_of(count)
    return log[: 88 * index] + faulty + log[88 * (index + 1) :]


def faulty_entries_of_logs():
    """4 to 8: a faulty entry first, in the middle and last; the place is its index."""
    for count in (1, 2, 7):
        for index in sorted({0, count // 2, count - 1}):
            for fault in (4, 5, 6, 7, 8):
                yield entry_case(LOG_N, log_with_fault(count, index, fault), index)
    for index, fault in ((0, 4), (31, 5), (31, 8), (32, 6), (62, 7), (63, 8), (63, 4)):
        yield entry_case(LOG_N, log_with_fault(64, index, fault), index)


def entries_beside_a_fault():
    """Accepted: the other entries of a log with a faulty one."""
    for fault in (4, 5, 6, 7, 8):
        for index in (0, 2):
            yield entry_case(LOG_N, log_with_fault(3, 1, fault), index)
    yield entry_case(LOG_N, log_with_fault(64, 62, 4), 63)


def indexes_at_and_past_the_end():
    """2 or accepted: index at and past the end, also where 88 times it wraps at 2^64."""
    for count in (0, 1, 3):
        last = [count - 1] if count else []
        for index in last + [count, count + 1, 2**32, 2**61, 2**61 + 1, 2**63, 2**64 - 1]:
            yield entry_case(LOG_N, log_of(count), index)
    for index in (0, 63, 64):
        yield entry_case(LOG_N, log_of(64), index)


def logs_with_a_short_tail():
    """2 or accepted: whole entries before a tail are there, the tail is none."""
    for count in (0, 1, 2):
        for tail in (1, 87):
            for index in range(count + 2):
                yield entry_case(LOG_N, (log_of(count) + FULL)[: 88 * count + tail], index)


def each_kind_in_a_log():
    """Accepted: each kind, as the second entry of three."""
    for name in KIND_NAMES:
        entry = encode(declaring([action_of(name, 1, 2, 0x0123456789ABCDEF)] * 2))
        yield entry_case(LOG_N, FULL + entry + FULL, 1)


# At random, from a fixed seed -----------------------------------------------

def random_action(chance, possible):
    action = chance.choice(possible)
    return action_of(action.kind, action.r, action.s, chance.getrandbits(chance.choice((4, 16, 64))))


def random_proper(chance):
    """N and a proper meaning."""
    n = chance.choice((1, 2, 5, 10, 300, 1024))
    nearby = chance.sample(range(n), min(n, 5))
    reads = tuple(sorted(chance.sample(nearby, chance.randint(0, min(n, 4)))))
    writes = tuple(sorted(chance.sample(nearby, chance.randint(0, min(n, 4)))))
    possible = possible_actions(reads, writes)
    count = chance.randint(0, 4) if possible else 0
    return n, transaction(reads, writes, [random_action(chance, possible) for _ in range(count)])


def random_change(chance, entry):
    """The entry with one byte changed; often one that was not zero, often to a small value."""
    positions = [position for position in range(len(entry)) if entry[position] != 0]
    if not positions or chance.random() < 0.5:
        positions = range(len(entry))
    position = chance.choice(positions)
    value = chance.randrange(chance.choice((8, 256)))
    return changed(entry, position, value if value != entry[position] else value ^ 1)


def random_entries():
    """Accepted: proper entries at random, unpacked."""
    chance = random.Random(88)
    for _ in range(40):
        n, meaning = random_proper(chance)
        yield unpack_case(n, encode(meaning))


def random_changed_entries():
    """Any answer: proper entries at random with one byte changed, unpacked."""
    chance = random.Random(89)
    for _ in range(100):
        n, meaning = random_proper(chance)
        yield unpack_case(n, random_change(chance, encode(meaning)))


def random_packs():
    """Any answer: meanings of random entries, proper and with one byte changed, packed."""
    chance = random.Random(90)
    for _ in range(35):
        n, meaning = random_proper(chance)
        yield pack_case(n, meaning)
        yield pack_case(n, decode(random_change(chance, encode(meaning))))


def random_logs():
    """Any answer: one entry of a log of four, each with one byte changed or not."""
    chance = random.Random(91)
    for _ in range(25):
        entries = [encode(random_proper(chance)[1]) for _ in range(4)]
        entries = [random_change(chance, entry) if chance.random() < 0.5 else entry
                   for entry in entries]
        yield entry_case(1024, b"".join(entries), chance.randrange(5))


GENERATORS = (
    fixed_zero_bytes, zero_fields, set_entries_past_the_count, actions_past_the_count,
    counts_above_4, kinds_outside_1_to_6,
    large_records_in_sets, large_records_in_actions, records_at_the_edge,
    sets_that_do_not_ascend,
    undeclared_reads, undeclared_writes, undeclared_after_a_set, record_0_past_the_count,
    several_faults, faults_with_1_and_2, every_n, every_length,
    proper_unpacked, proper_packed,
    packs_with_one_fault, packs_with_nothing_or_past_the_count, packs_with_counts_changed,
    packs_with_bad_records,
    faulty_entries_of_logs, entries_beside_a_fault, indexes_at_and_past_the_end,
    logs_with_a_short_tail, each_kind_in_a_log,
    random_entries, random_changed_entries, random_packs, random_logs,
)


def all_cases():
    return every_case(GENERATORS)


if __name__ == "__main__":
    write_files(*sys.argv[1:], all_cases(), case_record, answer)
