"""States, tables and parties that no run of the program meets, and the refusal number that each must get.

Each case changes one thing in a sound state; a refused call must leave state and tables as they were.
"""
import ctypes as c
import os
import subprocess

import batches

HERE = os.path.dirname(os.path.abspath(__file__))
NO_SLOT, NO_END = 65535, 2**64 - 1
IDLE, READING, DECIDED = 0, 1, 2
UNPROCESSED, EXECUTING, COMPLETE = 0, 1, 2


class Version(c.Structure):
    _fields_ = [("begin", c.c_uint64), ("end", c.c_uint64), ("contents", c.c_uint64), ("previous", c.c_uint16),
                ("produced", c.c_bool)]


class Row(c.Structure):
    _fields_ = [("progress", c.c_uint8), ("of", c.c_uint8)]


class Worker(c.Structure):
    _fields_ = [(name, c.c_uint8) for name in ("phase", "transaction", "outcome", "valuecount", "carries", "fills")]
    _fields_ += [("carried", c.c_bool * 4), ("values", c.c_uint64 * 4), ("contents", c.c_uint64 * 4)]


class State(c.Structure):
    _fields_ = [("next", c.c_uint64), ("batch", c.c_uint64), ("records", c.c_uint16), ("partitions", c.c_uint8),
                ("workers", c.c_uint8), ("size", c.c_uint8), ("placed", c.c_uint8 * 8), ("rows", Row * 64),
                ("crew", Worker * 8)]


class Slice(c.Structure):
    _fields_ = [("at", c.c_void_p), ("length", c.c_size_t)]


class Answer(c.Structure):
    _fields_ = [("result", c.c_uint8), ("number", c.c_uint8), ("at", c.c_uint64)]


class World:
    """Four records, two partitions, three workers and three transactions, opened; the calls of the engine."""

    def __init__(self, library):
        self.library = library
        two = batches.entry([0, 1], [0, 1], [batches.action(2, 0, c=5)])
        self.log = c.create_string_buffer(two * 3, 264)
        self.records = (c.c_uint64 * 4)(10, 20, 30, 40)
        self.newest = (c.c_uint16 * 4)()
        self.versions = (Version * 256)()
        self.results = (c.c_uint64 * 256)()
        self.lengths = {"log": 264, "records": 4, "newest": 4, "versions": 256, "results": 256}
        self.state = State()
        assert self.call("make", *map(c.c_uint64, (4, 2, 3, 100))) == (0, 0, 0)
        assert self.open() == (0, 0, 0)

    def call(self, name, *arguments):
        function = getattr(self.library, name)
        function.restype = Answer
        answer = function(c.byref(self.state), *arguments)
        return answer.result, answer.number, answer.at

    def lent(self, *names):
        return [Slice(c.addressof(getattr(self, name)), self.lengths[name]) for name in names]

    def open(self):
        return self.call("open_batch", *self.lent("log", "newest", "versions", "results"))

    def place(self, p):
        return self.call("place", c.c_size_t(p), *self.lent("log", "newest", "versions"))

    def claim(self, w, i):
        return self.call("claim", c.c_size_t(w), c.c_size_t(i))

    def advance(self, w):
        return self.call("advance", c.c_size_t(w), *self.lent("log", "records", "newest", "versions", "results"))

    def seal(self):
        return self.call("seal", *self.lent("records", "newest", "versions"))

    def all_bytes(self):
        tables = (self.log, self.records, self.newest, self.versions, self.results, self.state)
        return b"".join(bytes(table) for table in tables)


# Sound states to start from: planning, claimed, reading, decided, complete ----------------------------------

def planned(world):
    for p in (0, 1):
        for _ in range(3):
            assert world.place(p) == (0, 0, 0)


def claimed(world):
    """Worker 1 holds transaction 0, worker 2 transaction 2."""
    planned(world)
    assert world.claim(1, 0) == (0, 0, 0) and world.claim(2, 2) == (0, 0, 0)


def decided(world):
    """Worker 1 has decided transaction 0: write 1 is to be carried."""
    claimed(world)
    for _ in range(3):
        assert world.advance(1) == (0, 0, 0)


def carried(world):
    decided(world)
    assert world.advance(1) == (0, 0, 0)


def completed(world):
    planned(world)
    for i in range(3):
        assert world.claim(0, i) == (0, 0, 0)
        for _ in range(6):
            assert world.advance(0) == (0, 0, 0)


def field(name, value):
    return lambda world: setattr(world.state, name, value)


def worker(w, **fields):
    return lambda world: [setattr(world.state.crew[w], name, value) for name, value in fields.items()]


def mark(w, j, value=True):
    return lambda world: world.state.crew[w].carried.__setitem__(j, value)


def row(i, progress, of=0):
    return lambda world: world.state.rows.__setitem__(i, Row(progress, of))


def placed(p, count):
    return lambda world: world.state.placed.__setitem__(p, count)


def newest(r, slot):
    return lambda world: world.newest.__setitem__(r, slot)


def version(slot, **fields):
    return lambda world: [setattr(world.versions[slot], name, value) for name, value in fields.items()]


def length(name, value):
    return lambda world: world.lengths.__setitem__(name, value)


def entry_byte(at, value):
    return lambda world: world.log.__setitem__(at, value)


# 14 in a state with two workers at work: every call must find it --------------------------------------------

OUT_OF_RANGE = [
    field("partitions", 0), field("partitions", 9), field("workers", 0), field("workers", 9), field("size", 65),
    field("next", 0), field("next", NO_END - 2), field("batch", 100), placed(0, 4), placed(2, 1), placed(7, 1),
    field("workers", 2), field("size", 2), worker(7, phase=READING, transaction=1), worker(1, transaction=3),
    worker(1, transaction=255), worker(1, valuecount=5), worker(1, phase=DECIDED, carries=5),
    worker(1, phase=DECIDED, fills=5), worker(1, phase=DECIDED, valuecount=5), worker(1, transaction=1),
    worker(0, phase=READING, transaction=0), worker(0, phase=DECIDED, transaction=1), row(0, UNPROCESSED),
    row(0, COMPLETE), row(0, EXECUTING, 2), row(1, EXECUTING, 0), row(1, EXECUTING, 1), row(1, EXECUTING, 7),
    row(1, EXECUTING, 8), row(1, EXECUTING, 255), worker(1, phase=IDLE), worker(2, phase=IDLE),
]
CALLS = {
    "open": lambda world: world.open(), "place": lambda world: world.place(0), "claim": lambda world: world.claim(0, 1),
    "advance": lambda world: world.advance(1), "seal": lambda world: world.seal(),
}
LENT = {"open": "newest versions results", "place": "newest versions", "advance": "records newest versions results",
        "seal": "records newest versions"}

# Number, where to start, the change, the call ---------------------------------------------------------------

CASES = [
    (9, claimed, field("size", 3), CALLS["open"]), (9, claimed, field("size", 3), CALLS["place"]),
    (9, claimed, field("size", 3), CALLS["seal"]), (9, planned, placed(1, 2), CALLS["claim"]),
    (9, planned, placed(1, 2), CALLS["advance"]),
    (10, None, placed(0, 0), lambda world: world.place(2)),
    (10, None, placed(0, 0), lambda world: world.place(2**64 - 1)),
    (10, planned, placed(0, 3), lambda world: world.claim(3, 0)),
    (10, planned, placed(0, 3), lambda world: world.claim(0, 3)),
    (10, planned, placed(0, 3), lambda world: world.claim(0, 256)),
    (10, planned, placed(0, 3), lambda world: world.advance(3)),
    (11, None, placed(0, 3), CALLS["place"]), (12, claimed, placed(0, 3), lambda world: world.claim(1, 1)),
    (12, claimed, placed(0, 3), lambda world: world.advance(0)),
    (13, claimed, placed(0, 3), lambda world: world.claim(0, 2)),
    (13, completed, placed(0, 3), lambda world: world.claim(0, 0)),
    (2, None, length("log", 263), CALLS["place"]), (2, claimed, length("log", 176), CALLS["advance"]),
    (4, claimed, entry_byte(3, 1), CALLS["advance"]), (4, None, entry_byte(24, 7), CALLS["place"]),
    (5, claimed, entry_byte(6, 4), CALLS["advance"]), (6, None, entry_byte(6, 0), CALLS["place"]),
    (6, claimed, entry_byte(4, 1), CALLS["advance"]), (7, claimed, entry_byte(26, 2), CALLS["advance"]),
    # placing: the slot met is not below its own
    (15, None, newest(0, 0), CALLS["place"]), (15, None, newest(0, 11), CALLS["place"]),
    (15, None, newest(0, 65534), CALLS["place"]), (15, None, newest(1, 1), lambda world: world.place(1)),
    # reading: a slot not below 4n, a chain that does not fall
    (15, claimed, newest(0, 12), CALLS["advance"]), (15, claimed, newest(0, 65534), CALLS["advance"]),
    (15, claimed, version(8, previous=8), CALLS["advance"]), (15, claimed, version(8, previous=9), CALLS["advance"]),
    (15, claimed, version(0, previous=4), CALLS["advance"]), (15, decided, newest(1, 12), CALLS["advance"]),
    # a worker's counts and marks
    (15, claimed, worker(1, valuecount=3), CALLS["advance"]), (15, decided, worker(1, valuecount=3), CALLS["advance"]),
    (15, decided, mark(1, 2), CALLS["advance"]), (15, decided, mark(1, 3), CALLS["advance"]),
    (15, decided, worker(1, carries=2), CALLS["advance"]), (15, decided, worker(1, fills=1), CALLS["advance"]),
    (15, carried, worker(1, fills=2), CALLS["advance"]), (15, carried, worker(1, fills=4), CALLS["advance"]),
    # the seal
    (15, completed, newest(3, 12), CALLS["seal"]), (15, completed, newest(3, 65534), CALLS["seal"]),
    (15, completed, newest(3, 3), CALLS["seal"]), (15, completed, version(8, produced=False), CALLS["seal"]),
]


def expect(library, number, start, change, call):
    world = World(library)
    if start:
        start(world)
    change(world)
    before = world.all_bytes()
    assert call(world) == (2, number, 0), (number, call(world))
    assert world.all_bytes() == before, number


def check_placed(library):
    """Begin, end, previous and mark of every entry; placing leaves the contents as they are."""
    world = World(library)
    world.versions[4].contents, world.versions[4].produced = 77, True
    planned(world)
    chain = {0: (100, 101, NO_SLOT), 4: (101, 102, 0), 8: (102, NO_END, 4)}
    for slot, one in enumerate(world.versions):
        link = chain.get(slot // 4 * 4) if slot % 4 < 2 else None
        previous = NO_SLOT if link is None or link[2] == NO_SLOT else link[2] + slot % 4
        wanted = (*(link[:2] if link else (0, 0)), previous, 77 if slot == 4 else 0, False)
        assert (one.begin, one.end, one.previous, one.contents, one.produced) == wanted, slot
    assert list(world.newest) == [8, 9, NO_SLOT, NO_SLOT]


def check_accepted(library):
    """Fewer values than reads once decided, and outcomes after a seal, are in no refusal."""
    world = World(library)
    carried(world)
    world.state.crew[1].valuecount = 1
    assert world.advance(1) == (0, 0, 0) and world.advance(1) == (0, 0, 0)
    assert list(world.results[:4]) == [10, 0, 0, 0] and bytes(world.state.crew[1]) == bytes(c.sizeof(Worker))
    world = World(library)
    completed(world)
    assert world.seal() == (0, 0, 0) and list(world.records) == [25, 20, 30, 40] and world.state.next == 103
    assert all(slot == NO_SLOT for slot in world.newest) and list(world.state.placed) == [0] * 8
    empty = (0, 0, NO_SLOT, 0, False)
    assert all((v.begin, v.end, v.previous, v.contents, v.produced) == empty for v in world.versions)
    assert world.state.batch == 1 and world.open() == (0, 0, 0) and world.state.rows[0].progress == UNPROCESSED


def check(folder):
    path = os.path.join(folder, "engine.so")
    subprocess.run(["gcc", "-O2", "-shared", "-fPIC", os.path.join(HERE, "engine.c"), "-o", path], check=True)
    library = c.CDLL(path)
    cases = list(CASES)
    cases += [(14, claimed, change, call) for change in OUT_OF_RANGE for call in CALLS.values()]
    cases += [(1, claimed, length(name, value), CALLS[call]) for call, names in LENT.items() for name in names.split()
              for value in (0, 3, 255, 257)]
    for case in cases:
        expect(library, *case)
    check_placed(library)
    check_accepted(library)
    return len(cases)
