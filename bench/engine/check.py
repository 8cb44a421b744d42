"""Checks the engine in C: python3 check.py

The listing of document 01; 200 random batches under random steps, whose outcomes, values read and records are those of
the one-by-one run and whose counts are those of a plain model of the steps; refusals of an opening; the windows of
batches.py; and states that no run of the program meets (odd_states.py).
"""
import os
import random
import struct
import subprocess
import sys
import tempfile

HERE = os.path.dirname(os.path.abspath(__file__))
sys.path.insert(0, os.path.join(HERE, "..", "..", "reference"))

import batches
import counters
import odd_states
import packed

LISTING = """\
tx 1 committed 10
tx 2 committed 15
tx 3 aborted 15
tx 4 committed
rec 0 7
rec 1 15
rec 2 30
rec 3 40
steps 29 refused 0 waits 1
"""


class Model:
    """The steps without versions: a write is known by its transaction and its record."""

    def __init__(self, transactions, records, partitions, workers):
        self.transactions, self.records = transactions, records
        self.placed = [0] * partitions
        self.state = ["unprocessed"] * len(transactions)
        self.crew = [None] * workers
        self.filled = {}
        self.sealed = False

    def offer(self, kind, party, i):
        size = len(self.transactions)
        planning = any(count < size for count in self.placed)
        if self.sealed or (i and kind != 2):
            return "refused"
        if kind == 1:
            return self.place(party) if planning else "refused"
        if kind in (2, 3):
            if planning or party >= len(self.crew):
                return "refused"
            return self.claim(party, i) if kind == 2 else self.advance(party)
        if kind == 4 and all(state == "complete" for state in self.state):
            self.sealed = True
            return "accepted"
        return "refused"

    def place(self, p):
        if p >= len(self.placed) or self.placed[p] == len(self.transactions):
            return "refused"
        self.placed[p] += 1
        return "accepted"

    def claim(self, w, i):
        if i >= len(self.state) or self.crew[w] is not None or self.state[i] != "unprocessed":
            return "refused"
        self.state[i] = "executing"
        self.crew[w] = {"i": i, "values": [], "todo": None}
        return "accepted"

    def advance(self, w):
        work = self.crew[w]
        if work is None:
            return "refused"
        reads = packed.read_set(self.transactions[work["i"]])
        if work["todo"] is None and len(work["values"]) < len(reads):
            return self.fetch(w, reads[len(work["values"])], work["values"].append)
        if work["todo"] is None:
            return self.decide(w)
        what, record = work["todo"][0]
        if what == "carry":
            return self.fetch(w, record, lambda value: self.carry(work, record, value))
        work["todo"].pop(0)
        self.filled[work["i"], record] = work["contents"][record]
        return self.end_if_done(w)

    def fetch(self, w, record, take):
        """The last write of the record before this transaction, or a wait for it."""
        i = self.crew[w]["i"]
        writers = [k for k in range(i) if record in packed.write_set(self.transactions[k])]
        if writers and (writers[-1], record) not in self.filled:
            self.state[i], self.crew[w] = "unprocessed", None
            return "waits"
        take(self.filled[writers[-1], record] if writers else self.records[record])
        return "accepted"

    def decide(self, w):
        work = self.crew[w]
        transaction = self.transactions[work["i"]]
        writes = packed.write_set(transaction)
        decision = counters.decide(transaction, work["values"])
        carried = [("carry", record) for record, mark in zip(writes, decision.carries) if mark]
        work["contents"] = dict(zip(writes, decision.contents))
        work["todo"] = carried + [("fill", record) for record in writes]
        return self.end_if_done(w)

    @staticmethod
    def carry(work, record, value):
        work["todo"].pop(0)
        work["contents"][record] = value

    def end_if_done(self, w):
        if not self.crew[w]["todo"]:
            self.state[self.crew[w]["i"]], self.crew[w] = "complete", None
        return "accepted"


def expected(setup, records, entries, steps):
    """The whole output: counts of the model, the rest of the one-by-one run."""
    for one in entries:
        refusal = packed.first_refusal(len(records), one)
        if refusal:
            return f"refused {refusal}\n"
    transactions = [packed.decode(one) for one in entries]
    model = Model(transactions, records, *setup)
    answers = [model.offer(*one) for one in steps]
    lines = ["not sealed"]
    if model.sealed:
        outcomes, values, after = counters.one_by_one(transactions, records)
        lines = [" ".join(map(str, ["tx", i + 1, outcomes[i], *values[i]])) for i in range(len(entries))]
        lines += [f"rec {r} {contents}" for r, contents in enumerate(after)]
    lines.append(f"steps {len(steps)} refused {answers.count('refused')} waits {answers.count('waits')}")
    return "\n".join(lines) + "\n"


def run(program, folder, records, log, steps, setup=None):
    """What the program prints; a file that is None is missing."""
    files = {"records.bin": records, "log.bin": log, "steps.bin": steps, "setup.bin": setup}
    for name, data in files.items():
        path = os.path.join(folder, name)
        if data is not None:
            with open(path, "wb") as file:
                file.write(data)
        elif os.path.exists(path):
            os.remove(path)
    return subprocess.run([program], cwd=folder, stdout=subprocess.PIPE, check=True, text=True).stdout


def packed_numbers(numbers):
    return b"".join(struct.pack("<Q", number) for number in numbers)


# The listing and openings that are refused ------------------------------------------------------------------

def listing():
    entries = [
        batches.entry([0], [0], [batches.action(2, 0, c=5)]),
        batches.entry([0], [1], [batches.action(4, 1, 0)]),
        batches.entry([1], [1, 2], [batches.action(3, 1, c=100)]),
        batches.entry([], [0], [batches.action(1, 0, c=7)]),
    ]
    steps = [(1, 0, 0)] * 4 + [(1, 1, 0)] * 4 + [(2, 0, 3)] + [(3, 0, 0)] * 2 + [(2, 1, 1), (3, 1, 0)]
    steps += [(2, 0, 0)] + [(3, 0, 0)] * 3 + [(2, 1, 1)] + [(3, 1, 0)] * 3 + [(2, 0, 2)] + [(3, 0, 0)] * 6
    return entries, steps + [(4, 0, 0)]


def check_listing(program, folder):
    entries, steps = listing()
    packed_steps = b"".join(batches.step(*one) for one in steps)
    assert run(program, folder, packed_numbers([10, 20, 30, 40]), b"".join(entries), packed_steps) == LISTING
    assert expected((2, 2), [10, 20, 30, 40], entries, steps) == LISTING


def check_openings(program, folder):
    one = packed_numbers([1])
    cases = [
        (None, bytes(88), "refused 1"), (b"", b"", "refused 1"), (one + b"x", bytes(88), "refused 1"),
        (one * 1025, bytes(88), "refused 1"), (one, None, "refused 2"), (one, bytes(87), "refused 2"),
        (one, bytes(5720), "refused 2"), (one, bytes(6000), "refused 2"),
        (one * 1024, bytes(5632), "not sealed"), (one, bytes(88), "not sealed"),
    ]
    for records, log, line in cases:
        got = run(program, folder, records, log, None)
        assert got == line + ("\nsteps 0 refused 0 waits 0\n" if line == "not sealed" else "\n"), (line, got)


# Random batches ---------------------------------------------------------------------------------------------

def random_entry(rng, n):
    reads = sorted(rng.sample(range(n), rng.randint(0, min(n, 4))))
    writes = sorted(rng.sample(range(n), rng.randint(0, min(n, 4))))
    actions = [random_action(rng, reads, writes) for _ in range(rng.randint(0, 4))]
    return batches.entry(reads, writes, [one for one in actions if one])


def random_action(rng, reads, writes):
    both = [r for r in reads if r in writes]
    c = rng.choice([rng.randint(0, 30), rng.randint(0, 30), 2**64 - 1 - rng.randint(0, 9)])
    kind = rng.randint(1, 6)
    first = {1: writes, 4: writes, 6: reads}.get(kind, both)
    second = {4: reads, 5: both}.get(kind)
    if not first or second == []:
        return None
    c = min(c, 12) if kind in (3, 6) else c
    return batches.action(kind, rng.choice(first), rng.choice(second) if second else 0, 0 if second else c)


def random_steps(rng, size, partitions, workers):
    """Steps of any kind and party, most of them sensible; then, mostly, enough to come to the seal."""
    places = [(1, p, 0) for p in range(partitions) for _ in range(size)]
    rng.shuffle(places)
    steps = []
    for one in places:
        steps += [random_step(rng, size, workers)] * (rng.random() < 0.1) + [one]
    if rng.random() < 0.1:
        steps = steps[: rng.randint(0, len(steps))]
    steps += [random_step(rng, size, workers) for _ in range(rng.randint(0, 20 * size))]
    if rng.random() < 0.85:
        steps += [(3, w, 0) for w in range(workers) for _ in range(13)]
        for i in range(size):
            w = rng.randrange(workers)
            steps += [(2, w, i)] + [(3, w, 0)] * 13
        steps += [(4, rng.randint(0, 255), 0)]
    return steps + [random_step(rng, size, workers) for _ in range(rng.randint(0, 3))]


def random_step(rng, size, workers):
    if rng.random() < 0.05:
        odd = [(0, 0, 0), (5, 0, 0), (255, 1, 0), (3, 0, 1), (1, 0, 1), (4, 0, 256), (1, 8, 0), (2, 255, 0)]
        return rng.choice(odd)
    kind = rng.choice([1] + [2] * 4 + [3] * 30 + [4])
    return kind, rng.randint(0, workers), rng.randint(0, size) if kind == 2 else 0


def check_random(program, folder, seed):
    rng = random.Random(seed)
    n = rng.choice([1, 2, 5, 9, 40])
    partitions, workers = rng.randint(1, 8), rng.randint(1, 8)
    size = rng.choice([1, 2, 3, 5, 8, 20, 64])
    records = [rng.choice([rng.randint(0, 40), 2**64 - 1 - rng.randint(0, 9)]) for _ in range(n)]
    entries = [random_entry(rng, n) for _ in range(size)]
    if rng.random() < 0.2:
        i, at = rng.randrange(size), rng.randrange(88)
        entries[i] = entries[i][:at] + bytes([rng.randint(0, 255)]) + entries[i][at + 1 :]
    steps = random_steps(rng, size, partitions, workers)
    bytes_of_steps = b"".join(batches.step(*one) for one in steps) + bytes(rng.randint(0, 3))
    setup = bytes([partitions, workers])
    got = run(program, folder, packed_numbers(records), b"".join(entries), bytes_of_steps, setup)
    assert got == expected((partitions, workers), records, entries, steps), seed
    return got


# The windows of batches.py ----------------------------------------------------------------------------------

def counts(program, folder, name, k):
    batches.write_files(folder, name, k)
    got = subprocess.run([program], cwd=folder, stdout=subprocess.PIPE, check=True, text=True).stdout
    words = got.split("\n")[-2].split()
    return int(words[1]), int(words[3]), int(words[5])


def check_windows(program, folder):
    """Every step of a window is accepted, and waits exactly where waits are measured."""
    for name in batches.BATCHES:
        batch = batches.batch_of(name)
        for kind, k1, k2 in batch.windows:
            before, after = counts(program, folder, name, k1), counts(program, folder, name, k2)
            waited = k2 - k1 if kind == "advance-wait" else 0
            assert after == (before[0] + k2 - k1, before[1], before[2] + waited), (kind, name)
            assert 1000 < k1 < k2 < 10000 and before[1] > 999 and k1 % 1024 == 1 and k2 - k1 < 1000, (kind, name)
        batches.write_files(folder, name, "all")
        steps = [struct.unpack("<BBH", one) for one in batch.steps]
        records = [10 * (r + 1) for r in range(batch.records)]
        got = subprocess.run([program], cwd=folder, stdout=subprocess.PIPE, check=True, text=True).stdout
        assert got == expected((batch.partitions, batch.workers), records, batch.entries, steps), name
        assert got.startswith("tx"), name


def main():
    with tempfile.TemporaryDirectory() as folder:
        program = os.path.join(folder, "engine")
        flags = ["gcc", "-O2", "-Wall", "-Wextra", "-Werror", "-fsanitize=undefined", "-fno-sanitize-recover"]
        sources = [os.path.join(HERE, name) for name in ("engine.c", "run.c")]
        subprocess.run(flags + sources + ["-o", program], check=True)
        check_listing(program, folder)
        check_openings(program, folder)
        got = [check_random(program, folder, seed) for seed in range(200)]
        sealed, unsealed = (sum(one.startswith(word) for one in got) for word in ("tx", "not"))
        print(f"random batches: {sealed} sealed, {unsealed} not, {len(got) - sealed - unsealed} refused")
        check_windows(program, folder)
        print("odd states:", odd_states.check(folder))
    print("ok")


if __name__ == "__main__":
    main()
