"""The measured batches, as the files that the programs read.

    batches.py FOLDER NAME K    writes the files of a batch with its first K steps, or with all of them (K is `all`)
    batches.py names            prints the names of the batches
    batches.py list             prints a line for each measured kind: kind, batch, K1, K2, steps of that kind

All steps from K1 up to K2 are of the line's kind and are accepted, so the cost of one is the difference between runs of
K2 and of K1 steps, over their number. Each such window begins one step after a multiple of 1,024 steps: steps of no
known kind fill up to there. So no program that reads pieces of 4 KiB or a multiple has to fetch one within a window,
and the counts at the end have four digits in both runs.
"""
import os
import struct
import sys

RECORDS = 512
PIECE = 1024
PLACE, CLAIM, ADVANCE, SEAL = 1, 2, 3, 4
NO_KIND = bytes(4)


def step(kind, party=0, transaction=0):
    return struct.pack("<BBH", kind, party, transaction)


def action(kind, r, s=0, c=0):
    return struct.pack("<BBHHHQ", kind, 0, r, s, 0, c)


def entry(reads, writes, actions):
    sets = b"".join(struct.pack("<4H", *(chosen + [0] * (4 - len(chosen)))) for chosen in (reads, writes))
    rows = b"".join(actions) + bytes(16 * (4 - len(actions)))
    return bytes([len(reads), len(writes), len(actions), 0]) + sets + bytes(4) + rows


class Batch:
    """Entries, parties and steps; `windows` has kind, K1 and K2 of each measured kind."""

    def __init__(self, entries, partitions, workers, records=RECORDS):
        self.entries, self.partitions, self.workers, self.records = entries, partitions, workers, records
        self.steps, self.windows = [], []
        self.size = len(entries)
        self.crew = range(min(workers, self.size))

    def window(self, kind, steps):
        self.steps += [NO_KIND] * ((1 - len(self.steps)) % PIECE)
        if not self.windows:
            self.steps += [NO_KIND] * PIECE
        self.windows.append((kind, len(self.steps), len(self.steps) + len(steps)))
        self.steps += steps

    def place_all(self):
        self.steps += [step(PLACE, p) for p in range(self.partitions) for _ in range(self.size)]

    def work_off(self, chosen):
        """Worker 0 takes each chosen transaction to its end; offers too many are refused."""
        for i in chosen:
            self.steps += [step(CLAIM, 0, i)] + [step(ADVANCE, 0)] * 13

    def finish(self):
        """Nothing of this is measured; whoever still holds a transaction goes on first."""
        self.steps += [step(ADVANCE, w) for w in range(self.workers) for _ in range(13)]
        self.work_off(range(self.size))
        self.steps.append(step(SEAL))
        return self

    def claims(self, chosen):
        return [step(CLAIM, w, i) for w, i in zip(self.crew, chosen)]

    def advances(self, times):
        return [step(ADVANCE, w) for _ in range(times) for w in self.crew]


def quad(k, records=RECORDS, apart=1):
    """The k-th four records that lie `apart` from each other, from the start again where records run out."""
    return sorted((4 * k + j) * apart % records for j in range(4))


def adds(records):
    return [action(2, r, c=5) for r in records]


# The batches: four reads, four writes and four actions; one of each; reads alone; writes that are carried -----------

def full(n, parties):
    batch = Batch([entry(quad(i), quad(i), adds(quad(i))) for i in range(n)], parties, parties)
    batch.place_all()
    batch.window("claim", batch.claims(range(n)))
    batch.window("advance-read-stored", batch.advances(4))
    batch.window("advance-decide-4", batch.advances(1))
    batch.window("advance-fill", batch.advances(3))
    batch.window("advance-last-fill", batch.advances(1))
    return batch.finish()


def place_four(n, parties):
    chosen = [quad(i, apart=parties) for i in range(n)]
    batch = Batch([entry(four, four, adds(four)) for four in chosen], parties, parties)
    batch.window("place-4", [step(PLACE, 0)] * n)
    if parties > 1:
        batch.window("place-0-of-4", [step(PLACE, 1)] * n)
    batch.steps += [step(PLACE, p) for p in range(2, parties) for _ in range(n)]
    return batch.finish()


def one(n, parties):
    chosen = [[parties * i % RECORDS] for i in range(n)]
    batch = Batch([entry(alone, alone, adds(alone)) for alone in chosen], parties, parties)
    batch.window("place-1", [step(PLACE, 0)] * n)
    batch.place_all()
    batch.steps += batch.claims(range(n)) + batch.advances(1)
    batch.window("advance-decide-1", batch.advances(1))
    batch.window("advance-only-fill", batch.advances(1))
    return batch.finish()


def floor(n, parties):
    batch = Batch([entry([i], [], [action(6, i, c=0)]) for i in range(n)], parties, parties)
    batch.window("place-0", [step(PLACE, 0)] * n)
    batch.place_all()
    batch.steps += batch.claims(range(n)) + batch.advances(1)
    batch.window("advance-decide-last", batch.advances(1))
    return batch.finish()


def carry(n, parties):
    """Nobody writes the record that is read, so nobody waits."""
    batch = Batch([entry([511 - i], quad(i), [action(6, 511 - i, c=2**63)]) for i in range(n)], parties, parties)
    batch.place_all()
    batch.steps += batch.claims(range(n)) + batch.advances(1)
    batch.window("advance-decide-abort", batch.advances(1))
    batch.window("advance-carry", batch.advances(4))
    return batch.finish()


# A version as it is read: produced or not, at some depth of its chain ---------------------------------------

def pairs(n, parties):
    """Transaction 2k writes four records, transaction 2k + 1 reads them."""
    entries = [entry(quad(i // 2), [], []) if i % 2 else entry([], quad(i // 2), []) for i in range(n)]
    batch = Batch(entries, parties, parties)
    batch.crew = range(min(parties, n // 2))
    batch.place_all()
    return batch, range(1, n, 2)


def waiting(n, parties):
    batch, readers = pairs(n, parties)
    batch.steps += batch.claims(readers)
    batch.window("advance-wait", batch.advances(1))
    return batch.finish()


def depth_one(n, parties):
    batch, readers = pairs(n, parties)
    batch.work_off(range(0, n, 2))
    batch.steps += batch.claims(readers)
    batch.window("advance-read-depth-1", batch.advances(4))
    return batch.finish()


def depth_eight(n, parties):
    """Transactions 8k to 8k + 7 read and write four records; 8k + 1 finds the version of 8k as the eighth."""
    batch = Batch([entry(quad(i // 8), quad(i // 8), adds(quad(i // 8))) for i in range(n)], parties, parties)
    batch.crew = range(min(parties, n // 8))
    batch.place_all()
    batch.work_off(range(0, n, 8))
    batch.steps += batch.claims(range(1, n, 8))
    batch.window("advance-read-depth-8", batch.advances(4))
    return batch.finish()


def sealing(n, parties, records):
    chosen = [quad(i, records) for i in range(n)]
    batch = Batch([entry(four, four, adds(four)) for four in chosen], parties, parties, records)
    batch.place_all()
    batch.work_off(range(n))
    batch.window(f"seal-{records}", [step(SEAL)])
    return batch


def seal_4(n, parties):
    return sealing(n, parties, 4)


def seal_1024(n, parties):
    return sealing(n, parties, 1024)


SHAPES = {
    "place": place_four, "one": one, "floor": floor, "full": full, "carry": carry, "waiting": waiting,
    "depth1": depth_one, "depth8": depth_eight, "seal4": seal_4, "seal1024": seal_1024,
}
NEED_EIGHT = ("waiting", "depth1", "depth8")
BATCHES = {
    f"{shape}-n{n}-p{parties}": (make, n, parties)
    for shape, make in SHAPES.items() for n in (1, 8, 64) for parties in (1, 2, 8)
    if n >= 8 or shape not in NEED_EIGHT
}


def batch_of(name):
    make, n, parties = BATCHES[name]
    return make(n, parties)


def write_files(folder, name, k):
    batch = batch_of(name)
    count = len(batch.steps) if k == "all" else int(k)
    # Only a seal makes lines that depend on K: the third byte leaves them out.
    quiet = [1] if k != "all" and name.startswith("seal") else []
    files = {
        "records.bin": b"".join(struct.pack("<Q", 10 * (r + 1)) for r in range(batch.records)),
        "log.bin": b"".join(batch.entries),
        "steps.bin": b"".join(batch.steps[:count]),
        "setup.bin": bytes([batch.partitions, batch.workers] + quiet),
    }
    for file_name, data in files.items():
        with open(os.path.join(folder, file_name), "wb") as file:
            file.write(data)


def main(arguments):
    if arguments == ["names"]:
        print(*BATCHES, sep="\n")
    elif arguments == ["list"]:
        for name in BATCHES:
            for kind, k1, k2 in batch_of(name).windows:
                print(kind, name, k1, k2, k2 - k1)
    elif len(arguments) == 3 and arguments[1] in BATCHES:
        write_files(*arguments)
    else:
        sys.exit(__doc__)


if __name__ == "__main__":
    main(sys.argv[1:])
