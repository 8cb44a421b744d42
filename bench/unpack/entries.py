"""Writes COUNT copies of a named entry, or one of each: entries.py FILE NAME COUNT | entries.py FILE all"""
import struct
import sys


def action(kind, r, s, c):
    return struct.pack("<BBHHHQ", kind, 0, r, s, 0, c)


def entry(reads, writes, actions):
    sets = b"".join(struct.pack("<4H", *(chosen + [0] * (4 - len(chosen)))) for chosen in (reads, writes))
    rows = b"".join(action(*row) for row in actions) + bytes(16 * (4 - len(actions)))
    return bytes([len(reads), len(writes), len(actions), 0]) + sets + bytes(4) + rows


def with_byte(one, at, value):
    return one[:at] + bytes([value]) + one[at + 1 :]


MIXED = [(2, 1, 0, 5), (3, 2, 0, 5), (5, 3, 4, 0), (4, 1, 2, 0)]
MOVES = [(5, 1, 2, 0), (5, 3, 4, 0), (5, 2, 3, 0), (5, 4, 1, 0)]
FULL = entry([1, 2, 3, 4], [1, 2, 3, 4], MIXED)

ENTRIES = {
    "empty": entry([], [], []),
    "one-action": entry([3], [3], [(2, 3, 0, 5)]),
    "two-actions": entry([3, 9], [3, 7], [(3, 3, 0, 5), (4, 7, 9, 0)]),
    "four-actions": FULL,
    "four-moves": entry([1, 2, 3, 4], [1, 2, 3, 4], MOVES),
    "refused-4-count": with_byte(FULL, 0, 5),
    "refused-4-zero": with_byte(FULL, 73, 1),
    "refused-5": entry([1, 2, 3, 2000], [1, 2, 3, 4], MIXED),
    "refused-6": entry([1, 2, 4, 3], [1, 2, 3, 4], MIXED),
    "refused-7": entry([1, 2, 3, 5], [1, 2, 3, 4], MIXED),
    "refused-8": entry([1, 2, 3, 4], [1, 2, 3, 5], MIXED),
}

if __name__ == "__main__":
    path, name = sys.argv[1], sys.argv[2]
    data = b"".join(ENTRIES.values()) if name == "all" else ENTRIES[name] * int(sys.argv[3])
    with open(path, "wb") as file:
        file.write(data)
