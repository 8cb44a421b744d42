"""Prints what unpack_cost prints for a file of entries, by the reference: python3 bench/unpack/tally.py FILE"""
import os
import sys

sys.path.insert(0, os.path.join(os.path.dirname(os.path.abspath(__file__)), "..", "..", "reference"))

from packed import ENTRY_LENGTH, LARGEST_N, part, unpack


def weight(entry):
    """The sum of all that its meaning holds, the kinds left out; 1 if it is refused."""
    refused, _, meaning = unpack(LARGEST_N, entry)
    if refused:
        return 1
    counts = meaning.read_count + meaning.write_count + meaning.action_count
    sets = sum(meaning.reads + meaning.writes)
    return counts + sets + sum(action.r + action.s + action.c for action in meaning.actions)


def tally(entries):
    whole = len(entries) // ENTRY_LENGTH
    return sum(weight(part(entries, 0, ENTRY_LENGTH, i)) for i in range(whole)) % 2**64


if __name__ == "__main__":
    with open(sys.argv[1], "rb") as file:
        print(tally(file.read()))
