"""A batch as text, and as the three files that the program reads.

Usage: python3 tools/batch_text.py pack TEXT FOLDER    writes records.bin, log.bin and steps.bin
       python3 tools/batch_text.py unpack FOLDER       prints the text

A line of the text is one of:

    records 10 20 30 40                       the records, in one line or in several
    reads 0 writes 1 and 2, take 100 from 1   a transaction: what it declares, then its actions, at most four of each:
                                              set 0 to 7, add 0 by 5, take 100 from 1, copy 1 from 0, move 0 from 1,
                                              floor 99 on 1
    nothing                                   the transaction that does nothing
    place 0                                   a step of partition 0
    claim 0 of 3                              worker 0 claims transaction 3
    advance 0                                 a step of worker 0
    seal                                      (a party may stand behind it; it is not read)
    bytes of log 01ff                         bytes that no other line can tell; also of records and of steps

What follows a # is a remark. Transactions and steps are numbered by their order in the text.

Packing ends with 0; with 1 if the files are written but the engine refuses to open them; with 2 if the text has
mistakes, and then nothing is written. Unpacking shows any files, garbage too, with remarks on what is wrong.
"""

import os
import sys

from batch_faults import opening_fault
from batch_lines import read_text
from batch_shown import shown
from program import FILES, file_bytes

REFUSED, MISTAKEN = 1, 2


def read_file(name):
    """Text that is no proper UTF-8 is read all the same, so that its mistakes have lines and columns."""
    with open(name, encoding="utf-8", errors="replace", newline="") as file:
        return file.read()


def write_batch(batch, folder):
    os.makedirs(folder, exist_ok=True)
    for name, data in batch.files.items():
        with open(os.path.join(folder, name), "wb") as file:
            file.write(data)


def pack(text_name, folder):
    batch = read_text(read_file(text_name))
    for line, column, words in batch.mistakes:
        print(f"{text_name}:{line}:{column}: {words}", file=sys.stderr)
    if batch.mistakes:
        return MISTAKEN
    write_batch(batch, folder)
    fault = opening_fault(batch.files["records.bin"], batch.files["log.bin"])
    if fault:
        line, column = batch.place_of(fault.file, fault.at)
        print(f"{text_name}:{line}:{column}: the engine's opening is {fault.told()}", file=sys.stderr)
        return REFUSED
    return 0


def unpack(folder):
    missing = sorted(set(FILES) - set(os.listdir(folder)))
    print(shown(*(file_bytes(folder, name) for name in FILES), missing), end="")
    return 0


def main(arguments):
    if len(arguments) == 3 and arguments[0] == "pack":
        return pack(*arguments[1:])
    if len(arguments) == 2 and arguments[0] == "unpack":
        return unpack(arguments[1])
    print(__doc__, end="", file=sys.stderr)
    return MISTAKEN


if __name__ == "__main__":
    try:
        sys.exit(main(sys.argv[1:]))
    except OSError as problem:
        sys.exit(f"batch_text.py: {problem}")
