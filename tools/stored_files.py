"""The stored cases and outputs, and their makers. The usage of tools/stored says what is done with them."""

import os
import subprocess
import sys
import tempfile
from dataclasses import dataclass

ROOT = os.path.join(os.path.dirname(os.path.abspath(__file__)), "..")


@dataclass(frozen=True)
class Maker:
    """Words for Python, run in the repository; {to} stands for the folder that the files are made in.

    So a maker may use what an earlier one has made: those below use those above.
    """
    words: tuple
    files: tuple
    prints: bool = False         # what it prints is its one file; else it writes them itself


def cases(name):
    files = (f"crates/{name}_cases/data/cases.bin", f"crates/{name}_cases/stdout")
    return Maker((f"reference/cases_{name}.py", *("{to}/" + file for file in files)), files)


def listing(folder):
    """The listing's three files in this folder."""
    files = tuple(f"{folder}/{name}" for name in ("records.bin", "log.bin", "steps.bin"))
    return Maker(("tools/batch_text.py", "pack", "example/listing.txt", "{to}/" + folder), files)


def printed(file, *words):
    return Maker(words, (file,), prints=True)


ENTRIES = "crates/unpack_cost/data/entries.bin"
P_AND_W = "import sys; sys.stdout.buffer.write(bytes([2, 2]))"       # the program's, which the listing is for

MAKERS = (
    cases("packed"), cases("decide"), cases("engine"), cases("desk"),
    listing("example"), listing("crates/bohm/data"), listing("crates/engine_cost/data"),
    printed("crates/engine_cost/data/setup.bin", "-c", P_AND_W),
    printed("crates/bohm/stdout", "reference/program.py", "{to}/crates/bohm/data"),
    printed("crates/engine_cost/stdout", "reference/program.py", "{to}/crates/engine_cost/data"),
    printed("docs/listing.svg", "docs/draw_listing.py", "{to}/example"),
    Maker(("bench/unpack/entries.py", "{to}/" + ENTRIES, "all"), (ENTRIES,)),
    printed("crates/unpack_cost/stdout", "bench/unpack/tally.py", "{to}/" + ENTRIES),
)


def bytes_of(folder, file):
    """The bytes of a file, or None if there is none."""
    try:
        with open(os.path.join(folder, file), "rb") as opened:
            return opened.read()
    except FileNotFoundError:
        return None


def put(folder, file, data):
    path = os.path.join(folder, file)
    os.makedirs(os.path.dirname(path), exist_ok=True)
    with open(path, "wb") as opened:
        opened.write(data)


def make(maker, folder):
    """Makes the files below this folder."""
    for file in maker.files:
        os.makedirs(os.path.dirname(os.path.join(folder, file)), exist_ok=True)
    words = [word.replace("{to}", folder) for word in maker.words]
    # What makers tell on standard error is wanted only of one that fails.
    done = subprocess.run([sys.executable, "-B", *words], cwd=ROOT, stdout=subprocess.PIPE, stderr=subprocess.PIPE)
    if maker.prints:
        put(folder, maker.files[0], done.stdout)
    missing = [file for file in maker.files if bytes_of(folder, file) is None]
    if done.returncode or missing:
        told = done.stderr.decode(errors="replace")
        sys.exit(f"{told}stored: {maker.words[0]} ended with {done.returncode}; {' and '.join(maker.files)} not made")


def run(check, makers=MAKERS, stored=ROOT):
    """0, or 1 if files differ and are only to be checked."""
    with tempfile.TemporaryDirectory() as made:
        for maker in makers:
            make(maker, made)
        files = [file for maker in makers for file in maker.files]
        different = [file for file in files if bytes_of(made, file) != bytes_of(stored, file)]
        for file in different:
            if check:
                print(f"stored: {file} is not what its maker makes", file=sys.stderr)
            else:
                put(stored, file, bytes_of(made, file))
                print(f"stored: {file} is made again")
    return 1 if check and different else 0
