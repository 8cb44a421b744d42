"""Instructions for each transaction of a batch: by the library, by the engine in C, and one by one in C.

    python3 bench/library/measure.py LIBRARY COUNT_INSNS

LIBRARY is crates/capi_c/out/libcapi.a, made as README.md says. COUNT_INSNS PROGRAM ARGUMENTS.. runs an x86-64 program
and writes 'insns N' to standard error. All three are the call uxoladun_run behind one program, call.c, on the same
batches. What they give is compared: everything between the library and the engine in C, everything but the counts of
steps with the one-by-one run. C is compiled at -O2. What call.c itself does is counted with a call that does nothing,
and taken off.

A batch of n transactions has chains of so many versions: that many transactions, one after the other, read and write
the same record (kind one) or the same four (kind four) and add to it. A chain of 1 has no two on the same record. Each
transaction is placed by every partition, then claimed by worker i mod W and taken to its end; none waits; then comes
the seal. There are 512 records. What a batch costs once, opening and seal, is shared among its transactions.
"""
import os
import subprocess
import sys
import tempfile

HERE = os.path.dirname(os.path.abspath(__file__))
ROOT = os.path.join(HERE, "..", "..")
sys.path[:0] = [os.path.join(ROOT, "reference"), os.path.join(ROOT, "bench", "engine")]

from batches import ADVANCE, CLAIM, PLACE, SEAL, adds, entry, step  # noqa: E402
from library_files import Batch, case_record  # noqa: E402

RECORDS = 512
ENGINE = os.path.join(ROOT, "bench", "engine", "engine.c")
PROGRAMS = {
    "library": [],
    "engine": [os.path.join(ROOT, "tests", "c", "yardstick.c"), ENGINE],
    "one by one": [os.path.join(HERE, "one_by_one.c"), ENGINE],
    "nothing": [os.path.join(HERE, "nothing.c")],
}
SIZES = ((1, 1), (8, 1), (8, 8), (64, 1), (64, 8), (64, 64))
MORE, FEWER = 3, 1


def batch(width, n, chain, parties):
    """n transactions, each of `width` reads, writes and actions."""
    chosen = [[width * (i // chain) + j for j in range(width)] for i in range(n)]
    steps = [step(PLACE, p) for p in range(parties) for _ in range(n)]
    for i in range(n):
        steps += [step(CLAIM, i % parties, i)] + [step(ADVANCE, i % parties)] * (2 * width + 1)
    log = b"".join(entry(four, four, adds(four)) for four in chosen)
    return Batch(parties, parties, 1, tuple(range(RECORDS)), log, b"".join(steps) + step(SEAL))


def build(folder, library):
    programs = {}
    for name, sources in PROGRAMS.items():
        programs[name] = os.path.join(folder, name.replace(" ", "_"))
        subprocess.run(["x86_64-linux-gnu-gcc", "-O2", "-static", "-I", os.path.join(ROOT, "include"),
                        os.path.join(HERE, "call.c"), *(sources or [library]), "-o", programs[name]], check=True)
    return programs


def run(counter, program, case, times):
    """What it printed, and how many instructions it took."""
    done = subprocess.run([counter, program, case, str(times)], capture_output=True, text=True, check=True)
    counted = [line.split()[1] for line in done.stderr.splitlines() if line.startswith("insns ")]
    return done.stdout, int(counted[-1])


def cost(counter, program, case):
    """What it printed, and the instructions of one call."""
    printed, more = run(counter, program, case, MORE)
    return printed, (more - run(counter, program, case, FEWER)[1]) / (MORE - FEWER)


def without_counts(printed):
    return [line for line in printed.splitlines() if not line.startswith("counts")]


def measured(counter, programs, case):
    """Instructions of a call by each, or an end where what they give differs."""
    printed, costs = {}, {}
    for name, program in programs.items():
        printed[name], costs[name] = cost(counter, program, case)
    if not printed["library"].startswith("run 0\n") or not printed["library"].endswith(" 0 0 1\n"):
        sys.exit("the batch is not sealed, or a step is refused or waits:\n" + printed["library"])
    if printed["library"] != printed["engine"]:
        sys.exit("library and engine differ:\n" + printed["library"] + printed["engine"])
    if without_counts(printed["library"]) != without_counts(printed["one by one"]):
        sys.exit("library and one-by-one run differ:\n" + printed["library"] + printed["one by one"])
    return {name: each - costs["nothing"] for name, each in costs.items()}


def table(counter, programs, folder):
    yield "| reads, writes | n | chain | P, W | steps | library | engine in C | ratio | one by one in C | ratio |"
    yield "|---|---|---|---|---|---|---|---|---|---|"
    for width in (1, 4):
        for n, chain in SIZES:
            for parties in (1, 2, 8):
                case = batch(width, n, chain, parties)
                name = os.path.join(folder, "case")
                with open(name, "wb") as file:
                    file.write(case_record(case))
                costs = measured(counter, programs, name)
                library, engine, alone = (costs[each] / n for each in ("library", "engine", "one by one"))
                yield (f"| {width} | {n} | {chain} | {parties} | {len(case.steps) // 4} | {library:,.0f} "
                       f"| {engine:,.0f} | {library / engine:.2f} | {alone:,.0f} | {library / alone:,.1f} |")


def main(library, counter):
    with tempfile.TemporaryDirectory() as folder:
        programs = build(folder, os.path.abspath(library))
        for line in table(os.path.abspath(counter), programs, folder):
            print(line, flush=True)


if __name__ == "__main__":
    main(*sys.argv[1:])
