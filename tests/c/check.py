"""Compares the C library with the reference.

    python3 tests/c/check.py LIBRARY    an archive, an object or a shared library with the calls of uxoladun.h
    python3 tests/c/check.py            the engine in C of bench/engine stands in for the library

Makes the cases and the lines that they must give (reference/cases_library.py), builds run_cases.c with the library,
runs it and compares every line.

`rt lib` in crates/capi_c writes an archive for x86-64, out/libcapi_c.a; README.md copies it to libcapi.a beside it. On
another machine a LIBRARY is taken for such a one: the program is built by x86_64-linux-gnu-gcc and run by qemu-x86_64,
without the sanitizers.
"""

import os
import platform
import subprocess
import sys
import tempfile

HERE = os.path.dirname(os.path.abspath(__file__))
ROOT = os.path.join(HERE, "..", "..")
FLAGS = ["-std=c11", "-O1", "-g", "-Wall", "-Wextra", "-Werror", "-I", os.path.join(ROOT, "include")]
SANITIZED = ["-fsanitize=address,undefined", "-fno-sanitize-recover=all"]
YARDSTICK = [os.path.join(HERE, "yardstick.c"), os.path.join(ROOT, "bench", "engine", "engine.c")]


def built(folder, library, elsewhere):
    """The words that run the program. With `elsewhere` it is one for x86-64 and the machine is not."""
    program = os.path.join(folder, "run_cases")
    compiler = "x86_64-linux-gnu-gcc" if elsewhere else os.environ.get("CC", "cc")
    flags = FLAGS + (["-static"] if elsewhere else SANITIZED)
    subprocess.run([compiler, *flags, os.path.join(HERE, "run_cases.c"), *library, "-o", program], check=True)
    return ["qemu-x86_64", program] if elsewhere else [program]


def expected_lines(folder):
    """The name of the file of cases, and the lines that it must give."""
    cases, stdout = os.path.join(folder, "cases.bin"), os.path.join(folder, "stdout")
    maker = os.path.join(ROOT, "reference", "cases_library.py")
    subprocess.run([sys.executable, maker, cases, stdout], check=True)
    with open(stdout, encoding="ascii") as file:
        return cases, file.read().splitlines()


def first_difference(expected, got):
    """The first line that differs, counted from 1, with what is expected there and what came; or None."""
    length = max(len(expected), len(got))
    filled = [lines + ["(no line)"] * (length - len(lines)) for lines in (expected, got)]
    pairs = enumerate(zip(*filled), start=1)
    return next(((line, want, came) for line, (want, came) in pairs if want != came), None)


def main(arguments):
    library = [os.path.abspath(name) for name in arguments] or YARDSTICK
    with tempfile.TemporaryDirectory() as folder:
        program = built(folder, library, bool(arguments) and platform.machine() != "x86_64")
        cases, expected = expected_lines(folder)
        # A shared library is looked for where it was named.
        places = [os.path.dirname(library[0]), os.environ.get("LD_LIBRARY_PATH", "")]
        done = subprocess.run([*program, cases], stdout=subprocess.PIPE, text=True,
                              env={**os.environ, "LD_LIBRARY_PATH": ":".join(filter(None, places))})
    difference = first_difference(expected, done.stdout.splitlines())
    if difference:
        line, want, came = difference
        sys.exit(f"line {line} differs\nexpected: {want}\ncame:     {came}")
    if done.returncode:
        sys.exit(f"run_cases ended with {done.returncode}")
    print(f"{len(expected)} lines agree")


if __name__ == "__main__":
    main(sys.argv[1:])
