"""A whole case of the program: its form in a file, and its lines. The README says the form."""

from dataclasses import dataclass

from packed import little, number
from program import printed


@dataclass(frozen=True)
class Case:
    records: bytes
    log: bytes
    steps: bytes


def output(case):
    return printed(case.records, case.log, case.steps)


# The two files --------------------------------------------------------------

def case_record(case):
    """Three lengths of 4 bytes, then the three files."""
    files = (case.records, case.log, case.steps)
    return b"".join(little(len(file), 4) for file in files) + b"".join(files)


def data_file(cases):
    return little(len(cases), 4) + b"".join(case_record(case) for case in cases)


def read_cases(data):
    """The cases of a data file."""
    at = 4
    for _ in range(number(data[:4])):
        lengths = [number(data[at + 4 * k : at + 4 * k + 4]) for k in range(3)]
        at += 12
        files = []
        for length in lengths:
            files.append(data[at : at + length])
            at += length
        yield Case(*files)
    assert at == len(data)


def stdout_file(outputs):
    return "".join(f"case {k}\n{text}" for k, text in enumerate(outputs))
