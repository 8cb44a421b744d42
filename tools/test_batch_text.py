"""Tests of batches as text. Run: python3 -m unittest discover tools"""

import os
import random
import subprocess
import sys
import tempfile
import unittest

import batch_text
from batch_faults import entry_fault, opening_fault
from batch_lines import read_text
from batch_shown import shown
from cases_decide import EDGE_NUMBERS, random_transaction
from cases_desk import all_cases as desk_cases
from cases_packed import UNPACK, all_cases as packed_cases
from desk_schedules import any_step
from engine_moments import log_of
from packed import first_refusal, little
from program import FILES, file_bytes, record_bytes
from test_desk import expected_refusal
from test_program import LISTING_FILES

TRANSACTIONS = """\
# log.bin: 4 transactions
reads 0 writes 0, add 0 by 5
reads 0 writes 1, copy 1 from 0
reads 1 writes 1 and 2, take 100 from 1
writes 0, set 0 to 7
"""
STEPS = ["place 0"] * 4 + ["place 1"] * 4 + ["claim 0 of 3", "advance 0", "advance 0", "claim 1 of 1", "advance 1"]
STEPS += ["claim 0 of 0"] + ["advance 0"] * 3 + ["claim 1 of 1"] + ["advance 1"] * 3
STEPS += ["claim 0 of 2"] + ["advance 0"] * 6 + ["seal"]
LISTING = ("# records.bin: 4 records\nrecords 10 20 30 40\n\n" + TRANSACTIONS
           + "\n# steps.bin: 29 steps\n" + "\n".join(STEPS) + "\n")


def packed_from(text):
    """The three files of a text without mistakes."""
    batch = read_text(text)
    assert batch.mistakes == [], batch.mistakes
    return tuple(bytes(batch.files[name]) for name in FILES)


class RoundTrip(unittest.TestCase):
    def both_ways(self, *files):
        text = shown(*files)
        packed = packed_from(text)
        self.assertEqual(packed, files)
        self.assertEqual(shown(*packed), text)
        return text

    def test_listing(self):
        self.assertEqual(packed_from(LISTING), LISTING_FILES)
        self.assertEqual(shown(*LISTING_FILES), LISTING)

    def test_every_action_and_the_empty_transaction(self):
        text = ("# records.bin: 1 record\nrecords 18446744073709551615\n\n# log.bin: 4 transactions\n"
                "reads 0 and 1 and 2 and 3 writes 4 and 5 and 6 and 65535, copy 4 from 3, set 5 to 0, "
                "set 6 to 18446744073709551615, copy 65535 from 0\n"
                "reads 0 and 1 writes 0 and 1, move 0 from 1, floor 99 on 1, take 3 from 0, add 1 by 2\n"
                "nothing\nset 0 to 7\n\n# steps.bin: 2 steps\nseal 255\nclaim 255 of 65535\n")
        files = packed_from(text)
        fault = opening_fault(*files[:2])
        self.assertEqual((fault.number, fault.transaction), (5, 0))
        remarks = [line for line in shown(*files).splitlines() if line.startswith("# The") or "refused" in line]
        told = "".join(line + "\n" for line in shown(*files).splitlines() if line not in remarks).lstrip("\n")
        self.assertEqual(told, text)
        self.assertEqual(len(remarks), 4)

    def test_random_batches(self):
        chance = random.Random(5)
        for _ in range(60):
            N = chance.randint(1, 30)
            log = [random_transaction(chance, range(N), EDGE_NUMBERS) for _ in range(chance.randint(1, 64))]
            records = record_bytes(chance.choice(EDGE_NUMBERS) for _ in range(N))
            steps = b"".join(any_step(chance) for _ in range(chance.randint(0, 50)))
            self.assertNotIn("bytes of log", self.both_ways(records, log_of(log), steps))

    def test_whole_cases_of_the_program(self):
        for case in desk_cases():
            self.both_ways(case.records, case.log, case.steps)

    def test_garbage(self):
        chance = random.Random(6)
        for length in [*range(12), 86, 87, 88, 89, 176, 177, 1000, 5632, 5633, 9000]:
            for smaller in (256, 7, 2):
                files = [bytes(chance.randrange(smaller) for _ in range(length)) for _ in FILES]
                self.both_ways(*files)

    def test_remarks_and_blanks_change_nothing(self):
        spread = LISTING.replace(",", "  ,\t").replace("\n", "   # reads 0\r\n\n").replace("place 0", "  place  0")
        self.assertEqual(packed_from(spread), LISTING_FILES)
        self.assertEqual(packed_from(LISTING.replace("10 20 30 40", "10\nrecords 20 30\nrecords 40")), LISTING_FILES)


MISTAKES = [
    ("recods 1", 1, 1, 'not "recods"'), ("records", 1, 8, "a number is expected here, not the end of the line"),
    ("records 1 x", 1, 11, 'not "x"'), ("records 1\n  records 2 -3", 2, 13, 'not "-3"'),
    ("records 18446744073709551616", 1, 9, "at most 18446744073709551615"),
    ("records 1" + "0" * 9999, 1, 9, "at most"), ("records ١", 1, 9, "a number"),
    ("reads", 1, 6, "a record number"), ("reads 0 and", 1, 12, "a record number"),
    ("reads 65536", 1, 7, "at most 65535"), ("reads 0 1", 1, 9, '"," is expected'),
    ("reads 0 writes 1 reads 2", 1, 18, '"," is expected'), ("reads 0,", 1, 9, "an action"),
    ("writes 1, set 1 by 5", 1, 17, '"to" is expected here, not "by"'), ("writes 1, set 1 to", 1, 19, "a constant"),
    ("reads 1, take 5 from 1 floor 1 on 1", 1, 24, '"," is expected'), ("reads 1, double 1", 1, 10, "an action"),
    ("reads 0 and 1 and 2 and 3 and 4", 1, 31, "reads at most 4 records; the engine refuses more by 4"),
    ("writes 0 and 1 and 2 and 3 and 4", 1, 32, "writes at most 4 records"),
    ("set 1 to 1, set 1 to 1, set 1 to 1, set 1 to 1, set 1 to 1", 1, 49, "at most 4 actions"),
    ("nothing, set 0 to 1", 1, 8, "the end of the line"), ("place", 1, 6, "a partition"),
    ("place 256", 1, 7, "at most 255"), ("place 0 of 1", 1, 9, "the end of the line"),
    ("claim 0", 1, 8, '"of" is expected'), ("claim 0 of 65536", 1, 12, "at most 65535"),
    ("advance w", 1, 9, "a worker"), ("seal now", 1, 6, "a worker"), ("seal 1 2", 1, 8, "the end of the line"),
    ("bytes of log 123", 1, 14, "two hexadecimal digits"), ("bytes of logs 12", 1, 10, "records, log or steps"),
    ("bytes log 12", 1, 7, '"of" is expected'), ("\ufffd", 1, 1, 'not "\\ufffd"'), ("\x00", 1, 1, 'not "\\x00"'),
    ("place " + "x" * 99, 1, 7, 'not "' + "x" * 24 + '..."'),
]


class Mistakes(unittest.TestCase):
    def test_line_and_column(self):
        for text, line, column, words in MISTAKES:
            [(got_line, got_column, got_words)] = read_text(text).mistakes
            self.assertEqual((got_line, got_column), (line, column), text)
            self.assertIn(words, got_words)

    def test_garbage_text_is_read_to_its_end(self):
        chance = random.Random(8)
        parts = ["records", "reads", "writes", "and", ",", "set", "floor", "to", "on", "claim", "of", "seal", "bytes",
                 "log", "0", "3", "99999", "0" * 5000, "ff", "#", "\n", "\r", "\t", "\x00", "\u2028", "\ud800", "é"]
        for _ in range(2000):
            text = "".join(chance.choice(parts) + chance.choice(("", " ", " ")) for _ in range(chance.randint(0, 30)))
            batch = read_text(text)
            self.assertEqual(batch.lines, text.count("\n") + 1)
            for line, column, _ in batch.mistakes:
                self.assertLessEqual(column, len(text.split("\n")[line - 1]) + 1)

    def test_every_line_is_told(self):
        text = "reads x\nplace 0\nplace x\n# x\nseal x"
        self.assertEqual([line for line, _, _ in read_text(text).mistakes], [1, 3, 5])


# Text whose opening is refused: number, transaction, line and column, words.
REFUSED = [
    ("", 1, None, 1, 1, "0 records"), ("records 1\nbytes of records 010203", 1, None, 2, 18, "11 bytes"),
    ("records 1\n" * 1024 + "records 1 2", 1, None, 1025, 9, "1026 records"),
    ("records 1", 2, None, 1, 1, "0 transactions"),
    ("records 1\n" + "nothing\n" * 65, 2, None, 66, 1, "65 transactions"),
    ("records 1\nnothing\nbytes of log 00", 2, None, 3, 14, "89 bytes"),
    ("records 1 2\nnothing\nreads 1 and 2", 5, 1, 3, 13, "record 2 in the read set, and the records end at 1"),
    ("records 1 2\nwrites 0 and 3, set 0 to 1", 5, 0, 2, 14, "write set"),
    ("records 1 2\nwrites 0, set 2 to 1", 5, 0, 2, 15, "set uses record 2"),
    ("records 1 2\nreads 1 and 0, floor 1 on 0", 6, 0, 2, 13, "the read set does not ascend: 0 after 1"),
    ("records 1 2\nreads 0 writes 1 and 1", 6, 0, 2, 22, "the write set does not ascend"),
    ("records 1 2\nreads 1 writes 0 and 1, floor 1 on 1, move 1 from 0", 7, 0, 2, 51, "move reads record 0"),
    ("records 1 2\nnothing\nreads 0, add 0 by 1", 8, 1, 3, 14, "add writes record 0, which is not declared"),
    ("records 1 2\nbytes of log " + "00" * 23 + "01" + "00" * 64, 4, 0, 2, 14 + 46, "byte 23"),
    ("records 1 2\nbytes of log 05" + "00" * 87, 4, 0, 2, 14, "read count is 5"),
    ("records 1 2\nbytes of log 000001" + "00" * 85, 4, 0, 2, 14 + 48, "kind 0"),
]


class Refusals(unittest.TestCase):
    def test_number_line_and_column(self):
        for text, number, transaction, line, column, words in REFUSED:
            batch = read_text(text)
            fault = opening_fault(*(batch.files[name] for name in FILES[:2]))
            self.assertEqual((fault.number, fault.transaction), (number, transaction), text)
            self.assertEqual(batch.place_of(fault.file, fault.at), (line, column), text)
            self.assertIn(words, fault.words)

    def test_the_number_is_that_of_the_reference(self):
        for case in packed_cases():
            if case.call == UNPACK and len(case.lent) == 88:
                found = entry_fault(case.n, case.lent)
                self.assertEqual(found and found[0], first_refusal(case.n, case.lent))
        for case in desk_cases():
            fault = opening_fault(case.records, case.log)
            self.assertEqual(fault.number if fault else 0, expected_refusal(case))

    def test_the_byte_is_at_fault(self):
        """With a number that suits or is worse there, the refusal is another or falls on another byte."""
        for case in packed_cases():
            found = entry_fault(case.n, case.lent) if case.call == UNPACK and len(case.lent) == 88 else None
            if found and 1 <= case.n <= 1024:
                number, at, _ = found
                width = 1 if number == 4 else 2          # 5 to 8 fall on a record number
                values = (0, 1) if number == 4 else (0, 65_535)
                others = [case.lent[:at] + little(value, width) + case.lent[at + width :] for value in values]
                self.assertTrue(any((entry_fault(case.n, other) or (0, 0))[:2] != (number, at) for other in others))

    def test_remarks_have_byte_offsets(self):
        entry = bytes([0, 0, 1]) + bytes(21) + bytes([9]) + bytes(63)
        text = shown(bytes(9), bytes(88) + entry + b"\1\2", bytes([5, 0, 0, 0, 1, 0, 7, 0, 4]))
        for remark in ("# records.bin byte 8: 1 byte left over", "# log.bin byte 112: refused by 4, transaction 1",
                       "# as far as it can be told: kind 9", "# log.bin byte 176: 2 bytes left over",
                       "# steps.bin byte 0: counted as refused: kind 5",
                       "# steps.bin byte 6: counted as refused: place 0 with transaction 7",
                       "# steps.bin byte 8: a short last step", "# The engine's opening is refused by 1"):
            self.assertIn("\n" + remark, "\n" + text)


class Commands(unittest.TestCase):
    def call(self, *arguments):
        done = subprocess.run([sys.executable, batch_text.__file__, *arguments], stdout=subprocess.PIPE,
                              stderr=subprocess.PIPE, text=True)
        return done.returncode, done.stdout, done.stderr

    def pack(self, folder, text):
        name = os.path.join(folder, "text")
        with open(name, "wb") as file:
            file.write(text)
        return name, self.call("pack", name, os.path.join(folder, "files"))

    def test_there_and_back(self):
        with tempfile.TemporaryDirectory() as folder:
            self.assertEqual(self.pack(folder, LISTING.encode())[1], (0, "", ""))
            files = os.path.join(folder, "files")
            for name, data in zip(FILES, LISTING_FILES):
                with open(os.path.join(files, name), "rb") as file:
                    self.assertEqual(file.read(), data)
            self.assertEqual(self.call("unpack", files), (0, LISTING, ""))

    def test_mistakes_write_nothing(self):
        with tempfile.TemporaryDirectory() as folder:
            name, (code, told, problems) = self.pack(folder, b"records 1\n\xff\xfe\nreads x")
            self.assertEqual((code, told, len(problems.splitlines())), (2, "", 2))
            self.assertTrue(problems.splitlines()[1].startswith(f"{name}:3:7: a record number is expected"))
            self.assertFalse(os.path.exists(os.path.join(folder, "files")))

    def test_a_refused_opening_is_told_and_written(self):
        with tempfile.TemporaryDirectory() as folder:
            name, (code, told, problems) = self.pack(folder, b"records 1\nreads 1")
            self.assertEqual((code, told), (1, ""))
            self.assertTrue(problems.startswith(f"{name}:2:7: the engine's opening is refused by 5, transaction 0:"))
            self.assertEqual(len(os.listdir(os.path.join(folder, "files"))), 3)

    def test_missing_files_and_folders(self):
        with tempfile.TemporaryDirectory() as folder:
            code, told, _ = self.call("unpack", folder)
            self.assertEqual((code, told.count("is missing and counts as empty")), (0, 3))
            for arguments in (("unpack", os.path.join(folder, "none")), ("pack", os.path.join(folder, "none"), folder)):
                code, told, problems = self.call(*arguments)
                self.assertEqual((code, told, problems.count("\n")), (1, "", 1))
        self.assertEqual(self.call()[0], 2)


EXAMPLE = os.path.join(os.path.dirname(os.path.abspath(__file__)), "..", "example")


class Example(unittest.TestCase):
    def test_the_files_are_the_listing_and_its_text(self):
        self.assertEqual(tuple(file_bytes(EXAMPLE, name) for name in FILES), LISTING_FILES)
        self.assertEqual(file_bytes(EXAMPLE, "listing.txt").decode("ascii"), LISTING)


if __name__ == "__main__":
    unittest.main()
