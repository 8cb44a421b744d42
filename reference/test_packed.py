"""Tests of the packed transaction. Run: python3 -m unittest discover reference"""

import os
import subprocess
import sys
import tempfile
import unittest
from itertools import combinations

import cases_packed
from case_files import MEANING_LENGTH, read_meaning
from cases_packed import CALL_NAMES, ENTRY, LAYOUTS, N, PACK, UNPACK, Case, all_cases, answer
from packed import (KINDS, NOTHING, ZERO_MEANING, Action, Transaction, decode, encode,
                    first_refusal, number, pack, unpack, unpack_at)

# Hand-written bytes. The first four are the transactions of document 01's listing.
NO_RECORDS = "0000 0000 0000 0000"
NO_ACTION = "00 00 0000 0000 0000 0000000000000000"


def entry_of(head, reads, writes, *actions):
    """88 bytes from hexadecimal parts; actions that are not given are zero."""
    parts = [head, reads, writes, "00000000", *actions] + [NO_ACTION] * (4 - len(actions))
    entry = bytes.fromhex("".join(parts))
    assert len(entry) == 88
    return entry


def meaning_of(counts, reads, writes, *actions):
    return Transaction(*counts, reads, writes, actions + (NOTHING,) * (4 - len(actions)))


HAND_WRITTEN = [
    # reads 0 writes 0, add 0 by 5
    (entry_of("01 01 01 00", NO_RECORDS, NO_RECORDS, "02 00 0000 0000 0000 0500000000000000"),
     meaning_of((1, 1, 1), (0, 0, 0, 0), (0, 0, 0, 0), Action("add", r=0, c=5))),
    # reads 0 writes 1, copy 1 from 0
    (entry_of("01 01 01 00", NO_RECORDS, "0100 0000 0000 0000", "04 00 0100 0000 0000 0000000000000000"),
     meaning_of((1, 1, 1), (0, 0, 0, 0), (1, 0, 0, 0), Action("copy", r=1, s=0))),
    # reads 1 writes 1 and 2, take 100 from 1
    (entry_of("01 02 01 00", "0100 0000 0000 0000", "0100 0200 0000 0000",
              "03 00 0100 0000 0000 6400000000000000"),
     meaning_of((1, 2, 1), (1, 0, 0, 0), (1, 2, 0, 0), Action("take", r=1, c=100))),
    # writes 0, set 0 to 7
    (entry_of("00 01 01 00", NO_RECORDS, NO_RECORDS, "01 00 0000 0000 0000 0700000000000000"),
     meaning_of((0, 1, 1), (0, 0, 0, 0), (0, 0, 0, 0), Action("set", r=0, c=7))),
    # reads 0 and 1 writes 0 and 1, move 0 from 1, then floor 1 at a constant of eight different bytes
    (entry_of("02 02 02 00", "0000 0100 0000 0000", "0000 0100 0000 0000",
              "05 00 0000 0100 0000 0000000000000000", "06 00 0100 0000 0000 efcdab8967452301"),
     meaning_of((2, 2, 2), (0, 1, 0, 0), (0, 1, 0, 0),
                Action("move", r=0, s=1), Action("floor", r=1, c=0x0123456789ABCDEF))),
]

ADD_1 = "02 00 0100 0000 0000 0500000000000000"      # add 1 by 5
ONE = "0100 0000 0000 0000"                          # a set of record 1
TWO = "0200 0000 0000 0000"                          # a set of record 2

# One faulty entry for each of 4 to 8, for four records.
FAULTY = {
    4: entry_of("01 01 01 01", ONE, ONE, ADD_1),                            # byte 3
    5: entry_of("02 01 01 00", "0100 0400 0000 0000", ONE, ADD_1),          # record 4 of four
    6: entry_of("02 01 01 00", "0200 0100 0000 0000", ONE, ADD_1),          # 2, 1
    7: entry_of("01 01 01 00", TWO, ONE, ADD_1),                            # add reads 1
    8: entry_of("01 01 01 00", ONE, TWO, ADD_1),                            # add writes 1
}


class BytesAndMeaning(unittest.TestCase):
    def test_hand_written_entries(self):
        for entry, meaning in HAND_WRITTEN:
            self.assertEqual(decode(entry), meaning)
            self.assertEqual(encode(meaning), entry)
            self.assertEqual(unpack(4, entry), (0, 0, meaning))
            self.assertEqual(pack(4, meaning, bytes(88)), (0, 0, entry))

    def test_zeros_are_a_proper_transaction(self):
        for n in (1, 1024):
            self.assertEqual(unpack(n, bytes(88)), (0, 0, ZERO_MEANING))
        self.assertEqual(encode(ZERO_MEANING), bytes(88))

    def test_another_kind_byte_means_nothing(self):
        for kind in (0, 7, 255):
            entry = bytes(24) + bytes([kind]) + bytes(range(1, 16)) + bytes(48)
            self.assertEqual(decode(entry).actions[0], NOTHING)

    def test_encode_leaves_fields_that_a_kind_lacks_zero(self):
        actions = (Action("set", r=1, s=9, c=5), Action("copy", r=1, s=2, c=9), Action("nothing", r=9))
        entry = encode(meaning_of((0, 0, 3), (0,) * 4, (0,) * 4, *actions))
        self.assertEqual(entry[24:40], bytes.fromhex("01 00 0100 0000 0000 0500000000000000"))
        self.assertEqual(entry[40:56], bytes.fromhex("04 00 0100 0200 0000 0000000000000000"))
        self.assertEqual(entry[56:88], bytes(32))

    def test_round_trip_of_accepted_entries(self):
        for case in all_cases():
            if case.call == UNPACK and unpack(case.n, case.lent)[0] == 0:
                self.assertEqual(encode(decode(case.lent)), case.lent)

    def test_round_trip_of_accepted_meanings(self):
        for case in all_cases():
            if case.call == PACK and pack(case.n, case.meaning, case.lent)[0] == 0:
                self.assertEqual(decode(encode(case.meaning)), case.meaning)


class Refusals(unittest.TestCase):
    def test_hand_written_faults(self):
        for refusal, entry in FAULTY.items():
            self.assertEqual(first_refusal(4, entry), refusal)
            self.assertEqual(unpack(4, entry), (refusal, 0, ZERO_MEANING))
        self.assertIsNone(first_refusal(5, entry_of("02 01 01 00", "0100 0400 0000 0000", ONE, ADD_1)))

    def test_reading_after_a_set_is_still_undeclared(self):
        entry = entry_of("00 01 02 00", NO_RECORDS, ONE, "01 00 0100 0000 0000 0500000000000000", ADD_1)
        self.assertEqual(first_refusal(4, entry), 7)

    def test_zeros_past_a_count_declare_nothing(self):
        floor_0 = "06 00 0000 0000 0000 0500000000000000"
        self.assertEqual(first_refusal(4, entry_of("00 00 01 00", NO_RECORDS, NO_RECORDS, floor_0)), 7)

    def test_the_lowest_of_several_faults(self):
        for count in range(1, 6):
            for faults in combinations((4, 5, 6, 7, 8), count):
                for layout in LAYOUTS:
                    self.assertEqual(first_refusal(N, layout(faults)), min(faults))
        for layout in LAYOUTS:
            self.assertIsNone(first_refusal(N, layout(())))

    def test_1_before_2_before_4_to_8(self):
        entry = FAULTY[4]
        self.assertEqual(unpack(0, entry[:87])[0], 1)
        self.assertEqual(unpack(1025, entry)[0], 1)
        self.assertEqual(unpack(4, entry[:87])[0], 2)
        self.assertEqual(unpack(4, entry + entry)[0], 2)
        self.assertEqual(pack(0, decode(FAULTY[5]), bytes(87))[0], 1)
        self.assertEqual(pack(4, decode(FAULTY[5]), bytes(87))[0], 2)
        self.assertEqual(pack(4, decode(FAULTY[5]), bytes(88))[0], 5)

    def test_refused_packing_keeps_the_buffer(self):
        for refusal in (5, 6, 7, 8):
            buffer = bytes(range(88))
            self.assertEqual(pack(4, decode(FAULTY[refusal]), buffer), (refusal, 0, buffer))
        nothing_within_the_count = meaning_of((0, 0, 1), (0,) * 4, (0,) * 4)
        self.assertEqual(pack(4, nothing_within_the_count, bytes(88))[0], 4)

    def test_place_is_the_index_for_4_to_8_else_0(self):
        good, meaning = HAND_WRITTEN[2]
        for refusal, entry in FAULTY.items():
            log = good + good + entry
            self.assertEqual(unpack_at(4, log, 2), (refusal, 2, ZERO_MEANING))
            self.assertEqual(unpack_at(4, log, 1), (0, 0, meaning))
            self.assertEqual(unpack_at(0, log, 2), (1, 0, ZERO_MEANING))
            self.assertEqual(unpack_at(4, log, 3), (2, 0, ZERO_MEANING))
            self.assertEqual(unpack_at(4, log[:-1], 2), (2, 0, ZERO_MEANING))
            self.assertEqual(unpack_at(4, log, 2**61), (2, 0, ZERO_MEANING))


def take(data, length):
    return data[:length], data[length:]


def read_cases(data):
    """The cases of a case file."""
    while data:
        head, data = take(data, 19)
        call, n, index, length = head[0], number(head[1:9]), number(head[9:17]), number(head[17:19])
        if call == PACK:
            meaning, data = take(data, MEANING_LENGTH)
            yield Case(call, n, index, bytes([170]) * length, read_meaning(meaning))
        else:
            lent, data = take(data, length)
            yield Case(call, n, index, lent)


class Cases(unittest.TestCase):
    def test_every_answer_of_every_call_appears(self):
        seen = {tuple(answer(case).split()[i] for i in (0, 2)) for case in all_cases()}
        expected = {(call, number) for call in CALL_NAMES.values() for number in "01245678"}
        self.assertEqual(seen, expected)

    def test_every_kind_is_accepted_in_every_call(self):
        seen = set()
        for case in all_cases():
            if case.call == PACK and pack(case.n, case.meaning, case.lent)[0] == 0:
                seen |= {(PACK, action.kind) for action in case.meaning.actions}
            if case.call == UNPACK:
                seen |= {(UNPACK, action.kind) for action in unpack(case.n, case.lent)[2].actions}
            if case.call == ENTRY:
                meaning = unpack_at(case.n, case.lent, case.index)[2]
                seen |= {(ENTRY, action.kind) for action in meaning.actions}
        kinds = ["nothing"] + [kind.name for kind in KINDS.values()]
        self.assertEqual(seen, {(call, kind) for call in CALL_NAMES for kind in kinds})

    def test_sizes(self):
        cases = all_cases()
        self.assertTrue(700 <= len(cases) <= 1200)
        self.assertLess(sum(len(cases_packed.case_record(case)) for case in cases), 250_000)
        self.assertTrue(all(len(case.lent) <= 128 for case in cases if case.call == PACK))

    def test_the_written_files(self):
        with tempfile.TemporaryDirectory() as folder:
            data_file, stdout_file = os.path.join(folder, "data"), os.path.join(folder, "stdout")
            subprocess.run([sys.executable, cases_packed.__file__, data_file, stdout_file], check=True)
            with open(data_file, "rb") as file:
                cases = list(read_cases(file.read()))
            with open(stdout_file, encoding="ascii") as file:
                lines = file.read().splitlines()
        self.assertEqual(cases, all_cases())
        self.assertEqual(lines, [answer(case) for case in cases])

    def test_lines(self):
        entry, meaning = HAND_WRITTEN[2]
        self.assertEqual(
            answer(Case(UNPACK, 4, lent=entry)),
            "unpack accepted 0 0 1 2 1 : 1 0 0 0 : 1 2 0 0 : take 1 100 : nothing : nothing : nothing")
        self.assertEqual(
            answer(Case(ENTRY, 4, 1, entry + FAULTY[6])),
            "entry refused 6 1 0 0 0 : 0 0 0 0 : 0 0 0 0 : nothing : nothing : nothing : nothing")
        self.assertEqual(answer(Case(PACK, 4, lent=b"\xaa" * 88, meaning=meaning)),
                         "pack accepted 0 0 " + entry.hex())
        self.assertEqual(answer(Case(PACK, 4, lent=b"\xaa\xaa", meaning=meaning)), "pack refused 2 0 aaaa")
        self.assertEqual(answer(Case(PACK, 4, lent=b"", meaning=meaning)), "pack refused 2 0 -")


if __name__ == "__main__":
    unittest.main()
