"""Tests of the command tools/regenerate, on a small repository. Run: python3 -m unittest discover tools"""

import contextlib
import importlib.machinery
import importlib.util
import io
import os
import shutil
import tempfile
import unittest
from types import SimpleNamespace
from unittest import mock

TOOLS = os.path.dirname(os.path.dirname(os.path.dirname(os.path.abspath(__file__))))
LOADER = importlib.machinery.SourceFileLoader("regenerate", os.path.join(TOOLS, "regenerate"))
SPEC = importlib.util.spec_from_loader("regenerate", LOADER)
regenerate = importlib.util.module_from_spec(SPEC)
LOADER.exec_module(regenerate)

from walks.tests.small import call, copy, described, program

NAME = "tools/walks/descriptions/small.py"
ONE, TWO = "crates/small/proofs/one/Proof.antt", "crates/small/proofs/Laws/Two.antt"
TABLE = {NAME: {ONE: "one = refl\n", TWO: "two = refl\n"}}
FIRST = regenerate.FIRST % NAME


class Small(unittest.TestCase):
    """a folder with the two files as made"""

    def setUp(self):
        self.folder = tempfile.mkdtemp()
        self.addCleanup(shutil.rmtree, self.folder)
        self.asked = []
        crates = [SimpleNamespace(crate="small"), SimpleNamespace(crate="other")]
        for name, value in (("root", lambda: self.folder), ("made", self.made), ("formatted", self.formatted),
                            ("described", lambda: crates)):
            patch = mock.patch.object(regenerate, name, value)
            patch.start()
            self.addCleanup(patch.stop)
        for file, text in TABLE[NAME].items():
            self.put(file, FIRST + text)

    def made(self, crates):
        self.asked.append(crates)
        return TABLE

    def formatted(self, table):
        return {file: regenerate.FIRST % name + text for name, files in table.items() for file, text in files.items()}

    def put(self, file, text):
        path = os.path.join(self.folder, file)
        os.makedirs(os.path.dirname(path), exist_ok=True)
        with open(path, "w") as out:
            out.write(text)

    def text(self, file):
        path = os.path.join(self.folder, file)
        if not os.path.exists(path):
            return None
        with open(path) as found:
            return found.read()

    def told(self, *words):
        """How the command ends, and what it says."""
        said = io.StringIO()
        with contextlib.redirect_stdout(said):
            return regenerate.main(list(words)), said.getvalue()


class Check(Small):
    def test_all_as_made(self):
        self.assertEqual(self.told("--check"), (0, ""))

    def test_a_changed_byte_is_named_and_left(self):
        changed = (FIRST + "one = refl\n").replace("refl", "rifl")
        self.put(ONE, changed)
        self.assertEqual(self.told("--check"), (1, "not as made: %s\n" % ONE))
        self.assertEqual(self.text(ONE), changed)

    def test_a_missing_file_is_named(self):
        os.remove(os.path.join(self.folder, TWO))
        self.assertEqual(self.told("--check"), (1, "not as made: %s\n" % TWO))
        self.assertIsNone(self.text(TWO))

    def test_a_file_without_its_last_line_break_is_named(self):
        self.put(TWO, FIRST + "two = refl")
        self.assertEqual(self.told("--check"), (1, "not as made: %s\n" % TWO))

    def test_a_left_over_file_is_named_and_left(self):
        old = "crates/small/proofs/old/Proof.antt"
        self.put(old, regenerate.FIRST % "tools/walks/entries.py" + "old = refl\n")
        self.assertEqual(self.told("--check"), (1, "made by nothing: %s\n" % old))
        self.assertIsNotNone(self.text(old))

    def test_what_was_written_by_hand_is_not_left_over(self):
        self.put("crates/small/proofs/Hand.antt", "-- By hand.\nhand = refl\n")
        self.put("crates/small/notes.txt", FIRST)
        self.assertEqual(self.told("--check"), (0, ""))

    def test_all_are_named_the_changed_ones_first(self):
        self.put(ONE, "")
        self.put("crates/small/proofs/Old.antt", FIRST)
        self.put(TWO, "")
        self.assertEqual(self.told("--check"), (1, "not as made: %s\nnot as made: %s\nmade by nothing: %s\n" % (
            TWO, ONE, "crates/small/proofs/Old.antt")))

    def test_of_named_crates_only_theirs_are_left_over(self):
        self.put("crates/other/proofs/Old.antt", FIRST)
        self.assertEqual(self.told("--check", "small"), (0, ""))
        self.assertEqual(self.told("--check", "other")[0], 1)
        self.assertEqual(self.asked, [["small"], ["other"]])

    def test_a_crate_in_which_nothing_is_made(self):
        with self.assertRaises(SystemExit) as ended:
            self.told("--check", "smal")
        self.assertEqual(ended.exception.code, "regenerate: nothing is made in smal")


class Write(Small):
    def test_what_changed_is_made_again(self):
        self.put(ONE, "x")
        shutil.rmtree(os.path.dirname(os.path.join(self.folder, TWO)))
        self.assertEqual(self.told(), (0, "not as made: %s\nnot as made: %s\n" % (TWO, ONE)))
        self.assertEqual((self.text(ONE), self.text(TWO)), (FIRST + "one = refl\n", FIRST + "two = refl\n"))
        self.assertEqual(self.told("--check"), (0, ""))

    def test_a_left_over_file_is_removed(self):
        self.put("crates/small/proofs/Old.antt", FIRST)
        self.assertEqual(self.told(), (0, "made by nothing: crates/small/proofs/Old.antt\n"))
        self.assertIsNone(self.text("crates/small/proofs/Old.antt"))

    def test_list_writes_nothing(self):
        self.put(ONE, "x")
        self.assertEqual(self.told("--list"), (0, "%s\n    %s\n    %s\n" % (NAME, TWO, ONE)))
        self.assertEqual(self.text(ONE), "x")

    def test_an_unknown_option(self):
        with self.assertRaises(SystemExit) as ended:
            self.told("--chek")
        self.assertEqual(ended.exception.code, regenerate.__doc__)
        self.assertEqual(self.asked, [])


class Made(unittest.TestCase):
    def made(self, crates):
        """what is made of two descriptions that share a file"""
        first, second = (SimpleNamespace(crate=crate, file=crate + ".py") for crate in ("low", "high"))
        texts = {"low": {"shared": "use a.B.{unused}\nlow"}, "high": {"shared": "high", "own": "high"}}
        with mock.patch.object(regenerate, "described", lambda: [first, second]), \
                mock.patch.object(regenerate, "of_description", lambda d: texts[d.crate]), \
                mock.patch.object(regenerate.entries, "files", lambda root: {"entries": ""}):
            return regenerate.made(crates)

    def test_a_file_is_made_by_the_first_that_has_it(self):
        self.assertEqual(self.made([]), {"low.py": {"shared": "low"}, "high.py": {"own": "high"},
                                         "tools/walks/entries.py": {"entries": ""}})

    def test_named_crates(self):
        self.assertEqual(self.made(["high"]), {"high.py": {"shared": "high", "own": "high"}})
        self.assertEqual(self.made(["engine"]), {"tools/walks/entries.py": {"entries": ""}})


class OfDescription(unittest.TestCase):
    def made(self, **more):
        description = described(params=[("rows", "shr Row"), ("count", "usize")], ret="bool", calls=["is-wrong"])
        description.__dict__.update(more)
        text = program(3, call(0, copy(2)), "return")
        with mock.patch.object(regenerate.mir, "printed", lambda root, crate: text if crate == "small" else ""):
            return regenerate.of_description(description)

    def test_a_file_of_facts_and_a_proof(self):
        texts = self.made()
        facts, proof = "crates/small/proofs/Laws/Calls/Part.antt", "crates/small/proofs/part/go/Proof.antt"
        self.assertEqual(sorted(texts), [facts, proof])
        self.assertIn("\n-- ---- `is-wrong`\n", texts[facts])
        self.assertTrue(texts[proof].startswith("-- `small::part::go` meets its contract"))

    def test_without_functions_the_code_is_not_read(self):
        self.assertEqual(list(self.made(functions=[], crate="none", facts=dict)), [])


class Formatted(unittest.TestCase):
    def formatted(self, code):
        done = SimpleNamespace(returncode=code, stdout="told ", stderr="more")
        with mock.patch.object(regenerate.subprocess, "run", lambda *words, **more: done):
            return regenerate.formatted({NAME: {ONE: "one = %s\n" % ("f " * 100)}})

    def test_a_first_line_and_the_text_laid_out(self):
        lines = self.formatted(0)[ONE].split("\n")
        self.assertEqual(lines[0] + "\n", FIRST)
        self.assertEqual([len(line) <= 120 for line in lines], [True] * 4)
        self.assertEqual("".join(lines[1:]).replace(" ", ""), "one=" + "f" * 100)

    def test_a_formatter_that_fails_ends_it(self):
        with self.assertRaises(SystemExit) as ended:
            self.formatted(1)
        self.assertEqual(ended.exception.code, "regenerate: rt fmt: told more")


if __name__ == "__main__":
    unittest.main()
