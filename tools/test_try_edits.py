"""The parts of try-edits that need no prover: which edits there are, and what rt says of an edit."""
import contextlib
import importlib.machinery
import importlib.util
import io
import os
import tempfile
import unittest
from pathlib import Path
from unittest import mock

HERE = Path(__file__).resolve().parent
LOADER = importlib.machinery.SourceFileLoader("try_edits", str(HERE / "try-edits"))
try_edits = importlib.util.module_from_spec(importlib.util.spec_from_loader("try_edits", LOADER))
LOADER.exec_module(try_edits)

RETURNS = "it is not proved that what the function ensures holds when it returns (`returns`)"
LITTLE = "(only because a proof file names what the edit took away, so this says little: change a value)"
LIMIT = "(only by a limit of the prover, which gave no verdict, so this says less of the contract: choose another)"


class Errors(unittest.TestCase):
    def test_first_error(self):
        told = "./proofs/number/Proof.antt:15:13: error: `returns`: no"
        self.assertEqual(try_edits.first_error(told), ("proofs/number/Proof.antt:15:13", "`returns`: no"))

    def test_a_note_of_another_kind_is_no_error(self):
        self.assertEqual(try_edits.first_error("./specs/Answering.antt:75:17: note: large solution"), ("", ""))
        self.assertEqual(try_edits.first_error("./specs/Reached.antt:9:1: error: no"), ("specs/Reached.antt:9:1", "no"))

    def test_what_only_follows_is_not_first(self):
        told = f"note: src/refusal.rt:37:5: {RETURNS}"
        self.assertEqual(try_edits.first_error(told), ("src/refusal.rt:37:5", RETURNS))

    def test_what_only_follows_where_it_is_all(self):
        told = "./proofs/of/Proof.antt:22:11: error: `of-spec`: `close` was not admitted"
        self.assertEqual(try_edits.first_error(told)[0], "proofs/of/Proof.antt:22:11")

    def test_no_error(self):
        self.assertEqual(try_edits.first_error(""), ("", ""))
        self.assertEqual(try_edits.first_error("logic=not-proved"), ("", ""))


class Judged(unittest.TestCase):
    def test_fact(self):
        word, told = try_edits.judged("refused", f", as it must be: note: src/refusal.rt:37:5: {RETURNS}")
        self.assertEqual((word, told), ("fact", f"src/refusal.rt:37:5: {RETURNS}"))

    def test_fact_without_an_error(self):
        self.assertEqual(try_edits.judged("refused", ", as it must be"), ("fact", "no error is named"))

    def test_shape(self):
        lacks = "./proofs/of/Proof.antt:3:1: error: `of` has no `Need-sum` that can be named from here"
        self.assertEqual(try_edits.judged("refused", f", as it must be: {lacks}")[0], "shape")
        differ = "`walk`: as printed, the two types first differ where one has `mir.MapTy.mapOpd (mir.Syntax.int w64 0)`"
        told = f", as it must be: ./proofs/entry_at/Proof.antt:215:78: error: {differ}"
        self.assertEqual(try_edits.judged("refused", told)[0], "shape")

    def test_shape_as_rt_tells_it(self):
        told = "./proofs/of/Answers.antt:3:1: error: `Before` has no field `sum`"
        word, told = try_edits.judged("refused", f", as it must be {LITTLE}: {told}")
        self.assertEqual((word, told), ("shape", "proofs/of/Answers.antt:3:1: `Before` has no field `sum`"))

    def test_limit(self):
        told = "./specs/Reached.antt:9:1: error: antt ran out of stack"
        self.assertEqual(try_edits.judged("refused", f", as it must be {LIMIT}: {told}")[0], "limit")

    def test_passed(self):
        rest = ": the crate is still proved with this edit (one that means the same cannot be refused: remove it)"
        self.assertEqual(try_edits.judged("NOT REFUSED", rest), ("passed", "the crate is still proved"))

    def test_bad(self):
        rest = ": an 'old:' text is in src/lib.rt 0 times, and not once"
        self.assertEqual(try_edits.judged("BAD EDIT", rest),
                         ("bad", "an 'old:' text is in src/lib.rt 0 times, and not once"))

    def test_untried(self):
        rest = ": its check was killed, most likely for memory, so nothing is known of it: run this again"
        self.assertEqual(try_edits.judged("NOT TRIED", rest)[0], "untried")

    def test_said(self):
        line = "rt: must-fail terms/six_is_seven.edit: refused, as it must be: note: src/refusal.rt:37:5: not proved"
        self.assertEqual(try_edits.SAID.match(line).groups()[:3], ("terms", "six_is_seven", "refused"))


class Small(unittest.TestCase):
    """a small repository"""

    def setUp(self):
        folder = tempfile.TemporaryDirectory()
        self.addCleanup(folder.cleanup)
        self.root = Path(folder.name)
        (self.root / "crates.txt").write_text("# the crates\nlow:\nhigh: low\nbare: low\n")
        for path in "crates/low/must-fail", "tools/edits/low", "crates/high/src", "tools/edits/high":
            (self.root / path).mkdir(parents=True)
        (self.root / "crates/low/must-fail/first.edit").touch()
        (self.root / "tools/edits/low/second.edit").touch()
        (self.root / "tools/edits/high/third.edit").touch()


class Edits(Small):
    def test_of_both_folders(self):
        self.assertEqual(list(try_edits.edits_of(self.root, "low")), ["first", "second"])
        self.assertEqual(try_edits.crates_with_edits(self.root), ["low", "high"])

    def test_chosen(self):
        self.assertEqual(list(try_edits.chosen(self.root, ["low/second"])), [("low", "second")])
        self.assertEqual(len(try_edits.chosen(self.root, [])), 3)
        with self.assertRaises(SystemExit):
            try_edits.chosen(self.root, ["low/third"])

    def test_two_of_one_name(self):
        (self.root / "tools/edits/low/first.edit").touch()
        with self.assertRaises(SystemExit):
            try_edits.edits_of(self.root, "low")

    def test_the_copy_has_only_the_edits_asked_for(self):
        room = self.root / "room"
        room.mkdir()
        try_edits.copy_with_edits(self.root, room, try_edits.chosen(self.root, ["high"]))
        self.assertEqual([path.name for path in room.glob("crates/*/must-fail/*")], ["third.edit"])
        self.assertTrue((self.root / "crates/low/must-fail/first.edit").exists())

    def test_the_copy_begins_with_no_work_of_its_own(self):
        (self.root / "crates/low/out").mkdir()
        (self.root / "HANDLES").write_text("Handles allowed: none.\n")
        room = self.root / "room"
        room.mkdir()
        try_edits.copy_with_edits(self.root, room, try_edits.chosen(self.root, ["low/first"]))
        self.assertFalse(list(room.glob("crates/*/out")))
        self.assertTrue((room / "HANDLES").exists())


# A stand-in for rt: the crate high is not proved, and of the crates that are named it refuses each edit.
RT = """#!/bin/sh
if [ "$1" = check ]; then
    case $PWD in */high) exit 1 ;; *) exit 0 ;; esac
fi
shift
echo "rt: $*: begins with what a check kept"
for crate; do
    for edit in crates/"$crate"/must-fail/*.edit; do
        echo "rt: must-fail $crate/${edit##*/}: refused, as it must be: ./src/lib.rt:1:1: error: no"
    done
done
"""


class Run(Small):
    def told(self, *words):
        """How it ends, and what it says."""
        program = self.root / "bin" / "rt"
        program.parent.mkdir()
        program.write_text(RT)
        program.chmod(0o755)
        said = io.StringIO()
        paths = {"PATH": f"{program.parent}:{os.environ['PATH']}"}
        with mock.patch.object(try_edits, "ROOT", self.root), mock.patch.dict(os.environ, paths), \
                contextlib.redirect_stdout(said), contextlib.redirect_stderr(io.StringIO()):
            return try_edits.main(list(words)), said.getvalue().splitlines()

    def test_edits_that_fail_by_a_fact(self):
        self.assertEqual(self.told("low"), (0, [
            "fact     low/first: src/lib.rt:1:1: no", "fact     low/second: src/lib.rt:1:1: no",
            "2 of 2 edits fail by a fact"]))

    def test_an_edit_of_a_crate_that_is_not_proved_is_not_tried(self):
        self.assertEqual(self.told("low/first", "high"), (1, [
            "fact     low/first: src/lib.rt:1:1: no", "untried  high/third: high is not proved",
            "1 of 2 edits fail by a fact"]))

    def test_no_crate_is_proved(self):
        self.assertEqual(self.told("high"), (1, [
            "untried  high/third: high is not proved", "0 of 1 edits fail by a fact"]))


class Repository(unittest.TestCase):
    def test_every_edit_can_be_made(self):
        """Each old text is in its file once, after the pairs before it."""
        for crate in try_edits.crates_with_edits(try_edits.ROOT):
            for name, path in try_edits.edits_of(try_edits.ROOT, crate).items():
                with self.subTest(crate=crate, edit=name):
                    texts, file, old = {}, None, None
                    for line in path.read_text().splitlines():
                        word, _, rest = line.partition(": ")
                        if word == "file":
                            file = rest
                            texts.setdefault(file, (try_edits.ROOT / "crates" / crate / file).read_text())
                        elif word == "old":
                            old = rest
                        elif word == "new":
                            self.assertEqual(texts[file].count(old), 1)
                            texts[file] = texts[file].replace(old, rest)
                    self.assertIsNotNone(old)


if __name__ == "__main__":
    unittest.main()
