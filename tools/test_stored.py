"""Tests of the stored files' command. Run: python3 -m unittest discover tools

They run the quick makers only; .ci/run runs them all.
"""

import contextlib
import glob
import io
import os
import shutil
import tempfile
import unittest

from stored_files import ENTRIES, MAKERS, ROOT, Maker, bytes_of, printed, put, run

QUICK = tuple(maker for maker in MAKERS if maker.files[0].startswith("crates/unpack_cost"))
TALLY = "crates/unpack_cost/stdout"
STORED = ("crates/*/data/*", "crates/*/stdout", "example/*.bin", "docs/*.svg")


def told(check, stored, makers=QUICK):
    """How the command ends on this folder, and what it says."""
    said = io.StringIO()
    with contextlib.redirect_stdout(said), contextlib.redirect_stderr(said):
        return run(check, makers, stored), said.getvalue()


class Stored(unittest.TestCase):
    def setUp(self):
        self.folder = tempfile.mkdtemp()
        self.addCleanup(shutil.rmtree, self.folder)
        for file in (ENTRIES, TALLY):
            put(self.folder, file, bytes_of(ROOT, file))

    def test_every_stored_file_has_one_maker(self):
        made = [file for maker in MAKERS for file in maker.files]
        found = [os.path.relpath(path, ROOT) for form in STORED for path in glob.glob(os.path.join(ROOT, form))]
        self.assertEqual(sorted(made), sorted(found))

    def test_a_clean_tree_is_clean(self):
        self.assertEqual(told(True, self.folder), (0, ""))
        self.assertEqual(told(False, self.folder), (0, ""))

    def test_a_changed_byte_is_found_and_made_again(self):
        data = bytes_of(ROOT, ENTRIES)
        changed = data[:500] + bytes([data[500] ^ 1]) + data[501:]
        put(self.folder, ENTRIES, changed)
        self.assertEqual(told(True, self.folder), (1, f"stored: {ENTRIES} is not what its maker makes\n"))
        self.assertEqual(bytes_of(self.folder, ENTRIES), changed)
        self.assertEqual(told(False, self.folder), (0, f"stored: {ENTRIES} is made again\n"))
        self.assertEqual(bytes_of(self.folder, ENTRIES), data)

    def test_missing_and_longer_files_are_found(self):
        shutil.rmtree(os.path.join(self.folder, os.path.dirname(ENTRIES)))
        put(self.folder, TALLY, bytes_of(ROOT, TALLY) + b"\n")
        self.assertEqual(told(True, self.folder), (1, "".join(
            f"stored: {file} is not what its maker makes\n" for file in (ENTRIES, TALLY))))
        self.assertEqual(told(False, self.folder)[0], 0)
        self.assertEqual(told(True, self.folder), (0, ""))

    def test_a_maker_that_fails_changes_nothing(self):
        put(self.folder, ENTRIES, b"")
        for maker, words in ((printed(TALLY, "-c", "print(1); exit(3)"), "-c ended with 3"),
                             (Maker(("-c", "pass"), (TALLY,)), "-c ended with 0")):
            with self.assertRaises(SystemExit) as ended:
                told(False, self.folder, (QUICK[0], maker))
            self.assertEqual(ended.exception.code, f"stored: {words}; {TALLY} not made")
            self.assertEqual(bytes_of(self.folder, ENTRIES), b"")


if __name__ == "__main__":
    unittest.main()
