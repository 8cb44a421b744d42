"""Tests of reading the MIR. Run: python3 -m unittest discover tools"""

import os
import tempfile
import unittest

from walks import mir

LOCALS = "(lcons (local tyUnit valueLocal) (lcons (local (tyInt 64) memorySlot) lnil))"
BODY = "(seq (assign (place 0 lnil) (rvOpd unit)) return)"
ITEM = '(fn-def "small::go" (fnItem 0 lnil 1 %s %s) lnil)' % (LOCALS, BODY)
CRATES = """\
# the crates, from the lowest
low: std
left: low   # uses low
right: low std

top: left right
alone:
"""


def term(text):
    """the one term that the text is"""
    [found] = mir.parsed(text)
    return found


class Terms(unittest.TestCase):
    def test_parsed_is_nested_lists_of_words(self):
        self.assertEqual(mir.parsed("a (b (c 1) ()) d"), ["a", ["b", ["c", "1"], []], "d"])

    def test_parsed_minds_no_line_breaks(self):
        self.assertEqual(mir.parsed("(a\n  b)\t(c)"), [["a", "b"], ["c"]])

    def test_a_string_is_one_word(self):
        self.assertEqual(term('(fnRef "a (b) ::c")'), ["fnRef", '"a (b) ::c"'])

    def test_listed(self):
        self.assertEqual(mir.listed("lnil"), [])
        self.assertEqual(mir.listed(term("(lcons a (lcons (b c) lnil))")), ["a", ["b", "c"]])

    def test_statements_are_flat_however_they_are_nested(self):
        for text in ("(seq a (seq (b c) d))", "(seq (seq a (b c)) d)"):
            self.assertEqual(mir.statements(term(text)), ["a", ["b", "c"], "d"])

    def test_statements_of_one(self):
        self.assertEqual(mir.statements("return"), ["return"])
        self.assertEqual(mir.statements(["if", "c", "a", "skip"]), [["if", "c", "a", "skip"]])

    def test_statements_in_a_branch_stay_in_it(self):
        self.assertEqual(mir.statements(term("(seq (if c (seq a return) skip) d)")),
                         [["if", "c", ["seq", "a", "return"], "skip"], "d"])

    def test_place(self):
        self.assertEqual(mir.place(term("(place 12 lnil)")), (12, []))
        self.assertEqual(mir.place(term("(place 3 (lcons (field 0) (lcons (deref (tyInt 8)) lnil)))")),
                         (3, [["field", "0"], ["deref", ["tyInt", "8"]]]))


class Functions(unittest.TestCase):
    def read(self, *items):
        text = "lnil"
        for item in reversed(items):
            text = "(lcons %s %s)" % (item, text)
        return mir.functions('program %s (fnRef "none::main")' % text)

    def test_a_function_has_its_locals_and_statements(self):
        code = self.read(ITEM)["small::go"]
        self.assertEqual(code.count, 2)
        self.assertEqual(code.body, [["assign", ["place", "0", "lnil"], ["rvOpd", "unit"]], "return"])

    def test_which_locals_live_in_memory(self):
        code = self.read(ITEM)["small::go"]
        self.assertEqual([code.in_memory(k) for k in range(2)], [False, True])

    def test_all_functions_and_nothing_else(self):
        other = ITEM.replace("small::go", "small::on")
        self.assertEqual(sorted(self.read(ITEM, "(static-def 1)", other)), ["small::go", "small::on"])


class Crates(unittest.TestCase):
    def uses(self, text):
        with tempfile.TemporaryDirectory() as folder:
            with open(os.path.join(folder, "crates.txt"), "w") as file:
                file.write(text)
            return mir.uses_of(folder)

    def test_uses_without_remarks_and_blank_lines(self):
        self.assertEqual(self.uses(CRATES), {"low": ["std"], "left": ["low"], "right": ["low", "std"],
                                             "top": ["left", "right"], "alone": []})

    def test_reached_once_each_and_after_what_it_uses(self):
        self.assertEqual(mir.reached("top", self.uses(CRATES)), ["std", "low", "left", "right", "top"])

    def test_reached_of_a_crate_that_uses_nothing(self):
        self.assertEqual(mir.reached("alone", self.uses(CRATES)), ["alone"])

    def test_a_library_is_reached_without_a_line(self):
        self.assertEqual(mir.reached("std", self.uses(CRATES)), ["std"])


if __name__ == "__main__":
    unittest.main()
