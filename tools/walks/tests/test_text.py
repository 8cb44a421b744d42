"""Tests of the `use` lines and the layout of generated files. Run: python3 -m unittest discover tools"""

import random
import re
import unittest

from walks import imports, layout
from walks.tests.small import again, be, call, copy, proved


def kept(uses, rest):
    """The `use` lines that are left of these, in a file with this rest."""
    lines = imports.pruned("\n".join(uses + ["", rest])).split("\n")
    return [line for line in lines if line.startswith("use ")]


class Imports(unittest.TestCase):
    def test_a_name_that_is_not_used_is_left_out(self):
        self.assertEqual(kept(["use a.B.{one, two, three}"], "x = one three"), ["use a.B.{one, three}"])

    def test_a_line_of_which_nothing_is_used_is_left_out(self):
        self.assertEqual(kept(["use a.B.{one}", "use a.C.{two}"], "x = two"), ["use a.C.{two}"])

    def test_a_line_that_is_spread_over_lines(self):
        self.assertEqual(kept(["use a.B.{", "  one,", "  two,", "}", "use a.C as D"], "x = two"), ["use a.B.{two}"])

    def test_a_part_of_a_word_is_not_the_word(self):
        self.assertEqual(kept(["use a.B.{row, put}"], "x = rows put-row out·put"), [])

    def test_an_operator_is_kept_where_it_stands_between_blanks(self):
        uses = ["use a.Path.{_≡_, _∙_, refl}"]
        self.assertEqual(kept(uses, "x : a ≡ b"), ["use a.Path.{_≡_}"])
        self.assertEqual(kept(uses, "x = (p ∙ q)"), ["use a.Path.{_∙_}"])

    def test_an_operator_of_several_words_needs_them_all(self):
        uses = ["use a.B.{if_then_else_}"]
        self.assertEqual(kept(uses, "x = if a then b"), [])
        self.assertEqual(kept(uses, "x = if a then b else c"), uses)

    def test_a_module_is_kept_where_something_of_it_is_named(self):
        uses = ["use a.Version as T", "use a.Version.Laws as T′"]
        self.assertEqual(kept(uses, "x = T.the-row"), uses[:1])
        self.assertEqual(kept(uses, "x = (T′.the-laws)"), uses[1:])
        self.assertEqual(kept(uses, "x = TT.the-row own.T"), [])

    def test_a_name_counts_as_what_it_is_here(self):
        uses = ["use a.B.{T as Holds, name as #own}"]
        self.assertEqual(kept(uses, "x = T name"), [])
        self.assertEqual(kept(uses, "x = Holds #own"), uses)

    def test_the_names_of_a_module_come_together(self):
        uses = ["use a.B.{one, two}", "use a.C.{three}", "use a.B.{four, one}"]
        self.assertEqual(kept(uses, "x = one two three four"), ["use a.B.{one, two, four}", "use a.C.{three}"])

    def test_long_lines_are_divided(self):
        names = ["name-%d" % k for k in range(60)]
        lines = kept(["use a.module.{%s}" % ", ".join(names)], " ".join(names))
        self.assertGreater(len(lines), 4)
        for line, after in zip(lines, lines[1:] + [None]):
            self.assertLessEqual(len(line), imports.WIDTH)
            if after:
                self.assertGreater(len(line) + len(", name-10"), imports.WIDTH)
        inside = [re.fullmatch(r"use a\.module\.\{(.*)\}", line).group(1) for line in lines]
        self.assertEqual(", ".join(inside).split(", "), names)

    def test_a_comment_uses_nothing(self):
        self.assertEqual(kept(["use a.B.{one}", "use a.C as C"], "x = y\n  -- one C.two\n-- one\n-- ---- `C` one"), [])

    def test_a_projection_keeps_no_name(self):
        self.assertEqual(kept(["use a.Index.{row}"], "x = (plan .row) (f x).row plan.row"), [])
        self.assertEqual(kept(["use a.Index.{row}"], "x = (row .plan)"), ["use a.Index.{row}"])

    def test_a_bound_name_before_a_full_stop_is_a_word(self):
        self.assertEqual(kept(["use a.B.{body}"], "x = λ y. body."), ["use a.B.{body}"])

    def test_the_first_comment_stays_first_and_the_rest_as_it_was(self):
        text = "-- What it is.\n-- More.\nuse a.B.{one}\n\n-- about x\nx : one\nx = one\n"
        self.assertEqual(imports.pruned(text), text)


def bare(text):
    """The text without blanks."""
    return re.sub(r"\s", "", text)


def random_term(chance, depth=0):
    if depth > 4 or chance.random() < 0.3:
        return chance.choice(("x", "rows", "m-rows", "(λ r. done !)", "x .1 .0", "a ∷ []", "→ b", "p $ q"))
    words = [random_term(chance, depth + 1) for _ in range(chance.randint(2, 6))]
    return "(%s)" % chance.choice((" ", " $ ", " ∷ ", " × ")).join(words)


class Layout(unittest.TestCase):
    def fits(self, text):
        for line in text.split("\n"):
            self.assertLessEqual(len(line), 120, line)

    def test_a_line_of_120_columns_stays(self):
        line = "x = " + "f " * 57 + "ab"
        self.assertEqual(len(line), 120)
        self.assertEqual(layout.laid_out(line), line)

    def test_a_longer_line_goes_on_four_columns_deeper(self):
        first, *more = layout.laid_out("  x = " + "f " * 150 + "ab").split("\n")
        self.assertTrue(first.startswith("  x = f"))
        self.assertGreater(len(more), 1)
        for line in more:
            self.assertTrue(line.startswith("      f"), line)

    def test_a_line_is_broken_behind_a_dollar_rather_than_between_arguments(self):
        first = "  x = first (one two) and one more argument of the first $"
        line = first + " second (three four) five" * 4
        self.assertEqual(layout.laid_out(line).split("\n")[0], first)

    def test_terms_are_within_the_width_and_the_same(self):
        chance = random.Random(3)
        for _ in range(60):
            line = " " * chance.choice((0, 2, 8)) + "x = " + random_term(chance)
            text = layout.laid_out(line)
            self.fits(text)
            self.assertEqual(bare(text), bare(line))

    def test_a_proof_is_within_the_width_and_the_same(self):
        text = proved(7, call(3, copy(2)), *again(4, 5, 1), call(6, copy(5), copy(3, 0), copy(3, 1)), be(0, "unit"),
                      "return", params=[("rows", "mut Row"), ("count", "usize")], calls=["consider", "put-row"])
        laid = layout.laid_out(text)
        self.assertGreater(laid.count("\n"), text.count("\n"))
        self.fits(laid)
        self.assertEqual(bare(laid), bare(text))

    def test_a_comment_stays_a_comment(self):
        words = ["word%d" % k for k in range(60)]
        lines = layout.laid_out("    --   " + " ".join(words)).split("\n")
        self.fits("\n".join(lines))
        self.assertGreater(len(lines), 2)
        for line in lines:
            self.assertTrue(line.startswith("    --   word"), line)
        self.assertEqual([word for line in lines for word in line.split()[1:]], words)

    def test_the_other_lines_stay(self):
        text = "x = y\n\n  z = " + "f " * 100 + "\n-- end\n"
        lines = layout.laid_out(text).split("\n")
        self.assertEqual((lines[:2], lines[-2:]), (["x = y", ""], ["-- end", ""]))


if __name__ == "__main__":
    unittest.main()
