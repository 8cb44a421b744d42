"""Tests of what the turns of a counting loop hand on. Run: python3 -m unittest discover tools"""

import unittest

from walks.tests.small import again, assign, be, call, copy, counted, number, proved, steps

PARAMS = [("rows", "mut Row"), ("count", "usize")]
FOUR_TURNS = (be(3, number(0)), counted(3, number(4), 4, *again(5, 6, 1), call(2, copy(6), copy(2))))
ONE_MORE = "(sym (add-one (i .0)))"


class Turns(unittest.TestCase):
    def line(self, start):
        """the one line that begins so, without that"""
        [found] = [line.strip() for line in self.text.split("\n") if line.strip().startswith(start)]
        return found[len(start):].removesuffix(" $")

    def starts(self, start, more):
        self.assertTrue(self.line(start).startswith(more), self.line(start))

    def closed(self):
        self.assertEqual(self.text.count("("), self.text.count(")"))
        self.assertNotIn("None", self.text)


class Local(Turns):
    """let mut wrong = false; while i < rows.len() { wrong = wrong | is_wrong(i); i = i + 1; } wrong"""

    def setUp(self):
        either = assign(7, "(op2 or %s %s)" % (copy(3), copy(6)))
        self.text = proved(
            8, be(3, "false"), be(4, number(0)), counted(4, copy(1, 1), 5, call(6, copy(4)), either, be(3, copy(7))),
            be(0, copy(3)), "return", params=[("rows", "shr Row")], ret="bool", facts=[("r", "someWrong rows")],
            calls=["is-wrong"], loop=dict(index=4, count="m-rows", fits="room-rows .0",
                                          locals={3: "wrongBelow rows {i}"}, steps={3: "wrong-step rows {i}"}))

    def test_it_holds_what_the_description_says(self):
        self.assertIn("‵ (fat fullShare (τ 3) l-3 0 (vbool (wrongBelow rows (i .0))))", self.line("At i = "))
        self.assertEqual(self.line("Upto = "), "(i : ℕ) × (i ≤ n)")

    def test_a_turn_leads_to_the_next(self):
        fat = "‵ (fat fullShare (τ 3) l-3 0 (vbool %s))"
        self.assertEqual(self.line("rewrite ! 10 (λ (h : Bool). "), fat % "h" + ") (wrong-step rows (i .0)) refl")
        self.assertEqual(self.line("rewrite ! 10 (λ (k : ℕ). "), fat % "(wrongBelow rows k)" + ") %s refl" % ONE_MORE)

    def test_the_result_is_that_of_n_turns(self):
        self.starts("by ! ", "(exits (wrongBelow rows (i .0))  (ap (λ (k : ℕ). wrongBelow rows k) "
                    "(le-antisymm (i .1) (nltb→le (i .0) n over)) ∙ refl)  )")
        self.closed()


class Carried(Turns):
    """while i < 4 { count = take_row(rows, count); i = i + 1; }, what is known handed on from turn to turn"""

    def setUp(self):
        self.text = proved(8, *FOUR_TURNS, be(0, "unit"), "return", params=PARAMS, calls=["take-row"],
                           facts=[("rows", "left rows count")],
                           loop=dict(index=3, count="4", fits="lit< tt", locals={2: "countAt rows count {i}"},
                                     slices={"rows": ("rowsAt rows count {i}", None, "refl")}))

    def test_a_turn_has_that_the_number_is_good_and_the_list_as_long(self):
        self.assertEqual(self.line("Upto = "), "(i : ℕ) × ((i ≤ n) × (((countAt rows count i) < 2 ^ 64) × "
                         "(length (rowsAt rows count i) ≡ m-rows)))")
        self.assertIn(" (0, (zero-le, (g-count, refl)))", steps(self.text)[-1])

    def test_they_are_used_in_the_turn(self):
        self.starts("lend-mut ", "𝓤 H A W R.the-row b-rows o-rows m-rows (rowsAt rows count (i .0)) (i .1 .1 .1) ")
        self.assertIn(" δ-rows1 (i .1 .1 .0)) $", self.text)

    def test_the_next_turn_has_them_too(self):
        length = "sym (ap (λ (l : List Row). length l) (s1 .1 .0)) ∙ s1 .1 .1 ∙ i .1 .1 .1"
        self.starts("again ! Nearer At i ",
                    "(next less (subst (λ (k : ℕ). (countAt rows count k) < 2 ^ 64) %s (s1 .0 .1)) "
                    "(subst (λ (k : ℕ). length (rowsAt rows count k) ≡ m-rows) %s (%s))) " % (
                        ONE_MORE, ONE_MORE, length))
        self.assertEqual(self.line("next less "),
                         "c-0 c-1 = (i .0 + 1, (add-one-le (ltb→lt (i .0) n less), (c-0, c-1)))")
        self.assertEqual(self.line("fits-next less = "),
                         "lt-of-le-of-lt (add-one-le (ltb→lt (i .0) n less)) (lit< tt)")
        self.closed()


class Open(Turns):
    """the same, with nothing said of what the number and the list are"""

    def setUp(self):
        self.text = proved(8, *FOUR_TURNS, be(0, "unit"), "return", params=PARAMS, calls=["take-row"],
                           loop=dict(index=3, count="4", fits="lit< tt", open=[("local", 2), ("slice", "rows")]))

    def test_a_turn_has_them_and_what_is_known_of_them(self):
        self.assertEqual(self.line("Upto = "), "(i : ℕ) × ((i ≤ n) × ((v-0 : ℕ) × ((v-1 : List Row) × "
                         "((v-0 < 2 ^ 64) × (length v-1 ≡ m-rows)))))")
        self.assertIn(" (0, (zero-le, (count, (rows, (g-count, refl)))))", steps(self.text)[-1])

    def test_they_are_used_in_the_turn(self):
        self.starts("lend-mut ", "𝓤 H A W R.the-row b-rows o-rows m-rows ((i .1 .1 .1 .0)) (i .1 .1 .1 .1 .1) ")
        self.assertIn(" δ-rows1 (i .1 .1 .1 .1 .0)) $", self.text)

    def test_the_next_turn_has_what_came_back(self):
        self.starts("again ! Nearer At i ", "(next less (take-row-1 i) (rows-1 i) (s1 .0 .1) ")
        self.assertEqual(self.line("next less "), "v-0 v-1 c-0 c-1 = "
                         "(i .0 + 1, (add-one-le (ltb→lt (i .0) n less), (v-0, (v-1, (c-0, c-1)))))")
        self.closed()


if __name__ == "__main__":
    unittest.main()
