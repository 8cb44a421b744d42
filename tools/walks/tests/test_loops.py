"""Tests of walks of loops. Run: python3 -m unittest discover tools"""

import re
import unittest

from walks.tests.small import again, assign, be, call, copy, counted, number, proved, steps, turning

ROWS, COUNT = ("rows", "mut Row"), ("count", "usize")
END = (be(0, "unit"), "return")
HOLDS = "holds R.the-row b-rows o-rows m-rows κ-rows δ-rows "
EIGHT_TURNS = counted(3, number(8), 4, *again(5, 6, 1), call(7, copy(6), copy(3), copy(2)))
CLEARED = dict(index=3, count="8", fits="lit< tt", slices={
    "rows": ("clearedBelow rows {i}", "cleared-length rows {i}", "cleared-step rows {i}")})


class Looped(unittest.TestCase):
    def turn(self, text, half):
        """the steps of a turn's half: `less` or `over`"""
        text = text.split("(λ %s.\n" % half)[1]
        for end in ("\n        (λ over", "\n        where", "\n\n"):
            text = text.split(end)[0]
        return [line.strip().removesuffix(" $") for line in text.split("\n")]

    def value(self, text, name):
        """what a definition of the loop is"""
        [found] = [line for line in text.split("\n") if line.strip().startswith((name + " =", name + " i ="))]
        return found.split(" = ", 1)[1]

    def closed(self, text):
        self.assertEqual(text.count("("), text.count(")"))
        self.assertNotIn("None", text)


class Literal(Looped):
    """let row = empty(); let mut i = 0; while i < 8 { put_row(rows, i, row); i = i + 1; }"""

    def setUp(self):
        self.text = proved(8, call(2), be(3, number(0)), EIGHT_TURNS, *END, params=[ROWS],
                           facts=[("rows", "cleared rows")], exit=["cleared-all rows"], calls=["empty", "put-row"],
                           loop=CLEARED)

    def test_the_number_of_turns_fits(self):
        self.assertIn("          fits : (j : Upto) → j .0 < 2 ^ 64\n"
                      "          fits j = lt-of-le-of-lt (j .1) (lit< tt)\n", self.text)
        self.assertIn("          next : Holds (ltb (i .0) n) → Upto\n"
                      "          next less = (i .0 + 1, add-one-le (ltb→lt (i .0) n less))\n", self.text)

    def test_n_and_the_turns(self):
        self.assertEqual(self.value(self.text, "n"), "8")
        self.assertEqual(self.value(self.text, "Upto"), "(i : ℕ) × (i ≤ n)")
        self.assertIn("Nearer j i = n - j .0 < n - i .0\n", self.text)

    def test_what_the_walk_has_at_turn_i(self):
        has = self.value(self.text, "At").split(" ∷ ")
        self.assertEqual(has[:2], ["‵ (%s(clearedBelow rows (i .0)))" % HOLDS, "‵ (flft κ-rows q-rows)"])
        self.assertEqual([item for item in has if item.startswith("‵ (fat")], [
            "‵ (fat fullShare (τ 3) l-3 0 (vint w64 ((i .0))))",
            "‵ (fat fullShare (τ 2) l-2 0 (Value.mach R.the-type R′.the-laws emptyRow))",
            "‵ (fat fullShare (τ 1) l-1 0 (sliceVal (b-rows, o-rows) m-rows))"])
        self.assertEqual(len(has), 2 + 2 * 8 + 1)

    def test_a_name_inside_a_turn_takes_i(self):
        self.assertIn("  abbrev rows-2 : Upto → List Row\n"
                      "  rows-2 i = putOf (clearedBelow rows (i .0)) ((i .0)) emptyRow\n", self.text)
        self.assertLess(self.text.index("abbrev Upto"), self.text.index("abbrev rows-2"))

    def test_the_test(self):
        self.assertIn("      turns i =\n        assigns ! (bin ! (load ! (from ! (stop !)) (look ! 10 refl)) "
                      "(lit ! tt) tt) (from ! (stop !)) (init ! 8 refl (tt, tt)) $\n", self.text)

    def test_a_turn_leads_to_the_next(self):
        goes = self.turn(self.text, "less")
        self.assertEqual(goes[0], "skips ! $ exec ! C Λ En (after 2 mir′.turn-1) (anyQ (Turned i))")
        fits = "record { fits = fits (next less) }"
        self.assertIn("assigns-last ! (bin ! (load ! (from ! (stop !)) (look ! 10 refl)) (lit ! tt) (%s)) "
                      "(from ! (stop !)) (store ! 10 refl (tt, %s))" % (fits, fits), goes)
        self.assertEqual(goes[-2], "rewrite ! 0 (λ (l : List Row). ‵ (%sl)) (cleared-step rows (i .0) ∙ "
                         "ap (λ (k : ℕ). clearedBelow rows k) (sym (add-one (i .0)))) refl" % HOLDS)
        self.assertTrue(goes[-1].startswith(
            "again ! Nearer At i (next less) (add-one-dec n (i .0) (ltb→lt (i .0) n less))"))

    def test_what_a_turn_writes_is_forgotten_at_its_end(self):
        self.assertEqual([step for step in self.turn(self.text, "less") if step.startswith("forget")],
                         ["forget ! %d refl" % k for k in (8, 6, 4, 2)])

    def test_the_loop_is_left_after_n_turns(self):
        over = self.turn(self.text, "over")
        self.assertEqual(over[0], "jumps ! $ exec ! C Λ En mir′.t-4 (atRet En Post)")
        self.assertTrue(over[-1].startswith(
            "by ! (exits (clearedBelow rows (i .0)) (cleared-length rows (i .0)) (ap (λ (k : ℕ). clearedBelow rows k) "
            "(le-antisymm (i .1) (nltb→le (i .0) n over)) ∙ (cleared-all rows)))"), over[-1])

    def test_where_the_loop_begins(self):
        places = " ".join("l-%d" % k for k in range(8))
        good = "(g-L2 : Value.Good R.the-type R′.the-laws emptyRow)"
        self.assertIn("    module _ %s (%s : ℕ) where\n" % (good, places), self.text)
        self.assertEqual(steps(self.text)[-2], "move ! (1 ∷ 0 ∷ %s ∷ [])" % " ∷ ".join(map(str, range(2, 18))))
        self.assertTrue(steps(self.text)[-1].startswith(
            "first ! $ blocks ! $ loops ! 𝓣 Nearer Nearer-wf (At (s1 .1) %s) (turns (s1 .1) %s) (0, zero-le)" % (
                places, places)))
        self.closed(self.text)

    def test_behind_a_branch_the_code_is_numbered_through(self):
        early = "(if true (seq %s return) skip)" % be(0, "unit")
        text = proved(8, call(2), early, be(3, number(0)), EIGHT_TURNS, *END, params=[ROWS],
                      calls=["empty", "put-row"], loop=CLEARED)
        self.assertEqual(re.findall(r"C Λ En mir′\.(t-\d+)", text), ["t-5", "t-5"])


class Free(Looped):
    """let mut i = 0; while i < rows.len() { stir(rows); i = i + 1; }, of which nothing is said"""

    def setUp(self):
        body = (be(2, number(0)), counted(2, copy(1, 1), 3, *again(4, 5, 1), call(6, copy(5))))
        self.text = proved(7, *body, *END, params=[ROWS], calls=["stir"],
                           loop=dict(index=2, count="m-rows", fits="room-rows .0", free="rows"))

    def test_a_turn_is_handed_the_list_and_its_length(self):
        self.assertEqual(self.value(self.text, "n"), "m-rows")
        self.assertEqual(self.value(self.text, "Upto"),
                         "(i : ℕ) × ((i ≤ n) × ((l : List Row) × (length l ≡ m-rows)))")
        self.assertEqual(self.value(self.text, "At").split(" ∷ ")[0], "‵ (%s(i .1 .1 .0))" % HOLDS)

    def test_the_list_of_the_turn_is_lent(self):
        [lend] = [step for step in self.turn(self.text, "less") if step.startswith("lend")]
        self.assertTrue(lend.startswith("lend-mut 𝓤 H A W R.the-row b-rows o-rows m-rows (i .1 .1 .0) (i .1 .1 .1) "))

    def test_a_turn_hands_on_what_came_back(self):
        self.assertTrue(self.turn(self.text, "less")[-1].startswith(
            "again ! Nearer At i (next less (x1 .0) (s1 .1 ∙ i .1 .1 .1)) "))
        self.assertIn("next : Holds (ltb (i .0) n) → (l : List Row) → length l ≡ m-rows → Upto\n", self.text)
        self.assertIn("next less l e = (i .0 + 1, (add-one-le (ltb→lt (i .0) n less), (l, e)))\n", self.text)
        self.assertIn("fits j = lt-of-le-of-lt (j .1 .0) (room-rows .0)\n", self.text)

    def test_it_begins_with_the_param_and_ends_with_what_there_is(self):
        self.assertIn(" (0, (zero-le, (rows, refl)))", steps(self.text)[-1])
        self.assertTrue(self.turn(self.text, "over")[-1].startswith("by ! (exits (i .1 .1 .0) (i .1 .1 .1) )"))
        self.closed(self.text)


class Falling(Looped):
    """let mut slot = count; while is_wrong(slot) { slot = row_at(rows, slot).mark as usize; } row_at(rows, slot)"""

    def setUp(self):
        cast = assign(3, "(op1 (cast unsigned unsigned 64) %s)" % copy(5, 0))
        self.text = proved(
            6, be(3, copy(2)), turning(call(4, copy(3)), 4, call(5, copy(1), copy(3)), cast),
            call(0, copy(1), copy(3)), "return", params=[("rows", "shr Row"), COUNT], ret="Row",
            facts=[("r", "lastOf rows count")], calls=["is-wrong", "row-at", "row-at"],
            falls=dict(state={"slot": 3}, locals={}, law="lastFrom rows {slot} ≡ lastOf rows count", first="refl",
                       next="go-on rows {slot} {on} ∙ {law}", measure="{slot}", less="less-by {slot} {on}",
                       ends=["end-by rows {slot} {off} ∙ {law}"]))

    def test_where_the_loop_stands(self):
        self.assertEqual(self.value(self.text, "Stands"),
                         "(slot : ℕ) × ((slot < 2 ^ 64) × (lastFrom rows slot ≡ lastOf rows count))")
        self.assertIn("Nearer j i = (j .0) < (i .0)\n", self.text)
        self.assertIn("‵ (fat fullShare (τ 3) l-3 0 (vint w64 ((i .0))))", self.value(self.text, "At"))

    def test_names_take_i(self):
        for name, term in (("is-wrong-1", "wrongOf ((i .0))"), ("row-at-2", "rowOf rows ((i .0))")):
            self.assertEqual(self.value(self.text, name), term)
        self.assertIn("(bool-typed u1 (is-wrong-1 i) (s1))", self.text)

    def test_a_turn_makes_it_less(self):
        good = "wider-w16 (LL.owed R.the-type R′.the-laws (row-at-2 i) _ (s2 .1) .0 .1)"
        self.assertTrue(self.turn(self.text, "less")[-1].startswith(
            "again ! Nearer At i ((row-at-2 i) .mark, (%s, go-on rows (i .0) less ∙ (i .1 .1))) "
            "(less-by (i .0) less)" % good))

    def test_the_end(self):
        over = self.turn(self.text, "over")
        self.assertEqual(over[0], "jumps ! $ exec ! C Λ En mir′.t-3 (atRet En Post)")
        self.assertTrue(over[-1].startswith(
            "by ! (exits (row-at-3 i)  (end-by rows (i .0) over ∙ (i .1 .1))  (s3 .1))"), over[-1])

    def test_where_it_begins(self):
        self.assertEqual(steps(self.text)[-2], "move ! (1 ∷ 0 ∷ %s ∷ [])" % " ∷ ".join(map(str, range(2, 14))))
        self.assertIn(" (count, (g-count, refl))", steps(self.text)[-1])
        self.closed(self.text)

    def test_a_local_that_follows_the_state(self):
        """while is_wrong(slot) { next = row.mark as usize; row = row_at(rows, next); slot = next; }"""
        cast = assign(6, "(op1 (cast unsigned unsigned 64) %s)" % copy(5, 0))
        turn = (cast, call(5, copy(1), copy(6)), be(3, copy(6)))
        text = proved(
            8, be(3, copy(2)), call(5, copy(1), copy(3)), turning(call(4, copy(3)), 4, *turn), be(0, copy(5)),
            "return", params=[("rows", "shr Row"), COUNT], ret="Row", facts=[("r", "f")],
            calls=["row-at", "is-wrong", "row-at"],
            falls=dict(state={"slot": 3}, locals={5: "rowOf rows {slot}"}, law="L {slot}", first="refl",
                       next="on {slot} {law}", measure="{slot}", less="less {on}", ends=["end {off} {law}"]))
        row = "(rowOf rows (i .0))"
        self.assertEqual(self.value(text, "Stands"), "(slot : ℕ) × ((slot < 2 ^ 64) × "
                         "((Value.Good R.the-type R′.the-laws (rowOf rows slot)) × (L slot)))")
        self.assertIn("l-5 0 (Value.mach R.the-type R′.the-laws %s)" % row, self.value(text, "At"))
        self.assertTrue(self.turn(text, "less")[-1].startswith(
            "again ! Nearer At i (%s .mark, (wider-w16 (LL.owed R.the-type R′.the-laws %s _ (i .1 .1 .0) .0 .1), "
            "(s3 .1, on (i .0) (i .1 .1 .1)))) (less less)" % (row, row)))
        self.assertTrue(self.turn(text, "over")[-1].startswith(
            "by ! (exits %s  (end over (i .1 .1 .1))  (i .1 .1 .0))" % row))
        self.assertIn(" (count, (g-count, (s1 .1, refl)))", steps(text)[-1])


if __name__ == "__main__":
    unittest.main()
