"""Tests of walks of straight lines and of calls. Run: python3 -m unittest discover tools"""

import unittest

from walks.tests.small import GIVEN, Walked, again, assign, be, call, copy, number, proved, steps

ROWS, SEEN, COUNT = ("rows", "mut Row"), ("rows", "shr Row"), ("count", "usize")
OR = "(op2 or %s %s)"
TO_USIZE = "(op1 (cast unsigned unsigned 64) %s)"
END = (be(0, "unit"), "return")


class TwoCalls(Walked):
    """let plan = consider(count); put_row(rows, plan.slot, plan.entry);"""

    def setUp(self):
        self.text = proved(7, call(3, copy(2)), *again(4, 5, 1), call(6, copy(5), copy(3, 0), copy(3, 1)), *END,
                           params=[ROWS, COUNT], facts=[("rows", "done rows count")], calls=["consider", "put-row"])
        self.steps = steps(self.text)

    def test_what_the_calls_leave_is_named(self):
        self.assertEqual(self.names(self.text), {
            "consider-1": ("Plan", "considered count"),
            "rows-2": ("List Row", "putOf rows (consider-1 .slot) (consider-1 .entry)")})

    def test_each_term_stands_once(self):
        for term in ("= considered count\n", "= putOf rows (consider-1 .slot) (consider-1 .entry)\n"):
            self.assertEqual(self.text.count(term), 1)
        self.assertEqual(self.text.count("considered count"), 1)
        self.assertEqual(self.text.count("putOf"), 1)

    def test_the_second_is_handed_fields_of_the_first(self):
        handed = GIVEN + (" rows (consider-1 .slot) (consider-1 .entry) b-rows o-rows m-rows"
                          " (ν-rows2 ∷ []) fullShare δ-rows2")
        owed = "(LL.owed P.the-type P′.the-laws consider-1 _ (s1 .1) "
        self.assertEqual(self.only(self.steps, "use2 W"),
                         "use2 W (raw (PutRow 𝓤 H A mem run .pre (to-put-row %s))) "
                         "(put-row-goes %s %s.0 .1) %s.1 .0))" % (handed, handed, owed, owed))

    def test_what_the_second_tells_is_heard(self):
        handed = GIVEN + (" rows (consider-1 .slot) (consider-1 .entry) b-rows o-rows m-rows"
                          " (ν-rows2 ∷ []) fullShare δ-rows2 u2")
        self.assertEqual(self.only(self.steps, "use1 W (later (some (λ (x : List Row)"),
                         "use1 W (later (some (λ (x : List Row). given (put-row-said %s x) "
                         "(‵ (flft (ν-rows2 ∷ []) fullShare) ⊛ ‵ (finally R.the-row δ-rows2 (x)))))) "
                         "(put-row-gives %s) $ await ! tt $ pick ! (λ x2. learn ! (λ s2." % (handed, handed))

    def test_fields_are_loaded_from_the_local(self):
        places = "l-0 l-1 l-2 l-3 l-4 l-5 l-6"
        field = "(read-3-%%d consider-1 %s ! 8 refl)" % places
        call_step = self.only(self.steps, "calls-at ! fm (PutRow")
        self.assertTrue(call_step.endswith("(and-then ! (load ! (from ! (stop !)) (look ! 4 refl)) (and-then ! %s "
                                           "(and-then ! %s (no-more !)))) (λ u2." % (field % 0, field % 1)))

    def test_reading_a_field_is_a_law_by_itself(self):
        law = self.text[self.text.index("  read-3-0 :"):self.text.index("  read-3-1 :")]
        self.assertIn("nth 𝓤 H A n Γ ≡ ‵ (fat fullShare (τ 3) l-3 0 (Value.mach P.the-type P′.the-laws y))", law)
        self.assertIn("(copy (place 3 (field 0 ∷ []))) (vint w64 (y .slot))\n", law)
        self.assertIn("load t (from t (fld t refl (stop t))) (look-at t n e (sub t 0 refl (whole t)))\n", law)

    def test_a_struct_lands_in_its_local(self):
        at_land = self.steps.index(self.only(self.steps, "land ! (from ! (stop !)) (init ! 8"))
        self.assertEqual(self.steps[at_land:at_land + 2], [
            "land ! (from ! (stop !)) (init ! 8 refl (Value.typed P.the-type P′.the-laws 𝓤 H A W consider-1 u1 (s1)))",
            "rewrite ! 8 (λ (z : Val). ‵ (fat fullShare (τ 3) l-3 0 z)) (s1 .0) refl"])

    def test_a_mut_slice_is_lent_and_taken_back(self):
        lent = "𝓤 H A W R.the-row b-rows o-rows m-rows rows (refl) room-rows ! tt κ-rows q-rows δ-rows"
        lend = self.steps.index("lend-mut %s (λ ν-rows2 δ-rows2." % lent)
        self.assertEqual(self.steps[lend - 1], "move ! (1 ∷ 0 ∷ [])")
        back = self.steps.index("back-mut %s ν-rows2 δ-rows2 (x2) (s2 .1 .1) (" % lent)
        self.assertEqual(self.steps[back - 3:back], ["split !", "move ! (1 ∷ [])", "move ! (1 ∷ 0 ∷ 2 ∷ [])"])
        self.assertEqual(self.steps[back + 1:back + 3], [
            "rewrite ! 0 (λ (l : List Row). ‵ (holds R.the-row b-rows o-rows m-rows κ-rows δ-rows l)) (s2 .1 .0) refl",
            "land ! (from ! (stop !)) (init ! 2 refl (unit-typed u2 (s2 .0)))"])

    def test_the_fact_holds_at_the_return(self):
        self.assertTrue(self.steps[-1].startswith(
            "by ! (exits rows-2 (sym (ap (λ (l : List Row). length l) (s2 .1 .0)) ∙ s2 .1 .1 ∙ refl) refl)"))
        self.assertIn("  exits : (z-rows : List Row) → length z-rows ≡ m-rows → z-rows ≡ done rows count → ent ",
                      self.text)

    def test_the_slice_is_taken_again(self):
        pointer = self.steps.index(self.only(self.steps, "assigns ! (addr"))
        length = "(load ! (from ! (fld ! refl (stop !))) (look-in ! 12 (sub ! 1 refl (whole !))))"
        self.assertEqual(self.steps[pointer:pointer + 2], [
            "assigns ! (addr ! (from ! (fld ! refl (hop ! (look-in ! 12 (sub ! 0 refl (whole !))) (stop !))))) "
            "(from ! (stop !)) (init ! 6 refl (tt, tt))",
            "assigns ! (agg ! (and-then ! (load ! (from ! (stop !)) (look ! 6 refl)) (and-then ! %s (no-more !)))) "
            "(from ! (stop !)) (init ! 4 refl (tt, (tt, (record { fits = room-rows .0 }, tt))))" % length])

    def test_every_local_is_freed(self):
        self.assertEqual(self.only(self.steps, "leaves ! ("), "leaves ! (%s ∷ [])" % " ∷ ".join(
            "full (τ %d) l-%d _" % (k, k) for k in range(7)))
        self.closed(self.text)


class Operands(Walked):
    """of a function with one call of a bool, or two"""

    def wrong(self, operand, *before, params=(SEEN, COUNT)):
        """the steps of a walk that calls `is-wrong` with this"""
        text = proved(5, *before, call(0, operand), "return", params=params, ret="bool", calls=["is-wrong"])
        self.closed(text)
        return steps(text)

    def test_or_of_two_results(self):
        text = proved(6, call(3, copy(2)), call(4, number(7)), assign(5, OR % (copy(3), copy(4))), be(0, copy(5)),
                      "return", params=[SEEN, COUNT], ret="bool", facts=[("r", "f")], calls=["is-wrong", "is-wrong"])
        self.assertEqual(self.names(text), {
            "is-wrong-1": ("Bool", "wrongOf count"), "is-wrong-2": ("Bool", "wrongOf 7")})
        self.assertIn("assigns ! (bin ! (load ! (from ! (stop !)) (look ! 6 refl)) (load ! (from ! (stop !)) "
                      "(look ! 4 refl)) tt) (from ! (stop !)) (init ! 2 refl (tt, tt))", steps(text))
        self.assertTrue(steps(text)[-1].startswith("by ! (exits (is-wrong-1 || is-wrong-2)  refl"), steps(text)[-1])

    def test_a_literal(self):
        for value, step in ((0, "(lit ! tt)"), (1024, "(lit ! tt)"), (1025, "(big-lit ! (lit< tt))")):
            found = self.wrong(number(value))
            self.assertTrue(self.only(found, "use0").endswith("(is-wrong-goes %s %d (lit< tt))" % (GIVEN, value)))
            self.assertTrue(self.only(found, "calls-at").endswith(
                "(to-is-wrong %s %d) (and-then ! %s (no-more !)) (λ u1." % (GIVEN, value, step)))

    def test_a_literal_in_a_local(self):
        found = self.wrong(copy(3), be(3, number(9)))
        self.assertIn("assigns ! (of-opd ! (lit ! tt)) (from ! (stop !)) "
                      "(init ! 4 refl (tt, record { fits = lit< tt }))", found)
        self.assertTrue(self.only(found, "use0").endswith("(is-wrong-goes %s 9 (lit< tt))" % GIVEN))

    def test_a_local_that_is_full_is_stored_into(self):
        found = self.wrong(copy(3), be(3, number(9)), be(3, copy(2)))
        self.assertIn("assigns ! (of-opd ! (load ! (from ! (stop !)) (look ! 6 refl))) (from ! (stop !)) "
                      "(store ! 4 refl (tt, record { fits = g-count }))", found)
        self.assertTrue(self.only(found, "use0").endswith("(is-wrong-goes %s count g-count)" % GIVEN))

    def test_a_cast_to_usize(self):
        for kind, good in (("u16", "wider-w16 (g-count)"), ("u64", "g-count")):
            found = self.wrong(copy(3), assign(3, TO_USIZE % copy(2)), params=[SEEN, ("count", kind)])
            self.assertEqual(self.only(found, "assigns"),
                             "assigns ! (un ! (load ! (from ! (stop !)) (look ! 6 refl)) (record { fits = %s })) "
                             "(from ! (stop !)) (init ! 4 refl (tt, record { fits = %s }))" % (good, good))
            self.assertTrue(self.only(found, "use0").endswith("(is-wrong-goes %s count %s)" % (
                GIVEN, "(%s)" % good if " " in good else good)))

    def test_the_length_of_a_slice(self):
        self.assertTrue(self.only(self.wrong(copy(1, 1)), "use0").endswith(
            "(is-wrong-goes %s m-rows (room-rows .0))" % GIVEN))

    def test_no_result_is_named_like_a_type(self):
        text = proved(3, *[call(2, copy(1))] * 16, be(0, copy(2)), "return", params=[COUNT], ret="bool",
                      calls=["is-wrong"] * 16)
        told = [step.split("(λ ")[1] for step in steps(text) if step.startswith("calls-at")]
        self.assertEqual(told, ["u%d." % k for k in (1, 2, 3, 4, 5, 6, 7, 108, 9, 10, 11, 12, 13, 14, 15, 116)])
        self.assertIn("is-wrong-8", self.names(text))

    def test_what_a_callee_requires_is_handed_over(self):
        text = proved(3, call(0, copy(2)), "return", params=[SEEN, COUNT], ret="bool", calls=["must"])
        self.assertTrue(self.only(steps(text), "use0").endswith("(must-goes %s count g-count below-nine)" % GIVEN))


if __name__ == "__main__":
    unittest.main()
