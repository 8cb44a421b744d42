"""Tests of slices and arrays that walks lend. Run: python3 -m unittest discover tools"""

import unittest

from walks.tests.small import GIVEN, Walked, again, assign, at, be, call, copy, listed, number, proved, steps

ROWS, SEEN, COUNT = ("rows", "mut Row"), ("rows", "shr Row"), ("count", "usize")


class Slices(Walked):
    def test_a_shr_slice_is_lent_as_a_copy(self):
        text = proved(3, call(0, copy(1), copy(2)), "return", params=[SEEN, COUNT], ret="Row", facts=[("r", "f")],
                      calls=["row-at"])
        found = steps(text)
        sees = "‵ (sees R.the-row b-rows o-rows m-rows κ-rows δ-rows rows)"
        where = found.index(self.only(found, "use1 W (‵ (sees"))
        self.assertTrue(found[where].startswith(
            "use1 W (%s ⊛ %s) (shr-slice-copy 𝓤 H A W (named 0) κ-rows " % (sees, sees)))
        self.assertEqual(found[where + 1:where + 3], ["split !", "move ! (2 ∷ 0 ∷ [])"])
        self.assertIn("(to-row-at %s rows count b-rows o-rows m-rows κ-rows q-rows δ-rows)" % GIVEN, found[where + 3])
        self.assertEqual([step for step in found if step.startswith(("lend", "back"))], [])
        self.closed(text)

    def test_a_mut_slice_is_lent_to_be_seen(self):
        text = proved(5, *again(3, 4, 1), call(0, copy(4), copy(2)), "return", params=[ROWS, COUNT], ret="Row",
                      calls=["row-at"])
        self.closed(text)
        found = steps(text)
        self.assertTrue(self.only(found, "lend").startswith("lend-shr 𝓤 H A W R.the-row b-rows"))
        self.assertTrue(self.only(found, "back").startswith("back-shr 𝓤 H A W R.the-row b-rows"))
        self.assertTrue(found[-1].startswith("by ! (exits row-at-1 rows  (refl) (s1 .1))"), found[-1])

    def test_a_slice_is_lent_twice_with_what_the_first_left(self):
        text = proved(8, *again(3, 4, 1), call(5, copy(4), copy(2)), *again(6, 7, 1), call(0, copy(7), copy(5)),
                      "return", params=[ROWS, COUNT], ret="usize", facts=[("r", "f")], calls=["take-row", "take-row"])
        self.assertEqual(self.names(text), {
            "rows-1": ("List Row", "leftOf rows count"), "take-row-1": ("ℕ", "takenOf rows count"),
            "rows-2": ("List Row", "leftOf rows-1 take-row-1"), "take-row-2": ("ℕ", "takenOf rows-1 take-row-1")})
        self.closed(text)

    def test_what_is_heard_without_a_fact_has_no_name(self):
        text = proved(7, *again(3, 4, 1), call(5, copy(4)), call(6, copy(5)), be(0, copy(6)), "return",
                      params=[ROWS, COUNT], ret="bool", calls=["stir", "is-wrong"])
        self.assertEqual(self.names(text), {})
        found = steps(text)
        self.assertIn("land ! (from ! (stop !)) (init ! 4 refl (num-typed w64 u1 (x1 .1) (s1 .0)))", found)
        self.assertTrue(self.only(found, "use0").endswith("(is-wrong-goes %s (x1 .1) (s1 .0 .1))" % GIVEN))
        self.assertTrue(found[-1].startswith("by ! (exits (wrongOf (x1 .1)) (x1 .0)  (s1 .1 ∙ refl)"), found[-1])


class Arrays(Walked):
    LEND = (assign(4, "(addrOf %s)" % at(3)), assign(5, "(aggregate %s)" % listed([copy(4), number(4)])))

    def test_an_array_written_whole_is_lent(self):
        text = proved(7, call(2), assign(3, "(repeat %s 4)" % copy(2)), *self.LEND, call(6, copy(5)), be(0, copy(6)),
                      "return", memory=[3], params=[SEEN], ret="usize", calls=["empty", "stir"])
        found = steps(text)
        self.assertTrue(self.only(found, "assigns ! (rep").startswith(
            "assigns ! (rep ! 4 (load ! (from ! (stop !)) (look ! 11 refl))) (from ! (stop !)) (init ! 9 refl "
            "(array-lawful 𝓤 H A W R.the-row "))
        self.assertTrue(self.only(found, "use2 W (‵ (row").startswith(
            "use2 W (‵ (row R.the-row fullShare (replicate 4 emptyRow) l-3 0)) "
            "(array-in 𝓤 H A W R.the-row 4 l-3 0 tt "))
        self.assertIn("assigns ! (addr ! (from ! (stop !))) (from ! (stop !)) (init ! 7 refl (tt, tt))", found)
        own = "𝓤 H A W R.the-row l-3 0 4 (replicate 4 emptyRow) (length-replicate 4 emptyRow) (lit< tt, lit< tt) ! tt"
        self.assertEqual(self.only(found, "lend"), "lend-own %s (λ ν-rows2 δ-rows2." % own)
        self.assertEqual(self.only(found, "back"), "back-own %s ν-rows2 δ-rows2 (x2 .0) (" % own)
        self.assertEqual(self.only(found, "use1 W (‵ (froom"),
                         "use1 W (‵ (froom (τ 3) l-3 0)) (array-out 𝓤 H A W R.the-row 4 l-3 0 (x2 .0) "
                         "(s2 .1 ∙ length-replicate 4 emptyRow))")
        self.closed(text)

    def test_an_array_that_a_call_made_is_lent_and_passed_on(self):
        text = proved(9, call(2), call(7, copy(2)), be(3, copy(7)), *self.LEND, call(6, copy(5), number(2)),
                      be(8, copy(3)), call(0, copy(8)), "return", memory=[3], params=[SEEN], ret="bool",
                      calls=["empty", "four-of", "take-row", "full-four"])
        found = steps(text)
        self.assertEqual(self.names(text)["own-3-3"], ("List Row", "leftOf four-of-2 2"))
        self.assertIn("rewrite ! 0 (λ (l : List Row). ‵ (row R.the-row fullShare l l-3 0)) (s3 .1 .0) refl", found)
        self.assertEqual(self.only(found, "use1 W (given"),
                         "use1 W (given (Listed.Good R.the-type R′.the-laws 4 own-3-3) (‵ (fat fullShare (τ 3) l-3 0 "
                         "(Listed.mach R.the-type R′.the-laws 4 own-3-3)))) "
                         "(Listed.array-back R.the-type R′.the-laws 4 𝓤 H A W l-3 0 own-3-3 "
                         "(sym (ap (λ (l : List Row). length l) (s3 .1 .0)) ∙ s3 .1 .1 ∙ "
                         "(s2 .1) .1 .0 .1)) $ learn ! (λ whole-3.")
        self.assertTrue(self.only(found, "use0 W (raw (FullFour").endswith(
            "(full-four-goes %s own-3-3 whole-3)" % GIVEN))
        self.closed(text)


if __name__ == "__main__":
    unittest.main()
