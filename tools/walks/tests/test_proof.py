"""Tests of what stands around a walk: how the function is entered and left, and its statement.

Run: python3 -m unittest discover tools
"""

import unittest

from walks.tests.small import call, copy, proved, steps

PARAMS = [("rows", "mut Row"), ("others", "shr Row"), ("count", "usize")]
CALLEE = "Triple 𝓤 (𝓣 .C #is-wrong) (IsWrong 𝓤 H A mem run)"
FUNCTION = "(WpFn 𝓤 H (𝓣 .C) (𝓣 .Λ) code.function)"
START = "(((κ-rows, (κ-others, tt)), (q-rows, (q-others, tt)), bounds, a, at), tt)"
HELD = "‵ (holds R.the-row b-rows o-rows m-rows κ-rows δ-rows z-rows)"
SEEN = "‵ (sees R.the-row b-others o-others m-others κ-others δ-others others)"
TOKENS = ["‵ (flft κ-rows q-rows)", "‵ (flft κ-others q-others)"]


class Around(unittest.TestCase):
    """fn go(rows: &mut [Row], others: &[Row], count: usize) -> bool { is_wrong(count) }"""

    def setUp(self):
        self.text = proved(4, call(0, copy(3)), "return", params=PARAMS, ret="bool", calls=["is-wrong"],
                           facts=[("r", "wrong count"), ("rows", "kept rows")], exit=["by-law count", "refl"],
                           uses=["a.Law.{by-law}"])

    def line(self, start):
        """the one line that begins so, without that"""
        [found] = [line.strip() for line in self.text.split("\n") if line.strip().startswith(start)]
        return found[len(start):]

    def behind(self, start):
        """the line behind the one that begins so"""
        lines = [line.strip() for line in self.text.split("\n")]
        [at] = [k for k, line in enumerate(lines) if line.startswith(start)]
        return lines[at + 1]

    def test_uses(self):
        path = "use Rattle·small·proofs.proofs.part."
        wanted = ["use a.Law.{by-law}", path + "is_wrong.Symbol as is-wrong-def",
                  path + "is_wrong.Symbol.{name as #is-wrong}", path + "is_wrong.Met as is-wrong-thm",
                  "use Rattle·small·proofs.proofs.Laws.Calls.Part."
                  "{IsWrong, to-is-wrong, is-wrong-said, is-wrong-goes, is-wrong-gives}",
                  path + "go.Key.{name as #own}", path + "go as own", path + "go.Statement as stated",
                  path + "go.Code as code", path + "go.Code.Mir as mir′"]
        self.assertIn("\n".join(wanted) + "\n\n", self.text)

    def test_stayed(self):
        self.assertEqual(self.line("stayed = "), "(stay-slice (0 ∷ []) tt (plain (λ _. R.the-row)), (stay-none-slice "
                         "(1 ∷ []) tt (plain (λ _. R.the-row)) yes, (stay-none (λ _. usize) yes, tt)))")

    def test_what_is_given(self):
        self.assertIn(
            "(κ-rows κ-others : Lft) (bounds : AllOutlive 2 (own.signature .outlives) (κ-rows, (κ-others, tt))) "
            "(q-rows q-others : Share) (b-rows o-rows : ℕ) (δ-rows : GName) (rows : List Row) (b-others o-others : ℕ) "
            "(δ-others : GName) (others : List Row) (count : ℕ) (room-rows : Room R.the-row (length rows)) "
            "(room-others : Room R.the-row (length others)) (g-count : count < 2 ^ 64) where\n", self.text)

    def test_the_params(self):
        self.assertEqual(self.line("m-rows = "), "length rows")
        self.assertEqual(self.line("abbrev a : "), "(RefT (List Row) × (RefT (List Row) × (ℕ × Unit {0})))")
        self.assertEqual(self.line("at = "), "(sliceVal (b-rows, o-rows) m-rows ∷ [], "
                         "(sliceVal (b-others, o-others) m-others ∷ [], (vint w64 count ∷ [], tt)))")
        self.assertEqual(self.line("Post = "),
                         "walkOf 𝓤 H A own.ended stayed (own.clauses 𝓤 H A mem run) .post " + START)

    def test_exits(self):
        had = " ∷ ".join([HELD, TOKENS[0], SEEN, TOKENS[1], "[]"])
        self.assertEqual(self.line("exits : "),
                         "(h : Bool) (z-rows : List Row) → h ≡ wrong count → z-rows ≡ kept rows → "
                         "length z-rows ≡ m-rows → ent 𝓤 (⋆ 𝓤 H A (%s)) (Post (vbool h))" % had)
        self.assertEqual(self.line("exits h"), " z-rows e-0 e-1 n-rows =")

    def test_giving_back(self):
        self.assertEqual(self.behind("exits h").split(" $ "), [
            "qed W (%s) ∵ suffices ! _ (ends-at 𝓤 H A own.ended stayed (own.clauses 𝓤 H A mem run) W %s (vbool h) h "
            "(z-rows, (tt, (tt, tt))) (n-rows, (tt, (tt, tt))))" % (
                " ∷ ".join([HELD, TOKENS[0], SEEN, TOKENS[1], "[]"]), START),
            "says ! (e-0, e-1)", "nothing !", "move ! (4 ∷ 0 ∷ [])", "join !", "move ! (2 ∷ 0 ∷ [])", "join !",
            "frame !", "nothing !", "owned ! usize (Is usize) (uint-makes 𝓤 H A W w64) count _ (refl, g-count)",
            "fjoin !", "move ! (2 ∷ 0 ∷ [])", "fjoin !", "move ! (1 ∷ 0 ∷ [])", "fjoin !", "frame !",
            "owned ! bool (Is bool) (bool-makes 𝓤 H A W) h _ refl", "done !"])

    def test_the_walk_begins_with_tokens_and_params(self):
        values = "(sliceVal (b-rows, o-rows) m-rows ∷ sliceVal (b-others, o-others) m-others ∷ vint w64 count ∷ [])"
        self.assertEqual(self.behind("walk ="),
                         "qed W ((%s ⊛ ‵ ftrue) ∷ ‵ (owns (MutSlice (named 0) κ-rows R.the-row ∷ ShrSlice (named 1) "
                         "κ-others R.the-row ∷ usize ∷ []) a at) ∷ []) ∵ enter ! C Λ code.function %s _ $" % (
                             " ⊛ ".join(TOKENS), values))

    def test_the_function_is_entered(self):
        slice_typed = "(tt, (tt, (record { fits = room-%s .0 }, tt)))"
        self.assertEqual(steps(self.text)[:24], ["alloc1 ! (λ l-%d." % k for k in range(4)] + [
            "alloc0 !", "params1 !", "pass1 ! (init ! 4 refl %s)" % slice_typed % "rows",
            "pass1 ! (init ! 2 refl %s)" % slice_typed % "others",
            "pass1 ! (init ! 0 refl (tt, record { fits = g-count }))", "pass0 !",
            "move ! (9 ∷ [])", "fsplit !", "move ! (1 ∷ [])", "fsplit !", "move ! (1 ∷ [])", "fsplit !", "drop !",
            "drop !", "move ! (10 ∷ [])", "split !", "move ! (1 ∷ [])", "split !", "move ! (1 ∷ [])", "drop !"])

    def test_it_is_left_with_the_slices_in_order(self):
        self.assertEqual(steps(self.text)[-3],
                         "move ! (10 ∷ 11 ∷ 8 ∷ 9 ∷ 6 ∷ 7 ∷ 4 ∷ 5 ∷ 3 ∷ 1 ∷ 2 ∷ 0 ∷ [])")
        self.assertTrue(steps(self.text)[-2].startswith("leaves ! (full (τ 0) l-0 _ ∷ "))
        self.assertTrue(steps(self.text)[-1].startswith("by ! (exits is-wrong-1 rows (by-law count) refl (refl) )"))

    def test_own_walks(self):
        self.assertEqual(self.line("own-walks : "), "(𝓣 : Tables 𝓤 H) → %s → Walks 𝓤 H A own.ended stayed %s "
                         "(own.clauses 𝓤 H A mem run)" % (CALLEE, FUNCTION))
        found = self.behind("own-walks 𝓣")
        self.assertIn("(λ κs. (slice-vals, (slice-vals, (uint-vals w64, tt)))) "
                      "(λ κs. (mut-slice-tells (named 0) (κs .0) R.the-row, (shr-slice-tells (named 1) (κs .1 .0) "
                      "R.the-row, (uint-tells w64, tt))))", found)
        pointer = "(a %s .ptr .0) (a %s .ptr .1) (a %s .name) (a %s .now)"
        self.assertIn("(walk 𝓤 H A W mem run (κs .0) (κs .1 .0) bounds (qs .0) (qs .1 .0) %s %s (a .1 .1 .0) "
                      "(are .0 .0 .1) (are .1 .0 .0 .1) (are .1 .1 .0 .1) 𝓣 k-is-wrong)" % (
                          pointer % ((".0",) * 4), pointer % ((".1 .0",) * 4)), found)

    def test_own_meets(self):
        plain = "tt (plain (λ _. R.the-row))"
        self.assertIn("W (goes-slice 𝓤 H A W 2 0 %s, (goes-none-slice 𝓤 H A W 2 (1 ∷ []) %s yes, "
                      "(goes-none 𝓤 H A W 2 (λ _. usize) yes (λ κs x f. refl), tt))) " % (plain, plain),
                      self.behind("own-meets 𝓤"))

    def test_the_statement(self):
        self.assertIn("pub go-spec : {M : Type 1} → stated.statement M\n", self.text)
        self.assertTrue(self.text.endswith(
            "    (cited 𝓤 H (IsWrong 𝓤 H (𝓖 .A) (𝓜 .mem) (𝓡 .run)) 𝓜 𝓡 code.env #is-wrong is-wrong-def.routine "
            "code.calls-small·part·is-wrong (is-wrong-thm.met 𝓤 H 𝓜 𝓖 𝓡)))\n"))


class NoFacts(unittest.TestCase):
    def test_a_function_of_which_nothing_is_said(self):
        text = proved(4, call(0, copy(3)), "return", params=PARAMS, ret="bool", calls=["is-wrong"])
        self.assertIn("  exits : (h : Bool) (z-rows : List Row) → length z-rows ≡ m-rows → ent ", text)
        self.assertIn(" $ silent ! $ nothing ! $ ", text)
        self.assertNotIn("says", steps(text))


if __name__ == "__main__":
    unittest.main()
