"""Tests of the facts about callees. Run: python3 -m unittest discover tools"""

import unittest

from walks.tests.small import described
from walks.callee import Facts, facts_text

DESCRIPTION = described(params=[], calls=[])
TOKEN, HELD = "‵ (flft κ-rows q-rows)", "‵ (holds R.the-row b-rows o-rows m-rows κ-rows δ-rows rows)"
PLACE = "owned ! usize (Is usize) (uint-makes 𝓤 H A W w64) place _ (refl, g-place)"


def facts(alias):
    return Facts(DESCRIPTION.callees[alias]).text()


class Callee(unittest.TestCase):
    """Facts of one callee: a line of the text, by what it begins with."""

    def line(self, alias, start):
        [found] = [line.strip() for line in facts(alias).split("\n") if line.strip().startswith(start)]
        return found

    def says(self, alias, name, kind, value):
        """That a definition has this type and this value."""
        self.assertEqual(self.line(alias, "abbrev pub %s :" % name), "abbrev pub %s : %s" % (name, kind))
        self.assertEqual(self.line(alias, name + " "), "%s %s" % (name, value))

    def goes(self, alias):
        """What a callee's law about its `pre` asks for, its names, and its steps."""
        asked = self.line(alias, "pub %s-goes :" % alias).split(" : ")[1].split(" → ")[:-1]
        names = self.line(alias, alias + "-goes ").split()[1:-1]
        return asked, names, self.line(alias, "qed W %s-lent ∵" % alias).split(" ∵ ")[1].split(" $ ")

    def last_steps(self, alias):
        """The steps behind what is heard, in `-gives`."""
        return facts(alias).rstrip("\n").split("\n")[-1].strip().split(" $ ")

    def checked(self, alias):
        [step] = [step for step in self.last_steps(alias) if step.startswith("check ! ")]
        return step[len("check ! "):]


class NumberAndSlice(Callee):
    """take-row: a number, and a slice that it changes, each with its fact"""

    def test_to(self):
        self.says("take-row", "to-take-row", "TakeRow 𝓤 H A mem run .Ghost",
                  "= (((κ-rows, tt), (q-rows, tt), tt, args-take-row, "
                  "(sliceVal (b-rows, o-rows) m-rows ∷ [], (vint w64 place ∷ [], tt))), tt)")
        self.assertEqual(self.line("take-row", "args-take-row"),
                         "args-take-row = (record { ptr = (b-rows, o-rows); name = δ-rows; now = rows }, (place, tt))")

    def test_lent(self):
        self.says("take-row", "take-row-lent", "List (Item 𝓤)", "= %s ∷ %s ∷ []" % (TOKEN, HELD))

    def test_goes(self):
        self.assertEqual(self.goes("take-row"), (["place < 2 ^ 64"], ["g-place"], [
            "nothing !", "move ! (1 ∷ 0 ∷ [])", "join !",
            "nothing !", PLACE, "fjoin !", "move ! (2 ∷ 0 ∷ [])", "fjoin !",
            "move ! (1 ∷ 0 ∷ [])", "join !", "nothing !", "move ! (1 ∷ 0 ∷ [])", "done !"]))

    def test_said(self):
        self.says("take-row", "take-row-said", "Val → List Row → Type 0",
                  "u x = ((u ≡ vint w64 (takenOf rows place)) × (takenOf rows place < 2 ^ 64)) × "
                  "((x ≡ leftOf rows place) × (length (x) ≡ length rows))")

    def test_after(self):
        self.says("take-row", "take-row-after", "Val → List Row → SProp 𝓤",
                  "u x = guard 𝓤 (take-row-said u x) "
                  "(sep 𝓤 (A .lft κ-rows q-rows) (sem 𝓤 H A (finally R.the-row δ-rows (x))))")

    def test_gives(self):
        told = "(r ≡ takenOf rows place) × (zs .0 ≡ leftOf rows place)"
        ended = "(κ-rows, tt) args-take-row"
        self.assertIn(
            "  pub take-row-gives : (u : Val) → ent 𝓤 (TakeRow 𝓤 H A mem run .post to-take-row u) "
            "(H .⇛ (ex 𝓤 (take-row-after u)))\n  take-row-gives u =\n"
            "      qed W (raw (TakeRow 𝓤 H A mem run .post to-take-row u) ∷ []) ∵ updating ! $\n"
            "      use1 W (later (some (λ (r : ℕ). ((%s ⊛ ‵ ftrue) ⊛ ‵ (usize .own r (u ∷ []))) ⊛ raw (ensured 𝓤 H A "
            "take-row.ended (take-row.clauses 𝓤 H A mem run) %s tt r)))) (id⊢ 𝓤 _) $ await ! tt $ pick ! (λ r.\n"
            "      split ! $ move ! (1 ∷ []) $ use1 W (some (λ (zs : (List Row × (Unit {0} × Unit {0}))). "
            "‵ (lasts take-row.ended %s zs) ⊛ raw (fact 𝓤 (%s)))) (id⊢ 𝓤 _) $ pick ! (λ zs.\n" % (
                TOKEN, ended, ended, told), facts("take-row"))

    def test_gives_takes_the_post_apart(self):
        told = "(r ≡ takenOf rows place) × (zs .0 ≡ leftOf rows place)"
        steps = self.last_steps("take-row")
        self.assertEqual(steps[2], "heard ! (%s) (λ e. fsplit !" % told)
        self.assertEqual(steps[3:-3], [
            "fsplit !", "move ! (1 ∷ [])", "feqL ! (λ n-rows. move ! (1 ∷ [])", "fsplit !", "drop !",
            "move ! (2 ∷ [])", "split !", "move ! (1 ∷ [])",
            "peeks ! usize (Is usize) (shows 𝓤 H A usize) r (u ∷ []) (λ is. drop !",
            "split !", "move ! (1 ∷ [])", "at-once !", "show ! (take-row-after u) (zs .0)"])
        self.assertEqual(self.checked("take-row"),
                         "(((ap only (is .0) ∙ ap (vint w64) (e .0), "
                         "subst (λ (z : ℕ). z < 2 ^ 64) (e .0) (is .1)), (e .1, n-rows)))")
        self.assertEqual(steps[-2:], ["keep ! (1 ∷ 3 ∷ [])", "done !)))))"])


class NoResult(Callee):
    """put-row: it gives nothing back but the slice"""

    def test_said(self):
        self.assertEqual(self.line("put-row", "put-row-said "),
                         "put-row-said u x = (u ≡ vunit) × ((x ≡ putOf rows place row) × (length (x) ≡ length rows))")

    def test_goes_asks_for_each_good_value(self):
        self.assertEqual(self.goes("put-row")[:2], (
            ["place < 2 ^ 64", "Value.Good R.the-type R′.the-laws row"], ["g-place", "g-row"]))

    def test_gives(self):
        self.assertIn("⊛ ‵ (Nothing .own r (u ∷ [])))", facts("put-row"))
        self.assertIn("feqL ! (λ w. split !", self.last_steps("put-row"))
        self.assertEqual(self.checked("put-row"), "((ap only w, (e, n-rows)))")


class OnlyBool(Callee):
    """is-wrong: a bool of a number, and no slice"""

    def test_to(self):
        self.says("is-wrong", "to-is-wrong", "IsWrong 𝓤 H A mem run .Ghost",
                  "= ((tt, tt, tt, args-is-wrong, (vint w64 place ∷ [], tt)), tt)")
        self.says("is-wrong", "is-wrong-lent", "List (Item 𝓤)", "= []")

    def test_said(self):
        self.says("is-wrong", "is-wrong-said", "Val → Unit {0} → Type 0", "u x = u ≡ vbool (wrongOf place)")
        self.assertEqual(self.line("is-wrong", "is-wrong-after "),
                         "is-wrong-after u x = guard 𝓤 (is-wrong-said u x) (emp 𝓤)")

    def test_gives(self):
        steps = self.last_steps("is-wrong")
        self.assertEqual(steps[2], "heard ! (r ≡ wrongOf place) (λ e. fsplit !")
        self.assertEqual(self.checked("is-wrong"), "(ap only is ∙ ap vbool (e))")
        self.assertEqual(steps[-2:], ["keep ! ([])", "done !))))"])


class TwoSlices(Callee):
    """swap changes two slices, look sees two and asks for something"""

    def test_the_laws_take_a_block_and_a_loan_for_each(self):
        self.assertIn("(rows : List Row) (others : List Row) "
                      "(b-rows o-rows m-rows : ℕ) (b-others o-others m-others : ℕ) "
                      "(κ-rows : Lft) (q-rows : Share) (δ-rows : GName) (κ-others : Lft) (q-others : Share) "
                      "(δ-others : GName) where\n", facts("swap"))

    def test_goes(self):
        self.assertEqual(self.goes("swap"), ([], [], [
            "nothing !", "move ! (3 ∷ 0 ∷ [])", "join !", "move ! (1 ∷ 0 ∷ [])", "join !", "nothing !",
            "move ! (3 ∷ 0 ∷ [])", "fjoin !", "move ! (2 ∷ 0 ∷ [])", "fjoin !", "move ! (1 ∷ 0 ∷ [])", "join !",
            "nothing !", "move ! (1 ∷ 0 ∷ [])", "done !"]))

    def test_goes_where_something_is_asked_for(self):
        self.assertEqual(self.goes("look")[2], [
            "says ! req", "nothing !", "move ! (3 ∷ 0 ∷ [])", "join !", "move ! (1 ∷ 0 ∷ [])", "join !", "frame !",
            "nothing !", PLACE, "fjoin !", "move ! (2 ∷ 0 ∷ [])", "fjoin !", "move ! (1 ∷ 0 ∷ [])", "fjoin !",
            "done !"])

    def test_said_is_the_facts_and_then_the_lengths(self):
        self.assertEqual(self.line("swap", "swap-said "),
                         "swap-said u x = (u ≡ vunit) × "
                         "((x .0 ≡ swapped rows others) × ((x .1 ≡ swapped others rows) × "
                         "((length (x .0) ≡ length rows) × (length (x .1) ≡ length others))))")

    def test_gives_keeps_each_token_and_each_end(self):
        self.assertEqual(self.checked("swap"), "((ap only w, (e .0, (e .1, (n-rows, n-others)))))")
        self.assertEqual(self.last_steps("swap")[-2], "keep ! (2 ∷ 5 ∷ 1 ∷ 3 ∷ [])")
        self.assertEqual(self.last_steps("look")[-2], "keep ! (2 ∷ 1 ∷ [])")


class StructAndEnum(Callee):
    def test_said_of_a_struct(self):
        self.assertEqual(self.line("empty", "empty-said "),
                         "empty-said u x = Value.IsValue R.the-type R′.the-laws (emptyRow) u")

    def test_said_of_an_enum(self):
        self.assertEqual(self.line("kind-of", "kind-of-said "),
                         "kind-of-said u x = Choice.IsValue K.the-type K′.the-laws (kindOf row) u")
        self.assertEqual(self.checked("kind-of"), "(Choice.is-value K.the-type K′.the-laws r (kindOf row) u (e) is)")

    def test_a_slice_that_is_only_seen_leaves_nothing(self):
        self.assertEqual(self.line("row-at", "row-at-lent"), "row-at-lent = %s ∷ %s ∷ []" % (
            TOKEN, HELD.replace("holds", "sees")))
        self.says("row-at", "row-at-after", "Val → Unit {0} → SProp 𝓤",
                  "u x = guard 𝓤 (row-at-said u x) (A .lft κ-rows q-rows)")


class NoFacts(Callee):
    """stir: nothing is said of its result and its list, so x is both"""

    def test_said(self):
        self.says("stir", "stir-said", "Val → ((List Row) × (ℕ)) → Type 0",
                  "u x = ((u ≡ vint w64 (x .1)) × (x .1 < 2 ^ 64)) × (length (x .0) ≡ length rows)")

    def test_after(self):
        self.assertIn("(finally R.the-row δ-rows (x .0))", self.line("stir", "stir-after "))

    def test_gives(self):
        self.assertIn("args-stir zs) ⊛ raw (emp 𝓤)))", facts("stir"))
        steps = self.last_steps("stir")
        self.assertEqual(steps[2:4], ["drop !", "fsplit !"])
        self.assertIn("show ! (stir-after u) ((zs .0, r))", steps)
        self.assertEqual(self.checked("stir"), "(((ap only (is .0), is .1), n-rows))")
        self.assertEqual(steps[-2:], ["keep ! (1 ∷ 2 ∷ [])", "done !))))"])


class Required(Callee):
    """must: a callee that asks for something"""

    def test_goes(self):
        self.assertEqual(self.goes("must"), (["place < 2 ^ 64", "place < 9"], ["g-place", "req"], [
            "says ! req", "nothing !", "frame !", "nothing !", PLACE, "fjoin !", "done !"]))

    def test_the_file_has_the_step_only_where_it_is_needed(self):
        line = "use denote.Triple.Walked.{says}"
        for alias, here in (("must", True), ("is-wrong", False)):
            self.assertEqual(line in facts_text(DESCRIPTION, [DESCRIPTION.callees[alias]]), here)


class Whole(Callee):
    def test_parentheses_are_closed(self):
        for alias in DESCRIPTION.callees:
            for fact in facts(alias).split("\n\n"):
                self.assertEqual(fact.count("("), fact.count(")"), fact)

    def test_the_contract(self):
        self.says("is-wrong", "IsWrong", "Contract 𝓤",
                  "= tripleOf 𝓤 H A is-wrong.signature (is-wrong.spec 𝓤 H A mem run)")

    def test_a_file_has_each_callee_under_its_name(self):
        text = facts_text(DESCRIPTION, [DESCRIPTION.callees[alias] for alias in ("stir", "must")])
        self.assertIn("\nuse Rattle·small·proofs.proofs.part.stir as stir\n"
                      "use Rattle·small·proofs.proofs.part.must as must\n\n-- ---- `stir`\n", text)

    def test_the_files_of_facts(self):
        [(module, callees)] = DESCRIPTION.facts().items()
        self.assertEqual(DESCRIPTION.facts_file(module), "crates/small/proofs/Laws/Calls/Part.antt")
        self.assertEqual([c.alias for c in callees], list(DESCRIPTION.callees))


if __name__ == "__main__":
    unittest.main()
