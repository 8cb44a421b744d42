"""Tests of branches, of what is forgotten, and of code that no walk is written of.

Run: python3 -m unittest discover tools
"""

import unittest

from walks.tests.small import assign, be, call, copy, counted, number, proved, steps

SEEN, COUNT = ("rows", "shr Row"), ("count", "usize")
IF = "(if %s %s skip)"
BOTH = [SEEN, COUNT]
END = (be(0, "unit"), "return")


def returning(test, *arm):
    """if test { arm; return }"""
    text = "return"
    for statement in reversed(arm):
        text = "(seq %s %s)" % (statement, text)
    return IF % (copy(test), text)


class OneBranch(unittest.TestCase):
    """if is_wrong(count) { return empty(); } row_at(rows, count)"""

    def setUp(self):
        self.text = proved(4, call(3, copy(2)), returning(3, call(0)), call(0, copy(1), copy(2)), "return",
                           params=BOTH, ret="Row", facts=[("r", "found rows count")],
                           calls=["is-wrong", "empty", "row-at"], exits=[["none-by on"], ["some-by off"]])
        self.steps = steps(self.text)
        self.on, self.off = self.steps.index("(λ on."), self.steps.index("(λ off.")

    def test_the_test_is_looked_at(self):
        self.assertEqual(self.steps[self.on - 1], "first ! $ branches ! (load ! (from ! (stop !)) (look ! 2 refl))")

    def test_the_arm_returns_within(self):
        arm = self.steps[self.on:self.off]
        self.assertIn("returns-within ! Post refl (look ! 8 refl)", arm)
        self.assertTrue(arm[-1].startswith("by ! (exits emptyRow  (none-by on)  (s2 .1))"), arm[-1])

    def test_what_follows_is_walked_in_the_other(self):
        other, env = self.steps[self.off:], "(envOf mir′.locals (l-0 ∷ l-1 ∷ l-2 ∷ l-3 ∷ []))"
        self.assertEqual(other[1], "skips ! $ exec ! C Λ %s mir′.t-3 (atRet %s Post)" % (env, env))
        self.assertIn("returns ! (look ! 8 refl)", other)
        self.assertTrue(other[-1].startswith("by ! (exits row-at-3  (some-by off)  (s3 .1))"), other[-1])

    def test_each_arm_has_its_own_locals(self):
        """Both write the result's place for the first time."""
        for half in (self.steps[self.on:self.off], self.steps[self.off:]):
            self.assertEqual([s.split(" refl ")[0] for s in half if s.startswith("land")],
                             ["land ! (from ! (stop !)) (init ! 8"])

    def test_parentheses_are_closed_in_each_arm(self):
        arm = "\n".join(self.steps[self.on:self.off])
        self.assertEqual(arm.count("("), arm.count(")"))
        self.assertEqual(self.text.count("("), self.text.count(")"))


class TwoBranches(unittest.TestCase):
    def setUp(self):
        text = proved(5, call(3, copy(2)), returning(3, call(0)), call(4, number(2)), returning(4, call(0)),
                      call(0, copy(1), copy(2)), "return", params=BOTH, ret="Row", facts=[("r", "f")],
                      calls=["is-wrong", "empty", "is-wrong", "empty", "row-at"],
                      exits=[["a on"], ["b off on2"], ["c off off2"]])
        self.steps = steps(text)

    def test_the_second_test_has_names_of_its_own(self):
        self.assertEqual([s for s in self.steps if s in ("(λ on.", "(λ off.", "(λ on2.", "(λ off2.")],
                         ["(λ on.", "(λ off.", "(λ on2.", "(λ off2."])

    def test_each_return_has_its_proof(self):
        self.assertEqual([s.split("  ")[1] for s in self.steps if s.startswith("by !")],
                         ["(a on)", "(b off on2)", "(c off off2)"])

    def test_what_follows_is_numbered_through(self):
        self.assertEqual([s.split("mir′.")[2].split()[0] for s in self.steps if s.startswith("skips")], ["t-3", "t-5"])


class Forgotten(unittest.TestCase):
    def walk(self, **more):
        return steps(proved(5, call(3, copy(2)), call(4, copy(3, 0)), be(0, copy(4)), "return", params=BOTH,
                            ret="bool", calls=["consider", "is-wrong"], **more))

    def test_a_local_is_forgotten_before_the_result_lands(self):
        found = self.walk(forget={2: [3]})
        land = found.index("land ! (from ! (stop !)) (init ! 2 refl (bool-typed u2 is-wrong-2 (s2)))")
        self.assertEqual(found[land - 2:land], ["drop !", "forget ! 4 refl"])

    def test_it_is_only_room_at_the_return(self):
        left = "leaves ! (full (τ 0) l-0 _ ∷ full (τ 1) l-1 _ ∷ full (τ 2) l-2 _ ∷ %s ∷ full (τ 4) l-4 _ ∷ [])"
        self.assertIn(left % "full (τ 3) l-3 _", self.walk())
        self.assertIn(left % "room (τ 3) l-3", self.walk(forget={2: [3]}))


class Unknown(unittest.TestCase):
    """Code that no walk is written of ends the generator, with a message that names the function."""

    def ends(self, *body):
        with self.assertRaises(SystemExit) as ended:
            proved(5, *body, *END, params=BOTH, calls=["is-wrong"] * " ".join(body).count("(call "))
        self.assertTrue(ended.exception.code.endswith(" in small::part::go"), ended.exception.code)
        return ended.exception.code

    def test_the_same_without_it_has_a_walk(self):
        found = steps(proved(5, call(3, copy(2)), *END, params=BOTH, calls=["is-wrong"]))
        self.assertIn("returns ! (look ! 10 refl)", found)

    def test_a_statement(self):
        self.assertEqual(self.ends("(drop (place 3 lnil))"),
                         "regenerate: no walk of ['drop', ['place', '3', 'lnil']] in small::part::go")

    def test_a_word(self):
        self.assertEqual(self.ends("skip"), "regenerate: no walk of skip in small::part::go")

    def test_an_assignment(self):
        self.assertIn("'discriminant'", self.ends(assign(3, "(discriminant (place 2 lnil))")))

    def test_an_operator(self):
        for operator in ("and", "(sub unsigned)", "(div unsigned)"):
            self.assertIn("'op2'", self.ends(assign(3, "(op2 %s %s %s)" % (operator, copy(2), number(1)))))

    def test_a_sum_that_is_not_the_number_of_turns(self):
        self.assertIn("'add'", self.ends(assign(3, "(op2 (add unsigned) %s %s)" % (copy(2), number(1)))))

    def test_another_operator_of_one_number(self):
        for operator in ("(cast unsigned unsigned 16)", "not"):
            self.assertIn("'op1'", self.ends(assign(3, "(op1 %s %s)" % (operator, copy(2)))))

    def test_a_branch_that_goes_on(self):
        self.assertIn("'if'", self.ends(call(3, copy(2)), IF % (copy(3), be(4, number(1)))))

    def test_a_branch_with_an_else(self):
        both = returning(3, be(0, "unit")).replace(" skip)", " %s)" % be(4, number(1)))
        self.assertIn("'if'", self.ends(call(3, copy(2)), both))

    def test_a_comparison_that_is_handed_on(self):
        test = assign(3, "(op2 (lt unsigned) %s %s)" % (copy(2), number(1)))
        self.assertIn("'call'", self.ends(test, call(4, copy(3))))

    def test_what_a_pointer_leads_to(self):
        self.assertIn("'deref'", self.ends(be(3, "(copy (place 2 (lcons (deref (tyInt 8)) lnil)))")))

    def test_calls_that_the_description_does_not_have(self):
        for calls in ([], ["is-wrong", "is-wrong"]):
            with self.assertRaises(SystemExit) as ended:
                proved(5, call(3, copy(2)), *END, params=BOTH, calls=calls)
            self.assertEqual(ended.exception.code, "regenerate: small::part::go has 1 calls, and its description %d"
                             % len(calls))

    def test_a_loop_that_is_not_described(self):
        self.assertIn("'block'", self.ends(be(3, number(0)), counted(3, number(8), 4)))


if __name__ == "__main__":
    unittest.main()
