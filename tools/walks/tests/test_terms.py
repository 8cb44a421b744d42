"""Tests of terms, names and contexts of walks. Run: python3 -m unittest discover tools"""

import unittest

from walks.context import Context
from walks.names import Names
from walks.terms import at_turn, atom, filled, nest, nest_types, pair, part, place, product


class Terms(unittest.TestCase):
    def test_nest_ends_in_tt(self):
        self.assertEqual([nest([]), nest(["a"]), nest(["a", "b"])], ["tt", "(a, tt)", "(a, (b, tt))"])

    def test_nest_of_types_ends_in_unit(self):
        self.assertEqual([nest_types([]), nest_types(["A", "B"])], ["Unit {0}", "(A × (B × Unit {0}))"])

    def test_product_sets_parentheses_on_both_sides(self):
        self.assertEqual([product(["A"]), product(["A", "B"]), product(["A", "B", "C"])],
                         ["A", "(A) × (B)", "(A) × ((B) × (C))"])

    def test_pair_has_no_end(self):
        self.assertEqual([pair(["a"]), pair(["a", "b"]), pair(["a", "b", "c"])], ["a", "(a, b)", "(a, (b, c))"])

    def test_part_of_one_is_the_whole(self):
        self.assertEqual(part("x", 0, 1), "x")

    def test_part_has_no_0_at_the_last(self):
        self.assertEqual([part("x", k, 3) for k in range(3)], ["x .0", "x .1 .0", "x .1 .1"])

    def test_place_has_a_0_at_every_place(self):
        self.assertEqual([place("x", k) for k in range(3)], ["x .0", "x .1 .0", "x .1 .1 .0"])

    def test_parts_and_places_are_those_of_pair_and_nest(self):
        """What `.0` and `.1` say leads to the item, in the pairs read as Python's."""
        def walked(term, path):
            for step in path.split()[1:]:
                term = term[int(step[1])]
            return term
        values = dict(a="a", b="b", c="c", tt="tt")
        for k, item in enumerate("abc"):
            self.assertEqual(walked(eval(pair("abc"), values), part("x", k, 3)), item)
            self.assertEqual(walked(eval(nest("abc"), values), place("x", k)), item)

    def test_atom(self):
        for name in ("rows", "m-rows", "12", "x1", "#own", "T′", "a₂"):
            self.assertEqual(atom(name), name)
        for term in ("f x", "x .0", "(x)", "T.row", "a || b"):
            self.assertEqual(atom(term), "(%s)" % term)

    def test_filled_replaces_whole_names_only(self):
        self.assertEqual(filled("f row rows row-2 (row)", {"row": "(g x)"}), "f (g x) rows row-2 ((g x))")

    def test_filled_replaces_all_at_once(self):
        self.assertEqual(filled("f this that", {"this": "that", "that": "this"}), "f that this")

    def test_at_turn_replaces_what_stands_in_braces(self):
        self.assertEqual(at_turn("below rows {i} i ({slot})", i="(i .0)", slot="s"), "below rows (i .0) i (s)")

    def test_at_turn_knows_its_names(self):
        with self.assertRaises(KeyError):
            at_turn("{other}", i="k")


class NamesOfTerms(unittest.TestCase):
    def setUp(self):
        self.names = Names()

    def nothing_is_named(self):
        self.assertEqual((self.names.before, self.names.inside), ([], []))

    def test_an_atom_gets_no_name(self):
        self.assertEqual(self.names.of("empty", 1, "Row", "emptyRow", None), "emptyRow")
        self.nothing_is_named()

    def test_what_was_heard_gets_no_name(self):
        for index in (None, "Upto"):
            self.assertEqual(self.names.of("put", 3, "Row", "putOf (x1 .0) row", index), "putOf (x1 .0) row")
        self.nothing_is_named()

    def test_a_name_with_an_x_in_it_is_not_what_was_heard(self):
        self.assertEqual(self.names.of("put", 3, "Row", "putOf max1 fix2", None), "put-3")

    def test_a_term_is_named_after_the_call(self):
        self.assertEqual(self.names.of("put", 3, "Row", "putOf row", None), "put-3")
        self.assertEqual(self.names.before, ["  abbrev put-3 : Row\n  put-3 = putOf row\n"])
        self.assertEqual(self.names.inside, [])

    def test_inside_a_turn_a_name_takes_i(self):
        self.assertEqual(self.names.of("put", 3, "Row", "putOf (i .0)", "Upto"), "put-3 i")
        self.assertEqual(self.names.inside, ["  abbrev put-3 : Upto → Row\n  put-3 i = putOf (i .0)\n"])
        self.assertEqual(self.names.before, [])


class Contexts(unittest.TestCase):
    def after(self, act, entries="abcd"):
        """The entries and the steps after an act."""
        context = Context(entries)
        act(context)
        return "".join(context.entries), context.steps

    def test_bring_of_one(self):
        self.assertEqual(self.after(lambda x: x.bring("c")), ("cabd", ["move ! (2 ∷ [])"]))

    def test_bring_of_several_in_the_asked_order(self):
        self.assertEqual(self.after(lambda x: x.bring("d", "a", "b")), ("dabc", ["move ! (3 ∷ 0 ∷ 1 ∷ [])"]))

    def test_bring_of_what_stands_first_is_no_step(self):
        for names in ("", "a", "abc", "abcd"):
            self.assertEqual(self.after(lambda x: x.bring(*names)), ("abcd", []))

    def test_bring_of_the_first_two_exchanged_is_a_step(self):
        self.assertEqual(self.after(lambda x: x.bring("b", "a")), ("bacd", ["move ! (1 ∷ 0 ∷ [])"]))

    def test_bring_of_what_is_not_there(self):
        with self.assertRaises(ValueError):
            Context("ab").bring("c")

    def test_push_and_merge_and_divide_and_drop(self):
        self.assertEqual(self.after(lambda x: x.push("nothing !", "n")), ("nabcd", ["nothing !"]))
        self.assertEqual(self.after(lambda x: x.merge("join !", "j")), ("jcd", ["join !"]))
        self.assertEqual(self.after(lambda x: x.divide("split !", "s", "t")), ("stbcd", ["split !"]))
        self.assertEqual(self.after(lambda x: x.drop()), ("bcd", ["drop !"]))

    def test_steps_on_a_line(self):
        context = Context("ab")
        for step in ("split !", "feqL ! (λ w. ", "drop !", "done !)"):
            context.step(step)
        self.assertEqual(context.on_a_line(), "split ! $ feqL ! (λ w. drop ! $ done !)")


if __name__ == "__main__":
    unittest.main()
