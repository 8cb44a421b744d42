"""The rules of tools/places, each on a small source that has one place for it."""
import importlib.machinery
import importlib.util
import tempfile
import unittest
from pathlib import Path

HERE = Path(__file__).resolve().parent
LOADER = importlib.machinery.SourceFileLoader("places", str(HERE / "places"))
places = importlib.util.module_from_spec(importlib.util.spec_from_loader("places", LOADER))
LOADER.exec_module(places)


def found(text):
    with tempfile.TemporaryDirectory() as top:
        source = Path(top, "crates", "one", "src")
        source.mkdir(parents=True)
        (source / "lib.rt").write_text(text)
        return [(rule, line, what) for rule, _, line, what in places.places(top)]


class Rules(unittest.TestCase):
    def test_an_enum_of_the_shape_of_an_option(self):
        self.assertEqual(found("pub enum Found {\n    Nothing,\n    At(usize),\n}\n"), [("1-enum", 1, "Found")])

    def test_an_enum_of_units_is_none(self):
        self.assertEqual(found("pub enum Kind {\n    One,\n    Two,\n}\n"), [])

    def test_a_flag_beside_a_value(self):
        text = "pub struct Write {\n    pub here: bool,\n    pub number: u16,\n}\n"
        self.assertEqual(found(text), [("1-flag", 1, "Write.here")])

    def test_a_flag_as_parameter_and_a_loop(self):
        text = "fn empty(table: &mut [u64], on: bool)\n    ensures { on }\n{\n    while on {\n    }\n}\n"
        self.assertEqual(found(text), [("1-flag-parameter", 1, "empty(on: bool)"), ("3-while", 4, "while on {")])

    def test_a_range_that_counts(self):
        text = "fn all(n: usize) {\n    for k in 0..n {\n        one(k);\n    }\n    for _ in 0..n {\n    }\n}\n"
        self.assertEqual(found(text), [("3-range", 2, "for k in 0..n {")])

    def test_two_functions_of_one_shape(self):
        text = "fn small(n: u8) -> u8 {\n    one(n * 2 + 1)\n}\n\nfn large(m: u64) -> u64 {\n    two(m * 3 + 4)\n}\n"
        self.assertEqual(found(text), [("2-same-shape", 1, "small, one of 2"), ("2-same-shape", 5, "large, one of 2")])

    def test_a_match_of_numbers(self):
        text = "fn name(kind: u8) -> bool {\n    match kind {\n        1 => a(),\n        2 => b(),\n        3 => c(),\n" \
            "        _ => d(),\n    }\n}\n"
        self.assertEqual(found(text), [("1-numbers-matched", 1, "name: 3 arms")])

    def test_a_cast_and_a_put(self):
        text = "fn wide(n: u8) -> u64 {\n    n as u64\n}\n\nfn put(t: &mut [u64], k: usize, n: u64) {\n" \
            "    if k < t.len() {\n        t[k] = n;\n    }\n}\n"
        self.assertEqual(found(text), [("4-cast", 1, "wide"), ("4-put", 5, "put")])

    def test_many_parameters(self):
        text = "fn all(a: u8, b: u8, c: u8, d: u8, e: u8, f: u8) {\n    one()\n}\n"
        self.assertEqual(found(text), [("5-parameters", 1, "all: 6")])

    def test_a_stand_in(self):
        text = "fn none() -> u16 {\n    terms::NO_SLOT\n}\n"
        self.assertEqual(found(text), [("1-stand-in", 2, "terms::NO_SLOT")])


if __name__ == "__main__":
    unittest.main()
