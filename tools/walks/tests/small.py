"""A small crate for the tests of tools/walks: a few types and callees, and functions written as the MIR's text."""

import unittest
from types import SimpleNamespace

from walks import mir
from walks.description import Description, of_crate
from walks.proof import Proof
from walks.values import Array, Boolean, Enum, Number, Struct

TYPES = {
    "u64": Number("u64", "w64"), "usize": Number("usize", "w64"), "u16": Number("u16", "w16"), "bool": Boolean(),
    "Row": Struct("Row", "R", [("mark", "u16"), ("begin", "u64"), ("full", "bool")]),
    "Plan": Struct("Plan", "P", [("slot", "usize"), ("entry", "Row")]),
    "Kind": Enum("Kind", "K"), "Four": Array("Row", "R", 4),
}
PUT = [("rows", "mut Row"), ("place", "usize"), ("row", "Row")]
CALLEES = [
    dict(fn="consider", name="Consider", params=[("count", "usize")], ret="Plan", facts=[("r", "considered count")]),
    dict(fn="is-wrong", name="IsWrong", params=[("place", "usize")], ret="bool", facts=[("r", "wrongOf place")]),
    dict(fn="kind-of", name="KindOf", params=[("row", "Row")], ret="Kind", facts=[("r", "kindOf row")]),
    dict(fn="empty", name="Empty", params=[], ret="Row", facts=[("r", "emptyRow")]),
    dict(fn="row-at", name="RowAt", params=[("rows", "shr Row"), ("place", "usize")], ret="Row",
         facts=[("r", "rowOf rows place")]),
    dict(fn="put-row", name="PutRow", params=PUT, ret=None, facts=[("rows", "putOf rows place row")]),
    dict(fn="take-row", name="TakeRow", params=PUT[:2], ret="usize",
         facts=[("r", "takenOf rows place"), ("rows", "leftOf rows place")]),
    dict(fn="stir", name="Stir", params=PUT[:1], ret="usize", facts=[]),
    dict(fn="must", name="Must", params=[("place", "usize")], ret="bool", facts=[("r", "mustOf place")],
         requires="place < 9", needs="below-nine"),
    dict(fn="swap", name="Swap", params=[("rows", "mut Row"), ("others", "mut Row")], ret=None,
         facts=[("rows", "swapped rows others"), ("others", "swapped others rows")]),
    dict(fn="look", name="Look", params=[("rows", "shr Row"), ("others", "shr Row"), ("place", "usize")], ret="bool",
         facts=[("r", "lookOf rows others place")], requires="place < 9", needs="below-nine"),
    dict(fn="full-four", name="FullFour", params=[("four", "Four")], ret="bool", facts=[("r", "fullFour four")]),
    dict(fn="four-of", name="FourOf", params=[("row", "Row")], ret="Four", facts=[("r", "fourOf row")]),
]
HERE = "Rattle·small·proofs.proofs.Laws.Calls"
GIVEN = "𝓤 H A W mem run"
USES = "use Rattle·small·specs.specs.Rows.{considered, wrongOf, emptyRow}"


def described(**function):
    """The description of the small crate, with one function in it."""
    callees = of_crate("small", HERE, [dict(c, at="part." + c["fn"].replace("-", "_")) for c in CALLEES])
    given = dict(dict(path="part.go", facts=[]), **function)
    module = SimpleNamespace(CRATE="small", USES=USES, TYPES=TYPES, CALLEES=callees, FUNCS={"go": given})
    return Description(module, "")


def listed(items):
    return "lnil" if not items else "(lcons %s %s)" % (items[0], listed(items[1:]))


def seq(*statements):
    return statements[0] if len(statements) == 1 else "(seq %s %s)" % (statements[0], seq(*statements[1:]))


def at(local, *fields):
    return "(place %d %s)" % (local, listed(["(field %d)" % field for field in fields]))


def copy(local, *fields):
    return "(copy %s)" % at(local, *fields)


def number(value, width=64):
    return "(int %d %d)" % (width, value)


def assign(local, right):
    return "(assign %s %s)" % (at(local), right)


def be(local, operand):
    return assign(local, "(rvOpd %s)" % operand)


def call(target, *operands):
    return '(call (direct (fnRef "f")) %s %s)' % (listed(operands), at(target))


def again(pointer, local, slice_local):
    """A slice of the function's own once more, to be lent."""
    inside = listed(["(field 0)", "(deref (tyInt 8))"])
    return (assign(pointer, "(addrOf (place %d %s))" % (slice_local, inside)),
            assign(local, "(aggregate %s)" % listed([copy(pointer), copy(slice_local, 1)])))


def counted(index, stop, test, *turn):
    """while index < stop { turn; index = index + 1 }"""
    up = assign(index, "(op2 (add unsigned) %s %s)" % (copy(index), number(1)))
    return turning(assign(test, "(op2 (lt unsigned) %s %s)" % (copy(index), stop)), test, *turn, up)


def turning(first, test, *turn):
    return "(block (loop %s))" % seq(first, "(if %s skip (exit 1))" % copy(test), *turn)


def program(count, *body, memory=()):
    """The text of a program with the function, which has so many locals; those in `memory` live there."""
    places = ["(local tyUnit %s)" % ("memorySlot" if k in memory else "valueLocal") for k in range(count)]
    item = "(fnItem 1 lnil 2 %s %s)" % (listed(places), seq(*body))
    return 'program (lcons (fn-def "small::part::go" %s lnil) lnil) (fnRef "none::main")' % item


def proved(count, *body, memory=(), **function):
    """The text of the function's proof."""
    description = described(**function)
    code = mir.functions(program(count, *body, memory=memory))["small::part::go"]
    return Proof(description, description.functions[0], code).text()


def steps(text, start="    walk =", end="\n\n"):
    """The steps of a walk, one for each line."""
    lines = text[text.index(start):].split(end)[0].split("\n")[2:]
    return [line.strip()[:-2] if line.endswith(" $") else line.strip() for line in lines]


class Walked(unittest.TestCase):
    """What tests of walks look for in them."""

    def only(self, found, start):
        """the one step of these that begins so"""
        [step] = [step for step in found if step.startswith(start)]
        return step

    def closed(self, text):
        self.assertEqual(text.count("("), text.count(")"))

    def names(self, text):
        """the names that the proof has for what calls leave: name -> its type and its term"""
        lines, out = text.split("\n"), {}
        for line, after in zip(lines, lines[1:]):
            words = line.split()
            if words[:1] == ["abbrev"] and words[1][-1:].isdigit():
                out[words[1]] = (line.split(" : ")[1], after.split(" = ")[1])
        return out
