"""Draws document 01's listing: python3 docs/draw_listing.py > docs/listing.svg

What is drawn comes from a run of the reference over example/, or over a folder
that is named; only where it stands is decided here.
"""

import os
import sys
from html import escape

from listing_facts import ROOT, facts

WIDTH, HEIGHT = 1276, 800
BLACK, GRAY, PALE, ACCENT = "#1a1a1a", "#767676", "#f1f1f1", "#b8420f"
LOOKS = {"read": "reads", "carry": "carries"}

# Columns: the records' names, what is stored, a column for each transaction, what the seal leaves.
NAME_X, STORED_X, FIRST_X, COLUMN, SEALED_X = 30, 130, 266, 222, 1170
BOX, STORED_BOX, BOX_HEIGHT = 180, 76, 48
ROW_TOPS = (174, 300, 416, 516)          # below a row's boxes stand its reads and carries
STEPS_X, STEPS_Y, STEP, LANE = 130, 646, 39, 38


def text(x, y, words, size=14, fill=BLACK, anchor="start", weight="normal"):
    return (f'<text x="{x:g}" y="{y:g}" font-size="{size}" fill="{fill}" text-anchor="{anchor}" '
            f'font-weight="{weight}">{escape(words)}</text>')


def box(x, y, width, height, stroke=BLACK, fill="white", thick=1.4):
    return (f'<rect x="{x:g}" y="{y:g}" width="{width:g}" height="{height:g}" rx="4" fill="{fill}" '
            f'stroke="{stroke}" stroke-width="{thick}"/>')


def arrow(points, colour=BLACK, dashed=False, thick=1.4):
    """A line through these points with a head at the last."""
    path = "M" + " L".join(f"{x:g} {y:g}" for x, y in points)
    dashes = ' stroke-dasharray="5 4"' if dashed else ""
    return (f'<path d="{path}" fill="none" stroke="{colour}" stroke-width="{thick}"{dashes} '
            f'marker-end="url(#head-{colour[1:]})"/>')


def heads():
    """Heads of arrows, one for each colour."""
    one = ('<marker id="head-{0}" viewBox="0 0 8 8" refX="7" refY="4" markerWidth="7" markerHeight="7" '
           'orient="auto"><path d="M0 0 L8 4 L0 8 z" fill="#{0}"/></marker>')
    return "<defs>" + "".join(one.format(colour[1:]) for colour in (BLACK, GRAY, ACCENT)) + "</defs>"


# Where things stand ---------------------------------------------------------

def column_x(i):
    return FIRST_X + COLUMN * i


def right_of(i):
    """The right edge of the box of a transaction's version, or of the stored record."""
    return STORED_X + STORED_BOX if i is None else column_x(i) + BOX


# The records and their chains -----------------------------------------------

def transaction_heads(batch):
    for i, (told, outcome) in enumerate(zip(batch.texts, batch.outcomes)):
        x = column_x(i)
        sets, actions = told.split(", ", 1)
        yield box(x - 14, 62, COLUMN - 12, 88, stroke="none", fill=PALE)
        yield text(x, 84, f"transaction {i}", weight="bold")
        yield text(x + BOX + 4, 84, f"position {i + 1}", size=13, anchor="end")
        yield text(x, 104, sets)
        yield text(x, 122, actions)
        yield text(x, 141, outcome, fill=GRAY)
    yield text(STORED_X + STORED_BOX / 2, 141, "stored", fill=GRAY, anchor="middle")
    yield text(SEALED_X + STORED_BOX / 2, 122, "after", fill=GRAY, anchor="middle")
    yield text(SEALED_X + STORED_BOX / 2, 141, "the seal", fill=GRAY, anchor="middle")


def record_rows(batch):
    for record, (before, after) in enumerate(zip(batch.stored, batch.sealed)):
        y = ROW_TOPS[record]
        yield text(NAME_X, y + 21, f"record {record}", weight="bold")
        yield text(NAME_X, y + 39, f"partition {record % 2}", fill=GRAY, size=12)
        for x, contents in ((STORED_X, before), (SEALED_X, after)):
            yield box(x, y, STORED_BOX, BOX_HEIGHT, fill=PALE, stroke=GRAY)
            yield text(x + STORED_BOX / 2, y + 30, str(contents), size=17, anchor="middle")


def version_box(version, carried):
    x, y = column_x(version.transaction), ROW_TOPS[version.record]
    end = "no end" if version.end is None else f"end {version.end}"
    yield box(x, y, BOX, BOX_HEIGHT)
    yield text(x + 12, y + 21, str(version.contents), size=17)
    if carried:
        yield text(x + 44, y + 20, "carried", fill=GRAY, size=12)
    yield text(x + BOX - 12, y + 20, f"slot {version.slot}", fill=GRAY, size=12, anchor="end")
    yield text(x + 12, y + 39, f"begin {version.begin}, {end}", fill=GRAY, size=12)
    yield arrow([(x, y + 12), (right_of(version.before) + 1, y + 12)], GRAY)


def chains(batch):
    carried = {(look.transaction, look.record) for look in batch.looks if look.what == "carry"}
    for version in batch.versions:
        yield from version_box(version, (version.transaction, version.record) in carried)


def look_lines(look, depth):
    """A read or a carry, below the row's boxes: its words, and an arrow to what it finds."""
    x, bottom = column_x(look.transaction), ROW_TOPS[look.record] + BOX_HEIGHT
    y = bottom + 21 + 19 * depth
    colour = ACCENT if look.waited else BLACK
    to = right_of(look.found) - 16 - 18 * depth
    yield text(x + 12, y + 5, f"{LOOKS[look.what]} {look.value}", fill=colour)
    yield arrow([(x + 6, y), (to, y), (to, bottom + 1)], colour, dashed=look.what == "carry")
    if look.waited:
        yield text(x + 12, y + 24, f"first waits for {look.found + 1}:", fill=ACCENT, size=12)
        yield text(x + 12, y + 39, "that version is not produced yet", fill=ACCENT, size=12)


def looks(batch):
    seen = {}
    for look in batch.looks:
        cell = (look.transaction, look.record)
        yield from look_lines(look, seen.get(cell, 0))
        seen[cell] = seen.get(cell, 0) + 1


# The steps ------------------------------------------------------------------

def step_box(x, y, turn):
    waits = turn.what == "waits"
    yield box(x, y, STEP - 3, 30, stroke=ACCENT if waits else GRAY, fill="white" if turn.what != "claim" else PALE,
              thick=2 if waits else 1)
    label = str(turn.transaction) if turn.what in ("claim", "place") else turn.what
    yield text(x + STEP / 2 - 1.5, y + 19, label, size=13 if len(label) < 3 else 9.5,
               fill=ACCENT if waits else BLACK, anchor="middle")


def lane_of(turn):
    """Partitions and workers of one number share a lane, since planning ends before work begins."""
    return 0.5 if turn.what == "seal" else turn.party


def steps(batch):
    yield text(NAME_X, STEPS_Y - 30, f"The {len(batch.turns)} steps", weight="bold", size=15)
    planning = [turn.what for turn in batch.turns].count("place")
    yield text(STEPS_X, STEPS_Y - 12, "planning: transactions placed", fill=GRAY, size=12)
    yield text(STEPS_X + STEP * planning, STEPS_Y - 12, "work: a claim with its transaction, then its advances",
               fill=GRAY, size=12)
    for lane in (0, 1):
        yield text(NAME_X, STEPS_Y + 13 + LANE * lane, f"partition {lane},", size=12, fill=GRAY)
        yield text(NAME_X, STEPS_Y + 27 + LANE * lane, f"worker {lane}", size=12, fill=GRAY)
    for k, turn in enumerate(batch.turns):
        x = STEPS_X + STEP * k
        yield from step_box(x, STEPS_Y + LANE * lane_of(turn), turn)
        yield text(x + STEP / 2 - 1.5, STEPS_Y + 2 * LANE + 12, str(k + 1), size=10, fill=GRAY, anchor="middle")


def legend():
    y = HEIGHT - 34
    for x, words, colour, dashed in ((NAME_X, "the preceding version in the record's chain", GRAY, False),
                                     (400, "reads", BLACK, False), (530, "carries", BLACK, True),
                                     (670, "waits, is claimed again, then reads", ACCENT, False)):
        yield arrow([(x + 40, y), (x, y)], colour, dashed)
        yield text(x + 50, y + 5, words, size=13, fill=colour if colour == ACCENT else BLACK)


def drawing(batch):
    parts = [f'<svg xmlns="http://www.w3.org/2000/svg" width="{WIDTH}" height="{HEIGHT}" '
             f'viewBox="0 0 {WIDTH} {HEIGHT}" font-family="DejaVu Sans, Helvetica, Arial, sans-serif">',
             "<title>The listing: four transactions, their versions and their reads</title>", heads(),
             f'<rect width="{WIDTH}" height="{HEIGHT}" fill="white"/>',
             text(NAME_X, 38, "The listing: four transactions, their versions and who reads them",
                  size=19, weight="bold")]
    for part in (transaction_heads, record_rows, chains, looks, steps):
        parts += part(batch)
    return "\n".join([*parts, *legend(), "</svg>"])


if __name__ == "__main__":
    print(drawing(facts(sys.argv[1] if sys.argv[1:] else os.path.join(ROOT, "example"))))
