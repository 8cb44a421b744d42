"""Tests of the picture of the listing. Run: python3 -m unittest discover docs"""

import os
import unittest
import xml.etree.ElementTree

from draw_listing import drawing
from listing_facts import ROOT, Look, Turn, Version, facts

BATCH = facts(os.path.join(ROOT, "example"))


class Facts(unittest.TestCase):
    def test_versions(self):
        # record, transaction, slot, begin, end, contents, whose version precedes
        self.assertEqual(set(BATCH.versions), {
            Version(0, 0, 0, 1, 4, 15, None), Version(0, 3, 12, 4, None, 7, 0), Version(1, 1, 4, 2, 3, 15, None),
            Version(1, 2, 8, 3, None, 15, 1), Version(2, 2, 9, 3, None, 30, None)})

    def test_reads_and_carries(self):
        self.assertEqual(set(BATCH.looks), {
            Look("read", 0, 0, None, 10, False), Look("read", 1, 0, 0, 15, True), Look("read", 2, 1, 1, 15, False),
            Look("carry", 2, 1, 1, 15, False), Look("carry", 2, 2, None, 30, False)})

    def test_steps(self):
        self.assertEqual([turn.what for turn in BATCH.turns], (
            ["place"] * 8 + ["claim", "decide", "fill", "claim", "waits", "claim", "read", "decide", "fill"]
            + ["claim", "read", "decide", "fill", "claim", "read", "decide", "carry", "carry", "fill", "fill", "seal"]))
        self.assertEqual(BATCH.turns[12], Turn("waits", 1, 1, 0))


class Picture(unittest.TestCase):
    def test_the_stored_picture_is_this_one(self):
        with open(os.path.join(ROOT, "docs", "listing.svg"), encoding="utf-8") as file:
            self.assertEqual(file.read(), drawing(BATCH) + "\n")

    def test_texts_are_texts(self):
        root = xml.etree.ElementTree.fromstring(drawing(BATCH))
        texts = [element.text for element in root.iter("{http://www.w3.org/2000/svg}text")]
        for told in ("reads 1 writes 1 and 2", "take 100 from 1", "aborted", "first waits for 1:", "carries 30"):
            self.assertEqual(texts.count(told), 1)


if __name__ == "__main__":
    unittest.main()
