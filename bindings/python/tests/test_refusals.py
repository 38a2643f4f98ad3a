"""Each refusal: its number, its place and its words."""
import math
import pickle
import unittest

import vonjekona
from vonjekona import Path, Refusal, Report

from .common import EPSILON, refused

LINE = [(0, 0, 0), (4, 0, 0)]
UP = [(2, -2, 0), (2, 2, 0)]


def zigzag(**changed):
    """Twenty vertices, of which some numbers are changed: x17=.. is the x of vertex 17."""
    numbers = {"x": 0, "y": 1, "bulge": 2, "trace": 3}
    vertices = [[k, k % 2, 0, 0] for k in range(20)]
    for where, value in changed.items():
        item = where.rstrip("0123456789")
        vertices[int(where[len(item) :])][numbers[item]] = value
    return Path(vertices)


class Words(unittest.TestCase):
    def check(self, words, call, *arguments, **named):
        refusal = refused(call, *arguments, **named)
        self.assertEqual(str(refusal), words)
        self.assertEqual(f"refused {refusal.number}: {refusal.words}", words)
        self.assertIsInstance(refusal, ValueError)
        again = pickle.loads(pickle.dumps(refusal))
        self.assertEqual((str(again), vars(again)), (words, vars(refusal)))
        return refusal

    def test_two_paths(self):
        fine, mutual = zigzag(), vonjekona.mutual
        refusal = self.check("refused 11: y of vertex 17 of the first path is NaN", mutual, zigzag(y17=math.nan), fine, EPSILON)
        self.assertEqual((refusal.number, refusal.path, refusal.vertex, refusal.item), (11, 0, 17, "y"))
        self.assertEqual((refusal.segment, refusal.line, refusal.offset), (None, None, None))
        refusal = self.check("refused 12: x of vertex 0 of the second path is infinite",
                             mutual, fine, zigzag(x0=-math.inf), EPSILON)
        self.assertEqual((refusal.path, refusal.vertex, refusal.owner, refusal.index), (1, 0, 1, 0))
        self.check("refused 2: x of vertex 3 of the first path is above 1,048,576 in magnitude",
                   mutual, zigzag(x3=1048577), fine, EPSILON)
        self.check("refused 3: bulge of vertex 4 of the second path is above 1 in magnitude",
                   mutual, fine, zigzag(bulge4=2), EPSILON)
        self.check("refused 3: bulge of vertex 4 of the second path is above 16 in magnitude",
                   vonjekona.mutual_large, fine, zigzag(bulge4=17), EPSILON)
        self.check("refused 15: trace of vertex 19 of the first path is no whole number from 0 to 255",
                   mutual, zigzag(trace19=0.5), fine, EPSILON)
        refusal = self.check("refused 5: the chord of segment 4 of the second path is shorter than 2^-40, and it is an arc",
                             mutual, fine, zigzag(bulge4=0.5, x5=4, y5=0), EPSILON)
        self.assertEqual((refusal.path, refusal.segment, refusal.vertex), (1, 4, None))
        for epsilon in (0, math.nan, math.inf, 0.75):
            self.check("refused 4: epsilon is NaN, infinite, below 2^-40 or above 1/2", mutual, fine, fine, epsilon)
        self.check("refused 7: the count of numbers of the second path is that of more than 4,096 vertices",
                   mutual, fine, [(0, 0, 0)] * 4097, EPSILON)
        self.check("refused 8: there are more rows than there is room for", mutual, fine, fine, EPSILON, rows=1)

    def test_one_path(self):
        refusal = self.check("refused 11: bulge of vertex 2 of the path is NaN", vonjekona.self_, zigzag(bulge2=math.nan), EPSILON)
        self.assertEqual((refusal.path, refusal.vertex), (0, 2))

    def test_flat_numbers(self):
        import array
        refusal = self.check("refused 6: the count of numbers of the path is no multiple of 4",
                             vonjekona.self_, array.array("d", [0] * 9), EPSILON)
        self.assertEqual((refusal.path, refusal.vertex, refusal.segment), (0, None, None))

    def test_large_arcs(self):
        refusal = self.check("refused 2: y of the cut point of segment 0 of the path is above 1,048,576 in magnitude",
                             vonjekona.self_large, [(0, -1048576, 2), (8, -1048576, 0)], EPSILON)
        self.assertEqual((refusal.segment, refusal.item), (0, "cut y"))
        self.check("refused 2: x of the cut point of u is above 1,048,576 in magnitude",
                   vonjekona.pair_large, *LINE, (1048576, 0, 2), (1048576, 8, 0), EPSILON)
        self.check("refused 5: the chord of segment 0 of the first path is shorter than 2^-40, or that of a half is",
                   vonjekona.mutual_large, [(0, 0, 2), (0, 0, 0)], LINE, EPSILON)

    def test_pages(self):
        page = vonjekona.self_page
        self.check("refused 13: the position is beyond the end", page, zigzag(), EPSILON, 1000, 1)
        self.check("refused 14: the budget is 0", page, zigzag(), EPSILON, 0, 0)
        self.check("refused 8: there is room for no row", page, zigzag(), EPSILON, 0, 1, rows=0)
        for position, budget in ((-1, 1), (0, -1), (1 << 64, 1), (0, 1 << 64)):
            with self.assertRaises(OverflowError):
                page(zigzag(), EPSILON, position, budget)

    def test_reports(self):
        full = Report([10000] + [0] * 39)
        refusal = self.check("refused 19: the report is full", vonjekona.mutual_counted, LINE, UP, EPSILON, full)
        self.assertEqual(full.words, (10000,) + (0,) * 39)
        self.assertIsNone(refusal.path)
        self.check("refused 19: the two reports do not fit into one", vonjekona.join, full, Report([1] + [0] * 39))

    def test_pairs(self):
        pair = vonjekona.pair
        refusal = self.check("refused 12: x of the second vertex of u is infinite", pair, *LINE, UP[0], (math.inf, 2, 0), EPSILON)
        self.assertEqual((refusal.owner, refusal.index, refusal.item, refusal.path), (1, 1, "x", None))
        self.check("refused 3: bulge of the first vertex of v is above 1 in magnitude", pair, (0, 0, -1.5), LINE[1], *UP, EPSILON)
        self.check("refused 5: the chord of v is shorter than 2^-40, and it is an arc", pair, (0, 0, 1), (0, 0, 0), *UP, EPSILON)
        self.check("refused 3: bulge of the first vertex of v is above 16 in magnitude",
                   vonjekona.pair_large, (0, 0, -16.5), LINE[1], *UP, EPSILON)
        self.check("refused 11: y of the first vertex of u is NaN",
                   vonjekona.pair_findings, *LINE, (0, math.nan, 0), UP[1], EPSILON)

    def test_kernels(self):
        self.check("refused 2: y of u2 is above 1,048,576 in magnitude",
                   vonjekona.line_line_intr, (0, 0), (4, 0), (2, -2), (2, 2e6), EPSILON)
        self.check("refused 9: radius of the circle is not in 2^-42 to 2^47",
                   vonjekona.line_circle_intr, (0, 0), (4, 0), 0, (2, 0), EPSILON)
        self.check("refused 11: x of p1 is NaN", vonjekona.line_circle_intr, (0, 0), (math.nan, 0), 1, (2, 0), EPSILON)
        self.check("refused 12: centre x of the second circle is infinite",
                   vonjekona.circle_circle_intr, 1, (0, 0), 1, (-math.inf, 0), EPSILON)
        self.check("refused 9: centre y of the first circle is above 2^48 in magnitude",
                   vonjekona.circle_circle_intr, 1, (0, 2.0**49), 1, (0, 0), EPSILON)

    def test_drawings(self):
        body = "90\n2\n70\n0\n10\n0.0\n20\n0.0\n10\n4.0\n20\n0.0\n"
        reads = vonjekona.dxf_import
        self.assertEqual(len(reads(body)), 2)
        refusal = self.check("refused 20: line 6 of the drawing's text is no code or number of a drawing's form",
                             reads, body.replace("10\n0.0", "10\n1e3"))
        self.assertEqual((refusal.line, refusal.item, refusal.path), (6, "line", None))
        self.check("refused 21: line 1 of the drawing's text has a group out of place, or lacks one or its value", reads, "")
        self.check("refused 22: line 2 of the drawing's text tells another count of vertices than there are",
                   reads, body.replace("90\n2", "90\n3"))
        refusal = self.check("refused 2: x of vertex 1 of the path is above 1,048,576 in magnitude",
                             reads, body.replace("4.0", "1048577"))
        self.assertEqual((refusal.path, refusal.vertex), (0, 1))
        self.check("refused 23: bulge of vertex 0 of the path is no number of six digits",
                   vonjekona.dxf_export, [(0, 0, 1 / 128), (4, 0, 0)])
        self.check("refused 23: y of vertex 1 of the path is no number of six digits",
                   vonjekona.dxf_export, [(0, 0, 0), (4, -0.0, 0)])

    def test_layouts(self):
        self.check("refused 10: the text breaks the form of a layout, or a limit of it", vonjekona.read_text, b"1 0\n0 0 0")
        refusal = self.check("refused 18: the packed file breaks its form at byte 1", vonjekona.read_packed, b"\x01")
        self.assertEqual((refusal.offset, refusal.item, refusal.path), (1, None, None))

    def test_every_number_of_the_calls_has_words(self):
        """Also those that these wrappers never give, since they lend enough memory."""
        from vonjekona.refusals import ITEMS, ONE_PATH, refusal_of
        for number, item, words in ((17, "boxes", "the boxes do not fit into the room for them"),
                                    (24, "room", "what is to be written does not fit into the room for it")):
            self.assertEqual(refusal_of(256 + number | ITEMS.index(item) << 16, ONE_PATH).words, words)

    def test_the_place_is_the_words(self):
        """The index is 32 bits wide, and owners and items have bits of their own."""
        from vonjekona.refusals import TWO_PATHS, refusal_of
        refusal = refusal_of(256 + 11 | 13 << 16 | 1 << 24 | 4095 << 32, TWO_PATHS)
        self.assertEqual((refusal.item, refusal.path, refusal.vertex), ("trace", 1, 4095))


class NoAnswer(unittest.TestCase):
    def test_too_little_memory_is_no_refusal(self):
        from vonjekona.refusals import ONE_PATH, answered
        with self.assertRaises(AssertionError):
            answered(512, ONE_PATH)
        self.assertEqual(answered(5, ONE_PATH), 5)
        with self.assertRaises(Refusal):
            answered(256 + 14 | 11 << 16, ONE_PATH)


if __name__ == "__main__":
    unittest.main()
