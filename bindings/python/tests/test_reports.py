"""Counted listings, and the join of reports."""
import unittest

import vonjekona
from vonjekona import Class, Report

from .common import EPSILON, draws, drawn_path, refused

LINE, UP = [(0, 0, 0), (4, 0, 0)], [(2, -2, 0), (2, 2, 0)]


class Counted(unittest.TestCase):
    def test_layouts_and_classes(self):
        rng, report = draws(9), Report()
        layouts, pairs, classes, refusals = 0, 0, {class_: 0 for class_ in Class}, {}
        for turn in range(40):
            first, second = drawn_path(rng, 9), drawn_path(rng, 9, large=turn % 4 == 0)
            large = turn % 8 == 0
            counted = vonjekona.mutual_counted_large if large else vonjekona.mutual_counted
            plain = vonjekona.mutual_large if large else vonjekona.mutual
            layouts += 1
            try:
                listing = counted(first, second, EPSILON, report)
                self.assertEqual(listing, plain(first, second, EPSILON))
                pairs += listing.pairs
                for row in listing.rows:
                    classes[row.class_] += 1
                classes[Class.NONE] += listing.pairs - len(listing.rows)
            except vonjekona.Refusal as refusal:
                refusals[refusal.number] = refusals.get(refusal.number, 0) + 1
        self.assertEqual((report.layouts, report.pairs, report.classes, report.refused), (layouts, pairs, classes, refusals))
        self.assertIn(3, refusals)
        self.assertGreater(classes[Class.ONE], 50)

    def test_a_listing_that_is_asked_again_is_counted_once(self):
        first = [(k, 100 * (k % 2), 0) for k in range(31)]
        second = [(200 * (k % 2) - 50, 20 + k % 40, 0) for k in range(31)]
        report = Report()
        listing = vonjekona.mutual_counted(first, second, EPSILON, report)
        self.assertGreater(len(listing.rows), 64)
        self.assertEqual((report.layouts, report.refused, report.classes[Class.ONE]), (1, {}, len(listing.rows)))

    def test_with_a_room_of_ones_own_8_is_counted(self):
        report = Report()
        self.assertEqual(refused(vonjekona.mutual_counted, LINE, UP, EPSILON, report, rows=0).number, 8)
        self.assertEqual((report.layouts, report.pairs, report.refused), (1, 0, {8: 1}))
        vonjekona.mutual_counted(LINE, UP, EPSILON, report, rows=1)
        self.assertEqual((report.layouts, report.pairs, report.refused), (2, 1, {8: 1}))

    def test_words_can_be_stored(self):
        report = Report()
        vonjekona.mutual_counted(LINE, UP, EPSILON, report)
        self.assertEqual(Report(report.words), report)
        for wrong in ([0] * 39, [0] * 41):
            self.assertRaises(ValueError, Report, wrong)
        for wrong in (-1, 1 << 64):
            self.assertRaises(OverflowError, Report, [wrong] + [0] * 39)


class Join(unittest.TestCase):
    def test_sums(self):
        one, other = Report(range(40)), Report(range(100, 140))
        vonjekona.join(one, other)
        self.assertEqual(one.words, tuple(100 + 2 * k for k in range(40)))
        self.assertEqual(other.words, tuple(range(100, 140)))
        one.join(one)
        self.assertEqual(one.words, tuple(200 + 4 * k for k in range(40)))

    def test_limits(self):
        one = Report([9999] + [0] * 39)
        one.join(Report([1] + [0] * 39))
        self.assertEqual(one.layouts, 10000)
        for other in (Report([1] + [0] * 39),):
            self.assertEqual(refused(one.join, other).number, 19)
        most = Report([0] + [(1 << 64) - 1] * 39)
        self.assertEqual(refused(most.join, Report([0] * 39 + [1])).number, 19)
        self.assertEqual(most.words[39], (1 << 64) - 1)


if __name__ == "__main__":
    unittest.main()
