"""Listings: held to the stored answers, to the program, and to what the header says of each kind."""
import unittest

import vonjekona
from vonjekona import Class, Path, read_packed, read_text

from .common import EPSILON, LAYOUTS, PACKED, answer, draws, drawn_path, program, refused, run

# The program has room for so many rows.
PROGRAM_ROWS = 512


class Stored(unittest.TestCase):
    def test_layouts(self):
        rows = refusals = 0
        for file in sorted(LAYOUTS.glob("*.out")):
            with self.subTest(file.name):
                layout, expected = read_text(file.with_suffix(".txt").read_bytes()), file.read_text()
                if expected.startswith("refused"):
                    refusals += 1
                    refusal = refused(vonjekona.mutual, *layout, EPSILON, rows=PROGRAM_ROWS)
                    self.assertEqual(f"refused {refusal.number}\n", expected)
                else:
                    listing = vonjekona.mutual(*layout, EPSILON)
                    rows += len(listing.rows)
                    self.assertEqual(answer(listing), expected)
        self.assertGreater(rows, 1000)
        self.assertGreater(refusals, 4)

    def test_more_rows_than_the_program_has_room_for(self):
        layout = read_text((LAYOUTS / "refused_513_rows.txt").read_bytes())
        self.assertEqual(len(vonjekona.mutual(*layout, EPSILON).rows), 513)

    def test_the_program(self):
        crossings, pack = program("crossings"), program("pack")
        if not crossings or not pack:
            self.skipTest("target/bin/crossings or pack is not there: LEFT OUT")
        rng, rows = draws(4), 0
        for _ in range(150):
            paths = [drawn_path(rng, rng.randint(0, 12)) for _ in range(2)]
            text = f"{len(paths[0])} {len(paths[1])}\n" + "".join(
                f"{int(v.x)} {int(v.y)} {int(v.bulge * 65536)}\n" for path in paths for v in path)
            packed, said = run(pack, text.encode())
            self.assertEqual(said, b"")
            printed, _ = run(crossings, b"packed\n" + packed)
            listing = vonjekona.mutual(*read_packed(packed), EPSILON)
            self.assertEqual(answer(listing), printed.decode(), text)
            rows += len(listing.rows)
        self.assertGreater(rows, 500)


class Full(unittest.TestCase):
    def test_it_is_the_pair_call_of_every_pair(self):
        rng, classes = draws(5), set()
        for _ in range(40):
            first, second = drawn_path(rng, 9, closed=True), drawn_path(rng, 7)
            listing = vonjekona.mutual(first, second, EPSILON)
            expected = []
            for i in range(first.segments):
                for j in range(second.segments):
                    class_, points = vonjekona.pair(*first.segment(i), *second.segment(j), EPSILON)
                    if class_:
                        expected.append((i, j, class_, points))
            self.assertEqual(listing.rows, expected)
            self.assertEqual(listing.pairs, first.segments * second.segments)
            classes |= {row.class_ for row in listing.rows}
        self.assertLessEqual({Class.TANGENT, Class.ONE, Class.TWO}, classes)

    def test_a_fold(self):
        listing = vonjekona.self_([(0, 0, 0), (10, 0, 0), (5, 0, 0)], EPSILON)
        self.assertEqual(listing.pairs, 1)
        self.assertEqual([(row.first, row.second, row.class_) for row in listing.rows], [(0, 1, Class.LINES)])
        self.assertEqual(vonjekona.self_([(0, 0, 0), (10, 0, 0), (10, 5, 0)], EPSILON).rows, [])

    def test_closed_or_open(self):
        triangle = [(0, 0, 0), (8, 0, 0), (0, 8, 0)]
        line = [(-1, 4, 0), (1, 4, 0)]
        self.assertEqual(len(vonjekona.mutual(triangle, line, EPSILON).rows), 0)
        self.assertEqual([row.first for row in vonjekona.mutual(Path(triangle, closed=True), line, EPSILON).rows], [2])

    def test_traces(self):
        one, other = [(0, 0, 0, 5), (4, 0, 0, 5)], [(2, -2, 0, 5), (2, 2, 0, 5)]
        listing = vonjekona.mutual(one, other, EPSILON)
        self.assertEqual((listing.rows, listing.pairs), ([], 0))
        self.assertEqual(len(vonjekona.mutual(one, [(2, -2, 0, 6), (2, 2, 0, 6)], EPSILON).rows), 1)


class Growth(unittest.TestCase):
    def lines(self, count):
        """A zigzag of long lines: every two of them that are not neighbours cross in another one's grid."""
        return Path([(k, 100 * (k % 2), 0) for k in range(count + 1)])

    def rungs(self, count):
        return Path([(200 * (k % 2) - 50, 20 + k % 40, 0) for k in range(count + 1)])

    def test_it_asks_again_on_8(self):
        first, second = self.lines(30), self.rungs(30)
        listing = vonjekona.mutual(first, second, EPSILON)
        self.assertGreater(len(listing.rows), 4 * 64)
        most = len(listing.rows)
        self.assertEqual(vonjekona.mutual(first, second, EPSILON, rows=most), listing)
        for call, paths in ((vonjekona.mutual, (first, second)), (vonjekona.mutual_boxed, (first, second)),
                            (vonjekona.mutual_large, (first, second)), (vonjekona.mutual_boxed_large, (first, second))):
            self.assertEqual(len(call(*paths, EPSILON).rows), most)
            self.assertEqual(refused(call, *paths, EPSILON, rows=most - 1).number, 8)
        self.assertEqual(refused(vonjekona.mutual, first, second, EPSILON, rows=0).number, 8)

    def test_a_room_below_0_lends_nothing(self):
        """C would take -1 for a number without end."""
        line, report = [(0, 0, 0), (4, 0, 0)], vonjekona.Report()
        for call in (lambda: vonjekona.mutual(line, line, EPSILON, rows=-1), lambda: vonjekona.self_boxed(line, EPSILON, rows=-1),
                     lambda: vonjekona.self_page(line, EPSILON, 0, 1, rows=-1),
                     lambda: vonjekona.mutual_counted_large(line, line, EPSILON, report, rows=-1)):
            with self.assertRaises(ValueError) as raised:
                call()
            self.assertNotIsInstance(raised.exception, vonjekona.Refusal)
        self.assertEqual(report, vonjekona.Report())

    def test_no_other_refusal_is_asked_again(self):
        asked = []

        def ask(room):
            asked.append(room)
            raise vonjekona.Refusal(7, "length", 0, 0, "")

        with self.assertRaises(vonjekona.Refusal):
            vonjekona.listings.grown(ask, None)
        self.assertEqual(len(asked), 1)


class Boxed(unittest.TestCase):
    def test_a_pair_whose_boxes_are_apart(self):
        # The header's example: class 4, and the boxes are 1/8 apart.
        one, other = [(0, 0, 0), (0.375, 0, 0)], [(0, 0.625, 0), (0.375, 0.625, 0)]
        self.assertEqual([row.class_ for row in vonjekona.mutual(one, other, 0.25).rows], [Class.LINES])
        boxed = vonjekona.mutual_boxed(one, other, 0.25)
        self.assertEqual((boxed.rows, boxed.pairs), ([], 0))
        self.assertEqual(boxed.boxes[0].segments, ((-0.25, -0.25, 0.625, 0.25),))
        self.assertEqual(boxed.boxes[1].segments, ((-0.25, 0.375, 0.625, 0.875),))
        self.assertEqual(boxed.boxes[1].groups, boxed.boxes[1].segments)

    def test_groups(self):
        path = Path([(k, k % 3, 0.5 * (k % 2)) for k in range(40)], closed=True)
        boxed = vonjekona.self_boxed(path, EPSILON)
        boxes, = boxed.boxes
        self.assertEqual((len(boxes.segments), len(boxes.groups)), (40, 3))
        for group, box in enumerate(boxes.groups):
            members = boxes.segments[16 * group : 16 * group + 16]
            self.assertEqual(box, (min(m.least_x for m in members), min(m.least_y for m in members),
                                   max(m.greatest_x for m in members), max(m.greatest_y for m in members)))
        self.assertLess(boxed.pairs, vonjekona.self_(path, EPSILON).pairs)

    def test_rows_are_among_the_listings(self):
        rng = draws(6)
        for _ in range(20):
            first, second = drawn_path(rng, 20), drawn_path(rng, 20, closed=True)
            all_rows = vonjekona.mutual(first, second, EPSILON).rows
            self.assertEqual([row for row in all_rows if row in vonjekona.mutual_boxed(first, second, EPSILON).rows],
                             vonjekona.mutual_boxed(first, second, EPSILON).rows)


class Large(unittest.TestCase):
    LOOP = Path([(0, 0, 0), (4, 0, 2), (5, 0, 0), (9, 0, 0)])

    def test_a_loop(self):
        through = [(3, -0.375, 0), (6, -0.375, 0)]
        listing = vonjekona.mutual_large(self.LOOP, through, EPSILON)
        self.assertEqual([row[:5] for row in listing.rows], [(1, 1, 0, 0, Class.ONE), (1, 2, 0, 0, Class.ONE)])
        self.assertEqual(listing.pairs, 4)
        self.assertEqual(vonjekona.self_large(self.LOOP, EPSILON).rows, [])
        self.assertEqual(refused(vonjekona.mutual, self.LOOP, through, EPSILON).number, 3)
        boxed = vonjekona.mutual_boxed_large(self.LOOP, through, EPSILON)
        self.assertEqual(boxed.rows, listing.rows)
        self.assertEqual([len(boxes.segments) for boxes in boxed.boxes], [4, 1])

    def test_a_narrow_loop_lists_itself(self):
        # The header's example.
        listing = vonjekona.self_large([(0, 0, 8), (0.125, 0, 0)], 0.25)
        self.assertEqual([row[:5] for row in listing.rows], [(0, 1, 0, 2, Class.TWO)])

    def test_without_large_arcs_the_rows_are_the_old_ones(self):
        rng = draws(7)
        for _ in range(20):
            first, second = drawn_path(rng, 8), drawn_path(rng, 8, closed=True)
            old, new = vonjekona.mutual(first, second, EPSILON), vonjekona.mutual_large(first, second, EPSILON)
            self.assertEqual([(r.first, 0, r.second, 0, r.class_, r.points) for r in old.rows], new.rows)
            old, new = vonjekona.self_boxed(second, EPSILON), vonjekona.self_boxed_large(second, EPSILON)
            self.assertEqual([(r.first, 0, r.second, 0, r.class_, r.points) for r in old.rows], new.rows)
            self.assertEqual(old.boxes, new.boxes)

    def test_the_boxes_of_closed_cut_paths_fit(self):
        path = Path([(0, 0, 2), (9, 0, -3), (9, 9, 1.5)], closed=True)
        self.assertEqual(len(vonjekona.self_boxed_large(path, EPSILON).boxes[0].segments), 6)
        path = Path([(0, 0, 2), (9, 0, -3), (9, 9, 1.5)])
        self.assertEqual(len(vonjekona.self_boxed_large(path, EPSILON).boxes[0].segments), 4)


class Limits(unittest.TestCase):
    def test_the_largest_path(self):
        most = Path([(k, 0, 0) for k in range(4096)])
        self.assertEqual(vonjekona.mutual(most, [(0.5, 1, 0), (0.5, -1, 0)], EPSILON).rows[0].points, ((0.5, 0),))
        self.assertEqual(vonjekona.self_boxed(most, EPSILON).rows, [])
        more = Path([(k, 0, 0) for k in range(4097)])
        self.assertEqual(refused(vonjekona.mutual, most, more, EPSILON).number, 7)

    def test_stored_packed_files(self):
        """The packed form of a layout lists as its text does."""
        for file in sorted(PACKED.glob("class_*.packed")):
            expected = (LAYOUTS / file.name).with_suffix(".out").read_text()
            self.assertEqual(answer(vonjekona.mutual(*read_packed(file.read_bytes()), EPSILON)), expected)


if __name__ == "__main__":
    unittest.main()
