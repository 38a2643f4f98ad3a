"""The pair calls, the kernels and the float functions."""
import math
import struct
import unittest

import vonjekona
from vonjekona import Class, Finding

from .common import EPSILON, bits, draws


class Pairs(unittest.TestCase):
    def test_every_class(self):
        line = (0, 0, 0), (4, 0, 0)
        half = (0, 0, 1), (4, 0, 0)
        for class_, v, u, points in (
                (Class.NONE, line, ((0, 1, 0), (4, 1, 0)), ()),
                (Class.TANGENT, half, ((0, -2, 0), (4, -2, 0)), ((2, -2),)),
                (Class.ONE, line, ((2, -2, 0), (2, 2, 0)), ((2, 0),)),
                (Class.TWO, half, ((-1, -1.2, 0), (5, -1.2, 0)), ((0.4, -1.2), (3.6, -1.2))),
                (Class.LINES, line, ((1, 0, 0), (9, 0, 0)), ((1, 0), (4, 0))),
                (Class.ARCS, half, ((2, -2, 1), (2, 2, 0)), ((2, -2), (4, 0)))):
            answer = vonjekona.pair(*v, *u, EPSILON)
            self.assertIs(answer.class_, class_)
            self.assertEqual(len(answer.points), len(points))
            for point, expected in zip(answer.points, points):
                self.assertAlmostEqual(math.dist(point, expected), 0, places=12, msg=class_.word)

    def test_the_bulges_of_second_vertices_have_no_effect(self):
        for bulge in (0, 9, math.nan, -math.inf):
            self.assertEqual(vonjekona.pair((0, 0, 0), (4, 0, bulge), (2, -2, 0), (2, 2, bulge), EPSILON).points, ((2, 0),))

    def test_lengths(self):
        for wrong in ((0, 0), (0, 0, 0, 0)):
            with self.assertRaises(ValueError):
                vonjekona.pair(wrong, (4, 0, 0), (2, -2, 0), (2, 2, 0), EPSILON)

    def test_findings(self):
        # The line y = -1.2 and the half circle below the x axis: both points are inside the sweep, and a line has no sweep.
        found = vonjekona.pair_findings((0, 0, 1), (4, 0, 0), (-1, -1.2, 0), (5, -1.2, 0), EPSILON)
        self.assertEqual((found.first, found.second), ((Finding.INSIDE, Finding.NOT_TESTED),) * 2)
        self.assertEqual(found[:2], vonjekona.pair((0, 0, 1), (4, 0, 0), (-1, -1.2, 0), (5, -1.2, 0), EPSILON))
        # Above the axis the same line meets the circle, and not the arc.
        found = vonjekona.pair_findings((0, 0, 1), (4, 0, 0), (-1, 1.2, 0), (5, 1.2, 0), EPSILON)
        self.assertEqual((found.class_, found.first, found.second),
                         (Class.NONE, (Finding.OUTSIDE, Finding.NOT_TESTED), (Finding.OUTSIDE, Finding.NOT_TESTED)))
        self.assertEqual(vonjekona.pair_findings((0, 0, 0), (4, 0, 0), (2, -2, 0), (2, 2, 0), EPSILON).first,
                         (Finding.NOT_TESTED,) * 2)

    def test_large(self):
        # examples/loop.c: a loop of radius 5/8 below (4.5, 0), cut at (4.5, -1), and a line through its centre.
        loop, line = ((4, 0, 2), (5, 0, 0)), ((3, -0.375, 0), (6, -0.375, 0))
        answers = vonjekona.pair_large(*loop, *line, EPSILON)
        self.assertEqual([(a.v_half, a.u_half, a.class_) for a in answers], [(1, 0, Class.ONE), (2, 0, Class.ONE)])
        for answer, x in zip(answers, (4.5 - 0.625, 4.5 + 0.625)):
            self.assertAlmostEqual(math.dist(answer.points[0], (x, -0.375)), 0, places=9)
        self.assertEqual([(a.v_half, a.u_half) for a in vonjekona.pair_large(*loop, *loop, EPSILON)],
                         [(1, 1), (1, 2), (2, 1), (2, 2)])
        whole = vonjekona.pair_large((0, 0, 0), (4, 0, 0), (2, -2, 0), (2, 2, 0), EPSILON)
        self.assertEqual(whole, [(0, 0, Class.ONE, ((2.0, 0.0),))])


class Kernels(unittest.TestCase):
    def test_lines(self):
        call = vonjekona.line_line_intr
        self.assertEqual(call((0, 0), (4, 0), (0, 1), (4, 1), EPSILON), (0, ()))
        self.assertEqual(call((0, 0), (4, 0), (1, -2), (1, 2), EPSILON), (1, (0.25, 0.5)))
        self.assertEqual(call((0, 0), (4, 0), (2, 0), (6, 0), EPSILON), (2, (0.0, 0.5)))
        self.assertEqual(call((0, 0), (4, 0), (8, -2), (8, 2), EPSILON), (3, (2.0, 0.5)))

    def test_a_line_and_a_circle(self):
        call = vonjekona.line_circle_intr
        self.assertEqual(call((0, 0), (4, 0), 1, (2, 5), EPSILON), (0, ()))
        self.assertEqual(call((0, 0), (4, 0), 1, (2, 1), EPSILON), (1, (0.5,)))
        self.assertEqual(call((0, 0), (4, 0), 1, (2, 0), EPSILON), (2, (0.25, 0.75)))

    def test_circles(self):
        call = vonjekona.circle_circle_intr
        self.assertEqual(call(1, (0, 0), 1, (5, 0), EPSILON), (0, ()))
        self.assertEqual(call(1, (0, 0), 1, (2, 0), EPSILON), (1, ((1.0, 0.0),)))
        case, points = call(5, (0, 0), 5, (6, 0), EPSILON)
        self.assertEqual((case, sorted(points)), (2, [(3.0, -4.0), (3.0, 4.0)]))
        self.assertEqual(call(1, (0, 0), 1, (0, 0), EPSILON), (3, ()))

    def test_lengths(self):
        for call in (lambda: vonjekona.line_line_intr((0, 0, 0), (4, 0), (0, 1), (4, 1), EPSILON),
                     lambda: vonjekona.line_circle_intr((0, 0), (4, 0), 1, (2,), EPSILON),
                     lambda: vonjekona.circle_circle_intr(1, (0, 0), 1, (), EPSILON)):
            self.assertRaises(ValueError, call)


class Floats(unittest.TestCase):
    def test_the_root_is_the_machines(self):
        rng = draws(3)
        for _ in range(3000):
            pattern = rng.getrandbits(63)
            x = struct.unpack("<d", struct.pack("<Q", pattern))[0]
            if not math.isnan(x):
                self.assertEqual(bits(vonjekona.sqrt(x)), bits(math.sqrt(x)))
                self.assertEqual(f"{vonjekona.sqrt_bits(pattern):016x}", bits(math.sqrt(x)))
        self.assertTrue(math.isnan(vonjekona.sqrt(-1)))
        self.assertEqual(vonjekona.sqrt_bits(0xBFF0000000000000), 0x7FF8000000000000)
        self.assertEqual(bits(vonjekona.sqrt(-0.0)), bits(-0.0))

    def test_the_others(self):
        self.assertEqual((vonjekona.abs(-3.5), vonjekona.min(1, 2), vonjekona.max(1, 2)), (3.5, 1.0, 2.0))
        self.assertEqual((vonjekona.min(math.nan, 2), vonjekona.max(1, math.nan)), (2.0, 1.0))
        self.assertEqual((bits(vonjekona.min(0.0, -0.0)), bits(vonjekona.max(-0.0, 0.0))), (bits(-0.0), bits(0.0)))
        self.assertEqual(vonjekona.abs_bits(0xFFF0000000000001), 0x7FF0000000000001)
        self.assertEqual(vonjekona.min_bits(0x7FF0000000000001, 5), 5)
        self.assertEqual(vonjekona.max_bits(0x7FF0000000000001, 0xFFF8000000000000), 0x7FF8000000000000)

    def test_words_are_not_cut(self):
        for wrong in (-1, 1 << 64):
            with self.assertRaises(OverflowError):
                vonjekona.abs_bits(wrong)


if __name__ == "__main__":
    unittest.main()
