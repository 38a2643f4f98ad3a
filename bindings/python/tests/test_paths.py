"""Paths: what they are made of, and that numbers are handed over as they are."""
import array
import math
import unittest

import vonjekona
from vonjekona import Path

from .common import EPSILON, bits, refused

try:
    import numpy
except ImportError:
    numpy = None

SQUARE = [(0, 0, 0, 0), (4, 0, 0.5, 0), (4, 4, 0, 7), (0, 4, -1, 0)]


class Made(unittest.TestCase):
    def test_three_numbers_or_four(self):
        self.assertEqual([tuple(v) for v in Path([(1, 2, 0.5), (3, 4, 0, 9)])], [(1, 2, 0.5, 0), (3, 4, 0, 9)])

    def test_a_flat_buffer(self):
        flat = array.array("d", [number for vertex in SQUARE for number in vertex])
        self.assertEqual(Path(flat, closed=True), Path(SQUARE, closed=True))
        self.assertNotEqual(Path(flat), Path(SQUARE, closed=True))
        path = Path(flat)
        flat[0] = 77
        self.assertEqual(path[0].x, 0, "the numbers are copied")

    def test_lengths(self):
        for vertices in ([(1, 2)], [(1, 2, 3, 4, 5)], [(0, 0, 0), ()]):
            with self.assertRaises(ValueError) as raised:
                Path(vertices)
            self.assertNotIsInstance(raised.exception, vonjekona.Refusal)
        for vertices in ([1.0, 2.0, 3.0, 4.0], array.array("f", [0, 0, 0, 0]), b"12345678", ["abc"], 7, None):
            with self.assertRaises(TypeError, msg=repr(vertices)):
                Path(vertices)

    def test_what_is_no_multiple_of_four_is_the_calls_to_refuse(self):
        path = Path(array.array("d", [0] * 7))
        self.assertEqual(refused(vonjekona.self_, path, EPSILON).number, 6)

    def test_no_vertices(self):
        for nothing in ([], array.array("d")):
            listing = vonjekona.mutual(Path(nothing, closed=True), nothing, EPSILON)
            self.assertEqual((listing.rows, listing.pairs), ([], 0))

    def test_every_bit_is_kept(self):
        odd = [math.nan, math.inf, -math.inf, -0.0, 5e-324, 1e308, 0.1, -1 / 3]
        path = Path(array.array("d", odd))
        self.assertEqual([bits(number) for number in path.numbers], [bits(number) for number in odd])

    def test_segments(self):
        self.assertEqual([Path(SQUARE[:n]).segments for n in range(4)], [0, 0, 1, 2])
        self.assertEqual([Path(SQUARE[:n], closed=True).segments for n in range(4)], [0, 0, 2, 3])
        self.assertEqual(Path(SQUARE, closed=True).segment(3), ((0, 4, -1), (0, 0, 0)))
        with self.assertRaises(IndexError):
            Path(SQUARE).segment(3)

    def test_a_path_of_a_path(self):
        closed = Path(SQUARE, closed=True)
        self.assertEqual(Path(closed), closed)
        self.assertEqual(Path(closed, closed=False), Path(SQUARE))
        self.assertEqual(Path(Path(SQUARE), closed=True), closed)

    def test_it_does_not_change(self):
        path = Path(SQUARE)
        with self.assertRaises(TypeError):
            path.numbers[0] = 1.0
        with self.assertRaises(AttributeError):
            path.closed = True


@unittest.skipIf(numpy is None, "numpy is not installed here: LEFT OUT")
class Numpy(unittest.TestCase):
    def test_arrays(self):
        path = Path(SQUARE)
        rows = numpy.array(SQUARE, dtype=numpy.float64)
        for same in (rows, rows.ravel(), numpy.asfortranarray(rows), rows.astype(numpy.float32), rows.repeat(2, axis=0)[::2]):
            self.assertEqual(Path(same), path)
        self.assertEqual(Path(numpy.array([[1, 2, 0], [3, 4, 1]])), Path([(1, 2, 0), (3, 4, 1)]))
        self.assertEqual(Path(rows[::2]), Path(SQUARE[::2]))
        self.assertEqual(len(Path(rows[:0])), 0)
        numpy.testing.assert_array_equal(numpy.frombuffer(path.numbers), rows.ravel())
        for wrong in (rows.ravel().astype(numpy.float32), rows.ravel().astype(">f8"), rows.reshape(2, 2, 4)):
            with self.assertRaises(TypeError):
                Path(wrong)
        with self.assertRaises(ValueError):
            Path(rows[:, :2])

    def test_numbers_of_numpy(self):
        v = [numpy.float64(0), numpy.float64(0), numpy.float64(0)]
        answer = vonjekona.pair(v, (4, 0, 0), numpy.array([2.0, -2.0, 0.0]), (2, 2, 0), numpy.float64(EPSILON))
        self.assertEqual(answer.points, ((2.0, 0.0),))


if __name__ == "__main__":
    unittest.main()
