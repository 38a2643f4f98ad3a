"""A picture as another program renders it: its size, and the colours at the places of marks."""
import math
import shutil
import subprocess
import unittest

import vonjekona
from vonjekona import Class, Path, picture

from . import png_reader, test_picture
from .common import EPSILON, REPOSITORY, refused

FIRST, SECOND = test_picture.Marks.FIRST, test_picture.Marks.SECOND
RENDERER = shutil.which("rsvg-convert")
# Pixels a millimetre.
FINE = 7


def rendered(text):
    """A picture as the renderer draws it."""
    done = subprocess.run([RENDERER, "--zoom", "1", "--dpi-x", str(25.4 * FINE), "--dpi-y", str(25.4 * FINE)], input=text.encode(),
                          stdout=subprocess.PIPE, check=True)
    return png_reader.Picture(done.stdout)


def colour(text):
    return tuple(int(text[at : at + 2], 16) for at in (1, 3, 5))


@unittest.skipIf(RENDERER is None, "rsvg-convert is not installed here (Debian: librsvg2-bin): THE RENDERING IS LEFT OUT")
class Rendered(unittest.TestCase):
    def near(self, drawn, place, wanted, reach=0.3):
        """Whether a pixel near a place has a colour, up to a few steps."""
        x, y = place[0] * FINE, place[1] * FINE
        far = math.ceil(reach * FINE)
        return any(max(abs(a - b) for a, b in zip(drawn.pixel(int(x) + dx, int(y) + dy), colour(wanted))) < 24
                   for dx in range(-far, far + 1) for dy in range(-far, far + 1))

    def test_marks(self):
        rows = vonjekona.mutual(FIRST, SECOND, EPSILON).rows
        panel = picture.Panel(FIRST, SECOND, rows)
        _, height = panel.draw()
        drawn = rendered(picture.draw(FIRST, SECOND, rows=rows))
        self.assertLess(abs(drawn.width - 85.6 * FINE), 2)
        self.assertLess(abs(drawn.height - height * FINE), 2)
        # Where a point's mark lies on an overlap's end, the point's is seen.
        points = {point for row in rows if row.class_ not in (Class.LINES, Class.ARCS) for point in row.points}
        seen = set()
        for row in rows:
            for point in row.points:
                x, y = panel.view.place(point)
                # A ring and a diamond have nothing in the middle.
                where = (x + picture.style.MARK, y) if row.class_ in (Class.TANGENT, Class.TWO) else (x, y)
                if row.class_ in (Class.LINES, Class.ARCS) and point in points:
                    continue
                self.assertTrue(self.near(drawn, where, picture.style.CLASSES[row.class_]), (row, where))
                seen.add(row.class_)
            if row.class_ in (Class.LINES, Class.ARCS):
                seen.add(self.band(drawn, panel, row))
        self.assertEqual(len(seen), 5)
        for path, wanted in ((FIRST, picture.style.PATHS[0]), (SECOND, picture.style.PATHS[1])):
            (x1, y1, _), (x2, y2, _) = path.segment(0)
            self.assertTrue(self.near(drawn, panel.view.place(((3 * x1 + x2) / 4, (3 * y1 + y2) / 4)), wanted))

    def band(self, drawn, panel, row):
        """Beside the middle of an overlap, where no path is, its colour is mixed with white by halves."""
        if row.class_ is Class.LINES:
            (x1, y1), (x2, y2) = row.points
            middle = (x1 + x2) / 2, (y1 + y2) / 2
        else:
            # A quarter of the circle around (100, 0), from below to the right.
            middle = 100 + 10 * math.sqrt(0.5), -10 * math.sqrt(0.5)
        x, y = panel.view.place(middle)
        mixed = tuple((255 + part) // 2 for part in colour(picture.style.CLASSES[row.class_]))
        hits = sum(max(abs(a - b) for a, b in zip(drawn.pixel(int(x * FINE) + dx, int(y * FINE) + dy), mixed)) < 24
                   for dx in range(-5, 6) for dy in range(-5, 6))
        self.assertGreater(hits, 3, row)
        return row.class_

    def test_y_points_upward_and_arcs_bend_to_their_side(self):
        # From (0, 0) to (10, 0) counterclockwise: below. The first path ends at the top.
        path = Path([(0, 0, 1), (10, 0, 0), (10, 12, 0)])
        panel = picture.Panel(path)
        drawn = rendered(picture.draw(path))
        ink = picture.style.PATHS[0]
        self.assertTrue(self.near(drawn, panel.view.place((5, -5)), ink))
        self.assertFalse(self.near(drawn, panel.view.place((5, 5)), ink))
        self.assertTrue(self.near(drawn, panel.view.place((10, 10)), ink))
        self.assertLess(panel.view.place((10, 12))[1], panel.view.place((5, -5))[1])

    def test_a_large_arc(self):
        path = Path([(4, 0, 2), (5, 0, 0)])
        panel = picture.Panel(path)
        drawn = rendered(picture.draw(path))
        for place in ((4.5, -1), (4.5 - 0.625, -0.375), (4.5 + 0.625, -0.375)):
            self.assertTrue(self.near(drawn, panel.view.place(place), picture.style.PATHS[0]), place)
        self.assertFalse(self.near(drawn, panel.view.place((4.5, 0)), picture.style.PATHS[0]))

    def test_a_refused_vertex(self):
        path = Path([(0, 0, 0), (math.nan, 0, 0), (10, 10, 0), (0, 10, 0)])
        refusal = refused(vonjekona.self_, path, EPSILON)
        panel = picture.Panel(path, None, (), refusal)
        drawn = rendered(picture.draw(path, refusal=refusal))
        x, y = panel.view.place((5, 5))
        self.assertTrue(self.near(drawn, (x + picture.style.RING, y), picture.style.REFUSED))
        self.assertFalse(self.near(drawn, (x + 2 * picture.style.RING, y - 6), picture.style.REFUSED))

    def test_the_stored_pictures(self):
        for name, colours in (("accident", [picture.style.REFUSED, picture.style.CLASSES[Class.ONE]]),
                              ("classes", [picture.style.CLASSES[class_] for class_ in list(Class)[1:]])):
            drawn = rendered((REPOSITORY / "docs" / "pictures" / f"{name}.svg").read_text(encoding="utf-8"))
            self.assertGreater(drawn.width, 85 * FINE)
            found = drawn.colours()
            for wanted in colours + list(picture.style.PATHS):
                self.assertIn(colour(wanted), found, name)


if __name__ == "__main__":
    unittest.main()
