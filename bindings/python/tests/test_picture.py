"""Pictures: their arcs are the bulges' circles, every class has its mark, titles are the rows."""
import math
import unittest
import xml.etree.ElementTree

import vonjekona
from vonjekona import Class, Path, picture, words

from . import svg_reader
from .common import EPSILON, LAYOUTS, draws, drawn_path, refused

SVG = "{http://www.w3.org/2000/svg}"


def parsed(text):
    return xml.etree.ElementTree.fromstring(text.encode())


def by_id(root, name):
    found = [element for element in root.iter() if element.get("id") == name]
    assert len(found) == 1, f"{name}: {len(found)}"
    return found[0]


def circle(start, end, bulge):
    """Centre, radius and middle point of a bulge's arc, by another way than the picture's: three points of it give the circle.

    The middle point lies half the chord times the bulge to the right of the chord's middle. The centre is equally far from
    the three points: two linear equations, relative to the start."""
    ux, uy = end[0] - start[0], end[1] - start[1]
    mx, my = ux / 2 + bulge * uy / 2, uy / 2 - bulge * ux / 2
    double = 2 * (ux * my - uy * mx)
    u, m = ux * ux + uy * uy, mx * mx + my * my
    cx, cy = (my * u - uy * m) / double, (ux * m - mx * u) / double
    return (start[0] + cx, start[1] + cy), math.hypot(cx, cy), (start[0] + mx, start[1] + my)


class Arcs(unittest.TestCase):
    def near(self, got, expected, size, what):
        self.assertLess(math.dist(got, expected), 1e-6 * size, what)

    def check_path(self, path, runs):
        """Every segment of the path, in order, as it is drawn."""
        pieces = [piece for run in runs for piece in run]
        self.assertEqual(len(pieces), path.segments)
        arcs = 0
        for index, piece in enumerate(pieces):
            (x1, y1, bulge), (x2, y2, _) = path.segment(index)
            # The picture has the path's own numbers, every bit of them.
            self.assertEqual((piece.start, piece.end), ((x1, y1), (x2, y2)))
            if bulge == 0:
                self.assertIsInstance(piece, svg_reader.Line)
                continue
            arcs += 1
            centre, radius, middle = circle((x1, y1), (x2, y2), bulge)
            self.near(piece.centre, centre, radius, f"the centre of segment {index}, bulge {bulge}")
            self.assertAlmostEqual(piece.radius / radius, 1, places=9)
            self.near(piece.middle, middle, radius, f"the middle of segment {index}, bulge {bulge}")
            self.assertAlmostEqual(piece.turn, 4 * math.atan(bulge), places=6)
        return arcs

    def test_every_bulge(self):
        rng = draws(12)
        bulges = [s * b for s in (1, -1) for b in (0.01, 0.1, 27146 / 65536, 0.5, 0.999999, 1.0, 1.000001, 1.5, 2, 5, 16)]
        arcs = 0
        for turn in range(20):
            vertices = [(rng.randint(-1000, 1000), rng.randint(-1000, 1000), rng.choice(bulges + [0])) for _ in range(12)]
            path = Path(vertices, closed=turn % 2 == 0)
            runs = svg_reader.read(by_id(parsed(picture.draw(path)), "path-1").get("d"))
            self.assertEqual(len(runs), 1)
            arcs += self.check_path(path, runs)
        self.assertGreater(arcs, 150)

    def test_stored_layouts(self):
        for name in ("coil_and_pocket", "two_coils", "class_arcs", "class_tangent", "class_two"):
            layout = vonjekona.read_text((LAYOUTS / f"{name}.txt").read_bytes())
            root = parsed(picture.draw(*layout))
            for path, drawn in zip(layout, ("path-1", "path-2")):
                self.check_path(path, svg_reader.read(by_id(root, drawn).get("d")))

    def test_the_reader_can_tell_a_wrong_arc(self):
        """The four arcs through two points with one radius: only one is the bulge's."""
        centre, _, middle = circle((0, 0), (10, 0), 0.5)
        right = [(large, sweep) for large in (False, True) for sweep in (False, True)
                 if math.dist(svg_reader.arc((0, 0), (10, 0), 6.25, large, sweep).middle, middle) < 1e-9]
        self.assertEqual((right, middle), ([(False, True)], (5, -2.5)))
        self.assertAlmostEqual(math.dist(centre, (5, 3.75)), 0)

    def test_an_arc_that_cannot_be_seen_is_a_line(self):
        path = Path([(0, 0, 1e-7), (1000, 0, 1e-9), (2000, 0, 0.2), (3000, 0, 0)])
        run, = svg_reader.read(by_id(parsed(picture.draw(path)), "path-1").get("d"))
        self.assertEqual([type(piece).__name__ for piece in run], ["Line", "Line", "Arc"])

    def test_the_field_holds_every_arc(self):
        """No point of a large arc leaves the field."""
        path = Path([(0, 0, 16), (1, 0, -5), (3, 2, 2), (0, 5, 0)])
        panel = picture.Panel(path)
        for run in svg_reader.read(by_id(parsed(picture.draw(path)), "path-1").get("d")):
            for piece in run:
                for k in range(33) if isinstance(piece, svg_reader.Arc) else ():
                    angle = math.atan2(piece.start[1] - piece.centre[1], piece.start[0] - piece.centre[0]) + piece.turn * k / 32
                    x, y = panel.view.place((piece.centre[0] + piece.radius * math.cos(angle),
                                             piece.centre[1] + piece.radius * math.sin(angle)))
                    self.assertTrue(2.9 < x < 85.6 - 2.9 and 2.9 < y < 54 - 2.9, (x, y))


class Overlaps(unittest.TestCase):
    def bands(self, first, second):
        rows = vonjekona.mutual(first, second, EPSILON).rows
        root = parsed(picture.draw(first, second, rows=rows))
        drawn = [svg_reader.read(path.get("d")) for path in root.iter(f"{SVG}path") if path.get("class") == "band"]
        return [row for row in rows if row.class_ in (Class.LINES, Class.ARCS)], drawn

    def test_lines(self):
        rows, bands = self.bands(Path([(0, 0, 0), (10, 0, 0)]), Path([(12, 0, 0), (4, 0, 0)]))
        self.assertEqual([row.class_ for row in rows], [Class.LINES])
        self.assertEqual({bands[0][0][0].start, bands[0][0][0].end}, {(4.0, 0.0), (10.0, 0.0)})

    def test_a_point_beside_an_arcs_end_counts_as_that_end(self):
        from vonjekona.picture.geometry import arc_of
        for bulge in (1, -1, 0.3, -0.3, 4, -4):
            arc = arc_of((10, 0), (-10, 0), bulge)
            for part, expected in ((0, 0), (-1e-9, 0), (1e-9, 0), (0.25, 0.25), (1, 1), (1 + 1e-9, 1), (1 - 1e-9, 1)):
                self.assertAlmostEqual(arc.part_of(arc.at(part)), expected, places=7)

    def test_arcs_run_along_the_arc(self):
        # Half circles of one circle, that start at each quarter, either way round: their overlap is a quarter or a half.
        ends = [(10, 0), (0, 10), (-10, 0), (0, -10)]
        seen = 0
        for one in range(4):
            for other in range(4):
                for bulge in (1, -1):
                    first = Path([(*ends[one], 1), (*ends[(one + 2) % 4], 0)])
                    second = Path([(*ends[other], bulge), (*ends[(other + 2) % 4], 0)])
                    rows, bands = self.bands(first, second)
                    for row, ((band,),) in zip(rows, bands):
                        seen += 1
                        self.assertIs(row.class_, Class.ARCS)
                        self.assertEqual({band.start, band.end}, set(row.points))
                        self.assertLess(math.hypot(*band.centre), 1e-9)
                        # Its middle lies on both arcs: on the side of each chord to which the arc bends.
                        for path in (first, second):
                            (x1, y1, b), (x2, y2, _) = path.segment(0)
                            side = (band.middle[0] - x1) * (y2 - y1) - (band.middle[1] - y1) * (x2 - x1)
                            self.assertGreater(side * b, 0)
        self.assertGreater(seen, 15)


class Marks(unittest.TestCase):
    FIRST = Path([(0, 0, 0), (20, 0, 1), (40, 0, 0), (70, 0, -1), (90, 0, 1), (110, 0, 0), (120, 0, 0)])
    SECOND = Path([(10, 8, 0), (10, -10, 0), (50, -10, 0), (50, 0, 0), (62, 0, 0), (62, 6, 0), (94, 6, 0), (94, -16, 0),
                   (100, -10, 1), (100, 10, 0)])

    def setUp(self):
        self.rows = vonjekona.mutual(self.FIRST, self.SECOND, EPSILON).rows
        self.panel = picture.Panel(self.FIRST, self.SECOND, self.rows)
        self.root = parsed(picture.draw(self.FIRST, self.SECOND, rows=self.rows))

    def test_every_class_has_a_mark_at_its_points(self):
        self.assertEqual({row.class_ for row in self.rows}, set(Class) - {Class.NONE})
        for number, row in enumerate(self.rows):
            mark = by_id(self.root, f"mark-{number}")
            colour = picture.style.CLASSES[row.class_]
            self.assertTrue(any(colour in (part.get("stroke"), part.get("fill")) for part in mark.iter()))
            targets = [(float(part.get("cx")), float(part.get("cy"))) for part in mark.iter(f"{SVG}circle")
                       if part.get("fill-opacity") == "0"]
            self.assertEqual(len(targets), len(row.points))
            for target, point in zip(targets, row.points):
                self.assertLess(math.dist(target, self.panel.view.place(point)), 0.01)
        self.assertEqual(len({picture.style.CLASSES[class_] for class_ in list(Class)[1:]}), 5)

    def test_a_mark_leads_to_its_row_and_back(self):
        for number, row in enumerate(self.rows):
            mark, line = by_id(self.root, f"mark-{number}"), by_id(self.root, f"row-{number}")
            self.assertEqual((mark.tag, mark.get("href"), line.get("href")), (f"{SVG}a", f"#row-{number}", f"#mark-{number}"))
            title = mark.find(f"{SVG}title").text
            self.assertEqual(title, f"row {number}: {words.sentence(row, ('first path', 'second path'))}")
            self.assertIn(f"segment {row.first} of the first path and segment {row.second} of the second path", title)
            for point in row.points:
                for coordinate in point:
                    self.assertIn(words.number(coordinate), title)
            cells = [span.text for span in line.iter(f"{SVG}tspan")]
            self.assertEqual(cells[:4], [str(number), str(row.first), str(row.second), row.class_.word])

    def test_the_legend(self):
        texts = [text.text for text in self.root.iter(f"{SVG}text")]
        for class_ in list(Class)[1:]:
            self.assertIn(f"{class_.word} ({sum(row.class_ is class_ for row in self.rows)})", texts)
        self.assertIn("first path", texts)

    def test_rows_in_one_place_share_a_label(self):
        labels = ["".join(text.itertext()) for text in self.root.iter(f"{SVG}text") if text.find(f"{SVG}a") is not None]
        self.assertIn("2, 3", labels)
        numbers = [int(number) for label in labels for number in label.split(", ")]
        self.assertEqual(sorted(numbers), list(range(len(self.rows))))

    def test_no_scripts_and_nothing_from_elsewhere(self):
        text = picture.draw(self.FIRST, self.SECOND, rows=self.rows)
        for word in ("<script", "<image", "url(", "@import", "@font-face", "xlink", "onclick"):
            self.assertNotIn(word, text)
        self.assertEqual({a.get("href")[0] for a in self.root.iter(f"{SVG}a")}, {"#"})

    def test_a_card_wide(self):
        self.assertEqual(self.root.get("width"), "85.6mm")
        left, top, width, height = map(float, self.root.get("viewBox").split())
        self.assertEqual((left, top, width, f"{height:g}mm"), (0, 0, 85.6, self.root.get("height")))

    def test_one_path_and_names(self):
        path = Path([(0, 0, 0), (10, 0, 0), (5, 0, 0)])
        rows = vonjekona.self_(path, EPSILON).rows
        text = picture.draw(path, rows=rows, names=("a <b> & c",), title="x < y", notes=["a & b"])
        root = parsed(text)
        self.assertEqual(by_id(root, "mark-0").find(f"{SVG}title").text,
                         "row 0: segments 0 and 1 of the a <b> & c are lines that overlap: (10, 0) to (5, 0)")

    def test_points_of_many_digits_stay_in_the_panel(self):
        layout = vonjekona.read_text((LAYOUTS / "full_size.txt").read_bytes())
        rows = vonjekona.mutual(*layout, EPSILON).rows
        root = parsed(picture.draw(*layout, rows=rows))
        smaller = 0
        for number, row in enumerate(rows):
            span = list(by_id(root, f"row-{number}").iter(f"{SVG}tspan"))[4]
            size = float(span.get("font-size") or picture.style.TEXT)
            smaller += size < picture.style.TEXT
            self.assertLess(float(span.get("x")) + size * 0.56 * len(span.text), 85.6 - 2)
        self.assertGreater(smaller, 10)

    def test_many_rows(self):
        first = Path([(k, 100 * (k % 2), 0) for k in range(31)])
        second = Path([(200 * (k % 2) - 50, 20 + k % 40, 0) for k in range(31)])
        rows = vonjekona.mutual(first, second, EPSILON).rows
        root = parsed(picture.draw(first, second, rows=rows))
        count = sum(1 for a in root.iter(f"{SVG}a") if a.get("class") == "mark")
        self.assertEqual(count, len(rows))
        self.assertGreater(count, 200)
        self.assertIn(f"and {count - 200} rows more", ["".join(text.itertext()) for text in root.iter(f"{SVG}text")])


class Refused(unittest.TestCase):
    def ring(self, path, **named):
        refusal = refused(vonjekona.self_, path, EPSILON)
        root = parsed(picture.draw(path, refusal=refusal, **named))
        panel = picture.Panel(path, None, (), refusal, **named)
        group, = [g for g in root.iter(f"{SVG}g") if g.get("class") == "refused"]
        self.assertEqual(group.find(f"{SVG}title").text, str(refusal))
        self.assertIn(str(refusal), " ".join("".join(text.itertext()) for text in root.iter(f"{SVG}text")))
        ring = group.findall(f"{SVG}circle")[-1]
        return panel, (float(ring.get("cx")), float(ring.get("cy"))), svg_reader.read(by_id(root, "path-1").get("d"))

    def check(self, path, place, runs):
        panel, ring, drawn = self.ring(path)
        self.assertLess(math.dist(ring, panel.view.place(place)), 0.01)
        self.assertEqual([[piece.start for piece in run] + [run[-1].end] for run in drawn], runs)

    def test_a_nan_vertex_is_ringed_between_its_neighbours(self):
        nan = math.nan
        square = [(0, 0, 0), (10, 0, 0), (10, 10, 0), (0, 10, 0), (0, 5, 0)]
        for number in (nan, math.inf, -2e6):
            vertices = list(square)
            vertices[2] = (10, number, 0)
            self.check(Path(vertices), (5, 5), [[(0, 0), (10, 0)], [(0, 10), (0, 5)]])
        self.check(Path([(nan, 0, 0)] + square[1:]), (10, 0), [[(10, 0), (10, 10), (0, 10), (0, 5)]])
        self.check(Path([(nan, 0, 0)] + square[1:], closed=True), (5, 2.5), [[(10, 0), (10, 10), (0, 10), (0, 5)]])

    def test_another_number_of_a_vertex_is_ringed_at_its_place(self):
        self.check(Path([(0, 0, 0), (10, 0, math.nan), (10, 10, 0), (0, 10, 0)]), (10, 0),
                   [[(0, 0), (10, 0)], [(10, 10), (0, 10)]])
        self.check(Path([(0, 0, 0), (10, 0, 0, 0.5), (10, 10, 0)]), (10, 0), [[(0, 0), (10, 0), (10, 10)]])
        self.check(Path([(0, 0, 0), (10, 0, 0.5), (10, 0, 0), (4, 4, 0)]), (10, 0), [[(0, 0), (10, 0), (10, 0), (4, 4)]])

    def test_the_ring_is_on_the_path_at_fault(self):
        first, second = Path([(0, 0, 0), (10, 0, 0)]), Path([(0, 5, 0), (4, 6, 3), (9, 9, 0)])
        refusal = refused(vonjekona.mutual, first, second, EPSILON)
        self.assertEqual((refusal.path, refusal.vertex), (1, 1))
        root, panel = parsed(picture.draw(first, second, refusal=refusal)), picture.Panel(first, second, (), refusal)
        group, = [g for g in root.iter(f"{SVG}g") if g.get("class") == "refused"]
        ring = group.findall(f"{SVG}circle")[-1]
        self.assertLess(math.dist((float(ring.get("cx")), float(ring.get("cy"))), panel.view.place((4, 6))), 0.01)

    def test_what_has_no_place_has_no_ring(self):
        for path in (Path([(math.nan, 0, 0)]), Path([(math.nan, 0, 0), (math.nan, 0, 0)])):
            root = parsed(picture.draw(path, refusal=refused(vonjekona.self_, path, EPSILON)))
            self.assertEqual([g for g in root.iter(f"{SVG}g") if g.get("class") == "refused"], [])
        refusal = refused(vonjekona.self_, Marks.FIRST, 0)
        self.assertIn("epsilon", picture.draw(Marks.FIRST, refusal=refusal))


class Odd(unittest.TestCase):
    def test_what_has_no_size(self):
        for path in (Path([]), Path([(5, 5, 0)]), Path([(5, 5, 0), (5, 5, 0)]), Path([(0, 0, 0), (0, 9, 0)]),
                     Path([(1048576, -1048576, 16), (-1048576, 1048576, 0)]), Path([(0, 0, 1), (0, 0, 0)]),
                     Path([(0, 0, 0), (5e-324, 0, 1)]), Path([(1e-300, 0, 0.5), (0, 1e-300, 0)]),
                     Path([(1048576, 0, 0), (1048575.9999999999, 0, 0)])):
            text = picture.draw(path, path)
            parsed(text)
            for word in ("nan", "inf"):
                self.assertNotIn(word, text.lower().replace("linejoin", ""))

    def test_drawn_paths(self):
        rng = draws(13)
        for turn in range(30):
            first, second = drawn_path(rng, 8, large=turn % 2), drawn_path(rng, 8, closed=True, large=turn % 2)
            rows = vonjekona.mutual_large(first, second, EPSILON).rows
            root = parsed(picture.draw(first, second, rows=rows))
            self.assertEqual(sum(1 for a in root.iter(f"{SVG}a") if a.get("class") == "mark"), len(rows))


if __name__ == "__main__":
    unittest.main()
