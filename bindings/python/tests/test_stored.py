"""The pictures of the documents are what the code draws now."""
import importlib.util
import math
import pathlib
import sys
import tempfile
import unittest

import vonjekona

from . import svg_reader
from .common import REPOSITORY
from .test_picture import SVG, parsed

PICTURES = REPOSITORY / "docs" / "pictures"


def script():
    """The script, loaded without a trace in its folder."""
    spec = importlib.util.spec_from_file_location("draw", PICTURES / "draw.py")
    module = importlib.util.module_from_spec(spec)
    before, sys.dont_write_bytecode = sys.dont_write_bytecode, True
    try:
        spec.loader.exec_module(module)
    finally:
        sys.dont_write_bytecode = before
    return module


class Stored(unittest.TestCase):
    def test_they_are_what_the_code_draws(self):
        with tempfile.TemporaryDirectory() as folder:
            script().main([folder])
            made = {file.name: file.read_bytes() for file in pathlib.Path(folder).iterdir()}
        stored = {file.name: file.read_bytes() for file in PICTURES.glob("*.svg")}
        self.assertEqual(sorted(made), sorted(stored))
        for name, data in made.items():
            self.assertTrue(data == stored[name], f"{name} is another: docs/pictures/draw.py draws it anew")

    def test_the_accident(self):
        text = (PICTURES / "accident.svg").read_text(encoding="utf-8")
        root = parsed(text)
        ring, = [g for g in root.iter(f"{SVG}g") if g.get("class") == "refused"]
        self.assertEqual(ring.find(f"{SVG}title").text, "refused 11: x of vertex 47 of the first path is NaN")
        self.assertEqual(sum(1 for a in root.iter(f"{SVG}a") if a.get("class") == "mark"), 2)
        coil = script().coil()
        self.assertTrue(all(0 <= x <= 85600 and 0 <= y <= 53980 and x == int(x) and y == int(y) for x, y, _ in coil))
        # Left a broken coil, right a whole one: twice the card, the coil and the pocket.
        coils = [path for path in root.iter(f"{SVG}path") if (path.get("id") or "").endswith("path-1")]
        self.assertEqual([len(svg_reader.read(path.get("d"))) for path in coils], [2, 1])
        self.assertEqual(sum(len(run) for run in svg_reader.read(coils[1].get("d"))), len(coil) - 1)

    def test_no_name_is_given_twice(self):
        for file in PICTURES.glob("*.svg"):
            names = [element.get("id") for element in parsed(file.read_text(encoding="utf-8")).iter() if element.get("id")]
            self.assertEqual(len(names), len(set(names)), file.name)
            self.assertIn("row-0", names)

    def test_only_the_segments_at_the_vertex_meet_the_pocket(self):
        """So a check that passes over what it cannot compare finds nothing."""
        draw = script()
        coil, pocket = draw.coil(), draw.rounded(8800, 24600, 21800, 36400, 2000)
        at = len(coil) - 3
        for part in (coil[:at], coil[at + 1 :]):
            self.assertEqual(vonjekona.mutual(part, pocket, draw.EPSILON).rows, [])
        self.assertFalse(math.isnan(coil[at][0]))


if __name__ == "__main__":
    unittest.main()
