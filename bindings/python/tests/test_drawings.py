"""Drawings: the stored ones, which other programs wrote, and the way there and back."""
import subprocess
import sys
import unittest

import vonjekona
from vonjekona import Path, inputs

from .common import DRAWINGS, EPSILON, REPOSITORY, bits, draws


def told(body, reads=vonjekona.dxf_import):
    """What an import answers, in the words of a NAME.expected."""
    try:
        path = reads(body)
    except vonjekona.Refusal as refusal:
        return f"refused {refusal.number} at line {refusal.line}\n"
    lines = [f"vertices {len(path)} closed {int(path.closed)}"]
    lines += [" ".join(bits(number) for number in vertex[:3]) for vertex in path]
    return "".join(line + "\n" for line in lines)


class Stored(unittest.TestCase):
    def test_bodies(self):
        files = sorted(DRAWINGS.glob("*.body"))
        self.assertGreater(len(files), 15)
        refusals = 0
        for file in files:
            with self.subTest(file.name):
                expected = file.with_suffix(".expected").read_text()
                refusals += expected.startswith("refused")
                self.assertEqual(told(file.read_bytes()), expected)
                self.assertEqual(told(file.read_bytes(), vonjekona.dxf_import_large), expected)
        self.assertGreater(refusals, 3)

    def test_bodies_are_taken_out_as_the_tool_does(self):
        for name in ("ezdxf", "librecad"):
            file = DRAWINGS / f"{name}.dxf"
            found = inputs.bodies(file.name, file.read_bytes())
            stored = sorted(DRAWINGS.glob(f"{name}_[0-9].body"))
            self.assertEqual(found, [one.read_bytes() for one in stored])
            for at, body in enumerate(found, 1):
                done = subprocess.run([sys.executable, REPOSITORY / "tools" / "dxf_body.py", file, str(at)],
                                      stdout=subprocess.PIPE, stderr=subprocess.DEVNULL, check=True)
                self.assertEqual(done.stdout, body)


class ThereAndBack(unittest.TestCase):
    def test_what_was_exported_comes_back(self):
        rng = draws(10)
        for turn in range(60):
            large = turn % 2
            # Of large arcs the cut points must have room too.
            far, bend = (10**10, 16 * 10**6) if large else (1048576 * 10**6, 10**6)
            vertices = [(rng.randint(-far, far) / 10**6, rng.randint(-far, far) / 10**6, rng.randint(-bend, bend) / 10**6)
                        for _ in range(turn)]
            path = Path([tuple(number + 0.0 for number in vertex) for vertex in vertices], closed=turn % 3 == 0)
            if large:
                self.assertEqual(vonjekona.dxf_import_large(vonjekona.dxf_export_large(path)), path)
            else:
                body = vonjekona.dxf_export(path)
                self.assertEqual(vonjekona.dxf_import(body), path)
                self.assertEqual(vonjekona.dxf_import(body.decode()), path)

    def test_the_longest_text_fits(self):
        # As many digits as a number can have, in every vertex.
        for bulge, export, reads, most in ((-0.987654, vonjekona.dxf_export, vonjekona.dxf_import, 51),
                                           (-15.987654, vonjekona.dxf_export_large, vonjekona.dxf_import_large, 52)):
            path = Path([(-1048500.123456, -1048500.125 - k % 2, bulge) for k in range(4096)])
            body = export(path)
            self.assertEqual(reads(body), path)
            self.assertEqual(len(body), len("90\n4096\n70\n0\n") + most * 4096)

    def test_traces_are_not_written(self):
        path = Path([(0, 0, 0, 3), (4, 0, 0, 3)])
        self.assertEqual(vonjekona.dxf_import(vonjekona.dxf_export(path)), Path([(0, 0, 0), (4, 0, 0)]))

    def test_text(self):
        self.assertEqual(vonjekona.dxf_export(Path([(1, -2.5, 0.25), (0, 0, 0)], closed=True)),
                         b"90\n2\n70\n1\n10\n1.000000\n20\n-2.500000\n42\n0.250000\n10\n0.000000\n20\n0.000000\n42\n0.000000\n")


class Damaged(unittest.TestCase):
    def test_damaged_bodies_are_read_or_refused(self):
        rng = draws(11)
        bodies = [file.read_bytes() for file in sorted(DRAWINGS.glob("*.body"))]
        numbers = set()
        for _ in range(2000):
            body = bytearray(rng.choice(bodies))
            for _ in range(rng.choice((1, 1, 3))):
                at = rng.randrange(len(body))
                way = rng.randrange(3)
                if way == 0:
                    body[at] = rng.choice(b"0123456789.-\n \r\xff")
                elif way == 1:
                    del body[at : at + rng.choice((1, 5, 50))]
                else:
                    body = body[: at + 1]
            try:
                path = vonjekona.dxf_import(body)
            except vonjekona.Refusal as refusal:
                numbers.add(refusal.number)
                self.assertTrue(refusal.words)
            else:
                self.assertEqual(vonjekona.dxf_import(vonjekona.dxf_export(path)), path)
        self.assertLessEqual({20, 21, 22}, numbers)

    def test_no_drawing(self):
        for data in (b"", b"hello\nworld\n", b"\0\0\0", b"AutoCAD Binary DXF\r\n\x1a\0"):
            try:
                self.assertEqual(inputs.bodies("file", data), [])
            except inputs.Wrong as why:
                self.assertIn("file", str(why))

    def test_other_entities_are_passed_over(self):
        body = b"90\n1\n70\n0\n10\n1.0\n20\n2.0\n"
        line = b"  0\r\nLWPOLYLINE\r\n" + body.replace(b"\n", b"\r\n")
        text = (b"0\nSECTION\n2\nENTITIES\n0\nPOLYLINE\n70\n1\n0\nVERTEX\n10\n5.0\n0\nSEQEND\n" + line
                + b"0\nMYLWPOLYLINES\n10\n7.0\n" + line + b"0\nENDSEC\n0\nEOF\n")
        found = inputs.bodies("file", b"\xef\xbb\xbf" + text)
        self.assertEqual(found, [b"  0\nLWPOLYLINE\n" + body] * 2)
        self.assertEqual([tuple(v) for v in vonjekona.dxf_import(found[0])], [(1, 2, 0, 0)])

    def test_listed(self):
        path = vonjekona.dxf_import((DRAWINGS / "ezdxf_4.body").read_bytes())
        self.assertEqual(vonjekona.self_(path, EPSILON).rows, [])


if __name__ == "__main__":
    unittest.main()
