"""The readers of texts and packed files, held to the stored layouts and to the programs."""
import unittest

from vonjekona import Refusal, read_packed, read_text

from .common import LAYOUTS, PACKED, draws, program, run

TEXTS = sorted(LAYOUTS.glob("*.txt"))
FILES = sorted(PACKED.glob("*.packed"))


def outcome(reader, data):
    """A layout, or what the programs say of a refusal."""
    try:
        return reader(data)
    except Refusal as refusal:
        at = "" if refusal.offset is None else f" at {refusal.offset}"
        return f"refused {refusal.number}{at}\n"


def text_of(layout):
    """A layout's text."""
    lines = [f"{len(layout.first)} {len(layout.second)}"]
    for path in layout:
        lines += [f"{int(v.x)} {int(v.y)} {int(v.bulge * 65536)}" for v in path]
    return "".join(line + "\n" for line in lines).encode()


class Stored(unittest.TestCase):
    def test_texts(self):
        broken = 0
        for file in TEXTS:
            with self.subTest(file.name):
                expected = file.with_suffix(".expected")
                got = outcome(read_text, file.read_bytes())
                if expected.exists():
                    broken += 1
                    self.assertEqual(got, expected.read_text())
                else:
                    self.assertEqual(text_of(got), file.read_bytes())
        self.assertGreater(broken, 20)

    def test_packed(self):
        broken = 0
        for file in FILES:
            with self.subTest(file.name):
                expected = file.with_suffix(".expected")
                got = outcome(read_packed, file.read_bytes())
                if expected.exists():
                    broken += 1
                    self.assertEqual(got, expected.read_text())
                else:
                    self.assertEqual(text_of(got), (LAYOUTS / file.name).with_suffix(".txt").read_bytes())
        self.assertGreater(broken, 20)

    def test_paths_are_open_and_have_no_traces(self):
        layout = read_text(b"2 1\n1 2 -32768\n3 4 0\n-5 6 65536\n")
        self.assertEqual([tuple(v) for v in layout.first], [(1, 2, -0.5, 0), (3, 4, 0, 0)])
        self.assertEqual([tuple(v) for v in layout.second], [(-5, 6, 1, 0)])
        self.assertFalse(layout.first.closed or layout.second.closed)


class Programs(unittest.TestCase):
    """The same bytes to our readers and to the programs, stored ones and damaged ones."""

    def damaged(self, files, seed, count):
        rng = draws(seed)
        small = [data for data in (file.read_bytes() for file in files) if 0 < len(data) < 600]
        alphabet = b"0123456789 -\n\r\t+.\x00\x7f\x80\xff"
        for _ in range(count):
            data = bytearray(rng.choice(small))
            for _ in range(rng.choice((1, 1, 2))):
                at = rng.randrange(len(data)) if data else 0
                way = rng.randrange(4)
                if way == 0 and data:
                    data[at] = rng.choice(alphabet) if rng.random() < 0.7 else rng.randrange(256)
                elif way == 1 and data:
                    del data[at : at + rng.choice((1, 1, 3))]
                elif way == 2:
                    data[at:at] = bytes(rng.choice(alphabet) for _ in range(rng.choice((1, 2))))
                else:
                    data = data[:at]
            yield bytes(data)

    def test_pack(self):
        pack = program("pack")
        if pack is None:
            self.skipTest("target/bin/pack is not there: LEFT OUT")
        refused = 0
        for data in [file.read_bytes() for file in TEXTS] + list(self.damaged(TEXTS, 1, 400)):
            moved, said = run(pack, data)
            got = outcome(read_text, data)
            if said:
                refused += 1
                self.assertEqual(got, said.decode(), data)
            else:
                self.assertEqual(got, read_packed(moved), data)
        self.assertGreater(refused, 100)

    def test_unpack(self):
        unpack = program("unpack")
        if unpack is None:
            self.skipTest("target/bin/unpack is not there: LEFT OUT")
        refused = 0
        for data in [file.read_bytes() for file in FILES] + list(self.damaged(FILES, 2, 400)):
            moved, said = run(unpack, data)
            got = outcome(read_packed, data)
            if said:
                refused += 1
                self.assertEqual(got, said.decode(), data)
            else:
                self.assertEqual(text_of(got), moved, data)
        self.assertGreater(refused, 100)


if __name__ == "__main__":
    unittest.main()
