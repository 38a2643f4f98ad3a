"""The command: what it prints, and its exit statuses."""
import contextlib
import io
import json
import os
import pathlib
import subprocess
import sys
import tempfile
import unittest
import xml.etree.ElementTree
from unittest import mock

import vonjekona
from vonjekona import command, inputs, read_text
from vonjekona.progress import Progress

from .common import BINDINGS, DRAWINGS, EPSILON, LAYOUTS, PACKED, REPOSITORY, answer, draws

try:
    import ezdxf
except ImportError:
    ezdxf = None


def listed(*words):
    """The command's status, standard output and standard error."""
    out, said = io.StringIO(), io.StringIO()
    with contextlib.redirect_stdout(out), contextlib.redirect_stderr(said):
        try:
            status = command.main(["list", *map(str, words)])
        except SystemExit as end:
            status = end.code
    return status, out.getvalue(), said.getvalue()


def listing_of(value):
    """A listing of what --json printed."""
    rows = [vonjekona.Row(row["first"], row["second"], vonjekona.Class[row["class"].upper()], tuple(map(tuple, row["points"])))
            for row in value["rows"]]
    return vonjekona.Listing(rows, value["pairs"])


class Layouts(unittest.TestCase):
    def test_rows_are_the_programs(self):
        """Every stored layout, packed and as a text, by --json: its rows are those that the program prints."""
        counted = 0
        for file in sorted(LAYOUTS.glob("*.out")):
            expected = file.read_text()
            for given in (PACKED / file.with_suffix(".packed").name, file.with_suffix(".txt")):
                status, out, said = listed(given, "--json")
                value = json.loads(out)
                if expected == "refused 8\n":
                    # The program has room for 512 rows, the command for all.
                    self.assertEqual(status, 1)
                    self.assertGreater(len(value["rows"]), 512)
                elif expected.startswith("refused"):
                    self.assertEqual((status, f"refused {value['refused']['number']}\n"), (2, expected))
                    self.assertIn(expected.strip(), said)
                else:
                    counted += 1
                    self.assertEqual(answer(listing_of(value)), expected)
                    self.assertEqual((status, said), (1 if value["rows"] else 0, ""))
                    self.assertIsNone(value["refused"])
        self.assertGreater(counted, 40)

    def test_the_table(self):
        status, out, _ = listed(LAYOUTS / "coil_and_pocket.txt")
        lines = out.splitlines()
        self.assertEqual(status, 1)
        self.assertIn("41 vertices, open, read as text", lines[0])
        self.assertEqual(lines[2].split(), ["row", "first", "second", "class", "points"])
        self.assertEqual(lines[3].split(None, 4), ["0", "0", "6", "one", "(-20, -60)"])
        self.assertEqual(lines[14].split(None, 4), ["11", "32", "4", "lines", "(20, -20) to (-10, -20)"])
        self.assertEqual(lines[-1], "320 pairs, 14 rows")
        status, out, _ = listed(LAYOUTS / "missed_two_arcs.txt")
        self.assertEqual((status, out.splitlines()[-1]), (0, "1 pairs, 0 rows: no crossing"))

    def test_one_path_of_a_layout(self):
        file = LAYOUTS / "coil_and_pocket.txt"
        layout = read_text(file.read_bytes())
        status, out, _ = listed(f"{file}:1", "--json")
        value = json.loads(out)
        self.assertEqual((status, value["pairs"], value["rows"]), (0, 40 * 39 // 2, []))
        _, out, _ = listed(f"{file}:2", f"{file}:1", "--json")
        self.assertEqual(listing_of(json.loads(out)), vonjekona.mutual(layout.second, layout.first, EPSILON))
        self.assertEqual(listed(f"{file}:3")[0], 3)

    def test_closed_boxed_epsilon(self):
        file = LAYOUTS / "two_coils.txt"
        first, second = read_text(file.read_bytes())
        _, out, _ = listed(file, "--json", "--closed", "--epsilon", "1/2")
        paths = vonjekona.Path(first, closed=True), vonjekona.Path(second, closed=True)
        self.assertEqual(listing_of(json.loads(out)), vonjekona.mutual(*paths, 0.5))
        _, out, _ = listed(file, "--json", "--boxed")
        boxed = vonjekona.mutual_boxed(first, second, EPSILON)
        self.assertEqual(listing_of(json.loads(out)), (boxed.rows, boxed.pairs))
        self.assertLess(boxed.pairs, vonjekona.mutual(first, second, EPSILON).pairs)
        status, out, said = listed(file, "--epsilon", "1")
        self.assertEqual((status, out), (2, ""))
        self.assertIn("refused 4: epsilon is", said)
        self.assertEqual(json.loads(listed(file, "--epsilon", "nan", "--json")[1])["epsilon"], "nan")

    def test_broken_files(self):
        for given, words in ((PACKED / "broken_cut.packed", "refused 18: the packed file breaks its form at byte 3"),
                             (LAYOUTS / "refused_plus.txt", "refused 10: the text breaks the form of a layout, or a limit of it")):
            status, out, said = listed(given)
            self.assertEqual((status, out, said), (2, "", f"{given}: {words}\n"))
            status, out, _ = listed(given, "--json")
            self.assertEqual((status, json.loads(out)["refused"]["words"]), (2, words.split(": ", 1)[1]))


class Drawings(unittest.TestCase):
    def test_bodies(self):
        status, out, _ = listed(DRAWINGS / "ezdxf_4.body", "--json")
        value = json.loads(out)
        self.assertEqual((status, value["pairs"], len(value["paths"])), (0, 10, 1))
        status, out, _ = listed(DRAWINGS / "ezdxf_1.body", DRAWINGS / "ezdxf_3_rounded.body", "--json")
        paths = [vonjekona.dxf_import((DRAWINGS / name).read_bytes()) for name in ("ezdxf_1.body", "ezdxf_3_rounded.body")]
        self.assertEqual(listing_of(json.loads(out)), vonjekona.mutual(*paths, EPSILON))
        self.assertEqual(status, 1)
        status, _, said = listed(DRAWINGS / "ezdxf_3.body")
        self.assertEqual(status, 2)
        self.assertIn("refused 20: line 26", said)
        self.assertIn("--round", said)

    def test_drawings_by_the_import(self):
        drawing = DRAWINGS / "ezdxf.dxf"
        status, out, _ = listed(f"{drawing}:1", f"{drawing}:2", "--json", "--reader", "import")
        value = json.loads(out)
        paths = [vonjekona.dxf_import((DRAWINGS / name).read_bytes()) for name in ("ezdxf_1.body", "ezdxf_2.body")]
        self.assertEqual(listing_of(value), vonjekona.mutual(*paths, EPSILON))
        self.assertEqual([path["reader"] for path in value["paths"]], ["vj_dxf_import"] * 2)
        self.assertEqual(listed(f"{drawing}:1", f"{drawing}:3", "--reader", "import")[0], 2)
        status, _, said = listed(drawing, "--reader", "import")
        self.assertEqual(status, 3)
        self.assertIn("has 7 paths", said)

    def test_without_ezdxf_the_import_reads(self):
        with mock.patch.object(inputs, "_ezdxf", return_value=None):
            self.assertEqual(json.loads(listed(DRAWINGS / "ezdxf.dxf:1", "--json")[1])["paths"][0]["reader"], "vj_dxf_import")
            self.assertEqual(listed(DRAWINGS / "ezdxf.dxf:1", "--reader", "ezdxf")[0], 3)

    @unittest.skipIf(ezdxf is None, "ezdxf is not installed here: LEFT OUT")
    def test_ezdxf(self):
        for name in ("ezdxf", "librecad"):
            drawing = DRAWINGS / f"{name}.dxf"
            for at, body in enumerate(inputs.bodies(drawing.name, drawing.read_bytes()), 1):
                given, = inputs.read(f"{drawing}:{at}")
                self.assertTrue(given.reader.startswith("ezdxf "))
                try:
                    self.assertEqual(given.path, vonjekona.dxf_import(body))
                except vonjekona.Refusal as refusal:
                    self.assertEqual(refusal.number, 20)
        # Quarter circles of 17 digits, which the import refuses.
        self.assertEqual(listed(DRAWINGS / "ezdxf.dxf:3", DRAWINGS / "ezdxf.dxf:1")[0], 1)

    @unittest.skipIf(ezdxf is None, "ezdxf is not installed here: LEFT OUT")
    def test_ezdxf_counts_in_the_order_of_the_file(self):
        drawing = ezdxf.new("R2000")
        drawing.modelspace().add_lwpolyline([(0, 0), (1, 0)])
        drawing.blocks.new("A").add_lwpolyline([(0, 0), (2, 0)])
        drawing.modelspace().add_lwpolyline([(0, 0), (3, 0)])
        with tempfile.TemporaryDirectory() as folder:
            file = pathlib.Path(folder) / "blocks.dxf"
            drawing.saveas(file)
            for reader in ("ezdxf", "import"):
                self.assertEqual([inputs.read(f"{file}:{at}", reader=reader)[0].path[1].x for at in (1, 2, 3)], [2, 1, 3])
            # A number that is none: ezdxf reads it, and the call refuses it.
            data = file.read_bytes()
            file.write_bytes(data.replace(b"\n3.0\n", b"\nnan\n"))
            status, _, said = listed(f"{file}:3")
            self.assertEqual(status, 2)
            self.assertIn("refused 11: x of vertex 1 of the path is NaN", said)
            for damaged in (data[:-300], data[:3000], b""):
                file.write_bytes(damaged)
                self.assertEqual(listed(file)[0], 3)

    def test_large_arcs(self):
        body = vonjekona.dxf_export_large([(4, 0, 2), (5, 0, 0)])
        with tempfile.TemporaryDirectory() as folder:
            loop, line = pathlib.Path(folder) / "loop.body", pathlib.Path(folder) / "line.body"
            loop.write_bytes(body)
            line.write_bytes(vonjekona.dxf_export([(3, -0.375, 0), (6, -0.375, 0)]))
            self.assertEqual(listed(loop, line)[0], 2)
            status, out, _ = listed(loop, line, "--large")
            self.assertEqual(status, 1)
            self.assertIn("0 half 1", out)
            rows = json.loads(listed(loop, line, "--large", "--json", "--boxed")[1])["rows"]
            self.assertEqual([(row["first"], row["first_half"], row["second_half"]) for row in rows], [(0, 1, 0), (0, 2, 0)])


class Wrong(unittest.TestCase):
    def test_what_is_no_answer_has_status_3(self):
        with tempfile.TemporaryDirectory() as folder:
            nothing = pathlib.Path(folder) / "nothing.dxf"
            nothing.write_bytes(b"0\nSECTION\n2\nENTITIES\n0\nENDSEC\n0\nEOF\n")
            for words in ((), (LAYOUTS / "none.txt",), (LAYOUTS,), (REPOSITORY / "README.md",), (nothing, "--reader", "import"),
                          (LAYOUTS / "class_one.txt", LAYOUTS / "class_two.txt"), (LAYOUTS / "class_one.txt", "--epsilon", "x"),
                          (LAYOUTS / "class_one.txt", "--svg", pathlib.Path(folder) / "no" / "such.svg"), ("--nonsense", "x")):
                status, out, said = listed(*words)
                self.assertEqual((status, out), (3, ""), words)
                self.assertTrue(said)

    def test_an_unforeseen_exception_is_no_crossing(self):
        with mock.patch.object(command, "_by_pages", side_effect=ZeroDivisionError("x")):
            self.assertEqual(listed(LAYOUTS / "class_one.txt")[0], 3)
        with mock.patch.object(command, "_by_pages", side_effect=KeyboardInterrupt):
            self.assertEqual(listed(LAYOUTS / "class_one.txt")[0], 3)


class Damaged(unittest.TestCase):
    def test_damaged_files(self):
        """Whatever a file holds, the status is that of an answer, of a refusal, or of a file that cannot be read."""
        rng, statuses = draws(14), set()
        sources = [LAYOUTS / "two_coils.txt", PACKED / "two_coils.packed", DRAWINGS / "ezdxf_2.body", DRAWINGS / "librecad.dxf"]
        with tempfile.TemporaryDirectory() as folder:
            for turn in range(240):
                source = sources[turn % 4]
                data = bytearray(source.read_bytes())
                for _ in range(rng.choice((1, 2, 8))):
                    at = rng.randrange(len(data))
                    new = bytes(rng.choice(b"0123456789-.\n \xff\x80") for _ in range(rng.choice((0, 1))))
                    data[at : at + rng.choice((0, 1, 1, 9))] = new
                file = pathlib.Path(folder) / f"damaged{source.suffix}"
                file.write_bytes(data)
                picture = pathlib.Path(folder) / "damaged.svg"
                words = (f"{file}:1", "--reader", "import") if source.suffix == ".dxf" else (file,)
                status, out, said = listed(*words, "--json", "--svg", picture)
                statuses.add(status)
                self.assertNotRegex(said, r"vonjekona: \w*(Error|Exception)", bytes(data))
                if status == 3:
                    self.assertEqual(out, "")
                    continue
                value = json.loads(out)
                self.assertEqual(status, 2 if value["refused"] else 1 if value["rows"] else 0)
                if picture.exists():
                    xml.etree.ElementTree.parse(picture)
                    picture.unlink()
        self.assertEqual(statuses, {0, 1, 2, 3})


class Process(unittest.TestCase):
    """The command as a user runs it."""

    def run_it(self, *words, data=None, **environment):
        return subprocess.run([sys.executable, "-m", "vonjekona", *map(str, words)], input=data, stdout=subprocess.PIPE,
                              stderr=subprocess.PIPE, env={**os.environ, "PYTHONPATH": str(BINDINGS), **environment})

    def test_statuses(self):
        self.assertEqual(self.run_it("list", LAYOUTS / "class_one.txt").returncode, 1)
        self.assertEqual(self.run_it("list", LAYOUTS / "missed_two_arcs.txt").returncode, 0)
        self.assertEqual(self.run_it("list", LAYOUTS / "refused_short_arc.txt").returncode, 2)
        self.assertEqual(self.run_it().returncode, 3)

    def test_no_library(self):
        done = self.run_it("list", LAYOUTS / "class_one.txt", VONJEKONA_SO="/dev/null")
        self.assertEqual(done.returncode, 3)
        self.assertIn(b"bindings/python/make", done.stderr)

    def test_standard_input(self):
        done = self.run_it("list", "-", "--form", "packed", data=(PACKED / "class_one.packed").read_bytes())
        self.assertEqual(done.returncode, 1)

    def test_a_reader_that_goes_away(self):
        with subprocess.Popen([sys.executable, "-m", "vonjekona", "list", str(LAYOUTS / "rows_512.txt")], stdout=subprocess.PIPE,
                              stderr=subprocess.PIPE, env={**os.environ, "PYTHONPATH": str(BINDINGS)}) as process:
            process.stdout.close()
            self.assertEqual(process.stderr.read(), b"")
            self.assertEqual(process.wait(), 3)


class Terminal(io.StringIO):
    def isatty(self):
        return True


class Bar(unittest.TestCase):
    def test_a_bar_on_a_terminal_alone(self):
        for stream, shown in ((Terminal(), True), (io.StringIO(), False)):
            with mock.patch("vonjekona.progress.PATIENCE", 0), Progress(stream) as progress:
                progress.show(5, 10)
                self.assertEqual("50%  5 of 10 pairs" in stream.getvalue(), shown)
                progress.show(10, 10)
            self.assertEqual(stream.getvalue().endswith("\r\x1b[K"), shown)

    def test_the_command_shows_it(self):
        with mock.patch("vonjekona.progress.PATIENCE", 0), contextlib.redirect_stderr(Terminal()) as said, \
                contextlib.redirect_stdout(io.StringIO()):
            self.assertEqual(command.main(["list", str(LAYOUTS / "full_size.txt")]), 1)
        self.assertIn("65,025 of 65,025 pairs", said.getvalue())
        self.assertTrue(said.getvalue().endswith("\r\x1b[K"))

    def test_a_short_listing_has_none(self):
        stream = Terminal()
        with Progress(stream) as progress:
            progress.show(1, 2)
        self.assertEqual(stream.getvalue(), "")


class Pictures(unittest.TestCase):
    def test_a_picture_is_written(self):
        with tempfile.TemporaryDirectory() as folder:
            out = pathlib.Path(folder) / "out.svg"
            self.assertEqual(listed(LAYOUTS / "coil_and_pocket.txt", "--svg", out)[0], 1)
            drawn = xml.etree.ElementTree.parse(out)
            self.assertEqual(sum(1 for a in drawn.iter("{http://www.w3.org/2000/svg}a") if a.get("class") == "mark"), 14)
            self.assertEqual(listed(LAYOUTS / "refused_short_arc.txt", "--svg", out)[0], 2)
            self.assertIn("refused 5", out.read_text())
            out.unlink()
            status, _, said = listed(PACKED / "broken_cut.packed", "--svg", out)
            self.assertEqual((status, out.exists()), (2, False))
            self.assertIn("no picture is written", said)


if __name__ == "__main__":
    unittest.main()
