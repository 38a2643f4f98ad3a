"""The tests. What a machine lacks is said once, before they run; the tests that need it are then left out."""
import importlib.util
import pathlib
import shutil
import sys

PROGRAMS = pathlib.Path(__file__).resolve().parents[3] / "target" / "bin"

for there, what in (
        (shutil.which("rsvg-convert"), "the rendering of pictures: rsvg-convert is not installed (Debian: librsvg2-bin)"),
        (importlib.util.find_spec("numpy"), "arrays of numpy: it is not installed"),
        (importlib.util.find_spec("ezdxf"), "drawings read by ezdxf: it is not installed"),
        (all((PROGRAMS / name).exists() for name in ("crossings", "pack", "unpack")),
         "the comparison with the programs: crossings, pack and unpack are not all in target/bin"),
        (shutil.which("cc"), "the linking of the shared library: there is no cc")):
    if not there:
        print(f"LEFT OUT: {what}", file=sys.stderr)
