#!/usr/bin/env python3
"""Holds our exports to another program: ezdxf must read them as what they were.

    compare dxf-bodies FOLDER COUNT SEED && ezdxf_reads.py FOLDER

The first writes drawn paths as our calls export them, NAME.body, and the bits of their numbers beside each, NAME.bits. This
script wraps the bodies into drawings, reads these with ezdxf, and compares the flag and each x, y and bulge bit for bit. It
needs ezdxf (python3-ezdxf in Debian). Where that is not installed it says so in one sentence, and compares nothing.
"""
import io
import pathlib
import struct
import sys

# So many polylines a drawing.
TOGETHER = 128

HEAD = "0\nSECTION\n2\nHEADER\n9\n$ACADVER\n1\nAC1015\n0\nENDSEC\n0\nSECTION\n2\nENTITIES\n"
TAIL = "0\nENDSEC\n0\nEOF\n"


def entity(body, handle):
    return f"0\nLWPOLYLINE\n5\n{handle:X}\n100\nAcDbEntity\n8\n0\n100\nAcDbPolyline\n{body}"


def bits(number):
    return struct.pack(">d", number).hex()


def told(polyline):
    """A polyline of ezdxf, in the words of a NAME.bits."""
    lines = [f"closed {int(polyline.closed)}"]
    for vertex in polyline.get_points("xyb"):
        lines.append(" ".join(bits(number) for number in vertex))
    return lines


def main(folder):
    try:
        import ezdxf
    except ImportError:
        print("ezdxf is not installed here: NOTHING WAS READ BY IT")
        return 0
    files = sorted(pathlib.Path(folder).glob("*.body"))
    if not files:
        print(f"there are no bodies in {folder}")
        return 1
    vertices = differences = drawings = 0
    for at in range(0, len(files), TOGETHER):
        together = files[at : at + TOGETHER]
        text = "".join(entity(file.read_text("ascii"), 256 + place) for place, file in enumerate(together))
        drawing = ezdxf.read(io.StringIO(HEAD + text + TAIL))
        drawings += 1
        found = list(drawing.modelspace().query("LWPOLYLINE"))
        errors = drawing.audit().errors
        if len(found) != len(together) or errors:
            print(f"a drawing of {len(together)} polylines is read as {len(found)}, with {len(errors)} errors")
            differences += 1
            continue
        for file, polyline in zip(together, found):
            expected = file.with_suffix(".bits").read_text("ascii").splitlines()
            vertices += len(expected) - 1
            if told(polyline) != expected:
                print(f"{file} is read otherwise")
                differences += 1
    print(f"ezdxf {ezdxf.__version__} read {len(files)} polylines of {vertices} vertices in {drawings} drawings, "
          f"{differences} differences")
    return 1 if differences else 0


if __name__ == "__main__":
    if len(sys.argv) != 2:
        print("usage: ezdxf_reads.py FOLDER", file=sys.stderr)
        sys.exit(2)
    sys.exit(main(sys.argv[1]))
