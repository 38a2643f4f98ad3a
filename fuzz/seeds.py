#!/usr/bin/env python3
"""Writes first inputs for each harness and program: usage: seeds.py ROOT OUT

They are the stored layouts (ROOT/layouts), packed files and bodies of drawings, in the form that take.h has in words, and some
drawn ones: lattices with many rows, large arcs, a NaN.
"""
import math
import pathlib
import struct
import sys

MOST_VERTICES = 15


def small(value, role):
    scale = {"bulge": 64, "large": 4}.get(role, 1)
    at = value * scale + 64
    return bytes([int(at)]) if math.isfinite(at) and at == int(at) and 0 <= at < 128 else None


def number(value, role="coordinate"):
    if role == "trace" and value == 0 or role == "epsilon" and value == 1 / 1024:
        return b"\0"
    short = None if role in ("trace", "epsilon") else small(value, role)
    if short is not None and not (value == 0 and math.copysign(1, value) < 0):
        return short
    if math.isfinite(value) and value == int(value) and abs(value) < 1 << 15:
        return b"\x80" + struct.pack("<h", int(value))
    if math.isfinite(value) and value * 65536 == int(value * 65536) and abs(value) < 1 << 15:
        return b"\xa0" + struct.pack("<i", int(value * 65536))
    return b"\xb0" + struct.pack("<d", value)


def path(vertices, large=False, times=0, by=(0, 0)):
    vertices = vertices[:MOST_VERTICES]
    out = bytes([len(vertices) | (128 if times else 0)])
    for x, y, bulge in vertices:
        out += number(x) + number(y) + number(bulge, "large" if large else "bulge") + number(0, "trace")
    if times:
        out += bytes([times]) + number(by[0]) + number(by[1])
    return out


ROWS = bytes([0, 200, 200])  # at the front; as much room as there is
NO_ROW = bytes([7, 2, 200])
NO_COUNTS = bytes([8 | 1 << 4, 200, 200])
EPSILON = number(1 / 1024, "epsilon")


def layouts(root):
    for name in sorted((root / "layouts").glob("*.txt")):
        try:
            lines = [[int(n) for n in line.split(" ")] for line in name.read_text("ascii").splitlines()]
            first = lines[0][0]
            vertices = [(x, y, b / 65536) for x, y, b in lines[1:]]
        except (ValueError, IndexError, UnicodeDecodeError):
            continue
        yield name.stem, path(vertices[:first]), path(vertices[first:]), vertices


def lattice(lines):
    up = path([(0, 0, 0), (0, 62, 0)], times=lines - 1, by=(1, 0))
    across = path([(-1, 0.5, 0), (62, 0.5, 0)], times=lines - 1, by=(0, 1))
    return up, across


def drawn():
    yield ("lattice_46", *lattice(46), 0)
    yield ("lattice_50", *lattice(50), 0)
    loop = path([(0, 0, 3), (4, 0, 0), (9, 1, -16), (9, 2, 0)], large=True)
    yield ("loops", loop, path([(-5, 3, 0), (20, 3, 1.5), (2, -9, 0)], large=True), 1)
    yield ("loops_closed", loop, loop, 7)
    yield ("nan", path([(0, 0, 0), (8, 0, 0), (math.nan, 4, 0)]), path([(4, -4, 0), (4, 4, 0)]), 0)
    yield ("too_long", path([(0, 0, 0), (1, 1, 0)], times=1, by=(1, 0)).replace(b"\x82", b"\xf2", 1), path([]), 0)
    yield ("arcs", path([(0, 0, 0.5), (4, 0, -0.25), (8, 0, 1)]), path([(0, 2, 0.5), (9, -1, 1), (2, 2, 0)]), 6)


def main(root, out):
    root, out = pathlib.Path(root), pathlib.Path(out)

    def put(harness, name, data):
        folder = out / harness
        folder.mkdir(parents=True, exist_ok=True)
        (folder / name).write_bytes(data)

    def listing(name, first, second, flags):
        head = bytes([flags]) + EPSILON
        two, one = b"\1" + head + first + second, b"\0" + head + first
        for ways, data in (("two", two), ("one", one)):
            put("listing", f"{name}_{ways}", data + ROWS)
            put("page", f"{name}_{ways}", data + bytes([3, 100]) + ROWS)
            put("boxed", f"{name}_{ways}", data + ROWS + bytes([128]))
        put("counted", name, b"\0" + head + first + second + b"\0" + ROWS + b"\0")
        put("export", f"{name}_exact", bytes([flags & 3]) + first + bytes([200]))
        put("export", f"{name}_rounded", bytes([flags & 3 | 8]) + first + bytes([200]))

    for name, first, second, vertices in layouts(root):
        listing(name, first, second, 0)
        listing(f"{name}_closed", first, second, 6)
        if len(vertices) >= 4:
            for which in (3, 4):
                role = "large" if which == 4 else "bulge"
                numbers = b"".join(number(x) + number(y) + number(b, role) for x, y, b in vertices[:4])
                put("pair", f"{name}_{which}", bytes([which, 0]) + EPSILON + numbers)
            for which in (0, 1, 2, 5):
                numbers = b"".join(number(abs(n)) for v in vertices[:4] for n in v)
                put("pair", f"{name}_{which}", bytes([which, 0]) + EPSILON + numbers)
    for name, first, second, flags in drawn():
        listing(name, first, second, flags)
        data = b"\1" + bytes([flags]) + EPSILON + first + second
        for rooms, rows in (("no_row", NO_ROW), ("no_counts", NO_COUNTS)):
            put("listing", f"{name}_{rooms}", data + rows)
            put("page", f"{name}_{rooms}", data + bytes([3, 100]) + rows)
            put("boxed", f"{name}_{rooms}", data + rows + bytes([128]))
            put("counted", f"{name}_{rooms}", b"\0" + data[1:] + b"\0" + rows + b"\0")
        put("boxed", f"{name}_no_boxes", data + ROWS + bytes([1]))
    put("counted", "join", bytes([1, 1, 0, 5, 1, 0, 6, 0]))
    put("counted", "join_full", bytes([1, 1, 0, 64, 1, 0, 66, 0]))
    for body in sorted((root / "drawings").glob("*.body")):
        for flags in (0, 1):
            put("import", f"{body.stem}_{flags}", bytes([flags]) + body.read_bytes())
    for text in sorted((root / "layouts").glob("*.txt")):
        put("pack", text.stem, text.read_bytes())
    for packed in sorted((root / "layouts" / "packed").glob("*.packed")):
        put("unpack", packed.stem, packed.read_bytes())
        put("crossings", packed.stem, b"packed\n" + packed.read_bytes())


if __name__ == "__main__":
    main(*sys.argv[1:])
