"""What several tests use."""
import os
import pathlib
import random
import struct
import subprocess

import vonjekona
from vonjekona import Path

REPOSITORY = pathlib.Path(__file__).resolve().parents[3]
BINDINGS = REPOSITORY / "bindings" / "python"
LAYOUTS = REPOSITORY / "layouts"
PACKED = LAYOUTS / "packed"
DRAWINGS = REPOSITORY / "drawings"
EPSILON = 1 / 1024


def bits(number):
    return struct.pack(">d", number).hex()


def program(name):
    """One of the programs, if it has been proved and compiled here."""
    file = REPOSITORY / "target" / "bin" / name
    return file if os.access(file, os.X_OK) else None


def run(file, data):
    """What a program writes to standard output and to standard error."""
    done = subprocess.run([str(file)], input=data, stdout=subprocess.PIPE, stderr=subprocess.PIPE, check=True)
    return done.stdout, done.stderr


def answer(listing):
    """A listing in the words of the program `crossings`."""
    lines = [f"pairs {listing.pairs} rows {len(listing.rows)}"]
    for row in listing.rows:
        numbers = " ".join(bits(number) for point in row.points for number in point)
        lines.append(f"{row.first} {row.second} {row.class_.word} {numbers}")
    return "\n".join(lines) + "\n"


def refused(call, *arguments, **named):
    """The refusal that a call raises."""
    try:
        call(*arguments, **named)
    except vonjekona.Refusal as refusal:
        return refusal
    raise AssertionError("nothing was refused")


def drawn_path(rng, vertices, size=40, arcs=True, large=False, closed=False, traces=1):
    """A path at random on a small grid, so that many of its segments meet others."""
    bulges = (0, 0, 0.25, -0.5, 1, -1) if arcs else (0,)
    if large:
        bulges += (1.5, -2, 3)
    made = []
    while len(made) < vertices:
        point = rng.randint(0, size), rng.randint(0, size)
        # An arc's ends may not be one point.
        if not made or made[-1][:2] != point and made[0][:2] != point:
            made.append((*point, rng.choice(bulges), rng.randrange(traces)))
    return Path(made, closed=closed)


def draws(seed):
    return random.Random(seed)
