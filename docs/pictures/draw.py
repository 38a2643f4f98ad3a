#!/usr/bin/env python3
"""Draws the pictures of the documents anew: draw.py, or draw.py FOLDER to put them elsewhere.

`accident.svg` has a card's antenna coil and the pocket that is milled for its chip, in micrometres. On the left a number of
the coil is NaN, and the listing refuses it; on the right is the coil with the right number, which runs through the pocket.
`classes.svg` has two paths that meet in each of the five ways.

It needs the shared library of the Python bindings: bindings/python/make.
"""
import pathlib
import sys

HERE = pathlib.Path(__file__).resolve().parent
sys.path.insert(0, str(HERE.parents[1] / "bindings" / "python"))

import vonjekona
from vonjekona import picture

EPSILON = 1 / 1024
# The bulge of a quarter circle on the grid, as the layouts have it.
QUARTER = 27146 / 65536
CARD, CARD_RADIUS = (85600, 53980), 3180


def rounded(left, bottom, right, top, radius):
    """A closed rectangle with quarter circles for corners, counterclockwise."""
    return vonjekona.Path([
        (left + radius, bottom, 0), (right - radius, bottom, QUARTER), (right, bottom + radius, 0),
        (right, top - radius, QUARTER), (right - radius, top, 0), (left + radius, top, QUARTER), (left, top - radius, 0),
        (left, bottom + radius, QUARTER)], closed=True)


def coil(turns=6, edge=3000, pitch=900, radius=2000, inner=9600):
    """The vertices of a spiral, counterclockwise and inward. The last turn's run down on the left lies at x = inner."""
    vertices = [(edge, edge, 0)]
    for turn in range(turns):
        near, right, top = edge + turn * pitch, CARD[0] - edge - turn * pitch, CARD[1] - edge - turn * pitch
        left = inner if turn == turns - 1 else near
        vertices += [(right - radius, near, QUARTER), (right, near + radius, 0), (right, top - radius, QUARTER),
                     (right - radius, top, 0), (left + radius, top, QUARTER), (left, top - radius, 0),
                     (left, near + pitch + radius, QUARTER), (left + radius, near + pitch, 0)]
    return vertices + [(40000, edge + turns * pitch, 0)]


def listed(first, second):
    """The rows of a listing, and its refusal, one of them empty."""
    try:
        return vonjekona.mutual(first, second, EPSILON).rows, None
    except vonjekona.Refusal as refusal:
        return [], refusal


def accident():
    card = rounded(0, 0, *CARD, CARD_RADIUS)
    pocket = rounded(8800, 24600, 21800, 36400, 2000)
    right = coil()
    # The end of the run through the pocket, before the last corner.
    at = len(right) - 3
    stored = list(right)
    stored[at] = (float("nan"),) + right[at][1:]
    panels = []
    for title, vertices, prefix in (("As it was stored: one number is NaN", stored, "stored-"),
                                    ("The right number: the pocket cuts the coil", right, "")):
        path = vonjekona.Path(vertices)
        rows, refusal = listed(path, pocket)
        note = ['This is not "no crossing": correct the number first.'] if refusal else []
        panels.append(picture.Panel(path, pocket, rows, refusal, title=title, names=("coil", "pocket"), outline=card,
                                    notes=note, prefix=prefix))
    return picture.sheet(panels)


def classes():
    first = vonjekona.Path([(0, 0, 0), (20, 0, 1), (40, 0, 0), (70, 0, -1), (90, 0, 1), (110, 0, 0), (120, 0, 0)])
    second = vonjekona.Path([(10, 8, 0), (10, -10, 0), (50, -10, 0), (50, 0, 0), (62, 0, 0), (62, 6, 0), (94, 6, 0), (94, -16, 0),
                             (100, -10, 1), (100, 10, 0)])
    rows, refusal = listed(first, second)
    return picture.draw(first, second, rows=rows, refusal=refusal, title="The five ways to meet")


PICTURES = {"accident.svg": accident, "classes.svg": classes}


def main(words):
    folder = pathlib.Path(words[0]) if words else HERE
    for name, made in PICTURES.items():
        (folder / name).write_text(made(), encoding="utf-8")


if __name__ == "__main__":
    main(sys.argv[1:])
