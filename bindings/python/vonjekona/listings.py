"""Listings of whole paths, full and boxed.

A listing lends its own memory for rows. If there are more rows than fit, refusal 8, it lends more and asks again; all other
refusals are raised. With `rows` there is room for so many rows and no more: then 8 is raised too.
"""
from . import library, refusals
from .answers import Box, Boxed, Boxes, Listing, rows_of
from .paths import path_of
from .refusals import Refusal, answered

# Room for so many rows is lent first, and so many times as much each time that they do not fit.
ROOM, GROWTH = 64, 4


def mutual(first, second, epsilon, *, rows=None):
    """Every segment of the first path with every segment of the second."""
    return _listing("mutual", (path_of(first), path_of(second)), epsilon, rows, False)


def self_(path, epsilon, *, rows=None):
    """The segments of one path with each other. Neighbours make a row only if they meet beyond the vertices that they share."""
    return _listing("self", (path_of(path),), epsilon, rows, False)


def mutual_large(first, second, epsilon, *, rows=None):
    """mutual for bulges up to 16."""
    return _listing("mutual_large", (path_of(first), path_of(second)), epsilon, rows, True)


def self_large(path, epsilon, *, rows=None):
    """self_ for bulges up to 16."""
    return _listing("self_large", (path_of(path),), epsilon, rows, True)


def mutual_boxed(first, second, epsilon, *, rows=None):
    """The pairs of mutual whose boxes meet."""
    return _boxed("mutual_boxed", (path_of(first), path_of(second)), epsilon, rows, False)


def self_boxed(path, epsilon, *, rows=None):
    """The pairs of self_ whose boxes meet."""
    return _boxed("self_boxed", (path_of(path),), epsilon, rows, False)


def mutual_boxed_large(first, second, epsilon, *, rows=None):
    """mutual_boxed for bulges up to 16. The boxes are those of the cut paths."""
    return _boxed("mutual_boxed_large", (path_of(first), path_of(second)), epsilon, rows, True)


def self_boxed_large(path, epsilon, *, rows=None):
    """self_boxed for bulges up to 16. The boxes are those of the cut path."""
    return _boxed("self_boxed_large", (path_of(path),), epsilon, rows, True)


def lent_of(paths):
    """What a call takes of its paths, and the words for their owners."""
    return sum((path.lent for path in paths), ()), refusals.TWO_PATHS if len(paths) == 2 else refusals.ONE_PATH


def memory(rows, large):
    """Memory for so many rows: indices, their room, points, their room."""
    if rows < 0:
        raise ValueError(f"there cannot be room for {rows} rows")
    width = 5 if large else 3
    return library.words(width * rows), width * rows, library.floats(4 * rows), 4 * rows


def grown(ask, rows):
    """The answer of a listing that is asked again with more room, as long as it is refused with 8."""
    if rows is not None:
        return ask(rows)
    room = ROOM
    while True:
        try:
            return ask(room)
        except Refusal as refusal:
            if refusal.number != 8:
                raise
        room *= GROWTH


def _listing(name, paths, epsilon, rows, large):
    lent, owners = lent_of(paths)

    def ask(room):
        out, counts = memory(room, large), library.words(2)
        answered(library.call(name)(*lent, epsilon, *out, counts, 2), owners, large=large)
        return Listing(rows_of(out[0], out[2], counts[0], large), counts[1])

    return grown(ask, rows)


def _boxed(name, paths, epsilon, rows, large):
    lent, owners = lent_of(paths)
    segments = [_parts(path, large) for path in paths]
    needed = sum(_boxes_needed(count) for count in segments)

    def ask(room):
        boxes, out, counts = library.floats(needed), memory(room, large), library.words(2)
        answered(library.call(name)(*lent, epsilon, boxes, needed, *out, counts, 2), owners, large=large)
        return Boxed(rows_of(out[0], out[2], counts[0], large), counts[1], _boxes_of(boxes, segments))

    return grown(ask, rows)


def _parts(path, large):
    """How many segments the path has, with large arcs those of the cut path."""
    count = path.segments
    if large:
        count += sum(1 for at in range(path.segments) if abs(path[at].bulge) > 1)
    return count


def _boxes_needed(segments):
    """VJ_BOXES_NEEDED of the header: how many numbers the index of boxes has."""
    return 4 * (segments + (segments + 15) // 16)


def _boxes_of(numbers, segments):
    at, paths = 0, []
    for count in segments:
        boxes = [Box(*numbers[at + 4 * k : at + 4 * k + 4]) for k in range(_boxes_needed(count) // 4)]
        paths.append(Boxes(tuple(boxes[:count]), tuple(boxes[count:])))
        at += 4 * len(boxes)
    return tuple(paths)
