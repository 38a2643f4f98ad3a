"""What the calls answer."""
import enum
from typing import NamedTuple, Tuple


class Class(enum.IntEnum):
    """How a pair meets."""

    NONE = 0
    TANGENT = 1
    ONE = 2
    TWO = 3
    LINES = 4
    ARCS = 5

    @property
    def word(self):
        """The class in a word, as the program `crossings` prints it."""
        return self.name.lower()


CLASSES = tuple(Class)
# How many points each class has.
POINTS = (0, 1, 1, 2, 2, 2)

Point = Tuple[float, float]


class Answer(NamedTuple):
    """How two segments meet: the class, and its points, (x, y) each."""

    class_: Class
    points: Tuple[Point, ...]


class KernelAnswer(NamedTuple):
    """A kernel's case, and its values: parameters, or of two circles points."""

    case: int
    values: tuple


class Finding(enum.IntEnum):
    """What was found of a computed point for a segment; 1 to 4 are the first rule that said yes."""

    OUTSIDE = 0
    NEAR_CENTRE = 1
    INSIDE = 2
    NEAR_START = 3
    NEAR_END = 4
    END_POINT = 5
    NOT_TESTED = 6


class Findings(NamedTuple):
    """A pair's answer; then of the first and of the second computed point what was found for v and for u."""

    class_: Class
    points: Tuple[Point, ...]
    first: Tuple[Finding, Finding]
    second: Tuple[Finding, Finding]


class LargeAnswer(NamedTuple):
    """How a part of v and a part of u meet. A half is 0 if the segment is not cut, else 1 or 2."""

    v_half: int
    u_half: int
    class_: Class
    points: Tuple[Point, ...]


class Row(NamedTuple):
    """A pair that meets: the index of the segment in the first path and in the second, the class and its points."""

    first: int
    second: int
    class_: Class
    points: Tuple[Point, ...]


class LargeRow(NamedTuple):
    """A row of a listing with large arcs. A half is 0 if the segment is not cut, else 1 or 2."""

    first: int
    first_half: int
    second: int
    second_half: int
    class_: Class
    points: Tuple[Point, ...]


class Listing(NamedTuple):
    """The rows, and how many pairs were looked at."""

    rows: list
    pairs: int


class Box(NamedTuple):
    least_x: float
    least_y: float
    greatest_x: float
    greatest_y: float


class Boxes(NamedTuple):
    """The index of boxes of one path: a box for each segment, and one for each group of 16 segments."""

    segments: Tuple[Box, ...]
    groups: Tuple[Box, ...]


class Boxed(NamedTuple):
    """A boxed listing: the rows, how many pairs were looked at, and the boxes of each path."""

    rows: list
    pairs: int
    boxes: Tuple[Boxes, ...]


class Page(NamedTuple):
    """A page: its rows, how many pairs it passed, the position that comes next, and how many pairs there are in all."""

    rows: list
    passed: int
    position: int
    pairs: int


def points_of(number, floats):
    """The points of a class, of its four floats."""
    return ((), ((floats[0], floats[1]),), ((floats[0], floats[1]), (floats[2], floats[3])))[POINTS[number]]


def rows_of(indices, points, count, large):
    """The rows that a listing wrote."""
    width = 5 if large else 3
    words, floats = indices[: width * count], points[: 4 * count]
    make = LargeRow if large else Row
    rows = []
    for at in range(count):
        row = words[width * at : width * (at + 1)]
        rows.append(make(*row[:-1], CLASSES[row[-1]], points_of(row[-1], floats[4 * at : 4 * at + 4])))
    return rows
