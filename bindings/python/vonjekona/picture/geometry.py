"""Arcs of bulges, for drawing only: nothing here decides whether paths meet."""
import math
from typing import NamedTuple

# Below this magnitude of its bulge a segment is a line, as the header says.
LEAST_BULGE = 1e-8
# What every call refuses has no place in a picture.
MOST_COORDINATE, MOST_BULGE = 1048576, 16


class Arc(NamedTuple):
    """A circle's part: centre, radius, the angle at which it starts, and how far it turns, counterclockwise if above 0."""

    x: float
    y: float
    radius: float
    angle: float
    turn: float

    def at(self, part):
        """The point at a part of the way, 0 the start, 1 the end."""
        angle = self.angle + part * self.turn
        return self.x + self.radius * math.cos(angle), self.y + self.radius * math.sin(angle)

    def part_of(self, point):
        """The part of the way at which a point of the circle lies, 0 to 1; one beyond an end counts as that end."""
        whole, length = 2 * math.pi, abs(self.turn)
        gone = math.atan2(point[1] - self.y, point[0] - self.x) - self.angle
        gone = (gone if self.turn > 0 else -gone) % whole
        if gone > (length + whole) / 2:
            gone = 0.0
        return min(gone / length, 1.0)


def arc_of(start, end, bulge):
    """The arc of a segment. The bulge is the tangent of a quarter of the angle through which it turns."""
    dx, dy = end[0] - start[0], end[1] - start[1]
    away = (1 - bulge * bulge) / (4 * bulge)
    x, y = (start[0] + end[0]) / 2 - away * dy, (start[1] + end[1]) / 2 + away * dx
    radius = _length(dx, dy) * (1 + bulge * bulge) / (4 * abs(bulge))
    return Arc(x, y, radius, math.atan2(start[1] - y, start[0] - x), 4 * math.atan(bulge))


def height(start, end, bulge):
    """How far an arc rises above its chord."""
    return abs(bulge) * _length(end[0] - start[0], end[1] - start[1]) / 2


def _length(dx, dy):
    """math.hypot is another one in other versions of Python, and a stored picture must be drawn again byte for byte."""
    return math.sqrt(dx * dx + dy * dy)


def has_place(vertex):
    """Whether a vertex can be drawn: a number that is NaN, infinite or beyond all limits has no place."""
    return abs(vertex[0]) <= MOST_COORDINATE and abs(vertex[1]) <= MOST_COORDINATE


def is_drawn(start, end):
    """Whether the segment between two vertices can be drawn."""
    return has_place(start) and has_place(end) and abs(start[2]) <= MOST_BULGE


def segments_of(path):
    """The segments of a path, by index: two vertices, or None if the segment cannot be drawn."""
    vertices = list(path)
    for index in range(path.segments):
        start, end = vertices[index], vertices[(index + 1) % len(vertices)]
        yield (start, end) if is_drawn(start, end) else None


def reach_of(path):
    """Points that reach as far as a path does: its vertices, and where its arcs go farthest."""
    points = [vertex[:2] for vertex in path if has_place(vertex)]
    for segment in segments_of(path):
        if segment and abs(segment[0][2]) >= LEAST_BULGE and segment[0][:2] != segment[1][:2]:
            points += _farthest(arc_of(segment[0], segment[1], segment[0][2]))
    return points


def _farthest(arc):
    """The points of an arc due east, north, west and south of its centre."""
    points = []
    for quarter, (east, north) in enumerate(((1, 0), (0, 1), (-1, 0), (0, -1))):
        gone = (quarter * math.pi / 2 - arc.angle) * (1 if arc.turn > 0 else -1) % (2 * math.pi)
        if gone <= abs(arc.turn):
            points.append((arc.x + east * arc.radius, arc.y + north * arc.radius))
    return points


def middle_for(path, index):
    """Where a vertex is shown: at its own place, or, if it has none, in the middle of its neighbours' places."""
    vertices = list(path)
    if has_place(vertices[index]):
        return vertices[index][:2]
    around = [index - 1, index + 1]
    if path.closed:
        around = [at % len(vertices) for at in around]
    places = [vertices[at][:2] for at in around if 0 <= at < len(vertices) and has_place(vertices[at])]
    if not places:
        return None
    return sum(x for x, _ in places) / len(places), sum(y for _, y in places) / len(places)
