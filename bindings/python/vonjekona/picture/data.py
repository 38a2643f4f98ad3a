"""Path data of SVG. It has the path's own numbers: the group that it stands in turns them to the picture's, y upward."""
import math

from ..answers import Class
from ..words import number
from .geometry import LEAST_BULGE, arc_of, height, segments_of


def _point(point):
    return f"{number(float(point[0]))} {number(float(point[1]))}"


def arc_to(end, radius, turn):
    """An arc command. The group's y points upward, so a turn counterclockwise is one of positive angles: sweep flag 1."""
    size = number(float(radius))
    return f"A {size} {size} 0 {int(abs(turn) > math.pi)} {int(turn > 0)} {_point(end)}"


def segment_to(start, end, bulge, flat):
    """The command of a segment. An arc that rises less than `flat` is drawn as a line: renderers cannot tell them apart, and
    lose the end of an arc whose radius is far beyond the picture."""
    if abs(bulge) < LEAST_BULGE or height(start, end, bulge) < flat:
        return f"L {_point(end)}"
    arc = arc_of(start, end, bulge)
    return arc_to(end, arc.radius, arc.turn)


def path_data(path, flat):
    """The commands of a path, broken where a segment cannot be drawn."""
    commands, pen = [], None
    for index, segment in enumerate(segments_of(path)):
        if segment is None:
            continue
        start, end = segment
        if pen != index:
            commands.append(f"M {_point(start)}")
        commands.append(segment_to(start, end, start[2], flat))
        pen = index + 1
    return " ".join(commands)


def overlap_data(row, path, flat):
    """The commands of an overlap: from its one point to the other, of arcs along the first segment."""
    start, end = row.points
    if row.class_ is Class.LINES:
        return f"M {_point(start)} L {_point(end)}"
    one, other = path.segment(row.first)
    if height(one, other, one[2]) < flat:
        return f"M {_point(start)} L {_point(end)}"
    arc = arc_of(one, other, one[2])
    # From a later point to an earlier one it turns the other way.
    turn = (arc.part_of(end) - arc.part_of(start)) * arc.turn
    return f"M {_point(start)} {arc_to(end, arc.radius, turn)}"
