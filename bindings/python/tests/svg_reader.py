"""Reads SVG path data as the SVG specification says: arcs from their end points to their centres."""
import math
import re
from typing import NamedTuple


class Line(NamedTuple):
    start: tuple
    end: tuple


class Arc(NamedTuple):
    start: tuple
    end: tuple
    centre: tuple
    radius: float
    turn: float

    @property
    def middle(self):
        angle = math.atan2(self.start[1] - self.centre[1], self.start[0] - self.centre[0]) + self.turn / 2
        return self.centre[0] + self.radius * math.cos(angle), self.centre[1] + self.radius * math.sin(angle)


def _angle(u, v):
    """The angle from one vector to another (B.2.4.2 of SVG 2, equation 4)."""
    cosine = (u[0] * v[0] + u[1] * v[1]) / (math.hypot(*u) * math.hypot(*v))
    return math.copysign(math.acos(max(-1.0, min(1.0, cosine))), u[0] * v[1] - u[1] * v[0])


def arc(start, end, radius, large, sweep):
    """The conversion of SVG's appendix "Elliptical arc implementation notes", for circles: equations 1 to 6."""
    x, y = (start[0] - end[0]) / 2, (start[1] - end[1]) / 2
    # Out-of-range radii are scaled up until there is a solution.
    excess = (x * x + y * y) / radius**2
    if excess > 1:
        radius *= math.sqrt(excess)
    under = max(0.0, radius**4 - radius**2 * (x * x + y * y)) / (radius**2 * (x * x + y * y))
    factor = math.sqrt(under) * (1 if large != sweep else -1)
    cx, cy = factor * y, -factor * x
    centre = cx + (start[0] + end[0]) / 2, cy + (start[1] + end[1]) / 2
    u, v = ((x - cx) / radius, (y - cy) / radius), ((-x - cx) / radius, (-y - cy) / radius)
    turn = _angle(u, v)
    if not sweep and turn > 0:
        turn -= 2 * math.pi
    elif sweep and turn < 0:
        turn += 2 * math.pi
    return Arc(start, end, centre, radius, turn)


def read(data):
    """The runs of a path's data, each a list of lines and arcs. Only the commands that are used here are known: M, L, A."""
    words = re.findall(r"[A-Za-z]|[-+0-9.eE]+", data)
    runs, at, pen = [], 0, None
    while at < len(words):
        command, at = words[at], at + 1
        count = {"M": 2, "L": 2, "A": 7}[command]
        numbers = [float(word) for word in words[at : at + count]]
        at += count
        end = tuple(numbers[-2:])
        if command == "M":
            runs.append([])
        elif command == "L":
            runs[-1].append(Line(pen, end))
        else:
            assert numbers[0] == numbers[1] and numbers[2] == 0 and numbers[3] in (0, 1) and numbers[4] in (0, 1)
            runs[-1].append(arc(pen, end, numbers[0], bool(numbers[3]), bool(numbers[4])))
        pen = end
    return runs
