"""How a drawing's numbers become places of the picture: one scale, y turned, in the middle of its field."""
from typing import NamedTuple

from ..words import number
from .style import HEIGHT, LEAST_HEIGHT, MARGIN, WIDTH


class View(NamedTuple):
    """x and y of the picture are x0 + scale x and y0 - scale y, in millimetres."""

    scale: float
    x0: float
    y0: float

    def place(self, point):
        return self.x0 + self.scale * point[0], self.y0 - self.scale * point[1]

    def transform(self):
        scale = number(self.scale)
        return f"matrix({scale} 0 0 -{scale} {number(self.x0)} {number(self.y0)})"

    def length(self, millimetres):
        """A length of the picture in the drawing's numbers."""
        return number(millimetres / self.scale)


def view_of(points, top):
    """The view that shows all points in a field that starts at `top`, and how high the field is: a card's height at most."""
    xs, ys = [x for x, _ in points] or [0.0], [y for _, y in points] or [0.0]
    wide, high = max(xs) - min(xs), max(ys) - min(ys)
    room_x, room_y = WIDTH - 2 * MARGIN, HEIGHT - 2 * MARGIN
    # What is smaller than this beside its own coordinates, or at all, is a dot.
    least = max(1e-100, 1e-9 * max(map(abs, xs + ys)))
    fits = [room / size for room, size in ((room_x, wide), (room_y, high)) if size > least]
    scale = min(fits) if fits else 1.0
    field = min(HEIGHT, max(LEAST_HEIGHT, scale * high + 2 * MARGIN))
    x0, y0 = WIDTH / 2 - scale * (max(xs) + min(xs)) / 2, top + field / 2 + scale * (max(ys) + min(ys)) / 2
    return View(_rounded(scale), _rounded(x0), _rounded(y0)), field


def _rounded(value):
    """Twelve digits: what an angle's last digits change is not seen, nor written."""
    return float(f"{value:.12g}")
