"""What is drawn at a row's points: a shape for each class, on white so that it stands out from the paths."""
from ..answers import Class
from .style import CLASSES, MARK, PAPER, REFUSED, RING, SMALL, STROKE, TEXT, TITLE, WIDTH


def at(value):
    """A length of the picture, in millimetres."""
    text = f"{value:.3f}".rstrip("0").rstrip(".")
    return "0" if text in ("", "-0") else text


def _cross(x, y, r):
    return f'd="M {at(x - r)} {at(y - r)} L {at(x + r)} {at(y + r)} M {at(x - r)} {at(y + r)} L {at(x + r)} {at(y - r)}"'


def _diamond(x, y, r):
    return f'd="M {at(x - r)} {at(y)} L {at(x)} {at(y - r)} L {at(x + r)} {at(y)} L {at(x)} {at(y + r)} Z"'


def shape(class_, x, y):
    """The mark of a class at a place of the picture: a ring, a cross, a diamond, a square, a disc."""
    colour, r = CLASSES[class_], MARK
    if class_ is Class.TANGENT:
        return (f'<circle cx="{at(x)}" cy="{at(y)}" r="{at(r)}" fill="none" stroke="{PAPER}" stroke-width="1"/>'
                f'<circle cx="{at(x)}" cy="{at(y)}" r="{at(r)}" fill="none" stroke="{colour}" stroke-width="0.45"/>')
    if class_ in (Class.ONE, Class.TWO):
        drawn = _cross(x, y, 0.8 * r) if class_ is Class.ONE else _diamond(x, y, 1.15 * r)
        return (f'<path {drawn} fill="none" stroke="{PAPER}" stroke-width="0.8"/>'
                f'<path {drawn} fill="none" stroke="{colour}" stroke-width="0.5"/>')
    if class_ is Class.LINES:
        half = 0.6 * r
        return (f'<rect x="{at(x - half)}" y="{at(y - half)}" width="{at(2 * half)}" height="{at(2 * half)}" '
                f'fill="{colour}" stroke="{PAPER}" stroke-width="0.2"/>')
    return f'<circle cx="{at(x)}" cy="{at(y)}" r="{at(0.65 * r)}" fill="{colour}" stroke="{PAPER}" stroke-width="0.2"/>'


def target(x, y):
    """What can be clicked around a mark, and is seen only when a row's link led to it."""
    return f'<circle cx="{at(x)}" cy="{at(y)}" r="{at(2 * MARK)}" fill="{PAPER}" fill-opacity="0"/>'


def label(x, y, links):
    """The numbers of the rows that have a mark here."""
    return (f'<text x="{at(x + 1.2 * MARK)}" y="{at(y - 0.8 * MARK)}" font-size="{SMALL}" stroke="{PAPER}" stroke-width="0.5" '
            f'paint-order="stroke">{", ".join(links)}</text>')


def ring(x, y, label):
    """A refused vertex. Its label stands on the side that has more room."""
    side, anchor = (1, "start") if x < WIDTH / 2 else (-1, "end")
    return (f'<circle cx="{at(x)}" cy="{at(y)}" r="{RING}" fill="{REFUSED}" fill-opacity="0.12" stroke="{PAPER}" '
            f'stroke-width="{at(3.5 * STROKE)}"/>'
            f'<circle cx="{at(x)}" cy="{at(y)}" r="{RING}" fill="none" stroke="{REFUSED}" stroke-width="{at(2 * STROKE)}"/>'
            f'<text x="{at(x)}" y="{at(y + 0.9)}" font-size="{TITLE}" font-weight="bold" fill="{REFUSED}" '
            f'text-anchor="middle">?</text>'
            f'<text x="{at(x + side * (RING + 0.7))}" y="{at(y + 0.8)}" font-size="{TEXT}" font-weight="bold" fill="{REFUSED}" '
            f'text-anchor="{anchor}" stroke="{PAPER}" stroke-width="0.7" paint-order="stroke">{label}</text>')
