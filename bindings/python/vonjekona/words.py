"""Rows in words and in a table."""
from .answers import Class

BETWEEN = {Class.TWO: " and ", Class.LINES: " to ", Class.ARCS: " to "}
MEET = {
    Class.TANGENT: "meet in one point and do not cross there",
    Class.ONE: "meet in one point",
    Class.TWO: "meet in two points",
    Class.LINES: "are lines that overlap",
    Class.ARCS: "are arcs that overlap",
}


def number(value, digits=None):
    """A float in decimal digits: as many as bring back every bit, or so many."""
    text = repr(value) if digits is None else format(value, f".{digits}g")
    return text[:-2] if text.endswith(".0") else text


def points(row, digits=None):
    """The points of a row."""
    texts = [f"({number(x, digits)}, {number(y, digits)})" for x, y in row.points]
    return BETWEEN.get(row.class_, "").join(texts)


def segment(row, which):
    """A segment of a row, `first` or `second`: its index, and its half if it is cut."""
    half = getattr(row, which + "_half", 0)
    return f"{getattr(row, which)}" + (f" half {half}" if half else "")


def sentence(row, names):
    """A row in words; `names` are those of its two paths, the same one twice if there is one."""
    first, second = segment(row, "first"), segment(row, "second")
    if names[0] == names[1]:
        return f"segments {first} and {second} of the {names[0]} {MEET[row.class_]}: {points(row)}"
    return f"segment {first} of the {names[0]} and segment {second} of the {names[1]} {MEET[row.class_]}: {points(row)}"


def table(rows):
    """The text lines of a table of rows."""
    cells = [("row", "first", "second", "class", "points")]
    for at, row in enumerate(rows):
        cells.append((str(at), segment(row, "first"), segment(row, "second"), row.class_.word, points(row)))
    widths = [max(len(cell[column]) for cell in cells) for column in range(4)]
    lines = []
    for cell in cells:
        aligned = [cell[column].rjust(widths[column]) for column in range(3)]
        lines.append("  ".join(aligned + [cell[3].ljust(widths[3]), cell[4]]))
    return lines
