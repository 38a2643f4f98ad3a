"""One panel of a picture: the paths, the marks, a legend, and the table of rows."""
import math
import textwrap
from xml.sax.saxutils import escape

from .. import words
from ..answers import Class
from . import marks, style
from .data import overlap_data, path_data
from .geometry import middle_for, reach_of
from .marks import at
from .view import view_of

# More rows are marked, and not in the table.
MOST_ROWS = 200
# More rows are marked without their numbers.
MOST_NUMBERS = 60
OVERLAPS = (Class.LINES, Class.ARCS)


class Panel:
    """Paths, one or two; the rows of their listing, or its refusal; and what is shown beside. `outline` is a path in grey that
    takes no part. `prefix` keeps the names of rows apart where several panels have some."""

    def __init__(self, first, second=None, rows=(), refusal=None, *, title=None, names=None, outline=None, notes=(), prefix=""):
        self.paths = [path for path in (first, second) if path is not None]
        self.rows, self.refusal, self.title, self.outline, self.prefix = list(rows), refusal, title, outline, prefix
        self.names = names or (("first path", "second path") if len(self.paths) == 2 else ("path",))
        self.notes = list(notes)
        self.top = 2 * style.TITLE if title else 0
        reach = [point for path in self.paths + ([outline] if outline else []) for point in reach_of(path)]
        reach += [point for row in self.rows for point in row.points if all(map(math.isfinite, point))]
        self.view, self.field = view_of(reach, self.top)
        # An arc that rises less than a hundredth of a line's width is drawn as a line.
        self.flat = style.STROKE / 100 / self.view.scale

    def draw(self):
        """The panel's elements, and how high it is."""
        parts = []
        if self.title:
            parts.append(f'<text x="{style.MARGIN}" y="{at(1.5 * style.TITLE)}" font-size="{style.TITLE}" font-weight="bold">'
                         f"{escape(self.title)}</text>")
        parts += self._drawing()
        below, height = self._below(self.top + self.field + style.LINE)
        return "\n".join(parts + below), height

    def _drawing(self):
        view, parts = self.view, []
        parts.append(f'<g transform="{view.transform()}" fill="none" stroke-linejoin="round" stroke-linecap="round">')
        if self.outline:
            parts.append(self._path("outline", self.outline, style.PALE, style.OUTLINE))
        # Below the paths, so that both are seen on it.
        parts += [self._band(row) for row in self.rows if row.class_ in OVERLAPS]
        for order, path in enumerate(self.paths):
            parts.append(self._path(f"path-{order + 1}", path, style.PATHS[order], style.STROKE))
        parts.append("</g>")
        # The ends of overlaps first: a point at such an end lies upon it.
        order = sorted(enumerate(self.rows), key=lambda numbered: numbered[1].class_ not in OVERLAPS)
        parts += [self._mark(number, row) for number, row in order]
        if len(self.rows) <= MOST_NUMBERS:
            parts += self._labels()
        parts += self._ring()
        return parts

    def _path(self, name, path, colour, width):
        return (f'<path id="{self.prefix}{name}" d="{path_data(path, self.flat)}" stroke="{colour}" '
                f'stroke-width="{self.view.length(width)}"/>')

    def _band(self, row):
        return (f'<path class="band" d="{overlap_data(row, self.paths[0], self.flat)}" stroke="{style.CLASSES[row.class_]}" '
                f'stroke-opacity="0.5" stroke-width="{self.view.length(style.BAND)}"/>')

    def _mark(self, number, row):
        """A row's mark: a link to its row in the table, with the row in words."""
        names = self.names if len(self.names) == 2 else self.names * 2
        places = [self.view.place(point) for point in row.points]
        drawn = "".join(marks.target(*place) + marks.shape(row.class_, *place) for place in places)
        return (f'<a id="{self.prefix}mark-{number}" class="mark" href="#{self.prefix}row-{number}"><title>'
                f"{escape(f'row {number}: {words.sentence(row, names)}')}</title>{drawn}</a>")

    def _labels(self):
        """The rows' numbers beside their marks. Rows with marks in one place share a label."""
        shared = []
        for number, row in enumerate(self.rows):
            place = self.view.place(row.points[0])
            link = f'<a href="#{self.prefix}row-{number}">{number}</a>'
            for other, links in shared:
                if math.dist(place, other) < style.NEAR:
                    links.append(link)
                    break
            else:
                shared.append((place, [link]))
        return [marks.label(*place, links) for place, links in shared]

    def _ring(self):
        """The ring around a refused vertex, or around the first vertex of a refused segment."""
        refusal = self.refusal
        if refusal is None or refusal.path is None or refusal.item == "length":
            return []
        segment = refusal.segment is not None
        index = refusal.segment if segment else refusal.vertex
        place = middle_for(self.paths[refusal.path], index)
        if place is None:
            return []
        return ['<g class="refused"><title>' + escape(str(refusal)) + "</title>"
                + marks.ring(*self.view.place(place), f"{'segment' if segment else 'vertex'} {index}") + "</g>"]

    def _below(self, y):
        """The legend, the refusal in words, notes, and the table."""
        parts, y = self._legend(y)
        said = [(line, style.REFUSED, "bold") for line in textwrap.wrap(str(self.refusal), style.LETTERS) if self.refusal]
        said += [(line, style.INK, "normal") for note in self.notes for line in textwrap.wrap(note, style.LETTERS)]
        for text, colour, weight in said:
            parts.append(f'<text x="{style.MARGIN}" y="{at(y)}" font-size="{style.TEXT}" font-weight="{weight}" fill="{colour}">'
                         f"{escape(text)}</text>")
            y += style.LINE
        if self.rows:
            table, y = self._table(y)
            parts += table
        return parts, y

    def _legend(self, y):
        entries = []
        for order, name in enumerate(self.names[: len(self.paths)]):
            entries.append((name, f'<path d="M 0 -0.8 H 4" stroke="{style.PATHS[order]}" stroke-width="{2 * style.STROKE}"/>'))
        for class_ in list(Class)[1:]:
            count = sum(row.class_ is class_ for row in self.rows)
            if count:
                entries.append((f"{class_.word} ({count})", self._sample(class_)))
        if self.refusal:
            ring = f'<circle cx="2" cy="-0.8" r="1.2" fill="none" stroke="{style.REFUSED}" stroke-width="0.5"/>'
            entries.append(("refused", ring))
        parts, x = [], style.MARGIN
        for name, sample in entries:
            wide = 5 + style.LETTER * len(name) + 2.5
            if x + wide > style.WIDTH and x > style.MARGIN:
                x, y = style.MARGIN, y + style.LINE
            parts.append(f'<g transform="translate({at(x)} {at(y)})">{sample}'
                         f'<text x="5" y="0" font-size="{style.TEXT}">{escape(name)}</text></g>')
            x += wide
        return parts, y + style.LINE + 0.6

    def _sample(self, class_):
        band = ""
        if class_ in OVERLAPS:
            band = (f'<path d="M 0.4 -0.8 H 3.6" stroke="{style.CLASSES[class_]}" stroke-opacity="0.5" '
                    f'stroke-width="{style.BAND}"/>')
        return band + marks.shape(class_, 2, -0.8)

    def _table(self, y):
        heads = ("row", "first", "second", "class", "points")
        lines = [(str(number), words.segment(row, "first"), words.segment(row, "second"), row.class_.word, words.points(row, 9))
                 for number, row in enumerate(self.rows[:MOST_ROWS])]
        columns = [style.MARGIN]
        for column in range(4):
            longest = max(len(line[column]) for line in [heads] + lines)
            columns.append(columns[-1] + style.LETTER * longest + 3.2)
        parts = [self._text_line(columns, y, heads, "bold")]
        y += style.LINE
        for number, cells in enumerate(lines):
            parts.append(f'<a id="{self.prefix}row-{number}" class="row" href="#{self.prefix}mark-{number}">'
                         f'<rect x="{at(style.MARGIN - 1)}" y="{at(y - 0.75 * style.LINE)}" '
                         f'width="{at(style.WIDTH - 2 * style.MARGIN + 2)}" height="{style.LINE}" fill="{style.PAPER}"/>'
                         + self._text_line(columns, y, cells, "normal", style.CLASSES[self.rows[number].class_]) + "</a>")
            y += style.LINE
        if len(lines) < len(self.rows):
            parts.append(self._text_line(columns, y, (f"and {len(self.rows) - len(lines)} rows more",), "normal"))
            y += style.LINE
        return parts, y

    def _text_line(self, columns, y, cells, weight, colour=style.INK):
        spans = []
        for column, (x, cell) in enumerate(zip(columns, cells)):
            more = f' fill="{colour}" font-weight="bold"' if column == 3 and weight == "normal" else ""
            # Points of many digits are smaller, so that they do not leave the panel.
            fits = (style.WIDTH - style.MARGIN - x) / (style.LETTER * max(1, len(cell))) * style.TEXT
            if fits < style.TEXT:
                more += f' font-size="{at(fits)}"'
            spans.append(f'<tspan x="{at(x)}"{more}>{escape(cell)}</tspan>')
        return f'<text y="{at(y)}" font-size="{style.TEXT}" font-weight="{weight}">' + "".join(spans) + "</text>"
