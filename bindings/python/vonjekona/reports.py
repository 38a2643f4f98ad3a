"""Counted listings, and a month's report."""
from . import library, refusals
from .answers import CLASSES, Listing, rows_of
from .listings import grown, lent_of, memory
from .paths import path_of
from .refusals import answered

WORDS = 40
REFUSALS = 32


class Report:
    """How many layouts there were, how their pairs met, and for what some were refused. A fresh report is all zeros.

    `words`, 40 whole numbers, makes a report of what another one's `words` gave: so it can be stored.
    """

    __slots__ = ("_words",)

    def __init__(self, words=None):
        words = [0] * WORDS if words is None else list(words)
        if len(words) != WORDS:
            raise ValueError(f"a report has {WORDS} words, and not {len(words)}")
        self._words = library.words(WORDS)
        self._words[:] = [library.word(word, "a report's word") for word in words]

    @property
    def words(self):
        return tuple(self._words)

    @property
    def layouts(self):
        """How many layouts were counted, refused ones too."""
        return self._words[0]

    @property
    def pairs(self):
        """How many pairs were looked at."""
        return self._words[1]

    @property
    def classes(self):
        """How many pairs had each class."""
        return {class_: self._words[2 + class_] for class_ in CLASSES}

    @property
    def refused(self):
        """How many layouts were refused, by the refusal's number; numbers with none are left out."""
        return {number: self._words[8 + number] for number in range(REFUSALS) if self._words[8 + number]}

    def join(self, other):
        """Adds another report to this one."""
        # A copy, since the two may not overlap.
        second = Report(other.words)
        answered(library.call("join")(self._words, WORDS, second._words, WORDS), refusals.ONE_PATH, joined=True)

    def __eq__(self, other):
        return self.words == other.words if isinstance(other, Report) else NotImplemented

    __hash__ = None

    def __repr__(self):
        return f"<Report of {self.layouts} layouts, {self.pairs} pairs>"


def join(into, other):
    """Adds a second report to the first."""
    into.join(other)


def mutual_counted(first, second, epsilon, report, *, rows=None):
    """mutual, counted in a report. A refused layout is counted too, with its number, and then the refusal is raised.

    Where rows did not fit and were asked for again, the layout is counted once. With `rows` refusal 8 is counted as any other.
    """
    return _counted("mutual_counted", first, second, epsilon, report, rows, False)


def mutual_counted_large(first, second, epsilon, report, *, rows=None):
    """mutual_counted for bulges up to 16."""
    return _counted("mutual_counted_large", first, second, epsilon, report, rows, True)


def _counted(name, first, second, epsilon, report, rows, large):
    lent, owners = lent_of((path_of(first), path_of(second)))
    before = report.words

    def ask(room):
        # What a call with too little room has counted is taken back.
        report._words[:] = before
        out, counts = memory(room, large), library.words(2)
        answered(library.call(name)(*lent, epsilon, *out, counts, 2, report._words, WORDS), owners, large=large)
        return Listing(rows_of(out[0], out[2], counts[0], large), counts[1])

    return grown(ask, rows)
