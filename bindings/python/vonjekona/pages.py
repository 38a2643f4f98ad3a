"""Pages: listings handed out in parts.

The pages of a chain, from position 0 to the end, give together exactly the rows of the listing. A `Path` does not change, so
a chain over one is always a chain over the same numbers.
"""
import time

from . import library
from .answers import Page, rows_of
from .listings import lent_of, memory
from .paths import path_of
from .refusals import answered

# Room for so many rows a page, if a caller does not say. A page that has filled it ends there, and the next one goes on.
ROWS = 1024
# A page by seconds starts with so many pairs, and passes at most so many times as many as the page before.
START, GROWTH = 4096, 4


def mutual_page(first, second, epsilon, position, budget, *, rows=ROWS):
    """A page of mutual's listing: from a position on, at most `budget` pairs and `rows` rows."""
    return _page("mutual_page", (path_of(first), path_of(second)), epsilon, position, budget, rows, False)


def self_page(path, epsilon, position, budget, *, rows=ROWS):
    """A page of self_'s listing."""
    return _page("self_page", (path_of(path),), epsilon, position, budget, rows, False)


def mutual_page_large(first, second, epsilon, position, budget, *, rows=ROWS):
    """mutual_page for bulges up to 16. A position counts pairs of the cut paths."""
    return _page("mutual_page_large", (path_of(first), path_of(second)), epsilon, position, budget, rows, True)


def self_page_large(path, epsilon, position, budget, *, rows=ROWS):
    """self_page for bulges up to 16."""
    return _page("self_page_large", (path_of(path),), epsilon, position, budget, rows, True)


def mutual_pages(first, second, epsilon, *, budget=None, seconds=None, position=0, rows=ROWS):
    """The pages of mutual's listing, one after the other, from a position to the end.

    Each page has a budget of so many pairs, or about so many seconds. A refusal is raised where the first page is asked for.
    There is always one page, also if there are no pairs.
    """
    return _chain("mutual_page", (path_of(first), path_of(second)), epsilon, budget, seconds, position, rows, False)


def self_pages(path, epsilon, *, budget=None, seconds=None, position=0, rows=ROWS):
    """The pages of self_'s listing."""
    return _chain("self_page", (path_of(path),), epsilon, budget, seconds, position, rows, False)


def mutual_pages_large(first, second, epsilon, *, budget=None, seconds=None, position=0, rows=ROWS):
    """mutual_pages for bulges up to 16."""
    return _chain("mutual_page_large", (path_of(first), path_of(second)), epsilon, budget, seconds, position, rows, True)


def self_pages_large(path, epsilon, *, budget=None, seconds=None, position=0, rows=ROWS):
    """self_pages for bulges up to 16."""
    return _chain("self_page_large", (path_of(path),), epsilon, budget, seconds, position, rows, True)


def _page(name, paths, epsilon, position, budget, rows, large):
    position, budget = library.word(position, "position"), library.word(budget, "budget")
    lent, owners = lent_of(paths)
    out, counts = memory(rows, large), library.words(4)
    word = library.call(name)(*lent, epsilon, position, budget, *out, counts, 4)
    answered(word, owners, large=large, page=True)
    return Page(rows_of(out[0], out[2], counts[0], large), *counts[1:4])


def _chain(name, paths, epsilon, budget, seconds, position, rows, large):
    if (budget is None) == (seconds is None):
        raise TypeError("a budget of pairs is wanted, or one of seconds, and not both")
    return _turns(name, paths, epsilon, budget, seconds, position, rows, large)


def _turns(name, paths, epsilon, budget, seconds, position, rows, large):
    pairs = START if budget is None else budget
    while True:
        began = time.monotonic()
        page = _page(name, paths, epsilon, position, pairs, rows, large)
        took = time.monotonic() - began
        yield page
        if page.position == page.pairs:
            return
        position = page.position
        if budget is None:
            pairs = _fitting(pairs, page.passed, took, seconds)


def _fitting(pairs, passed, took, seconds):
    """How many pairs the next page may pass, by what the last one did in its time: one at least, so that the chain goes on."""
    return int(max(1, min(GROWTH * pairs, passed / max(took, 1e-9) * seconds)))
