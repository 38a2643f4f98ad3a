"""Refusals as exceptions, and the words for their places."""

REFUSED, NO_ROOM = 256, 512

# By the item's number.
ITEMS = ("epsilon", "x", "y", "bulge", "radius", "centre x", "centre y", "chord", "length", "rows", "position", "budget",
         "boxes", "trace", "report", "line", "room", "cut x", "cut y")
OF_A_VERTEX = ("x", "y", "bulge", "trace")
OF_A_SEGMENT = ("chord", "cut x", "cut y")

# Whose numbers a call takes, by owner.
TWO_PATHS = ("the first path", "the second path")
ONE_PATH = ("the path",)
SEGMENTS = ("v", "u")
LINES = ("v1", "v2", "u1", "u2")
LINE_AND_CIRCLE = ("p0", "p1", "the circle")
CIRCLES = ("the first circle", "the second circle")
PATHS = (TWO_PATHS, ONE_PATH)

# What is wrong, for refusals whose words do not depend on the call.
FAULTS = {
    2: "is above 1,048,576 in magnitude",
    4: "is NaN, infinite, below 2^-40 or above 1/2",
    6: "is no multiple of 4",
    7: "is that of more than 4,096 vertices",
    11: "is NaN",
    12: "is infinite",
    13: "is beyond the end",
    14: "is 0",
    15: "is no whole number from 0 to 255",
    17: "do not fit into the room for them",
    20: "is no code or number of a drawing's form",
    21: "has a group out of place, or lacks one or its value",
    22: "tells another count of vertices than there are",
    23: "is no number of six digits",
    24: "does not fit into the room for it",
}


class Refusal(ValueError):
    """The answer of a call in which a check finds a fault. Only the first fault is told.

    number   the refusal's number, as docs/REFUSALS.md has it
    item     what is at fault, a word: "x", "bulge", "chord", "epsilon"; None of a layout's file
    owner    whose item it is, from 0 on, as the header says for each call
    index    which of the owner's, from 0 on
    path     0 the first path, 1 the second; None if the fault lies in no path
    vertex   the vertex's index in its path; None if it is no vertex that is at fault
    segment  the segment's index in its path, likewise
    line     the line of a drawing's text, from 1 on, likewise
    offset   the byte of a packed file, from 0 on, likewise
    words    the fault and its place, as str() gives them behind the number
    """

    def __init__(self, number, item, owner, index, words, *, path=None, vertex=None, segment=None, line=None, offset=None):
        super().__init__(f"refused {number}: {words}")
        self.number, self.item, self.owner, self.index, self.words = number, item, owner, index, words
        self.path, self.vertex, self.segment, self.line, self.offset = path, vertex, segment, line, offset

    def __reduce__(self):
        return _again, (self.number, self.item, self.owner, self.index, self.words,
                        (self.path, self.vertex, self.segment, self.line, self.offset))


def _again(number, item, owner, index, words, place):
    """A refusal from its parts, so that one process can hand it to another."""
    path, vertex, segment, line, offset = place
    return Refusal(number, item, owner, index, words, path=path, vertex=vertex, segment=segment, line=line, offset=offset)


def _place(item, owner, index, owners):
    """The item with its place, without what is wrong."""
    if item in ("epsilon", "line"):
        return "epsilon" if item == "epsilon" else f"line {index} of the drawing's text"
    if item in ("position", "budget", "boxes", "room"):
        return {"room": "what is to be written"}.get(item, f"the {item}")
    whose = owners[owner]
    if item == "length":
        return f"the count of numbers of {whose}"
    if item in OF_A_SEGMENT:
        what = {"chord": "the chord", "cut x": "x of the cut point", "cut y": "y of the cut point"}[item]
        return f"{what} of segment {index} of {whose}" if owners in PATHS else f"{what} of {whose}"
    if owners in PATHS:
        return f"{item} of vertex {index} of {whose}"
    if owners is SEGMENTS:
        return f"{item} of the {('first', 'second')[index]} vertex of {whose}"
    return f"{item} of {whose}"


def _fault(number, item, large):
    """What is wrong."""
    if number == 3:
        return f"is above {16 if large else 1} in magnitude"
    if number == 5:
        return "is shorter than 2^-40, and it is an arc" if not large else "is shorter than 2^-40, or that of a half is"
    if number == 9:
        return "is not in 2^-42 to 2^47" if item == "radius" else "is above 2^48 in magnitude"
    return FAULTS[number]


def refusal_of(word, owners, *, large=False, page=False, joined=False):
    """The refusal of a call's word."""
    number, item = word & 0xFF, ITEMS[word >> 16 & 0xFF]
    owner, index = word >> 24 & 0xFF, word >> 32
    if number == 8:
        words = "there is room for no row" if page else "there are more rows than there is room for"
    elif number == 19:
        words = "the two reports do not fit into one" if joined else "the report is full"
    else:
        words = f"{_place(item, owner, index, owners)} {_fault(number, item, large)}"
    of_a_path = owners in PATHS and item in OF_A_VERTEX + OF_A_SEGMENT + ("length",)
    return Refusal(number, item, owner, index, words,
                   path=owner if of_a_path else None,
                   vertex=index if of_a_path and item in OF_A_VERTEX else None,
                   segment=index if of_a_path and item in OF_A_SEGMENT else None,
                   line=index if item == "line" else None)


def answered(word, owners, **how):
    """A call's word, if it is an answer. A refusal's word is raised."""
    if word & 0xFF00 == REFUSED:
        raise refusal_of(word, owners, **how)
    if word == NO_ROOM:
        raise AssertionError("a call of the library was lent too little memory")
    return word


def broken_text():
    """The refusal of a layout's text that breaks its form. Like the program's it tells no place."""
    return Refusal(10, None, 0, 0, "the text breaks the form of a layout, or a limit of it")


def broken_packed(offset):
    """The refusal of a packed file that breaks its form, with its offset."""
    return Refusal(18, None, 0, 0, f"the packed file breaks its form at byte {offset}", offset=offset)
