"""The shared library: where it is found, and the calls of include/vonjekona.h with the types of their arguments.

It is loaded at the first call, so that layouts can be read and pictures drawn without it.
"""
import ctypes
import functools
import os
import pathlib

NAME = "libvonjekona.so"
PACKAGE = pathlib.Path(__file__).resolve().parent
# The repository, if the package stands in it.
REPOSITORY = PACKAGE.parents[2]
MADE = REPOSITORY / "target" / "python" / NAME

FLOAT = (ctypes.c_double,)
WORD = (ctypes.c_uint64,)
FLAG = (ctypes.c_bool,)
FLOATS = (ctypes.POINTER(ctypes.c_double), ctypes.c_size_t)
WORDS = (ctypes.POINTER(ctypes.c_uint64), ctypes.c_size_t)
BYTES = (ctypes.POINTER(ctypes.c_uint8), ctypes.c_size_t)
PATH = FLOATS + FLAG
# A listing's indices, points and counts.
ROWS = WORDS + FLOATS + WORDS
ONE_PATH = PATH + FLOAT
TWO_PATHS = PATH + PATH + FLOAT
VERTICES = 12 * FLOAT + FLOAT

# By name, without the `vj_`: what a call takes.
CALLS = {
    "line_line_intr": 8 * FLOAT + FLOAT + FLOATS,
    "line_circle_intr": 7 * FLOAT + FLOAT + FLOATS,
    "circle_circle_intr": 6 * FLOAT + FLOAT + FLOATS,
    "pair": VERTICES + FLOATS,
    "pair_findings": VERTICES + FLOATS + WORDS,
    "pair_large": VERTICES + WORDS + FLOATS,
    "join": WORDS + WORDS,
}
for end in ("", "_large"):
    CALLS["mutual" + end] = TWO_PATHS + ROWS
    CALLS["self" + end] = ONE_PATH + ROWS
    CALLS["mutual_page" + end] = TWO_PATHS + 2 * WORD + ROWS
    CALLS["self_page" + end] = ONE_PATH + 2 * WORD + ROWS
    CALLS["mutual_boxed" + end] = TWO_PATHS + FLOATS + ROWS
    CALLS["self_boxed" + end] = ONE_PATH + FLOATS + ROWS
    CALLS["mutual_counted" + end] = TWO_PATHS + ROWS + WORDS
    CALLS["dxf_import" + end] = BYTES + FLOATS + WORDS
    CALLS["dxf_export" + end] = PATH + BYTES + WORDS
# Float functions: what they take, and what they return.
FUNCTIONS = {
    "abs": (FLOAT, ctypes.c_double),
    "min": (2 * FLOAT, ctypes.c_double),
    "max": (2 * FLOAT, ctypes.c_double),
    "sqrt": (FLOAT, ctypes.c_double),
    "abs_bits": (WORD, ctypes.c_uint64),
    "min_bits": (2 * WORD, ctypes.c_uint64),
    "max_bits": (2 * WORD, ctypes.c_uint64),
    "sqrt_bits": (WORD, ctypes.c_uint64),
}


class NoLibrary(OSError):
    """The shared library is not there, or lacks a call."""


def find():
    """The shared library's file: the one that VONJEKONA_SO names, or one beside the package, or the one in target/python."""
    named = os.environ.get("VONJEKONA_SO")
    if named:
        # A name without a folder would be looked for among the system's libraries.
        return pathlib.Path(named).absolute()
    beside = PACKAGE / NAME
    return beside if beside.exists() else MADE


def load(file):
    """The library of a file, every call declared."""
    try:
        library = ctypes.CDLL(str(file))
    except OSError as why:
        raise NoLibrary(f"{file} cannot be loaded: {why}. `bindings/python/make` makes it; VONJEKONA_SO names another.") from why
    for name, takes in CALLS.items():
        _declare(library, file, name, takes, ctypes.c_uint64)
    for name, (takes, returns) in FUNCTIONS.items():
        _declare(library, file, name, takes, returns)
    return library


def _declare(library, file, name, takes, returns):
    try:
        call = getattr(library, "vj_" + name)
    except AttributeError as why:
        raise NoLibrary(f"{file} has no vj_{name}: it is of other archives. `bindings/python/make` makes it anew.") from why
    call.argtypes = takes
    call.restype = returns


@functools.lru_cache(maxsize=None)
def _loaded():
    return load(find())


def call(name):
    """The call vj_NAME."""
    return getattr(_loaded(), "vj_" + name)


def floats(count):
    """Memory for so many floats, all +0. The address is never null, even if the count is 0."""
    return (ctypes.c_double * max(1, count))()


def words(count):
    """Memory for so many words, all 0."""
    return (ctypes.c_uint64 * max(1, count))()


def word(number, what):
    """A whole number that fits into 64 bits. ctypes alone would take any number, and cut it."""
    if not 0 <= number < 1 << 64:
        raise OverflowError(f"{what} is no whole number of 64 bits: {number}")
    return number
