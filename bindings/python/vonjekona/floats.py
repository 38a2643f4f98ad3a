"""Float functions: on binary64 numbers, and on their patterns, where every bit of the answer is fixed."""
from . import library


def abs(x):
    """The absolute value: x without its sign."""
    return library.call("abs")(x)


def min(x, y):
    """The smaller of x and y. Equal operands give y. If one is a NaN, the answer is the other one."""
    return library.call("min")(x, y)


def max(x, y):
    """The larger of x and y. Equal operands and NaNs: as for min."""
    return library.call("max")(x, y)


def sqrt(x):
    """The square root, correctly rounded. A NaN or a number below zero gives a NaN, and no exception."""
    return library.call("sqrt")(x)


def abs_bits(b):
    return library.call("abs_bits")(library.word(b, "b"))


def min_bits(a, b):
    return library.call("min_bits")(library.word(a, "a"), library.word(b, "b"))


def max_bits(a, b):
    return library.call("max_bits")(library.word(a, "a"), library.word(b, "b"))


def sqrt_bits(b):
    return library.call("sqrt_bits")(library.word(b, "b"))
