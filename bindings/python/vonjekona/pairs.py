"""The pair calls and the kernels."""
from . import library, refusals
from .answers import CLASSES, Answer, Finding, Findings, KernelAnswer, LargeAnswer, points_of
from .refusals import answered

# How many values each case of a kernel has.
OF_LINES, OF_LINE_AND_CIRCLE, OF_CIRCLES = (0, 2, 2, 2), (0, 1, 2), (0, 2, 4, 0)


def _given(numbers, count, what):
    numbers = tuple(numbers)
    if len(numbers) != count:
        raise ValueError(f"{what} has {len(numbers)} numbers, and not {count}")
    return numbers


def _segments(v1, v2, u1, u2):
    """The twelve numbers of two segments: x, y and bulge of each vertex."""
    named = (("v1", v1), ("v2", v2), ("u1", u1), ("u2", u2))
    return sum((_given(vertex, 3, name) for name, vertex in named), ())


def pair(v1, v2, u1, u2, epsilon):
    """How the segments v1 to v2 and u1 to u2 meet. A vertex is (x, y, bulge)."""
    out = library.floats(4)
    word = library.call("pair")(*_segments(v1, v2, u1, u2), epsilon, out, 4)
    case = answered(word, refusals.SEGMENTS)
    return Answer(CLASSES[case], points_of(case, out))


def pair_findings(v1, v2, u1, u2, epsilon):
    """The pair call with findings: why a point counted."""
    out, findings = library.floats(4), library.words(4)
    word = library.call("pair_findings")(*_segments(v1, v2, u1, u2), epsilon, out, 4, findings, 4)
    case = answered(word, refusals.SEGMENTS)
    found = tuple(Finding(number) for number in findings[:4])
    return Findings(CLASSES[case], points_of(case, out), found[:2], found[2:])


def pair_large(v1, v2, u1, u2, epsilon):
    """The pair call for bulges up to 16: a list of how each part of v meets each part of u."""
    results, out = library.words(12), library.floats(16)
    word = library.call("pair_large")(*_segments(v1, v2, u1, u2), epsilon, results, 12, out, 16)
    count = answered(word, refusals.SEGMENTS, large=True)
    answers = []
    for at in range(count):
        v_half, u_half, case = results[3 * at : 3 * at + 3]
        answers.append(LargeAnswer(v_half, u_half, CLASSES[case], points_of(case, out[4 * at : 4 * at + 4])))
    return answers


def _kernel(name, numbers, epsilon, owners, counts):
    out = library.floats(4)
    case = answered(library.call(name)(*numbers, epsilon, out, 4), owners)
    return KernelAnswer(case, tuple(out[: counts[case]]))


def line_line_intr(v1, v2, u1, u2, epsilon):
    """The lines v1 to v2 and u1 to u2, each end (x, y). Cases: 0 parallel and apart; 1 one point, its parameters on v and on u;
    2 they overlap, two parameters on u; 3 they cross beyond an end, the parameters on v and on u."""
    named = (("v1", v1), ("v2", v2), ("u1", u1), ("u2", u2))
    numbers = sum((_given(point, 2, name) for name, point in named), ())
    return _kernel("line_line_intr", numbers, epsilon, refusals.LINES, OF_LINES)


def line_circle_intr(p0, p1, radius, centre, epsilon):
    """The straight line through p0 and p1, and a circle. Cases: 0 apart; 1 and 2: so many points, as parameters."""
    numbers = _given(p0, 2, "p0") + _given(p1, 2, "p1") + (radius,) + _given(centre, 2, "centre")
    return _kernel("line_circle_intr", numbers, epsilon, refusals.LINE_AND_CIRCLE, OF_LINE_AND_CIRCLE)


def circle_circle_intr(radius1, centre1, radius2, centre2, epsilon):
    """Two circles. Cases: 0 apart, or one inside the other; 1 and 2: so many points, (x, y) each; 3 the same circle."""
    numbers = (radius1,) + _given(centre1, 2, "centre1") + (radius2,) + _given(centre2, 2, "centre2")
    case, values = _kernel("circle_circle_intr", numbers, epsilon, refusals.CIRCLES, OF_CIRCLES)
    return KernelAnswer(case, tuple(zip(values[::2], values[1::2])))
