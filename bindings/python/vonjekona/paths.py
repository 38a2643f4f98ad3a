"""Paths as the calls take them."""
import array
import ctypes
from typing import NamedTuple

FLOAT64 = ("d", "<d", "=d", "@d")


class Vertex(NamedTuple):
    x: float
    y: float
    bulge: float
    trace: float = 0.0


class Path:
    """Vertices in order, and whether the path is closed.

    `vertices` is a sequence of vertices, each (x, y, bulge) or (x, y, bulge, trace); or a flat buffer of float64 numbers, four
    for each vertex, such as array.array("d") or a numpy array; or a numpy array with a row of three or four numbers for each
    vertex; or another path. The numbers are copied once and handed to the calls as they are, NaN too: only lengths are looked at
    here. What is no multiple of four in a flat buffer is handed over too, and refused with 6. If `closed` is not said, the path
    is open, or what the other path is.
    """

    __slots__ = ("_lent", "_len", "_closed")

    def __init__(self, vertices, closed=None):
        another = isinstance(vertices, Path)
        numbers = vertices._bytes() if another else _numbers(vertices)
        self._len = len(numbers) // 8
        # One number more if there are none: a pointer may not be null.
        self._lent = (ctypes.c_double * max(1, self._len)).from_buffer_copy(numbers or bytes(8))
        self._closed = bool(closed) if closed is not None else another and vertices.closed

    @property
    def closed(self):
        return self._closed

    @property
    def lent(self):
        """What a call takes of a path: its memory, its length and its flag."""
        return self._lent, self._len, self._closed

    @property
    def numbers(self):
        """The path's numbers, flat, for reading: a memoryview, of which numpy makes an array without a copy."""
        return memoryview(self._lent).cast("B").cast("d")[: self._len].toreadonly()

    @property
    def segments(self):
        """How many segments the path has."""
        count = len(self)
        return 0 if count < 2 else count if self.closed else count - 1

    def segment(self, index):
        """The two vertices of a segment, three numbers each, as the pair calls take them."""
        if not 0 <= index < self.segments:
            raise IndexError(f"there is no segment {index}: the path has {self.segments}")
        return tuple(self[index])[:3], tuple(self[(index + 1) % len(self)])[:3]

    def __len__(self):
        """How many whole vertices there are."""
        return self._len // 4

    def __getitem__(self, index):
        if not -len(self) <= index < len(self):
            raise IndexError(f"there is no vertex {index}: the path has {len(self)}")
        at = 4 * (index % len(self))
        return Vertex(*self._lent[at : at + 4])

    def __iter__(self):
        return (self[index] for index in range(len(self)))

    def __eq__(self, other):
        """Whether all bits and the flags are the same."""
        if not isinstance(other, Path):
            return NotImplemented
        return self.closed == other.closed and self._bytes() == other._bytes()

    __hash__ = None

    def __repr__(self):
        return f"<Path of {len(self)} vertices, {'closed' if self.closed else 'open'}>"

    def _bytes(self):
        return bytes(self.numbers)


def path_of(path):
    """A path, or what an open one is made of."""
    return path if isinstance(path, Path) else Path(path)


def _numbers(vertices):
    """The bytes of a path's numbers."""
    try:
        view = memoryview(vertices)
    except TypeError:
        return _flat(vertices)
    if view.ndim == 2:
        if view.format in FLOAT64 and view.shape[1] == 4:
            return view.tobytes()
        return _flat(view.tolist())
    if view.ndim != 1 or view.format not in FLOAT64:
        raise TypeError(f"a flat buffer of float64 is wanted, not one of {view.ndim} dimensions and format {view.format!r}")
    return view.tobytes()


def _flat(vertices):
    numbers = array.array("d")
    for index, vertex in enumerate(vertices):
        try:
            vertex = tuple(vertex)
        except TypeError:
            raise TypeError(f"vertex {index} is {vertex!r}, and not (x, y, bulge) or (x, y, bulge, trace); "
                            'a flat run of numbers is handed over as array.array("d", ...)') from None
        if len(vertex) not in (3, 4):
            raise ValueError(f"vertex {index} has {len(vertex)} numbers, and not 3 or 4")
        numbers.extend(vertex if len(vertex) == 4 else vertex + (0.0,))
    return numbers.tobytes()
