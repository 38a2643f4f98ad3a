"""Layouts in their two forms, the text and the packed form, read as docs/FORMATS.md says and as the programs do."""
import re
from typing import NamedTuple

from .paths import Path
from .refusals import broken_packed, broken_text

MOST_VERTICES, MOST_BYTES = 256, 16384
COORDINATE, BULGE = 1048576, 65536

COUNT = rb"(0|[1-9][0-9]{0,2})"
NUMBER = rb"(0|-?[1-9][0-9]{0,6})"
COUNTS = re.compile(COUNT + b" " + COUNT)
VERTEX = re.compile(NUMBER + b" " + NUMBER + b" " + NUMBER)


class Layout(NamedTuple):
    """The two paths of a layout."""

    first: Path
    second: Path


def read_text(data):
    """The layout of a text, or refusal 10."""
    lines = bytes(data).split(b"\n")
    if len(data) > MOST_BYTES or lines.pop() != b"" or not lines:
        raise broken_text()
    counts = COUNTS.fullmatch(lines[0])
    if not counts:
        raise broken_text()
    first, second = (int(count) for count in counts.groups())
    if first > MOST_VERTICES or second > MOST_VERTICES or len(lines) != 1 + first + second:
        raise broken_text()
    vertices = []
    for line in lines[1:]:
        numbers = VERTEX.fullmatch(line)
        if not numbers:
            raise broken_text()
        x, y, bulge = (int(number) for number in numbers.groups())
        if abs(x) > COORDINATE or abs(y) > COORDINATE or abs(bulge) > BULGE:
            raise broken_text()
        vertices.append((x, y, bulge))
    return _layout(vertices, first)


def read_packed(data):
    """The layout of a packed file, or refusal 18 with the offset."""
    reader = _Reader(bytes(data))
    first, second = reader.count(), reader.count()
    vertices = [(reader.number(COORDINATE), reader.number(COORDINATE), reader.number(BULGE)) for _ in range(first + second)]
    if reader.at != len(reader.data):
        raise broken_packed(reader.at)
    return _layout(vertices, first)


def _layout(vertices, first):
    floats = [(x, y, bulge / BULGE) for x, y, bulge in vertices]
    return Layout(Path(floats[:first]), Path(floats[first:]))


class _Reader:
    """Reads the numbers of a packed file one after the other. A fault's offset is that of its number's first byte."""

    def __init__(self, data):
        self.data, self.at = data, 0

    def _whole(self, most):
        """A number of seven bits a byte, lowest first, the top bit set while more follow, in no more bytes than it needs."""
        number, at = 0, self.at
        while True:
            # Of a number beyond every limit not all bytes need be read.
            if at == len(self.data) or at - self.at > 4:
                raise broken_packed(self.at)
            byte = self.data[at]
            number |= (byte & 0x7F) << 7 * (at - self.at)
            at += 1
            if byte < 0x80:
                break
        padded = byte == 0 and at - self.at > 1
        if padded or number > most:
            raise broken_packed(self.at)
        self.at = at
        return number

    def count(self):
        return self._whole(MOST_VERTICES)

    def number(self, limit):
        """A number up to a limit either way: n as 2n, or -2n - 1 if it is negative."""
        # -limit - 1 has the code 2 limit + 1, and is one too far.
        code = self._whole(2 * limit)
        return code >> 1 if code & 1 == 0 else -(code >> 1) - 1
