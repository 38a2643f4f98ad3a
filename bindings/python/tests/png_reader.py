"""Reads a PNG file of eight bits a colour, with or without transparency."""
import struct
import zlib


class Picture:
    """Width and height in pixels; a pixel is (red, green, blue)."""

    def __init__(self, data):
        assert data[:8] == b"\x89PNG\r\n\x1a\n"
        at, packed = 8, b""
        while at < len(data):
            length, kind = struct.unpack(">I4s", data[at : at + 8])
            part = data[at + 8 : at + 8 + length]
            if kind == b"IHDR":
                self.width, self.height, depth, colour, _, _, interlaced = struct.unpack(">IIBBBBB", part)
            elif kind == b"IDAT":
                packed += part
            at += 12 + length
        assert depth == 8 and colour in (2, 6) and not interlaced
        self._size = 3 if colour == 2 else 4
        self._rows = _rows(zlib.decompress(packed), self.width * self._size, self.height, self._size)

    def pixel(self, x, y):
        return tuple(self._rows[y][self._size * x : self._size * x + 3])

    def colours(self):
        """All colours that it has."""
        size = self._size
        return {pixel for row in set(self._rows) for pixel in zip(row[0::size], row[1::size], row[2::size])}


def _rows(raw, line, height, size):
    rows, above = [], bytes(line)
    for at in range(0, height * (line + 1), line + 1):
        above = _unfiltered(raw[at], raw[at + 1 : at + 1 + line], above, size)
        rows.append(above)
    return rows


def _unfiltered(kind, row, above, size):
    """A row whose bytes were stored as differences: from none, the left, the one above, their mean, or the nearest guess."""
    if kind == 0 or kind == 2 and not any(above):
        return row
    if kind == 2:
        return bytes(a + b & 0xFF for a, b in zip(row, above))
    row = bytearray(row)
    for at in range(len(row)):
        left, up = row[at - size] if at >= size else 0, above[at]
        if kind == 4:
            corner = above[at - size] if at >= size else 0
            to_left, to_up, to_corner = abs(up - corner), abs(left - corner), abs(left + up - 2 * corner)
            near = left if to_left <= to_up and to_left <= to_corner else up if to_up <= to_corner else corner
        else:
            near = left if kind == 1 else (left + up) // 2
        row[at] = row[at] + near & 0xFF
    return bytes(row)
