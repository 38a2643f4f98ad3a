"""Paths from drawings, and to them: the body of one LWPOLYLINE entity of a DXF file."""
import ctypes

from . import library, refusals
from .paths import Path, path_of
from .refusals import answered

# Always enough: a path of more vertices is refused with 7.
MOST_VERTICES = 4096


def dxf_import(text):
    """The path of a body, bytes or a string."""
    return _import("dxf_import", text, False)


def dxf_import_large(text):
    """dxf_import for bulges up to 16."""
    return _import("dxf_import_large", text, True)


def dxf_export(path):
    """The body of a path, as bytes."""
    return _export("dxf_export", path_of(path), 51, False)


def dxf_export_large(path):
    """dxf_export for bulges up to 16."""
    return _export("dxf_export_large", path_of(path), 52, True)


def _import(name, text, large):
    text = text.encode() if isinstance(text, str) else bytes(text)
    lent = (ctypes.c_uint8 * max(1, len(text))).from_buffer_copy(text or b"\0")
    room = 4 * MOST_VERTICES
    numbers, told = library.floats(room), library.words(2)
    answered(library.call(name)(lent, len(text), numbers, room, told, 2), refusals.ONE_PATH, large=large)
    return Path(memoryview(numbers)[: 4 * told[0]], closed=told[1] == 1)


def _export(name, path, bytes_a_vertex, large):
    # VJ_DXF_BYTES and VJ_DXF_BYTES_LARGE of the header. A last vertex that is not whole is refused.
    room = 13 + bytes_a_vertex * len(path)
    text, told = (ctypes.c_uint8 * room)(), library.words(1)
    answered(library.call(name)(*path.lent, text, room, told, 1), refusals.ONE_PATH, large=large)
    return bytes(text[: told[0]])
