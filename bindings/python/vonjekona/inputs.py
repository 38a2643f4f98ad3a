"""Paths from files: layouts as texts and packed files, bodies and DXF drawings.

A layout has two paths, a body has one, and a drawing has one for each of its LWPOLYLINEs. FILE:N names the N-th path of FILE
alone, from 1 on.
"""
import pathlib
import re
import sys
import tempfile
from typing import NamedTuple

from . import drawings, layouts
from .paths import Path
from .refusals import Refusal

FORMS = {".txt": "text", ".packed": "packed", ".body": "body", ".dxf": "dxf"}


class Wrong(Exception):
    """A sentence for the user: a file that cannot be read, or a word that means nothing here."""


class Given(NamedTuple):
    """A path, what it is called, and what read it."""

    path: Path
    name: str
    reader: str


class Broken(Exception):
    """A refusal that came before there was a path, with the name of what was read."""

    def __init__(self, name, refusal):
        super().__init__(f"{name}: {refusal}")
        self.name, self.refusal = name, refusal


def read(word, form=None, reader=None, large=False):
    """The paths that a word of the command names. `reader` is for drawings: ezdxf or import; else ezdxf where it is installed."""
    file, wanted = _named(word)
    form = form or FORMS.get(pathlib.PurePath(file).suffix.lower())
    if form is None:
        raise Wrong(f"{file} ends in none of {', '.join(FORMS)}: say what it is with --form")
    data = _bytes_of(file)
    if form == "dxf":
        return _of_drawing(file, data, wanted, reader, large)
    if form == "body":
        paths = [_kept(file, _import(large), data)]
    else:
        paths = list(_kept(file, layouts.read_text if form == "text" else layouts.read_packed, data))
    given = [Given(path, f"{file}:{at}", form) for at, path in enumerate(paths, 1)]
    return given if wanted is None else [given[_at(file, wanted, len(given))]]


def _named(word):
    """The file and the path's number, if the word has one."""
    matched = re.fullmatch(r"(.+):([1-9][0-9]{0,8})", word, re.DOTALL)
    if not matched or pathlib.Path(word).exists():
        return word, None
    return matched.group(1), int(matched.group(2))


def _at(file, wanted, count):
    if wanted > count:
        raise Wrong(f"there is no path {wanted} in {file}: it has {count}")
    return wanted - 1


def _bytes_of(file):
    try:
        return sys.stdin.buffer.read() if file == "-" else pathlib.Path(file).read_bytes()
    except OSError as why:
        raise Wrong(f"{file} cannot be read: {why.strerror}") from why


def _kept(name, read_it, data):
    """What a reader makes of bytes; of a refusal the name is kept."""
    try:
        return read_it(data)
    except Refusal as refusal:
        raise Broken(name, refusal) from refusal


def _import(large):
    return drawings.dxf_import_large if large else drawings.dxf_import


def _of_drawing(file, data, wanted, reader, large):
    ezdxf = _ezdxf() if reader != "import" else None
    if reader == "ezdxf" and ezdxf is None:
        raise Wrong("ezdxf is not installed here")
    if ezdxf:
        by = f"ezdxf {ezdxf.__version__}"
        made = [lambda line=line: _path_of(line) for line in _polylines(ezdxf, file, data)]
    else:
        by = "vj_dxf_import_large" if large else "vj_dxf_import"
        made = [lambda body=body: _import(large)(body) for body in bodies(file, data)]
    chosen = range(len(made)) if wanted is None else [_at(file, wanted, len(made))]
    if not made:
        raise Wrong(f"{file} has no LWPOLYLINE")
    if len(chosen) > 2:
        raise Wrong(f"{file} has {len(made)} paths: name one or two, as {file}:1")
    return [Given(_kept(f"{file}:{at + 1}", lambda _, at=at: made[at](), None), f"{file}:{at + 1}", by) for at in chosen]


def bodies(file, data):
    """The bodies of a drawing's LWPOLYLINEs in the order of the file, as tools/dxf_body.py takes them out."""
    if data.startswith(b"AutoCAD Binary DXF"):
        raise Wrong(f"{file} is a binary DXF file: save it as text")
    lines = data.replace(b"\r\n", b"\n").replace(b"\r", b"\n").removeprefix(b"\xef\xbb\xbf").split(b"\n")
    if lines[-1] == b"":
        lines.pop()
    found, within = [], False
    for at in range(0, len(lines) - 1, 2):
        code, value = lines[at], lines[at + 1]
        if not re.fullmatch(rb"\s*-?[0-9]+\s*", code):
            raise Wrong(f"{file} is no DXF text: line {at + 1} is no group code")
        if code.strip() == b"0":
            within = value.strip() == b"LWPOLYLINE"
            if within:
                found.append(b"")
        if within:
            found[-1] += code + b"\n" + value + b"\n"
    return found


def _ezdxf():
    try:
        import ezdxf
    except ImportError:
        return None
    return ezdxf


def _polylines(ezdxf, file, data):
    """ezdxf's LWPOLYLINEs in the order of the file, those of blocks too. It reads strictly: a damaged file is not repaired."""
    try:
        entities = _strictly(ezdxf, data)
        handles = [_handle(body) for body in bodies(file, data)]
        found = [entities.get(handle) for handle in handles]
    except Wrong:
        raise
    except Exception as why:  # whatever another program's reader meets in a damaged file, it is no crossing
        raise Wrong(f"ezdxf cannot read {file}: {why or type(why).__name__}") from why
    if None in found:
        raise Wrong(f"ezdxf does not find every polyline of {file} by its handle: try --reader import")
    return found


def _strictly(ezdxf, data):
    """All entities of a drawing, by handle. ezdxf finds out a file's encoding itself, and so needs a file."""
    with tempfile.NamedTemporaryFile(suffix=".dxf") as copy:
        copy.write(data)
        copy.flush()
        try:
            return ezdxf.readfile(copy.name).entitydb
        except OSError as why:
            raise ValueError("it is no DXF file") from why


def _handle(body):
    """The handle of an entity, group 5, by which ezdxf knows it."""
    lines = body.decode("latin-1").split("\n")
    return next((value.strip() for code, value in zip(lines[::2], lines[1::2]) if code.strip() == "5"), None)


def _path_of(polyline):
    return Path(polyline.get_points("xyb"), closed=polyline.closed)
