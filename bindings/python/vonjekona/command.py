"""The command `python3 -m vonjekona list`."""
import argparse
import fractions
import json
import os
import sys

from . import inputs, listings, pages, picture, words
from .library import NoLibrary
from .paths import Path
from .progress import Progress
from .refusals import Refusal

NONE, CROSSINGS, REFUSED, WRONG = 0, 1, 2, 3

ABOUT = """\
Lists where two paths meet, or one path meets itself.

A file gives its paths: a layout, text (.txt) or packed (.packed), has two; a body (.body) has one; a DXF drawing (.dxf) has
one for each LWPOLYLINE. FILE:N is the N-th path of FILE alone. Name one or two paths in all: one is listed with itself, two
with each other. So `list LAYOUT` lists the two paths of a layout, `list A.dxf B.dxf` those of two drawings with one polyline
each, and `list LAYOUT:1` the first path of a layout with itself."""

ENDS = """\
Exit status: 0 no crossing, 1 crossings, 2 refused (the place is told in words), 3 anything else. "No crossing" is the
library's answer: docs/LIMITS.md says where it can be wrong."""


class _Parser(argparse.ArgumentParser):
    def error(self, message):
        self.print_usage(sys.stderr)
        self.exit(WRONG, f"{self.prog}: {message}\n")


def _epsilon(text):
    """A decimal number, or a fraction such as 1/1024. Its limits are the call's to check."""
    try:
        return float(fractions.Fraction(text)) if "/" in text else float(text)
    except (ValueError, ZeroDivisionError, OverflowError) as why:
        raise argparse.ArgumentTypeError(f"{text!r} is no number") from why


def _parser():
    parser = _Parser(prog="python3 -m vonjekona")
    calls = parser.add_subparsers(dest="call", required=True, metavar="list")
    one = calls.add_parser("list", help="list crossings", description=ABOUT, epilog=ENDS,
                           formatter_class=argparse.RawDescriptionHelpFormatter)
    one.add_argument("files", nargs="+", metavar="FILE[:N]", help="a file, or a path of it; - is standard input")
    one.add_argument("--svg", metavar="OUT", help="write a picture too")
    one.add_argument("--json", action="store_true", help="print one JSON object in place of the table")
    one.add_argument("--boxed", action="store_true", help="look only at pairs whose boxes meet")
    one.add_argument("--large", action="store_true", help="take bulges up to 16")
    one.add_argument("--closed", action="store_true", help="list every path as closed, whatever its file says")
    one.add_argument("--epsilon", type=_epsilon, default=1 / 1024, metavar="E", help="1/1024 if it is not given")
    one.add_argument("--form", choices=sorted(set(inputs.FORMS.values())), help="what the files are, whatever their names end in")
    one.add_argument("--reader", choices=("ezdxf", "import"),
                     help="what reads a drawing: ezdxf, used where it is installed, or this library's import")
    return parser


def main(arguments):
    """Runs the command, and answers its exit status. No exception ends it with 1, which means crossings."""
    try:
        options = _parser().parse_args(arguments)
        return _list(options)
    except (inputs.Wrong, NoLibrary) as why:
        print(f"vonjekona: {why}", file=sys.stderr)
    except BrokenPipeError:
        # Whoever read the output has gone: nothing more is said, not at the interpreter's end either.
        os.dup2(os.open(os.devnull, os.O_WRONLY), sys.stdout.fileno())
    except OSError as why:
        print(f"vonjekona: {why}", file=sys.stderr)
    except KeyboardInterrupt:
        print("vonjekona: broken off", file=sys.stderr)
    except Exception as why:
        print(f"vonjekona: {type(why).__name__}: {why}", file=sys.stderr)
    return WRONG


def _list(options):
    try:
        given = [path for file in options.files for path in inputs.read(file, options.form, options.reader, options.large)]
    except inputs.Broken as broken:
        if options.svg:
            print("vonjekona: no picture is written: there is no path to draw", file=sys.stderr)
        return _tell_refusal(options, [], broken.refusal, str(broken), broken.name)
    if len(given) > 2:
        raise inputs.Wrong("name one or two paths in all; these are " + ", ".join(one.name for one in given))
    if options.closed:
        given = [one._replace(path=Path(one.path, closed=True)) for one in given]
    paths = [one.path for one in given]
    try:
        rows, pairs = _boxed(options, paths) if options.boxed else _by_pages(options, paths)
    except Refusal as refusal:
        _draw(options, given, (), refusal)
        at = given[refusal.path].name + ": " if refusal.path is not None else ""
        return _tell_refusal(options, given, refusal, f"{at}{refusal}", given[refusal.path or 0].name)
    _draw(options, given, rows, None)
    _tell_rows(options, given, rows, pairs)
    return CROSSINGS if rows else NONE


def _boxed(options, paths):
    name = ("mutual" if len(paths) == 2 else "self") + "_boxed" + ("_large" if options.large else "")
    boxed = getattr(listings, name)(*paths, options.epsilon)
    return boxed.rows, boxed.pairs


def _by_pages(options, paths):
    """The rows of a chain of pages, and how many pairs there are. Files have no traces, so no pair is skipped."""
    name = ("mutual" if len(paths) == 2 else "self") + "_pages" + ("_large" if options.large else "")
    rows = []
    with Progress(sys.stderr) as progress:
        for page in getattr(pages, name)(*paths, options.epsilon, seconds=0.1):
            rows += page.rows
            progress.show(page.position, page.pairs)
    return rows, page.pairs


def _draw(options, given, rows, refusal):
    if options.svg:
        title = ", ".join(os.path.basename(one.name) for one in given)
        text = picture.draw(*(one.path for one in given), rows=rows, refusal=refusal, title=title)
        with open(options.svg, "w", encoding="utf-8") as file:
            file.write(text)


def _heads(given):
    return [{"name": one.name, "vertices": len(one.path), "closed": one.path.closed, "reader": one.reader} for one in given]


def _object(options, given, pairs, rows, refused):
    """What --json prints. Keys may be added."""
    return {
        "paths": _heads(given),
        "epsilon": options.epsilon if options.epsilon - options.epsilon == 0 else str(options.epsilon),
        "boxed": options.boxed,
        "large": options.large,
        "pairs": pairs,
        "rows": rows,
        "refused": refused,
    }


def _print_json(value):
    """One JSON object, a key to a text line, and of a list one entry to a line."""
    lines = []
    for key, part in value.items():
        entries = [json.dumps(entry, allow_nan=False) for entry in part] if isinstance(part, list) else []
        text = "[\n  " + ",\n  ".join(entries) + "\n ]" if entries else json.dumps(part, allow_nan=False)
        lines.append(f" {json.dumps(key)}: {text}")
    print("{\n" + ",\n".join(lines) + "\n}")


def _row_object(number, row):
    named = row._asdict()
    points = named.pop("points")
    return {"row": number, **{key.rstrip("_"): value for key, value in named.items()}, "class": row.class_.word, "points": points}


def _tell_rows(options, given, rows, pairs):
    if options.json:
        _print_json(_object(options, given, pairs, [_row_object(number, row) for number, row in enumerate(rows)], None))
    else:
        for order, head in zip(("first", "second"), _heads(given)):
            which = f"{order} path" if len(given) == 2 else "the path"
            flag = "closed" if head["closed"] else "open"
            print(f"{which}: {head['name']}, {head['vertices']} vertices, {flag}, read as {head['reader']}")
        for line in words.table(rows) if rows else ():
            print(line)
        print(f"{pairs} pairs, {len(rows)} rows" + (": no crossing" if not rows else ""))
    sys.stdout.flush()


def _tell_refusal(options, given, refusal, sentence, name):
    if options.json:
        told = {key: getattr(refusal, key)
                for key in ("number", "item", "path", "vertex", "segment", "line", "offset", "words")}
        _print_json(_object(options, given, None, [], {**told, "name": name}))
        sys.stdout.flush()
    print(sentence, file=sys.stderr)
    if refusal.number == 20:
        print("Numbers of a drawing have at most six digits behind the point: tools/dxf_body.py --round rounds them, and says"
              " how far each one moved; ezdxf, where it is installed, reads all digits.", file=sys.stderr)
    return REFUSED
