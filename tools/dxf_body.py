#!/usr/bin/env python3
"""Takes the body of one polyline out of a drawing, as `vj_dxf_import` reads it.

    dxf_body.py FILE N [--round]

writes the N-th LWPOLYLINE of a DXF file to standard output, N from 1 on, in the order of the file, those of blocks too. Each
line ends in a newline, whatever the file has. Nothing else is changed.

An import takes numbers of at most six digits behind the point, without an exponent. If the polyline has another number, it is
left as it is, and standard error tells the line that the import would refuse. With --round each such number is rounded to six
digits, and standard error tells how far each one moved. The drawing is then another one: whether that may be is yours to decide.

If there is no such polyline, or the file is no DXF text, standard error says so and the exit status is 1.
"""
import decimal
import re
import sys

WHOLE = re.compile(rb" *[0-9]+")
NUMBER = re.compile(rb" *-?[0-9]+(?:\.[0-9]{1,6})?")
MINUS_ZERO = re.compile(rb" *-[0.]+")
# What other programs write for a number.
FLOAT = re.compile(rb"\s*[+-]?(?:[0-9]+\.?[0-9]*|\.[0-9]+)(?:[eE][+-]?[0-9]+)?\s*")
# The groups whose values an import reads: whole numbers, and numbers.
WHOLES, NUMBERS = (b"90", b"70"), (b"10", b"20", b"42")
SIX_DIGITS = decimal.Decimal("0.000001")
# Enough for every number that a drawing can have: no digit is lost before the rounding.
decimal.getcontext().prec = 2000


class Wrong(Exception):
    """A sentence for the user."""


def pairs_of(data):
    """The lines of a DXF file by pairs: a code and its value."""
    if data.startswith(b"AutoCAD Binary DXF"):
        raise Wrong("The file is a binary DXF file. Save it as text.")
    lines = data.replace(b"\r\n", b"\n").replace(b"\r", b"\n").removeprefix(b"\xef\xbb\xbf").split(b"\n")
    if lines[-1] == b"":
        lines.pop()
    for at in range(0, len(lines) - 1, 2):
        if not re.fullmatch(rb"\s*-?[0-9]+\s*", lines[at]):
            raise Wrong(f"The file is no DXF text: line {at + 1} is no group code.")
        yield lines[at], lines[at + 1]


def body_of(data, wanted):
    """The pairs of a polyline, with the one that names it."""
    found, body = 0, []
    for code, value in pairs_of(data):
        if code.strip() == b"0":
            if body:
                break
            if value.strip() == b"LWPOLYLINE":
                found += 1
                if found == wanted:
                    body.append((code, value))
        elif body:
            body.append((code, value))
    if not body:
        raise Wrong(f"There is no LWPOLYLINE {wanted}: the file has {found}.")
    return body


def is_number(line):
    return NUMBER.fullmatch(line) and not MINUS_ZERO.fullmatch(line)


def rounded(value):
    """The nearest number of six digits, and how far it is; nothing if the value is no number, or one beyond all drawings."""
    if not FLOAT.fullmatch(value):
        return None
    exact = decimal.Decimal(value.strip().decode("ascii"))
    try:
        near = exact.quantize(SIX_DIGITS, rounding=decimal.ROUND_HALF_EVEN)
    except decimal.InvalidOperation:
        return None
    text = "0.000000" if near == 0 else f"{near:f}"
    return text.encode("ascii"), abs(near - exact)


def turned(body, to_round):
    """The lines of a body; then what is said of it."""
    lines, said, refused = [], [], []
    for code, value in body:
        group = code.strip().lstrip(b"0") or b"0"
        if not WHOLE.fullmatch(code):
            refused.append(len(lines) + 1)
        lines.append(code)
        if to_round and group in NUMBERS and not is_number(value):
            near = rounded(value)
            if near:
                said.append((len(lines) + 1, value, *near))
                value = near[0]
        if group in WHOLES and not WHOLE.fullmatch(value) or group in NUMBERS and not is_number(value):
            refused.append(len(lines) + 1)
        lines.append(value)
    return lines, said, refused


def main(words):
    to_round = "--round" in words
    words = [word for word in words if word != "--round"]
    if len(words) != 2 or not re.fullmatch("[1-9][0-9]*", words[1]):
        raise Wrong("usage: dxf_body.py FILE N [--round], N from 1 on")
    try:
        with open(words[0], "rb") as file:
            data = file.read()
    except OSError as why:
        raise Wrong(f"The file cannot be read: {why.strerror}.") from why
    lines, said, refused = turned(body_of(data, int(words[1])), to_round)
    sys.stdout.buffer.write(b"".join(line + b"\n" for line in lines))
    for line, value, near, moved in said:
        was, now = value.strip().decode("ascii"), near.decode("ascii")
        print(f"line {line}: {was} is now {now}, moved by {moved:.3g}", file=sys.stderr)
    if to_round:
        most = max((moved for *_, moved in said), default=0)
        print(f"{len(said)} numbers rounded, the farthest moved by {most:.3g}", file=sys.stderr)
    if refused:
        print(f"The import would refuse line {refused[0]}: {lines[refused[0] - 1].decode('latin-1')!r}. "
              f"{len(refused)} lines are of another form." + ("" if to_round else " --round rounds numbers to six digits."),
              file=sys.stderr)


if __name__ == "__main__":
    try:
        main(sys.argv[1:])
    except Wrong as why:
        print(why, file=sys.stderr)
        sys.exit(1)
