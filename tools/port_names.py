#!/usr/bin/env python3
"""Brings the repository's own names to today's spelling of Rattle. Used once, in the port to a newer Rattle (docs/PORT.md).

    tools/port_names.py before    on the older text: aliases that the kit's port.py takes for names of the newer library
    tools/port_names.py after --anyway    on what port.py made: the repository's own definitions and lemmas. Without --anyway it
        looks for names that fall together in a file; those that it finds are a field and a variable or a function, which do not

Both read and write the files below crates/ of the folder they are started in.
"""

import re
import sys
from pathlib import Path

# Aliases of modules of definitions. Each is written in snake case, which port.py reads as a sign that a text has been turned.
ALIASES = {"job_of": "JobDefs", "lines_of": "LineDefs", "box_of": "BoxDefs", "row_of": "RowDefs"}

# Lemmas whose names would fall together with those of the functions that they speak of, once both are in snake case. in-order is
# also a field's name, so it is renamed in one file.
LEMMAS = ("at-most by-code byte-of class-of in-group is-digit is-nan is-up no-call pair-of sides-apart words-of").split()
LEMMAS_IN = {"crates/finite/specs/Points.antt": ["in-order"]}


def texts():
    for path in sorted(Path("crates").rglob("*")):
        if path.suffix in (".rt", ".antt", ".edit") and path.is_file() and "out" not in path.parts:
            yield path


def before():
    for path in texts():
        old = text = path.read_text(encoding="utf-8")
        for alias, new in ALIASES.items():
            text = re.sub(rf"\bas {alias}\b", f"as {new}", text)
            text = re.sub(rf"(?<![\w.·-]){alias}\.(?=[A-Za-z])", f"{new}.", text)
        if path.suffix == ".antt":
            for lemma in LEMMAS + LEMMAS_IN.get(path.as_posix(), []):
                text = re.sub(rf"(?<![^\s(){{}},;]){lemma}(?![^\s(){{}},;.])", f"{lemma}-lem", text)
        if text != old:
            path.write_text(text, encoding="utf-8")


# What a name is made of, and a name in the older spelling: it begins with a small letter and has a capital after a small letter.
PIECE = re.compile(r"[\w'-]+")
OLDER = re.compile(r"(?=[\w'-]*[a-z0-9][A-Z])(?![\w'-]*-[A-Z])[a-z][\w'-]*")
# Words of proofs and clauses stand between these.
BETWEEN = re.compile(r"[\s(){};,.«»\"@]+")

# A fact that is computed, so its name is a type's; elsewhere the name is a number's.
FACTS = {"beforeEnd": "BeforeEnd"}
FACTS_IN = ("listing_calls", "large_listings", "large_promise")


def snake(name):
    return re.sub(r"(?<=[A-Za-z0-9])([A-Z])", lambda found: "_" + found[1].lower(), name)


def code_of(path, text):
    return re.sub(r"--[^\n]*" if path.suffix == ".antt" else r"//[^\n]*", " ", text)


def after():
    """In files of proofs and definitions, and in the clauses of the sources, turns each name of ours to snake case. It looks for
    names that fall together in a file, and then writes nothing."""
    files = {path: path.read_text(encoding="utf-8") for path in texts()}
    words = {path: set(BETWEEN.split(code_of(path, text))) for path, text in files.items() if path.suffix != ".edit"}
    older = {word for found in words.values() for word in found if OLDER.fullmatch(word)}
    clashes = [
        f"{path}: {word} would be {snake(word)}, which stands there already"
        for path, found in sorted(words.items())
        if path.suffix == ".antt"
        for word in sorted(older & found)
        if snake(word) in found and f".{snake(word)}." not in files[path]
    ]
    if clashes and "--anyway" not in sys.argv:
        sys.exit("\n".join(clashes))
    pages = {path: path.read_text(encoding="utf-8") for path in [Path("README.md"), *sorted(Path("docs").rglob("*.md"))]}
    for path, text in (files | pages).items():
        here = text
        if len(path.parts) > 1 and path.parts[1] in FACTS_IN:
            here = PIECE.sub(lambda found: FACTS.get(found[0], found[0]), here)
        new = PIECE.sub(lambda found: snake(found[0]) if found[0] in older else found[0], here)
        if new != text:
            path.write_text(new, encoding="utf-8")


if __name__ == "__main__":
    if sys.argv[1:] == ["before"]:
        before()
    elif sys.argv[1:2] == ["after"]:
        after()
    else:
        sys.exit(__doc__)
