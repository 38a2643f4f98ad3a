"""Makes the shared library: python3 -m vonjekona.build [FILE]

Links libcapi.a and libcapi_large.a to libvonjekona.so with cc, or with what CC names. The archives are those of the folder
that VONJEKONA_LIB names, else of target/staticlib; there `tools/make` makes what is missing. FILE is where the library
goes; else it goes to target/python, where the package looks for it.
"""
import os
import pathlib
import shlex
import shutil
import subprocess
import sys
import tempfile

from . import library

ARCHIVES = ("capi", "capi_large")


class Wrong(Exception):
    """A sentence for the user."""


def archives():
    """The two archives, made if they are missing and can be made."""
    named = os.environ.get("VONJEKONA_LIB")
    folder = pathlib.Path(named) if named else library.REPOSITORY / "target" / "staticlib"
    files = []
    for name in ARCHIVES:
        file = folder / f"lib{name}.a"
        if not file.exists():
            if named:
                raise Wrong(f"{file} is not there, and VONJEKONA_LIB names its folder")
            _make(name, file)
        files.append(file)
    return files


def _make(name, file):
    if shutil.which("rt") is None:
        raise Wrong(f"{file} is not there, and the Rattle kit's rt, which makes it, is not on the PATH")
    print(f"tools/make {name}", file=sys.stderr)
    if subprocess.run([library.REPOSITORY / "tools" / "make", name]).returncode != 0 or not file.exists():
        raise Wrong(f"`tools/make {name}` did not make {file}")


def build(target):
    """Links the library to a file that is put into its place whole, once every call has been found in it."""
    cc = shlex.split(os.environ.get("CC", "cc"))
    if shutil.which(cc[0]) is None:
        raise Wrong(f"there is no C compiler {cc[0]} on the PATH, which links the library")
    files = archives()
    target.parent.mkdir(parents=True, exist_ok=True)
    with tempfile.TemporaryDirectory(dir=target.parent) as folder:
        made = pathlib.Path(folder) / library.NAME
        words = [*cc, "-shared", "-o", str(made), "-Wl,--whole-archive", *map(str, files), "-Wl,--no-whole-archive",
                 "-Wl,--no-undefined", "-lm"]
        linked = subprocess.run(words, stdout=subprocess.PIPE, stderr=subprocess.STDOUT, text=True)
        if linked.returncode != 0:
            raise Wrong(f"{shlex.join(words)}\n{linked.stdout}the library is not linked")
        library.load(made)
        os.replace(made, target)


def main(words):
    if len(words) > 1 or words[:1] in (["-h"], ["--help"]):
        print(__doc__.strip())
        return 0 if len(words) == 1 else 1
    target = pathlib.Path(words[0]).resolve() if words else library.MADE
    try:
        build(target)
    except (Wrong, OSError) as why:
        print(why, file=sys.stderr)
        return 1
    print(target)
    return 0


if __name__ == "__main__":
    sys.exit(main(sys.argv[1:]))
