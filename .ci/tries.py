"""What a test of the gate's scripts is made of: a copy of the tree, damage to it, and what a check must then say."""
import os
import pathlib
import re
import shutil
import subprocess

ROOT = pathlib.Path(__file__).resolve().parent.parent
failures, count = [], 0


def expect(what, true):
    global count
    count += 1
    if not true:
        failures.append(what)


def tally():
    """Prints what went wrong, and gives the exit status."""
    for failure in failures:
        print(failure)
    print(f"{count} tries of the gate's scripts, {len(failures)} went wrong")
    return 1 if failures else 0


def run(tree, *command, **environment):
    clean = {key: value for key, value in os.environ.items() if key not in ("CI", "CAVALIER_SRC")}
    done = subprocess.run(command, cwd=tree, capture_output=True, text=True, env={**clean, **environment})
    return done.returncode, done.stdout + done.stderr


def passes(what, tree, *command, words="", **environment):
    status, said = run(tree, *command, **environment)
    expect(f"{what}: it should pass, and says {said[-400:]}", status == 0 and words in said)


def fails(what, words, tree, *command, **environment):
    status, said = run(tree, *command, **environment)
    expect(f"{what}: it should fail with '{words}', and its status is {status}: {said[-400:]}", status != 0 and words in said)


class Damaged:
    """A file of the tree with one text changed, for as long as the block lasts."""

    def __init__(self, tree, file, old, new):
        self.path, self.old, self.new = tree / file, old, new

    def __enter__(self):
        self.text = self.path.read_text()
        found = re.search(self.old, self.text, re.M)
        expect(f"{self.path.name} has nothing to damage like {self.old}", found)
        if found:
            self.path.write_text(self.text[: found.start()] + self.new + self.text[found.end() :])

    def __exit__(self, *_):
        self.path.write_text(self.text)


def copied(folder):
    """A copy of the tree as it is, without what is generated."""
    listed = subprocess.run(["git", "ls-files", "-co", "--exclude-standard"], cwd=ROOT, capture_output=True, text=True,
                            check=True)
    for name in listed.stdout.splitlines():
        if (ROOT / name).is_file():
            (folder / name).parent.mkdir(parents=True, exist_ok=True)
            shutil.copy(ROOT / name, folder / name)
    for command in (["init", "-q"], ["add", "-A"]):
        subprocess.run(["git", *command], cwd=folder, check=True)
    return folder


def shell(function):
    return "bash", "-c", f"set -euo pipefail; source .ci/checks.sh; part=test; {function}"


def stub(path, text):
    path.write_text(f"#!/bin/sh\n{text}\n")
    path.chmod(0o755)
