"""Tries the checks of what people use, `.ci/users.sh`: each must fail where it should."""
import os
import shutil
import subprocess

from tries import Damaged, fails, passes, shell, stub


def try_users(tree):
    """What stands in for a library has nothing in it, and counts as made."""
    for folder in ("target/made", "target/staticlib", "with_rt"):
        (tree / folder).mkdir(parents=True)
    stub(tree / "with_rt/rt", "[ $1 = version ]")
    os.environ["PATH"] = f"{tree / 'with_rt'}:{os.environ['PATH']}"
    now = subprocess.run(["tools/make", "sum"], cwd=tree, check=True, capture_output=True, text=True).stdout
    for name in ("capi", "capi_large", "probe"):
        (tree / "target/made" / name).write_text(now)
        if shutil.which("ar"):
            subprocess.run(["ar", "rcs", tree / f"target/staticlib/lib{name}.a"], check=True)
    tools = tree / "few"
    tools.mkdir()
    for name in ("bash", "sh", "cat", "mktemp", "rm", "cmp", "tail", "grep", "sed", "sort", "paste"):
        (tools / name).symlink_to(shutil.which(name))
    for attempt in (try_lacks, try_examples, try_pkg_config, try_beside, try_fuzzing, try_rust, try_python):
        attempt(tree, tools)
    shutil.rmtree(tree / "target")


def try_lacks(tree, tools):
    for check, tool, what in (
        ("check_examples", "C compiler", "the examples in C"),
        ("check_beside false", "cargo", "stored layouts beside"),
        ("check_fuzzing", "C compiler", "the harnesses of the fuzzing"),
        ("check_rust_bindings", "cargo", "the Rust bindings"),
        ("check_python_bindings", "python3", "the Python bindings"),
    ):
        words = f"no {tool} on this machine"
        fails(f"{check} in CI", words, tree, *shell(check), CI="true", PATH=str(tools))
        passes(f"{check} at a user's", tree, *shell(check), words=f"{words}: LEFT OUT: {what}", PATH=str(tools))


# ---- the examples in C
RIGHT = '#include "vonjekona.h"\n#include <stdio.h>\nint main(void)\n{\n    printf("%d\\n", VJ_REFUSED);\n    return 0;\n}\n'


def try_examples(tree, tools):
    if not shutil.which("cc"):
        return
    run_examples = shell("run_examples shown target/staticlib/libcapi.a")
    shown = tree / "shown"
    shown.mkdir()
    fails("no examples", "no examples are stored", tree, *run_examples)
    source, printed = shown / "a.c", shown / "a.expected"
    source.write_text(RIGHT)
    fails("an example without a text", "does not print", tree, *run_examples)
    printed.write_text("256\n")
    passes("an example that prints its text", tree, *run_examples, words="ran 1 examples in C")
    printed.write_text("257\n")
    fails("an example that prints something else", "does not print", tree, *run_examples)
    printed.write_text("256\n")
    for what, old, new, words in (
        ("an example that fails", "return 0", "return 1", "a.c failed"),
        ("an example with a warning", "%d", "%s", "does not compile"),
        ("a call that the library lacks", "VJ_REFUSED", "(int)vj_abs(256)", "does not compile"),
    ):
        source.write_text(RIGHT.replace(old, new))
        fails(what, words, tree, *run_examples)
    if shutil.which("c++"):
        source.write_text(RIGHT.replace("VJ_REFUSED)", "class)").replace("{\n", "{\n    int class = VJ_REFUSED;\n"))
        fails("an example that is no C++", "does not compile with c++", tree, *run_examples)
    if shutil.which("valgrind"):
        source.write_text(RIGHT.replace("<stdio.h>", "<stdio.h>\n#include <stdlib.h>").replace(
            "return 0", "return calloc(1, 8) == (void *)1"))
        fails("an example that leaks", "not clean under valgrind", tree, *run_examples)
    source.write_text(RIGHT)
    few = tree / "cc_alone"
    shutil.copytree(tools, few, symlinks=True)
    for name in ("cc", "as", "ld"):
        (few / name).symlink_to(shutil.which(name))
    for words in ("LEFT OUT: the examples as C++", "LEFT OUT: the examples under it", "ran 1 examples in C, in 1 ways\n"):
        passes("cc and nothing else", tree, *run_examples, words=words, CI="true", PATH=str(few))
    other = shown / "b.expected"
    other.write_text("256\n")
    fails("a text without an example", "without an example", tree, *run_examples)
    other.unlink()


def try_pkg_config(tree, tools):
    check = shell("check_pkg_config shown/a")
    passes("no pkg-config", tree, *check, words="LEFT OUT: vonjekona.pc", PATH=str(tools))
    if not shutil.which("cc") or not shutil.which("pkg-config"):
        return
    passes("an example by pkg-config", tree, *check, words="compiled an example with pkg-config")
    for what, words, file, old, new in (
        ("a library that is not there", "vonjekona.pc has wrong words", "include/vonjekona.pc.in", "-lcapi_large", "-lcapi_none"),
        ("a folder that is not there", "vonjekona.pc has wrong words", "include/vonjekona.pc.in", r"^(Cflags:).*", "Cflags: -Inone"),
        ("no name", "pkg-config finds no vonjekona", "include/vonjekona.pc.in", "^Name:.*\n", ""),
        ("another text", "does not print its text", "shown/a.expected", "256", "257"),
    ):
        with Damaged(tree, file, old, new):
            fails(what, words, tree, *check)
    kept = tree / "target/staticlib/libcapi_large.a"
    kept.rename(tree / "kept.a")
    fails("a library that was not made", "include/install failed", tree, *check)
    (tree / "kept.a").rename(kept)


# ---- layouts beside the Rust text
def try_beside(tree, tools):
    compare = tree / "compare-stub"
    check, there = shell("check_beside ./compare-stub"), {"CAVALIER_SRC": "crates"}
    right = 'case "$2" in layouts/*) echo "files 3: equal 3" ;; *) sed -n "s/^    \\(file  .*\\)/\\1/p" docs/RELEASE.md ;; esac\n'
    with_cargo = {"PATH": f"{tree / 'with_cargo'}:{os.environ['PATH']}"}
    (tree / "with_cargo").mkdir()
    stub(tree / "with_cargo/cargo", "exit 1")
    stub(compare, right)
    passes("layouts that are equal", tree, *check, words="beside the Rust text: files 3: equal 3", **there, **with_cargo)
    for what, words, spoil in (
        ("a layout that differs", "a stored layout is not listed as", 'case "$2" in layouts/*) exit 1 ;; esac\n'),
        ("an accident that differs", "the accident's layouts are not listed as", 'case "$2" in compare/*) exit 1 ;; esac\n'),
        ("an accident without a word", "nothing is said of", 'case "$2" in compare/*) exit 0 ;; esac\n'),
        ("another text of the accident", "docs/RELEASE.md does not show: rows 7", 'case "$2" in compare/*) echo rows 7 ;; esac\n'),
    ):
        stub(compare, spoil + right)
        fails(what, words, tree, *check, **there, **with_cargo)
    nowhere = {"CAVALIER_SRC": "nowhere", **with_cargo}
    fails("beside no Rust text in CI", "no Rust text", tree, *check, CI="true", **nowhere)
    passes("beside no Rust text at a user's", tree, *check, words="no Rust text on this machine: LEFT OUT", **nowhere)


# ---- the fuzzing
def try_fuzzing(tree, _):
    if not shutil.which("cc"):
        return
    kept = (tree / "fuzz/test").read_text()
    stub(tree / "fuzz/test", "echo fuzzing: 5 first inputs pass")
    passes("harnesses that pass", tree, *shell("check_fuzzing"), words="gate: fuzzing: 5 first inputs pass")
    stub(tree / "fuzz/test", "echo a defect is not noticed; exit 1")
    fails("harnesses that fail", "a defect is not noticed", tree, *shell("check_fuzzing"))
    (tree / "fuzz/test").write_text(kept)
    fails("an empty library", "undefined reference", tree, *shell("check_fuzzing"))


# ---- the Rust bindings

# A stand-in for cargo.
CARGO = """word=$1
case "$*" in *beside/Cargo.toml*) word=beside ;; *--version*) word=version ;; esac
case $word in
test) echo 'test result: ok. 7 passed; 0 failed' ;;
run) cat bindings/rust/examples/coil.expected ;;
beside) echo 'pline_seg_intr 5 0' ;;
doc|clippy|version) ;;
*) exit 3 ;;
esac"""


def try_rust(tree, _):
    cargo = tree / "with_cargo/cargo"
    check = shell("check_rust_bindings")
    with_cargo = {"PATH": f"{cargo.parent}:{os.environ['PATH']}"}
    there = {"CAVALIER_SRC": "crates", **with_cargo}
    stub(cargo, CARGO)
    passes("Rust bindings that pass", tree, *check, words="gate: Rust bindings: 7 tests, OK\npline_seg_intr 5 0", **there)
    for what, words, old, new in (
        ("a test of Rust that fails", "a test of the Rust bindings failed", "7 passed; 0 failed'", "'; exit 1"),
        ("no test of Rust", "no test of the Rust bindings was run", "7 passed", "0 passed"),
        ("tests of Rust without a word", "no test of the Rust bindings was run", "echo 'test result: ok. 7 passed; 0 failed'", ":"),
        ("an example of Rust that fails", "the example of the Rust bindings failed", "coil.expected", "none"),
        ("an example of Rust that prints something else", "does not print its text", "coil.expected", "coil.rs"),
        ("documentation that fails", "the documentation of the Rust bindings", "doc|", "doc) exit 1 ;;\n"),
        ("what clippy finds", "clippy, of the Rust bindings", "|clippy|", ") ;;\nclippy) exit 1 ;;\n"),
        ("bindings that differ", "the Rust bindings and the Rust text differ", "5 0'", "5 1'; exit 1"),
    ):
        stub(cargo, CARGO.replace(old, new))
        fails(what, words, tree, *check, **there)
    stub(cargo, CARGO.replace("|version", ""))
    passes("no clippy", tree, *check, words="no clippy on this machine: LEFT OUT", CI="true", **there)
    stub(cargo, CARGO)
    nowhere = {"CAVALIER_SRC": "nowhere", **with_cargo}
    fails("Rust bindings beside no text in CI", "no Rust text", tree, *check, CI="true", **nowhere)
    passes("Rust bindings beside no text at a user's", tree, *check, words="no Rust text on this machine: LEFT OUT", **nowhere)


# ---- the Python bindings
TESTS = """import unittest
class Tests(unittest.TestCase):
    def test_one(self):
        self.assertTrue(1)
    @unittest.skip("numpy is not installed here: LEFT OUT")
    def test_other(self):
        self.fail()
"""


def try_python(tree, tools):
    if not shutil.which("cc"):
        return
    check, folder = shell("check_python_bindings"), tree / "bindings/python"
    shutil.rmtree(folder / "tests")
    (folder / "tests").mkdir()
    (folder / "tests/__init__.py").write_text("")
    tests = folder / "tests/test_one.py"
    tests.write_text(TESTS)
    stub(folder / "make", "echo made")
    for words in ("gate: Python bindings: numpy is not installed here: LEFT OUT\n", "Python bindings: 2 tests, OK (skipped=1)"):
        passes("Python bindings that pass", tree, *check, words=words, CI="true")
    for what, words, old, new in (
        ("a test of Python that fails", "a test of the Python bindings failed", "assertTrue(1)", "assertTrue(0)"),
        ("a test of Python that does not run", "a test of the Python bindings failed", "import unittest", "import unittests"),
        ("no test of Python", "of the Python bindings", "test_", "est_"),
    ):
        tests.write_text(TESTS.replace(old, new))
        fails(what, words, tree, *check)
    tests.write_text(TESTS)
    stub(folder / "make", "echo no library; exit 1")
    fails("a shared library that is not made", "the shared library is not made", tree, *check)
    stub(folder / "make", "echo made")
    (tools / "python3").symlink_to(shutil.which("python3"))
    fails("Python without a C compiler in CI", "no C compiler", tree, *check, CI="true", PATH=str(tools))
    passes("Python without a C compiler", tree, *check, words="LEFT OUT: the Python bindings", PATH=str(tools))
