"""The one command that makes the shared library, and where the package finds it."""
import os
import pathlib
import shutil
import subprocess
import sys
import tempfile
import unittest

from vonjekona import library

from .common import BINDINGS, REPOSITORY

STATICLIB = pathlib.Path(os.environ.get("VONJEKONA_LIB", REPOSITORY / "target" / "staticlib"))


class Build(unittest.TestCase):
    def setUp(self):
        self.folder = pathlib.Path(self.enterContext(tempfile.TemporaryDirectory())) if hasattr(self, "enterContext") else None
        if self.folder is None:
            kept = tempfile.TemporaryDirectory()
            self.addCleanup(kept.cleanup)
            self.folder = pathlib.Path(kept.name)

    def make(self, *words, **environment):
        return subprocess.run([BINDINGS / "make", *map(str, words)], stdout=subprocess.PIPE, stderr=subprocess.STDOUT, text=True,
                              env={**os.environ, **environment}, cwd=self.folder)

    @unittest.skipIf(shutil.which("cc") is None or not (STATICLIB / "libcapi.a").exists(), "no cc, or no archives: LEFT OUT")
    def test_it_is_made_and_found(self):
        target = self.folder / "new" / "lib.so"
        done = self.make(target, VONJEKONA_LIB=str(STATICLIB))
        self.assertEqual((done.returncode, done.stdout), (0, f"{target}\n"))
        self.assertEqual([file.name for file in target.parent.iterdir()], ["lib.so"])
        answer = self.root_of_two(VONJEKONA_SO=str(target))
        self.assertEqual(answer, "1.4142135623730951")
        shutil.copy(target, self.folder / "here.so")
        self.assertEqual(self.root_of_two(VONJEKONA_SO="here.so"), answer)
        # A copy of the package with the library beside it, far from the repository.
        shutil.copytree(BINDINGS / "vonjekona", self.folder / "vonjekona")
        shutil.copy(target, self.folder / "vonjekona" / library.NAME)
        self.assertEqual(self.root_of_two(PYTHONPATH=str(self.folder), VONJEKONA_SO=""), answer)

    def root_of_two(self, **environment):
        done = subprocess.run([sys.executable, "-c", "import vonjekona; print(vonjekona.sqrt(2))"], stdout=subprocess.PIPE,
                              stderr=subprocess.STDOUT, text=True, cwd=self.folder,
                              env={**os.environ, "PYTHONPATH": str(BINDINGS), **environment})
        return done.stdout.strip()

    @unittest.skipIf(shutil.which("cc") is None or not (STATICLIB / "libcapi.a").exists(), "no cc, or no archives: LEFT OUT")
    def test_archives_that_are_missing_are_made(self):
        """In a repository without target/, by a tools/make that hands out the archives that we have."""
        shutil.copytree(BINDINGS, self.folder / "bindings" / "python", ignore=shutil.ignore_patterns("__pycache__", "*.so"))
        tools = self.folder / "tools"
        tools.mkdir()
        (tools / "make").write_text(f'#!/bin/sh\ncd "{self.folder}"\necho "$@" >> asked\nmkdir -p target/staticlib\n'
                                    f'cp "{STATICLIB}/lib$1.a" target/staticlib\n')
        (tools / "rt").write_text("#!/bin/sh\n")
        for tool in ("make", "rt"):
            (tools / tool).chmod(0o755)
        make = [self.folder / "bindings" / "python" / "make"]
        environment = {**os.environ, "PATH": f"{tools}:{os.environ['PATH']}", "VONJEKONA_LIB": ""}
        for _ in range(2):
            subprocess.run(make, stdout=subprocess.DEVNULL, stderr=subprocess.DEVNULL, env=environment, check=True)
        self.assertEqual((self.folder / "asked").read_text(), "capi\ncapi_large\n")
        self.assertTrue((self.folder / "target" / "python" / library.NAME).exists())
        answer = self.root_of_two(PYTHONPATH=str(self.folder / "bindings" / "python"), VONJEKONA_SO="")
        self.assertEqual(answer, "1.4142135623730951")
        # And where it fails, that is said.
        shutil.rmtree(self.folder / "target")
        (tools / "make").write_text("#!/bin/sh\nexit 1\n")
        done = subprocess.run(make, stdout=subprocess.PIPE, stderr=subprocess.STDOUT, env=environment, text=True)
        self.assertEqual(done.returncode, 1)
        self.assertIn("did not make", done.stdout)

    @unittest.skipIf(shutil.which("cc") is None, "no cc: LEFT OUT")
    def test_what_is_missing_is_named(self):
        done = self.make(self.folder / "lib.so", VONJEKONA_LIB=str(self.folder))
        self.assertEqual(done.returncode, 1)
        self.assertIn("libcapi.a is not there", done.stdout)
        self.assertFalse((self.folder / "lib.so").exists())

    @unittest.skipIf(shutil.which("cc") is None or not (STATICLIB / "libcapi.a").exists(), "no cc, or no archives: LEFT OUT")
    def test_a_library_without_a_call_is_not_put_in_place(self):
        shutil.copy(STATICLIB / "libcapi.a", self.folder / "libcapi.a")
        (self.folder / "libcapi_large.a").write_bytes(b"!<arch>\n")
        done = self.make(self.folder / "lib.so", VONJEKONA_LIB=str(self.folder))
        self.assertEqual(done.returncode, 1)
        self.assertIn("has no vj_", done.stdout)
        self.assertFalse((self.folder / "lib.so").exists())

    def test_the_words_where_there_is_none(self):
        with self.assertRaises(library.NoLibrary) as raised:
            library.load(self.folder / "none.so")
        self.assertIn("bindings/python/make", str(raised.exception))


class Header(unittest.TestCase):
    def test_every_call_of_the_header_is_declared(self):
        import re
        text = re.sub(r"/\*.*?\*/", "", (REPOSITORY / "include" / "vonjekona.h").read_text(), flags=re.DOTALL)
        calls = dict(re.findall(r"\b(?:uint64_t|double) vj_(\w+)\(([^)]*)\)", text))
        self.assertEqual(set(calls), set(library.CALLS) | set(library.FUNCTIONS))
        kinds = {"double": "c_double", "const double *": "LP_c_double", "double *": "LP_c_double", "uint64_t": "c_ulong",
                 "uint64_t *": "LP_c_ulong", "const uint64_t *": "LP_c_ulong", "size_t": "c_ulong", "bool": "c_bool",
                 "const uint8_t *": "LP_c_ubyte", "uint8_t *": "LP_c_ubyte"}
        for name, arguments in calls.items():
            types = [kinds[re.sub(r"\w+$", "", " ".join(argument.split())).strip()] for argument in arguments.split(",")]
            declared = library.CALLS.get(name) or library.FUNCTIONS[name][0]
            self.assertEqual([kind.__name__ for kind in declared], types, name)

    def test_every_call_has_a_function(self):
        import vonjekona
        for name in {**library.CALLS, **library.FUNCTIONS}:
            self.assertTrue(callable(getattr(vonjekona, "self_" if name == "self" else name)), name)


if __name__ == "__main__":
    unittest.main()
