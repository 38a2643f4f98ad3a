"""The lines of README.md that a user types."""
import doctest
import re
import unittest

from .common import BINDINGS

README = (BINDINGS / "README.md").read_text(encoding="utf-8")


class Typed(unittest.TestCase):
    def test_sessions(self):
        failed, tried = doctest.testfile(str(BINDINGS / "README.md"), module_relative=False, encoding="utf-8", verbose=False)
        self.assertEqual(failed, 0)
        self.assertGreater(tried, 4)

    def test_the_picture(self):
        lines = re.search(r"((?:    .*\n)+)", README[README.index("## Pictures") :]).group(1)
        names = {}
        exec("\n".join(line[4:] for line in lines.splitlines()), names)
        self.assertIn("mark-0", names["text"])

    def test_names(self):
        """Every name in the table of calls is there."""
        import vonjekona
        table = README[README.index("| C | Python |") : README.index("Those with large arcs")]
        names = set(re.findall(r"`(?:vj_)?([a-z]\w+)(?:`|\()", table)) - {"vj_"}
        self.assertGreater(len(names), 20)
        for name in names - {"self", "the"}:
            self.assertTrue(callable(getattr(vonjekona, name)), name)


if __name__ == "__main__":
    unittest.main()
