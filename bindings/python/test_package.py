"""The package itself: its version, its types, and the examples of its pages and docstrings.

Expected values are worked out by hand from the rules, or by plain Python over the same numbers."""
import contextlib
import io
import os
import re
import unittest
from typing import Any

import livevec


class Package(unittest.TestCase):
    def test_it_has_the_version_of_the_repository(self) -> None:
        with open(os.path.join(os.path.dirname(os.path.abspath(__file__)), "..", "..", "VERSION"), encoding="utf-8") as file:
            self.assertEqual(livevec.__version__, file.read().strip())

    def test_it_says_that_it_has_types(self) -> None:
        self.assertTrue(os.path.isfile(os.path.join(os.path.dirname(livevec.__file__), "py.typed")))


class Page(unittest.TestCase):
    def test_its_programs_print_what_they_say(self) -> None:
        with open(os.path.join(os.path.dirname(os.path.abspath(__file__)), "README.md"), encoding="utf-8") as file:
            page = file.read()
        programs = [it for it in re.findall(r"^```python\n(.*?)^```$", page, re.M | re.S) if "import numpy" not in it]
        self.assertEqual(len(programs), 6)
        for program in programs:
            wanted = re.findall(r"(?:print\(.*\)|^) +# (.*)$", program, re.M)
            said = io.StringIO()
            with contextlib.redirect_stdout(said):
                exec(program, {})
            self.assertEqual(said.getvalue().splitlines(), wanted)


def load_tests(loader: Any, tests: Any, _pattern: Any) -> Any:
    import doctest

    tests.addTests(doctest.DocTestSuite(livevec))
    return tests


if __name__ == "__main__":
    unittest.main()
