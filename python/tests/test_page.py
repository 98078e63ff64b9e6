"""The examples of docs/PYTHON.md, run as a reader would: in order, in one Python.

Those that need numpy, pandas or matplotlib are run where these are.
"""

import doctest
import importlib.util
import os
import re
import tempfile
import unittest

import havgrunel
from havgrunel import _library

PAGE = os.path.join(_library.REPOSITORY, "docs", "PYTHON.md")
# Sections of the page that need more than the standard library.
NEED = {"numpy", "pandas", "A picture with matplotlib"}


def sections():
    """The page's sections with examples: (heading, examples)."""
    with open(PAGE, encoding="utf-8") as file:
        parts = re.split(r"^## (.*)$", file.read(), flags=re.MULTILINE)
    found = [(heading, doctest.DocTestParser().get_doctest(text, {}, heading, PAGE, 0)) for heading, text in zip(parts[1::2], parts[2::2])]
    return [(heading, test) for heading, test in found if test.examples]


class Page(unittest.TestCase):
    def run_sections(self, wanted):
        """Runs the sections of the standard library, and the one that is wanted; answers how many examples were run."""
        names, count, told = {}, 0, []
        here = os.getcwd()
        with tempfile.TemporaryDirectory() as folder:
            os.chdir(folder)
            try:
                for heading, test in sections():
                    if heading in NEED and heading != wanted:
                        continue
                    test.globs = names
                    runner = doctest.DocTestRunner()
                    runner.run(test, out=told.append, clear_globs=False)
                    count += len(test.examples)
                    self.assertEqual(runner.failures, 0, "".join(told))
            finally:
                os.chdir(here)
        return count

    def test_the_standard_library_is_enough(self):
        self.assertGreater(self.run_sections(None), 25)

    def run_where_installed(self, module, heading):
        if importlib.util.find_spec(module) is None:
            self.skipTest(f"there is no {module} for this Python")
        self.run_sections(heading)

    def test_numpy(self):
        self.run_where_installed("numpy", "numpy")

    def test_pandas(self):
        self.run_where_installed("pandas", "pandas")

    def test_matplotlib(self):
        self.run_where_installed("matplotlib", "A picture with matplotlib")

    def test_the_sections_that_need_more_are_there(self):
        self.assertLessEqual(NEED, {heading for heading, _ in sections()})

    def test_the_docstring_s_example(self):
        self.assertEqual(doctest.testmod(havgrunel), (0, 4))

    def test_lines_fit(self):
        with open(PAGE, encoding="utf-8") as file:
            self.assertEqual([line for line in file.read().splitlines() if len(line) > 100], [])


if __name__ == "__main__":
    unittest.main()
