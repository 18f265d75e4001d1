"""What the documents say is what the module says; they stand beside this folder in the repository."""

import doctest
import pkgutil
import unittest
from pathlib import Path

import popsample
from popsample import errors

from .checks import kinds_below

TOP = Path(__file__).resolve().parents[2]
FORMATS = TOP / "docs" / "FORMATS.md"
# The modules whose exceptions a caller of the functions meets.
RAISING = {"popsample.errors"}
PAGES = [TOP / "README.md", TOP / "python" / "README.md"]


def load_tests(loader, tests, pattern):
    """Adds what the pages show behind '>>>', without the fences of blocks, and the examples of all docstrings."""
    for page in filter(Path.exists, PAGES):
        shown = page.read_text(encoding="utf-8").replace("```", "")
        tests.addTest(doctest.DocTestCase(doctest.DocTestParser().get_doctest(shown, {}, page.name, str(page), 0)))
    for module in ("popsample", *(found.name for found in pkgutil.walk_packages(popsample.__path__, "popsample."))):
        if not module.endswith("__main__"):
            tests.addTest(doctest.DocTestSuite(module))
    return tests


def flat(tests):
    """The single tests of a suite, or a test that is none."""
    return [one for each in tests for one in flat(each)] if isinstance(tests, unittest.TestSuite) else [tests]


class Examples(unittest.TestCase):
    def test_each_function_for_samples_has_one_that_is_run(self):
        found = {test.id().rpartition(".")[2] for test in flat(load_tests(None, unittest.TestSuite(), None))}
        self.assertLessEqual({"spanning_tree", "solution", "samples", "resample", "Key", "Assignment"}, found)


@unittest.skipUnless(FORMATS.exists(), "docs/FORMATS.md isn't there")
class Formats(unittest.TestCase):
    @classmethod
    def setUpClass(cls):
        cls.text = FORMATS.read_text(encoding="utf-8")
        table = cls.text.partition("## Answers\n")[2].partition("\n## ")[0]
        cls.rows = [[cell.strip() for cell in line.split("|")[1:-1]] for line in table.splitlines() if line[:1] == "|"]

    def test_the_table_comes_first(self):
        self.assertEqual(self.text.partition("\n## ")[2].partition("\n")[0], "Answers")

    def test_each_exception_has_its_row(self):
        rows = {getattr(popsample, row[3].strip("`")): row for row in self.rows if row[3].startswith("`")}
        refusals = kinds_below(errors.Refusal) - {errors.InputRefusal, errors.StacksError}
        self.assertEqual(set(rows), {*refusals, errors.Paused})
        for kind, (status, form, sentence, _) in rows.items():
            with self.subTest(kind.__name__):
                self.assertEqual((int(status), sentence), (kind.status, kind.sentence))
                self.assertIn(f"`{kind.form}`" if kind.form else "none", form)

    def test_each_first_line_has_its_row(self):
        shown = {row[1].split("`")[1].split()[1] for row in self.rows if "`s " in row[1]}
        told = {line.split()[1] for line in self.text.splitlines() if line.startswith("s ")}
        self.assertLessEqual(told, shown)

    def test_reasons_and_limits(self):
        for code, reason in errors.REASONS.items():
            self.assertIn(f"\n| {code} | {reason} |", self.text)
        for kind, limit in errors.LIMITS.items():
            self.assertIn(f"\n| {kind} | {limit} |", self.text)

    def test_all_names_are_told(self):
        raised = {kind for kind in kinds_below(popsample.Error) if kind.__module__ in RAISING}
        self.assertLessEqual({kind.__name__ for kind in raised}, set(popsample.__all__))
        public = (name for name, value in vars(popsample).items() if callable(value) and not name.startswith("_"))
        self.assertLessEqual(set(public), set(popsample.__all__))


if __name__ == "__main__":
    unittest.main()
