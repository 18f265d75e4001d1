"""The manual page says what the wrapper and docs/FORMATS.md say; both are beside this folder in the repository."""

import re
import shutil
import subprocess
import unittest

from popsample import errors
from popsample._wrapper.program_words import COMMANDS, OPTIONS

from .front_calls import FORMATS

MANUAL = FORMATS.with_name("popsample.1")


def numbers(text: str) -> set[int]:
    """Return the numbers above 1 in a text; 0 and 1 are everywhere."""
    return {int(number) for number in re.findall(r"\d+", re.sub(r"(?<=\d),(?=\d{3})", "", text)) if int(number) > 1}


def items(text: str) -> dict[str, str]:
    """Return the items of the first list in a part of the page: their heads, and what follows each."""
    listed = text.partition(".Bl ")[2].partition("\n.El")[0]
    parts = listed.split("\n.It ")[1:]
    return {part.partition("\n")[0]: part.partition("\n")[2] for part in parts}


def cells(text: str, head: str) -> list[list[str]]:
    """Return the rows of a table of a Markdown page, whose first line is known: the cells of each."""
    table = text.partition(head)[2].partition("\n\n")[0]
    return [[cell.strip() for cell in line.split("|")[1:-1]] for line in table.splitlines() if line[:2] == "| "]


def rows(text: str, head: str) -> dict[str, list[str]]:
    """Return the same by the first cells, without backquotes: the others of each row."""
    return {row[0].strip("`"): row[1:] for row in cells(text, head)}


@unittest.skipUnless(MANUAL.exists(), "docs/popsample.1 isn't there")
class Manual(unittest.TestCase):
    @classmethod
    def setUpClass(cls):
        cls.page = MANUAL.read_text(encoding="utf-8")
        cls.formats = FORMATS.read_text(encoding="utf-8")
        cls.options = {
            f"-{head.split()[1]}": text for head, text in items(cls.part("The options are", "The commands take")).items()
        }

    @classmethod
    def part(cls, begin: str, end: str) -> str:
        """The page from one text to another."""
        return cls.page.partition(f"\n{begin}")[2].partition(f"\n{end}")[0]

    def test_the_commands(self):
        listed = items(self.part("The commands are", "The options are"))
        self.assertEqual([head.removeprefix("Cm ") for head in listed], list(COMMANDS))
        self.assertEqual(set(rows(self.formats, "\n| Command | Input |")), set(COMMANDS))
        used = re.findall(r"(?m)^\.Nm\n\.Cm ([a-z]+)", self.page.partition(".Sh SYNOPSIS")[2].partition(".Sh ")[0])
        self.assertEqual(used, list(COMMANDS))

    def test_the_options(self):
        self.assertEqual(set(self.options), set(OPTIONS))
        told = rows(self.formats, "\n| Option | For |")
        self.assertEqual(set(told), {*OPTIONS, "grid"})

    def test_the_options_of_each_command(self):
        taken = items(self.part("The commands take these", ".Ss Input"))
        found = {
            head.removeprefix("Cm "): {f"-{option}" for option in re.findall(r"(?m)^\.Fl (\S+)", text)}
            for head, text in taken.items()
        }
        wanted = {
            command: {name for name, option in OPTIONS.items() if command in option.commands} for command in COMMANDS
        }
        self.assertEqual(found, wanted)

    def test_ranges_and_defaults(self):
        told = rows(self.formats, "\n| Option | For |")
        for name, option in OPTIONS.items():
            with self.subTest(name):
                wanted = numbers(" ".join(told[name][1:]))
                self.assertLessEqual(wanted, numbers(self.options[name]))
                self.assertLessEqual(numbers(option.meaning), wanted)

    def test_the_statuses(self):
        listed = items(self.part(".Sh EXIT STATUS", ".Ss Codes"))
        shown: dict[str, set[str]] = {}
        for statuses, line, *_ in cells(self.formats, "\n| Status | First line |"):
            for status in statuses.split(", "):
                shown.setdefault(status, set()).update(re.findall(r"`(s [A-Z]+|witness none|cert 1)", line))
        self.assertEqual(set(listed), {str(status) for status in range(12)})
        self.assertEqual(set(shown), set(listed))
        for status in set(listed) - {"0"}:
            for line in shown[status] - {"s LEGAL"}:
                self.assertIn(line, listed[status], status)

    def test_codes_and_limits(self):
        codes = items(self.part(".Ss Codes of s MALFORMED", ".Ss Kinds"))
        self.assertEqual(set(codes), {str(code) for code in errors.REASONS})
        kinds = items(self.part(".Ss Kinds of s LIMIT", ".Sh EXAMPLES"))
        told = rows(self.formats, "\n| Kind | Limit |")
        self.assertEqual(set(kinds), set(told) - {"---"})
        for kind, text in kinds.items():
            self.assertEqual(numbers(text), numbers(told[kind][0]), kind)

    @unittest.skipUnless(shutil.which("mandoc"), "mandoc isn't installed")
    def test_it_is_well_formed(self):
        ran = subprocess.run(["mandoc", "-T", "lint", "-W", "warning", str(MANUAL)], stdout=subprocess.PIPE, text=True)
        self.assertEqual((ran.returncode, ran.stdout), (0, ""))


if __name__ == "__main__":
    unittest.main()
