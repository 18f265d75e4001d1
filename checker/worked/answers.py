"""What the tests of this folder share: how words and a text are answered, and by which crews."""

from __future__ import annotations

import os
import shlex
import subprocess
import unittest
from typing import Iterable, Sequence, Tuple

from verifier.judging import judge

# The built program.
PROGRAM = os.environ["POPSAMPLE"]
ZERO_KEY = "0" * 64

# The words that ask for a crew: for so many workers, on the one board and on the other.
CREWS = [f"--workers {workers} --board {board}" for board in ("words", "lock") for workers in (1, 2, 8, 64)]

# The words, as a shell reads them, the text, the status and the output.
Row = Tuple[str, str, int, str]


def answer(words: str, text: str) -> tuple[int, str]:
    """The status and the output of words and a text."""
    run = subprocess.run([PROGRAM, *shlex.split(words)], input=text.encode(), stdout=subprocess.PIPE, check=False)
    return run.returncode, run.stdout.decode()


def judged_answer(words: str, text: str) -> tuple[int, str]:
    """The same, which the checker judges."""
    status, output = answer(words, text)
    judge(output.encode(), status, shlex.split(words), text.encode())
    return status, output


def chain() -> str:
    """A chain of clauses, each of which shares a variable with the next, so that they are extremal: clause i asks
    2i - 1, 2i and the negation of 2i + 1.
    """
    return "p cnf 200 99\n" + "".join(f"{2 * i - 1} {2 * i} -{2 * i + 1} 0\n" for i in range(1, 100))


class Worked(unittest.TestCase):
    """Rows that were worked by hand."""

    def are_answered(self, rows: Iterable[Row], crews: Sequence[str] = ()) -> None:
        """Each row is answered so, where no crew is asked for and by each of these, and the checker agrees."""
        for words, text, status, output in rows:
            judge(output.encode(), status, shlex.split(words), text.encode())
            for crew in ("", *crews):
                with self.subTest(words=words, text=text[:60], crew=crew):
                    self.assertEqual(answer(f"{words} {crew}", text), (status, output))

    def are_answered_by_all(self, rows: Iterable[Row]) -> None:
        """Each row is answered so, where no crew is asked for and by each crew."""
        self.are_answered(rows, CREWS)

    def all_print_alike(self, words: str, text: str) -> int:
        """Each crew prints what is printed where none is asked for: with the status, which is given."""
        status, output = answer(words, text)
        self.are_answered_by_all([(words, text, status, output)])
        return status
