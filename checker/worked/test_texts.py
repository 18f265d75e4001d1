"""Texts that are read, by the verdict of `check` or by their first refusal."""

from __future__ import annotations

from worked.answers import Worked

# Worked by hand from the format: a text, the status and the line.
HEADERS = [
    (" \t\r\n", 3, "s MALFORMED 2 1\n"),
    ("\n\n", 3, "s MALFORMED 3 1\n"),
    ("c\nc\nc", 3, "s MALFORMED 4 1\n"),
    ("p", 3, "s MALFORMED 1 1\n"),
    ("p cnf\n", 3, "s MALFORMED 1 1\n"),
    ("p cnf 1 x\n", 3, "s MALFORMED 1 1\n"),
    ("p cnf -1 1\n", 3, "s MALFORMED 1 1\n"),
    ("p cnf 1 4294967296\n", 3, "s MALFORMED 1 1\n"),
    ("p cnf 00000000001 1\n", 3, "s MALFORMED 1 1\n"),
    ("p cnf 0000000001 1\n1 0\n", 0, "s EXTREMAL 1\n"),
    ("P cnf 1 1\n", 3, "s MALFORMED 1 1\n"),
    ("pcnf 1 1\n", 3, "s MALFORMED 1 1\n"),
    ("%\np cnf 1 1\n1 0\n", 3, "s MALFORMED 1 1\n"),
    ("c\np cnf 1 1 c\n", 3, "s MALFORMED 2 4\n"),
    ("p cnf 4194305 4194305\n", 4, "s LIMIT 2 1\n"),
    ("p cnf 1 4194304\n", 3, "s COUNT 4194304 0\n"),
    ("p cnf 1 1\np cnf 1 1\n", 3, "s MALFORMED 2 2\n"),
    ("\tp\tcnf\t1\t1\n\t-1\t0\n", 0, "s EXTREMAL 1\n"),
]

WORDS = [
    ("p cnf 1 1\r\n1 0\r\n", 0, "s EXTREMAL 1\n"),
    ("p cnf 1 1\n+1 0\n", 3, "s MALFORMED 2 2\n"),
    ("p cnf 1 1\n1.0 0\n", 3, "s MALFORMED 2 2\n"),
    ("p cnf 1 1\n--1 0\n", 3, "s MALFORMED 2 2\n"),
    ("p cnf 1 1\n- 1 0\n", 3, "s MALFORMED 2 2\n"),
    ("p cnf 1 1\n1\x0b0\n", 3, "s MALFORMED 2 2\n"),
    ("p cnf 1 1\n1\x000\n", 3, "s MALFORMED 2 2\n"),
    ("p cnf 1 1\n2147483648 0\n", 3, "s MALFORMED 2 2\n"),
    ("p cnf 1 1\n2147483647 0\n", 3, "s MALFORMED 2 3\n"),
    ("p cnf 1 1\n-2 0\n", 3, "s MALFORMED 2 3\n"),
    ("p cnf 1 1\n00000000001 0\n", 3, "s MALFORMED 2 2\n"),
    ("p cnf 1 1\n0000000001 0\n", 0, "s EXTREMAL 1\n"),
    ("p cnf 1 1\n1 00\n", 0, "s EXTREMAL 1\n"),
    ("p cnf 1 1\n1 x 2\n2 0\n", 3, "s MALFORMED 2 2\n"),
    ("p cnf 1 1\n2 x\n", 3, "s MALFORMED 2 3\n"),
    ("p cnf 1 2\n1 0\nx\n-1 0\n", 3, "s MALFORMED 3 2\n"),
    ("p cnf 1 1\n1 c 0\n", 3, "s MALFORMED 2 2\n"),
    ("p cnf 1 1\n1%\n", 3, "s MALFORMED 2 2\n"),
    ("p cnf 0 1\n1 0\n", 3, "s MALFORMED 2 3\n"),
]

CLAUSES = [
    ("p cnf 1 1\n1", 0, "s EXTREMAL 1\n"),
    ("p cnf 1 1\n1\n%\n", 0, "s EXTREMAL 1\n"),
    ("p cnf 1 1\n1 0\n  %\nx y z\n", 0, "s EXTREMAL 1\n"),
    ("p cnf 1 1\n% x\n1 0\n", 3, "s COUNT 1 0\n"),
    ("p cnf 2 1\n1\nc 2 0\n-2 0\n", 0, "s EXTREMAL 1\n"),
    ("p cnf 2 1\n1\ncol\n-2 0\n", 0, "s EXTREMAL 1\n"),
    ("p cnf 0 1\n0\n", 6, "s EMPTY 1\n"),
    ("p cnf 1 2\n0\n0\n", 6, "s EMPTY 1\n"),
    ("p cnf 1 1\n1 0 1 0\n", 3, "s COUNT 1 2\n"),
    ("p cnf 1 3\n1 0\n", 3, "s COUNT 3 1\n"),
    ("p cnf 1 3\n0\n", 3, "s COUNT 3 1\n"),
    ("p cnf 2 2\n1 0 -1 0\n", 0, "s EXTREMAL 2\n"),
    ("p cnf 2 2\n1 0 1 0\n", 0, "s EXTREMAL 1\n"),
    ("p cnf 2 2\n1 -1 0\n2 -2 0\n", 0, "s EXTREMAL 0\n"),
    ("p cnf 3 3\n1 2 0\n-1 3 0\n-2 -3 0\n", 0, "s EXTREMAL 3\n"),
    ("p cnf 3 3\n1 2 0\n-1 3 0\n2 3 0\n", 5, "s CLASH 1 3\n"),
]

# A formula, and its answers where it is cut short: from so many bytes on, up to below so many, with the status and the
# output.
CUT = "p cnf 2 2\n1 2 0\n-1 2 0\n"
CUTS = [
    (0, 9, 3, "s MALFORMED 1 1\n"),
    (9, 11, 3, "s COUNT 2 0\n"),
    (11, 17, 3, "s COUNT 2 1\n"),
    (17, 18, 3, "s MALFORMED 3 2\n"),
    (18, 20, 1, "s EXHAUSTED\nstuck 2\nused 1 1\npops 1\n"),
    (20, 24, 0, "s SAMPLE\nv 1 2 0\nused 1 1\npops 1\n"),
]


class Texts(Worked):
    """Texts of formulas."""

    def are_checked(self, rows: list[tuple[str, int, str]]) -> None:
        """Each text is answered so by `check`."""
        self.are_answered(("check", *row) for row in rows)

    def test_the_header_is_the_first_line_that_is_not_passed_over(self) -> None:
        self.are_checked(HEADERS)

    def test_a_word_is_a_literal_or_an_end(self) -> None:
        self.are_checked(WORDS)

    def test_clauses_are_counted_and_give_events(self) -> None:
        self.are_checked(CLAUSES)

    def test_a_text_that_is_cut_short_is_answered_by_what_is_left(self) -> None:
        for start, end, status, output in CUTS:
            texts = (CUT[:length] for length in range(start, end))
            self.are_answered(("formula --stacks '0,1;0,1'", text, status, output) for text in texts)
