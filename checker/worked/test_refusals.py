"""Words, texts, stacks and formulas that are refused."""

from __future__ import annotations

from worked.answers import ZERO_KEY, Worked

# A formula with which nothing is wrong.
TEN = "p cnf 10 1\n1 0\n"

# Worked by hand from the definitions.
FAULTS = [
    ("", TEN, 2, "s USAGE 1\n"),
    ("sample", TEN, 2, "s USAGE 1\n"),
    ("formula --speed 3", TEN, 2, "s USAGE 2\n"),
    ("formula --height", TEN, 2, "s USAGE 3\n"),
    ("formula --height 0", TEN, 2, "s USAGE 3\n"),
    (f"formula --key {ZERO_KEY} --key {ZERO_KEY}", TEN, 2, "s USAGE 4\n"),
    ("formula --stacks 0 --height 5", TEN, 2, "s USAGE 4\n"),
    ("check --height 5", TEN, 2, "s USAGE 2\n"),
    ("formula", "1 0\n", 3, "s MALFORMED 1 1\n"),
    ("formula", "", 3, "s MALFORMED 1 1\n"),
    ("formula", "p cnf 1 1 1\n", 3, "s MALFORMED 1 4\n"),
    ("formula", "p cnf 1 1\n-0 0\n", 3, "s MALFORMED 2 2\n"),
    ("check", "p cnf 1 1\n2 0\n", 3, "s MALFORMED 2 3\n"),
    ("formula", "p cnf 1 1\n1 0\n1 0\n", 3, "s COUNT 1 2\n"),
    ("formula", "p cnf 4194305 0\n", 4, "s LIMIT 2 1\n"),
    ("formula", "p cnf 0 4194305\n", 4, "s LIMIT 3 1\n"),
    ("formula", "p cnf 1 2\n1 0\n0\n", 6, "s EMPTY 2\n"),
    ("formula --stacks 0", "p cnf 2 0\n", 3, "s ROWS 1 2\n"),
    ("formula --stacks '0;'", "p cnf 2 0\n", 3, "s EMPTYROW 2\n"),
    ("formula --stacks '0,2;0'", "p cnf 2 0\n", 3, "s VALUE 1 1\n"),
    ("formula", "p cnf 3 2\n1 2 0\n1 3 0\n", 5, "s CLASH 1 2\n"),
    ("formula --stacks '0;0;0'", "p cnf 3 2\n1 2 0\n1 3 0\n", 5, "s CLASH 1 2\n"),
    ("check", "p cnf 3 2\n1 2 0\n1 3 0\n", 5, "s CLASH 1 2\n"),
    ("check", "p cnf 2 2\n1 0\n1 2 0\n", 5, "s CLASH 1 2\n"),
    # graphs: a header, a number, a vertex, a weight and a form that aren't one
    ("orient", "p edges 2 1\n", 3, "s MALFORMED 1 11\n"),
    ("orient", "p edge 2 1\ne 1 x\n", 3, "s MALFORMED 2 12\n"),
    ("orient", "p edge 2 1\ne 1 3\n", 3, "s MALFORMED 2 13\n"),
    ("tree", "p edge 2 1\ne 1 3\n", 3, "s MALFORMED 2 13\n"),
    ("orient", "p edge 2 1\ne 1 2 0\n", 3, "s MALFORMED 2 14\n"),
    ("orient", "p edge 2 1\ne 1\n", 3, "s MALFORMED 2 15\n"),
    ("tree", "c\n\n", 3, "s MALFORMED 3 11\n"),
    ("tree", "p edge 4194305 0\n", 4, "s LIMIT 2 1\n"),
    ("orient --root 1", TEN, 2, "s USAGE 2\n"),
    ("tree --root 0", TEN, 2, "s USAGE 3\n"),
    ("tree --root 4294967296", TEN, 2, "s USAGE 3\n"),
    ("tree --stacks 0 --height 5", TEN, 2, "s USAGE 4\n"),
    # a command reads its own grammar
    ("tree", TEN, 3, "s MALFORMED 1 11\n"),
    ("formula", "p edge 2 1\ne 1 2\n", 3, "s MALFORMED 1 1\n"),
    # what is looked at first is told first
    ("formula --stacks 0", "p cnf 3 2\n1 2 0\n1 3 0\n", 3, "s ROWS 1 3\n"),
    ("formula --stacks 0", "p cnf 3 3\n1 2 0\n1 3 0\n0\n", 6, "s EMPTY 3\n"),
]


class Refusals(Worked):
    """The first of several faults."""

    def test_the_first_fault_is_named(self) -> None:
        self.are_answered(FAULTS)
