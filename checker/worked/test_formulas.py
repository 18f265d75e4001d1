"""Formulas that are sampled and checked."""

from __future__ import annotations

from worked.answers import ZERO_KEY, Worked, answer, chain

# Worked by hand from the definitions.
RUNS = [
    ("formula --stacks 0,0,1", "p cnf 1 1\n1 0\n", 0, "s SAMPLE\nv 1 0\nused 2\npops 2\n"),
    ("formula --stacks 1,0", "p cnf 1 1\n-1 0\n", 0, "s SAMPLE\nv -1 0\nused 1\npops 1\n"),
    ("formula --stacks 0,0", "p cnf 1 1\n1 0\n", 1, "s EXHAUSTED\nstuck 1\nused 1\npops 1\n"),
    ("formula --stacks ''", "p cnf 0 0\n", 0, "s SAMPLE\nv 0\nused\npops 0\n"),
    # popping goes on past a stuck event
    ("formula --stacks '0;0,0,1'", "p cnf 2 2\n1 0\n2 0\n", 1, "s EXHAUSTED\nstuck 1\nused 0 2\npops 2\n"),
    ("formula --stacks '0,1;0,1'", "p cnf 2 2\n1 2 0\n-1 2 0\n", 0, "s SAMPLE\nv 1 2 0\nused 1 1\npops 1\n"),
    # a comment within a clause, a clause with a variable and its negation, a last clause
    # without its 0
    ("formula --stacks '0;0;1'", "c by hand\np cnf 3 2\n1 -2\nc in the middle\n0\n2 3\n%\n0\n", 0,
     "s SAMPLE\nv -1 -2 3 0\nused 0 0 0\npops 0\n"),
    # the first entries under the key of zeros are 1 and 0 (RFC 8439, A.1, vector 1)
    (f"formula --key {ZERO_KEY}", "p cnf 1 1\n-1 0\n", 0, "s SAMPLE\nv -1 0\nused 1\npops 1\n"),
    (f"formula --height 1 --key {ZERO_KEY}", "p cnf 1 1\n1 0\n", 0, "s SAMPLE\nv 1 0\nused 0\npops 0\n"),
    ("formula --height 1", "p cnf 1 1\n-1 0\n", 1, "s EXHAUSTED\nstuck 1\nused 0\npops 0\n"),
]

VERDICTS = [
    ("check", "p cnf 2 3\n1 2 0\n2 1 0\n1 -1 0\n", 0, "s EXTREMAL 1\n"),
    ("check", "p cnf 0 0\n", 0, "s EXTREMAL 0\n"),
]


class Formulas(Worked):
    """Samples of formulas, and whether they are extremal."""

    def test_runs_end_as_worked_by_hand(self) -> None:
        self.are_answered_by_all(RUNS)

    def test_verdicts_are_those_worked_by_hand(self) -> None:
        self.are_answered(VERDICTS)

    def test_the_sample_of_a_chain_satisfies_each_clause(self) -> None:
        """Clause i asks 2i - 1, 2i and the negation of 2i + 1; it is false exactly where these three stand in the line
        of the sample with the opposite signs.
        """
        status, output = answer(f"formula --key {ZERO_KEY}", chain())
        self.assertEqual(status, 0)
        self.assertTrue(output.startswith("s SAMPLE\nv "))
        for i in range(1, 100):
            self.assertNotIn(f" -{2 * i - 1} -{2 * i} {2 * i + 1} ", output)
