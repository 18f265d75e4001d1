"""Formulas that are sampled by rounds."""

from __future__ import annotations

from worked.answers import ZERO_KEY, Worked, answer, chain

# Worked by hand from the definitions.
ROUNDS = [
    # Both clauses are false, and variable 1 moves on once.
    ("rounds --stacks '0,1;0,0;0,0'", "p cnf 3 2\n1 2 0\n1 3 0\n", 0,
     "s SAMPLE\nv 1 -2 -3 0\nused 1 1 1\nrounds 1\n"),
    # Event 2 doesn't occur, and joins.
    ("rounds --stacks '0,1;0,0;1,1'", "p cnf 3 2\n1 2 0\n2 3 0\n", 0, "s SAMPLE\nv 1 -2 3 0\nused 1 1 1\nrounds 1\n"),
    # Event 2 is excluded, and variable 3, which is at its last entry, stays.
    ("rounds --stacks '0,1;0,0;0'", "p cnf 3 2\n1 2 0\n-2 3 0\n", 0, "s SAMPLE\nv 1 -2 -3 0\nused 1 1 0\nrounds 1\n"),
    ("rounds --stacks 0,0", "p cnf 1 1\n1 0\n", 1, "s EXHAUSTED\nstuck 1\nused 1\nrounds 1\nshort 1\n"),
    ("rounds --height 1", "p cnf 0 0\n", 0, "s SAMPLE\nv 0\nused\nrounds 0\n"),
    ("rounds", "p cnf 1 1\n0\n", 6, "s EMPTY 1\n"),
    ("rounds --stacks '0;0'", "p cnf 1 1\n1 0\n", 3, "s ROWS 2 1\n"),
    ("rounds", "p cnf 1 2\n1 0\n", 3, "s COUNT 2 1\n"),
    ("rounds --workers 2", "p cnf 1 1\n1 0\n", 2, "s USAGE 2\n"),
]


class Rounds(Worked):
    """Partial rejection sampling by rounds."""

    def test_rounds_end_as_worked_by_hand(self) -> None:
        self.are_answered(ROUNDS)

    def test_rounds_of_a_chain_have_the_sample_of_its_pops(self) -> None:
        _, pops = answer(f"formula --key {ZERO_KEY}", chain())
        _, rounds = answer(f"rounds --key {ZERO_KEY}", chain())
        self.assertTrue(pops.startswith("s SAMPLE\nv "))
        self.assertEqual(rounds.partition("rounds ")[0], pops.partition("pops ")[0])
