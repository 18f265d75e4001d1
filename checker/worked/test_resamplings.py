"""Formulas that are resampled: their clauses may clash, and the log tells the order of pops."""

from __future__ import annotations

from worked.answers import CREWS, ZERO_KEY, Worked, judged_answer

# Worked by hand from the definitions, on formulas that leave the order of pops no choice.
LOGS = [
    ("resample --stacks 0,0,1", "p cnf 1 1\n1 0\n", 0,
     "s SAMPLE\nv 1 0\nused 2\npops 2\nlog 2 2\npop 1 1 1:0\npop 2 1 1:1\n"),
    # the event that still occurs is told by its number, that of its first clause
    ("resample --stacks 0,0", "p cnf 1 2\n1 -1 0\n1 0\n", 1,
     "s EXHAUSTED\nstuck 2\nused 1\npops 1\nlog 2 1\npop 1 2 1:0\n"),
    ("resample --stacks ''", "p cnf 0 0\n", 0, "s SAMPLE\nv 0\nused\npops 0\nlog 2 0\n"),
    # each clause occurs as soon as the one before it is popped
    ("resample --stacks '0,0;1,0,0;0,1'", "p cnf 3 2\n1 -2 0\n2 3 0\n", 0,
     "s SAMPLE\nv -1 -2 3 0\nused 1 2 1\npops 2\nlog 2 2\npop 1 1 1:0 2:0\npop 2 2 2:1 3:0\n"),
    # under the key of zeros the first entries are 1 and 0 (RFC 8439, A.1, vector 1)
    (f"resample --key {ZERO_KEY}", "p cnf 1 1\n-1 0\n", 0,
     "s SAMPLE\nv -1 0\nused 1\npops 1\nlog 2 1\npop 1 1 1:0\n"),
    ("resample --height 1", "p cnf 1 1\n-1 0\n", 1, "s EXHAUSTED\nstuck 1\nused 0\npops 0\nlog 2 0\n"),
    ("resample", "p cnf 1 2\n1 0\n0\n", 6, "s EMPTY 2\n"),
    ("resample --stacks '0,2;0'", "p cnf 2 0\n", 3, "s VALUE 1 1\n"),
]

WITNESSES = [
    ("resample --stacks 0,0,1 --witness 1,1", "p cnf 1 1\n1 0\n", 0,
     "s SAMPLE\nv 1 0\nused 2\npops 2\nlog 2 2\npop 1 1 1:0\npop 2 1 1:1\nwitness 2\nwit 0 1 1=0\nwit 1 1 1=0\n"),
    ("resample --witness 1,0 --stacks 0,0,1", "p cnf 1 1\n1 0\n", 0,
     "s SAMPLE\nv 1 0\nused 2\npops 2\nlog 2 2\npop 1 1 1:0\npop 2 1 1:1\nwitness 1\nwit 0 1 1=0\n"),
    # no pop used the entry: the status is 6, also where an event still occurs
    ("resample --stacks 0,0 --witness 1,01", "p cnf 1 1\n1 0\n", 6,
     "s EXHAUSTED\nstuck 1\nused 1\npops 1\nlog 2 1\npop 1 1 1:0\nwitness none 1 1 1\n"),
    ("resample --stacks 0,0,1 --witness 1,2", "p cnf 1 1\n1 0\n", 6,
     "s SAMPLE\nv 1 0\nused 2\npops 2\nlog 2 2\npop 1 1 1:0\npop 2 1 1:1\nwitness none 1 2 2\n"),
    # the pop is there, and an event still occurs
    ("resample --stacks 0,0 --witness 1,0", "p cnf 1 1\n1 0\n", 1,
     "s EXHAUSTED\nstuck 1\nused 1\npops 1\nlog 2 1\npop 1 1 1:0\nwitness 1\nwit 0 1 1=0\n"),
    # names that no variable has
    ("resample --stacks 1 --witness 0,0", "p cnf 1 1\n1 0\n", 6,
     "s SAMPLE\nv 1 0\nused 0\npops 0\nlog 2 0\nwitness none 0 0 0\n"),
    ("resample --stacks 1 --witness 4294967295,7", "p cnf 1 1\n1 0\n", 6,
     "s SAMPLE\nv 1 0\nused 0\npops 0\nlog 2 0\nwitness none 4294967295 7 0\n"),
]

# Two clauses that clash: `formula` refuses them, and here either pop removes both.
CLASHING = "p cnf 3 2\n1 2 0\n1 3 0\n"
RESAMPLE = "resample --stacks '0,1;0,0;0,0'"
FIRST = "s SAMPLE\nv 1 -2 -3 0\nused 1 1 0\npops 1\nlog 2 1\npop 1 1 1:0 2:0\n"
SECOND = "s SAMPLE\nv 1 -2 -3 0\nused 1 0 1\npops 1\nlog 2 1\npop 1 2 1:0 3:0\n"

# The witness of an entry of variable 1: with the status, behind the first log and behind the second.
OF_EITHER = [
    ("1,0", 0, "witness 1\nwit 0 1 1=0 2=0\n", "witness 1\nwit 0 2 1=0 3=0\n"),
    ("1,1", 6, "witness none 1 1 1\n", "witness none 1 1 1\n"),
]


class Resamplings(Worked):
    """Runs whose order of pops is free."""

    def test_the_log_stands_behind_the_end(self) -> None:
        self.are_answered(LOGS)

    def test_clauses_may_clash(self) -> None:
        for crew in CREWS:
            status, output = judged_answer(f"{RESAMPLE} {crew}", CLASHING)
            self.assertEqual(status, 0)
            self.assertIn(output, (FIRST, SECOND))

    def test_the_witness_stands_behind_the_log(self) -> None:
        self.are_answered(WITNESSES)

    def test_a_witness_is_that_of_the_log_before_it(self) -> None:
        for entry, wanted, of_first, of_second in OF_EITHER:
            for crew in CREWS:
                status, output = judged_answer(f"{RESAMPLE} {crew} --witness {entry}", CLASHING)
                self.assertEqual(status, wanted)
                self.assertIn(output, (FIRST + of_first, SECOND + of_second))
