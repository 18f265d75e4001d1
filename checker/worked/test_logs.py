"""Logs, witnesses and reports behind ends that are determined."""

from __future__ import annotations

from worked.answers import ZERO_KEY, Worked, chain

# Two clauses that share no variable.
TWICE = "p cnf 2 2\n1 0\n2 0\n"
TRIANGLE = "p edge 3 3\ne 1 2\ne 2 3\ne 1 3\n"

# Worked by hand from the definitions. The pops of a layer stand by the numbers of their events, whenever they were
# made.
TOLD = [
    ("formula --stacks '0,0,1;0,1' --log on --report layers", TWICE, 0,
     "s SAMPLE\nv 1 2 0\nused 2 1\npops 3\nlog 2 3\npop 1 1 1:0\npop 1 2 2:0\npop 2 1 1:1\nreport layers 2 2\n"),
    ("tree --stacks '1,0;0,0' --log on --witness 3,0", TRIANGLE, 0,
     "s SAMPLE\na 2 1 1\na 3 2 2\nused 1 1\npops 1\nlog 2 1\npop 1 2 2:0 3:0\nwitness 1\nwit 0 2 2=1 3=0\n"),
    # the pop isn't there, and the status is that of the end
    ("formula --stacks 0,0 --witness 1,5", "p cnf 1 1\n1 0\n", 1,
     "s EXHAUSTED\nstuck 1\nused 1\npops 1\nwitness none 1 5 1\n"),
    ("formula --witness 1,2 --stacks 0,0,1", "p cnf 1 1\n1 0\n", 0,
     "s SAMPLE\nv 1 0\nused 2\npops 2\nwitness none 1 2 2\n"),
    # no log is asked for, or that none is
    ("formula --stacks '0,0,1;0,1' --log off", TWICE, 0, "s SAMPLE\nv 1 2 0\nused 2 1\npops 3\n"),
    ("formula --stacks '0,0,1;0,1' --report layers,heights,totals", TWICE, 0,
     "s SAMPLE\nv 1 2 0\nused 2 1\npops 3\nreport totals 3 3 1\nreport heights 2 1\nreport layers 2 2\n"),
    # both edges point to vertex 2
    ("orient --stacks '0,1;0,0' --witness 2,0 --log on", "p edge 2 2\ne 1 2\ne 1 2\n", 0,
     "s SAMPLE\na 2 1 1\na 1 2 2\nused 1 1\npops 1\nlog 2 1\npop 1 2 1:0 2:0\nwitness 1\nwit 0 2 1=0 2=0\n"),
    # the variables of a tree have the names of their vertices, and the root is none
    ("tree --root 2 --stacks '1,0;1,0' --log on --witness 3,0", TRIANGLE, 0,
     "s SAMPLE\na 1 2 1\na 3 2 2\nused 1 1\npops 1\nlog 2 1\npop 1 1 1:0 3:0\nwitness 1\nwit 0 1 1=1 3=1\n"),
    ("tree --root 2 --stacks '1,0;1,0' --witness 2,0", TRIANGLE, 0,
     "s SAMPLE\na 1 2 1\na 3 2 2\nused 1 1\npops 1\nwitness none 2 0 0\n"),
    # the cycle of 2 and 4 is popped
    ("make grid 2 --stacks '1,0;0;0,0' --log on --witness 4,0 --report totals", "", 0,
     "s SAMPLE\ngrid 2\nused 2 1\npops 1\nsum 9\nlog 2 1\npop 1 2 2:0 4:0\nwitness 1\nwit 0 2 2=1 4=0\n"
     "report totals 1 2 2\n"),
    ("formula --log maybe", "", 2, "s USAGE 3\n"),
    ("resample --log on", "", 2, "s USAGE 2\n"),
]

# Two pops of one clause, told but for what is asked for behind the log.
TWO_POPS = "resample --stacks 0,0,1"
ONE_CLAUSE = "p cnf 1 1\n1 0\n"
HISTORY = "s SAMPLE\nv 1 0\nused 2\npops 2\nlog 2 2\npop 1 1 1:0\npop 2 1 1:1\n"

# Worked by hand: the words behind the stacks, and the text behind the log.
BEHIND = [
    ("--witness 1,1 --report totals,heights",
     "witness 2\nwit 0 1 1=0\nwit 1 1 1=0\nreport totals 2 2 1\nreport heights 1 1\n"),
    ("--report layers,heights,totals", "report totals 2 2 1\nreport heights 1 1\nreport layers 2 1\n"),
    ("--report heights,totals", "report totals 2 2 1\nreport heights 1 1\n"),
    ("--report totals", "report totals 2 2 1\n"),
    ("--report heights", "report heights 1 1\n"),
    ("--workers 2 --report heights", "report heights 1 1\n"),
    ("", ""),
]

# All that can be asked of a run behind its end.
EVERYTHING = f"--key {ZERO_KEY} --log on --witness 3,0 --report totals,heights,layers"


class Logs(Worked):
    """What is told of the layered log."""

    def test_what_is_asked_for_stands_behind_the_end(self) -> None:
        self.are_answered(TOLD)

    def test_reports_stand_by_rising_kind_behind_the_witness(self) -> None:
        self.are_answered((f"{TWO_POPS} {more}", ONE_CLAUSE, 0, HISTORY + behind) for more, behind in BEHIND)

    def test_no_crew_changes_a_byte_of_what_is_told_of_a_formula(self) -> None:
        self.assertEqual(self.all_print_alike(f"formula {EVERYTHING}", chain()), 0)

    def test_no_crew_changes_a_byte_of_what_is_told_of_a_grid(self) -> None:
        self.assertEqual(self.all_print_alike(f"make grid 40 {EVERYTHING}", ""), 0)
