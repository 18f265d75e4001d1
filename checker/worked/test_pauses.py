"""Runs that stop after so many pops."""

from __future__ import annotations

from worked.answers import Worked

# Worked by hand from the definitions. The first variable has the entries 0, 0, 1, so the run of its clause has two
# pops.
STOPPED = [
    ("formula --stacks 0,0,1 --pops 1", "p cnf 1 1\n1 0\n", 10,
     "cert 1 formula\nstacks 0,0,1\ninput 14\np cnf 1 1\n1 0\nlog 2 1\npop 1 1 1:0\n"),
    # the run has no more pops
    ("formula --stacks 0,0,1 --pops 2", "p cnf 1 1\n1 0\n", 0, "s SAMPLE\nv 1 0\nused 2\npops 2\n"),
    ("formula --pops 4294967295 --stacks 0,0,1", "p cnf 1 1\n1 0\n", 0, "s SAMPLE\nv 1 0\nused 2\npops 2\n"),
    # an event occurs after one pop, and has no next entry
    ("formula --stacks 0,0 --pops 1", "p cnf 1 1\n1 0\n", 1, "s EXHAUSTED\nstuck 1\nused 1\npops 1\n"),
    # the input is kept as it was read, a last line without its end too
    ("resample --pops 1 --stacks 0,0,1", "c\np cnf 1 1\n1 0", 10,
     "cert 1 resample\nstacks 0,0,1\ninput 15\nc\np cnf 1 1\n1 0log 2 1\npop 1 1 1:0\n"),
    ("resample --stacks 0,0,1 --pops 2", "p cnf 1 1\n1 0\n", 0,
     "s SAMPLE\nv 1 0\nused 2\npops 2\nlog 2 2\npop 1 1 1:0\npop 2 1 1:1\n"),
    ("formula --pops 1 --stacks ''", "p cnf 0 0\n", 0, "s SAMPLE\nv 0\nused\npops 0\n"),
    # vertices 2 and 3 lead to each other twice
    ("tree --root 1 --stacks '0,0,1;0,0,1' --pops 1", "p edge 3 3\ne 2 3\ne 2 1\ne 3 1\n", 10,
     "cert 1 tree\nstacks 0,0,1;0,0,1\nroot 1\ninput 29\np edge 3 3\ne 2 3\ne 2 1\ne 3 1\nlog 2 1\n"
     "pop 1 2 2:0 3:0\n"),
    # value 0 of an edge points to its second vertex, from which nothing leads
    ("orient --stacks 0,1,0 --pops 1", "p edge 2 1\ne 1 2\n", 10,
     "cert 1 orient\nstacks 0,1,0\ninput 17\np edge 2 1\ne 1 2\nlog 2 1\npop 1 2 1:0\n"),
    # refusals come before a run does, in the order of the text
    ("formula --stacks 0,0,1 --pops 1", "p cnf 1 1\n2 0\n", 3, "s MALFORMED 2 3\n"),
    ("formula --stacks 0,2 --pops 1", "p cnf 1 1\n1 0\n", 3, "s VALUE 1 1\n"),
    ("formula --pops 1", "p cnf 2 2\n1 0\n1 2 0\n", 5, "s CLASH 1 2\n"),
]


class Pauses(Worked):
    """Certificates of runs that were stopped."""

    def test_a_run_stops_where_an_event_is_poppable(self) -> None:
        self.are_answered(STOPPED)
