"""Certificates that are resumed."""

from __future__ import annotations

from worked.answers import CREWS, ZERO_KEY, Worked, answer, chain

# Worked by hand from the definitions: what the line of the certificate's command prints.
RESUMED = [
    ("resume", "cert 1 formula\nstacks 0,0,1\ninput 14\np cnf 1 1\n1 0\nlog 2 1\npop 1 1 1:0\n", 0,
     "s SAMPLE\nv 1 0\nused 2\npops 2\n"),
    ("resume", "cert 1 formula\nstacks 0,0,1\ninput 14\np cnf 1 1\n1 0\nlog 1 0\n", 0,
     "s SAMPLE\nv 1 0\nused 2\npops 2\n"),
    # at an end already
    ("resume", "cert 1 formula\nstacks 0,0,1\ninput 14\np cnf 1 1\n1 0\nlog 2 2\npop 1 1 1:0\npop 2 1 1:1\n", 0,
     "s SAMPLE\nv 1 0\nused 2\npops 2\n"),
    ("resume", "cert 1 formula\nstacks 0,0\ninput 14\np cnf 1 1\n1 0\nlog 2 1\npop 1 1 1:0\n", 1,
     "s EXHAUSTED\nstuck 1\nused 1\npops 1\n"),
    ("resume",
     "cert 1 tree\nstacks 0,0,1;0,0,1\nroot 1\ninput 29\np edge 3 3\ne 2 3\ne 2 1\ne 3 1\nlog 2 1\n"
     "pop 1 2 2:0 3:0\n", 0,
     "s SAMPLE\na 2 1 2\na 3 1 3\nused 2 2\npops 2\n"),
    # value 0 points to vertex 2 and value 1 to vertex 1: one of them is a sink
    ("resume", "cert 1 orient\nstacks 0,1,0\ninput 17\np edge 2 1\ne 1 2\nlog 2 1\npop 1 2 1:0\n", 1,
     "s EXHAUSTED\nstuck 2\nused 2\npops 2\n"),
    # a resampling tells the log of both parts, by its layers
    ("resume", "cert 1 resample\nstacks 0,0,1\ninput 14\np cnf 1 1\n1 0\nlog 2 1\npop 1 1 1:0\n", 0,
     "s SAMPLE\nv 1 0\nused 2\npops 2\nlog 2 2\npop 1 1 1:0\npop 2 1 1:1\n"),
    ("resume", "cert 1 resample\nstacks 0,1;0,1\ninput 18\np cnf 2 2\n1 0\n2 0\nlog 1 1\npop 2 2:0\n", 0,
     "s SAMPLE\nv 1 2 0\nused 1 1\npops 2\nlog 2 2\npop 1 1 1:0\npop 1 2 2:0\n"),
    # the pops of the certificate stay, of which another run may have others
    ("resume",
     "cert 1 resample\nstacks 0,1;0,0;0,0\ninput 22\np cnf 3 2\n1 2 0\n1 3 0\nlog 2 1\npop 1 2 1:0 3:0\n", 0,
     "s SAMPLE\nv 1 -2 -3 0\nused 1 0 1\npops 1\nlog 2 1\npop 1 2 1:0 3:0\n"),
]


class Resumes(Worked):
    """Runs that go on from a certificate."""

    def test_a_run_goes_on_to_its_end(self) -> None:
        self.are_answered_by_all(RESUMED)

    def test_a_run_that_was_stopped_ends_as_at_once(self) -> None:
        words = f"formula --key {ZERO_KEY}"
        status, whole = answer(words, chain())
        self.assertEqual(status, 0)
        stopped, certificate = answer(f"{words} --pops 10", chain())
        self.assertEqual(stopped, 10)
        self.are_answered([("resume", certificate, 0, whole)], CREWS)
