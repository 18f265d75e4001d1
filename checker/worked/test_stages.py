"""Runs in stages, whose stacks grow."""

from __future__ import annotations

from worked.answers import CREWS, ZERO_KEY, Worked, answer, chain

# Worked by hand: the first entries under the key of zeros are 1 and 0 (RFC 8439, A.1, vector 1).
RUNS = [
    (f"formula --key {ZERO_KEY} --height 1 --grow 8", "p cnf 1 1\n-1 0\n", 0, "s SAMPLE\nv -1 0\nused 1\npops 1\n"),
    (f"formula --key {ZERO_KEY} --height 8", "p cnf 1 1\n-1 0\n", 0, "s SAMPLE\nv -1 0\nused 1\npops 1\n"),
    # the first height is the lesser of the two
    (f"formula --key {ZERO_KEY} --height 5 --grow 1", "p cnf 1 1\n-1 0\n", 1,
     "s EXHAUSTED\nstuck 1\nused 0\npops 0\n"),
    # given rows have their lengths
    ("formula --stacks 0 --grow 4", "", 2, "s USAGE 4\n"),
]

# Words with a height to grow to, and those with it from the start.
PAIRS = [
    ("formula --height 1 --grow 4096", "formula --height 4096"),
    ("formula --log on --height 2 --grow 4096", "formula --log on --height 4096"),
    ("formula --log on --height 1 --grow 3", "formula --log on --height 3"),
    ("formula --report totals --height 1 --grow 2", "formula --report totals --height 2"),
]


class Stages(Worked):
    """Heights that grow."""

    def test_stacks_grow_where_they_are_asked_to(self) -> None:
        self.are_answered_by_all(RUNS)

    def test_stages_change_no_byte(self) -> None:
        for grown, words in PAIRS:
            self.are_answered([(grown, chain(), *answer(words, chain()))], CREWS)
