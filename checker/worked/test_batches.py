"""Batches of samples."""

from __future__ import annotations

from worked.answers import ZERO_KEY, Worked, answer, chain

PATH = "p edge 2 1\ne 1 2\n"

# Worked by hand. Under the key of zeros the first entry of variable 1 is 1 in samples 0 to 2, and 0 in sample 3; its
# second entry in sample 0 is 0 (RFC 8439, 2.3, with the number of the sample in the high half of the stream).
RUNS = [
    # the entries are by a ChaCha20 of its own (RFC 8439, 2.3), and the cycles were popped by hand
    (f"tree --height 9 --key {ZERO_KEY} --count 4", "p edge 4 4\ne 1 2\ne 1 3\ne 2 4\ne 3 4\n", 0,
     "batch 4\nsample 0\ns SAMPLE\na 2 1 1\na 3 4 4\na 4 2 3\nused 1 1 2\npops 2\n"
     "sample 1\ns SAMPLE\na 2 1 1\na 3 4 4\na 4 2 3\nused 1 0 1\npops 1\n"
     "sample 2\ns SAMPLE\na 2 1 1\na 3 1 2\na 4 2 3\nused 1 0 1\npops 1\n"
     "sample 3\ns SAMPLE\na 2 1 1\na 3 1 2\na 4 3 4\nused 0 1 1\npops 1\n"),
    (f"formula --key {ZERO_KEY} --count 1", "p cnf 1 1\n-1 0\n", 0,
     "batch 1\nsample 0\ns SAMPLE\nv -1 0\nused 1\npops 1\n"),
    ("tree --count 2", PATH, 0,
     "batch 2\nsample 0\ns SAMPLE\na 2 1 1\nused 0\npops 0\nsample 1\ns SAMPLE\na 2 1 1\nused 0\npops 0\n"),
    ("tree --root 2 --count 1", PATH, 0, "batch 1\nsample 0\ns SAMPLE\na 1 2 1\nused 0\npops 0\n"),
    # a loop leaves its vertex, so that no event occurs
    ("orient --height 1 --count 2", "p edge 1 1\ne 1 1\n", 0,
     "batch 2\nsample 0\ns SAMPLE\na 1 1 1\nused 0\npops 0\nsample 1\ns SAMPLE\na 1 1 1\nused 0\npops 0\n"),
    # one sample has an entry too few, and the others haven't
    ("formula --height 1 --count 4", "p cnf 1 1\n1 0\n", 1,
     "batch 4\nsample 0\ns SAMPLE\nv 1 0\nused 0\npops 0\nsample 1\ns SAMPLE\nv 1 0\nused 0\npops 0\nsample 2\n"
     "s SAMPLE\nv 1 0\nused 0\npops 0\nsample 3\ns EXHAUSTED\nstuck 1\nused 0\npops 0\n"),
    # the last sample doesn't settle the status
    ("formula --height 1 --count 4", "p cnf 1 1\n-1 0\n", 1,
     "batch 4\nsample 0\ns EXHAUSTED\nstuck 1\nused 0\npops 0\nsample 1\ns EXHAUSTED\nstuck 1\nused 0\npops 0\n"
     "sample 2\ns EXHAUSTED\nstuck 1\nused 0\npops 0\nsample 3\ns SAMPLE\nv -1 0\nused 0\npops 0\n"),
    ("formula --count 3", "p cnf 0 0\n", 0,
     "batch 3\nsample 0\ns SAMPLE\nv 0\nused\npops 0\nsample 1\ns SAMPLE\nv 0\nused\npops 0\nsample 2\ns SAMPLE\n"
     "v 0\nused\npops 0\n"),
    ("formula --count 2 --workers 2", "", 2, "s USAGE 4\n"),
]

# A batch may have 2^25 variables in all. More are told of behind what the text itself refuses, and before stacks and
# clashes.
REFUSALS = [
    ("formula --count 9", "p cnf 4194304 0\n", 4, "s LIMIT 9 9\n"),
    ("formula --count 65536", "p cnf 513 2\n1 2 0\n2 3 0\n", 4, "s LIMIT 9 65536\n"),
    ("formula --count 65536", "p cnf 3 2\n1 2 0\n2 3 0\n", 5, "s CLASH 1 2\n"),
    ("formula --count 65536", "p cnf 513 1\n0\n", 6, "s EMPTY 1\n"),
    ("orient --count 65536", "p edge 600 0\n", 6, "s ISOLATED 1\n"),
    ("tree --count 65536", "p edge 600 0\n", 6, "s CUTOFF 2\n"),
    ("tree --count 65536 --root 601", "p edge 600 0\n", 6, "s ROOT 601\n"),
]

# So many edges between two vertices.
BUNDLE = "p edge 2 513\n" + "e 1 2\n" * 513


class Batches(Worked):
    """Many samples of one input."""

    def test_each_sample_is_told_behind_its_number(self) -> None:
        self.are_answered(RUNS)

    def test_too_many_samples_are_told_behind_the_form_of_the_text(self) -> None:
        self.are_answered(REFUSALS)

    def test_the_variables_of_a_graph_are_counted(self) -> None:
        """A tree on two vertices has one variable, and an orientation one for each edge."""
        self.are_answered([("orient --count 65536", BUNDLE, 4, "s LIMIT 9 65536\n")])
        self.assertEqual(answer("tree --count 7", BUNDLE)[0], 0)

    def test_a_batch_begins_with_the_sample_of_its_words(self) -> None:
        _, alone = answer("formula", chain())
        _, many = answer("formula --count 3", chain())
        self.assertTrue(alone.startswith("s SAMPLE\n"))
        self.assertTrue(many.startswith("batch 3\nsample 0\n" + alone))
