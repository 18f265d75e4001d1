"""Rooted spanning trees of graphs."""

from __future__ import annotations

from worked.answers import ZERO_KEY, Worked, answer

TRIANGLE = "p edge 3 3\ne 1 2\ne 2 3\ne 1 3\n"
HEAVY = "p edge 2 2\ne 1 2 4294967295\ne 1 2\n"

# Worked by hand from the definitions.
RUNS = [
    ("tree --stacks '1,0;0,0'", TRIANGLE, 0, "s SAMPLE\na 2 1 1\na 3 2 2\nused 1 1\npops 1\n"),
    ("tree --stacks '0,0;1,1;0,1'", "p edge 4 3\ne 2 3\ne 3 4\ne 4 1\n", 0,
     "s SAMPLE\na 2 3 1\na 3 4 2\na 4 1 3\nused 0 1 1\npops 1\n"),
    # a cycle whose variables are at their last entries
    ("tree --stacks '1;0'", TRIANGLE, 1, "s EXHAUSTED\nstuck 2 3\nused 0 0\npops 0\n"),
    # a loop, a parallel edge, and the weights 5 and 1: of the first entry of the key of zeros
    # the sixth part up to the fifth is the first slot
    (f"tree --key {ZERO_KEY}", "p edge 2 3\ne 2 2\ne 1 2 5\ne 1 2\n", 0, "s SAMPLE\na 2 1 2\nused 0\npops 0\n"),
    # towards another root the variables are the vertices 1 and 3
    ("tree --root 2 --stacks '0;0'", TRIANGLE, 0, "s SAMPLE\na 1 2 1\na 3 2 2\nused 0 0\npops 0\n"),
    ("tree", "p edge 1 0\n", 0, "s SAMPLE\nused\npops 0\n"),
    ("tree", "p edge 3 1\ne 1 2\n", 6, "s CUTOFF 3\n"),
    ("tree --root 3", "p edge 3 1\ne 1 2\n", 6, "s CUTOFF 1\n"),
    ("tree --root 4", "p edge 3 1\ne 1 2\n", 6, "s ROOT 4\n"),
    ("tree", "p edge 0 0\n", 6, "s ROOT 1\n"),
    # a vertex with a loop alone is cut off
    ("tree", "p edge 2 1\ne 2 2\n", 6, "s CUTOFF 2\n"),
    ("tree", HEAVY, 4, "s LIMIT 6 2\n"),
    # the weights at the root aren't its arrows'
    ("tree --root 2 --stacks 0", "p edge 3 3\ne 1 2 4294967295\ne 2 3 4294967295\ne 2 2 9\n", 3, "s ROWS 1 2\n"),
    ("tree --stacks '0;'", TRIANGLE, 3, "s EMPTYROW 3\n"),
    ("tree --root 2 --stacks '0;0,2'", TRIANGLE, 3, "s VALUE 3 1\n"),
]


def grid(side: int) -> str:
    """A grid of so many rows and columns."""
    text = f"p edge {side * side} 0\n"
    for row in range(side):
        for column in range(side):
            vertex = row * side + column + 1
            if column + 1 < side:
                text += f"e {vertex} {vertex + 1}\n"
            if row + 1 < side:
                text += f"e {vertex} {vertex + side}\n"
    return text


class Trees(Worked):
    """Spanning trees, with their arrows to the root."""

    def test_trees_end_as_worked_by_hand(self) -> None:
        self.are_answered_by_all(RUNS)

    def test_the_arrows_of_a_sample_lead_to_the_root(self) -> None:
        """The way from each vertex along the printed arrows comes to the root, in fewer steps than there are
        vertices.
        """
        for side, root in [(2, 1), (3, 5), (6, 36)]:
            status, output = answer(f"tree --key {ZERO_KEY} --root {root}", grid(side))
            self.assertEqual(status, 0)
            arrows = (line.split() for line in output.splitlines() if line.startswith("a "))
            heads = {int(tail): int(head) for _, tail, head, _ in arrows}
            for vertex in range(1, side * side + 1):
                place = vertex
                for _ in range(side * side):
                    place = heads.get(place, place)
                self.assertEqual(place, root, f"from {vertex} in a grid of {side}")
