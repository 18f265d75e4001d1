"""Graphs that are oriented."""

from __future__ import annotations

from worked.answers import Worked, answer

TRIANGLE = "p col 3 3\ne 1 2\ne 2 3\ne 3 1\n"

# Worked by hand from the definitions.
RUNS = [
    ("orient --stacks '0,0;1,0;0'", TRIANGLE, 0, "s SAMPLE\na 1 2 1\na 2 3 2\na 3 1 3\nused 1 1 0\npops 1\n"),
    ("orient --stacks 0,1,0", "p edge 2 1\ne 1 2\n", 1, "s EXHAUSTED\nstuck 2\nused 2\npops 2\n"),
    # a loop leaves its vertex
    ("orient --stacks 0", "p edge 1 1\ne 1 1\n", 0, "s SAMPLE\na 1 1 1\nused 0\npops 0\n"),
    # two parallel edges, the second of weight 9
    ("orient --stacks '0;1'", "p edge 2 2\ne 1 2\ne 1 2 9\n", 0, "s SAMPLE\na 1 2 1\na 2 1 2\nused 0 0\npops 0\n"),
    ("orient", "p edge 0 0\n", 0, "s SAMPLE\nused\npops 0\n"),
    ("orient", "p edge 2 0\n", 6, "s ISOLATED 1\n"),
    ("orient", "p edge 3 1\ne 1 3\n", 6, "s ISOLATED 2\n"),
    # the rows are looked at once no vertex is isolated
    ("orient --stacks 0", "p edge 3 1\ne 1 3\n", 6, "s ISOLATED 2\n"),
    ("orient --stacks '0;0;2'", TRIANGLE, 3, "s VALUE 3 0\n"),
]

# How many vertices a wheel has, and at which distance each has its further edge.
WHEELS = [(1, 1), (2, 1), (5, 2), (9, 4), (40, 7), (60, 0)]


def wheel(count: int, distance: int) -> str:
    """A cycle of so many vertices, each of which has a further edge to the vertex at a distance."""
    text = f"p edge {count} {2 * count}\n"
    for vertex in range(count):
        for further in (1, distance):
            text += f"e {vertex + 1} {(vertex + further) % count + 1}\n"
    return text


class Orientations(Worked):
    """Orientations without sinks."""

    def test_orientations_end_as_worked_by_hand(self) -> None:
        self.are_answered_by_all(RUNS)

    def test_an_edge_leaves_each_vertex_of_a_sample(self) -> None:
        """Under four keys. Read off the text alone: a vertex that an edge leaves is the tail of a line."""
        for count, distance in WHEELS:
            for digit in range(4):
                with self.subTest(count=count, distance=distance, digit=digit):
                    status, output = answer(f"orient --key {digit}{'0' * 63}", wheel(count, distance))
                    self.assertEqual(status, 0)
                    tails = {line.split()[1] for line in output.splitlines() if line.startswith("a ")}
                    self.assertEqual(tails, {str(vertex) for vertex in range(1, count + 1)})
