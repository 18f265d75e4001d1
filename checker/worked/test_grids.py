"""Trees of grids that are made from a number."""

from __future__ import annotations

from worked.answers import CREWS, ZERO_KEY, Worked

# What is printed of larger grids under the key of zeros, by a program of the definitions that has nothing of this one.
GRID_OF_30 = (f"make grid 30 --key {ZERO_KEY}", "", 0, "s SAMPLE\ngrid 30\nused 27856 65\npops 9095\nsum 980846\n")
GRID_OF_40 = (f"make grid 40 --key {ZERO_KEY}", "", 0, "s SAMPLE\ngrid 40\nused 7898 29\npops 2771\nsum 3027508\n")

# Worked by hand. The vertices 2, 3 and 4 of the grid of side 2 have the edges to 1 and 4, to 1 and 4, and to 2 and 3,
# in the order of their slots.
SMALL = [
    ("make grid 2 --stacks '0;0;0'", "", 0, "s SAMPLE\ngrid 2\nused 0 0\npops 0\nsum 9\n"),
    ("make grid 1", "", 0, "s SAMPLE\ngrid 1\nused 0 0\npops 0\nsum 0\n"),
    # the second slots count as 2
    ("make --stacks '0;1;0' grid 2", "", 0, "s SAMPLE\ngrid 2\nused 0 0\npops 0\nsum 12\n"),
    # the cycle of 2 and 4 is popped
    ("make grid 2 --stacks '1,0;0;0,0'", "", 0, "s SAMPLE\ngrid 2\nused 2 1\npops 1\nsum 9\n"),
    # the cycle of 2 and 4 is popped, then that of 3 and 4; then 4 leads to 3
    ("make grid 2 --stacks '1,0;1,0;0,1,1'", "", 0, "s SAMPLE\ngrid 2\nused 4 2\npops 2\nsum 13\n"),
    # it can't be
    ("make grid 2 --stacks '1;0;0'", "", 1, "s EXHAUSTED\ngrid 2\nstuck 1\nused 0 0\npops 0\n"),
    ("make grid 2 --stacks '0;0'", "", 3, "s ROWS 2 3\n"),
    ("make grid 2 --stacks '0;;0'", "", 3, "s EMPTYROW 3\n"),
    ("make grid 2 --stacks '0;0;0,2'", "", 3, "s VALUE 4 1\n"),
    ("make grid 1 --stacks 0", "", 3, "s ROWS 1 0\n"),
    ("make grid 001 --stacks ''", "", 0, "s SAMPLE\ngrid 1\nused 0 0\npops 0\nsum 0\n"),
]

# Words with the place of the first bad one.
BAD_WORDS = [
    ("make", "s USAGE 2\n"),
    (f"make --key {ZERO_KEY}", "s USAGE 4\n"),
    ("make grid", "s USAGE 3\n"),
    ("make grid 0", "s USAGE 3\n"),
    ("make grid 2049", "s USAGE 3\n"),
    ("make --root 1 grid 2", "s USAGE 2\n"),
    ("make --report sums grid 2", "s USAGE 3\n"),
]


class Grids(Worked):
    """Grids, which are told in short."""

    def test_small_grids_are_told_in_short(self) -> None:
        self.are_answered_by_all(SMALL)

    def test_a_grid_has_1_to_2048_rows_and_must_stand(self) -> None:
        self.are_answered((words, "", 2, output) for words, output in BAD_WORDS)

    def test_larger_grids_are_those_of_the_definitions(self) -> None:
        self.are_answered([GRID_OF_30])
        self.are_answered([GRID_OF_40], CREWS)

    def test_a_grid_is_made_in_stages(self) -> None:
        words, text, status, output = GRID_OF_30
        self.are_answered([(f"{words} --height 1 --grow 4096", text, status, output)], CREWS)
