"""Runs of several workers."""

from __future__ import annotations

from worked.answers import ZERO_KEY, Worked, chain

# Words of runs whose stacks soon come to their ends, with their text.
SHORT = [(f"formula --key {ZERO_KEY} --height {height}", chain()) for height in (1, 2, 3)]
SHORT_GRID = (f"make grid 30 --key {ZERO_KEY} --height 2", "")


def wheel(rim: int) -> str:
    """A wheel: a hub, vertex 1, and a rim."""
    text = f"p edge {rim + 1} {2 * rim}\n"
    for vertex in range(rim):
        text += f"e 1 {vertex + 2}\ne {vertex + 2} {(vertex + 1) % rim + 2}\n"
    return text


class Workers(Worked):
    """Crews, on which no answer depends."""

    def test_no_crew_changes_a_byte(self) -> None:
        for command, text in [("formula", chain()), ("orient", wheel(40)), ("tree", wheel(40))]:
            self.assertEqual(self.all_print_alike(f"{command} --key {ZERO_KEY}", text), 0)

    def test_no_crew_changes_a_byte_where_stacks_are_short(self) -> None:
        for words, text in [*SHORT, SHORT_GRID]:
            self.assertIn(self.all_print_alike(words, text), (0, 1))

    def test_a_crew_has_1_to_64_workers(self) -> None:
        words = (f"formula --workers {workers}" for workers in ("0", "65", "2,2", "''"))
        self.are_answered((line, "p cnf 0 0\n", 2, "s USAGE 3\n") for line in words)
