"""Samples as rows of numbers, whatever made them."""

from __future__ import annotations

from array import array
from collections.abc import Sequence
from dataclasses import dataclass, field
from typing import Any, NamedTuple

from .._given.flat_numbers import NONE, zeros


class Stuck(NamedTuple):
    """How a run was exhausted.

    `events` are those that occur at its end, by number from 1. `short` is of rounds: the variable that has no next
    value, from 1.
    """

    events: Sequence[Sequence[int]]
    short: int | None = None


@dataclass
class Rows:
    """Samples, one in each row; the number of the first is `first`.

    Of trees `values` has the vertex to which each vertex leads, and `edges` the edge to it, with NONE at the root.
    Of orientations `values` has 0 for each edge that points from its first end to its second, and else 1. Of
    assignments it has 1 for each variable that is true, and else 0. `used` says how many values of each variable were
    passed; of trees it has a 0 at the root too. `counts` has a pair for each row: the number of pops (or rounds), and
    the number of events that occur at the end. `stuck` says more of rows with such events, if that was printed.
    """

    first: int
    count: int
    width: int
    values: Any
    used: array[int]
    counts: array[int]
    edges: array[int] = field(default_factory=lambda: array("I"))
    stuck: dict[int, Stuck] = field(default_factory=dict)

    @classmethod
    def empty(cls, first: int, count: int, width: int, code: str = "I", has_edges: bool = False) -> Rows:
        """Make rows of zeros."""
        size = count * width
        edges = zeros("I", size) if has_edges else array("I")
        return cls(first, count, width, zeros(code, size), zeros("I", size), zeros("Q", 2 * count), edges)

    def value_row(self, place: int) -> array[int]:
        """Return the values of a row."""
        row: array[int] = self.values[place * self.width : (place + 1) * self.width]
        return row

    def edge_row(self, place: int) -> Sequence[int]:
        """Return the edges of a row."""
        return self.edges[place * self.width : (place + 1) * self.width]

    def used_row(self, place: int) -> Sequence[int]:
        """Return how many values of each variable were passed in a row."""
        return self.used[place * self.width : (place + 1) * self.width]

    def pops(self, place: int) -> int:
        """Return the number of pops, or of rounds, of a row."""
        return self.counts[2 * place]

    def is_exhausted(self, place: int) -> bool:
        """Return whether events occur at the end of a row."""
        return self.counts[2 * place + 1] > 0

    def only(self, place: int) -> Rows:
        """Return the rows with this one alone."""
        return self.part(place, place + 1)

    def part(self, begin: int, end: int) -> Rows:
        """Return the rows from `begin` on, before `end`."""
        cut = slice(begin * self.width, end * self.width)
        stuck = {place - begin: told for place, told in self.stuck.items() if begin <= place < end}
        counts, edges = self.counts[2 * begin : 2 * end], self.edges[cut]
        return Rows(
            self.first + begin, end - begin, self.width, self.values[cut], self.used[cut], counts, edges, stuck
        )


def cycles_of(parents: Sequence[int]) -> list[list[int]]:
    """Return the cycles in which arrows lead, by their vertices from 1 in rising order, by the least vertex."""
    seen = [0] * len(parents)
    found = []
    for start in range(len(parents)):
        vertex = start
        while vertex != NONE and not seen[vertex]:
            seen[vertex] = start + 1
            vertex = parents[vertex]
        if vertex != NONE and seen[vertex] == start + 1:
            cycle = [vertex]
            other = parents[vertex]
            while other != vertex:
                cycle.append(other)
                other = parents[other]
            found.append(sorted(number + 1 for number in cycle))
    return sorted(found)
