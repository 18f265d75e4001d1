"""Small instances, all rows of small heights for them, and their samples, which are found without the program."""

from __future__ import annotations

import itertools
import math
import unittest
from collections import Counter
from collections.abc import Callable, Hashable, Iterator, Sequence
from fractions import Fraction
from types import SimpleNamespace

import popsample

from .checks import has_no_sink, is_tree_to, satisfies

Rows = tuple[tuple[int, ...], ...]
Values = tuple[int, ...]
# The weight of a value of a variable; both count from 0.
Weight = Callable[[int, int], int]

CLAUSES = [[1, 2], [-1, 3]]
# Two clauses that share a variable with one sign: not extremal.
CLASHING = [[1, 2], [1, 3]]
# Three, of which the second clashes with both others.
CHAINED = [[1, 2], [2, 3], [-1, 3]]
TRIANGLE = [(1, 2), (2, 3), (3, 1)]
# The triangle with a second edge between 1 and 2.
PARALLEL = [*TRIANGLE, (2, 1)]
WEIGHTS = [1, 2, 3, 4]


def all_rows(choices: Sequence[int], height: int) -> Iterator[Rows]:
    """All rows of so many entries, where each variable has so many values."""
    return itertools.product(*(itertools.product(range(values), repeat=height) for values in choices))


def all_alike(variable: int, value: int) -> int:
    """The weight of values that are as likely as one another."""
    return 1


def edges_at(pairs: Sequence[tuple[int, int]]) -> list[list[int]]:
    """For each vertex from 2 on, the root being 1, the edges at it."""
    return [[edge for edge, pair in enumerate(pairs) if w in pair] for w in sorted({*sum(pairs, ())} - {1})]


def edge_weight(pairs: Sequence[tuple[int, int]]) -> Weight:
    """The weight of an arrow in the graph of these edges with weights."""
    at = edges_at(pairs)
    return lambda v, x: WEIGHTS[at[v][x]]


def assignments(clauses: list[list[int]]) -> dict[Values, list[int]]:
    """The values of three variables that satisfy the clauses, and the literals that are true at them."""
    bits = itertools.product((0, 1), repeat=3)
    found = {x: [v if bit else -v for v, bit in enumerate(x, 1)] for x in bits}
    return {x: literals for x, literals in found.items() if satisfies(clauses, literals)}


def orientations() -> dict[Values, list[popsample.Arrow]]:
    """The values of the triangle's edges at which it has no sink, and the arrows that they are."""
    found = {}
    for values in itertools.product((0, 1), repeat=3):
        pairs = [pair[::-1] if x else pair for pair, x in zip(TRIANGLE, values)]
        found[values] = [popsample.Arrow(*pair, edge) for edge, pair in enumerate(pairs)]
    return {values: arrows for values, arrows in found.items() if has_no_sink((1, 2, 3), arrows)}


def trees(pairs: Sequence[tuple[int, int]]) -> dict[Values, list[popsample.Arrow]]:
    """The values of 2 and 3, by which of their edges they are left, that are a tree to 1, and the arrows of it."""
    found = {}
    for edges in itertools.product(*edges_at(pairs)):
        arrows = [popsample.Arrow(w, sum(pairs[edge]) - w, edge) for w, edge in enumerate(edges, 2)]
        if is_tree_to(1, (1, 2, 3), pairs, SimpleNamespace(arrows=arrows)):
            found[tuple(at.index(edge) for at, edge in zip(edges_at(pairs), edges))] = arrows
    return found


def rows_weight(rows: Rows, weight: Weight) -> int:
    """The product of the weights of all entries."""
    return math.prod(weight(v, x) for v, row in enumerate(rows) for x in row)


class Proportional(unittest.TestCase):
    """A test of what rows are answered by."""

    def judge_shares(self, answers: dict[Rows, Hashable], samples: dict[Hashable, Values], weight: Weight) -> None:
        """Each sample is answered, as many rows are answered by one as by another, and they weigh as the samples."""
        counts = Counter(answers.values())
        self.assertEqual(set(counts), set(samples))
        self.assertEqual(len(set(counts.values())), 1, counts)
        totals: Counter[Hashable] = Counter()
        for rows, answer in answers.items():
            totals[answer] += rows_weight(rows, weight)
        weights = {answer: rows_weight(tuple((x,) for x in values), weight) for answer, values in samples.items()}
        self.assertEqual(len({Fraction(totals[answer], weights[answer]) for answer in samples}), 1, totals)
