"""Batches look as they should: each outcome comes about as often as its exact share says.

The keys are fixed, so each test always ends the same. What it compares is the chi-squared statistic of the counts, whose
mean is the number of outcomes less one, and whose variance is twice that.
"""

import itertools
import math
import unittest
from collections import Counter
from collections.abc import Hashable, Mapping

import popsample

from .checks import ZEROS, extremal_solutions, has_no_sink, reached, satisfies

SAMPLES = 4096
# Two edges between a and b, and weights.
EDGES = [("a", "b", 1), ("b", "a", 2), ("b", "c", 3), ("c", "a", 2), ("c", "d", 1), ("d", "a", 4)]
SQUARE = [(0, 1), (1, 2), (2, 3), (3, 0), (0, 2)]
CLAUSES = [[1, 2, -3], [3, 4, -5], [5, 6, -1]]


def shares(weights: Mapping[Hashable, int]) -> dict[Hashable, float]:
    """The share of each outcome, by its weight."""
    return {outcome: weight / sum(weights.values()) for outcome, weight in weights.items()}


class Shares(unittest.TestCase):
    def judge(self, counts: Counter, weights: Mapping[Hashable, int]) -> None:
        """Each outcome has a weight, and the counts are within four standard deviations of what these ask for."""
        self.assertLessEqual(set(counts), set(weights))
        wanted = {outcome: SAMPLES * share for outcome, share in shares(weights).items()}
        statistic = sum((counts[outcome] - most) ** 2 / most for outcome, most in wanted.items())
        freedom = len(weights) - 1
        self.assertLess(abs(statistic - freedom), 4 * math.sqrt(2 * freedom), counts)

    def test_trees(self):
        weights = {
            chosen: math.prod(EDGES[edge][2] for edge in chosen)
            for chosen in itertools.combinations(range(len(EDGES)), 3)
            if len(reached("a", [EDGES[edge][:2] for edge in chosen])) == 4
        }
        trees = popsample.spanning_trees(EDGES, SAMPLES, key=ZEROS)
        self.judge(Counter(tuple(sorted(tree.edge_indices)) for tree in trees), weights)

    def test_orientations(self):
        def arrows(turned):
            pairs = [pair[::-1] if turn else pair for pair, turn in zip(SQUARE, turned)]
            return tuple(popsample.Arrow(*pair, edge) for edge, pair in enumerate(pairs))

        all_turned = map(arrows, itertools.product((0, 1), repeat=len(SQUARE)))
        weights = dict.fromkeys((turned for turned in all_turned if has_no_sink(range(4), turned)), 1)
        found = popsample.sink_free_orientations(SQUARE, SAMPLES, ZEROS)
        self.judge(Counter(orientation.arrows for orientation in found), weights)

    def test_assignments(self):
        signs = itertools.product((1, -1), repeat=6)
        literals = (tuple(sign * name for name, sign in enumerate(each, 1)) for each in signs)
        weights = dict.fromkeys((each for each in literals if satisfies(CLAUSES, each)), 1)
        self.judge(Counter(each.literals for each in extremal_solutions(CLAUSES, SAMPLES, ZEROS)), weights)


if __name__ == "__main__":
    unittest.main()
