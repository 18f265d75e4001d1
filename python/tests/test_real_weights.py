"""Real weights: rounded to so many bits, with the error in the result."""

import math
import random
import unittest
from decimal import Decimal
from fractions import Fraction

import popsample
from popsample import from_edges, spanning_tree, spanning_trees

from .checks import ZEROS, Refusing


def weights_of(given):
    """The weights of a graph as they are sampled."""
    return given.weights.tolist()


class Rounded(Refusing):
    def test_the_error_is_that_of_the_worst_weight(self):
        chance = random.Random(5)
        for bits in (6, 8, 24, 31, 32):
            for _ in range(40):
                weights = [math.exp(chance.uniform(-0.6, 0)) for _ in range(6)]
                pairs = [(place, (place + 1) % 6) for place in range(6)]
                given = from_edges(pairs, weights, weight_bits=bits)
                made = weights_of(given) if given.weights is not None else [1] * 6
                self.assertLess(max(made), 2**bits)
                ratios = [Fraction(number) / Fraction(weight) for number, weight in zip(made, weights)]
                # Up to one factor, which is a power of two, all weights are within the error.
                scale = Fraction(2) ** round(math.log2(ratios[0]))
                errors = [abs(ratio / scale - 1) for ratio in ratios]
                self.assertLessEqual(max(errors), Fraction(given.weight_error))
                self.assertGreaterEqual(max(errors), Fraction(given.weight_error) * Fraction(999, 1000))

    def test_worked_by_hand(self):
        # 3/8 of 1 is 6 of 16, and 0.4 of it 6.4: the greatest power of two below 2^4 is taken.
        given = from_edges([(0, 1), (1, 2), (2, 0)], [1, 0.375, 0.4], weight_bits=4)
        self.assertEqual(weights_of(given), [8, 3, 3])
        self.assertTrue(0.0625 <= given.weight_error < 0.0626)

    def test_what_fits_has_no_error(self):
        tree = spanning_tree([("a", "b", 0.5), ("b", "c", Decimal("0.25"))], weight_bits=8)
        self.assertEqual(tree.weight_error, 0)
        self.assertIsNone(spanning_tree([("a", "b", 0.5), ("b", "c", 1)]).weight_error)

    def test_a_star_of_many(self):
        chance = random.Random(6)
        star = [(0, vertex, chance.random() + 0.01) for vertex in range(1, 400)]
        star += [(vertex, vertex + 1, 1e-9 + chance.random()) for vertex in range(1, 399)]
        tree = spanning_tree(star, 1, weight_bits=32, key=ZEROS)
        self.assertLess(tree.weight_error, 1e-3)

    def test_sums_at_a_vertex_fit(self):
        star = [(0, vertex) for vertex in range(1, 9)]
        given = from_edges(star, [1.0] * 8, weight_bits=32)
        self.assertLessEqual(8 * weights_of(given)[0], 2**32 - 1)
        heavy = [(0, vertex, 2**31) for vertex in range(1, 9)]
        error = self.refused(popsample.LimitError, spanning_tree, heavy, 1)
        self.assertIn("With weight_bits=, weights are rounded so that they fit.", str(error))
        self.assertEqual(error.place, 0)
        self.assertEqual(spanning_tree(heavy, 1, weight_bits=16).weight_error, 0)

    def test_what_can_not_be_rounded(self):
        error = self.refused(popsample.WeightError, spanning_tree, [("a", "b", 1e-9), ("b", "c", 1)], weight_bits=8)
        self.assertEqual((error.edge, error.weight), (0, 1e-9))
        self.assertIn("too small beside the greatest weight", str(error))
        for bits in (0, 33, 1.5, True):
            self.refused(popsample.OptionError, spanning_tree, [("a", "b", 0.1)], weight_bits=bits)
        error = self.refused(popsample.WeightError, spanning_tree, [("a", "b", 0.1), ("b", "c", 1)])
        self.assertIn("weight_bits=24", str(error))

    def test_each_result_has_the_error(self):
        graph = [("a", "b", 0.1), ("b", "c", 0.7), ("a", "c", 1)]
        trees = spanning_trees(graph, 3, weight_bits=16)
        error = spanning_tree(graph, weight_bits=16).weight_error
        self.assertTrue(0 < error < 1e-3)
        self.assertEqual({error, trees.weight_error, *(tree.weight_error for tree in trees)}, {error})


if __name__ == "__main__":
    unittest.main()
