"""What networkx does where it finds the backend. It looks for backends when it is imported, so these tests are run by a
process of their own, which `test_networkx_backend` begins.
"""

import random
import unittest
import warnings
from collections import Counter
from fractions import Fraction
from functools import partial
from importlib import import_module, util
from math import prod
from unittest import mock

import networkx

import popsample
from popsample import networkx_backend

from .checks import ZEROS

sample = partial(networkx.random_spanning_tree, backend="popsample")
HAS_NUMPY, HAS_SCIPY, HAS_PYTEST = (util.find_spec(name) is not None for name in ("numpy", "scipy", "pytest"))
# The tests of networkx's own function that ask for what is refused: weights that are no small fractions, and sums.
REFUSED = {
    "test_random_spanning_tree_multiplicative_small",
    "test_random_spanning_tree_multiplicative_large",
    "test_random_spanning_tree_additive_small",
    "test_random_spanning_tree_additive_large",
}
# The values that chi-squared passes once in a thousand times, for 15 degrees of freedom.
RARE = 37.70


def weighted(*rows):
    """A graph of edges with weights."""
    graph = networkx.Graph()
    graph.add_weighted_edges_from(rows)
    return graph


def edges_of(tree) -> frozenset:
    """The edges of a tree, each as a set of its ends."""
    return frozenset(map(frozenset, tree.edges))


def own_tests() -> dict:
    """The tests of networkx of its function, by their names."""
    module = import_module("networkx.algorithms.tree.tests.test_mst")
    return {name: test for name, test in vars(module).items() if name.startswith("test_random_spanning_tree")}


class Samples(unittest.TestCase):
    def test_trees(self):
        chance = random.Random(601)
        for number in range(20):
            graph = networkx.gnm_random_graph(20, 40, seed=number)
            graph.add_edges_from((vertex, chance.randrange(vertex)) for vertex in range(1, 20))
            tree = sample(graph, seed=number)
            self.assertIs(type(tree), networkx.Graph)
            self.assertTrue(networkx.is_tree(tree))
            self.assertEqual(list(tree), list(graph))
            self.assertTrue(all(graph.has_edge(*edge) for edge in tree.edges))
            self.assertEqual(list(tree.edges(data=True)), [(*edge, {}) for edge in tree.edges])

    def test_products_of_weights(self):
        graph = weighted((0, 1, 1), (0, 2, 2), (0, 3, 3), (1, 2, 4), (1, 3, 1), (2, 3, 2))
        shares = {
            edges_of(tree): prod(weight for _, _, weight in tree.edges(data="weight"))
            for tree in networkx.SpanningTreeIterator(graph)
        }
        self.assertEqual(len(shares), 16)
        seed, count = random.Random(602), 1000
        found = Counter(edges_of(sample(graph, "weight", seed=seed)) for _ in range(count))
        wanted = {tree: count * share / sum(shares.values()) for tree, share in shares.items()}
        self.assertLess(sum((found[tree] - mean) ** 2 / mean for tree, mean in wanted.items()), RARE)

    def test_fractions(self):
        graph = weighted(("a", "b", Fraction(2**30, 7)), ("b", "c", Fraction(2**30, 7)), ("a", "c", Fraction(1, 7)))
        self.assertEqual(edges_of(sample(graph, "weight", seed=1)), edges_of(networkx.path_graph(["a", "b", "c"])))
        halves = weighted(("a", "b", 2.0**28), ("b", "c", 2.0**28), ("a", "c", 0.5))
        self.assertEqual(edges_of(sample(halves, "weight", seed=1)), edges_of(networkx.path_graph(["a", "b", "c"])))

    def test_parallel_edges_and_loops(self):
        graph = networkx.MultiGraph([(0, 1), (0, 1), (1, 1), (1, 2)])
        tree = sample(graph, seed=1)
        self.assertIs(type(tree), networkx.Graph)
        self.assertEqual(edges_of(tree), edges_of(networkx.path_graph(3)))

    def test_small_graphs(self):
        for graph in (networkx.Graph(), networkx.empty_graph(1), networkx.Graph([(0, 0)])):
            tree = sample(graph)
            self.assertEqual((list(tree), list(tree.edges)), (list(graph), []))


class Seeds(unittest.TestCase):
    def setUp(self):
        self.graph = networkx.grid_2d_graph(6, 6)

    def trees(self, seed, count: int = 3) -> list:
        """Trees of one generator or seed."""
        return [edges_of(sample(self.graph, seed=seed)) for _ in range(count)]

    def test_whole_numbers(self):
        self.assertEqual(len(set(self.trees(1))), 1)
        self.assertNotEqual(self.trees(1), self.trees(2))

    def test_generators_go_on(self):
        trees = self.trees(random.Random(1))
        self.assertEqual(len(set(trees)), 3)
        self.assertEqual(self.trees(random.Random(1)), trees)
        self.assertEqual(self.trees(1)[0], trees[0])

    def test_none_is_the_generator_of_the_process(self):
        random.seed(5)
        trees = self.trees(None)
        random.seed(5)
        self.assertEqual(self.trees(None), trees)
        self.assertEqual(len(set(trees)), 3)

    @unittest.skipUnless(HAS_NUMPY, "numpy isn't installed")
    def test_generators_of_numpy(self):
        import numpy

        for made in (numpy.random.RandomState, numpy.random.default_rng):
            trees = self.trees(made(1))
            self.assertEqual(len(set(trees)), 3)
            self.assertEqual(self.trees(made(1)), trees)


class Refusals(unittest.TestCase):
    def refused(self, *arguments, **named) -> str:
        """What is told of a call that networkx is told isn't implemented: the first cause."""
        with self.assertRaises(NotImplementedError) as raised:
            sample(*arguments, **named)
        return str(raised.exception.__cause__ or raised.exception)

    def test_sums_of_weights(self):
        self.refused(networkx.path_graph(3), multiplicative=False)
        with self.assertRaises(NotImplementedError) as raised:
            networkx_backend.random_spanning_tree(networkx.path_graph(3), multiplicative=False)
        self.assertIn("multiplicative=False is refused", str(raised.exception))

    def test_directed_graphs(self):
        self.refused(networkx.DiGraph([(0, 1)]))
        self.assertIn("directed", networkx_backend.can_run(networkx_backend.FUNCTION, (networkx.DiGraph(),), {}))

    def test_weights(self):
        self.assertIn("0.1", self.refused(weighted((0, 1, 0.1), (1, 2, 1)), "weight"))
        self.assertIn("-1", self.refused(weighted((0, 1, -1)), "weight"))
        self.assertIn("4294967295", self.refused(weighted((0, 1, 2**32)), "weight"))
        with self.assertRaises(popsample.LimitError):
            sample(weighted((0, 1, 2**31), (0, 2, 2**31), (1, 2, 2**31)), "weight")
        for name in ("weight", "length"):
            graph = weighted((0, 1, 2))
            graph.add_edge(1, 2)
            with self.assertRaises(KeyError) as missing:
                sample(graph, name)
            lacking = 0 if name == "length" else 1
            self.assertIn(f"Edge ({lacking}, {lacking + 1}) has no attribute {name!r}", str(missing.exception))

    def test_a_graph_in_parts(self):
        with self.assertRaises(popsample.CutOffError) as apart:
            sample(networkx.Graph([(0, 1), (2, 3)]))
        self.assertEqual(apart.exception.vertex, 2)


class Dispatch(unittest.TestCase):
    def preferred(self):
        """A configuration in which networkx asks this backend first."""
        return networkx.config(backend_priority={"generators": ["popsample"], "algos": [], "classes": []})

    def test_a_preferred_backend_is_asked(self):
        graph = networkx.grid_2d_graph(6, 6)
        wanted = edges_of(sample(graph, seed=7))
        with self.preferred():
            self.assertEqual(edges_of(networkx.random_spanning_tree(graph, seed=7)), wanted)

    @unittest.skipUnless(HAS_SCIPY, "scipy isn't installed")
    def test_networkx_does_what_is_refused(self):
        graph = weighted((0, 1, 0.1), (1, 2, 0.7), (0, 2, 0.3))
        with self.preferred():
            self.assertTrue(networkx.is_tree(networkx.random_spanning_tree(graph, "weight", seed=1)))
            self.assertTrue(networkx.is_tree(networkx.random_spanning_tree(graph, "weight", multiplicative=False)))

    @unittest.skipUnless(HAS_SCIPY, "scipy isn't installed")
    def test_networkx_does_it_as_without_a_backend(self):
        graph = weighted((0, 1, 0.1), (1, 2, 0.7), (0, 2, 0.3), (2, 3, 0.2), (3, 0, 0.6))
        for seed in range(8):
            wanted = networkx.random_spanning_tree(graph, "weight", seed=random.Random(seed))
            with self.preferred():
                found = networkx.random_spanning_tree(graph, "weight", seed=random.Random(seed))
            self.assertEqual(edges_of(found), edges_of(wanted))

    @unittest.skipUnless(HAS_SCIPY, "scipy isn't installed")
    def test_networkx_goes_on_where_there_is_no_program(self):
        with mock.patch.dict("os.environ", {"POPSAMPLE": "/nowhere/popsample"}), self.preferred():
            self.assertTrue(networkx.is_tree(networkx.random_spanning_tree(networkx.cycle_graph(4), seed=1)))

    def test_changes_of_the_graph_are_seen(self):
        heavy = 2**31 - 1
        graph = weighted((0, 1, heavy), (1, 2, heavy), (0, 2, 1))
        with warnings.catch_warnings():
            warnings.simplefilter("error")
            self.assertEqual(edges_of(sample(graph, "weight", seed=1)), edges_of(networkx.path_graph(3)))
            graph[0][2]["weight"], graph[0][1]["weight"] = heavy, 1
            self.assertEqual(edges_of(sample(graph, "weight", seed=1)), edges_of(networkx.path_graph([0, 2, 1])))


@unittest.skipUnless(HAS_SCIPY and HAS_PYTEST, "scipy or pytest isn't installed, which networkx's own tests need")
class OwnTests(unittest.TestCase):
    def test_they_pass_but_for_what_is_refused(self):
        found = own_tests()
        self.assertLess(REFUSED, set(found))
        with mock.patch.multiple(networkx, random_spanning_tree=sample), mock.patch.multiple(
            networkx.tree, random_spanning_tree=sample
        ):
            for name, test in found.items():
                with self.subTest(name):
                    if name in REFUSED:
                        self.assertRaises(NotImplementedError, test)
                    else:
                        test()

    def test_they_pass_where_networkx_only_prefers_the_backend(self):
        with networkx.config(backend_priority={"generators": ["popsample"], "algos": [], "classes": []}):
            for name, test in own_tests().items():
                # The large ones take networkx minutes.
                if not name.endswith("_large"):
                    with self.subTest(name):
                        test()


class Keys(unittest.TestCase):
    def test_a_key_is_32_bytes_of_the_generator(self):
        numbers = iter(range(32))
        generator = mock.Mock(randrange=lambda stop: next(numbers))
        self.assertEqual(networkx_backend.drawn_key(generator), bytes(range(32)).hex())
        with mock.patch.object(networkx_backend, "drawn_key", return_value=ZEROS):
            tree = sample(networkx.cycle_graph(5), seed=1)
        wanted = popsample.spanning_tree(networkx.cycle_graph(5), key=ZEROS)
        self.assertEqual(edges_of(tree), frozenset(map(frozenset, wanted.edges)))


if __name__ == "__main__":
    unittest.main()
