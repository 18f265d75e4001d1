"""Graphs of networkx, where it is installed, judged by its own predicates."""

import random
import unittest
from unittest import mock

import popsample
from popsample._given.graph_input import read_graph

from .checks import ZEROS

try:
    import networkx
except ImportError:
    networkx = None

GRAPHS = 20


def random_graph(chance: random.Random, multigraph: bool):
    """A random connected graph with words as vertices, with loops, and with parallel edges where it may have them."""
    graph = networkx.MultiGraph() if multigraph else networkx.Graph()
    names = [f"v{number}" for number in range(chance.randrange(2, 30))]
    graph.add_nodes_from(reversed(names))
    for place in range(1, len(names)):
        graph.add_edge(names[place], names[chance.randrange(place)], buses=chance.randrange(1, 9))
    for _ in names:
        graph.add_edge(chance.choice(names), chance.choice(names), buses=chance.randrange(1, 9))
    return graph


@unittest.skipUnless(networkx, "networkx isn't installed")
class Trees(unittest.TestCase):
    def test_random_graphs(self):
        chance = random.Random(101)
        for number in range(GRAPHS):
            graph = random_graph(chance, multigraph=number % 2 == 1)
            root = chance.choice(list(graph))
            tree = popsample.spanning_tree(graph, root, weight="buses")
            with self.subTest(number=number, key=tree.key):
                self.assertTrue(networkx.is_arborescence(tree.graph.reverse()))
                self.assertEqual([vertex for vertex in tree.graph if not tree.graph.out_degree(vertex)], [root])
                self.assertEqual(set(tree.graph), set(graph))
                for arrow in tree.arrows:
                    self.assertTrue(graph.has_edge(*arrow.edge))
                    self.assertEqual({arrow.tail, arrow.head}, set(arrow.edge[:2]))

    def test_the_kind_and_the_attributes_are_kept(self):
        graph = networkx.MultiGraph(name="two")
        graph.add_node("a", size=3)
        graph.add_edge("a", "b", key="old", buses=5)
        tree = popsample.spanning_tree(graph, key=ZEROS)
        self.assertIs(type(tree.graph), networkx.MultiDiGraph)
        self.assertEqual(list(tree.graph.edges(keys=True, data=True)), [("b", "a", "old", {"buses": 5})])
        self.assertEqual((tree.graph.nodes["a"], tree.graph.graph), ({"size": 3}, {"name": "two"}))
        simple = popsample.spanning_tree(networkx.path_graph(3), key=ZEROS)
        self.assertIs(type(simple.graph), networkx.DiGraph)
        self.assertEqual(sorted(simple.graph.edges), [(1, 0), (2, 1)])

    def test_edges_are_those_of_networkx_in_its_order(self):
        chance = random.Random(103)
        for number in range(GRAPHS):
            graph = random_graph(chance, multigraph=False)
            for given in (graph, graph.subgraph(chance.sample(list(graph), len(graph) // 2 + 1))):
                for missing in ({}, {"numpy": None}):
                    with self.subTest(number=number, missing=missing), mock.patch.dict("sys.modules", missing):
                        read = read_graph(given)
                        ends = [read.vertices[place] for place in read.ends.tolist()]
                        self.assertEqual(list(zip(ends[0::2], ends[1::2])), list(given.edges))
                        self.assertEqual(list(read.edges), list(given.edges))
                        self.assertEqual(read.edges[1:-1], list(given.edges)[1:-1])
                        self.assertRaises(IndexError, read.edges.__getitem__, len(read.edges))

    def test_weights_are_an_attribute(self):
        # A tree with the light edge comes once in about 2^30 times.
        graph = networkx.Graph()
        graph.add_weighted_edges_from([("a", "b", 2**31 - 1), ("b", "c", 2**31 - 1), ("a", "c", 1)], weight="buses")
        for tree in popsample.spanning_trees(graph, 20, "a", "buses", ZEROS):
            self.assertEqual(tree.parents, {"b": "a", "c": "b"})

    def test_directed_graphs_are_refused(self):
        with self.assertRaises(TypeError):
            popsample.spanning_tree(networkx.DiGraph([(1, 2)]))

    def test_one_vertex(self):
        graph = networkx.Graph()
        graph.add_node("alone")
        tree = popsample.spanning_tree(graph)
        self.assertEqual((tree.root, tree.arrows, list(tree.graph)), ("alone", (), ["alone"]))

    def test_refusals_name_the_vertex(self):
        graph = networkx.Graph([("a", "b"), ("b", "c"), ("c", "a")])
        graph.add_node("alone")
        with self.assertRaises(popsample.CutOffError) as caught:
            popsample.spanning_tree(graph)
        self.assertEqual(caught.exception.vertex, "alone")
        with self.assertRaises(popsample.IsolatedError) as caught:
            popsample.sink_free_orientation(graph)
        self.assertEqual(caught.exception.vertex, "alone")


@unittest.skipUnless(networkx, "networkx isn't installed")
class Orientations(unittest.TestCase):
    def test_random_graphs(self):
        chance = random.Random(102)
        for number in range(GRAPHS):
            graph = random_graph(chance, multigraph=number % 2 == 1)
            circle = list(graph) + list(graph)[:1] if len(graph) > 2 else ["x", "y", "z", *graph, "x"]
            graph.add_edges_from(zip(circle, circle[1:]))
            orientation = popsample.sink_free_orientation(graph)
            with self.subTest(number=number, key=orientation.key):
                self.assertTrue(all(degree for _, degree in orientation.graph.out_degree))
                back = orientation.graph.to_undirected()
                self.assertTrue(networkx.utils.graphs_equal(back, graph))


if __name__ == "__main__":
    unittest.main()
