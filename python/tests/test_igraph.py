"""Graphs of igraph, where it is installed, judged by its own predicates."""

import random
import unittest

import popsample

from .checks import ZEROS

try:
    import igraph
except ImportError:
    igraph = None

GRAPHS = 20


def random_graph(chance: random.Random):
    """A random connected graph, with loops and parallel edges among its edges."""
    vertices = chance.randrange(3, 30)
    path = [(chance.randrange(vertex), vertex) for vertex in range(1, vertices)]
    more = [(chance.randrange(vertices), chance.randrange(vertices)) for _ in range(vertices)]
    graph = igraph.Graph(n=vertices, edges=path + more)
    graph.es["buses"] = [chance.randrange(1, 9) for _ in path + more]
    graph.vs["name"] = [f"v{vertex}" for vertex in range(vertices)]
    return graph


@unittest.skipUnless(igraph, "igraph isn't installed")
class Graphs(unittest.TestCase):
    def test_spanning_trees(self):
        chance = random.Random(201)
        for number in range(GRAPHS):
            graph = random_graph(chance)
            root = chance.randrange(graph.vcount())
            tree = popsample.spanning_tree(graph, root, weight="buses")
            with self.subTest(number=number, key=tree.key):
                self.assertTrue(tree.graph.is_directed() and tree.graph.is_tree(mode="in"))
                self.assertEqual(tree.graph.outdegree(root), 0)
                self.assertTrue(graph.subgraph_edges(list(tree.edge_indices), delete_vertices=False).is_tree())
                self.assertEqual(tree.graph.vs["name"], graph.vs["name"])
                self.assertEqual(tree.graph.es["buses"], graph.es[list(tree.edge_indices)]["buses"])

    def test_weights_are_an_attribute(self):
        # A tree with the light edge comes once in about 2^30 times.
        graph = igraph.Graph(edges=[(0, 1), (1, 2), (0, 2)])
        graph.es["buses"] = [2**31 - 1, 2**31 - 1, 1]
        for tree in popsample.spanning_trees(graph, 20, 0, "buses", ZEROS):
            self.assertEqual(tree.parents, {1: 0, 2: 1})

    def test_orientations(self):
        chance = random.Random(202)
        for number in range(GRAPHS):
            graph = random_graph(chance)
            vertices = graph.vcount()
            graph.add_edges([(vertex, (vertex + 1) % vertices) for vertex in range(vertices)])
            orientation = popsample.sink_free_orientation(graph)
            with self.subTest(number=number, key=orientation.key):
                self.assertGreater(min(orientation.graph.outdegree()), 0)
                pairs = [sorted(pair) for pair in orientation.graph.get_edgelist()]
                self.assertEqual(pairs, [sorted(pair) for pair in graph.get_edgelist()])

    def test_what_is_refused(self):
        with self.assertRaises(TypeError):
            popsample.spanning_tree(igraph.Graph(edges=[(0, 1)], directed=True))
        with self.assertRaises(KeyError):
            popsample.spanning_tree(igraph.Graph(edges=[(0, 1)]), weight="buses")
        with self.assertRaises(popsample.CutOffError) as caught:
            popsample.spanning_tree(igraph.Graph(n=3, edges=[(0, 1)]), key=ZEROS)
        self.assertEqual(caught.exception.vertex, 2)


if __name__ == "__main__":
    unittest.main()
