"""Vertices of igraph that have names, where igraph is installed."""

import unittest

import popsample

from .checks import ZEROS, LikeNumpy

try:
    import igraph
except ImportError:
    igraph = None

ROADS = [("Harbour", "Market"), ("Market", "Mill"), ("Mill", "Harbour"), ("Mill", "Bridge")]


@unittest.skipUnless(igraph, "igraph isn't installed")
class Names(unittest.TestCase):
    def test_vertices_keep_their_names(self):
        graph = igraph.Graph.TupleList(ROADS)
        tree = popsample.spanning_tree(graph, "Bridge", key=ZEROS)
        self.assertEqual(tree.root, "Bridge")
        self.assertEqual(set(tree.parents), {"Harbour", "Market", "Mill"})
        self.assertEqual(tree.parents["Mill"], "Bridge")
        same = popsample.spanning_tree([(*road, 1) for road in ROADS], "Bridge", key=ZEROS)
        self.assertEqual(tree.parents, same.parents)

    def test_the_graph_has_them_too(self):
        graph = igraph.Graph.TupleList(ROADS)
        made = popsample.spanning_tree(graph, "Bridge", key=ZEROS).graph
        self.assertTrue(made.is_directed() and made.is_tree(mode="in"))
        self.assertEqual(made.vs["name"], graph.vs["name"])
        self.assertEqual(made.vs.find("Bridge").outdegree(), 0)

    def test_a_vertex_may_be_named_by_its_index(self):
        graph = igraph.Graph.TupleList(ROADS)
        named = popsample.spanning_tree(graph, "Mill", key=ZEROS, log=True, witness=("Market", 0))
        numbered = popsample.spanning_tree(graph, graph.vs.find("Mill").index, key=ZEROS, log=True, witness=(1, 0))
        self.assertEqual(named, numbered)
        self.assertEqual(numbered.root, "Mill")
        self.assertEqual(popsample.spanning_tree(graph, LikeNumpy(graph.vs.find("Mill").index)).root, "Mill")

    def test_without_names_vertices_have_their_indices(self):
        for names in ([1, 2, 3], ["a", "a", "b"], ["a", None, "b"], [["a"], ["b"], ["c"]]):
            graph = igraph.Graph(edges=[(0, 1), (1, 2), (2, 0)])
            graph.vs["name"] = names
            self.assertEqual(set(popsample.spanning_tree(graph, 1).parents), {0, 2}, names)

    def test_orientations(self):
        orientation = popsample.sink_free_orientation(igraph.Graph.TupleList([*ROADS, ("Bridge", "Mill")]), ZEROS)
        self.assertEqual({arrow.tail for arrow in orientation.arrows}, {"Harbour", "Market", "Mill", "Bridge"})
        self.assertEqual(orientation.graph.ecount(), 5)

    def test_refusals_have_names(self):
        graph = igraph.Graph.TupleList(ROADS)
        graph.add_vertex("Quarry")
        with self.assertRaises(popsample.CutOffError) as apart:
            popsample.spanning_tree(graph, "Mill")
        self.assertEqual(apart.exception.vertex, "Quarry")
        for root in ("Abbey", 5, -1):
            with self.assertRaises(popsample.RootError) as unknown:
                popsample.spanning_tree(graph, root)
            self.assertEqual(unknown.exception.root, root)


if __name__ == "__main__":
    unittest.main()
