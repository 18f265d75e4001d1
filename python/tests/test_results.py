"""What results are: values that can be counted, compared, copied and converted."""

import copy
import importlib.util
import pickle
import unittest
from collections import Counter

import popsample
from popsample import sink_free_orientation, spanning_tree, spanning_trees

from .checks import ZEROS, Refusing

TRIANGLE = [("Ann", "Bob"), ("Bob", "Cem"), ("Cem", "Ann")]
PAIR = [("a", "b"), ("b", "a"), ("b", "c")]


def has(name):
    """Skip a test if a package isn't installed."""
    return unittest.skipUnless(importlib.util.find_spec(name), f"{name} isn't installed")


def one_of_each():
    """A result of each kind."""
    return (
        spanning_tree(TRIANGLE, key=ZEROS),
        sink_free_orientation(TRIANGLE, key=ZEROS),
        popsample.solution([[1, 2], [-1, 2]], key=ZEROS),
        popsample.resample([[1, 2], [-1, 2]], key=ZEROS),
    )


class Values(Refusing):
    def test_equal_samples_are_equal_whatever_their_keys(self):
        trees = list(spanning_trees(TRIANGLE, 60))
        self.assertEqual(len(Counter(trees)), 3)
        again = {tree: spanning_tree(TRIANGLE, seed=seed) for tree in trees for seed in range(9)}
        self.assertLessEqual(set(again.values()), set(trees))
        found = Counter(popsample.samples([[1, 2]], 3, kind="assignment", method="extremal"))
        self.assertLessEqual(len(found), 3)

    def test_the_root_and_parallel_edges_count(self):
        pair = [("a", "b"), ("a", "b")]
        self.assertNotEqual(spanning_tree([("a", "b")], "a"), spanning_tree([("a", "b")], "b"))
        self.assertEqual(len(set(spanning_trees(pair, 40, key=ZEROS))), 2)
        self.assertNotEqual(spanning_tree([("a", "b")]), popsample.solution([]))

    def test_a_key_in_capitals_is_the_same_key(self):
        capital, small = (spanning_tree(TRIANGLE, key=letter * 64) for letter in "Aa")
        self.assertEqual((capital, capital.key), (small, small.key))

    def test_they_are_short_when_shown(self):
        path = [(vertex, vertex + 1) for vertex in range(5000)]
        self.assertEqual(
            repr(spanning_tree(path, key=ZEROS, stacks=None)),
            f"<Tree of 5001 vertices, root=0, pops={spanning_tree(path, key=ZEROS).pops}, sample=0, key=00000000..>",
        )
        for result in one_of_each():
            self.assertLess(len(repr(result)), 120)

    def test_they_do_not_change(self):
        for result in one_of_each():
            for change in (lambda: setattr(result, "key", "x"), lambda: delattr(result, "key")):
                self.refused(AttributeError, change)
            self.refused(AttributeError, setattr, result, "other", 1)

    def test_copies(self):
        for result in (*one_of_each(), list(spanning_trees(TRIANGLE, 9, key=ZEROS))[7]):
            for other in (pickle.loads(pickle.dumps(result)), copy.copy(result), copy.deepcopy(result)):
                self.assertEqual((other, repr(other), hash(other)), (result, repr(result), hash(result)))
                self.assertEqual((other.used, other.key, other.log), (result.used, result.key, result.log))

    def test_a_copy_has_one_row(self):
        many = list(spanning_trees(TRIANGLE, 1000, key=ZEROS))
        self.assertLess(len(pickle.dumps(many[-1])), 5000)

    def test_edges(self):
        tree = spanning_tree(PAIR, "a", stacks=[[1], [0]])
        self.assertEqual((tree.edges, tree.edge_indices), ((("b", "a"), ("b", "c")), (1, 2)))
        self.assertEqual([arrow.edge for arrow in tree.arrows], [1, 2])


class Converted(Refusing):
    @has("networkx")
    def test_networkx(self):
        import networkx

        tree = spanning_tree(TRIANGLE, "Ann", key=ZEROS)
        self.assertEqual(set(tree.to_networkx().edges), set(tree.parents.items()))
        self.assertTrue(networkx.is_arborescence(tree.to_networkx(direction="from_root")))
        self.assertTrue(networkx.is_tree(tree.to_networkx(direction="undirected")))
        self.refused(popsample.OptionError, tree.to_networkx, "down")
        found = sink_free_orientation(TRIANGLE, key=ZEROS)
        self.assertEqual(set(found.to_networkx().edges), {arrow[:2] for arrow in found.arrows})
        self.assertFalse(found.to_networkx("undirected").is_directed())
        self.assertEqual(sink_free_orientation([(1, 2), (2, 1)]).to_networkx().number_of_edges(), 2)

    @has("networkx")
    def test_networkx_keeps_attributes(self):
        import networkx

        graph = networkx.Graph()
        graph.add_edge("a", "b", buses=3)
        made = spanning_tree(graph, "a").to_networkx("from_root")
        self.assertEqual(list(made.edges(data=True)), [("a", "b", {"buses": 3})])

    @has("igraph")
    def test_igraph(self):
        tree = spanning_tree(TRIANGLE, "Ann", key=ZEROS)
        made = tree.to_igraph()
        names = made.vs["name"]
        self.assertEqual({names[edge.source]: names[edge.target] for edge in made.es}, tree.parents)
        self.assertEqual(sorted(made.es["edge"]), sorted(tree.edge_indices))
        turned, plain = tree.to_igraph("from_root"), tree.to_igraph(direction="undirected")
        self.assertEqual({names[edge.target]: names[edge.source] for edge in turned.es}, tree.parents)
        self.assertEqual((plain.is_directed(), plain.ecount(), plain.is_connected()), (False, 2, True))
        self.refused(popsample.OptionError, tree.to_igraph, "to_head")

    @has("graph_tool")
    def test_graph_tool(self):
        tree = spanning_tree(TRIANGLE, "Ann", key=ZEROS)
        made = tree.to_graph_tool()
        names = made.vertex_properties["name"]
        self.assertEqual({names[edge.source()]: names[edge.target()] for edge in made.edges()}, tree.parents)
        turned, plain = tree.to_graph_tool("from_root"), tree.to_graph_tool(direction="undirected")
        self.assertEqual({names[edge.target()]: names[edge.source()] for edge in turned.edges()}, tree.parents)
        self.assertEqual((plain.is_directed(), plain.num_edges()), (False, 2))
        self.refused(popsample.OptionError, tree.to_graph_tool, "to_head")

    @has("scipy")
    def test_scipy(self):
        tree = spanning_tree(TRIANGLE, "Ann", key=ZEROS)
        rows, columns = tree.to_scipy().nonzero()
        names = ["Ann", "Bob", "Cem"]
        self.assertEqual({names[row]: names[column] for row, column in zip(rows, columns)}, tree.parents)
        matrix = tree.to_scipy().toarray()
        self.assertEqual(tree.to_scipy("from_root").toarray().tolist(), matrix.T.tolist())
        self.assertEqual(tree.to_scipy(direction="undirected").toarray().tolist(), (matrix + matrix.T).tolist())
        self.refused(popsample.OptionError, tree.to_scipy, "to_head")

    @has("scipy")
    def test_scipy_counts_arrows(self):
        # Two parallel edges and a self-loop, which is one arrow in each direction.
        found = sink_free_orientation([(1, 2), (2, 1), (1, 1)], key=ZEROS)
        ends = [arrow[:2] for arrow in found.arrows]
        counted = [[ends.count((tail, head)) for head in (1, 2)] for tail in (1, 2)]
        self.assertEqual(found.to_scipy().toarray().tolist(), counted)
        self.assertEqual(found.to_scipy("undirected").toarray().tolist(), [[1, 2], [2, 0]])
        self.refused(popsample.OptionError, found.to_scipy, "to_root")


if __name__ == "__main__":
    unittest.main()
