"""Graphs of graph-tool, where it is installed, judged by its own predicates."""

import pickle
import random
import unittest

import popsample

from .checks import ZEROS

try:
    import graph_tool
    from graph_tool import topology
except ImportError:
    graph_tool = None

GRAPHS = 12


def random_graph(chance: random.Random):
    """A random connected graph, with loops and parallel edges among its edges, and property maps."""
    vertices = chance.randrange(3, 30)
    path = [(chance.randrange(vertex), vertex) for vertex in range(1, vertices)]
    more = [(chance.randrange(vertices), chance.randrange(vertices)) for _ in range(vertices)]
    graph = graph_tool.Graph(directed=False)
    graph.add_vertex(vertices)
    graph.add_edge_list(path + more)
    buses, label = graph.new_edge_property("int"), graph.new_edge_property("string")
    for edge in graph.edges():
        buses[edge] = chance.randrange(1, 9)
        label[edge] = f"edge {graph.edge_index[edge]}"
    graph.edge_properties.update({"buses": buses, "label": label})
    graph.vertex_properties["name"] = graph.new_vertex_property("string", [f"v{place}" for place in range(vertices)])
    graph.graph_properties["title"] = graph.new_graph_property("string", "roads")
    return graph


def rows(graph, name: str) -> dict:
    """The value of an edge property for each index of an edge."""
    return {graph.edge_index[edge]: graph.edge_properties[name][edge] for edge in graph.edges()}


@unittest.skipUnless(graph_tool, "graph-tool isn't installed")
class Graphs(unittest.TestCase):
    def test_spanning_trees(self):
        chance = random.Random(301)
        for number in range(GRAPHS):
            graph = random_graph(chance)
            root = chance.randrange(graph.num_vertices())
            tree = popsample.spanning_tree(graph, root, weight="buses")
            made = tree.graph
            with self.subTest(number=number, key=tree.key):
                self.assertTrue(made.is_directed())
                vertices = graph.num_vertices()
                self.assertEqual((made.num_vertices(), made.num_edges()), (vertices, vertices - 1))
                self.assertEqual(made.vertex(root).out_degree(), 0)
                backwards = graph_tool.GraphView(made, reversed=True)
                self.assertEqual(set(topology.label_out_component(backwards, root).a), {1})
                self.assertEqual({(arrow.tail, arrow.head) for arrow in tree.arrows}, set(map(tuple, made.get_edges())))
                ends = {row[2]: set(row[:2]) for row in graph.get_edges([graph.edge_index]).tolist()}
                for arrow in tree.arrows:
                    self.assertEqual({arrow.tail, arrow.head}, ends[arrow.edge])

    def test_property_maps_are_kept(self):
        graph = random_graph(random.Random(302))
        tree = popsample.spanning_tree(graph, key=ZEROS)
        made = tree.graph
        self.assertEqual(made.graph_properties["title"], "roads")
        names = made.vertex_properties["name"]
        self.assertEqual([names[vertex] for vertex in made.vertices()], [f"v{vertex}" for vertex in made.vertices()])
        for name in ("buses", "label"):
            values = rows(graph, name)
            for arrow in tree.arrows:
                self.assertEqual(made.edge_properties[name][made.edge(arrow.tail, arrow.head)], values[arrow.edge])

    def test_weights_are_a_property(self):
        # A tree with the light edge comes once in about 2^30 times.
        graph = graph_tool.Graph(directed=False)
        graph.add_edge_list([(0, 1), (1, 2), (0, 2)])
        graph.edge_properties["buses"] = graph.new_edge_property("int64_t", [2**31 - 1, 2**31 - 1, 1])
        for weight in ("buses", graph.edge_properties["buses"]):
            for tree in popsample.spanning_trees(graph, 20, 0, weight, ZEROS):
                self.assertEqual(tree.parents, {1: 0, 2: 1})

    def test_what_is_filtered_out_is_passed_over(self):
        graph = graph_tool.Graph(directed=False)
        graph.add_edge_list([(0, 1), (1, 2), (2, 3), (3, 4), (4, 0), (1, 3)])
        shown = graph.new_vertex_property("bool", [True, True, False, True, True])
        view = graph_tool.GraphView(graph, vfilt=shown)
        tree = popsample.spanning_tree(view, 4, key=ZEROS)
        self.assertEqual({tree.root, *tree.parents}, {0, 1, 3, 4})
        self.assertTrue({1, 2}.isdisjoint(arrow.edge for arrow in tree.arrows))
        self.assertEqual((tree.graph.num_vertices(), tree.graph.num_edges()), (4, 3))
        self.assertEqual(tree.graph.get_vertices().tolist(), [0, 1, 3, 4])

    def test_orientations(self):
        chance = random.Random(303)
        for number in range(GRAPHS):
            graph = random_graph(chance)
            vertices = graph.num_vertices()
            graph.add_edge_list([(vertex, (vertex + 1) % vertices) for vertex in range(vertices)])
            orientation = popsample.sink_free_orientation(graph)
            with self.subTest(number=number, key=orientation.key):
                made = orientation.graph
                self.assertGreater(min(made.get_out_degrees(made.get_vertices())), 0)
                pairs = sorted(sorted(pair) for pair in made.get_edges().tolist())
                self.assertEqual(pairs, sorted(sorted(pair) for pair in graph.get_edges().tolist()))

    def test_one_vertex(self):
        graph = graph_tool.Graph(directed=False)
        graph.add_vertex()
        tree = popsample.spanning_tree(graph)
        self.assertEqual((tree.root, tree.arrows, tree.graph.num_vertices()), (0, (), 1))

    def test_results_go_from_process_to_process(self):
        graph = graph_tool.Graph(directed=False)
        graph.add_edge_list([(0, 1), (1, 2), (0, 2)])
        tree = popsample.spanning_tree(graph, key=ZEROS)
        again = pickle.loads(pickle.dumps(tree))
        self.assertEqual(again, tree)
        self.assertEqual(again.graph.get_edges().tolist(), tree.graph.get_edges().tolist())

    def test_what_is_refused(self):
        graph = graph_tool.Graph(directed=False)
        graph.add_edge_list([(0, 1), (2, 3)])
        with self.assertRaises(KeyError) as missing:
            popsample.spanning_tree(graph, weight="buses")
        self.assertIn("'buses'", str(missing.exception))
        for weight in ([1, 2], graph.new_vertex_property("int"), graph_tool.Graph().new_edge_property("int")):
            with self.assertRaises(popsample.OptionError) as wrong:
                popsample.spanning_tree(graph, weight=weight)
            self.assertIn("or an edge property map of the graph", str(wrong.exception))
        with self.assertRaises(TypeError) as directed:
            popsample.spanning_tree(graph_tool.GraphView(graph, directed=True))
        self.assertIn("directed=False", str(directed.exception))
        with self.assertRaises(popsample.CutOffError) as apart:
            popsample.spanning_tree(graph)
        self.assertEqual(apart.exception.vertex, 2)


if __name__ == "__main__":
    unittest.main()
