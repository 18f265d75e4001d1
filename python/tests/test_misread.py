"""What was once misread in silence: it is read as it is meant, or refused in words that say what to pass."""

import importlib.util
import random
import unittest
from fractions import Fraction
from types import SimpleNamespace

import popsample
from popsample import from_adjacency, from_edges, sink_free_orientation, spanning_tree, spanning_trees

from .checks import ZEROS, Refusing, extremal_solution, extremal_solutions, is_tree_to, rounds_solution

HAS_NUMPY = importlib.util.find_spec("numpy") is not None
HAS_NETWORKX = importlib.util.find_spec("networkx") is not None
# A square of four vertices, with names of two letters, so that a name could be taken for an edge.
SQUARE = {"aa": ["bb", "cc"], "bb": ["aa", "dd"], "cc": ["aa", "dd"], "dd": ["bb", "cc"]}


class Dicts(Refusing):
    def test_a_dict_of_lists_is_an_adjacency(self):
        tree = spanning_tree(SQUARE, "dd")
        self.assertEqual({tree.root, *tree.parents}, set(SQUARE))
        self.assertTrue(all(arrow.head in SQUARE[arrow.tail] for arrow in tree.arrows))
        self.assertTrue(all(set(arrow.edge) == {arrow.tail, arrow.head} for arrow in tree.arrows))

    def test_pairs_as_vertices(self):
        # These names are pairs: each could be taken for an edge of numbers.
        grid = {(0, 0): [(0, 1), (1, 0)], (0, 1): [(0, 0), (1, 1)], (1, 0): [(0, 0), (1, 1)], (1, 1): [(0, 1), (1, 0)]}
        self.assertEqual(set(spanning_tree(grid, (1, 1)).parents), {(0, 0), (0, 1), (1, 0)})

    def test_a_dict_of_dicts_has_weights_and_attributes(self):
        heavy = 2**32 - 3
        for graph, named in (
            ({"a": {"b": heavy, "c": 1}, "b": {"a": heavy, "c": 1}, "c": {"a": 1, "b": 1}}, {}),
            ({"a": {"b": {"w": heavy}, "c": {}}, "b": {"c": {}}}, {"weight": "w"}),
        ):
            for tree in spanning_trees(graph, 20, "a", key=ZEROS, **named):
                self.assertIn(("a", "b"), tree.edges)

    def test_an_edge_that_stands_at_one_end(self):
        self.assertEqual(spanning_tree({"a": ["b"], "c": {"b": {}}}).parents, {"b": "a", "c": "b"})

    def test_a_vertex_without_neighbours(self):
        self.assertEqual(self.refused(popsample.CutOffError, spanning_tree, {"a": ["b"], "b": [], "c": []}).vertex, "c")

    def test_what_is_no_adjacency(self):
        error = self.refused(TypeError, spanning_tree, {"ab": 3})
        self.assertIn("The neighbours of vertex 'ab' must be a list or a dict, not 3.", str(error))
        self.refused(TypeError, spanning_tree, {"ab": "cd"})
        error = self.refused(ValueError, spanning_tree, {"a": ["b", "b"]})
        self.assertIn("must be different, not ['b', 'b']", str(error))
        error = self.refused(ValueError, spanning_tree, {"a": {"b": 1}, "b": {"a": 2}})
        told = "The edge ('a', 'b') must have the same at both ends, not 1 at its first and 2 at its second"
        self.assertIn(told, str(error))
        error = self.refused(TypeError, spanning_tree, {"a": {"b": {0: {}, 1: {}}}})
        self.assertIn("pass the multigraph itself", str(error))

    @unittest.skipUnless(HAS_NETWORKX, "networkx isn't installed")
    def test_those_of_networkx(self):
        import networkx

        graph = networkx.grid_2d_graph(2, 2)
        for made in (networkx.to_dict_of_lists(graph), networkx.to_dict_of_dicts(graph)):
            tree = spanning_tree(made, (0, 0), key=ZEROS)
            self.assertEqual(tree.arrows, spanning_tree(graph, (0, 0), key=ZEROS).arrows)
            self.assertEqual(set(tree.parents), {(0, 1), (1, 0), (1, 1)})


@unittest.skipUnless(HAS_NETWORKX, "networkx isn't installed")
class Views(Refusing):
    """What networkx gives as `graph.edges` and `graph.nodes` is a mapping and a set at once."""

    def test_views_of_edges(self):
        import networkx

        heavy = 2**32 - 3
        for kind in (networkx.Graph, networkx.MultiGraph):
            graph = kind()
            graph.add_edge("a", "b", w=1)
            graph.add_edge("b", "c", w=heavy)
            graph.add_edge("c", "a", w=1)
            graph.add_edge("c", "a", w=1)
            for view in (graph.edges, graph.edges(), graph.edges(data=True)):
                self.assertEqual(set(spanning_tree(view, "b").parents), {"a", "c"})
                self.refused(popsample.NoWeightError, spanning_tree, view, weight="W")
            for view in (graph.edges, graph.edges(data=True)):
                place = [{*edge[:2]} for edge in view].index({"b", "c"})
                for tree in spanning_trees(view, 20, "b", "w", ZEROS):
                    self.assertIn(place, tree.edge_indices)

    def test_other_views(self):
        import networkx

        graph = networkx.grid_2d_graph(2, 2)
        for view in (graph.nodes, graph.to_directed().edges, networkx.MultiDiGraph([(1, 2)]).edges):
            error = self.refused(TypeError, spanning_tree, view)
            self.assertIn("A view must be of the edges of an undirected graph", str(error))


class Strings(Refusing):
    def test_edges_that_are_strings(self):
        for graph in (["ab", "bc"], [b"ab", b"bc"], {"ab", "bc"}, [("a", "b"), "bc"]):
            with self.subTest(graph=graph):
                error = self.refused(TypeError, spanning_tree, graph)
                self.assertIn("must be a pair or a triple. A graph is a list of edges", str(error))

    def test_what_is_no_graph(self):
        for graph in (b"ab", 5, None):
            error = self.refused(TypeError, spanning_tree, graph)
            self.assertIn(f"{graph!r} is no graph. A graph is a list of edges", str(error))
        self.assertIn("The edge {'a': 'b'} must be a pair", str(self.refused(TypeError, spanning_tree, [{"a": "b"}])))

    def test_a_vertex_that_is_a_list(self):
        error = self.refused(TypeError, spanning_tree, [(["a"], "b")])
        self.assertIn("The vertex ['a'] can't be hashed", str(error))


class Rows(list):
    """What has the look of an array of numpy: rows, a shape and a type."""

    def __init__(self, rows, kind="i"):
        super().__init__(rows)
        self.shape = (len(rows), len(rows[0]))
        self.dtype = SimpleNamespace(kind=kind)

    def tolist(self):
        """The rows."""
        return list(self)


class Lists(Refusing):
    def test_what_may_be_an_adjacency_matrix(self):
        for rows in ([[0, 1], [1, 0]], [[0, 5], [5, 0]], [[0, 1, 2], [1, 0, 3], [2, 3, 0]]):
            error = self.refused(popsample.ArgumentError, spanning_tree, rows)
            self.assertIn("may be an adjacency matrix or a list of edges", str(error))
        self.assertEqual(spanning_tree(from_edges([[0, 1], [1, 0]])).parents, {1: 0})
        for rows in ([[0, 1], [1, 2]], [(0, 1), (1, 0)], [["a", "b"], ["b", "a"]]):
            self.assertEqual(len(spanning_tree(rows).edges), len({name for row in rows for name in row}) - 1)

    def test_edges_with_weights_and_vertices_beside(self):
        pairs = [("a", "b"), ("b", "c")]
        tree = spanning_tree(from_edges(pairs, [1, 2], "cba"))
        self.assertEqual((tree.root, tree.parents), ("c", {"b": "c", "a": "b"}))
        self.refused(popsample.ArgumentError, from_edges, pairs, [1])
        self.refused(popsample.ArgumentError, from_edges, pairs, None, "ab")
        self.refused(popsample.CutOffError, spanning_tree, from_edges(pairs, vertices="abcd"))


class LikeArrays(Refusing):
    """As below, where numpy isn't installed."""

    def test_square_ones_are_refused(self):
        for matrix in ([[0, 1], [1, 0]], [[0, 1, 1], [1, 0, 1], [1, 1, 0]]):
            error = self.refused(popsample.ArgumentError, spanning_tree, Rows(matrix))
            self.assertIn("pass popsample.from_adjacency(..) or popsample.from_edges(..) of it", str(error))
            self.assertEqual(set(spanning_tree(from_adjacency(Rows(matrix))).parents), set(range(1, len(matrix))))
        self.refused(popsample.ArgumentError, spanning_tree, Rows([(0.0, 1.0)], "f"))

    def test_edges(self):
        self.assertEqual(spanning_tree(Rows([(0, 1), (1, 2), (1, 3)])).parents, {1: 0, 2: 1, 3: 1})


@unittest.skipUnless(HAS_NUMPY, "numpy isn't installed")
class ArraysOfNumbers(Refusing):
    def test_vertices_are_in_the_order_in_which_they_first_occur(self):
        import numpy

        chance = random.Random(104)
        orders = [[0, 1, 1, 2, 2, 0], [0, 0], [0, 0, 0, 1], [0, 2, 2, 1], [1, 0], [5, 3, 3, 9], [0, 1, 3, 2]]
        orders += [[0, 2**32 - 1], [2**32 - 1, 0]]
        drawn = [[chance.randrange(9) for _ in range(2 * chance.randrange(1, 9))] for _ in range(200)]
        for flat in (*orders, *drawn):
            names = list(dict.fromkeys(flat))
            for kind in ("uint8", "int16", "uint32", "int64", "uint64"):
                if max(flat) <= numpy.iinfo(kind).max:
                    read = from_edges(numpy.array(flat, dtype=kind).reshape(-1, 2))
                    found = [read.vertices[place] for place in read.ends.tolist()]
                    self.assertEqual((list(read.vertices), found), (names, flat), (flat, kind))

    def test_an_array_may_be_changed_after_a_call(self):
        import numpy

        for kind in ("uint32", "int64"):
            pairs = numpy.array([(0, 1), (1, 2), (2, 0)], dtype=kind)
            tree = spanning_tree(pairs, key=ZEROS)
            pairs[:] = 7
            self.assertEqual(tree, spanning_tree([(0, 1), (1, 2), (2, 0)], key=ZEROS))
            self.assertEqual(set(tree.edges) | {(0, 1), (1, 2), (2, 0)}, {(0, 1), (1, 2), (2, 0)})

    def test_a_root_that_equals_a_vertex(self):
        import numpy

        for graph in ([(0, 1), (1, 2)], numpy.array([(0, 1), (1, 2)]), numpy.array([(1, 0), (1, 2)])):
            for root in (1, 1.0, numpy.int8(1), True):
                self.assertEqual(spanning_tree(graph, root).parents, {0: 1, 2: 1})
            for root in ("1", 1.5, float("nan"), (1,), 3, -1):
                self.refused(popsample.RootError, spanning_tree, graph, root)

    def test_square_ones_are_refused(self):
        import numpy

        for matrix in ([[0, 1], [1, 0]], [[0, 1, 1], [1, 0, 1], [1, 1, 0]]):
            error = self.refused(popsample.ArgumentError, spanning_tree, numpy.array(matrix))
            self.assertIn("pass popsample.from_adjacency(..) or popsample.from_edges(..) of it", str(error))

    def test_as_many_edges_as_columns(self):
        import numpy

        for pairs in ([[0, 1], [1, 2]], [[0, 1, 1], [1, 2, 3], [0, 2, 4]]):
            listed = spanning_tree(list(map(tuple, pairs)), key=ZEROS)
            self.assertEqual(spanning_tree(numpy.array(pairs), key=ZEROS), listed, pairs)
        for pairs in (numpy.array([[0, 1], [1, 0]]), [[0, 1], [1, 0]]):
            self.assertEqual(spanning_tree(from_edges(pairs)).parents, {1: 0})

    def test_floats_beside_weights(self):
        import numpy

        edges, weights = numpy.array([(0, 1), (1, 2), (2, 0)]), numpy.array([1.0, 2.0, 2.5])
        stacked = spanning_tree(numpy.column_stack([edges, weights]), key=ZEROS)
        self.assertEqual(stacked, spanning_tree(from_edges(edges, weights), key=ZEROS))
        self.assertEqual({type(vertex) for vertex in stacked.parents}, {int})
        wrong = numpy.array([(0.5, 1, 1)])
        self.assertIn("must be integers", str(self.refused(popsample.ArgumentError, spanning_tree, wrong)))

    def test_large_and_negative_names(self):
        import numpy

        pairs = [(-5, 2**40), (2**40, 7), (7, -5)] * 40
        self.assertEqual(spanning_tree(numpy.array(pairs), key=ZEROS), spanning_tree(pairs, key=ZEROS))
        many = [(vertex * 7 % 100, vertex * 7 % 100 + 1) for vertex in range(1000)]
        for kind in (numpy.uint32, numpy.int32, numpy.int64):
            self.assertEqual(spanning_tree(numpy.array(many, dtype=kind), key=ZEROS), spanning_tree(many, key=ZEROS))

    def test_others_that_are_no_edges(self):
        import numpy

        others = (numpy.zeros((4, 2)), numpy.ones((2, 4), dtype=int), numpy.arange(3), numpy.ones((3, 2), dtype=bool))
        for array in others:
            self.refused(popsample.ArgumentError, spanning_tree, array)

    def test_edges(self):
        import numpy

        pairs = [(0, 1), (1, 2), (2, 0), (2, 3)]
        for kind in (numpy.int64, numpy.uint8):
            tree = spanning_tree(numpy.array(pairs, dtype=kind), 3)
            self.assertTrue(is_tree_to(3, range(4), pairs, tree))
            self.assertEqual({type(vertex) for vertex in tree.parents}, {int})
        heavy = numpy.array([(7, 8, 1), (7, 8, 2**32 - 3)])
        self.assertEqual({tree.edge_indices[0] for tree in spanning_trees(heavy, 20, key=ZEROS)}, {1})

    def test_a_matrix_by_name(self):
        import numpy

        matrix = numpy.array([[0, 5, 0], [5, 0, 0.5], [0, 0.5, 0]])
        self.assertEqual(spanning_tree(from_adjacency(matrix)).parents, {1: 0, 2: 1})
        tree = spanning_tree(from_adjacency(numpy.ones((2, 2), dtype=bool), names=["a", "b"]), "b")
        self.assertEqual((tree.parents, tree.edges), ({"a": "b"}, (("a", "b"),)))


class Matrices(Refusing):
    def test_a_list_of_lists_by_name(self):
        self.assertEqual(spanning_tree(from_adjacency([[0, 1], [1, 0]])).parents, {1: 0})
        triangle = from_adjacency([[0, 1, 1], [1, 0, 1], [1, 1, 0]], names="abc")
        edges = [arrow.edge for arrow in sink_free_orientation(triangle).arrows]
        self.assertEqual(edges, [("a", "b"), ("a", "c"), ("b", "c")])

    def test_a_dict_by_name(self):
        self.assertEqual(spanning_tree(from_adjacency(SQUARE), key=ZEROS), spanning_tree(SQUARE, key=ZEROS))
        given = from_adjacency({"a": {"b": {"w": 1}, "c": {"w": 9}}}, weight="w")
        self.assertEqual(set(spanning_tree(given).parents), {"b", "c"})
        self.refused(popsample.OptionError, spanning_tree, given, weight="w")

    def test_what_is_no_undirected_graph(self):
        self.assertIn("row 0 of this one, from 0, isn't its column", str(self.wrong([[0, 1], [0, 0]])))
        self.assertIn("An adjacency matrix must be square", str(self.wrong([[0, 1]])))
        self.assertIn("`names` must have one name for each of the 2 rows", str(self.wrong([[0, 1], [1, 0]], names="a")))
        self.assertIn("whose entries are the weights", str(self.wrong([[0]], weight="w")))
        self.assertIn("weight -1 of edge (0, 1)", str(self.wrong([[0, -1], [-1, 0]])))
        nan = float("nan")
        self.assertIn("has one in row 1, column 0", str(self.wrong([[0, 1], [nan, 0]])))
        for matrix in (None, 3, [3]):
            self.refused(TypeError, from_adjacency, matrix)
        self.refused(TypeError, from_adjacency, [[0, 1], [1, 0]], [[1], [2]])

    def wrong(self, *words, **named):
        """What is raised of these."""
        return self.refused(popsample.ArgumentError, from_adjacency, *words, **named)


class LikeArray:
    """What has the look of an array of one number."""

    def __index__(self):
        raise TypeError("only integer scalar arrays can be converted to a scalar index")


class Weights(Refusing):
    def test_a_mistyped_attribute(self):
        for graph in ([("a", "b", {"buses": 2})], [("a", "b")], {"a": {"b": {"buses": 2}}}):
            error = self.refused(KeyError, spanning_tree, graph, weight="busses")
            self.assertIsInstance(error, popsample.NoWeightError)
            self.assertEqual(error.attribute, "busses")
            self.assertIn("No edge has the attribute 'busses' that weight= names", str(error))

    @unittest.skipUnless(HAS_NETWORKX, "networkx isn't installed")
    def test_a_mistyped_attribute_of_networkx(self):
        import networkx

        for kind in (networkx.Graph, networkx.MultiGraph):
            graph = kind()
            graph.add_edge("a", "b", buses=2)
            graph.add_edge("b", "c")
            self.refused(KeyError, spanning_tree, graph, weight="busses")
            self.assertEqual(spanning_tree(graph, weight="buses").parents, {"b": "a", "c": "b"})

    def test_fractions_are_scaled(self):
        whole = [("a", "b", 1), ("b", "c", 2), ("c", "a", 3)]
        wanted = [tree.edges for tree in spanning_trees(whole, 50, key=ZEROS)]
        for unit in (0.5, 2.0**-300, Fraction(1, 30), Fraction(2, 7)):
            edges = [(first, second, weight * unit) for first, second, weight in whole]
            self.assertEqual([tree.edges for tree in spanning_trees(edges, 50, key=ZEROS)], wanted, unit)
        mixed = [("a", "b", Fraction(1, 6)), ("b", "c", Fraction(1, 3)), ("c", "a", 0.5)]
        self.assertEqual([tree.edges for tree in spanning_trees(mixed, 50, key=ZEROS)], wanted)

    def test_whole_numbers_of_any_kind_stay(self):
        wanted = spanning_tree([("a", "b", 2), ("b", "a", 4)], key=ZEROS)
        self.assertEqual(spanning_tree([("a", "b", 2.0), ("b", "a", Fraction(4))], key=ZEROS), wanted)

    def test_what_does_not_fit_is_refused_by_name(self):
        for weights, wrong in (((1, 0.1), 0.1), ((Fraction(1, 2**40), Fraction(1, 3**26)), Fraction(1, 3**26))):
            edges = [("a", "b", weights[0]), ("b", "c", weights[1])]
            error = self.refused(popsample.WeightError, spanning_tree, edges)
            self.assertEqual((error.edge, error.weight), (1, wrong))
            self.assertIn(f"The weight {wrong!r} of edge 1 can't be taken: it is exactly ", str(error))
        error = self.refused(popsample.WeightError, spanning_tree, [("a", "b", 0.5), ("b", "c", 2.0**40)])
        self.assertEqual((error.edge, error.weight), (1, 2.0**40))
        self.assertIn("can't all be scaled exactly to integers up to 4294967295", str(error))
        self.refused(popsample.WeightError, spanning_tree, [("a", "b", 2**32)])

    def test_what_is_not_above_zero(self):
        for weight in (0, -1, -0.5, float("nan"), float("inf"), Fraction(0), False):
            error = self.refused(ValueError, spanning_tree, [("a", "b"), ("b", "c", weight)])
            self.assertIn(f"The weight {weight!r} of edge 1 can't be taken: it must be a number above 0", str(error))

    def test_what_is_no_number(self):
        for weight in ("3", None, (1, 2), LikeArray()):
            error = self.refused(TypeError, spanning_tree, [("a", "b", weight)])
            self.assertIn(f"The weight of edge 0 must be an int, a float, a fractions.Fraction or a decimal.Decimal, not {weight!r}.", str(error))


class Variables(Refusing):
    def test_variables_in_no_clause(self):
        told = extremal_solution([[1, 2]], variables=5)
        self.assertEqual([abs(literal) for literal in told.literals], [1, 2, 3, 4, 5])
        self.assertEqual(rounds_solution([], variables=3, stacks=[[0], [1], [0]]).literals, (-1, 2, -3))
        self.assertEqual(len(popsample.resample([[2]], variables=3).literals), 3)
        self.assertEqual(len(next(extremal_solutions([], 2, variables=4)).literals), 4)

    def test_fewer_than_the_clauses_have(self):
        error = self.refused(popsample.OptionError, extremal_solution, [[1, -7]], variables=6)
        self.assertEqual(str(error), "`variables` must be at least 7, a variable of the clauses, not 6.")
        self.refused(ValueError, extremal_solution, [[1]], variables=-1)

    def test_a_file_says_it_itself(self):
        self.refused(popsample.OptionError, extremal_solution, "none.cnf", variables=3)

    def test_a_formula_of_python_sat(self):
        # As pysat.formula.CNF: it has the clauses, and the number of variables, some of which stand in none.
        formula = SimpleNamespace(clauses=[[1, -2]], nv=4)
        self.assertEqual(len(extremal_solution(formula).literals), 4)
        self.assertEqual(len(extremal_solution(formula, variables=6).literals), 6)
        self.assertEqual(popsample.is_extremal(formula), 1)
        error = self.refused(ValueError, extremal_solution, SimpleNamespace(clauses=[], nv=2, atmosts=[[[1, 2], 1]]))
        self.assertIn("cardinality constraints", str(error))

    def test_what_is_no_formula(self):
        for formula in (5, b"p cnf", {1: [2]}):
            self.assertIn(f"{formula!r} is no formula. ", str(self.refused(TypeError, extremal_solution, formula)))
        for clause in (3, "12", {1: 2}):
            error = self.refused(TypeError, extremal_solution, [[1, 2], clause])
            self.assertIn(f"The clause {clause!r} must be a list of integers", str(error))


if __name__ == "__main__":
    unittest.main()
