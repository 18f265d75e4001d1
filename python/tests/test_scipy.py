"""Sparse matrices of scipy, where it is installed, judged by its own functions."""

import random
import unittest

import popsample

from .checks import ZEROS

try:
    import numpy
    from scipy import sparse
    from scipy.sparse import csgraph
except ImportError:
    sparse = None

FORMATS = ("csr", "csc", "coo", "lil", "dok", "bsr", "dia")
GRAPHS = 10
TRIANGLE = [[0, 5, 1], [5, 0, 2], [1, 2, 0]]


def random_matrix(chance: random.Random):
    """The adjacency of a random connected graph with weights and loops."""
    vertices = chance.randrange(3, 25)
    matrix = sparse.lil_matrix((vertices, vertices), dtype="int64")
    pairs = [(chance.randrange(vertex), vertex) for vertex in range(1, vertices)]
    pairs += [(chance.randrange(vertices), chance.randrange(vertices)) for _ in range(vertices)]
    for first, second in pairs:
        matrix[first, second] = matrix[second, first] = chance.randrange(1, 9)
    return matrix


@unittest.skipUnless(sparse, "scipy isn't installed")
class Matrices(unittest.TestCase):
    def test_spanning_trees(self):
        chance = random.Random(401)
        for number in range(GRAPHS):
            matrix = random_matrix(chance)
            vertices = matrix.shape[0]
            root = chance.randrange(vertices)
            tree = popsample.spanning_tree(matrix, root)
            with self.subTest(number=number, key=tree.key):
                made = tree.graph.tocsr()
                self.assertEqual(made.nnz, vertices - 1)
                order, _ = csgraph.breadth_first_order(made.T, root, directed=True)
                self.assertEqual(sorted(order), list(range(vertices)))
                self.assertEqual(made[root].nnz, 0)
                for arrow in tree.arrows:
                    self.assertEqual(arrow.edge, (min(arrow[:2]), max(arrow[:2])))
                    self.assertEqual(made[arrow.tail, arrow.head], matrix[arrow.tail, arrow.head])

    def test_each_format_is_given_back(self):
        wanted = popsample.spanning_tree([(0, 1, 5), (0, 2, 1), (1, 2, 2)], key=ZEROS).parents
        for kind in (sparse.coo_matrix, sparse.coo_array):
            for name in FORMATS:
                matrix = kind(numpy.array(TRIANGLE)).asformat(name)
                tree = popsample.spanning_tree(matrix, key=ZEROS)
                with self.subTest(format=name, kind=kind.__name__):
                    self.assertEqual(tree.parents, wanted)
                    self.assertIs(type(tree.graph), type(matrix))
                    self.assertEqual((tree.graph.shape, tree.graph.dtype), (matrix.shape, matrix.dtype))

    def test_the_matrix_stays_as_it_was(self):
        matrix = sparse.coo_matrix(([2, 3, 5], ([0, 0, 1], [1, 1, 0])), shape=(2, 2))
        tree = popsample.spanning_tree(matrix, key=ZEROS)
        self.assertEqual((tree.parents, tree.graph.toarray().tolist()), ({1: 0}, [[0, 0], [5, 0]]))
        self.assertEqual(matrix.nnz, 3)

    def test_weights_are_the_entries(self):
        # A tree with the light edge comes once in about 2^30 times.
        heavy = 2**31 - 1
        matrix = sparse.csr_matrix(numpy.array([[0, heavy, 1], [heavy, 0, heavy], [1, heavy, 0]]))
        for tree in popsample.spanning_trees(matrix, 20, 0, key=ZEROS):
            self.assertEqual(tree.parents, {1: 0, 2: 1})

    def test_kinds_of_entries(self):
        for kind in ("bool", "uint8", "int32", "float64"):
            matrix = sparse.csr_matrix(numpy.array([[0, 1, 1], [1, 0, 1], [1, 1, 0]], dtype=kind))
            tree = popsample.spanning_tree(matrix, key=ZEROS)
            self.assertEqual(tree.parents, popsample.spanning_tree([(0, 1), (0, 2), (1, 2)], key=ZEROS).parents, kind)

    def test_a_zero_that_stands_is_no_edge(self):
        matrix = sparse.csr_matrix(([0, 0], ([0, 1], [1, 0])), shape=(2, 2))
        with self.assertRaises(popsample.CutOffError):
            popsample.spanning_tree(matrix)

    def test_orientations(self):
        matrix = sparse.csr_array(numpy.array(TRIANGLE))
        orientation = popsample.sink_free_orientation(matrix, ZEROS)
        made = orientation.graph.toarray()
        self.assertTrue((made.sum(axis=1) > 0).all())
        self.assertEqual((made + made.T).tolist(), TRIANGLE)

    def test_what_is_refused(self):
        for matrix, kind, told in (
            (sparse.csr_matrix((2, 3)), ValueError, "2 rows and 3 columns"),
            (sparse.csr_matrix(numpy.array([[0, 1], [0, 0]])), ValueError, "matrix.maximum(matrix.T)"),
            (sparse.csr_matrix(numpy.array([[0, 1], [2, 0]])), ValueError, "must be symmetric"),
            (sparse.csr_matrix(numpy.array([[0, -1], [-1, 0]])), ValueError, "-1"),
            (sparse.csr_matrix(numpy.array([[0, numpy.nan], [numpy.nan, 0]])), ValueError, "must have no NaN"),
        ):
            with self.assertRaises(kind) as refused:
                popsample.spanning_tree(matrix)
            self.assertIn(told, str(refused.exception))
        with self.assertRaises(ValueError) as named:
            popsample.spanning_tree(sparse.csr_matrix((1, 1)), weight="buses")
        self.assertIn("`weight` must be None for a matrix", str(named.exception))


if __name__ == "__main__":
    unittest.main()
