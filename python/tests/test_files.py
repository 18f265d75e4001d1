"""Files of graphs and formulas, as people have them."""

import codecs
import gzip
import tempfile
import unittest
from pathlib import Path

import popsample

from .checks import ZEROS, Refusing

GRAPH = b"c by hand\r\np edge 3 3\r\ne 1 2\r\n\te 2 3 5\ne 3 1 2"
FORMULA = b"c by hand\np cnf 2 2\n1 2 0\n-1\n 2 0\n%\n0\n"


class Files(Refusing):
    def setUp(self):
        folder = tempfile.TemporaryDirectory()
        self.addCleanup(folder.cleanup)
        self.path = Path(folder.name, "given")

    def written(self, data):
        """The path of a file with these bytes."""
        self.path.write_bytes(data)
        return self.path

    def test_packed_ones_and_those_with_a_mark(self):
        wanted = popsample.spanning_tree([(1, 2), (2, 3, 5), (3, 1, 2)], 1, key=ZEROS).parents
        for data in (GRAPH, gzip.compress(GRAPH), codecs.BOM_UTF8 + GRAPH, gzip.compress(codecs.BOM_UTF8 + GRAPH)):
            path = self.written(data)
            self.assertEqual(popsample.spanning_tree(path, key=ZEROS).parents, wanted)
            self.assertEqual(next(popsample.samples(str(path), key=ZEROS)).parents, wanted)
        wanted = popsample.solution([[1, 2], [-1, 2]], key=ZEROS)
        for data in (FORMULA, gzip.compress(FORMULA), codecs.BOM_UTF8 + FORMULA):
            path = self.written(data)
            self.assertEqual(popsample.solution(path, key=ZEROS), wanted)
            self.assertEqual(popsample.solution(path, "extremal", key=ZEROS, log=True), wanted)
            self.assertTrue(popsample.is_extremal(path))

    def test_what_can_not_be_opened_is_an_oserror(self):
        self.refused(FileNotFoundError, popsample.spanning_tree, self.path)
        self.refused(OSError, popsample.solution, self.written(gzip.compress(FORMULA)[:-9]))

    def test_what_is_wrong_is_told_by_its_line(self):
        graphs = {
            b"p edge 3 1\ne 1 4\n": (2, 13),
            b"p edge 2 1\ne 1 2 0\n": (2, 14),
            b"p edge 2 1\n\x0ce 1 2\n": (2, 15),
            b"p edge 2 1\ne 1 +2\n": (2, 12),
            b"p edge 2\n": (1, 11),
            b"": (1, 11),
        }
        for text, (line, code) in graphs.items():
            for call in (popsample.spanning_tree, popsample.sink_free_orientation):
                error = self.refused(popsample.MalformedError, call, self.written(text))
                self.assertEqual((error.line, error.code), (line, code), text)
            self.refused(popsample.MalformedError, popsample.spanning_trees, self.path, 3)
        formulas = {b"p cnf 1 1\n2 0\n": (2, 3), b"p cnf 1 1\n-0\n": (2, 2), b"p cnf 1 1 1\n1 0\n": (1, 4), b"": (1, 1)}
        for text, (line, code) in formulas.items():
            for method in ("rounds", "extremal"):
                error = self.refused(popsample.MalformedError, popsample.solution, self.written(text), method)
                self.assertEqual((error.line, error.code), (line, code), text)
        error = self.refused(popsample.CountError, popsample.solution, self.written(b"p cnf 1 2\n1 0\n"))
        self.assertEqual((error.declared, error.found), (2, 1))
        error = self.refused(popsample.EmptyClauseError, popsample.solution, self.written(b"p cnf 1 2\n1 0 0\n"))
        self.assertEqual(error.clause, 2)

    def test_literals_of_a_list_that_are_too_large(self):
        for literal in (2**31, -(10**30), 4194305):
            error = self.refused(popsample.ArgumentError, popsample.solution, [[1], [literal]])
            self.assertEqual(str(error), f"A literal must be from -4194304 to 4194304, not {literal}.")


if __name__ == "__main__":
    unittest.main()
