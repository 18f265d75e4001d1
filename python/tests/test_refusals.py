"""Each refusal, with its numbers and with what its message says."""

import os
import unittest
from unittest import mock

import popsample
from popsample import find_clash, resample, sink_free_orientation, spanning_tree

from .checks import ZEROS, Refusing, extremal_solution, file_of, program_of, rounds_solution

TRIANGLE = [("Ann", "Bob"), ("Bob", "Cem"), ("Cem", "Ann")]


class OfRuns(Refusing):
    def test_exhausted_formula(self):
        error = self.refused(popsample.ExhaustedError, extremal_solution, [[1]], stacks=[[0]])
        self.assertEqual((error.stuck, error.used, error.pops, error.log), ((1,), (0,), 0, ()))
        self.assertIn("clause 1", str(error))

    def test_exhausted_orientation(self):
        pair = [("Ann", "Bob"), ("Bob", "Ann")]
        error = self.refused(popsample.ExhaustedError, sink_free_orientation, pair, stacks=[[0, 0], [1, 1]])
        self.assertEqual((error.stuck, error.used, error.pops), (("Bob",), (1, 1), 1))
        self.assertIn("the first is vertex 'Bob'", str(error))

    def test_exhausted_tree(self):
        error = self.refused(popsample.ExhaustedError, spanning_tree, TRIANGLE, stacks=[[1], [0]])
        self.assertEqual((error.stuck, error.pops, error.key), ((("Bob", "Cem"),), 0, None))
        self.assertIn("the cycle of 'Bob', 'Cem'", str(error))

    def test_exhausted_resampling_has_its_log(self):
        error = self.refused(popsample.ExhaustedError, resample, [[1]], stacks=[[0, 0]])
        self.assertEqual((error.stuck, error.pops, error.log), ((1,), 1, (popsample.Pop(1, {1: 0}, 1),)))

    def test_exhausted_rounds(self):
        error = self.refused(popsample.ExhaustedError, rounds_solution, [[1]], stacks=[[0, 0]])
        self.assertEqual((error.stuck, error.used, error.pops, error.log), ((1,), (1,), None, ()))
        self.assertEqual((error.rounds, error.short), (1, 1))

    def test_no_witness(self):
        error = self.refused(popsample.NoWitnessError, resample, [[1]], stacks=[[0, 1]], witness=(1, 1))
        self.assertEqual((error.variable, error.entry, error.cursor), (1, 1, 1))


class OfWords(Refusing):
    def test_usage(self):
        # The module hands in no such words; another program may take others.
        with program_of("echo s USAGE 5; exit 2"):
            error = self.refused(popsample.UsageError, spanning_tree, TRIANGLE, key=ZEROS, workers=64)
        self.assertEqual((error.place, error.word, error.key), (5, ZEROS, ZEROS))
        self.assertIn(f"Argument 5, '{ZEROS}',", str(error))

    def test_words_that_end_too_early(self):
        error = popsample.UsageError(1, None)
        self.assertIn("Argument 1, the end,", str(error))


class OfTexts(Refusing):
    def test_malformed_formulas(self):
        texts = {
            ("p edge 1 0\n", 1, 1, "p edge 1 0"),
            ("c nothing\n", 2, 1, None),
            ("p cnf 1 1\nx 0\n", 2, 2, "x 0"),
            ("p cnf 1 1\n2 0\n", 2, 3, "2 0"),
            ("p cnf 1 1 1\n", 1, 4, "p cnf 1 1 1"),
        }
        self.malformed(texts, extremal_solution)

    def test_malformed_graphs(self):
        texts = {
            ("p cnf 1 1\n", 1, 11, "p cnf 1 1"),
            ("p edge 2 1\ne 1 x\n", 2, 12, "e 1 x"),
            ("p edge 2 1\n\ne 1 3\n", 3, 13, "e 1 3"),
            ("p edge 2 1\n  e 1 2 0\n", 2, 14, "e 1 2 0"),
            ("p edge 2 1\ne 1\n", 2, 15, "e 1"),
        }
        self.malformed(texts, spanning_tree)
        self.malformed(texts, sink_free_orientation)

    def malformed(self, texts, call):
        for text, line, code, shown in texts:
            with self.subTest(code=code), file_of(text) as path:
                error = self.refused(popsample.MalformedError, call, path)
                self.assertEqual((error.line, error.code), (line, code))
                self.assertEqual(error.text or "", shown or "")
                self.assertIn(f"Line {line} of the input", str(error))

    def test_malformed_weight(self):
        with file_of("p edge 2 1\ne 1 2 0\n") as path:
            error = self.refused(popsample.MalformedError, spanning_tree, path)
        self.assertIn("Line 2 of the input is invalid: the weight is 0 (code 14). It reads 'e 1 2 0'.", str(error))

    def test_count(self):
        with file_of("p cnf 1 2\n1 0\n") as path:
            error = self.refused(popsample.CountError, find_clash, path)
        self.assertEqual((error.declared, error.found), (2, 1))

    def test_limits(self):
        with file_of("p cnf 4194305 0\n") as path:
            error = self.refused(popsample.LimitError, find_clash, path)
        self.assertEqual((error.kind, error.place), (2, 1))
        error = self.refused(popsample.LimitError, spanning_tree, [("Ann", "Bob", 2**32 - 1), ("Ann", "Bob", 1)])
        self.assertEqual((error.kind, error.place), (6, "Bob"))
        self.assertIn("at vertex 'Bob'", str(error))


class OfRows(Refusing):
    def test_rows(self):
        error = self.refused(popsample.RowsError, spanning_tree, TRIANGLE, stacks=[[0]])
        self.assertEqual((error.given, error.wanted), (1, 2))

    def test_empty_row(self):
        error = self.refused(popsample.EmptyRowError, spanning_tree, TRIANGLE, stacks=[[0], []])
        self.assertEqual(error.variable, "Cem")
        error = self.refused(popsample.EmptyRowError, sink_free_orientation, TRIANGLE, stacks=[[0], [], [0]])
        self.assertEqual(error.variable, 1)
        error = self.refused(popsample.EmptyRowError, extremal_solution, [[1, 2]], stacks=[[0], []])
        self.assertEqual(error.variable, 2)

    def test_value(self):
        error = self.refused(popsample.EntryError, spanning_tree, TRIANGLE, stacks=[[0], [0, 2]])
        self.assertEqual((error.variable, error.entry), ("Cem", 1))
        self.assertIn("Entry 1 of variable 'Cem'", str(error))


class OfInstances(Refusing):
    def test_clash(self):
        clauses = [[-3], [1, 2], [2, 3]]
        for key in (None, ZEROS):
            error = self.refused(popsample.ClashError, extremal_solution, clauses, key)
            self.assertEqual((error.first, error.second, error.clauses), (2, 3, ("1 2", "2 3")))
        self.assertEqual(find_clash(clauses), (2, 3))

    def test_clash_in_a_file(self):
        with file_of("c two\np cnf 3 3\n-3 0 1\nc within\n2 0 2 3\n") as path:
            error = self.refused(popsample.ClashError, extremal_solution, path)
        self.assertEqual((error.first, error.second, error.clauses), (2, 3, ("1 2", "2 3")))

    def test_empty(self):
        error = self.refused(popsample.EmptyClauseError, extremal_solution, [[1], []])
        self.assertEqual(error.clause, 2)

    def test_isolated(self):
        with file_of("p edge 3 1\ne 1 2\n") as path:
            error = self.refused(popsample.IsolatedError, sink_free_orientation, path)
        self.assertEqual(error.vertex, 3)

    def test_root(self):
        error = self.refused(popsample.RootError, spanning_tree, TRIANGLE, root="Zoe")
        self.assertEqual(error.root, "Zoe")
        self.assertIn("The root 'Zoe'", str(error))
        with file_of("p edge 2 1\ne 1 2\n") as path:
            for root in (3, 0, "x"):
                self.assertEqual(self.refused(popsample.RootError, spanning_tree, path, root).root, root)

    def test_cut_off(self):
        error = self.refused(popsample.CutOffError, spanning_tree, [("Ann", "Bob"), ("Cem", "Dan")])
        self.assertEqual(error.vertex, "Cem")
        self.assertIn("Vertex 'Cem' is not connected", str(error))


class OfGraphs(Refusing):
    def test_edges_of_another_form(self):
        for edge in (("a",), ("a", "b", 1, 2), []):
            error = self.refused(ValueError, spanning_tree, [edge])
            self.assertIn(f"The edge {edge!r} must have two or three parts", str(error))


class OfDevices(Refusing):
    """The program's own answers, where a script changes its input, its output or its end."""

    def test_read_fault(self):
        with program_of('exec "$PROGRAM" "$@" < /'):
            self.refused(popsample.ReadError, find_clash, [[1]])

    @unittest.skipUnless(os.path.exists("/dev/full"), "there is no /dev/full")
    def test_write_fault(self):
        with program_of('exec "$PROGRAM" "$@" > /dev/full'):
            self.refused(popsample.WriteError, find_clash, [[1]])

    def test_memory(self):
        with program_of("echo s MEMORY; exit 9"):
            error = self.refused(popsample.OutOfMemoryError, find_clash, [[1]])
        self.assertEqual(error.status, 9)

    def test_no_program(self):
        with mock.patch.dict(os.environ, {"POPSAMPLE": "/nowhere/popsample", "POPSAMPLE_LIBRARY": ""}):
            error = self.refused(popsample.NoProgramError, find_clash, [[1]])
        self.assertIn("'/nowhere/popsample'", str(error))

    def test_ends_that_are_no_answers(self):
        for script in ("exit 1", "kill -9 $$", "echo s NONE; exit 3", "echo nothing; exit 2", "exit 0", "echo nothing"):
            with self.subTest(script), program_of(script):
                self.refused(popsample.NoAnswerError, find_clash, [[1]])
                self.refused(popsample.NoAnswerError, spanning_tree, TRIANGLE)
                self.refused(popsample.NoAnswerError, spanning_tree, TRIANGLE, log=True)
                self.refused(popsample.NoAnswerError, popsample.spanning_trees, TRIANGLE, 3)


if __name__ == "__main__":
    unittest.main()
