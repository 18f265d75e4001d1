"""Runs that are stopped, their certificates, and how they go on."""

import importlib.util
import pickle
import tempfile
import unittest
from pathlib import Path

import popsample
from popsample import Pop, replay, resample, resume, sink_free_orientation, spanning_tree

from .checks import ZEROS, Refusing, extremal_solution, program_of

TRIANGLE = [("a", "b"), ("b", "c"), ("a", "c")]
# After two pops of the one clause there is a third, and then it is true.
ROWS = [[0, 0, 0, 1]]
STOPPED = b"cert 1 formula\nstacks 0,0,0,1\ninput 14\np cnf 1 1\n1 0\nlog 2 2\npop 1 1 1:0\npop 2 1 1:1\n"
# Two arrows that point at one another are popped twice.
TREE_ROWS = [[1, 1, 0], [0, 0, 0]]
TREE_STOPPED = (
    b"cert 1 tree\nstacks 1,1,0;0,0,0\nroot 1\ninput 35\np edge 3 3\ne 1 2 1\ne 2 3 1\ne 1 3 1\n"
    b"log 2 1\npop 1 2 2:0 3:0\n"
)


class Stopped(Refusing):
    def test_a_run_that_is_not_at_its_end(self):
        error = self.refused(popsample.Paused, extremal_solution, [[1]], stacks=ROWS, pops=2)
        self.assertEqual((error.certificate, error.status, error.key), (STOPPED, 10, None))
        self.assertIn("has not finished within the requested number of pops", str(error))
        error = self.refused(popsample.Paused, spanning_tree, TRIANGLE, "a", stacks=TREE_ROWS, pops=1)
        self.assertEqual(error.certificate, TREE_STOPPED)

    def test_a_key_is_told(self):
        error = self.refused(popsample.Paused, extremal_solution, [[-1], [-2], [-3], [-4]], ZEROS, height=9, pops=1)
        self.assertEqual(error.key, ZEROS)

    def test_a_run_that_ends_before(self):
        for pops in (3, 2**32 - 1):
            self.assertEqual(extremal_solution([[1]], stacks=ROWS, pops=pops), extremal_solution([[1]], stacks=ROWS))
            whole = spanning_tree(TRIANGLE, "a", stacks=TREE_ROWS)
            self.assertEqual(spanning_tree(TRIANGLE, "a", stacks=TREE_ROWS, pops=pops), whole)
        error = self.refused(popsample.ExhaustedError, extremal_solution, [[1]], stacks=[[0, 0]], pops=1)
        self.assertEqual((error.stuck, error.pops), ((1,), 1))

    def test_what_pops_excludes(self):
        excluded = ({"grow": 9}, {"workers": 2}, {"log": True}, {"witness": (1, 0)}, {"reports": ["totals"]})
        for named in excluded:
            with self.subTest(**named):
                self.refused(popsample.OptionError, extremal_solution, [[1]], ZEROS, pops=1, **named)

    def test_a_certificate_goes_along(self):
        error = self.refused(popsample.Paused, resample, [[1]], stacks=ROWS, pops=2)
        again = pickle.loads(pickle.dumps(error))
        self.assertEqual((again.certificate, str(again)), (error.certificate, str(error)))

    def test_a_certificate_is_kept_as_it_is(self):
        # Bytes of an input may be any, and its last line may be unended.
        text = b"cert 1 formula\nstacks\ninput 14\nc \xff\r\np cnf 0 0log 2 1\n"
        with program_of(f"printf '{octal(text)}'; exit 10"):
            self.assertEqual(self.refused(popsample.Paused, extremal_solution, []).certificate, text)

    def test_another_text_of_this_status(self):
        with program_of("echo s NONE; exit 10"):
            self.refused(popsample.NoAnswerError, extremal_solution, [])


class Replayed(Refusing):
    def test_how_far_a_log_leads(self):
        told = replay(STOPPED)
        self.assertEqual((told.pops, told.used, told.end, told.key), (2, {1: 2}, "open", None))
        self.assertEqual(replay(TREE_STOPPED).used, {2: 1, 3: 1})
        self.assertEqual(replay(TREE_STOPPED, graph=TRIANGLE).used, {"b": 1, "c": 1})
        third = STOPPED.replace(b"log 2 2", b"log 2 3") + b"pop 3 1 1:2\n"
        self.assertEqual((replay(third).pops, replay(third).end), (3, "sample"))
        self.assertEqual(replay(third.replace(b"0,0,0,1", b"0,0,0,0")).end, "exhausted")

    def test_edges_have_their_names(self):
        circle = [("x", "y"), ("y", "z"), ("z", "x")]
        error = self.refused(popsample.ExhaustedError, sink_free_orientation, circle, stacks=[[0], [1], [0]], pops=9)
        self.assertEqual(error.stuck, ("y",))
        text = b"p edge 3 3\ne 1 2 1\ne 2 3 1\ne 3 1 1\n"
        front = b"cert 1 orient\nstacks 0,0;1,0;0\ninput %d\n" % len(text)
        self.assertEqual(replay(front + text + b"log 2 0\n", graph=circle).used, {0: 0, 1: 0, 2: 0})
        self.assertEqual(replay(front + text + b"log 2 0\n").used, {1: 0, 2: 0, 3: 0})

    def test_a_file(self):
        with tempfile.TemporaryDirectory() as folder:
            path = Path(folder, "run.cert")
            path.write_bytes(STOPPED)
            self.assertEqual(replay(path), replay(STOPPED))
            self.assertEqual(resume(str(path)), resume(STOPPED))


class Resumed(Refusing):
    def test_the_result_is_that_of_the_whole_run(self):
        for workers in (1, 2, 8):
            self.assertEqual(resume(STOPPED, workers), extremal_solution([[1]], stacks=ROWS))
            whole = spanning_tree(TRIANGLE, "a", stacks=TREE_ROWS)
            self.assertEqual(resume(TREE_STOPPED, workers, graph=TRIANGLE), whole)

    def test_keyed_runs_that_are_stopped_halfway(self):
        edges, key = [(vertex, (vertex + 1) % 12) for vertex in range(12)], f"{2:064x}"
        for sample in (spanning_tree, sink_free_orientation):
            whole = sample(edges, key=key)
            self.assertGreater(whole.pops, 9)
            error = self.refused(popsample.Paused, sample, edges, key=key, pops=whole.pops // 2)
            self.assertEqual(error.key, key)
            self.assertEqual(replay(error.certificate).pops, whole.pops // 2)
            for workers in (1, 2, 8):
                self.assertEqual(resume(error.certificate, workers, graph=edges), whole)

    def test_a_chain_of_clauses_after_ten_pops(self):
        chain = [[2 * place - 1, 2 * place, -(2 * place + 1)] for place in range(1, 100)]
        whole = extremal_solution(chain, ZEROS)
        self.assertGreater(whole.pops, 10)
        error = self.refused(popsample.Paused, extremal_solution, chain, ZEROS, pops=10)
        for workers in (1, 2, 8):
            self.assertEqual(resume(error.certificate, workers), whole)

    def test_without_its_graph_it_has_numbers(self):
        tree = resume(TREE_STOPPED)
        self.assertEqual((tree.root, tree.parents, tree.used, tree.pops), (1, {2: 1, 3: 2}, {2: 2, 3: 2}, 2))

    def test_a_resampling_has_the_log_of_both_parts(self):
        told = resume(STOPPED.replace(b"formula", b"resample"))
        self.assertEqual(told.log, (Pop(1, {1: 0}, 1), Pop(1, {1: 1}, 2), Pop(1, {1: 2}, 3)))
        self.assertEqual((told.literals, told.pops), ((1,), 3))

    def test_an_exhausted_end(self):
        error = self.refused(popsample.ExhaustedError, resume, STOPPED.replace(b"0,0,0,1", b"0,0,0,0"))
        self.assertEqual((error.stuck, error.pops, error.key), ((1,), 3, None))
        tree = TREE_STOPPED.replace(b"1,1,0;0,0,0", b"1,1;0,0")
        self.assertEqual(self.refused(popsample.ExhaustedError, resume, tree, graph=TRIANGLE).stuck, (("b", "c"),))

    @unittest.skipUnless(importlib.util.find_spec("networkx"), "networkx isn't installed")
    def test_a_graph_of_networkx_comes_back_directed(self):
        import networkx

        graph = networkx.Graph(TRIANGLE)
        # The edge of b and c is the last one here.
        error = self.refused(popsample.Paused, spanning_tree, graph, "a", stacks=[[1, 1, 0], [1, 1, 0]], pops=1)
        tree = resume(error.certificate, graph=graph).graph
        self.assertEqual(set(tree.edges), {("b", "a"), ("c", "a")})


class Refused(Refusing):
    def test_records_that_are_not_legal(self):
        for call in (replay, resume):
            error = self.refused(popsample.NotLegalError, call, STOPPED.replace(b"1:1\n", b"1:0\n"))
            self.assertEqual((error.record, error.text, error.status), (2, "pop 2 1 1:0", 11))
            self.assertIn("Record 2 of the certificate's log, 'pop 2 1 1:0',", str(error))

    def test_malformed_certificates(self):
        texts = {
            (STOPPED.replace(b"cert 1", b"cert 2"), 1, 21, "cert 2 formula", "the certificate"),
            (STOPPED.replace(b"stacks 0", b"stacks 00"), 2, 21, "stacks 00,0,0,1", "the certificate"),
            (STOPPED[:40], 3, 22, "input 14", "the certificate"),
            (b"cert 1 tree\n", 2, 21, "", "the certificate"),
            (STOPPED[:-1], 3, 31, "pop 2 1 1:1", "the certificate's log"),
            (STOPPED.replace(b"log 2 2", b"log 2 3"), 4, 31, "", "the certificate's log"),
            (STOPPED.replace(b"pop 2", b"pop 3"), 3, 32, "pop 3 1 1:1", "the certificate's log"),
            (STOPPED.replace(b"1 0\n", b"2 0\n"), 2, 3, "2 0", "the certificate's input"),
        }
        for text, line, code, shown, part in texts:
            with self.subTest(code=code, line=line):
                error = self.refused(popsample.MalformedError, replay, text)
                self.assertEqual((error.line, error.code, error.text, error.part), (line, code, shown, part))
                self.assertIn(f"Line {line} of {part} is invalid: ", str(error))

    def test_what_refuses_the_input(self):
        error = self.refused(popsample.RootError, resume, TREE_STOPPED.replace(b"root 1", b"root 9"))
        self.assertEqual(error.root, 9)
        error = self.refused(popsample.RowsError, replay, TREE_STOPPED.replace(b"1,1,0;", b""))
        self.assertEqual((error.given, error.wanted), (1, 2))

    def test_limits(self):
        for kind, told in ((7, "268435456 bytes of a certificate's log"), (8, "536870912 bytes of a certificate")):
            with program_of(f"echo s LIMIT {kind} 1; exit 4"):
                error = self.refused(popsample.TooLongError, replay, STOPPED)
            self.assertEqual(error.kind, kind)
            self.assertIn(f"The certificate exceeds the limit of {told}.", str(error))

    def test_another_graph(self):
        for graph in (TRIANGLE[:2], [("a", "c"), *TRIANGLE]):
            self.refused(ValueError, resume, TREE_STOPPED, graph=graph)
        self.refused(ValueError, replay, STOPPED, graph=TRIANGLE)

    def test_a_text_that_is_no_certificate(self):
        self.refused(popsample.MalformedError, resume, b"", graph=TRIANGLE)

    def test_what_is_neither_bytes_nor_a_path(self):
        for call in (replay, resume):
            for certificate in (5, None, [b"cert"]):
                self.refused(popsample.InputTypeError, call, certificate)

    def test_more_workers_than_there_may_be(self):
        self.assertEqual(self.refused(popsample.OptionError, resume, STOPPED, 65).value, 65)


def octal(text: bytes) -> str:
    """Bytes, as the shell's printf takes them."""
    return "".join(f"\\{byte:03o}" for byte in text)


if __name__ == "__main__":
    unittest.main()
