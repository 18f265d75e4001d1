"""What is wrong with the arguments of a call is told in the words of the call, before the program runs."""

import os
import time
import unittest
from concurrent.futures import ThreadPoolExecutor
from functools import partial
from unittest import mock

import popsample
from popsample import (
    derived_key,
    find_clash,
    replay,
    resample,
    resume,
    samples,
    seed_key,
    sink_free_orientation,
    sink_free_orientations,
    spanning_tree,
    spanning_trees,
)

from .checks import (
    ENDLESS,
    LIMIT,
    ZEROS,
    Refusing,
    extremal_solution,
    extremal_solutions,
    file_of,
    program_of,
    rounds_solution,
)

TRIANGLE = [("Ann", "Bob"), ("Bob", "Cem"), ("Cem", "Ann")]
KEY = "32 bytes or a string of 64 hexadecimal digits; a whole number goes to seed="
WORKERS = "an integer from 1 to 64"
HEIGHT = "an integer from 1 to 2147483647"
ROWS = "a sequence of rows, each of integers from 0 to 4294967295"
WEIGHT = "the name of the attribute that has the weights"
REPORTS = "a sequence of some of 'totals', 'heights', 'layers', each once"
SECONDS = "a number of seconds above 0, up to 1000000"
GIVEN = "None if stacks= is given"
SEED = (
    "a non-negative integer of at most 4300 digits, 32 bytes, a random.Random, a Generator, RandomState or "
    "SeedSequence of numpy, or None"
)
PAUSED = dict.fromkeys(("log", "witness", "reports"), "left out if pops= is given") | {"grow": "None if pops= is given"}
SINGLE = (spanning_tree, sink_free_orientation, extremal_solution)
NO_PROGRAM = {"POPSAMPLE": "/nowhere/popsample", "POPSAMPLE_LIBRARY": ""}


@mock.patch.dict(os.environ, NO_PROGRAM)
class Options(Refusing):
    """The program isn't there, so each of these is refused before it would run."""

    def wrong(self, call, subject, argument, value, wanted, **others):
        """The call refuses this argument, by its name and value, and says what it wants."""
        with self.subTest(call=call.__name__, argument=argument, value=value):
            error = self.refused(popsample.OptionError, call, subject, **{argument: value}, **others)
            self.assertEqual(str(error), f"`{argument}` must be {wanted}, not {value!r}.")
            self.assertEqual((error.argument, error.value), (argument, value))
            self.assertIsInstance(error, ValueError)

    def of_all(self, argument, value, wanted, calls=(spanning_tree, sink_free_orientation, extremal_solution, resample)):
        """The same of these functions."""
        for call in calls:
            subject = TRIANGLE if call in (spanning_tree, sink_free_orientation) else [[1]]
            self.wrong(call, subject, argument, value, wanted)

    def test_keys(self):
        for key in (42, "xyz", "0" * 63, ZEROS + "0", "g" * 64, b"0" * 64, "\udcff"):
            self.of_all("key", key, KEY)
            self.wrong(rounds_solution, [[1]], "key", key, KEY)
            self.wrong(spanning_trees, TRIANGLE, "key", key, KEY, count=3)
            self.wrong(samples, TRIANGLE, "key", key, KEY)

    def test_seeds(self):
        for seed in (-1, "7", 1.5, True, b"7"):
            self.of_all("seed", seed, SEED)
        self.wrong(spanning_tree, TRIANGLE, "seed", 7, "None if key= is given", key=ZEROS)

    def test_numbers(self):
        for workers in (0, 65, 100, -1, 1.0, "2", None, True):
            self.of_all("workers", workers, WORKERS)
        for height in (0, 2**31, "9"):
            self.of_all("height", height, HEIGHT)
            self.of_all("grow", height, HEIGHT)
            self.wrong(rounds_solution, [[1]], "height", height, HEIGHT)
        for pops in (0, 2**32, 1.5):
            self.of_all("pops", pops, "an integer from 1 to 4294967295")

    def test_counts(self):
        for count in (0, 2**32 + 1, -3, "9", 2.0):
            wanted = "an integer from 1 to 4294967296"
            self.wrong(spanning_trees, TRIANGLE, "count", count, wanted)
            self.wrong(sink_free_orientations, TRIANGLE, "count", count, wanted)
            self.wrong(extremal_solutions, [[1]], "count", count, wanted)
            self.wrong(samples, TRIANGLE, "count", count, wanted)
        self.wrong(samples, TRIANGLE, "ahead", 0, "an integer of at least 1")
        for sample in (-1, 2**32, 1.0, True):
            self.of_all("sample", sample, "an integer from 0 to 4294967295", SINGLE)
            self.wrong(samples, TRIANGLE, "first", sample, "an integer from 0 to 4294967295")

    def test_numbers_of_samples_of_runs_of_the_program(self):
        for argument, value in (("log", True), ("workers", 2), ("pops", 3), ("grow", 9), ("witness", ("Bob", 0))):
            wanted = f"0 if {argument}= is given"
            self.wrong(spanning_tree, TRIANGLE, "sample", 3, wanted, **{argument: value})

    def test_names_that_are_not_known(self):
        for call in (spanning_tree, sink_free_orientation, resample, popsample.solution):
            subject = TRIANGLE if call in (spanning_tree, sink_free_orientation) else [[1]]
            error = self.refused(TypeError, call, subject, hieght=3)
            self.assertEqual(str(error), f"{call.__name__}() got an unexpected keyword argument 'hieght'")
        self.refused(TypeError, resample, [[1]], log=True)

    def test_keys_of_jobs(self):
        for number in (-1, 1.5, "x", 2**64):
            wanted = f"an integer from 0 to {2**64 - 1}"
            self.assertIn(wanted, str(self.refused(popsample.OptionError, derived_key, ZEROS, number)))
        self.assertIn("too many digits", str(self.refused(popsample.OptionError, seed_key, 10**5000)))

    def test_rows(self):
        for stacks in ([[-1]], [["0"]], [0], 5, [[0.0]], [[2**32]]):
            self.of_all("stacks", stacks, ROWS)
        for argument, value in (("key", ZEROS), ("seed", 3), ("height", 9), ("grow", 9)):
            self.wrong(extremal_solution, [[1]], argument, value, GIVEN, stacks=[[0]])
        long = [[0] * 70_000]
        error = self.refused(popsample.OptionError, extremal_solution, [[1]], stacks=long)
        self.assertIn("`stacks` must be at most 131000 characters long when written as text", str(error))

    def test_one_row_without_entries(self):
        self.of_all("stacks", [[]], "rows of which a single one isn't empty")

    def test_weights_that_are_no_names(self):
        for weight in ([1, 2, 3], {"w": 1}):
            self.wrong(spanning_tree, TRIANGLE, "weight", weight, WEIGHT)
            self.wrong(spanning_tree, {"a": ["b"]}, "weight", weight, WEIGHT)
            self.wrong(spanning_trees, TRIANGLE, "weight", weight, WEIGHT, count=3)

    def test_executors(self):
        for executor in (3, "threads", ThreadPoolExecutor):
            self.wrong(samples, TRIANGLE, "executor", executor, "a concurrent.futures.Executor")

    def test_what_pops_excludes(self):
        self.wrong(resample, [[1]], "workers", 2, "1 if pops= is given", pops=1)
        for argument, value in (("grow", 9), ("log", True), ("witness", (1, 0)), ("reports", ["totals"])):
            self.wrong(extremal_solution, [[1]], argument, value, PAUSED[argument], pops=1)

    def test_reports_and_witnesses(self):
        for reports in (["sums"], "widths", ["totals", "totals"], 5):
            self.of_all("reports", reports, REPORTS)
        for witness in ((1,), 7, (1, 2, 3)):
            self.of_all("witness", witness, "a pair of a variable and the place of one of its values")
        error = self.refused(popsample.OptionError, resample, [[1]], witness=(1, -1))
        self.assertEqual(str(error), "`witness` must be an integer from 0 to 4294967295, not -1.")

    def test_timeouts(self):
        for timeout in (0, -1, "5", float("nan"), float("inf"), 2e6):
            self.of_all("timeout", timeout, SECONDS, (spanning_tree, extremal_solution, resample, rounds_solution, find_clash))
            self.wrong(replay, b"cert", "timeout", timeout, SECONDS)
            self.wrong(resume, b"cert", "timeout", timeout, SECONDS)
            self.wrong(spanning_trees, TRIANGLE, "timeout", timeout, SECONDS, count=2)
            self.wrong(samples, TRIANGLE, "timeout", timeout, SECONDS)
        self.wrong(resume, b"cert", "workers", 65, WORKERS)

    def test_arguments_of_another_kind_of_sample(self):
        others = (("tree", "variables", 3), ("orientation", "root", "Ann"), ("assignment", "weight", "w"))
        for kind, argument, value in others:
            wanted = f"left out for samples of the kind {kind!r}"
            self.wrong(samples, TRIANGLE, argument, value, wanted, kind=kind)
        self.wrong(samples, TRIANGLE, "kind", "trees", "one of 'tree', 'orientation', 'assignment'")
        wanted = "a bool, a class such as tqdm.tqdm, or a function of two numbers"
        self.wrong(samples, TRIANGLE, "progress", 5, wanted)


@mock.patch.dict(os.environ, NO_PROGRAM)
class Graphs(Refusing):
    def test_an_empty_graph(self):
        for call in (spanning_tree, samples):
            error = self.refused(popsample.EmptyGraphError, call, [], **({"kind": "tree"} if call is samples else {}))
            self.assertIn("The graph must have a vertex", str(error))
        self.refused(ValueError, spanning_trees, {}, 3)

    def test_a_root_that_is_no_vertex(self):
        error = self.refused(popsample.RootError, spanning_tree, TRIANGLE, root="Zoe")
        self.assertEqual(str(error), "The root 'Zoe' is not a vertex of the graph. Choose another root.")
        self.assertIsInstance(error, ValueError)

    def test_parts_that_are_trees(self):
        path = [(vertex, vertex + 1) for vertex in range(100_000)]
        error = self.refused(popsample.TreeComponentError, sink_free_orientation, path)
        self.assertEqual(len(error.vertices), 100_001)
        beside = [*TRIANGLE, ("Dan", "Eve"), ("Eve", "Fay")]
        for call, named in ((sink_free_orientation, {}), (sink_free_orientations, {"count": 2})):
            error = self.refused(popsample.TreeComponentError, call, beside, **named)
            self.assertEqual(error.vertices, ("Dan", "Eve", "Fay"))
            self.assertIn("with vertex 'Dan', of 3 vertices, is a tree, which has a sink however", str(error))
        with file_of("c\np col 3 2\ne 2 3\ne 3 1\n") as file:
            self.assertEqual(self.refused(ValueError, sink_free_orientation, file).vertices, (1, 2, 3))

    def test_clauses_that_hang_together_like_a_tree(self):
        wrong = [[-4], [1, -2], [2], [-1], [4, 5]]
        for call, named in ((extremal_solution, {}), (resample, {}), (rounds_solution, {}), (extremal_solutions, {"count": 2})):
            error = self.refused(popsample.UnsatisfiableError, call, wrong, **named)
            self.assertEqual(error.clauses, (2, 3, 4))
            self.assertIn("The 3 clauses that are joined to clause 2 have 2 variables", str(error))


class PartsThatAreNoTrees(Refusing):
    """The program runs, and has a sample."""

    def test_graphs(self):
        loop, parallel = [("a", "b"), ("b", "b")], [("a", "b"), ("b", "a")]
        for edges in (TRIANGLE, loop, parallel, [*TRIANGLE, ("Cem", "Dan")]):
            sink_free_orientation(edges)
        self.refused(popsample.RootError, spanning_tree, TRIANGLE, "Zoe")

    def test_formulas(self):
        # A variable in one clause, in three, or with one sign: what looks like a tree is none.
        for clauses in ([[1, 2], [-1]], [[1], [1]], [[1, -1], [2], [1]], [[1], [2, -1]], [[1, 1, 3], [-1]]):
            with self.subTest(clauses=clauses):
                told = rounds_solution(clauses)
                self.assertTrue(all(set(clause) & set(told.literals) for clause in clauses))


class Seeds(unittest.TestCase):
    def test_the_key_of_a_seed(self):
        # By sha256sum, of the text "popsample seed 42".
        key = "a4e4d65abfb20da55efeb3b803172d7922166ee8fdf470e9a6d573ac07038eb8"
        self.assertEqual(popsample.seed_key(42), key)
        for call, subject in ((spanning_tree, TRIANGLE), (sink_free_orientation, TRIANGLE), (extremal_solution, [[1]]),
                              (resample, [[1]]), (rounds_solution, [[1]])):
            told = call(subject, seed=42)
            self.assertEqual((told.key, told), (key, call(subject, key=key)))
        for call, subject in ((spanning_trees, TRIANGLE), (sink_free_orientations, TRIANGLE), (extremal_solutions, [[1]])):
            self.assertEqual([told.key for told in call(subject, 2, seed=42)], [key, key])
        self.assertEqual(samples(TRIANGLE, 2, seed=42).key, key)


class Timeouts(Refusing):
    def test_the_program_is_ended(self):
        # The script writes the number of its process, and doesn't end by itself.
        with file_of("") as number, program_of(f"cat > /dev/null; echo $$ > '{number}'; {ENDLESS}"):
            for call, named in ((spanning_tree, {}), (spanning_trees, {"count": 2})):
                number.write_text("")
                timeout = 0.5
                # On a busy machine the script may come to write late.
                while not number.read_text().endswith("\n"):
                    timeout *= 2
                    self.assertLess(timeout, LIMIT)
                    error = self.refused(TimeoutError, call, TRIANGLE, timeout=timeout, **named)
                self.assertIsInstance(error, popsample.RunTimeoutError)
                self.assertEqual(error.timeout, timeout)
                self.assertIn(f"no result after timeout={timeout} seconds, and the run was ended", str(error))
                with self.assertRaises(ProcessLookupError):
                    os.kill(int(number.read_text()), 0)

    def test_each_function_has_it(self):
        clauses, graph = (find_clash, rounds_solution, resample, extremal_solution, samples), (sink_free_orientation, samples)
        calls = [*((call, [[1]]) for call in clauses), *((call, TRIANGLE) for call in graph)]
        calls += [(replay, b"cert"), (resume, b"cert"), (partial(extremal_solutions, count=2), [[1]])]
        with program_of(ENDLESS):
            for call, subject in calls:
                with self.assertRaises(popsample.RunTimeoutError):
                    told = call(subject, timeout=0.1)
                    next(told)

    def test_a_program_that_reads_nothing(self):
        # The input is longer than a pipe holds.
        star = [(0, vertex) for vertex in range(20_000)]
        with program_of(ENDLESS):
            self.refused(TimeoutError, spanning_tree, star, timeout=0.1)
            self.refused(TimeoutError, spanning_trees, star, 2, timeout=0.1)

    def test_the_time_of_the_caller_does_not_count(self):
        # What these trees print is longer than a pipe holds, so the program waits for the caller.
        real, passed = time.monotonic, 0
        with mock.patch.object(time, "monotonic", lambda: real() + passed):
            trees = spanning_trees([(0, vertex) for vertex in range(1, 2000)], 60, timeout=LIMIT)
            for _ in range(60):
                next(trees)
                passed += LIMIT

    def test_an_end_in_time(self):
        self.assertEqual(spanning_tree(TRIANGLE, seed=1, timeout=600), spanning_tree(TRIANGLE, seed=1))


if __name__ == "__main__":
    unittest.main()
