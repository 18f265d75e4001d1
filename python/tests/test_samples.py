"""Series of samples: the same ones through every door, one by one and as arrays."""

import importlib.util
import itertools
import multiprocessing
import operator
import os
import pickle
import subprocess
import sys
import tempfile
import threading
import time
import unittest
import warnings
from concurrent.futures import Future, ProcessPoolExecutor, ThreadPoolExecutor
from pathlib import Path
from unittest import mock

import popsample
from popsample import (
    samples,
    sink_free_orientation,
    sink_free_orientations,
    spanning_tree,
    spanning_trees,
)
from popsample._engine import typed_calls
from popsample._engine.answer import sample_texts
from popsample._engine.chunks import chunk_size

from .checks import (
    LIMIT,
    ZEROS,
    Refusing,
    extremal_solution,
    extremal_solutions,
    file_of,
    has_no_sink,
    is_tree_to,
    program_of,
    rounds_solution,
    satisfies,
    until,
)

TRIANGLE = [("Ann", "Bob"), ("Bob", "Cem"), ("Cem", "Ann")]
TEAMS = [(first, second) for first in range(5) for second in range(first)]
RING = [[1, 2, -3], [3, 4, -5], [5, 6, -1]]
# What is sampled, and the function for one sample of it.
KINDS = (
    (TEAMS, {"kind": "tree"}, spanning_tree),
    (TEAMS, {"kind": "orientation"}, sink_free_orientation),
    (RING, {"kind": "assignment", "method": "extremal"}, extremal_solution),
)
# Whether there is a library that makes samples of any number.
LIBRARY = popsample.find_library()
BY_ROUNDS = LIBRARY is not None and typed_calls.functions(LIBRARY)[2] is not None
FOLDER = str(Path(popsample.__file__).resolve().parents[1])


class Backwards:
    """An executor that ends what it was given from the last call to the first."""

    def __init__(self):
        self.waiting = []
        self.most = 0

    def submit(self, call, /, *arguments):
        """A call that is made when a result is asked for, after all that were submitted later."""
        future = Future()
        self.waiting.append((future, call, arguments))
        self.most = max(self.most, len(self.waiting))
        result = future.result
        future.result = lambda: self.run_all() or result(0)
        return future

    def run_all(self):
        """Makes all calls."""
        while self.waiting:
            future, call, arguments = self.waiting.pop()
            future.set_result(call(*arguments))


def small_chunks():
    """Chunks of at most three samples, so that few samples are many chunks."""
    return mock.patch("popsample._engine.chunks.MOST_SAMPLES", 3)


def with_executors():
    """No executor, and some that end tasks in another order."""
    return (None, Backwards(), ThreadPoolExecutor(3))


class Series(Refusing):
    def test_sizes_of_chunks(self):
        self.assertEqual([chunk_size(count) for count in (0, 99, 2**11, 2**21)], [1024, 1024, 512, 1])

    def test_a_sample_is_the_same_through_every_door(self):
        for subject, named, one in KINDS:
            alone = [one(subject, key=ZEROS, sample=number) for number in range(11)]
            self.assertEqual([each.sample for each in alone], list(range(11)))
            for executor in with_executors():
                with small_chunks():
                    found = list(samples(subject, 11, ZEROS, executor, **named))
                    self.assertEqual(found, alone)
                    self.assertEqual([each.used for each in found], [each.used for each in alone])
                    self.assertEqual([(each.sample, each.key) for each in found], [(n, ZEROS) for n in range(11)])
                    later = samples(subject, 4, ZEROS, executor, first=5, **named)
                    self.assertEqual([(each, each.sample) for each in later], [(alone[n], n) for n in range(5, 9)])
                    with samples(subject, None, ZEROS, executor, **named) as endless:
                        self.assertEqual(list(itertools.islice(endless, 11)), alone)

    def test_the_functions_for_many_are_doors_too(self):
        calls = ((spanning_trees, TEAMS), (sink_free_orientations, TEAMS), (extremal_solutions, RING))
        for (subject, named, _), (call, _) in zip(KINDS, calls):
            wanted = list(samples(subject, 9, ZEROS, **named))
            self.assertEqual(list(call(subject, 9, key=ZEROS)), wanted)
            self.assertEqual(list(call(subject, 4, key=ZEROS, first=3)), wanted[3:7])

    @unittest.skipUnless(BY_ROUNDS, "no library has the call for assignments")
    def test_rounds_are_a_series_too(self):
        wanted = [rounds_solution(RING, ZEROS, sample=number) for number in range(9)]
        self.assertEqual(list(popsample.solutions(RING, 9, key=ZEROS)), wanted)
        self.assertEqual(list(samples(RING, 9, ZEROS)), wanted)
        self.assertEqual(wanted, [extremal_solution(RING, ZEROS, sample=number) for number in range(9)])

    @unittest.skipUnless(LIBRARY, "the library isn't there")
    def test_numbers_go_to_the_greatest(self):
        last = 2**32 - 1
        tree = spanning_tree(TEAMS, key=ZEROS, sample=last)
        self.assertEqual((tree.sample, [tree]), (last, list(spanning_trees(TEAMS, 1, key=ZEROS, first=last))))
        self.refused(popsample.OptionError, spanning_trees, TEAMS, 2, first=last)
        self.assertEqual(len(list(spanning_trees(TRIANGLE, 70_000, key=ZEROS))), 70_000)

    def test_each_kind(self):
        for tree in samples(TEAMS, 20, kind="tree", root=3):
            self.assertTrue(is_tree_to(3, range(5), TEAMS, tree))
        for orientation in samples(TEAMS, 20, kind="orientation"):
            self.assertTrue(has_no_sink(range(5), orientation.arrows))
        for assignment in samples(RING, 20, variables=8, kind="assignment", method="extremal"):
            self.assertTrue(satisfies(RING, assignment.literals) and len(assignment.literals) == 8)

    def test_how_many_are_left(self):
        counted = samples(TRIANGLE, 5)
        self.assertEqual((counted.count, operator.length_hint(counted)), (5, 5))
        next(counted)
        self.assertEqual((counted.done, operator.length_hint(counted), len(list(counted))), (1, 4, 4))
        self.assertEqual(operator.length_hint(samples(TRIANGLE), 7), 7)
        self.assertFalse(hasattr(counted, "__len__"))

    def test_the_key_is_told(self):
        self.assertEqual(samples(TRIANGLE, 1, ZEROS).key, ZEROS)
        first = samples(TRIANGLE, 4)
        self.assertEqual(list(samples(TRIANGLE, 4, first.key)), list(first))
        self.assertNotEqual(samples(TRIANGLE).key, samples(TRIANGLE).key)

    def test_what_is_closed_has_no_more(self):
        for executor in with_executors():
            with samples(TRIANGLE, None, ZEROS, executor) as trees:
                next(trees)
            self.refused(StopIteration, next, trees)

    def test_refusals(self):
        for executor in with_executors():
            apart = samples([("Ann", "Bob"), ("Cem", "Dan")], 2, ZEROS, executor)
            error = self.refused(popsample.CutOffError, next, apart)
            self.assertEqual((error.vertex, error.key), ("Cem", ZEROS))
            clashing = samples([[1, 2], [1, 3]], 2, ZEROS, executor, kind="assignment", method="extremal")
            self.assertEqual(self.refused(popsample.ClashError, next, clashing).clauses, ("1 2", "1 3"))


class OnExhausted(Refusing):
    """Some samples of one variable with two values are exhausted."""

    @classmethod
    def setUpClass(cls):
        named = {"kind": "assignment", "method": "extremal", "height": 2}
        cls.call = staticmethod(lambda *words, **more: samples([[1]], *words, **named, **more))
        cls.told = []
        trying = cls.call(40, ZEROS)
        for _ in range(40):
            try:
                cls.told.append(next(trying))
            except popsample.ExhaustedError as error:
                cls.told.append(error)
        cls.wrong = [place for place, told in enumerate(cls.told) if isinstance(told, popsample.ExhaustedError)]

    def test_it_is_raised_in_its_place(self):
        self.assertTrue(0 < len(self.wrong) < 40)
        for place, told in enumerate(self.told):
            self.assertEqual((told.sample, told.key), (place, ZEROS))
        error = self.told[self.wrong[0]]
        self.assertEqual((error.stuck, error.used, error.pops), ((1,), (1,), 1))
        same = self.refused(popsample.ExhaustedError, extremal_solution, [[1]], ZEROS, height=2, sample=error.sample)
        self.assertEqual((str(same), vars(same)), (str(error), vars(error)))

    def test_it_is_left_out_or_yielded(self):
        whole = [told.sample for told in self.told if told.sample not in self.wrong]
        for executor in with_executors():
            with small_chunks():
                skipped = self.call(40, ZEROS, executor, on_exhausted="skip")
                self.assertEqual([told.sample for told in skipped], whole)
                yielded = list(self.call(40, ZEROS, executor, on_exhausted="yield"))
                self.assertEqual([type(told) for told in yielded], [type(told) for told in self.told])
        self.refused(popsample.OptionError, self.call, 3, on_exhausted="pass")

    @unittest.skipUnless(importlib.util.find_spec("numpy"), "numpy isn't installed")
    def test_arrays(self):
        for executor in with_executors():
            with small_chunks():
                self.refused(popsample.ExhaustedError, self.call(40, ZEROS, executor).arrays)
                told = self.call(40, ZEROS, executor, on_exhausted="skip").arrays()
            self.assertEqual(told.samples.tolist(), [n for n in range(40) if n not in self.wrong])
            self.assertEqual((len(told), told.values.all()), (40 - len(self.wrong), True))
        self.refused(popsample.OptionError, self.call(4, on_exhausted="yield").arrays)


class Streams(unittest.TestCase):
    def test_samples_are_cut_out_wherever_chunks_end(self):
        told = ["0\ns SAMPLE\na 2 1 1\nused 0\npops 0\n", "1\ns EXHAUSTED\nstuck 1\n", "2\ns SAMPLE\n"]
        text = ("batch 3\n" + "".join(f"sample {part}" for part in told)).encode()
        wanted = [b"batch 3\n", *map(str.encode, told)]
        for size in range(1, len(text) + 1):
            chunks = (text[place : place + size] for place in range(0, len(text), size))
            parts = list(sample_texts(chunks))
            self.assertEqual([part for part, _ in parts], wanted, size)
            self.assertEqual([is_last for _, is_last in parts], [False, False, False, True])
        self.assertEqual(list(sample_texts([])), [(b"", True)])

    def test_a_sample_is_read_while_the_program_prints(self):
        sample = "s SAMPLE\\nused\\npops 0\\n"
        with tempfile.TemporaryDirectory() as folder:
            go_on = Path(folder, "go_on")
            script = f"printf 'batch 3\\nsample 0\\n{sample}sample 1\\n'; {until(go_on)}; printf '{sample}sample 2\\n{sample}'"
            for call in (lambda: samples({"a": []}, 3), lambda: spanning_trees({"a": []}, 3)):
                with program_of(f"cat > /dev/null; {script}"):
                    told = call()
                    self.assertEqual(next(told).sample, 0)
                    go_on.touch()
                    self.assertEqual([tree.sample for tree in told], [1, 2])
                go_on.unlink()

    def test_a_series_without_end_is_made_by_longer_and_longer_runs(self):
        with mock.patch("popsample._engine.engine.FIRST_RUN", 2), mock.patch.dict(os.environ, {"POPSAMPLE_LIBRARY": ""}):
            found = list(itertools.islice(spanning_trees(TEAMS, key=ZEROS), 30))
            self.assertEqual(found, list(spanning_trees(TEAMS, 30, key=ZEROS)))


class Kinds(Refusing):
    def test_lists_that_can_be_read_in_one_way_alone(self):
        self.assertIsInstance(next(samples([("a", "b")])), popsample.Tree)
        self.assertIsInstance(next(samples([(0, 1), (1, 2)])), popsample.Tree)
        self.assertIsInstance(next(samples(iter([[1, -2], [2, 3]]))), popsample.Assignment)
        self.assertIsInstance(next(samples([[1], [2]])), popsample.Assignment)
        self.assertIsInstance(next(samples({1: [2]})), popsample.Tree)

    def test_files(self):
        for text, kind in (("c\np cnf 1 1\n1 0\n", popsample.Assignment), ("p edge 2 1\ne 1 2\n", popsample.Tree)):
            with file_of(text) as path:
                self.assertIsInstance(next(samples(path)), kind)
        with file_of("p edge 3 3\ne 1 2\ne 2 3\ne 3 1\n") as path:
            self.assertIsInstance(next(samples(path, kind="orientation")), popsample.Orientation)

    def test_lists_that_can_be_read_in_two_ways(self):
        for subject in ([[1, 2], [2, 3]], [(1, 2, 3)], []):
            error = self.refused(popsample.ArgumentError, samples, subject)
            self.assertIn("say which by kind='tree', kind='orientation' or kind='assignment'", str(error))


class Executors(Refusing):
    def test_processes(self):
        wanted = list(samples(TEAMS, 3000, ZEROS, kind="tree"))
        for method in ("spawn", "fork"):
            with ProcessPoolExecutor(2, multiprocessing.get_context(method)) as processes:
                self.assertEqual(list(samples(TEAMS, 3000, ZEROS, processes, kind="tree")), wanted)

    def test_few_tasks_are_submitted(self):
        for ahead in (1, 4):
            executor = Backwards()
            with small_chunks():
                told = samples(TRIANGLE, 60, ZEROS, executor, ahead=ahead)
                self.assertEqual(executor.most, 0)
                self.assertEqual(len(list(told)), 60)
            self.assertEqual(executor.most, ahead)

    def test_what_is_left_is_cancelled(self):
        begun, go_on = threading.Event(), threading.Event()
        with small_chunks(), ThreadPoolExecutor(1) as threads:
            threads.submit(lambda: begun.set() or go_on.wait(LIMIT))
            begun.wait(LIMIT)
            told = samples(TRIANGLE, None, ZEROS, threads, ahead=4)
            threading.Timer(0.2, go_on.set).start()
            next(told)
            told.close()
            self.refused(StopIteration, next, told)

    def test_a_task_goes_to_another_process(self):
        told = samples(TRIANGLE, 3, ZEROS)
        request = pickle.loads(pickle.dumps(told._request))
        self.assertEqual((request.key, request.words), (told.key, ("tree", "--root", "1")))


# A cycle, on which a walk is long, and what is done with it. The process is interrupted when it has worked for a second,
# or after three seconds, in which a program may work for it. It prints how long it has worked since. The seconds are
# those of processors, which a busy machine changes little.
CYCLE = """
import atexit, os, signal, sys, threading, time
from concurrent.futures import ThreadPoolExecutor
import popsample
edges = [(vertex, (vertex + 1) % 60_000) for vertex in range(60_000)]
# Whoever runs the tests may ignore interrupts, and so would this process.
signal.signal(signal.SIGINT, signal.default_int_handler)
def interrupt():
    begun = time.process_time()
    for _ in range(30):
        time.sleep(0.1)
        if time.process_time() - begun > 1:
            break
    interrupted = time.process_time()
    atexit.register(lambda: print(time.process_time() - interrupted))
    os.kill(os.getpid(), signal.SIGINT)
threading.Thread(target=interrupt, daemon=True).start()
"""
# So many seconds a call may work after it was to end. It sees that some times a second.
PROMPT = 5
LONG = {
    "one": "popsample.spanning_tree(edges)",
    "rounds": "popsample.solution([[1, 2], [-1, 2], [1, -2], [-1, -2]], height=10**9)",
    "series": "list(popsample.spanning_trees(edges, 9))",
    "threads": "with ThreadPoolExecutor(2) as threads: list(popsample.samples(edges, 9, executor=threads))",
}


class Interrupted(Refusing):
    def test_the_keyboard_stops_each_call(self):
        for name, call in LONG.items():
            with self.subTest(name):
                ran = subprocess.run(
                    [sys.executable, "-c", CYCLE + call],
                    env={**os.environ, "PYTHONPATH": FOLDER},
                    capture_output=True,
                    timeout=LIMIT,
                    start_new_session=True,
                )
                self.assertIn(b"KeyboardInterrupt", ran.stderr)
                self.assertLess(float(ran.stdout), PROMPT)

    @unittest.skipUnless(LIBRARY, "the library isn't there")
    def test_a_timeout_stops_each_call(self):
        edges = [(vertex, (vertex + 1) % 60_000) for vertex in range(60_000)]
        never = [[1, 2], [-1, 2], [1, -2], [-1, -2]]
        with ThreadPoolExecutor(2) as threads:
            for call in (
                lambda: spanning_tree(edges, timeout=0.3),
                lambda: spanning_trees(edges, 3, timeout=0.3),
                lambda: next(samples(edges, 3, executor=threads, timeout=0.3)),
                lambda: rounds_solution(never, height=10**9, timeout=0.3),
            ):
                began = time.process_time()
                error = self.refused(popsample.RunTimeoutError, call)
                self.assertEqual(error.timeout, 0.3)
                self.assertLess(time.process_time() - began, PROMPT)

    @unittest.skipUnless(LIBRARY, "the library isn't there")
    def test_a_run_in_many_parts_has_the_same_end(self):
        wanted = [(tree, tree.used, tree.pops) for tree in spanning_trees(TEAMS, 30, key=ZEROS)]
        # A library may have no call for assignments; then the program makes one.
        many = 30 if BY_ROUNDS else 1
        found = [(told, told.used, told.rounds) for told in popsample.solutions(RING, many, key=ZEROS)]
        for budget in (1, 2, 3, 7):
            with (
                mock.patch("popsample._given.problems.POPS", budget),
                mock.patch("popsample._given.problems.LOOKS", budget * 14),
                mock.patch("popsample._engine.typed_calls.next_budget", lambda budget, took: budget),
                mock.patch("popsample._given.problems.TreeProblem.first_budget", budget),
            ):
                trees = [(tree, tree.used, tree.pops) for tree in spanning_trees(TEAMS, 30, key=ZEROS)]
                self.assertEqual(trees, wanted)
                rounds = [(told, told.used, told.rounds) for told in popsample.solutions(RING, many, key=ZEROS)]
                self.assertEqual(rounds, found)


@unittest.skipUnless(LIBRARY, "the library isn't there")
class Forked(unittest.TestCase):
    def test_a_child_that_was_forked_has_the_same_samples(self):
        script = (
            "import os, popsample\n"
            "import popsample._engine.typed_calls as calls\n"
            "wanted = list(popsample.spanning_trees([(1, 2), (2, 3), (3, 1)], 9, key='0' * 64))\n"
            "calls.draw = None\n"
            "if os.fork() == 0:\n"
            "    found = list(popsample.spanning_trees([(1, 2), (2, 3), (3, 1)], 9, key='0' * 64))\n"
            "    os._exit(3 if found == wanted else 4)\n"
            "raise SystemExit(os.waitstatus_to_exitcode(os.wait()[1]))\n"
        )
        ran = subprocess.run([sys.executable, "-c", script], env={**os.environ, "PYTHONPATH": FOLDER}, timeout=LIMIT)
        self.assertEqual(ran.returncode, 3)


class Shown(Refusing):
    def test_a_callable(self):
        seen = []
        for _ in samples(TRIANGLE, 3, progress=lambda *numbers: seen.append(numbers)):
            pass
        self.assertEqual((seen[0], seen[-1]), ((1, 3), (3, 3)))
        next(samples(TRIANGLE, progress=lambda *numbers: seen.append(numbers)))
        self.assertEqual(seen[-1], (1, None))

    def test_it_is_called_seldom(self):
        seen = []
        began = time.monotonic()
        for _ in samples(TRIANGLE, 3000, progress=lambda *numbers: seen.append(numbers)):
            pass
        self.assertLess(len(seen), 10 * (time.monotonic() - began) + 3)
        self.assertEqual(seen[-1], (3000, 3000))

    def test_a_class(self):
        made = mock.Mock()
        bar = type("Bar", (), {"__init__": lambda self, **named: bool(made(**named)) and None,
                               "update": made.update, "close": made.close})  # fmt: skip
        self.assertEqual(len(list(samples(TRIANGLE, 2, progress=bar))), 2)
        made.assert_called_once_with(total=2, unit="sample")
        made.close.assert_called_once_with()

    @unittest.skipUnless(importlib.util.find_spec("tqdm"), "tqdm isn't installed")
    def test_a_bar(self):
        import tqdm

        with mock.patch.object(tqdm, "tqdm") as bar:
            bar.return_value.n = 0
            self.assertEqual(len(list(samples(TRIANGLE, 2, progress=True))), 2)
        bar.assert_called_once_with(total=2, unit="sample")
        self.assertTrue(bar.return_value.close.called)

    def test_where_tqdm_is_not_installed(self):
        with mock.patch.dict("sys.modules", tqdm=None), warnings.catch_warnings(record=True) as said:
            warnings.simplefilter("always")
            self.assertEqual(len(list(samples(TRIANGLE, 2, progress=True))), 2)
        self.assertIn("tqdm isn't installed", str(said[-1].message))
        self.assertEqual(said[-1].filename, __file__)


@unittest.skipUnless(importlib.util.find_spec("numpy"), "numpy isn't installed")
class AsArrays(Refusing):
    def test_trees(self):
        for root in (None, 3):
            trees = list(samples(TEAMS, 50, ZEROS, kind="tree", root=root))
            told = samples(TEAMS, 50, ZEROS, kind="tree", root=root).arrays()
            names = list(told.vertices)
            self.assertEqual((sorted(names), list(told.edge_names)), ([0, 1, 2, 3, 4], list(range(10))))
            for row, tree in enumerate(trees):
                for place, name in enumerate(names):
                    if name == tree.root:
                        found = (told.parents[row, place], told.edges[row, place], told.used[row, place])
                        self.assertEqual(found, (-1, -1, 0))
                    else:
                        self.assertEqual(names[told.parents[row, place]], tree.parents[name])
                        self.assertEqual(told.used[row, place], tree.used[name])
                self.assertEqual(sorted(edge for edge in told.edges[row] if edge >= 0), sorted(tree.edge_indices))
            self.assertEqual(told.pops.tolist(), [tree.pops for tree in trees])

    def test_orientations(self):
        told = samples(TEAMS, 50, ZEROS, kind="orientation").arrays()
        for row, orientation in enumerate(samples(TEAMS, 50, ZEROS, kind="orientation")):
            tails = [told.vertices[place] for place in told.tails[row]]
            heads = [told.vertices[place] for place in told.heads[row]]
            self.assertEqual(list(zip(tails, heads, told.edge_names)), list(orientation.arrows))
            self.assertEqual(told.used[row].tolist(), list(orientation.used.values()))
            self.assertEqual(told.pops[row], orientation.pops)

    def test_assignments(self):
        told = samples(RING, 50, ZEROS, kind="assignment", variables=7, method="extremal").arrays()
        self.assertEqual(told.values.shape, (50, 7))
        for row, assignment in enumerate(samples(RING, 50, ZEROS, kind="assignment", variables=7, method="extremal")):
            self.assertEqual(told.values[row].tolist(), [literal > 0 for literal in assignment.literals])
            self.assertEqual(told.used[row].tolist(), list(assignment.used.values()))
            self.assertEqual(told.pops[row], assignment.pops)

    def test_one_run(self):
        for call, subject in ((spanning_trees, TEAMS), (sink_free_orientations, TEAMS), (extremal_solutions, RING)):
            made = call(subject, 30, key=ZEROS).arrays()
            self.assertEqual(made.pops.tolist(), [sample.pops for sample in call(subject, 30, key=ZEROS)])

    def test_executors_change_nothing(self):
        import numpy

        with small_chunks():
            for subject, named, _ in KINDS:
                wanted = samples(subject, 20, ZEROS, **named).arrays()
                for executor in (Backwards(), ThreadPoolExecutor(2)):
                    made = samples(subject, 20, ZEROS, executor, **named).arrays()
                    for name in ("pops", "used", "samples"):
                        self.assertTrue(numpy.array_equal(getattr(made, name), getattr(wanted, name)))

    def test_files_name_by_number(self):
        with file_of("p edge 3 3\ne 1 2\ne 2 3\ne 3 1\n") as path:
            told = spanning_trees(path, 5, 2, key=ZEROS).arrays()
        self.assertEqual((list(told.vertices), list(told.edge_names)), ([1, 2, 3], [1, 2, 3]))
        self.assertEqual(told.parents[:, 1].tolist(), [-1] * 5)

    def test_one_vertex(self):
        self.assertEqual(samples({"a": []}, 3).arrays().parents.tolist(), [[-1]] * 3)

    @unittest.skipUnless(importlib.util.find_spec("scipy"), "scipy isn't installed")
    def test_sparse_ones(self):
        told = spanning_trees(TEAMS, 20, 3, key=ZEROS).arrays()
        incidence = told.incidence().toarray()
        self.assertEqual(incidence.shape, (20, 10))
        for row, tree in enumerate(spanning_trees(TEAMS, 20, 3, key=ZEROS)):
            self.assertEqual([edge for edge in range(10) if incidence[row, edge]], sorted(tree.edge_indices))
            matrix = told.adjacency(row).toarray()
            pairs = {(told.vertices[tail], told.vertices[head]) for tail, head in zip(*matrix.nonzero())}
            self.assertEqual(pairs, {(arrow.tail, arrow.head) for arrow in tree.arrows})

    def test_what_has_no_arrays(self):
        self.refused(popsample.OptionError, samples(TRIANGLE).arrays)
        begun = samples(TRIANGLE, 5)
        next(begun)
        self.refused(popsample.OptionError, begun.arrays)

    def test_progress(self):
        seen = []
        samples(TRIANGLE, 7, progress=lambda *numbers: seen.append(numbers)).arrays()
        self.assertEqual(seen[-1], (7, 7))

    def test_trees_by_their_names(self):
        told = spanning_trees(TRIANGLE, 7, key=ZEROS).arrays()
        self.assertEqual(list(told), [tree.parents for tree in spanning_trees(TRIANGLE, 7, key=ZEROS)])
        self.assertEqual((len(told), told.samples.tolist()), (7, list(range(7))))


class WithoutNumpy(Refusing):
    def test_it_is_said(self):
        with mock.patch.dict("sys.modules", numpy=None):
            error = self.refused(ImportError, samples(TRIANGLE, 2).arrays)
        self.assertIsInstance(error, popsample.NotInstalledError)
        self.assertIn("numpy isn't installed", str(error))


if __name__ == "__main__":
    unittest.main()
