"""Batches: many samples of one input, by one run."""

import os
import unittest
from unittest import mock

import popsample
from popsample import sink_free_orientations, spanning_trees

from .checks import ZEROS, Refusing, extremal_solution, extremal_solutions, has_no_sink, is_tree_to, program_of, satisfies

TRIANGLE = [("Ann", "Bob"), ("Bob", "Cem"), ("Cem", "Ann")]
TEAMS = [(first, second) for first in range(5) for second in range(first)]
RING = [[1, 2, -3], [3, 4, -5], [5, 6, -1]]
# Under this key and with two entries, sample 1 of four is exhausted: examples/cases/one-batch.case, by the checker there.
ONE_EXHAUSTED = {"key": f"{1:064x}", "height": 2}


class Batches(Refusing):
    def test_trees(self):
        trees = list(spanning_trees(TRIANGLE, 60, key=ZEROS))
        self.assertEqual([tree.sample for tree in trees], list(range(60)))
        self.assertTrue(all(is_tree_to("Ann", ["Ann", "Bob", "Cem"], TRIANGLE, tree) for tree in trees))
        self.assertEqual({frozenset(tree.edge_indices) for tree in trees}, {frozenset(x) for x in ((0, 1), (0, 2), (1, 2))})
        self.assertEqual({tree.key for tree in trees}, {ZEROS})

    def test_orientations(self):
        for orientation in sink_free_orientations(TEAMS, 30):
            self.assertTrue(has_no_sink(range(5), orientation.arrows), orientation)

    def test_assignments(self):
        for assignment in extremal_solutions(RING, 30):
            self.assertTrue(satisfies(RING, assignment.literals), assignment)

    def test_three_thousand_assignments_of_a_chain(self):
        chain = [[2 * place - 1, 2 * place, -(2 * place + 1)] for place in range(1, 100)]
        samples = list(extremal_solutions(chain, 3000, ZEROS))
        self.assertEqual([sample.sample for sample in samples], list(range(3000)))
        self.assertTrue(all(satisfies(chain, sample.literals) for sample in samples))
        self.assertEqual(samples[0], extremal_solution(chain, ZEROS))

    def test_the_first_sample_is_that_of_one_run(self):
        self.assertEqual(next(spanning_trees(TEAMS, 3, 2, key=ZEROS)), popsample.spanning_tree(TEAMS, 2, key=ZEROS))
        self.assertEqual(next(sink_free_orientations(TEAMS, 3, ZEROS)), popsample.sink_free_orientation(TEAMS, ZEROS))
        self.assertEqual(next(extremal_solutions(RING, 3, ZEROS)), extremal_solution(RING, ZEROS))

    def test_a_longer_batch_begins_with_a_shorter_one(self):
        trees = list(spanning_trees(TEAMS, 9))
        self.assertEqual(list(spanning_trees(TEAMS, 5, key=trees[0].key)), trees[:5])
        self.assertGreater(len({tree.arrows for tree in trees}), 1)

    def test_keys_are_drawn_anew(self):
        self.assertEqual(len({next(spanning_trees(TRIANGLE, 1)).key for _ in range(5)}), 5)

    def test_an_exhausted_sample_is_raised_in_its_place(self):
        samples = extremal_solutions([[1]], 4, **ONE_EXHAUSTED)
        self.assertEqual(next(samples).sample, 0)
        error = self.refused(popsample.ExhaustedError, next, samples)
        told = (error.sample, error.stuck, error.used, error.pops, error.key)
        self.assertEqual(told, (1, (1,), (1,), 1, ONE_EXHAUSTED["key"]))
        self.assertEqual([sample.sample for sample in samples], [2, 3])

    def test_what_refuses_the_batch_is_raised_at_once(self):
        self.refused(popsample.CutOffError, spanning_trees, [("Ann", "Bob"), ("Cem", "Dan")], 2)
        self.refused(popsample.ClashError, extremal_solutions, [[1, 2], [1, 3]], 2)

    def test_what_needs_the_library(self):
        # 600 variables, since the last one has this number, and so 600 times 65536 of all samples.
        with mock.patch.dict(os.environ, {"POPSAMPLE_LIBRARY": ""}):
            error = self.refused(popsample.NeedsLibraryError, extremal_solutions, [[600]], 65536, ZEROS)
            self.assertEqual(error.sample, 65535)
            self.refused(popsample.NeedsLibraryError, popsample.spanning_tree, TRIANGLE, sample=65536)
            self.refused(popsample.NeedsLibraryError, popsample.solutions, [[1]], 2)

    def test_a_batch_that_was_cut_off(self):
        with program_of("printf 'batch 2\\nsample 0\\ns SAMPLE\\n'; exit 8"):
            self.refused(popsample.WriteError, spanning_trees, TRIANGLE, 2)


if __name__ == "__main__":
    unittest.main()
