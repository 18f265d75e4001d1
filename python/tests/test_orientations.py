"""Orientations without sinks, of edge lists and files."""

import random
import unittest

import popsample

from .checks import ZEROS, file_of, has_no_sink

TEAMS = [(first, second) for first in range(5) for second in range(first)]


class Orientations(unittest.TestCase):
    def test_rows_that_were_worked_by_hand(self):
        # All arrows point away from Ann at first, so Cem is a sink: its two edges move on, and one of them turns.
        pairs = [("Ann", "Bob"), ("Bob", "Cem"), ("Ann", "Cem")]
        orientation = popsample.sink_free_orientation(pairs, stacks=[[0], [0, 0], [0, 1]])
        wanted = (("Ann", "Bob", 0), ("Bob", "Cem", 1), ("Cem", "Ann", 2))
        self.assertEqual(orientation.arrows, wanted)
        self.assertEqual((orientation.used, orientation.pops, orientation.key), ({0: 0, 1: 1, 2: 1}, 1, None))

    def test_tournaments_have_no_sink(self):
        for _ in range(20):
            orientation = popsample.sink_free_orientation(TEAMS)
            self.assertTrue(has_no_sink(range(5), orientation.arrows), orientation)
            ends = [{arrow.tail, arrow.head} for arrow in orientation.arrows]
            self.assertEqual(ends, [set(pair) for pair in TEAMS])

    def test_random_graphs_have_no_sink(self):
        chance = random.Random(7)
        for vertices in range(3, 30):
            circle = [(vertex, (vertex + 1) % vertices) for vertex in range(vertices)]
            pairs = circle + [(chance.randrange(vertices), chance.randrange(vertices)) for _ in range(vertices)]
            orientation = popsample.sink_free_orientation(pairs)
            self.assertTrue(has_no_sink(range(vertices), orientation.arrows), (pairs, orientation))

    def test_the_check_sees_a_sink(self):
        self.assertFalse(has_no_sink("ab", [popsample.Arrow("a", "b", 0)]))

    def test_a_key_gives_the_same_orientation_whatever_the_workers(self):
        first = popsample.sink_free_orientation(TEAMS)
        self.assertEqual(first, popsample.sink_free_orientation(TEAMS, first.key, workers=8))
        self.assertNotEqual(first, popsample.sink_free_orientation(TEAMS, ZEROS))

    def test_heights_that_grow_change_nothing(self):
        whole = popsample.sink_free_orientation(TEAMS, ZEROS, height=4096)
        for workers in (1, 8):
            self.assertEqual(popsample.sink_free_orientation(TEAMS, ZEROS, workers=workers, height=1, grow=4096), whole)

    def test_files_name_by_number(self):
        with file_of("p col 2 2\ne 1 2\ne 2 1\n") as path:
            orientation = popsample.sink_free_orientation(path, stacks=[[0], [0]])
        self.assertEqual(orientation.arrows, ((1, 2, 1), (2, 1, 2)))
        self.assertEqual(orientation.used, {1: 0, 2: 0})


if __name__ == "__main__":
    unittest.main()
