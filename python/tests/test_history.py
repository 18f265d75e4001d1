"""Logs, witness trees and reports of all functions that pop."""

import random
import unittest

import popsample
from popsample import Layers, Pop, WitnessVertex

from .checks import ZEROS, extremal_solution

TRIANGLE = [("a", "b"), ("b", "c"), ("a", "c")]
KINDS = ["layers", "totals", "heights"]


def replayed(log: tuple[Pop, ...]) -> dict:
    """How often each variable was popped. Raises ValueError unless each pop uses the next entries, in layers."""
    used: dict = {}
    layers: dict = {}
    before = 0
    for pop in log:
        layer = 1 + max(layers.get(name, 0) for name in pop.entries)
        if pop.layer != layer or layer < before or any(used.get(name, 0) != k for name, k in pop.entries.items()):
            raise ValueError(pop)
        before = layer
        layers.update(dict.fromkeys(pop.entries, layer))
        used.update((name, entry + 1) for name, entry in pop.entries.items())
    return used


class Histories(unittest.TestCase):
    def test_an_assignment_worked_by_hand(self):
        told = extremal_solution([[1], [2]], stacks=[[0, 0, 1], [0, 1]], log=True, reports=["layers"])
        self.assertEqual(told.log, (Pop(1, {1: 0}, 1), Pop(2, {2: 0}, 1), Pop(1, {1: 1}, 2)))
        self.assertEqual((told.layers, told.totals, told.witness), (Layers(2, 2), None, None))

    def test_a_tree_worked_by_hand(self):
        # The arrows of b and c are at first those along their common edge.
        told = popsample.spanning_tree(TRIANGLE, "a", stacks=[[1, 0], [0, 0]], log=True, witness=("c", 0))
        self.assertEqual(told.log, (Pop("b", {"b": 0, "c": 0}, 1),))
        self.assertEqual(told.witness, (WitnessVertex(0, "b", {"b": 1, "c": 0}),))
        self.assertEqual(told.parents, {"b": "a", "c": "b"})

    def test_an_orientation_worked_by_hand(self):
        circle = [("x", "y"), ("y", "z"), ("z", "x")]
        told = popsample.sink_free_orientation(circle, stacks=[[0, 0], [1, 0], [0]], log=True, witness=(0, 0))
        self.assertEqual(told.log, (Pop("y", {0: 0, 1: 0}, 1),))
        self.assertEqual(told.witness, (WitnessVertex(0, "y", {0: 0, 1: 1}),))

    def test_what_is_not_asked_for_is_none(self):
        for told in (popsample.spanning_tree(TRIANGLE), popsample.sink_free_orientation(TRIANGLE)):
            asked = (told.log, told.witness, told.totals, told.heights, told.layers)
            self.assertEqual(asked, (None,) * 5)

    def test_a_witness_that_is_not_there(self):
        for entry in (("c", 9), ("nobody", 0)):
            self.assertEqual(popsample.spanning_tree(TRIANGLE, "a", stacks=[[0], [1]], witness=entry).witness, ())

    def test_random_graphs(self):
        chance = random.Random(41)
        for vertices in range(3, 12):
            circle = [(vertex, (vertex + 1) % vertices) for vertex in range(vertices)]
            edges = circle + [tuple(chance.sample(range(vertices), 2)) for _ in range(vertices)]
            for sample in (popsample.spanning_tree, popsample.sink_free_orientation):
                told = sample(edges, key=f"{vertices:064x}", log=True, reports=KINDS)
                used = replayed(told.log)
                self.assertEqual(used, {name: count for name, count in told.used.items() if count})
                self.assertEqual((len(told.log), told.totals.records), (told.pops, told.pops))
                self.assertEqual(sum(told.heights), told.totals.entries)
                self.assertEqual(told.layers, (max((pop.layer for pop in told.log), default=0), len(used)))

    def test_workers_change_nothing(self):
        edges = [(first, second) for first in range(6) for second in range(first)]
        asked = {"key": ZEROS, "log": True, "witness": (3, 0), "reports": KINDS}
        for sample in (popsample.spanning_tree, popsample.sink_free_orientation):
            self.assertEqual(sample(edges, **asked), sample(edges, workers=4, **asked))

    def test_an_exhausted_run_has_its_log(self):
        with self.assertRaises(popsample.ExhaustedError) as caught:
            extremal_solution([[1]], stacks=[[0, 0]], log=True)
        self.assertEqual(caught.exception.log, (Pop(1, {1: 0}, 1),))

    def test_a_report_of_no_name(self):
        with self.assertRaises(popsample.OptionError) as caught:
            extremal_solution([[1]], reports=["widths"])
        self.assertEqual(caught.exception.value, ["widths"])


if __name__ == "__main__":
    unittest.main()
