"""The library and the program give the same samples, and refuse the same inputs in the same words."""

import os
import random
import unittest
from unittest import mock

import popsample

NAMED = os.environ.get("POPSAMPLE_LIBRARY", "")
ROUNDS = 60


def outcome(call):
    """The result of a call and what it has, or the exception and what it has."""
    try:
        found = call()
    except popsample.Error as error:
        return type(error), str(error), vars(error)
    return found, found.used, found.pops, found.key, found.sample, repr(found)


@unittest.skipUnless(NAMED, "no library is named")
class Alike(unittest.TestCase):
    def judge(self, call):
        """The call has the same outcome by the program and by the library."""
        with mock.patch.dict(os.environ, {"POPSAMPLE_LIBRARY": ""}):
            by_program = outcome(call)
        self.assertEqual(outcome(call), by_program)

    def setUp(self):
        self.chance = random.Random(17)

    def named(self, sample=True):
        """A key, a height and a number."""
        number = {"sample": self.chance.choice([0, 0, 1, 3])} if sample else {}
        return {"key": self.chance.randbytes(32), "height": self.chance.choice([1, 2, 3, 2**20]), **number}

    def graph(self, unbounded):
        """A random graph. One with cycles that no height ends would run up to it."""
        count = self.chance.randint(1, 7)
        edges = [(self.chance.randint(1, count), self.chance.randint(1, count)) for _ in range(self.chance.randint(0, 12))]
        weights = [self.chance.randint(1, 5) for _ in edges] if self.chance.random() < 0.5 else None
        return popsample.from_edges(edges, weights, range(1, count + 1) if unbounded else None)

    def test_trees(self):
        for _ in range(ROUNDS):
            graph, named = self.graph(self.chance.random() < 0.5), self.named()
            self.judge(lambda: popsample.spanning_tree(graph, **named))

    def test_orientations(self):
        for _ in range(ROUNDS):
            graph, named = self.graph(self.chance.random() < 0.5), self.named()
            self.judge(lambda: popsample.sink_free_orientation(graph, **named))

    def test_assignments(self):
        for _ in range(ROUNDS):
            count = self.chance.randint(1, 5)
            literals = [number for name in range(1, count + 1) for number in (name, -name)]
            clauses = [self.chance.choices(literals, k=self.chance.randint(1, 3)) for _ in range(self.chance.randint(0, 5))]
            named = {**self.named(), "variables": count, "height": self.chance.choice([1, 2, 3, 50])}
            self.judge(lambda: popsample.solution(clauses, "extremal", **named))
            named["sample"] = 0
            self.judge(lambda: popsample.solution(clauses, "rounds", **named))


if __name__ == "__main__":
    unittest.main()
