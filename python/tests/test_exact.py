"""The exact law, over all rows of small heights: equally much of them is answered by each sample."""

from __future__ import annotations

import unittest
from collections import Counter
from collections.abc import Callable, Iterable
from typing import NamedTuple

import popsample

from .checks import extremal_solution, rounds_solution
from .instances import (
    CHAINED,
    CLASHING,
    CLAUSES,
    TRIANGLE,
    WEIGHTS,
    Proportional,
    Rows,
    Values,
    Weight,
    all_alike,
    all_rows,
    assignments,
    edge_weight,
    edges_at,
    orientations,
    trees,
)


class Ended(NamedTuple):
    """The sample at a run's end, how many entries of each variable were popped, and how many pops or rounds it had."""

    values: Values
    used: Values
    steps: int


def assignment(sample: Callable, clauses: list[list[int]]) -> Callable[[Rows], Ended]:
    """The end of a formula's run over rows, by one of the functions that make assignments."""

    def ended(rows: Rows) -> Ended:
        result = sample(clauses, stacks=rows)
        values = tuple(int(literal > 0) for literal in result.literals)
        steps = result.pops if result.rounds is None else result.rounds
        return Ended(values, tuple(result.used.values()), steps)

    return ended


def orientation(rows: Rows) -> Ended:
    """The end of the triangle's orientation over rows."""
    result = popsample.sink_free_orientation(TRIANGLE, stacks=rows)
    values = tuple(int(arrow.tail != TRIANGLE[arrow.edge][0]) for arrow in result.arrows)
    return Ended(values, tuple(result.used.values()), result.pops)


def tree(rows: Rows) -> Ended:
    """The end of a tree's run over rows, in the triangle with weights."""
    edges = [(*pair, weight) for pair, weight in zip(TRIANGLE, WEIGHTS)]
    result = popsample.spanning_tree(edges, root=1, stacks=rows)
    values = tuple(at.index(arrow.edge) for at, arrow in zip(edges_at(TRIANGLE), result.arrows))
    return Ended(values, tuple(result.used.values()), result.pops)


def finished(ended: Callable[[Rows], Ended], rows: Iterable[Rows]) -> dict[Rows, Ended]:
    """What each of the rows is answered by, where the run isn't exhausted."""
    answers = {}
    for given in rows:
        try:
            answers[given] = ended(given)
        except popsample.ExhaustedError:
            continue
    return answers


def exchanged(rows: Rows, used: Values, values: Values) -> Rows:
    """The rows with these values at the entries that are current at the end."""
    return tuple(row[:k] + (x,) + row[k + 1 :] for row, k, x in zip(rows, used, values))


class Exact(Proportional):
    def judge(self, answers: dict[Rows, Ended], samples: Iterable[Values], weight: Weight) -> None:
        """Each sample ends as much as any other, by their weights, and is printed where it is written in."""
        self.judge_shares({rows: end.values for rows, end in answers.items()}, {x: x for x in samples}, weight)
        for rows, end in answers.items():
            for values in samples:
                self.assertEqual(answers[exchanged(rows, end.used, values)], end._replace(values=values))

    def test_assignments(self):
        answers = finished(assignment(extremal_solution, CLAUSES), all_rows([2] * 3, 2))
        self.judge(answers, assignments(CLAUSES), all_alike)

    def test_assignments_by_rounds_whether_or_not_clauses_clash(self):
        for clauses in (CLAUSES, CLASHING, CHAINED):
            with self.subTest(clauses=clauses):
                answers = finished(assignment(rounds_solution, clauses), all_rows([2] * 3, 2))
                self.judge(answers, assignments(clauses), all_alike)

    def test_orientations(self):
        self.judge(finished(orientation, all_rows([2] * 3, 2)), orientations(), all_alike)

    def test_trees(self):
        self.judge(finished(tree, all_rows([2] * 2, 3)), trees(TRIANGLE), edge_weight(TRIANGLE))

    def test_clashing_events_are_not_resampled_alike(self):
        answers = finished(assignment(popsample.resample, CLASHING), all_rows([2] * 3, 2))
        counts = Counter(end.values for end in answers.values())
        self.assertGreater(len(set(counts.values())), 1, counts)


if __name__ == "__main__":
    unittest.main()
