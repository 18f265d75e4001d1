"""The exact law on printed bytes: of all rows of small heights, equally much makes the program print each sample.

What is to be printed of a sample, up to the line `used`, is written here by docs/FORMATS.md.
"""

from __future__ import annotations

import subprocess
import unittest
from collections.abc import Iterable, Sequence

import popsample

from .instances import (
    CHAINED,
    CLASHING,
    CLAUSES,
    PARALLEL,
    TRIANGLE,
    WEIGHTS,
    Proportional,
    Rows,
    Values,
    Weight,
    all_alike,
    all_rows,
    assignments,
    edge_weight,
    edges_at,
    orientations,
    trees,
)


def text_of(lines: Iterable[Iterable[object]]) -> bytes:
    """The text of lines of words."""
    return "".join(" ".join(map(str, words)) + "\n" for words in lines).encode()


def graph_text(edges: Sequence[tuple[int, ...]]) -> bytes:
    """The text of a graph of three vertices."""
    return text_of([("p", "edge", 3, len(edges)), *(("e", *edge) for edge in edges)])


def literals_text(literals: list[int]) -> bytes:
    """What is printed of an assignment."""
    return text_of([("s", "SAMPLE"), ("v", *literals, 0)])


def arrows_text(arrows: Iterable[popsample.Arrow]) -> bytes:
    """What is printed of arrows, whose edges count from 0 here, and from 1 there."""
    return text_of([("s", "SAMPLE"), *(("a", arrow.tail, arrow.head, arrow.edge + 1) for arrow in arrows)])


class Printed(Proportional):
    def front(self, command: str, text: bytes, rows: Rows) -> bytes | None:
        """What is printed over rows before the line `used`, and None where the run is exhausted."""
        given = ";".join(",".join(map(str, row)) for row in rows)
        words = [popsample.find_program(), command, "--stacks", given]
        answer = subprocess.run(words, input=text, capture_output=True, check=False)
        if answer.returncode == 1:
            self.assertTrue(answer.stdout.startswith(b"s EXHAUSTED\n"), words)
            return None
        self.assertEqual(answer.returncode, 0, words)
        return answer.stdout[: answer.stdout.index(b"used ")]

    def judge(
        self, command: str, text: bytes, rows: Iterable[Rows], samples: list[tuple[bytes, Values]], weight: Weight
    ) -> None:
        """No two samples have the same lines, and the lines of each are printed as much as those of another."""
        self.assertEqual(len(dict(samples)), len(samples))
        fronts = {given: self.front(command, text, given) for given in rows}
        answers = {given: lines for given, lines in fronts.items() if lines is not None}
        self.judge_shares(answers, dict(samples), weight)

    def test_assignments(self):
        for command, clauses in (("formula", CLAUSES), ("rounds", CLASHING), ("rounds", CHAINED)):
            with self.subTest(command=command, clauses=clauses):
                text = text_of([("p", "cnf", 3, len(clauses)), *((*clause, 0) for clause in clauses)])
                samples = [(literals_text(literals), x) for x, literals in assignments(clauses).items()]
                self.judge(command, text, all_rows([2] * 3, 2), samples, all_alike)

    def test_orientations(self):
        samples = [(arrows_text(arrows), x) for x, arrows in orientations().items()]
        self.judge("orient", graph_text(TRIANGLE), all_rows([2] * 3, 2), samples, all_alike)

    def test_trees_that_may_differ_in_a_parallel_edge_alone(self):
        text = graph_text([(*pair, weight) for pair, weight in zip(PARALLEL, WEIGHTS)])
        samples = [(arrows_text(arrows), x) for x, arrows in trees(PARALLEL).items()]
        # Worked by hand: a tree without the parallel pair, and two with each edge of it.
        self.assertEqual(len(samples), 5)
        rows = all_rows([len(at) for at in edges_at(PARALLEL)], 2)
        self.judge("tree", text, rows, samples, edge_weight(PARALLEL))


if __name__ == "__main__":
    unittest.main()
