"""Rows of what the program printed."""

from __future__ import annotations

from array import array
from collections.abc import Sequence

from .._given.flat_numbers import NONE
from .._given.problems import OrientationProblem, Problem, TreeProblem
from .answer import Answer
from .rows import Rows, Stuck


def words_of(problem: Problem) -> list[str]:
    """Return the command of the program, and its own options."""
    if isinstance(problem, TreeProblem):
        return ["tree", "--root", str(problem.root + 1)]
    if isinstance(problem, OrientationProblem):
        return ["orient"]
    return ["rounds" if problem.by_rounds else "formula"]


def row_of(problem: Problem, answer: Answer, number: int = 0) -> Rows:
    """Return the row of an answer, which may be exhausted; the sample has this number."""
    is_tree = isinstance(problem, TreeProblem)
    rows = Rows.empty(number, 1, problem.width, "I" if is_tree else "B", is_tree)
    if not is_tree:
        rows.used[:] = array("I", answer.numbers("used"))
    stuck = stuck_of(answer)
    if isinstance(problem, TreeProblem):
        fill_tree(problem, rows, answer)
    elif isinstance(problem, OrientationProblem):
        tails, _, edges = answer.arrow_columns()
        ends = problem.ends
        for tail, edge in zip(tails, edges):
            rows.values[edge - 1] = int(ends[2 * edge - 2] != tail - 1)
    elif not stuck.events:
        rows.values[:] = array("B", [literal > 0 for literal in answer.numbers("v")[:-1]])
    rows.counts[0] = answer.number("rounds") or answer.number("pops") or 0
    rows.counts[1] = len(stuck.events)
    if stuck.events:
        rows.stuck[0] = stuck
    return rows


def fill_tree(problem: TreeProblem, rows: Rows, answer: Answer) -> None:
    """Fill the row of a tree."""
    rows.values[:] = rows.edges[:] = array("I", [NONE]) * problem.width
    used = answer.numbers("used")
    used.insert(problem.root, 0)
    rows.used[:] = array("I", used)
    for tail, head, edge in zip(*answer.arrow_columns()):
        rows.values[tail - 1], rows.edges[tail - 1] = head - 1, edge - 1


def stuck_of(answer: Answer) -> Stuck:
    """Return how the run of an answer was exhausted."""
    events: Sequence[Sequence[int]] = [[int(word) for word in row] for row in answer.rows("stuck")]
    return Stuck(events, answer.number("short"))


