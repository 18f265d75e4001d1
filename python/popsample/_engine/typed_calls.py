"""Calls of the library that take arrays and fill arrays, in parts between which signals and clocks are seen."""

from __future__ import annotations

import ctypes
import time
from array import array
from collections.abc import Callable, Sequence
from functools import cache
from typing import Any

from .._given.flat_numbers import address
from .._given.problems import FormulaProblem, OrientationProblem, Problem, TreeProblem
from .refused import CallRefusedError
from .rows import Rows
from .watch import Watch

# The statuses of a call, of which those above EXHAUSTED and but for STOPPED fill nothing.
EXHAUSTED, MEMORY, STOPPED = 1, 9, 10
# A part of a run is to take about as long, in seconds: longer than its preparation, and short for a person.
SHORT, LONG = 0.1, 0.4
MOST_BUDGET = 2**62
NAMES = ("popsample_trees", "popsample_orientations", "popsample_assignments")
NOTHING = array("I")

# The first sample, how many, the cursors to go on from, and the budget, to the status, the kind and the place.
Part = Callable[[int, int, "array[int]", int], tuple[int, int, int]]


NUMBER, SIZE, POINTER = ctypes.c_uint32, ctypes.c_size_t, ctypes.c_void_p
SOME = [POINTER, SIZE]
# For each function what it is given before the key and the numbers of samples, and how many arrays it fills.
TAKES = ([NUMBER, *SOME, *SOME, NUMBER], [NUMBER, *SOME], [NUMBER, *SOME, NUMBER])
FILLS = (4, 3, 3)


@cache
def functions(place: str) -> tuple[Any, ...]:
    """Return the library's functions for trees, orientations and assignments; None for each that it hasn't."""
    try:
        library = ctypes.CDLL(place)  # it lets go of the interpreter's lock while a call runs
    except OSError:
        return None, None, None
    found = tuple(getattr(library, name, None) for name in NAMES)
    for function, takes, fills in zip(found, TAKES, FILLS):
        if function is not None:
            drawn = [ctypes.c_char_p, SIZE, NUMBER, NUMBER, *SOME, ctypes.c_uint64]
            function.argtypes = [*takes, *drawn, *SOME * fills, POINTER, POINTER]
            function.restype = NUMBER
    return found


def answers(place: str, problem: Problem) -> bool:
    """Return whether the library of this place has the function for a problem."""
    return functions(place)[kind_of(problem)] is not None


def draw(place: str, problem: Problem, key: bytes, height: int, first: int, count: int, watch: Watch) -> Rows:
    """Return so many samples by the library of this place, the first of which has the number `first`.

    Raises CallRefusedError if the library refuses them, MemoryError, and what `watch` raises.
    """
    is_tree = isinstance(problem, TreeProblem)
    rows = Rows.empty(first, count, problem.width, "I" if is_tree else "B", is_tree)
    in_parts(part_of(place, problem, key, height, rows), rows, problem.first_budget, watch)
    return rows


def part_of(place: str, problem: Problem, key: bytes, height: int, rows: Rows) -> Part:
    """Return what fills a part of the rows."""
    kind, where = ctypes.c_uint64(), ctypes.c_uint64()
    ending = (ctypes.addressof(kind), ctypes.addressof(where))
    values, used, counts = address(rows.values), address(rows.used), address(rows.counts)
    edges, step = address(rows.edges), rows.values.itemsize
    function, given = functions(place)[kind_of(problem)], given_of(problem)

    def part(at: int, many: int, start: array[int], budget: int) -> tuple[int, int, int]:
        size, row = rows.width * many, rows.width * at
        filled = [values + step * row, size]
        if rows.edges:
            filled += [edges + 4 * row, size]
        elif isinstance(problem, TreeProblem):
            filled += [edges, 0]
        drawn = (key, len(key), height, rows.first + at, address(start), len(start), budget)
        filled += [used + 4 * row, size, counts + 16 * at, 2 * many]
        status = function(*given, *drawn, *filled, *ending)
        return status, kind.value, where.value

    return part


def kind_of(problem: Problem) -> int:
    """Return which of the library's functions answers a problem."""
    return [TreeProblem, OrientationProblem, FormulaProblem].index(type(problem))


def given_of(problem: Problem) -> Sequence[int]:
    """Return the arguments that say what is sampled."""
    if isinstance(problem, FormulaProblem):
        return (problem.count, address(problem.literals), len(problem.literals), int(problem.by_rounds))
    ends = (problem.vertices, address(problem.ends), len(problem.ends))
    if isinstance(problem, OrientationProblem):
        return ends
    weights = NOTHING if problem.weights is None else problem.weights
    return (*ends, address(weights), len(weights), problem.root)


def in_parts(part: Part, rows: Rows, budget: int, watch: Watch) -> None:
    """Fill the rows by calls of which each takes a fraction of a second. Between two calls Python handles signals."""
    done, carried, start = 0, 0, NOTHING
    while True:
        began = time.monotonic()
        status, kind, place = part(done, rows.count - done, start, budget)
        took = time.monotonic() - began
        if status == MEMORY:
            raise MemoryError
        if status not in (0, EXHAUSTED, STOPPED):
            raise CallRefusedError(status, kind, place)
        rows.counts[2 * done] += carried
        if status != STOPPED:
            return
        done += place
        carried = rows.counts[2 * done]
        start = rows.used[done * rows.width : (done + 1) * rows.width]
        watch.look()
        budget = next_budget(budget, took)


def next_budget(budget: int, took: float) -> int:
    """Return how many pops the next call may make, if the last one with this budget took so many seconds."""
    if took < SHORT:
        return min(4 * budget, MOST_BUDGET)
    return max(1, budget // 2) if took > LONG else budget
