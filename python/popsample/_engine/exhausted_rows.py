"""What is stuck in a row of a call of the library, which gives the number of events alone."""

from __future__ import annotations

from collections.abc import Sequence

from .._given.problems import FormulaProblem, OrientationProblem, Problem
from .rows import Rows, Stuck, cycles_of


def stuck_in(problem: Problem, rows: Rows, row: int, height: int) -> Stuck:
    """Return how the run of a row was exhausted."""
    if row in rows.stuck:
        return rows.stuck[row]
    values = rows.value_row(row)
    if isinstance(problem, OrientationProblem):
        return Stuck([[vertex] for vertex in sinks(problem, values)])
    if not isinstance(problem, FormulaProblem):
        return Stuck(cycles_of(values))
    events = event_numbers(problem.clauses())
    stuck = [number for number, cube in events.items() if occurs(cube, values)]
    short = short_variable(events, stuck, values, rows.used_row(row), height) if problem.by_rounds else None
    return Stuck([[number] for number in stuck], short)


def sinks(problem: OrientationProblem, values: Sequence[int]) -> list[int]:
    """Return the vertices, from 1, that no edge leaves."""
    ends = problem.ends
    left = {int(ends[2 * place + value]) for place, value in enumerate(values)}
    return [vertex + 1 for vertex in range(problem.vertices) if vertex not in left]


Cube = dict[int, bool]


def event_numbers(clauses: Sequence[Sequence[int]]) -> dict[int, Cube]:
    """Return the events of clauses by number, from 1: the values at which all literals are false.

    A clause that is always true has none, and of equal ones the first one has it.
    """
    found: dict[int, Cube] = {}
    seen = set()
    for number, clause in enumerate(clauses, 1):
        literals = frozenset(clause)
        if literals not in seen and not any(-literal in literals for literal in literals):
            seen.add(literals)
            found[number] = {abs(literal): literal < 0 for literal in sorted(literals, key=abs)}
    return found


def occurs(cube: Cube, values: Sequence[int]) -> bool:
    """Return whether an event occurs at these values."""
    return all(bool(values[variable - 1]) == value for variable, value in cube.items())


def short_variable(
    events: dict[int, Cube], stuck: Sequence[int], values: Sequence[int], used: Sequence[int], height: int
) -> int | None:
    """Return the lowest variable of the last resampling set that has no next value.

    The set has at first the events that occur. In each step those are looked at that share a variable with it. One
    whose values agree at all shared variables joins; any other is excluded for good.
    """
    joined, rest = set(stuck), {number for number in events if number not in stuck}
    while True:
        covered = {variable for number in joined for variable in events[number]}
        looked = {number for number in rest if not covered.isdisjoint(events[number])}
        if not looked:
            break
        for number in looked:
            shared = (pair for pair in events[number].items() if pair[0] in covered)
            if all(bool(values[variable - 1]) == value for variable, value in shared):
                joined.add(number)
        rest -= looked
    return min((variable for variable in covered if used[variable - 1] + 1 >= height), default=None)
