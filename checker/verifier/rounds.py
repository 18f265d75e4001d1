"""Resampling sets, and the run by synchronous rounds."""

from __future__ import annotations

from typing import Optional

from .families import Event
from .runs import Board


def resampling_set(board: Board) -> set[Event]:
    """The resampling set at the current values.

    At first it has the events that occur. In each step all those are looked at that share a variable with an event
    of the set as it stands, and are neither in it nor excluded. One is excluded where a variable that it shares has
    another value than it demands; else it joins.
    """
    joined = set(board.occurring())
    excluded: set[Event] = set()
    while True:
        covered = {variable for event in joined for variable, _ in event.cube}
        looked = [
            event for event in board.family.events
            if event not in joined | excluded and any(variable in covered for variable, _ in event.cube)]
        if not looked:
            return joined
        for event in looked:
            differs = any(
                variable in covered and board.values[variable] != value for variable, value in event.cube)
            (excluded if differs else joined).add(event)


def run_rounds(board: Board) -> tuple[int, Optional[int]]:
    """Moves each variable of the resampling set on, round by round, while an event occurs and each has a next entry.

    Tells the number of rounds, and the least variable of the last set without a next entry, if that ended them.
    """
    rounds = 0
    while board.occurring():
        moved = sorted({variable for event in resampling_set(board) for variable, _ in event.cube})
        for variable in moved:
            if board.cursors[variable] + 1 >= board.stacks.height(variable):
                return rounds, variable
        for variable in moved:
            board.move_on(variable)
        rounds += 1
    return rounds, None
