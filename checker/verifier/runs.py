"""Cursors and pops, and the one-thread run."""

from __future__ import annotations

import heapq
from typing import NamedTuple, Optional, Union

from .families import Cube, Cycles, Event, Listed
from .stacks import Stacks


class Record(NamedTuple):
    """A pop: its event, and for each of the event's variables the entry that was used."""

    event: Event
    entries: list[int]


class Board:
    """A cursor for each variable, from 0 on, and the values there."""

    def __init__(self, family: Union[Listed, Cycles], stacks: Stacks, variables: int) -> None:
        self.family = family
        self.stacks = stacks
        self.cursors = [0] * variables
        self.values = [stacks.entry(variable, 0) for variable in range(variables)]

    def occurs(self, cube: Cube) -> bool:
        """Whether the current values are those that the cube demands."""
        return all(self.values[variable] == value for variable, value in cube)

    def poppable(self, cube: Cube) -> bool:
        """Whether the cube occurs, and each of its variables has a next entry."""
        return self.occurs(cube) and all(
            self.cursors[variable] + 1 < self.stacks.height(variable) for variable, _ in cube)

    def move_on(self, variable: int) -> None:
        """Moves a variable on to its next entry."""
        self.cursors[variable] += 1
        self.values[variable] = self.stacks.entry(variable, self.cursors[variable])

    def pop(self, event: Event) -> Record:
        """Moves each variable of the event on to its next entry, and tells the record of that."""
        record = Record(event, [self.cursors[variable] for variable, _ in event.cube])
        for variable, _ in event.cube:
            self.move_on(variable)
        return record

    def occurring(self) -> list[Event]:
        """The events that occur, by rising unit."""
        return sorted(set(self.family.near(range(len(self.cursors)), self.values)))

    def first_poppable(self) -> Optional[Event]:
        """The poppable event of least unit, where there is one."""
        return next((event for event in self.occurring() if self.poppable(event.cube)), None)

    def run_first(self) -> list[Record]:
        """Pops the poppable event of least unit while there is one, and tells the log of these pops.

        An event can have become poppable only where one of its variables moved: it is looked for there alone.
        """
        records = []
        waiting = self.occurring()
        while waiting:
            event = heapq.heappop(waiting)
            if self.poppable(event.cube):
                records.append(self.pop(event))
                moved = [variable for variable, _ in event.cube]
                for other in self.family.near(moved, self.values):
                    heapq.heappush(waiting, other)
        return records
