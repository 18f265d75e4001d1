"""Events and their families: a list of cubes, and the cycles of arrows."""

from __future__ import annotations

from typing import Iterable, Iterator, NamedTuple, Optional

Cube = tuple  # of pairs of a variable and a value, with rising variables


class Event(NamedTuple):
    """A cube under a unit, by which events are ordered, and the number that output gives it."""

    unit: int
    cube: Cube
    number: int


class Listed:
    """Events in a list. The unit of an event is its place."""

    def __init__(self, cubes: Iterable[tuple[int, Cube]]) -> None:
        self.events = [Event(unit, cube, number) for unit, (number, cube) in enumerate(cubes)]
        self.named = {event.number: event for event in self.events}
        self.naming: dict[int, list[Event]] = {}
        for event in self.events:
            for variable, _ in event.cube:
                self.naming.setdefault(variable, []).append(event)

    def near(self, variables: Iterable[int], values: list[int]) -> Iterator[Event]:
        """The events that occur and look at one of the variables."""
        for variable in variables:
            for event in self.naming.get(variable, []):
                if all(values[place] == value for place, value in event.cube):
                    yield event

    def may_name(self, number: int, variables: list[int]) -> bool:
        """Whether there is an event of this number that looks at just these variables."""
        return number in self.named and [variable for variable, _ in self.named[number].cube] == variables

    def named_event(self, number: int, variables: list[int], values: list[int]) -> Optional[Event]:
        """The event of this number, where it occurs."""
        cube = self.named[number].cube
        return self.named[number] if all(values[place] == value for place, value in cube) else None

    def least_clash(self) -> Optional[tuple[int, int]]:
        """The numbers of the least two events that share variables and agree at each of them."""
        for first in self.events:
            wanted = dict(first.cube)
            found = [
                other.number for variable in wanted for other in self.naming[variable]
                if other.unit > first.unit
                and all(wanted.get(place, value) == value for place, value in other.cube)]
            if found:
                return first.number, min(found)
        return None


class Cycles:
    """The cycles of arrows. `heads[v][j]` is where value j of variable v leads, None for the root. `names[v]` is the
    number of a cycle whose least variable is v.
    """

    def __init__(self, heads: list[list[Optional[int]]], names: list[int]) -> None:
        self.heads = heads
        self.names = names

    def near(self, variables: Iterable[int], values: list[int]) -> Iterator[Event]:
        """The cycles that occur to which the arrows lead from one of the variables."""
        walked: dict[int, int] = {}
        for start in variables:
            place: Optional[int] = start
            path = []
            while place is not None and place not in walked:
                walked[place] = start
                path.append(place)
                place = self.heads[place][values[place]]
            if place is not None and walked[place] == start:
                cycle = sorted(path[path.index(place):])
                cube = tuple((each, values[each]) for each in cycle)
                yield Event(cycle[0], cube, self.names[cycle[0]])

    def may_name(self, number: int, variables: list[int]) -> bool:
        """Whether these variables rise, and the number is that of a cycle with them."""
        rising = all(first < second for first, second in zip(variables, variables[1:]))
        return rising and variables != [] and number == self.names[variables[0]]

    def named_event(self, number: int, variables: list[int], values: list[int]) -> Optional[Event]:
        """The cycle with these variables, where it occurs."""
        found = self.near(variables[:1], values)
        return next((event for event in found if [variable for variable, _ in event.cube] == variables), None)
