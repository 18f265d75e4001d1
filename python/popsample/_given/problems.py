"""What is sampled, by numbers alone: it goes to the library as arrays, and to the program as text."""

from __future__ import annotations

from array import array
from collections.abc import Sequence
from dataclasses import dataclass
from typing import Union

from .flat_numbers import Flat
from .graph_text import graph_text

# How much work the first call of the library may do, in pops and in numbers that rounds look at.
POPS, LOOKS = 2**16, 2**22


@dataclass(frozen=True)
class TreeProblem:
    """Spanning trees of a graph. Vertices, edges and the root count from 0."""

    vertices: int
    ends: Flat
    weights: Flat | None
    root: int

    @property
    def width(self) -> int:
        """How many numbers the row of a sample has."""
        return self.vertices

    @property
    def variables(self) -> int:
        """How many variables a sample has."""
        return self.vertices - 1

    @property
    def first_budget(self) -> int:
        """How many pops the first call of the library may make."""
        return max(POPS, 4 * self.vertices)

    def text(self) -> bytes:
        """Return the graph as the program reads it."""
        return graph_text(self.vertices, self.ends, self.weights)


@dataclass(frozen=True)
class OrientationProblem:
    """Orientations of a graph without sinks."""

    vertices: int
    ends: Flat

    @property
    def width(self) -> int:
        """How many numbers the row of a sample has."""
        return len(self.ends) // 2

    @property
    def variables(self) -> int:
        """How many variables a sample has."""
        return self.width

    @property
    def first_budget(self) -> int:
        """How many pops the first call of the library may make."""
        return max(POPS, 4 * self.width)

    def text(self) -> bytes:
        """Return the graph as the program reads it."""
        return graph_text(self.vertices, self.ends, None)


@dataclass(frozen=True)
class FormulaProblem:
    """Satisfying assignments of a formula, by popping or by rounds.

    `literals` has the clauses one after the other, each ended by 0.
    """

    count: int
    literals: array[int]
    by_rounds: bool

    @property
    def width(self) -> int:
        """How many numbers the row of a sample has."""
        return self.count

    @property
    def variables(self) -> int:
        """How many variables a sample has."""
        return self.count

    @property
    def first_budget(self) -> int:
        """How many pops, or rounds, the first call of the library may make."""
        return max(1, LOOKS // (len(self.literals) + 1)) if self.by_rounds else max(POPS, 4 * self.count)

    def clauses(self) -> Sequence[Sequence[int]]:
        """Return the clauses."""
        found: list[list[int]] = [[]]
        for literal in self.literals:
            if literal:
                found[-1].append(literal)
            else:
                found.append([])
        return found[:-1]

    def text(self) -> bytes:
        """Return the formula as the program reads it, with clause N in line N + 1."""
        return formula_text(self.count, self.clauses())


def formula_text(variables: int, clauses: Sequence[Sequence[int]]) -> bytes:
    """Return clauses as the program reads them."""
    lines = [" ".join(map(str, [*clause, 0])) for clause in clauses]
    return "\n".join([f"p cnf {variables} {len(lines)}", *lines, ""]).encode()


Problem = Union[TreeProblem, OrientationProblem, FormulaProblem]
