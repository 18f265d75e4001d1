"""What is wrong with the arguments of a call, in the words of the call: all this is raised before the program runs."""

from __future__ import annotations

from collections.abc import Hashable, Sequence
from typing import Any

from .base_error import Error

# How much of a value a message shows.
LONGEST = 200


class ArgumentError(Error, ValueError):
    """What was passed can't be taken: the message says what to pass."""


class OptionError(ArgumentError):
    """An argument has a value that it may not have.

    Attributes
    ----------
    argument : str
        The name of the argument.
    value : object
        What was passed.
    """

    def __init__(self, argument: str, value: Any, wanted: str) -> None:
        super().__init__(f"`{argument}` must be {wanted}, not {shown(value)}.")
        self.argument = argument
        self.value = value


def shown(value: Any) -> str:
    """Return a value as a message shows it, cut off if it is long."""
    try:
        text = repr(value)
    except ValueError:  # an integer of more digits than Python converts
        return f"one of type {type(value).__name__} that has too many digits to be shown"
    return text if len(text) <= LONGEST else f"{text[:LONGEST]}..."


def counted(variables: int) -> str:
    """Return so many variables in words."""
    return "1 variable" if variables == 1 else f"{variables} variables"


class InputTypeError(ArgumentError, TypeError):
    """A graph, a formula or a part of it is of a kind that isn't read."""


class EmptyGraphError(ArgumentError):
    """The graph has no vertex, so it has no spanning tree."""

    def __init__(self) -> None:
        super().__init__("The graph must have a vertex: without one it has no spanning tree.")


class WeightError(ArgumentError):
    """A weight can't be taken: `edge` is the name of its edge, and `weight` what was passed."""

    def __init__(self, edge: Hashable, weight: Any, reason: str) -> None:
        super().__init__(f"The weight {weight!r} of edge {edge!r} can't be taken: {reason}.")
        self.edge = edge
        self.weight = weight


class NoWeightError(ArgumentError, KeyError):
    """No edge has the attribute that is to have the weights.

    In a call of networkx, some edge hasn't. `attribute` is its name, and `edge` that edge.
    """

    def __init__(self, attribute: Hashable, edge: Hashable = None) -> None:
        super().__init__(
            f"No edge has the attribute {attribute!r} that weight= names: look at how it is spelled."
            if edge is None
            else f"Edge {edge!r} has no attribute {attribute!r}, which weight= names: give it one."
        )
        self.attribute = attribute
        self.edge = edge

    def __str__(self) -> str:
        """Return the message as it is; a KeyError shows it as Python writes a string."""
        return str(self.args[0])


class TreeComponentError(ArgumentError):
    """A connected part of the graph is a tree, which has a sink however it is oriented.

    `vertices` are those of that part, the first such.
    """

    def __init__(self, vertices: Sequence[Hashable]) -> None:
        super().__init__(
            f"The connected part with vertex {vertices[0]!r}, of {len(vertices)} vertices, is a tree, which has a sink "
            "however it is oriented: leave this part out, or add an edge to it.",
        )
        self.vertices = tuple(vertices)


class UnsatisfiableError(ArgumentError):
    """These clauses, by number, can't all be true.

    They have one variable less than they are, and each of these can make one of them true at a time.
    """

    def __init__(self, clauses: Sequence[int]) -> None:
        super().__init__(
            f"The {len(clauses)} clauses that are joined to clause {clauses[0]} have {counted(len(clauses) - 1)}, each "
            "of which makes at most one of them true, so nothing satisfies all: leave one of the clauses out.",
        )
        self.clauses = tuple(clauses)
