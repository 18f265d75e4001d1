"""What a reader of graphs finds: names, the ends of the edges by number, and weights."""

from __future__ import annotations

from collections.abc import Hashable, Sequence
from typing import Any, NamedTuple

from .._results.results import Edge
from .flat_numbers import Flat, numbers_of


class GraphParts(NamedTuple):
    """The names of vertices and edges, the ends of the edges by the places of vertices, and the weights.

    The ends of edge I are the numbers 2I and 2I + 1, from 0. Without weights each edge weighs 1.
    """

    vertices: Sequence[Hashable]
    edges: Sequence[Hashable]
    ends: Flat
    weights: Sequence[Any] | None


def parts_of(vertices: Sequence[Hashable], edges: Sequence[Edge]) -> GraphParts:
    """Return the parts of a graph with these vertices and edges."""
    weights = [edge[2] for edge in edges]
    ends = numbers_of(((edge[0], edge[1]) for edge in edges), vertices)
    return GraphParts(vertices, [edge[3] for edge in edges], ends, weights)
