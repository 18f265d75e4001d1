"""Adjacencies: a dict of neighbours, or a square matrix of weights."""

from __future__ import annotations

from collections.abc import Hashable, Iterable, Iterator, Mapping, Sequence
from typing import Any

from .._errors.argument_errors import ArgumentError, InputTypeError
from .._results.results import Edge
from .graph_parts import GraphParts, parts_of
from .weights import attribute_weights

WANTED = (
    "A dict is read as an adjacency, with a list of neighbours or a dict of neighbours and weights or attributes for "
    "each vertex."
)


def neighbours(vertex: Hashable, given: Any) -> Iterator[tuple[Hashable, Any]]:
    """Return the neighbours of a vertex, each with its weight or attributes; none of these in a list."""
    if isinstance(given, Mapping):
        yield from given.items()
        return
    if isinstance(given, (str, bytes)) or not isinstance(given, Iterable):
        raise InputTypeError(f"The neighbours of vertex {vertex!r} must be a list or a dict, not {given!r}. {WANTED}")
    names = list(given)
    if len(dict.fromkeys(names)) != len(names):
        raise ArgumentError(
            f"The neighbours of vertex {vertex!r} must be different, not {given!r}. For parallel edges pass a list of "
            "edges."
        )
    yield from ((name, {}) for name in names)


def read_mapping(graph: Mapping[Hashable, Any], weight: str | None) -> GraphParts:
    """Return the parts of a dict of lists or of dicts.

    It is as `networkx.to_dict_of_lists` and `to_dict_of_dicts` make it of an undirected graph.

    Two vertices are joined if one has the other among its neighbours, by one edge, whose name is the pair of its
    ends. `weight` names the attribute that has the weights. Raises ArgumentError if an edge has another weight at
    its second end, InputTypeError if a value is none of these, and NoWeightError if no edge has the attribute.
    """
    vertices = dict.fromkeys(graph)
    edges: dict[tuple[Hashable, Hashable], Edge] = {}
    for vertex, given in graph.items():
        for other, attributes in neighbours(vertex, given):
            vertices.setdefault(other)
            add_edge(edges, (vertex, other), attributes)
    return parts_of(list(vertices), attribute_weights(edges.values(), weight))


def add_edge(edges: dict[tuple[Hashable, Hashable], Edge], pair: tuple[Hashable, Hashable], weight: Any) -> None:
    """Add the edge of a pair, unless its other end had it already, with the same weight or attributes."""
    if isinstance(weight, Mapping) and weight and all(isinstance(value, Mapping) for value in weight.values()):
        raise InputTypeError(
            f"The edge {pair!r} has attributes by key, {weight!r}, as in a multigraph: pass the multigraph itself."
        )
    before = edges.get(pair[::-1]) if pair[0] != pair[1] else None
    if before is None:
        edges[pair] = (*pair, weight, pair)
    elif before[2] != weight:
        raise ArgumentError(
            f"The edge {pair[::-1]!r} must have the same at both ends, not {before[2]!r} at its first and {weight!r} "
            "at its second: the graph is undirected."
        )


def matrix_rows(matrix: Any) -> list[list[Any]]:
    """Return the rows of a matrix of numpy, or of a list of lists. Raise ArgumentError if it isn't square."""
    try:
        rows = matrix.tolist() if hasattr(matrix, "tolist") else [list(row) for row in matrix]
    except TypeError:
        raise InputTypeError(f"An adjacency matrix must be an array or a list of lists, not {matrix!r}.") from None
    if not isinstance(rows, list) or any(not isinstance(row, list) or len(row) != len(rows) for row in rows):
        raise ArgumentError("An adjacency matrix must be square: pass as many rows as columns.")
    return rows


def row_names(names: Sequence[Hashable] | None, rows: int) -> list[Hashable]:
    """Return the names of the rows, or their numbers from 0. Raise ArgumentError if they don't fit."""
    if names is None:
        return list(range(rows))
    vertices = list(names)
    try:
        count = len(dict.fromkeys(vertices))
    except TypeError:
        raise InputTypeError("`names` must be names that can be hashed: numbers, strings or tuples.") from None
    if len(vertices) != rows or count != rows:
        raise ArgumentError(f"`names` must have one name for each of the {rows} rows, none twice.")
    return vertices


def check_rows(rows: list[list[Any]]) -> None:
    """Raise ArgumentError if the matrix has a NaN or isn't symmetric."""
    for place, row in enumerate(rows):
        column = next((column for column, weight in enumerate(row) if weight != weight), None)
        if column is not None:
            raise ArgumentError(f"The adjacency matrix must have no NaN, and has one in row {place}, column {column}.")
    for place, row in enumerate(rows):
        if row[place:] != [other[place] for other in rows[place:]]:
            raise ArgumentError(
                "The adjacency matrix of an undirected graph must be symmetric, and row "
                f"{place} of this one, from 0, isn't its column."
            )


def read_matrix(matrix: Any, names: Sequence[Hashable] | None) -> GraphParts:
    """Return the parts of a symmetric matrix of weights, in which 0 is no edge.

    The vertices have the names, or are the numbers from 0 on, and an edge's name is the pair of its ends. Raises
    ArgumentError if the matrix isn't square or symmetric, has a NaN, or the names don't fit.
    """
    rows = matrix_rows(matrix)
    vertices = row_names(names, len(rows))
    check_rows(rows)
    edges: list[Edge] = []
    for place, row in enumerate(rows):
        for other, weight in enumerate(row[place:], place):
            if weight:
                pair = (vertices[place], vertices[other])
                edges.append((*pair, weight, pair))
    return parts_of(vertices, edges)
