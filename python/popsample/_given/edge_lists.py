"""Lists of edges: pairs or triples of any names, and arrays with an edge in each row."""

from __future__ import annotations

import numbers
from collections.abc import Hashable, Iterable, Sequence
from itertools import chain
from operator import itemgetter
from typing import Any

from .._errors.argument_errors import ArgumentError, InputTypeError
from .._results.results import Edge
from .flat_numbers import as_flat, numbered, numbered_array, numbers_of, numpy_module
from .graph_parts import GraphParts
from .weights import attribute_weights, is_hashable

# What an edge of a list may be: the abstract class, after those that most are, which are checked sooner.
PAIRS = (tuple, list, Sequence)
PLAIN = {tuple, list}
# The ends of an edge.
ENDS = itemgetter(0, 1)

KINDS = (
    "A graph is a list of edges (pairs, or triples with a weight), an array with an edge in each row, a dict of lists "
    "or of dicts, an undirected graph of networkx, igraph or graph-tool, a sparse matrix of scipy, or the path of a "
    "graph file"
)
EITHER = (
    "may be an adjacency matrix or a list of edges: pass popsample.from_adjacency(..) or popsample.from_edges(..) of it"
)


def read_list(graph: Any, weight: str | None, is_edges: bool = False) -> GraphParts:
    """Return the parts of a list of edges, or of an array with an edge in each row.

    Edges are named by their places, from 0, and vertices count in the order in which they first occur.

    Raises ArgumentError if it may be an adjacency matrix as well, unless `is_edges` says that it is none.
    """
    if isinstance(graph, (str, bytes, bytearray)) or not isinstance(graph, Iterable):
        raise InputTypeError(f"{graph!r} is no graph. {KINDS}.")
    if hasattr(graph, "shape") and hasattr(graph, "dtype"):
        return read_array(graph, is_edges)
    rows = graph if isinstance(graph, (list, tuple)) else list(graph)
    if not is_edges and is_adjacency(rows):
        raise ArgumentError(f"{rows!r} {EITHER}.")
    if weight is None and set(map(type, rows)) <= PLAIN and set(map(len, rows)) <= {2}:
        ends, names = named_ends(rows)
        return GraphParts(names, range(len(rows)), ends, None)
    # A weight of another form is read edge by edge, and so is what is wrong.
    edges = attribute_weights((named_edge(place, edge) for place, edge in enumerate(rows)), weight)
    pairs = list(map(ENDS, edges))
    ends, names = named_ends(pairs)
    return GraphParts(names, range(len(edges)), ends, [edge[2] for edge in edges])


def named_ends(pairs: Sequence[Sequence[Hashable]]) -> tuple[Any, Sequence[Hashable]]:
    """Return the ends by number, and the names. Raises InputTypeError if a name can't be hashed."""
    try:
        return numbered(pairs)
    except TypeError:
        wrong = next(vertex for vertex in chain.from_iterable(pairs) if not is_hashable(vertex))
        raise InputTypeError(
            f"The vertex {wrong!r} can't be hashed. A name must be a number, a string or a tuple."
        ) from None


def is_adjacency(rows: Sequence[Any]) -> bool:
    """Return whether rows of numbers may be the adjacency matrix of a graph as well.

    They are two or three lists of this length, with zeros on the diagonal, and symmetric.
    """
    size = len(rows)
    if size not in (2, 3) or any(type(row) is not list or len(row) != size for row in rows):
        return False
    return all(rows[i][i] == 0 for i in range(size)) and all(
        rows[i][j] == rows[j][i] and isinstance(rows[i][j], numbers.Real) for i in range(size) for j in range(i)
    )


def named_edge(place: int, edge: Any) -> Edge:
    """Return the edge at a place of a list: two names, and nothing more, a weight, or a dict of attributes."""
    if isinstance(edge, (str, bytes, bytearray)) or not isinstance(edge, PAIRS) and not hasattr(edge, "tolist"):
        raise InputTypeError(f"The edge {edge!r} must be a pair or a triple. {KINDS}.")
    if len(edge) not in (2, 3):
        raise ArgumentError(f"The edge {edge!r} must have two or three parts, not {len(edge)}. {KINDS}.")
    return edge[0], edge[1], edge[2] if len(edge) == 3 else {}, place


def read_array(array: Any, is_edges: bool) -> GraphParts:
    """Return the parts of an array of numpy with an edge in each row.

    It has two columns of integers, and in a third one the weights. Of an array of floats the first two columns must be
    integers by value.

    Raises ArgumentError if it has another form, or may be an adjacency matrix as well.
    """
    shape, kind = tuple(array.shape), getattr(array.dtype, "kind", "")
    numpy = numpy_module()
    if len(shape) != 2 or shape[1] not in (2, 3) or kind not in ("i", "u", "f") or (kind == "f" and shape[1] == 2):
        raise ArgumentError(
            f"An array of shape {shape} and type {array.dtype} isn't read as edges, which are integers in 2 columns, "
            "or with weights in a third one. For an adjacency matrix pass popsample.from_adjacency(array)."
        )
    if not is_edges and shape[0] == shape[1] and is_adjacency([list(row) for row in array.tolist()]):
        raise ArgumentError(f"A symmetric array of shape {shape} with zeros on its diagonal {EITHER}.")
    if numpy is None:
        return read_list(array.tolist(), None, is_edges=True)
    array = numpy.asarray(array)
    given = array[:, :2]
    if kind == "f":
        if not bool((given == numpy.floor(given)).all()) or bool((abs(given) >= 2**53).any()):
            raise ArgumentError("The first two columns of an array of edges must be integers.")
        given = given.astype(numpy.int64)
    ends, names = numbered_array(as_flat(given, given.dtype))
    return GraphParts(names, range(shape[0]), ends, array[:, 2].tolist() if shape[1] == 3 else None)


def read_edges(edges: Any, weights: Any, vertices: Iterable[Hashable] | None) -> GraphParts:
    """Return the parts of what can only be a list of edges, with weights and vertices beside."""
    found = read_list(edges, None, is_edges=True)
    given = found.weights
    if weights is not None:
        given = weights.tolist() if hasattr(weights, "tolist") else list(weights)
        if len(given) != len(found.edges):
            raise ArgumentError(f"`weights` must have one for each of the {len(found.edges)} edges, not {len(given)}.")
    if vertices is None:
        return found._replace(weights=given)
    names = list(dict.fromkeys(vertices))
    missing = next((name for name in found.vertices if name not in set(names)), None)
    if missing is not None:
        raise ArgumentError(f"`vertices` must have each end of an edge, and {missing!r} is missing.")
    pairs = zip(*[iter(found.ends.tolist())] * 2)
    named = ((found.vertices[tail], found.vertices[head]) for tail, head in pairs)
    return GraphParts(names, found.edges, numbers_of(named, names), given)
