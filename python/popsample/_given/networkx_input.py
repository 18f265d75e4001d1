"""Graphs of networkx, which only a caller who passes one has imported."""

from __future__ import annotations

import sys
from array import array
from collections.abc import Collection, Hashable, Iterator, Sequence
from itertools import chain, repeat
from typing import Any

from .._errors.argument_errors import InputTypeError
from .._results.results import Arrow, Edge
from .flat_numbers import Flat, numbers_of, numpy_module
from .graph_parts import GraphParts, parts_of
from .weights import attribute_name, attribute_weights


def takes(graph: Any) -> bool:
    """Return whether it is a graph of networkx."""
    library = sys.modules.get("networkx")
    return library is not None and isinstance(graph, library.Graph)


def read(graph: Any, weight: Any) -> GraphParts:
    """Return the parts of a graph. An edge's name is the pair of its ends, or the triple with its key.

    An edge without the attribute `weight` has the weight 1, as elsewhere in networkx, if others have it. Raises
    NoWeightError, a KeyError, if no edge has it, and InputTypeError if the graph is directed.
    """
    if graph.is_directed():
        raise InputTypeError("The graph must be undirected: pass graph.to_undirected().")
    vertices = list(graph.nodes)
    if attribute_name(weight) is not None:
        return parts_of(vertices, attribute_weights(read_edges(graph), weight))
    if graph.is_multigraph():
        names = list(graph.edges(keys=True))
        return GraphParts(vertices, names, numbers_of((edge[:2] for edge in names), vertices), None)
    ends = adjacent_ends([neighbours for _, neighbours in graph.adjacency()], vertices)
    return GraphParts(vertices, EndNames(vertices, ends), ends, None)


def adjacent_ends(adjacency: Sequence[Collection[Hashable]], vertices: Sequence[Hashable]) -> Flat:
    """Return the ends of the edges by number, in the order of networkx: each edge is at its end that comes first."""
    number = dict(zip(vertices, range(len(vertices))))
    heads = array("I", map(number.__getitem__, chain.from_iterable(adjacency)))
    numpy = numpy_module()
    if numpy is not None:
        others = numpy.frombuffer(heads, numpy.uint32)
        tails = numpy.repeat(numpy.arange(len(vertices), dtype=numpy.uint32), list(map(len, adjacency)))
        is_first = others >= tails
        return numpy.column_stack([tails[is_first], others[is_first]]).reshape(-1)
    tails = chain.from_iterable(repeat(place, len(beside)) for place, beside in enumerate(adjacency))
    return array("I", chain.from_iterable((tail, head) for tail, head in zip(tails, heads) if head >= tail))


class EndNames(Sequence[Hashable]):
    """The names of edges that are the pairs of their ends, each made when it is asked for."""

    def __init__(self, vertices: Sequence[Hashable], ends: Flat) -> None:
        self.vertices, self.ends = vertices, ends

    def __len__(self) -> int:
        """Return the number of edges."""
        return len(self.ends) // 2

    def __getitem__(self, place: Any) -> Any:
        """Return the name at a place, or those of a slice."""
        if isinstance(place, slice):
            return [self[each] for each in range(*place.indices(len(self)))]
        at = range(len(self))[place]
        return self.vertices[self.ends[2 * at]], self.vertices[self.ends[2 * at + 1]]

    def __eq__(self, other: object) -> bool:
        """Return whether the other has the same names."""
        return isinstance(other, Sequence) and list(self) == list(other)

    __hash__ = None  # type: ignore[assignment]


def read_edges(graph: Any) -> Iterator[Edge]:
    """Return the edges in the graph's order: two ends, the attributes in the weight's place, and a name."""
    named = {"keys": True} if graph.is_multigraph() else {}
    for *edge, attributes in graph.edges(data=True, **named):
        yield edge[0], edge[1], attributes, tuple(edge)


def viewed_edges(view: Any) -> list[tuple[Any, ...]]:
    """Return the edges of a view of them, as `graph.edges` is: two ends, and the attributes.

    Raises InputTypeError if it is another view, as one of vertices or of the edges of a directed graph.
    """
    kinds = sys.modules.get("networkx.classes.reportviews")
    if kinds is None or not isinstance(view, (kinds.EdgeView, kinds.MultiEdgeView)):
        raise InputTypeError(
            f"A view must be of the edges of an undirected graph, not {type(view).__name__}: pass the graph itself."
        )
    return [(*edge[:2], view[edge]) for edge in view]


def directed(graph: Any, arrows: Sequence[Arrow]) -> Any:
    """Return the arrows as a DiGraph, or as a MultiDiGraph of a multigraph, with the attributes of the graph."""
    networkx = sys.modules["networkx"]
    made = networkx.MultiDiGraph() if graph.is_multigraph() else networkx.DiGraph()
    made.graph.update(graph.graph)
    made.add_nodes_from(graph.nodes(data=True))
    made.add_edges_from((tail, head, *edge[2:], graph.edges[edge]) for tail, head, edge in arrows)
    return made
