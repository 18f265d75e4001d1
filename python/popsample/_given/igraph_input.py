"""Graphs of igraph, which only a caller who passes one has imported."""

from __future__ import annotations

import numbers
import operator
import sys
from array import array
from collections.abc import Hashable, Sequence
from itertools import chain
from typing import Any

from .._errors.argument_errors import InputTypeError, NoWeightError
from .._results.results import Arrow
from .graph_parts import GraphParts
from .weights import attribute_name


class VertexNames(list[Hashable]):
    """The names of vertices, each of which may be asked for by its index too, as everywhere in igraph."""

    def index(self, vertex: Any, *bounds: Any) -> int:
        """Return the index of a vertex, from 0, by its name or its index. Raises ValueError if there is none."""
        is_index = isinstance(vertex, numbers.Integral) and not isinstance(vertex, bool)
        number = operator.index(vertex) if is_index else -1
        return number if 0 <= number < len(self) else super().index(vertex, *bounds)


def takes(graph: Any) -> bool:
    """Return whether it is a graph of igraph."""
    library = sys.modules.get("igraph")
    return library is not None and isinstance(graph, library.Graph)


def vertex_names(graph: Any) -> list[Hashable]:
    """Return the names of the vertices, if each has a string of its own as `name`, otherwise their indices, from 0."""
    names = graph.vs["name"] if "name" in graph.vs.attributes() else []
    if names and all(isinstance(name, str) for name in names) and len(set(names)) == len(names):
        return VertexNames(names)
    return list(range(graph.vcount()))


def read(graph: Any, weight: Any) -> GraphParts:
    """Return the parts of a graph: vertices by their names or otherwise by their indices, and edges by their indices.

    Raises InputTypeError if the graph is directed, NoWeightError, a KeyError, if its edges have no attribute
    `weight`, and OptionError if that is no name.
    """
    if graph.is_directed():
        raise InputTypeError("The graph must be undirected: pass graph.as_undirected().")
    if attribute_name(weight) is not None and weight not in graph.es.attributes():
        raise NoWeightError(weight)
    ends = array("I", chain.from_iterable(graph.get_edgelist()))
    weights = None if weight is None else graph.es[weight]
    return GraphParts(vertex_names(graph), range(graph.ecount()), ends, weights)


def directed(graph: Any, arrows: Sequence[Arrow]) -> Any:
    """Return the arrows as a directed graph, with the attributes of the graph."""
    igraph = sys.modules["igraph"]
    numbers = {name: number for number, name in enumerate(vertex_names(graph))}
    edges = [(numbers[arrow.tail], numbers[arrow.head]) for arrow in arrows]
    made = igraph.Graph(n=graph.vcount(), edges=edges, directed=True)
    for name in graph.attributes():
        made[name] = graph[name]
    for name in graph.vs.attributes():
        made.vs[name] = graph.vs[name]
    for name in graph.es.attributes():
        made.es[name] = [graph.es[arrow.edge][name] for arrow in arrows]
    return made
