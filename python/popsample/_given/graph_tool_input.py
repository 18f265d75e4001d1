"""Graphs of graph-tool, which only a caller who passes one has imported."""

from __future__ import annotations

import sys
from collections.abc import Sequence
from typing import Any

from .._errors.argument_errors import InputTypeError, NoWeightError, OptionError
from .._results.results import Arrow
from .flat_numbers import as_flat, numbers_of
from .graph_parts import GraphParts
from .weights import WANTED, is_hashable


def takes(graph: Any) -> bool:
    """Return whether it is a graph of graph-tool, or a view of one."""
    library = sys.modules.get("graph_tool")
    return library is not None and isinstance(graph, library.Graph)


def read(graph: Any, weight: Any) -> GraphParts:
    """Return the parts of a graph: vertices and edges named by their indices, from 0. What is filtered out is left out.

    `weight` is an edge property map of the graph, or the name of one. Raises InputTypeError if the graph is directed,
    OptionError if `weight` is neither, and NoWeightError, a KeyError, if no map has the name.
    """
    if graph.is_directed():
        raise InputTypeError("The graph must be undirected: pass graph_tool.GraphView(graph, directed=False).")
    rows = graph.get_edges([graph.edge_index])
    places = rows[:, 2]
    if len(places) > 1 and not bool((places[1:] > places[:-1]).all()):
        rows = rows[places.argsort()]
    names = rows[:, 2].tolist()
    weights = None
    if weight is not None:
        values = values_by_number(graph, property_map(graph, weight))
        weights = [values[name] for name in names]
    vertices = graph.get_vertices().tolist()
    if vertices and vertices[-1] == len(vertices) - 1:
        return GraphParts(vertices, names, as_flat(rows[:, :2], "uint32"), weights)
    return GraphParts(vertices, names, numbers_of(rows[:, :2].tolist(), vertices), weights)


def property_map(graph: Any, weight: Any) -> Any:
    """Return the edge property map of the graph that this is, or that has this name."""
    if isinstance(weight, sys.modules["graph_tool"].EdgePropertyMap):
        if base_of(weight.get_graph()) is base_of(graph):
            return weight
    elif is_hashable(weight):
        if weight in graph.edge_properties:
            return graph.edge_properties[weight]
        raise NoWeightError(weight)
    raise OptionError("weight", weight, f"{WANTED}, or an edge property map of the graph")


def base_of(graph: Any) -> Any:
    """Return the graph of which this is a view; itself if it is none."""
    while isinstance(graph, sys.modules["graph_tool"].GraphView):
        graph = graph.base
    return graph


def values_by_number(graph: Any, values: Any) -> Any:
    """Return the values of an edge property map, by the edges' indices: a list of numbers, else a dict."""
    numbers = values.get_array()
    if numbers is not None:
        return numbers.tolist()
    return {graph.edge_index[edge]: values[edge] for edge in graph.edges()}


def directed(graph: Any, arrows: Sequence[Arrow]) -> Any:
    """Return the arrows as a directed graph.

    It has the vertices, the filter of vertices and the property maps of the graph.
    """
    made = sys.modules["graph_tool"].Graph(directed=True)
    made.add_vertex(graph.num_vertices(ignore_filter=True))
    number = made.new_edge_property("int64_t")
    if arrows:
        made.add_edge_list([(arrow.tail, arrow.head, arrow.edge) for arrow in arrows], eprops=[number])
    for name, values in graph.graph_properties.items():
        made.graph_properties[name] = made.new_graph_property(values.value_type(), graph.graph_properties[name])
    for name, values in graph.vertex_properties.items():
        made.vertex_properties[name] = made.own_property(values.copy())
    for name, values in graph.edge_properties.items():
        made.edge_properties[name] = carried(made, number, values_by_number(graph, values), values.value_type())
    if graph.num_vertices() < made.num_vertices():
        hide_all_but(made, graph.get_vertices())
    return made


def carried(made: Any, number: Any, values: Any, kind: str) -> Any:
    """Return the property map of the made graph whose edges have the values of the edges of these numbers."""
    map_made = made.new_edge_property(kind)
    for edge in made.edges():
        map_made[edge] = values[number[edge]]
    return map_made


def hide_all_but(made: Any, vertices: Sequence[int]) -> None:
    """Filter out out all vertices but these."""
    shown = made.new_vertex_property("bool", False)
    for vertex in vertices:
        shown[vertex] = True
    made.set_vertex_filter(shown)
