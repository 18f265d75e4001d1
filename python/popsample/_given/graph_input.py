"""Graphs as they are passed: edge lists, adjacencies, files, and graphs of other libraries."""

from __future__ import annotations

import os
from collections.abc import Callable, Hashable, Iterable, Mapping, Sequence, Set
from dataclasses import dataclass
from functools import cached_property, partial
from pathlib import Path
from typing import Any

from .._errors.argument_errors import OptionError
from .._results.results import Arrow
from .adjacency import read_mapping, read_matrix
from .arguments import whole
from .edge_lists import read_edges, read_list
from .flat_numbers import Flat
from .foreign_graphs import library_of
from .graph_parts import GraphParts
from .graph_text import graph_text, read_ends
from .networkx_input import viewed_edges
from .subject import NUMBERS, Subject
from .text_input import file_text
from .weights import BITS, rounded_weights, whole_weights

Arrows = Sequence[Arrow]


@dataclass(frozen=True)
class GraphInput:
    """A graph that was read: names, the ends of the edges and weights by number, and the way back.

    `ends` is None if the graph is of a file that has errors, which the program finds. `directed` makes of arrows a
    directed graph of the library that the graph is of; it is None if there is no such library. `weight_error` is the
    greatest relative error of a weight that was rounded, and None if none was.
    """

    vertices: Sequence[Hashable]
    edges: Sequence[Hashable]
    ends: Flat | None
    weights: Flat | None = None
    directed: Callable[[Arrows], Any] | None = None
    source: bytes | None = None
    weight_error: float | None = None

    @cached_property
    def text(self) -> bytes:
        """The graph as the program reads it."""
        if self.source is not None or self.ends is None:
            return self.source or b""
        return graph_text(len(self.vertices), self.ends, self.weights)

    def subject(self, variables: Sequence[Hashable], root: Hashable = None) -> Subject:
        """Return the text, with the names of what is in it.

        Parameters
        ----------
        variables : sequence of hashable
            The names of the variables: of the vertices for trees, and of the edges for orientations.
        root : hashable, optional
            The root, as it was passed.

        Returns
        -------
        Subject
            The text, which is made when it is asked for.
        """
        return Subject(partial(getattr, self, "text"), self.vertices, variables, root)

    def vertex_count(self) -> int:
        """Return the number of vertices.

        Returns
        -------
        int
            The number; 1 if the graph is of a file that has errors.
        """
        return 1 if self.ends is None else len(self.vertices)

    def edge_count(self) -> int:
        """Return the number of edges.

        Returns
        -------
        int
            The number; 0 if the graph is of a file that has errors.
        """
        return 0 if self.ends is None else len(self.edges)


def read_graph(graph: Any, weight: Any = None, weight_bits: int | None = None) -> GraphInput:
    """Return the graph that was passed.

    `weight` names the attribute of the edges that has their weights, which are rounded to `weight_bits` bits if that is
    given.

    Raises InputTypeError if it is of a kind that isn't read, and ArgumentError if it can't be taken.
    """
    if isinstance(graph, GraphInput):
        for argument, value in (("weight", weight), ("weight_bits", weight_bits)):
            if value is not None:
                raise OptionError(argument, value, "passed to from_adjacency or from_edges")
        return graph
    library = library_of(graph)
    if library is not None:
        return made(library.read(graph, weight), weight_bits, partial(library.directed, graph))
    if isinstance(graph, (str, os.PathLike)):
        return read_text(file_text(Path(graph)))
    if isinstance(graph, Mapping) and isinstance(graph, Set):
        return made(read_list(viewed_edges(graph), weight, is_edges=True), weight_bits)
    if isinstance(graph, Mapping):
        return made(read_mapping(graph, weight), weight_bits)
    return made(read_list(graph, weight), weight_bits)


def read_text(text: bytes) -> GraphInput:
    """Return the graph of a text, in which vertices and edges are named by their numbers, from 1."""
    found = read_ends(text)
    if found is None:
        return GraphInput(NUMBERS, NUMBERS, None, source=text)
    edges = range(1, len(found.ends) // 2 + 1)
    return GraphInput(range(1, found.vertices + 1), edges, found.ends, found.weights, source=text)


def made(parts: GraphParts, bits: int | None = None, directed: Callable[[Arrows], Any] | None = None) -> GraphInput:
    """Return the graph of these parts, with weights that are exact, or rounded to so many bits."""
    vertices, edges, ends, given = parts
    if bits is not None:
        whole("weight_bits", bits, 1, BITS)
    if not given:
        return GraphInput(vertices, edges, ends, None, directed)
    if bits is None:
        return GraphInput(vertices, edges, ends, whole_weights(given, edges.__getitem__), directed)
    weights, error = rounded_weights(given, ends, bits, edges.__getitem__)
    return GraphInput(vertices, edges, ends, weights, directed, weight_error=error)


def from_adjacency(
    adjacency: Any,
    names: Sequence[Hashable] | None = None,
    weight: str | None = None,
    *,
    weight_bits: int | None = None,
) -> GraphInput:
    """Read the undirected graph of an adjacency matrix.

    Parameters
    ----------
    adjacency : array, list of lists, or dict
        A symmetric matrix of weights, in which 0 is no edge; or a dict of lists or of dicts.
    names : sequence of hashable, optional
        The names of the rows. Default: their numbers, from 0.
    weight : str, optional
        The attribute of the edges that has their weights, if `adjacency` is a dict.
    weight_bits : int, optional
        Round the weights, as `spanning_tree` does.

    Returns
    -------
    GraphInput
        A graph for each function that takes one. An edge is named by the pair of its ends.

    Raises
    ------
    ArgumentError
        If the matrix isn't square or symmetric, has a NaN, or `names` has another length.

    See Also
    --------
    from_edges

    Examples
    --------
    >>> import popsample
    >>> graph = popsample.from_adjacency([[0, 2], [2, 0]], names=["a", "b"])
    >>> popsample.spanning_tree(graph, root="a").parents
    {'b': 'a'}
    """
    if isinstance(adjacency, Mapping):
        return read_graph(adjacency, weight, weight_bits)
    if weight is not None:
        raise OptionError("weight", weight, "None for a matrix, whose entries are the weights")
    return made(read_matrix(adjacency, names), weight_bits)


def from_edges(
    edges: Any, weights: Any = None, vertices: Iterable[Hashable] | None = None, *, weight_bits: int | None = None
) -> GraphInput:
    """Read a graph from its edges, whatever the form of their list or array.

    Parameters
    ----------
    edges : iterable of pairs or triples, or array
        An edge in each row. Vertices count in the order in which they first occur.
    weights : sequence of numbers, optional
        A weight for each edge. Default: the third parts of the edges, or 1.
    vertices : iterable of hashable, optional
        The vertices in order, among which are all ends of edges.
    weight_bits : int, optional
        Round the weights, as `spanning_tree` does.

    Returns
    -------
    GraphInput
        A graph for each function that takes one. An edge is named by its place, from 0.

    Raises
    ------
    ArgumentError
        If an edge has another form, or `weights` or `vertices` don't fit.

    See Also
    --------
    from_adjacency

    Examples
    --------
    >>> import popsample
    >>> popsample.spanning_tree(popsample.from_edges([[0, 1], [1, 0]]), root=0).parents
    {1: 0}
    """
    return made(read_edges(edges, weights, vertices), weight_bits)
