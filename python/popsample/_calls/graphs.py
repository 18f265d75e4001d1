"""Spanning trees and orientations of graphs."""

from __future__ import annotations

import os
from collections.abc import Hashable, Iterable, Mapping, Sequence
from functools import partial
from typing import Any, TypeAlias, Union, Unpack

from .._engine.rows import Rows
from .._errors.argument_errors import EmptyGraphError, TreeComponentError
from .._given.components import tree_part
from .._given.flat_numbers import degrees
from .._given.graph_input import GraphInput, read_graph
from .._given.keys import Key, KeyLike, SeedLike
from .._given.problems import OrientationProblem, TreeProblem
from .._given.run_options import RunOptions
from .._given.subject import NUMBERS
from .._results.arrays import OrientationArrays, TreeArrays, orientation_arrays, tree_arrays
from .._results.results import Orientation, Tree
from ..errors import RootError
from .history import place_of
from .one_sample import one_sample
from .progress import Progress
from .sample_iterator import Executor, OnExhausted, Samples
from .series import series
from .target import Target

# What the functions take as a graph: a list of edges (pairs, or triples with a weight or a dict of attributes), an
# array of numpy with an edge in each row, a dict of lists or of dicts, the path of a graph file, what `from_adjacency`
# and `from_edges` return, or a graph of networkx, igraph, graph-tool or scipy.
GraphLike: TypeAlias = Union[
    Iterable[Sequence[Any]], Mapping[Hashable, Any], str, "os.PathLike[str]", GraphInput, Any
]


def spanning_tree(
    graph: GraphLike,
    root: Hashable = None,
    weight: Any = None,
    key: KeyLike | None = None,
    *,
    seed: SeedLike | None = None,
    sample: int = 0,
    weight_bits: int | None = None,
    **options: Unpack[RunOptions],
) -> Tree:
    """Draw a random spanning tree of a connected graph.

    Each spanning tree has a probability proportional to the product of its edges' weights. If all weights are equal,
    each has the same probability.

    Parameters
    ----------
    graph : GraphLike
        A connected undirected graph: a list of edges (pairs, or triples with a weight or a dict of attributes), an
        array with an edge in each row, or a dict of lists or of dicts. It may also be a graph of networkx, igraph or
        graph-tool, or a symmetric sparse matrix of scipy. The path of a graph file is read, and so is what `from_edges`
        or `from_adjacency` returns.
    root : hashable, optional
        The root of the tree. Default: the first vertex.
    weight : str, optional
        The attribute of the edges that has their weights (or an edge property map of graph-tool). Default: each edge
        weighs 1, unless the graph has weights of its own: the third parts of edges, or the entries of a matrix.
    key : str or bytes, optional
        64 hexadecimal digits or 32 bytes, from which all random values come. Default: a random key, which the result
        has.
    seed : int, bytes or generator, optional
        What makes the key: a non-negative integer, 32 bytes, a random.Random, or a Generator, RandomState or
        SeedSequence of numpy.
    sample : int
        The number of the sample under the key, from 0. Samples of different numbers are independent.
    weight_bits : int, optional
        Round real weights to integers of at most so many bits, from 1 to 32. The result has the greatest relative error
        of a weight as `weight_error`. Default: weights are exact, and `WeightError` is raised if they can't be.
    **options : RunOptions
        ``height``, ``timeout``, and what few callers need: see `RunOptions`.

    Returns
    -------
    Tree
        The tree, with ``parents``, ``edges``, ``arrows``, ``pops`` and the ``key`` that gives it again.

    Raises
    ------
    CutOffError
        If the graph is not connected.
    RootError
        If `root` is not a vertex.
    WeightError
        If weights aren't positive, or can't be scaled to integers up to 2**32 - 1.
    ExhaustedError
        If a stack of ``height`` values runs out.
    ArgumentError
        If an argument can't be taken. It is a ValueError, raised before anything runs.

    See Also
    --------
    spanning_trees : Many trees under one key.
    sink_free_orientation : An orientation in which an edge leaves each vertex.

    Notes
    -----
    Weights are positive numbers. Integers are taken as they are. If some are fractions or floats, all are scaled to
    integers in the same proportions. A float is the binary fraction that it is exactly, so 0.1 hardly fits:
    `weight_bits` rounds it.

    References
    ----------
    .. [1] J. G. Propp and D. B. Wilson, "How to get a perfectly random sample from a generic Markov chain and generate
       a random spanning tree of a directed graph", J. Algorithms 27(2), 1998.

    Examples
    --------
    >>> import popsample
    >>> triangle = [("a", "b"), ("b", "c"), ("a", "c")]
    >>> tree = popsample.spanning_tree(triangle, root="a", key="0" * 64)
    >>> sorted(tree.parents)
    ['b', 'c']
    >>> popsample.spanning_tree(triangle, root="a", key=tree.key) == tree
    True
    """
    target = tree_target(read_graph(graph, weight, weight_bits), root)
    return one_sample("spanning_tree", target, target.subject.vertices, key, seed, sample, options)


def spanning_trees(
    graph: GraphLike,
    count: int | None = None,
    root: Hashable = None,
    weight: Any = None,
    key: KeyLike | None = None,
    *,
    seed: SeedLike | None = None,
    first: int = 0,
    weight_bits: int | None = None,
    executor: Executor | None = None,
    progress: bool | Progress | None = None,
    on_exhausted: OnExhausted = "raise",
    height: int | None = None,
    timeout: float | None = None,
    ahead: int | None = None,
) -> Samples[Tree, TreeArrays]:
    """Draw many random spanning trees of a connected graph.

    Tree I is that of ``spanning_tree(graph, .., key=key, sample=I)``, whatever makes it.

    Parameters
    ----------
    graph : GraphLike
        As of `spanning_tree`.
    count : int, optional
        How many trees. Default: they don't end.
    root, weight, key, seed : object
        As of `spanning_tree`.
    first : int
        The number of the first tree under the key.
    weight_bits : int, optional
        As of `spanning_tree`.
    executor, progress, on_exhausted, height, timeout, ahead : object
        As of `samples`.

    Returns
    -------
    Samples
        An iterator over `Tree`. Its ``arrays()`` are all trees as `TreeArrays`.

    Raises
    ------
    ArgumentError, InputRefusal
        As `spanning_tree` does, before the first tree.

    See Also
    --------
    spanning_tree, samples

    Examples
    --------
    >>> import popsample
    >>> triangle = [("a", "b"), ("b", "c"), ("a", "c")]
    >>> trees = list(popsample.spanning_trees(triangle, 3, key="0" * 64))
    >>> [tree.sample for tree in trees]
    [0, 1, 2]
    >>> trees[2] == popsample.spanning_tree(triangle, key="0" * 64, sample=2)
    True
    """
    target = tree_target(read_graph(graph, weight, weight_bits), root)
    return series(target, count, key, seed, first, height, timeout, executor, ahead, progress, on_exhausted).begun()


def root_place(given: GraphInput, root: Hashable) -> int:
    """Return the place of the root of that name, or of the first vertex.

    Raises RootError if there is no such vertex.
    """
    place = 0 if root is None else place_of(root, given.vertices)
    if place == len(given.vertices) and given.vertices is not NUMBERS:
        raise RootError(root) if place else EmptyGraphError()
    return place


def tree_target(given: GraphInput, root: Hashable) -> Target[Tree, TreeArrays]:
    """Return the spanning trees of a graph with the root of that name."""
    place = root_place(given, root)
    subject = given.subject(given.vertices, root)
    problem = None if given.ends is None else TreeProblem(len(given.vertices), given.ends, given.weights, place)
    words = ("tree", "--root", str(place + 1))
    result, arrays = partial(tree_of, given, place), partial(tree_arrays, given)
    return Target(problem, subject, words, result, arrays, given.weight_error)


def tree_of(
    given: GraphInput, root: int, rows: Rows, row: int, key: Key | None, told: Mapping[str, Any] | None = None
) -> Tree:
    """Return the spanning tree of a row, in a graph with the root of that place."""
    return Tree(rows, row, key, given, root, told)


def sink_free_orientation(
    graph: GraphLike,
    key: KeyLike | None = None,
    *,
    seed: SeedLike | None = None,
    sample: int = 0,
    **options: Unpack[RunOptions],
) -> Orientation:
    """Draw a random orientation of a graph in which some edge leaves each vertex.

    Each such orientation has the same probability.

    Parameters
    ----------
    graph : GraphLike
        A graph, as of `spanning_tree`. Weights have no effect.
    key, seed, sample : object
        As of `spanning_tree`.
    **options : RunOptions
        ``height``, ``timeout``, and what few callers need: see `RunOptions`.

    Returns
    -------
    Orientation
        The orientation, with an arrow for each edge.

    Raises
    ------
    TreeComponentError
        If a connected component is a tree, which has a sink in each orientation.
    IsolatedError
        If a vertex has no edges.
    ExhaustedError
        If a stack of ``height`` values runs out.
    ArgumentError
        If an argument can't be taken.

    See Also
    --------
    sink_free_orientations : Many orientations under one key.

    References
    ----------
    .. [1] H. Cohn, R. Pemantle and J. G. Propp, "Generating a random sink-free orientation in quadratic time",
       Electronic J. Combinatorics 9(1), 2002.

    Examples
    --------
    >>> import popsample
    >>> found = popsample.sink_free_orientation([("a", "b"), ("b", "c"), ("a", "c")])
    >>> sorted({arrow.tail for arrow in found.arrows})
    ['a', 'b', 'c']
    """
    target = orientation_target(read_graph(graph))
    return one_sample("sink_free_orientation", target, target.subject.variables, key, seed, sample, options)


def sink_free_orientations(
    graph: GraphLike,
    count: int | None = None,
    key: KeyLike | None = None,
    *,
    seed: SeedLike | None = None,
    first: int = 0,
    executor: Executor | None = None,
    progress: bool | Progress | None = None,
    on_exhausted: OnExhausted = "raise",
    height: int | None = None,
    timeout: float | None = None,
    ahead: int | None = None,
) -> Samples[Orientation, OrientationArrays]:
    """Draw many random orientations of a graph in which some edge leaves each vertex.

    Orientation I is that of ``sink_free_orientation(graph, key=key, sample=I)``, whatever makes it.

    Parameters
    ----------
    graph : GraphLike
        As of `sink_free_orientation`.
    count : int, optional
        How many orientations. Default: they don't end.
    key, seed : object
        As of `sink_free_orientation`.
    first : int
        The number of the first orientation under the key.
    executor, progress, on_exhausted, height, timeout, ahead : object
        As of `samples`.

    Returns
    -------
    Samples
        An iterator over `Orientation`. Its ``arrays()`` are all of them as `OrientationArrays`.

    Raises
    ------
    ArgumentError, InputRefusal
        As `sink_free_orientation` does, before the first one.

    See Also
    --------
    sink_free_orientation, samples
    """
    target = orientation_target(read_graph(graph))
    return series(target, count, key, seed, first, height, timeout, executor, ahead, progress, on_exhausted).begun()


def orientation_target(given: GraphInput) -> Target[Orientation, OrientationArrays]:
    """Return the orientations of a graph without sinks.

    Raises TreeComponentError if a component of it is a tree with an edge, unless some vertex has none, which is told as
    it is found.
    """
    if given.ends is not None:
        part = tree_component(given)
        if part:
            raise TreeComponentError([given.vertices[number - 1] for number in part])
    subject = given.subject(given.edges)
    problem = None if given.ends is None else OrientationProblem(len(given.vertices), given.ends)
    result = partial(orientation_of, given)
    return Target(problem, subject, ("orient",), result, partial(orientation_arrays, given))


def tree_component(given: GraphInput) -> Sequence[int]:
    """Return the vertices, from 1, of the first component that is a tree.

    There are none if no component is a tree, or a vertex has no edges.
    """
    assert given.ends is not None
    counts = degrees(len(given.vertices), given.ends)
    # A tree has leaves. Most graphs have none, and aren't gone through further.
    if 0 in counts or 1 not in counts:
        return []
    ends = given.ends.tolist()
    return tree_part(len(given.vertices), [(tail + 1, head + 1) for tail, head in zip(ends[0::2], ends[1::2])])


def orientation_of(
    given: GraphInput, rows: Rows, row: int, key: Key | None, told: Mapping[str, Any] | None = None
) -> Orientation:
    """Return the orientation of a row, of a graph."""
    return Orientation(rows, row, key, given, told)
