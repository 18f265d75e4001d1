"""What the functions return. Each result keeps the numbers of its sample, and makes names of them when it is asked."""

from __future__ import annotations

from collections.abc import Hashable, Iterator, Mapping, Sequence
from dataclasses import dataclass
from functools import cached_property
from typing import TYPE_CHECKING, Any, ClassVar, NamedTuple, TypeVar

from .._engine.rows import Rows
from .._given.flat_numbers import NONE
from .conversions import (
    ORIENTATION_DIRECTIONS,
    TREE_DIRECTIONS,
    graph_tool_of,
    igraph_of,
    networkx_of,
    scipy_of,
)
from .drawing import draw
from .tree_layout import Place

if TYPE_CHECKING:
    from .._given.graph_input import GraphInput
    from .._given.keys import Key

# An edge as it is passed: its two ends, its weight, and what names it.
Edge = tuple[Hashable, Hashable, Any, Hashable]
Self = TypeVar("Self", bound="Sample")

# How much of a key a short text of a result shows.
SHOWN = 8


class Arrow(NamedTuple):
    """A directed edge.

    Attributes
    ----------
    tail, head : hashable
        The vertex that it leaves, and the vertex to which it points.
    edge : hashable
        The name of the edge. In an edge list this is its place, from 0, and in a file its number, from 1. A networkx
        graph has the pair of its ends, or the triple with its key, an igraph or graph-tool graph has its index, and a
        matrix the pair of its row and column.
    """

    tail: Hashable
    head: Hashable
    edge: Any


class Pop(NamedTuple):
    """A pop.

    Attributes
    ----------
    event : hashable
        The number of the clause that was false, the vertex to which all its edges pointed, or the first vertex of the
        cycle.
    entries : dict
        For each variable of the event the place of the value that was used, from 0.
    layer : int
        1 more than the greatest layer of the earlier pops that share a variable with this one; 1 if none does.
    """

    event: Hashable
    entries: dict[Hashable, int]
    layer: int


class WitnessVertex(NamedTuple):
    """A vertex of a witness tree: its depth, its event, and the values that this demands of its variables."""

    depth: int
    event: Hashable
    values: dict[Hashable, int]


class Totals(NamedTuple):
    """How many records the log has, how many values they used together, and how many the longest used."""

    records: int
    entries: int
    longest: int


class Layers(NamedTuple):
    """The greatest layer of a log, and how many variables were popped."""

    greatest: int
    variables: int


class History:
    """What was asked of a run's log; None if it wasn't.

    Attributes
    ----------
    log : tuple of Pop or None
        The pops by rising layer.
    witness : tuple of WitnessVertex or None
        The vertices of a witness tree in preorder; empty if no pop used that value.
    totals : Totals or None
        How many records and values the log has.
    heights : tuple of int or None
        At each place, from 0, how many of the popped values have a number of so many binary digits.
    layers : Layers or None
        The greatest layer, and how many variables were popped.
    """

    log: tuple[Pop, ...] | None = None
    witness: tuple[WitnessVertex, ...] | None = None
    totals: Totals | None = None
    heights: tuple[int, ...] | None = None
    layers: Layers | None = None


class Sample(History):
    """A sample in a row of numbers. It can't be changed, equals each equal sample whatever its key, and has a hash.

    Attributes
    ----------
    key : Key or None
        The key that it came from; None if rows of values were given.
    sample : int
        Its number under the key, from 0.
    """

    key: Key | None
    sample: int
    _rows: Rows
    _row: int

    def __init__(self, rows: Rows, row: int, key: Key | None, told: Mapping[str, Any] | None = None) -> None:
        """Make the sample of a row; `told` is what was printed of its log."""
        # A dict takes them without asking __setattr__, which refuses all.
        self.__dict__.update(_rows=rows, _row=row, key=key, sample=rows.first + row)
        if told:
            self.__dict__.update(told)

    def __setattr__(self, name: str, value: Any) -> None:
        """Raise AttributeError."""
        raise AttributeError(f"a {type(self).__name__} can't be changed")

    def __delattr__(self, name: str) -> None:
        """Raise AttributeError."""
        raise AttributeError(f"a {type(self).__name__} can't be changed")

    def _same(self) -> Any:
        """Return what makes samples equal."""
        raise NotImplementedError

    def __eq__(self, other: object) -> bool:
        """Return whether both are the same sample."""
        if not isinstance(other, Sample) or type(other) is not type(self):
            return NotImplemented
        return bool(self._same() == other._same())

    def __hash__(self) -> int:
        """Return the hash of the sample."""
        return hash(self._same())

    def __getstate__(self) -> dict[str, Any]:
        """Return what a copy needs: of the rows this one alone."""
        kept = {name: value for name, value in vars(self).items() if name not in MADE}
        return {**kept, "_rows": self._rows.only(self._row), "_row": 0}

    def __setstate__(self, state: dict[str, Any]) -> None:
        """Take what a copy needs."""
        self.__dict__.update(state)

    def _ending(self) -> str:
        """Return what the short text of each result ends in."""
        return f"sample={self.sample}, key={'None' if self.key is None else self.key[:SHOWN] + '..'}"

    @property
    def pops(self) -> int | None:
        """How many pops there were."""
        return self._rows.pops(self._row)


# What is made when it is first asked for, and isn't copied.
MADE = frozenset({"graph", "arrows", "parents", "edges", "edge_indices", "used", "literals"})


class GraphSample(Sample):
    """A sample of a graph, of which each chosen edge is an arrow."""

    _given: GraphInput
    # The directions of conversions: first that of the arrows.
    _directions: ClassVar[tuple[str, ...]] = TREE_DIRECTIONS

    def __init__(
        self, rows: Rows, row: int, key: Key | None, given: GraphInput, told: Mapping[str, Any] | None = None
    ) -> None:
        """Make the sample of a row, of this graph."""
        self.__dict__.update(_rows=rows, _row=row, key=key, sample=rows.first + row, _given=given)
        if told:
            self.__dict__.update(told)

    def _numbers(self) -> tuple[Sequence[int], Sequence[int], Sequence[int]]:
        """Return the tails, the heads and the edges of the arrows, by number."""
        raise NotImplementedError

    def _same(self) -> Any:
        return self.arrows

    @cached_property
    def arrows(self) -> tuple[Arrow, ...]:
        """The arrows, in the order of the vertices of a tree, or of the edges of an orientation."""
        tails, heads, edges = self._numbers()
        vertex, edge = self._given.vertices.__getitem__, self._given.edges.__getitem__
        return tuple(map(Arrow, map(vertex, tails), map(vertex, heads), map(edge, edges)))

    @cached_property
    def edge_indices(self) -> tuple[int, ...]:
        """The places of the arrows' edges among the edges of the graph, from 0."""
        return tuple(self._numbers()[2])

    @cached_property
    def edges(self) -> tuple[tuple[Hashable, Hashable], ...]:
        """The ends of the arrows' edges, as pairs in the order in which the graph has them."""
        ends, vertices = self._given.ends, self._given.vertices
        assert ends is not None
        places = self._numbers()[2]
        return tuple((vertices[int(ends[2 * place])], vertices[int(ends[2 * place + 1])]) for place in places)

    @cached_property
    def graph(self) -> Any:
        """The arrows as a directed graph of the library that the graph is of, with its attributes.

        It is None for an edge list or a file, and made when it is first asked for.
        """
        return None if self._given.directed is None else self._given.directed(self.arrows)

    @property
    def weight_error(self) -> float | None:
        """The greatest relative error of a weight that ``weight_bits=`` rounded; None if no weight was rounded."""
        return self._given.weight_error

    def to_networkx(self, direction: str | None = None) -> Any:
        """Return the arrows as a graph of networkx.

        Parameters
        ----------
        direction : {"to_root", "from_root", "undirected"}, optional
            Whether edges point as the arrows do, the other way round, or not at all. For an orientation it is "to_head"
            or "undirected". Default: as the arrows do.

        Returns
        -------
        networkx.DiGraph, networkx.MultiDiGraph or networkx.Graph
            All vertices, and an edge for each arrow, with the attributes of the graph if it is of networkx, and else
            with its name as ``edge``. It is a multigraph if some arrows have the same ends.

        Raises
        ------
        OptionError
            If `direction` is none of these.
        NotInstalledError
            If networkx isn't installed.

        Examples
        --------
        >>> import networkx, popsample  # doctest: +SKIP
        >>> tree = popsample.spanning_tree(networkx.petersen_graph(), root=0)  # doctest: +SKIP
        >>> networkx.is_arborescence(tree.to_networkx(direction="from_root"))  # doctest: +SKIP
        True
        """
        return networkx_of(self, direction)

    def to_igraph(self, direction: str | None = None) -> Any:
        """Return the arrows as a graph of igraph, whose vertices have the attribute ``name``.

        Parameters
        ----------
        direction : {"to_root", "from_root", "undirected"}, optional
            As of `to_networkx`.

        Returns
        -------
        igraph.Graph
            All vertices in order, and an edge for each arrow, with its name as ``edge``.

        Raises
        ------
        OptionError
            If `direction` is none of these.
        NotInstalledError
            If igraph isn't installed.
        """
        return igraph_of(self, direction)

    def to_graph_tool(self, direction: str | None = None) -> Any:
        """Return the arrows as a graph of graph-tool.

        Parameters
        ----------
        direction : {"to_root", "from_root", "undirected"}, optional
            As of `to_networkx`.

        Returns
        -------
        graph_tool.Graph
            All vertices in order, whose names are the vertex property map ``name``, and an edge for each arrow, whose
            place among the graph's edges is the edge property map ``edge``.

        Raises
        ------
        OptionError
            If `direction` is none of these.
        NotInstalledError
            If graph-tool isn't installed.
        """
        return graph_tool_of(self, direction)

    def to_scipy(self, direction: str | None = None) -> Any:
        """Return the arrows as a sparse array of scipy.

        Parameters
        ----------
        direction : {"to_root", "from_root", "undirected"}, optional
            As of `to_networkx`.

        Returns
        -------
        scipy.sparse.csr_array
            A row and a column for each vertex, in order. The entry in row I and column J is the number of arrows from
            vertex I to vertex J, in that direction. With "undirected" it is symmetric.

        Raises
        ------
        OptionError
            If `direction` is none of these.
        NotInstalledError
            If scipy isn't installed.
        """
        return scipy_of(self, direction)


class Tree(GraphSample):
    """A rooted spanning tree.

    Attributes
    ----------
    root : hashable
        The root.
    parents : dict
        For each other vertex the next vertex on the way to the root.
    arrows : tuple of Arrow
        An arrow for each vertex but the root, along which the way to the root goes on.
    edges : tuple of pairs
        The ends of the tree's edges, as the graph has them.
    edge_indices : tuple of int
        The places of the tree's edges among the edges of the graph, from 0.
    used : dict
        For each vertex but the root how many of its values were passed.
    pops : int
        How many cycles were popped.
    key : Key or None
        The key that it came from; None if rows of values were given.
    sample : int
        Its number under the key, from 0.
    weight_error : float or None
        The greatest relative error of a weight that ``weight_bits=`` rounded.
    graph : object
        The arrows as a directed graph of the library that the graph is of, made when it is first asked for.

    Notes
    -----
    Two trees are equal if they have the same root and the same edges, whatever their keys.
    """

    _root: int

    def __init__(
        self,
        rows: Rows,
        row: int,
        key: Key | None,
        given: GraphInput,
        root: int,
        told: Mapping[str, Any] | None = None,
    ) -> None:
        """Make the tree of a row, of this graph, whose root has this place."""
        # As the classes above do, in one step, since a series makes many.
        self.__dict__.update(_rows=rows, _row=row, key=key, sample=rows.first + row, _given=given, _root=root)
        if told:
            self.__dict__.update(told)

    def _numbers(self) -> tuple[Sequence[int], Sequence[int], Sequence[int]]:
        heads, edges, root = self._rows.value_row(self._row), self._rows.edge_row(self._row), self._root
        tails = [*range(root), *range(root + 1, len(heads))]
        return tails, [*heads[:root], *heads[root + 1 :]], [*edges[:root], *edges[root + 1 :]]

    def _same(self) -> Any:
        return self.root, self.arrows

    @property
    def root(self) -> Hashable:
        """The root."""
        return self._given.vertices[self._root]

    @cached_property
    def parents(self) -> dict[Hashable, Hashable]:
        """For each vertex but the root the next vertex on the way to the root."""
        names = self._given.vertices
        heads = self._rows.value_row(self._row).tolist()
        return {names[tail]: names[head] for tail, head in enumerate(heads) if head != NONE}

    @cached_property
    def used(self) -> dict[Hashable, int]:
        """For each vertex but the root how many of its values were passed."""
        names = self._given.vertices
        counts = enumerate(self._rows.used_row(self._row))
        return {names[place]: count for place, count in counts if place != self._root}

    def __repr__(self) -> str:
        """Return a short text."""
        return f"<Tree of {self._rows.width} vertices, root={self.root!r}, pops={self.pops}, {self._ending()}>"

    def draw(
        self, axes: Any = None, positions: Mapping[Hashable, Place] | None = None, names: bool | None = None
    ) -> Any:
        """Draw the tree by matplotlib, with arrows to its root.

        Parameters
        ----------
        axes : matplotlib.axes.Axes, optional
            Where to draw. Default: the current axes.
        positions : mapping of hashable to pair of float, optional
            The place of each vertex. Default: the root is on top.
        names : bool, optional
            Whether vertices are named. Default: in a tree of at most 60 vertices.

        Returns
        -------
        matplotlib.axes.Axes
            The axes.

        Raises
        ------
        KeyError
            If a vertex has no place.
        NotInstalledError
            If matplotlib isn't installed.
        """
        return draw(self, axes, positions, names)


class Orientation(GraphSample):
    """An orientation in which some edge leaves each vertex.

    Attributes
    ----------
    arrows : tuple of Arrow
        The arrow of each edge, in order.
    used : dict
        For each edge, by its name, how many of its values were passed.
    pops : int
        How many sinks were popped.
    key, sample, graph, edges, edge_indices : object
        As those of a `Tree`.
    """

    _directions = ORIENTATION_DIRECTIONS

    def _numbers(self) -> tuple[Sequence[int], Sequence[int], Sequence[int]]:
        ends, values = self._given.ends, self._rows.value_row(self._row)
        assert ends is not None
        firsts, seconds = ends[0::2].tolist(), ends[1::2].tolist()
        tails = [second if value else first for first, second, value in zip(firsts, seconds, values)]
        heads = [first if value else second for first, second, value in zip(firsts, seconds, values)]
        return tails, heads, range(len(values))

    @cached_property
    def used(self) -> dict[Hashable, int]:
        """For each edge how many of its values were passed."""
        return dict(zip(self._given.edges, self._rows.used_row(self._row)))

    def __repr__(self) -> str:
        """Return a short text."""
        vertices = len(self._given.vertices)
        return f"<Orientation of {self._rows.width} edges, {vertices} vertices, pops={self.pops}, {self._ending()}>"


class Assignment(Sample, Mapping[int, bool]):
    """A satisfying assignment: a mapping of each variable, from 1, to whether it is true.

    Attributes
    ----------
    literals : tuple of int
        For each variable its number if it is true, and else the negative of it.
    used : dict
        For each variable how many of its values were passed.
    pops : int or None
        How many clauses were popped; None of a run by rounds.
    rounds : int or None
        How many rounds there were; None of any other run.
    key, sample : object
        As those of a `Tree`.

    Notes
    -----
    Two assignments are equal if all variables have the same values, whatever their keys.

    Examples
    --------
    >>> import popsample
    >>> found = popsample.solution([[1], [-2]])
    >>> found[1], found[2], len(found)
    (True, False, 2)
    >>> dict(found)
    {1: True, 2: False}
    """

    _by_rounds: bool

    def __init__(
        self,
        rows: Rows,
        row: int,
        key: Key | None,
        by_rounds: bool = False,
        told: Mapping[str, Any] | None = None,
    ) -> None:
        """Make the assignment of a row, of a run by rounds or by popping."""
        self.__dict__.update(_rows=rows, _row=row, key=key, sample=rows.first + row, _by_rounds=by_rounds)
        if told:
            self.__dict__.update(told)

    @cached_property
    def literals(self) -> tuple[int, ...]:
        """For each variable its number if it is true, and else the negative of it."""
        values = enumerate(self._rows.value_row(self._row), 1)
        return tuple(number if value else -number for number, value in values)

    @cached_property
    def used(self) -> dict[int, int]:
        """For each variable how many of its values were passed."""
        return dict(enumerate(self._rows.used_row(self._row), 1))

    @property
    def pops(self) -> int | None:
        """How many clauses were popped; None of a run by rounds."""
        return None if self._by_rounds else self._rows.pops(self._row)

    @property
    def rounds(self) -> int | None:
        """How many rounds there were; None of any other run."""
        return self._rows.pops(self._row) if self._by_rounds else None

    def _same(self) -> Any:
        return self.literals

    def __eq__(self, other: object) -> bool:
        """Return whether both are the same sample."""
        if isinstance(other, Assignment):
            return self.literals == other.literals
        if not isinstance(other, Mapping):
            return NotImplemented
        return dict(self) == dict(other)

    __hash__ = Sample.__hash__

    def __getitem__(self, variable: int) -> bool:
        """Return whether the variable, from 1, is true. Raise KeyError if there is no such variable."""
        is_number = hasattr(variable, "__index__") and not isinstance(variable, bool)
        if not is_number or not 1 <= variable <= self._rows.width:
            raise KeyError(variable)
        return bool(self._rows.values[self._row * self._rows.width + variable - 1])

    def __iter__(self) -> Iterator[int]:
        """Return an iterator over the variables, from 1."""
        return iter(range(1, self._rows.width + 1))

    def __len__(self) -> int:
        """Return the number of variables."""
        return self._rows.width

    def __repr__(self) -> str:
        """Return a short text."""
        counted = f"rounds={self.rounds}" if self._by_rounds else f"pops={self.pops}"
        return f"<Assignment of {self._rows.width} variables, {counted}, {self._ending()}>"


@dataclass(frozen=True)
class Replayed:
    """How far the log of a certificate leads.

    Attributes
    ----------
    pops : int
        The number of its records.
    used : dict
        For each variable how many of its values they popped.
    end : str
        ``sample`` or ``exhausted`` if the run is at such an end, and else ``open``: an event can still be popped.
    key : Key or None
        The key of the run; None if rows of values were given.
    """

    pops: int
    used: dict[Hashable, int]
    end: str
    key: Key | None
