"""Many samples as arrays of numpy, and as sparse ones of scipy, if these are installed.

Vertices, edges and variables are given by their places, from 0, in the sequences of names beside the arrays.
-1 is none.
"""

from __future__ import annotations

from collections.abc import Hashable, Iterator, Sequence
from dataclasses import dataclass
from typing import TYPE_CHECKING, Any

from .._engine.rows import Rows
from .conversions import imported

if TYPE_CHECKING:
    import numpy
    import scipy.sparse

    from .._given.graph_input import GraphInput

    Array = numpy.ndarray[Any, Any]


@dataclass(frozen=True, eq=False)
class TreeArrays:
    """Spanning trees, one in each row, with a column for each vertex.

    Attributes
    ----------
    vertices : sequence of hashable
        The names of the columns.
    edge_names : sequence of hashable
        The names of the graph's edges.
    parents : numpy.ndarray of int32
        The place of the next vertex on the way to the root; -1 at the root.
    edges : numpy.ndarray of int32
        The place of the edge to it; -1 at the root.
    used : numpy.ndarray of uint32
        How many of the vertex's values were passed; 0 at the root.
    pops : numpy.ndarray of int64
        The number of pops of each tree.
    samples : numpy.ndarray of int64
        The number of each tree under the key.
    weight_error : float or None
        The greatest relative error of a weight that ``weight_bits=`` rounded.
    """

    vertices: Sequence[Hashable]
    edge_names: Sequence[Hashable]
    parents: Array
    edges: Array
    used: Array
    pops: Array
    samples: Array
    weight_error: float | None = None

    def __len__(self) -> int:
        """Return the number of trees."""
        return len(self.pops)

    def __iter__(self) -> Iterator[dict[Hashable, Hashable]]:
        """Yield the parents of each tree, by their names."""
        return (self.tree(row) for row in range(len(self)))

    def tree(self, row: int) -> dict[Hashable, Hashable]:
        """Return the parents in the tree of a row, by their names.

        Parameters
        ----------
        row : int
            The row, from 0.

        Returns
        -------
        dict
            For each vertex but the root its parent.
        """
        names = self.vertices
        heads = enumerate(self.parents[row].tolist())
        return {names[tail]: names[head] for tail, head in heads if head >= 0}

    def incidence(self) -> scipy.sparse.csr_array:
        """Return which edges each tree has.

        Returns
        -------
        scipy.sparse.csr_array
            A row for each tree and a column for each edge: 1 if the edge is the tree's.
        """
        chosen = self.edges >= 0
        ends = chosen.sum(axis=1).cumsum()
        return sparse_rows(self.edges[chosen], ends, (len(self.edges), len(self.edge_names)))

    def adjacency(self, row: int) -> scipy.sparse.csr_array:
        """Return the arrows of the tree of a row.

        Parameters
        ----------
        row : int
            The row, from 0.

        Returns
        -------
        scipy.sparse.csr_array
            A row and a column for each vertex: 1 if an arrow leads from the one to the other.
        """
        chosen = self.parents[row] >= 0
        shape = (len(self.vertices), len(self.vertices))
        return sparse_rows(self.parents[row][chosen], chosen.cumsum(), shape)


@dataclass(frozen=True, eq=False)
class OrientationArrays:
    """Orientations without sinks, one in each row, with a column for each edge.

    Attributes
    ----------
    vertices : sequence of hashable
        The names of the vertices.
    edge_names : sequence of hashable
        The names of the columns.
    directions : numpy.ndarray of uint8
        0 if the edge points from its first end to its second, and else 1.
    tails, heads : numpy.ndarray of int32
        The place of the vertex that the edge leaves, and of the one to which it points.
    used : numpy.ndarray of uint32
        How many of the edge's values were passed.
    pops, samples : numpy.ndarray of int64
        As those of `TreeArrays`.
    """

    vertices: Sequence[Hashable]
    edge_names: Sequence[Hashable]
    directions: Array
    used: Array
    pops: Array
    samples: Array
    ends: Array

    def __len__(self) -> int:
        """Return the number of orientations."""
        return len(self.pops)

    @property
    def tails(self) -> Array:
        """The places of the vertices that the edges leave."""
        numpy = imported("numpy")
        chosen: Array = numpy.where(self.directions == 0, self.ends[:, 0], self.ends[:, 1])
        return chosen

    @property
    def heads(self) -> Array:
        """The places of the vertices to which the edges point."""
        numpy = imported("numpy")
        chosen: Array = numpy.where(self.directions == 0, self.ends[:, 1], self.ends[:, 0])
        return chosen


@dataclass(frozen=True, eq=False)
class AssignmentArrays:
    """Assignments, one in each row, with a column for each variable: the first is that of variable 1.

    Attributes
    ----------
    values : numpy.ndarray of bool
        Whether the variable is true.
    used : numpy.ndarray of uint32
        How many of its values were passed.
    pops : numpy.ndarray of int64
        The number of pops of each assignment; of a run by rounds the number of rounds.
    samples : numpy.ndarray of int64
        The number of each assignment under the key.
    """

    values: Array
    used: Array
    pops: Array
    samples: Array

    def __len__(self) -> int:
        """Return the number of assignments."""
        return len(self.pops)


def sparse_rows(columns: Array, ends: Array, shape: tuple[int, int]) -> scipy.sparse.csr_array:
    """Return a sparse array with ones in these columns, row by row, if a row ends before these places."""
    numpy, sparse = imported("numpy"), imported("scipy.sparse")
    starts = numpy.concatenate([[0], ends])
    return sparse.csr_array((numpy.ones(len(columns), dtype=numpy.int8), columns, starts), shape=shape)


def matrix(parts: Sequence[Rows], name: str, dtype: str, width: int) -> Array:
    """Return the numbers of this name in all rows, in a row for each sample."""
    numpy = imported("numpy")
    found = [numpy.frombuffer(getattr(part, name), dtype=dtype).reshape(part.count, width) for part in parts]
    if len(found) != 1:
        found = [numpy.concatenate([numpy.zeros((0, width), dtype=dtype), *found])]
    made: Array = found[0]
    return made


def counted(parts: Sequence[Rows]) -> tuple[Array, Array]:
    """Return the numbers of pops, and the numbers of the samples."""
    numpy = imported("numpy")
    numbers = [numpy.arange(part.first, part.first + part.count) for part in parts]
    return matrix(parts, "counts", "uint64", 2)[:, 0].astype("int64"), numpy.concatenate([*numbers, []]).astype("int64")


def tree_arrays(given: GraphInput, parts: Sequence[Rows]) -> TreeArrays:
    """Return the spanning trees in rows."""
    width = given.vertex_count()
    pops, samples = counted(parts)
    parents, edges = matrix(parts, "values", "int32", width), matrix(parts, "edges", "int32", width)
    used = matrix(parts, "used", "uint32", width)
    return TreeArrays(given.vertices, given.edges, parents, edges, used, pops, samples, given.weight_error)


def orientation_arrays(given: GraphInput, parts: Sequence[Rows]) -> OrientationArrays:
    """Return the orientations in rows."""
    numpy, width = imported("numpy"), given.edge_count()
    pops, samples = counted(parts)
    ends = numpy.asarray(given.ends if given.ends is not None else [], dtype="int32").reshape(-1, 2)
    directions, used = matrix(parts, "values", "uint8", width), matrix(parts, "used", "uint32", width)
    return OrientationArrays(given.vertices, given.edges, directions, used, pops, samples, ends)


def assignment_arrays(width: int, parts: Sequence[Rows]) -> AssignmentArrays:
    """Return the assignments of so many variables in rows."""
    pops, samples = counted(parts)
    values = matrix(parts, "values", "uint8", width).astype(bool)
    return AssignmentArrays(values, matrix(parts, "used", "uint32", width), pops, samples)
