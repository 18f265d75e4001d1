"""Sparse matrices of scipy, which only a caller who passes one has imported."""

from __future__ import annotations

import sys
from collections.abc import Sequence
from typing import Any

from .._errors.argument_errors import ArgumentError, OptionError
from .._results.results import Arrow
from .flat_numbers import as_flat
from .graph_parts import GraphParts


def takes(graph: Any) -> bool:
    """Return whether it is a sparse matrix or array of scipy, of any format."""
    library = sys.modules.get("scipy.sparse")
    return library is not None and library.issparse(graph)


def read(matrix: Any, weight: Any) -> GraphParts:
    """Return the parts of a matrix.

    Vertices are the numbers of the rows, from 0. There is an edge for each entry on or above the diagonal.

    The entry is its weight, and an entry of 0 is no edge. Its name is the pair of its row and its column. Raises
    ArgumentError if the matrix isn't symmetric, and OptionError if `weight` names an attribute.
    """
    if weight is not None:
        raise OptionError("weight", weight, "None for a matrix, whose entries are the weights")
    upper = sys.modules["scipy.sparse"].triu(entries_of(matrix), format="coo")
    numpy = sys.modules["numpy"]
    chosen = upper.data != 0
    rows, columns, data = upper.row[chosen], upper.col[chosen], upper.data[chosen]
    ends = as_flat(numpy.stack([rows, columns], axis=1), "uint32")
    weights = None if len(data) and bool((data == 1).all()) else data.tolist()
    return GraphParts(range(matrix.shape[0]), list(zip(rows.tolist(), columns.tolist())), ends, weights)


def entries_of(matrix: Any) -> Any:
    """Return the matrix by rows, with one entry for each place.

    Raises ArgumentError if it isn't square and symmetric, or has a NaN.
    """
    rows, columns = matrix.shape
    if rows != columns:
        raise ArgumentError(f"An adjacency matrix must be square, and this one has {rows} rows and {columns} columns.")
    entries = sys.modules["scipy.sparse"].csr_matrix(matrix, copy=True)
    entries.sum_duplicates()
    unequal = entries.data != entries.data
    if unequal.any():
        raise ArgumentError(f"The matrix must have no NaN, and has {int(unequal.sum())} of them.")
    if (entries != entries.T).nnz:
        raise ArgumentError(
            "The matrix must be symmetric, since its graph is directed otherwise: pass matrix.maximum(matrix.T)."
        )
    return entries


def directed(matrix: Any, arrows: Sequence[Arrow]) -> Any:
    """Return the arrows as a matrix of the same format, kind of entries and shape.

    The weight of an edge is in the row of the vertex that it leaves, and in the column of that to which it points.
    """
    sparse = sys.modules["scipy.sparse"]
    entries = entries_of(matrix)
    tails, heads = [arrow.tail for arrow in arrows], [arrow.head for arrow in arrows]
    values = entries[tails, heads].A1 if arrows else []
    kind = sparse.coo_array if type(matrix).__name__.endswith("_array") else sparse.coo_matrix
    return kind((values, (tails, heads)), shape=matrix.shape, dtype=matrix.dtype).asformat(matrix.format)
