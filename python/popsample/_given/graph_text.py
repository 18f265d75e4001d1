"""The edges in the text of a graph, by their numbers."""

from __future__ import annotations

from array import array
from collections.abc import Sequence
from dataclasses import dataclass

from .flat_numbers import Flat
from .text_input import has_plain_blanks

# The first words of lines that are passed over; so are those that begin with c.
PASSED_OVER = (b"n", b"d", b"v", b"x")
# The greatest numbers of vertices and of edges, and the greatest weight.
VERTICES, EDGES, WEIGHT = 4194304, 8388608, 2**32 - 1


@dataclass(frozen=True)
class Ends:
    """How many vertices there are, the two ends of each edge, from 0, and the weights, if not all are 1."""

    vertices: int
    ends: Flat
    weights: Flat | None


def number(word: bytes) -> int:
    """Return the number that a word is. Raises ValueError if it is none."""
    if not word.isdigit() or len(word) > 10:
        raise ValueError(word)
    return int(word)


def edge_of(row: Sequence[bytes], vertices: int) -> tuple[int, int, int]:
    """Return the ends and the weight of the edge in a line. Raises ValueError if there is none, or its weight is 0."""
    if row[0] != b"e" or len(row) not in (3, 4):
        raise ValueError(row)
    tail, head, weight = number(row[1]), number(row[2]), number(row[3]) if len(row) == 4 else 1
    if not (0 < tail <= vertices and 0 < head <= vertices and 0 < weight <= WEIGHT):
        raise ValueError(row)
    return tail, head, weight


def read_ends(text: bytes) -> Ends | None:
    """Return the edges of a text; None if the program would reject it, which says more about it."""
    split = (line.split() for line in text.split(b"\n"))
    rows = [row for row in split if row and row[0] not in PASSED_OVER and row[0][:1] != b"c"]
    if not has_plain_blanks(text) or not rows or len(rows[0]) != 4:
        return None
    if rows[0][:2] not in ([b"p", b"edge"], [b"p", b"col"]):
        return None
    try:
        vertices, _ = number(rows[0][2]), number(rows[0][3])
        edges = [edge_of(row, vertices) for row in rows[1:]]
    except ValueError:
        return None
    if vertices > VERTICES or len(edges) > EDGES:
        return None
    ends = array("I", [end - 1 for tail, head, _ in edges for end in (tail, head)])
    weights = None if all(weight == 1 for _, _, weight in edges) else array("I", [edge[2] for edge in edges])
    return Ends(vertices, ends, weights)


def graph_text(vertices: int, ends: Flat, weights: Flat | None) -> bytes:
    """Return the text of a graph."""
    # As text, so that each is written once and not for every edge.
    numbers, flat = [str(place + 1) for place in range(vertices)], ends.tolist()
    pairs = zip(flat[0::2], flat[1::2])
    if weights is None:
        lines = [f"e {numbers[tail]} {numbers[head]} 1" for tail, head in pairs]
    else:
        weighed = zip(pairs, weights.tolist())
        lines = [f"e {numbers[tail]} {numbers[head]} {weight}" for (tail, head), weight in weighed]
    return "\n".join([f"p edge {vertices} {len(lines)}", *lines, ""]).encode()
