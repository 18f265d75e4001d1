"""Connected parts that are trees: the events of such a part are one more than its variables, so some one occurs."""

from __future__ import annotations

from collections.abc import Iterable, Iterator, Sequence

Pair = tuple[int, int]


def find(above: list[int], vertex: int) -> int:
    """Return the vertex that represents a connected part (disjoint sets, with path halving)."""
    while above[vertex] != vertex:
        above[vertex] = above[above[vertex]]
        vertex = above[vertex]
    return vertex


def heads_of_parts(vertices: int, pairs: Iterable[Pair]) -> tuple[list[int], list[int]]:
    """Return for each vertex, from 1, the one that represents its part, and the edges of each part."""
    above = list(range(vertices + 1))
    edges = [0] * (vertices + 1)
    for first, second in pairs:
        one, other = find(above, first), find(above, second)
        if one != other:
            above[other] = one
            edges[one] += edges[other]
        edges[one] += 1
    return [find(above, vertex) for vertex in range(vertices + 1)], edges


def tree_part(vertices: int, pairs: Iterable[Pair]) -> list[int]:
    """Return the vertices of the first connected part that is a tree with an edge, in rising order; none if none is.

    Vertices count from 1, and the pairs are the edges, loops and parallel ones among them: a part is a tree where it
    has one edge less than vertices.
    """
    heads, edges = heads_of_parts(vertices, pairs)
    sizes = [0] * (vertices + 1)
    for head in heads[1:]:
        sizes[head] += 1
    found = next((head for head in heads[1:] if 1 < sizes[head] == edges[head] + 1), None)
    return [] if found is None else [vertex for vertex in range(1, vertices + 1) if heads[vertex] == found]


def clause_pairs(clauses: Sequence[Sequence[int]]) -> Iterator[Pair]:
    """Return the clauses, by numbers from 1, as vertices of a graph: an edge joins those that share a variable.

    A variable that is in exactly two clauses, with opposite signs, is one edge: it makes at most one of them true.
    Any other one is a loop at its clauses besides, so that no part with such a variable is taken for a tree.
    """
    places: dict[int, set[Pair]] = {}
    for number, clause in enumerate(clauses, 1):
        for literal in clause:
            places.setdefault(abs(literal), set()).add((number, 1 if literal > 0 else -1))
    for found in places.values():
        numbers = sorted({number for number, _ in found})
        yield from zip(numbers, numbers[1:])
        if len(found) != 2 or len(numbers) != 2 or len({sign for _, sign in found}) != 2:
            yield numbers[0], numbers[0]
