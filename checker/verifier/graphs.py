"""Graphs: their text, the square grids, and paths in them."""

from __future__ import annotations

from typing import NamedTuple, Optional

from .text import MOST_NAMED, after_last, check_limit, malformed, number_of, told_lines

MOST_EDGES = 8388608


class Edge(NamedTuple):
    """An edge with two ends and a weight."""

    first: int
    second: int
    weight: int


class Graph(NamedTuple):
    """Vertices and edges count from 1; edge E is `edges[E - 1]`."""

    vertices: int
    edges: list[Edge]


def read_header(line: int, words: list[bytes]) -> int:
    """The number of vertices."""
    numbers = [number_of(word) for word in words[2:]]
    if words[:1] != [b"p"] or words[1:2] not in ([b"edge"], [b"col"]) or len(numbers) != 2:
        raise malformed(line, 11)
    if None in numbers:
        raise malformed(line, 11)
    check_limit(numbers[0], MOST_NAMED, 2, line)
    return numbers[0]


def read_edge(line: int, words: list[bytes], vertices: int) -> Edge:
    """The edge of a line, whose words are judged from left to right."""
    if words[0] != b"e" or len(words) not in (3, 4):
        raise malformed(line, 15)
    numbers = []
    for place, word in enumerate(words[1:]):
        number = number_of(word)
        if number is None:
            raise malformed(line, 12)
        if place < 2 and not 1 <= number <= vertices:
            raise malformed(line, 13)
        if place == 2 and number == 0:
            raise malformed(line, 14)
        numbers.append(number)
    return Edge(numbers[0], numbers[1], numbers[2] if len(numbers) > 2 else 1)


def read_graph(text: bytes) -> Graph:
    """The graph of a text, or its first refusal."""
    lines = told_lines(text, (b"n", b"d", b"v", b"x"))
    line, words = next(lines, (after_last(text), []))
    graph = Graph(read_header(line, words), [])
    for line, words in lines:
        graph.edges.append(read_edge(line, words, graph.vertices))
        check_limit(len(graph.edges), MOST_EDGES, 5, line)
    return graph


def grid(side: int) -> Graph:
    """The grid: for each vertex the edge to its right, and then the one below."""
    graph = Graph(side * side, [])
    for row in range(1, side + 1):
        for column in range(1, side + 1):
            vertex = (row - 1) * side + column
            if column < side:
                graph.edges.append(Edge(vertex, vertex + 1, 1))
            if row < side:
                graph.edges.append(Edge(vertex, vertex + side, 1))
    return graph


def slots(graph: Graph) -> list[list[tuple[int, int, int]]]:
    """For each vertex, from 0 on, its edges that aren't loops: other end, weight, edge."""
    found: list[list[tuple[int, int, int]]] = [[] for _ in range(graph.vertices + 1)]
    for number, edge in enumerate(graph.edges, 1):
        if edge.first != edge.second:
            found[edge.first].append((edge.second, edge.weight, number))
            found[edge.second].append((edge.first, edge.weight, number))
    return found


def first_cut_off(graph: Graph, root: int) -> Optional[int]:
    """The least vertex that no path joins to the root."""
    joined = {root}
    waiting = [root]
    at = slots(graph)
    while waiting:
        for other, _, _ in at[waiting.pop()]:
            if other not in joined:
                joined.add(other)
                waiting.append(other)
    return next((each for each in range(1, graph.vertices + 1) if each not in joined), None)
