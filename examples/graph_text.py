"""Reading of what popsample reads and prints: graph texts, and the arrows of `tree` and `orient`."""

from __future__ import annotations

from typing import Iterable, NamedTuple


class Graph(NamedTuple):
    """A graph. Vertices and edges count from 1; edge E is `edges[E - 1]`, its two ends."""

    vertices: int
    edges: list[tuple[int, int]]
    names: dict[int, str]


class Arrow(NamedTuple):
    """A line `a T H E`: the tail, the head, and the edge between them."""

    tail: int
    head: int
    edge: int


def read_graph(lines: Iterable[str]) -> Graph:
    """Reads a graph that popsample accepts. Lines `n V NAME`, which it passes over, name vertices."""
    vertices = 0
    edges = []
    names = {}
    for line in lines:
        words = line.split()
        if not words or words[0].startswith("c"):
            continue
        if words[0] == "p":
            vertices = int(words[2])
        elif words[0] == "e":
            edges.append((int(words[1]), int(words[2])))
        elif words[0] == "n" and len(words) > 2:
            names[int(words[1])] = line.split(maxsplit=2)[2].strip()
    return Graph(vertices, edges, names)


def read_arrows(lines: Iterable[str]) -> list[Arrow]:
    """Reads the arrows of a sample. Raises ValueError where the text is no sample of a graph."""
    words = [line.split() for line in lines]
    if not words or words[0] != ["s", "SAMPLE"]:
        raise ValueError("the text doesn't begin with 's SAMPLE'")
    return [Arrow(*map(int, word[1:])) for word in words if word and word[0] == "a"]
