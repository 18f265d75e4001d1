"""Orientations without sinks."""

from __future__ import annotations

from typing import Iterator

from .families import Cube, Event, Listed
from .graphs import Graph
from .refusals import Difference, Refusal


def sink_cubes(graph: Graph) -> Iterator[tuple[int, Cube]]:
    """Each vertex without a loop, and the values at which all edges that touch it point to it."""
    pairs: dict[int, list[tuple[int, int]]] = {each: [] for each in range(1, graph.vertices + 1)}
    loops = {edge.first for edge in graph.edges if edge.first == edge.second}
    for variable, edge in enumerate(graph.edges):
        pairs[edge.first].append((variable, 1))
        pairs[edge.second].append((variable, 0))
    for vertex, cube in pairs.items():
        if not cube:
            raise Refusal(6, f"s ISOLATED {vertex}")
        if vertex not in loops:
            yield vertex, tuple(cube)


class OrientationSetting:
    """What a run on orientations needs: names, weights and events, and how its end is told."""

    def __init__(self, graph: Graph) -> None:
        self.graph = graph
        self.names = list(range(1, len(graph.edges) + 1))
        self.weights = [[1, 1]] * len(graph.edges)
        self.family = Listed(sink_cubes(graph))

    def sample_lines(self, values: list[int]) -> list[str]:
        """An arrow for each edge."""
        lines = []
        for name, value, edge in zip(self.names, values, self.graph.edges):
            tail, head = (edge.second, edge.first) if value else (edge.first, edge.second)
            lines.append(f"a {tail} {head} {name}")
        return lines

    def stuck_line(self, event: Event) -> str:
        """A vertex that is still a sink."""
        return f"stuck {event.number}"

    def check_sample(self, lines: list[str]) -> None:
        """Reads off the printed arrows alone that each goes along its edge, and one leaves each vertex."""
        left = set()
        for line, (text, edge) in enumerate(zip(lines[1:], self.graph.edges), 2):
            tail, head, _ = map(int, text.split()[1:])
            if sorted((tail, head)) != sorted(edge[:2]):
                raise Difference(line, "the arrow has other ends than its edge")
            left.add(tail)
        for vertex in range(1, self.graph.vertices + 1):
            if vertex not in left:
                raise Difference(1, f"no edge leaves vertex {vertex}")
