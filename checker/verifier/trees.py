"""Rooted spanning trees."""

from __future__ import annotations

from .families import Cycles, Event
from .graphs import Graph, first_cut_off, slots
from .refusals import Difference, Refusal


class TreeSetting:
    """What a run on spanning trees needs: names, weights and cycles, and how its end is told."""

    def __init__(self, graph: Graph, root: int) -> None:
        if root > graph.vertices:
            raise Refusal(6, f"s ROOT {root}")
        cut_off = first_cut_off(graph, root)
        if cut_off is not None:
            raise Refusal(6, f"s CUTOFF {cut_off}")
        self.graph = graph
        self.root = root
        self.names = [each for each in range(1, graph.vertices + 1) if each != root]
        place = {name: variable for variable, name in enumerate(self.names)}
        at = slots(graph)
        self.slots = [at[name] for name in self.names]
        self.weights = [[weight for _, weight, _ in each] for each in self.slots]
        heads = [[place.get(head) for head, _, _ in each] for each in self.slots]
        self.family = Cycles(heads, self.names)

    def sample_lines(self, values: list[int]) -> list[str]:
        """The arrow of each vertex but the root."""
        lines = []
        for name, value, slot in zip(self.names, values, self.slots):
            head, _, edge = slot[value]
            lines.append(f"a {name} {head} {edge}")
        return lines

    def stuck_line(self, event: Event) -> str:
        """A cycle that still occurs, by its vertices in rising order."""
        return " ".join(["stuck", *(str(self.names[variable]) for variable, _ in event.cube)])

    def check_sample(self, lines: list[str]) -> None:
        """Reads off the printed arrows alone that they go along edges, and lead to the root."""
        heads = {}
        for line, text in enumerate(lines[1:len(self.names) + 1], 2):
            tail, head, edge = map(int, text.split()[1:])
            if sorted((tail, head)) != sorted(self.graph.edges[edge - 1][:2]):
                raise Difference(line, "the arrow has other ends than its edge")
            heads[tail] = head
        safe = {self.root}
        for line, name in enumerate(self.names, 2):
            path = []
            while name not in safe and len(path) <= len(heads):
                path.append(name)
                name = heads[name]
            if name not in safe:
                raise Difference(line, "the arrows don't lead to the root")
            safe.update(path)

    def made_sum(self, values: list[int]) -> int:
        """Over all vertices but the root, the number of the vertex times one more than its slot."""
        return sum(name * (value + 1) for name, value in zip(self.names, values))
