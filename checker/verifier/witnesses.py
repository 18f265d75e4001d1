"""Witness trees."""

from __future__ import annotations

from typing import NamedTuple, Optional

from .families import Cube
from .runs import Record


class Vertex(NamedTuple):
    """A vertex of a witness tree, with its label and the number of the label's event."""

    depth: int
    label: Cube
    number: int
    children: list


def shares_variable(first: Cube, second: Cube) -> bool:
    """Whether two cubes share a variable."""
    return not {variable for variable, _ in first}.isdisjoint(variable for variable, _ in second)


def witness_tree(earlier: list[Record], last: Record) -> Vertex:
    """The tree of a record. From the last to the first, each earlier record that shares a variable with some
    vertex hangs below the deepest such.
    """
    root = Vertex(0, last.event.cube, last.event.number, [])
    vertices = [root]
    for record in reversed(earlier):
        touched = [vertex for vertex in vertices if shares_variable(vertex.label, record.event.cube)]
        if touched:
            parent = min(touched, key=lambda vertex: (-vertex.depth, vertex.label))
            child = Vertex(parent.depth + 1, record.event.cube, record.event.number, [])
            parent.children.append(child)
            vertices.append(child)
    return root


def preorder(root: Vertex) -> list[Vertex]:
    """The vertices of a tree in preorder, siblings by rising label."""
    waiting = [root]
    found = []
    while waiting:
        vertex = waiting.pop()
        found.append(vertex)
        waiting += sorted(vertex.children, key=lambda child: child.label, reverse=True)
    return found


def pop_using(records: list[Record], variable: int, entry: int) -> Optional[int]:
    """The place of the record that used an entry of a variable."""
    for place, record in enumerate(records):
        for (other, _), used in zip(record.event.cube, record.entries):
            if (other, used) == (variable, entry):
                return place
    return None


def witness_lines(records: list[Record], names: list[int], name: int, entry: int) -> Optional[list[str]]:
    """The printed witness of the pop that used an entry of a variable, where there is such a pop."""
    place = pop_using(records, names.index(name), entry) if name in names else None
    if place is None:
        return None
    vertices = preorder(witness_tree(records[:place], records[place]))
    lines = [f"witness {len(vertices)}"]
    for vertex in vertices:
        values = [f"{names[variable]}={value}" for variable, value in vertex.label]
        lines.append(" ".join(["wit", str(vertex.depth), str(vertex.number), *values]))
    return lines
