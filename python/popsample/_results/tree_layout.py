"""Where the vertices of a rooted tree are in a picture."""

from __future__ import annotations

from collections.abc import Hashable, Mapping

Place = tuple[float, float]


def tree_layout(root: Hashable, parents: Mapping[Hashable, Hashable]) -> dict[Hashable, Place]:
    """Return a place for each vertex.

    Its height is the negative of its distance to the root. Leaves are side by side at whole numbers from 0 on, and
    every other vertex is in the middle above its first and last child.
    """
    children: dict[Hashable, list[Hashable]] = {}
    for child, parent in parents.items():
        children.setdefault(parent, []).append(child)
    order = preorder(root, children)
    depths = {root: 0}
    for vertex in order[1:]:
        depths[vertex] = depths[parents[vertex]] + 1
    across = columns(order, children)
    return {vertex: (across[vertex], -float(depths[vertex])) for vertex in order}


def preorder(root: Hashable, children: Mapping[Hashable, list[Hashable]]) -> list[Hashable]:
    """Return the vertices, each before its children, and all below one child before the next child."""
    order, ahead = [], [root]
    while ahead:
        vertex = ahead.pop()
        order.append(vertex)
        ahead += reversed(children.get(vertex, []))
    return order


def columns(order: list[Hashable], children: Mapping[Hashable, list[Hashable]]) -> dict[Hashable, float]:
    """Return how far to the right each vertex is, if this is the preorder."""
    leaves = [vertex for vertex in order if vertex not in children]
    across = {vertex: float(place) for place, vertex in enumerate(leaves)}
    for vertex in reversed(order):
        below = children.get(vertex)
        if below:
            across[vertex] = (across[below[0]] + across[below[-1]]) / 2
    return across
