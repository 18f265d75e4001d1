#!/usr/bin/env python3
"""Draws a spanning tree of a graph, as `popsample tree` prints it, as an SVG on standard output.

    python3 draw.py GRAPH TREE > tree.svg

A square grid, in the order of `grid.py`, is drawn as a maze: the tree's edges are its ways. The vertices of
any other graph stand on a circle, under their names where the graph has lines `n V NAME`. The colour of an
edge tells how far it is from the root.
"""

from __future__ import annotations

import argparse
import math
from html import escape
from typing import Iterator, Optional, Tuple

from graph_text import Arrow, Graph, read_arrows, read_graph
from grid import grid_edges
from telling import run

Point = Tuple[float, float]

# From the root outwards: the colours at equal distances, between which the others are mixed.
COLOURS = [(255, 246, 196), (250, 190, 88), (232, 106, 88), (160, 62, 122), (74, 48, 124), (30, 52, 100)]
BACKGROUND = "#101018"
# So many steps of colour; edges of one step are one path, which keeps the picture small.
STEPS = 32
CELL = 24
RADIUS = 220
MARGIN = 110


def colour(share: float) -> str:
    """The colour at a share, from 0 to 1, of the greatest distance."""
    place = share * (len(COLOURS) - 1)
    low = min(int(place), len(COLOURS) - 2)
    mixed = [round(a + (b - a) * (place - low)) for a, b in zip(COLOURS[low], COLOURS[low + 1])]
    return "#" + "".join(f"{part:02x}" for part in mixed)


def read_tree(graph: Graph, path: str) -> list[Arrow]:
    """The arrows of a sample of `tree`. Raises ValueError where there isn't one for each vertex but one."""
    with open(path, encoding="utf-8") as file:
        arrows = read_arrows(file)
    if len(arrows) != graph.vertices - 1 or len({arrow.tail for arrow in arrows}) != len(arrows):
        raise ValueError("this is no tree of the graph")
    return arrows


def root_of(arrows: list[Arrow]) -> int:
    """The one vertex that an arrow leads to and none leaves; 1 in a tree of one vertex."""
    rest = {arrow.head for arrow in arrows} - {arrow.tail for arrow in arrows}
    return rest.pop() if rest else 1


def distances(arrows: list[Arrow], root: int) -> dict[int, int]:
    """How many arrows lead from each vertex to the root."""
    heads = {arrow.tail: arrow.head for arrow in arrows}
    found = {root: 0}
    for vertex in heads:
        way = []
        while vertex not in found:
            way.append(vertex)
            vertex = heads[vertex]
        for step, tail in enumerate(reversed(way), found[vertex] + 1):
            found[tail] = step
    return found


def side_of(graph: Graph) -> int | None:
    """The side, where the graph is a square grid."""
    side = math.isqrt(graph.vertices)
    return side if side > 1 and graph.edges == list(grid_edges(side)) else None


def grid_places(side: int) -> dict[int, Point]:
    """A place for each vertex of a grid, row by row."""
    return {
        row * side + column + 1: ((column + 1) * CELL, (row + 1) * CELL)
        for row in range(side)
        for column in range(side)
    }


def circle_places(vertices: int) -> dict[int, Point]:
    """A place for each vertex on a circle, clockwise from the top."""
    middle = RADIUS + MARGIN
    places = {}
    for vertex in range(1, vertices + 1):
        angle = 2 * math.pi * (vertex - 1) / vertices
        places[vertex] = (middle + RADIUS * math.sin(angle), middle - RADIUS * math.cos(angle))
    return places


def line(places: dict[int, Point], first: int, second: int) -> str:
    """A line between two vertices, as a piece of a path."""
    (x, y), (u, v) = places[first], places[second]
    return f"M{x:g} {y:g}L{u:g} {v:g}"


def tree_paths(arrows: list[Arrow], root: int, places: dict[int, Point]) -> Iterator[str]:
    """The arrows as paths, one for each step of colour; the farthest are drawn first."""
    far = distances(arrows, root)
    greatest = max(far.values()) or 1
    pieces: dict[int, list[str]] = {}
    for arrow in arrows:
        step = far[arrow.tail] * STEPS // greatest
        pieces.setdefault(step, []).append(line(places, arrow.tail, arrow.head))
    for step in sorted(pieces, reverse=True):
        yield f'<path stroke="{colour(step / STEPS)}" d="{"".join(pieces[step])}"/>'


def label(name: str, place: Point) -> str:
    """The name of a vertex, outside of the circle."""
    middle = RADIUS + MARGIN
    x, y = (middle + (part - middle) * (1 + 22 / RADIUS) for part in place)
    side = (x > middle + RADIUS / 4) - (x < middle - RADIUS / 4)
    anchor = ("middle", "start", "end")[side]
    return f'<text x="{x:.1f}" y="{y + 5:.1f}" text-anchor="{anchor}" fill="#fff">{escape(name)}</text>'


def labels(graph: Graph, root: int, places: dict[int, Point]) -> Iterator[str]:
    """A dot and a name at each vertex; the dot of the root is larger."""
    for vertex, (x, y) in places.items():
        size = 10 if vertex == root else 6
        yield f'<circle cx="{x:g}" cy="{y:g}" r="{size}" fill="#fff"/>'
        yield label(graph.names.get(vertex, str(vertex)), (x, y))


def picture(width: float, body: Iterator[str], height: Optional[float] = None) -> str:
    """A picture, square where no height is given."""
    high = width if height is None else height
    head = f'<svg xmlns="http://www.w3.org/2000/svg" viewBox="0 0 {width:g} {high:g}" width="{width:g}">'
    ground = f'<rect width="100%" height="100%" fill="{BACKGROUND}"/>'
    return "\n".join([head, ground, *body, "</svg>"])


def maze(arrows: list[Arrow], side: int) -> Iterator[str]:
    """The tree of a grid: ways in colours, between dark walls; the root is a dot."""
    places = grid_places(side)
    root = root_of(arrows)
    x, y = places[root]
    yield f'<g fill="none" stroke-linecap="round" stroke-width="{CELL * 0.6:g}">'
    yield from tree_paths(arrows, root, places)
    yield "</g>"
    yield f'<circle cx="{x:g}" cy="{y:g}" r="{CELL * 0.2:g}" fill="{BACKGROUND}"/>'


def circle(graph: Graph, arrows: list[Arrow]) -> Iterator[str]:
    """The tree of any graph, over the other edges."""
    places = {vertex: (round(x, 1), round(y, 1)) for vertex, (x, y) in circle_places(graph.vertices).items()}
    root = root_of(arrows)
    others = "".join(line(places, first, second) for first, second in graph.edges)
    yield f'<path stroke="#667" d="{others}"/>'
    yield '<g fill="none" stroke-linecap="round" stroke-width="5">'
    yield from tree_paths(arrows, root, places)
    yield '</g><g font-family="sans-serif" font-size="15">'
    yield from labels(graph, root, places)
    yield "</g>"


def main() -> None:
    parser = argparse.ArgumentParser(description="Draws a spanning tree of a graph as an SVG on standard output.")
    parser.add_argument("graph", metavar="GRAPH", help="the graph text")
    parser.add_argument("tree", metavar="TREE", help="what popsample tree printed of it")
    asked = parser.parse_args()
    with open(asked.graph, encoding="utf-8") as file:
        graph = read_graph(file)
    arrows = read_tree(graph, asked.tree)
    side = side_of(graph)
    if side:
        print(picture((side + 1) * CELL, maze(arrows, side)))
    else:
        print(picture(2 * (RADIUS + MARGIN), circle(graph, arrows)))


if __name__ == "__main__":
    run(main)
