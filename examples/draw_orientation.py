#!/usr/bin/env python3
"""Draws an orientation of a graph, as `popsample orient` prints it, as an SVG on standard output.

    python3 draw_orientation.py GRAPH ORIENTATION > orientation.svg

A square grid, in the order of `grid.py`, is drawn as a grid. The vertices of any other graph stand on a circle. The
colour of an arrow tells where it points.
"""

from __future__ import annotations

import argparse
import math
from typing import Iterable, Iterator

from draw import CELL, MARGIN, RADIUS, Point, circle_places, grid_places, labels, picture, side_of
from graph_text import Arrow, Graph, read_arrows, read_graph
from telling import run

# The colours of the directions, clockwise from the right; those between them have the nearest one's.
COLOURS = ["#ffd166", "#ef6f6c", "#9b6bd6", "#4fb3bf"]
# The part of an arrow that is drawn, which leaves room at its ends, and how far its point reaches back and aside.
SHOWN = 0.75
POINT = 5


def colour(start: Point, end: Point) -> str:
    """The colour of an arrow."""
    angle = math.atan2(end[1] - start[1], end[0] - start[0])
    return COLOURS[round(angle * len(COLOURS) / math.tau) % len(COLOURS)]


def piece(start: Point, end: Point) -> str:
    """An arrow as a piece of a path: its shaft, and behind it the two strokes of its point."""
    across, down = (SHOWN * (b - a) for a, b in zip(start, end))
    x, y = ((a + b - shown) / 2 for a, b, shown in zip(start, end, (across, down)))
    length = math.hypot(across, down) or 1
    back, aside = -POINT * across / length, -POINT * down / length
    strokes = [
        (across, down),
        (back + aside, aside - back),
        (-back - aside, back - aside),
        (back - aside, aside + back),
    ]
    shaft, away, tip, other = (f"{step:.3g} {rise:.3g}" for step, rise in strokes)
    return f"M{x:.4g} {y:.4g}l{shaft}m{away}l{tip} {other}"


def arrow_paths(arrows: Iterable[Arrow], places: dict[int, Point]) -> Iterator[str]:
    """The arrows as paths, one for each colour."""
    pieces: dict[str, list[str]] = {}
    for arrow in arrows:
        start, end = places[arrow.tail], places[arrow.head]
        pieces.setdefault(colour(start, end), []).append(piece(start, end))
    for shade in sorted(pieces):
        yield f'<path stroke="{shade}" d="{"".join(pieces[shade])}"/>'


def drawing(graph: Graph, arrows: list[Arrow]) -> str:
    """The picture of an orientation."""
    side = side_of(graph)
    places = grid_places(side) if side else circle_places(graph.vertices)
    body = ['<g fill="none" stroke-linecap="round" stroke-width="2">', *arrow_paths(arrows, places), "</g>"]
    if side:
        return picture((side + 1) * CELL, iter(body))
    names = ['<g font-family="sans-serif" font-size="15">', *labels(graph, 0, places), "</g>"]
    return picture(2 * (RADIUS + MARGIN), iter([*body, *names]))


def main() -> None:
    parser = argparse.ArgumentParser(description="Draws an orientation of a graph as an SVG on standard output.")
    parser.add_argument("graph", metavar="GRAPH", help="the graph text")
    parser.add_argument("orientation", metavar="ORIENTATION", help="what popsample orient printed of it")
    asked = parser.parse_args()
    with open(asked.graph, encoding="utf-8") as file:
        graph = read_graph(file)
    with open(asked.orientation, encoding="utf-8") as file:
        arrows = read_arrows(file)
    print(drawing(graph, arrows))


if __name__ == "__main__":
    run(main)
