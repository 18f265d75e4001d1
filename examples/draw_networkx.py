#!/usr/bin/env python3
"""Samples a spanning tree of a graph of networkx, and draws it as an SVG on standard output.

    PYTHONPATH=python python3 examples/draw_networkx.py > families.svg
    PYTHONPATH=python python3 examples/draw_networkx.py KEY > families.svg

The graph has the families of Florence that married into each other, and the tree leads to the Medici. Without a key
each call draws another tree, and tells its key in the picture's title. It needs networkx and the module popsample.
"""

from __future__ import annotations

import argparse
import sys
from typing import TYPE_CHECKING

from draw import MARGIN, RADIUS, circle, picture
from graph_text import Arrow, Graph
from telling import run

if TYPE_CHECKING:
    import networkx
    import popsample


def drawing(graph: networkx.Graph, tree: popsample.Tree) -> str:
    """The picture of a tree of the graph, whose vertices are numbered from 1 as they come."""
    numbers = {name: number for number, name in enumerate(graph, 1)}
    edges = [(numbers[first], numbers[second]) for first, second in graph.edges]
    names = {number: str(name) for name, number in numbers.items()}
    arrows = [Arrow(numbers[tail], numbers[head], 0) for tail, head in tree.graph.edges]
    body = [f"<title>{tree.key}</title>", *circle(Graph(len(numbers), edges, names), arrows)]
    return picture(2 * (RADIUS + MARGIN), iter(body))


def main() -> None:
    parser = argparse.ArgumentParser(description="Draws a random tree of the families of Florence as an SVG.")
    parser.add_argument("key", metavar="KEY", nargs="?", help="64 hexadecimal digits; one is drawn where it is left out")
    key = parser.parse_args().key
    try:
        import networkx
        import popsample
    except ModuleNotFoundError as error:
        sys.exit(f"draw_networkx.py: {error.name} isn't installed")
    graph = networkx.florentine_families_graph()
    try:
        tree = popsample.spanning_tree(graph, root="Medici", key=key)
    except popsample.Error as error:
        sys.exit(f"draw_networkx.py: {error}")
    print(drawing(graph, tree))


if __name__ == "__main__":
    run(main)
