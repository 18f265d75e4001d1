#!/usr/bin/env python3
"""Writes a square grid as a graph text, in the order of `popsample make grid N`.

    python3 grid.py 24 > grid.col
"""

from __future__ import annotations

import argparse
from typing import Iterator

from telling import positive, run


def grid_edges(side: int) -> Iterator[tuple[int, int]]:
    """The edges of the grid: for each vertex the one to its right, then the one below.

    The vertex in row r and column c, both from 0, is r * side + c + 1.
    """
    for vertex in range(1, side * side + 1):
        if vertex % side:
            yield vertex, vertex + 1
        if vertex + side <= side * side:
            yield vertex, vertex + side


def main() -> None:
    parser = argparse.ArgumentParser(description="Writes a square grid as a graph text.")
    parser.add_argument("side", type=positive, metavar="SIDE", help="the number of rows, and of columns")
    side = parser.parse_args().side
    edges = list(grid_edges(side))
    print(f"c A grid of {side} rows and {side} columns.")
    print(f"p edge {side * side} {len(edges)}")
    for first, second in edges:
        print(f"e {first} {second}")


if __name__ == "__main__":
    run(main)
