#!/usr/bin/env python3
"""Brings edge lists to popsample, and its arrows back.

    python3 from_edges.py EDGES > GRAPH               an edge list as a graph text
    python3 from_edges.py --back GRAPH < SAMPLE       the arrows of a sample, by the names of the edge list

An edge list has a line for each edge: two names, and behind them nothing, a weight, or a dict as `{'weight': 3}`.
So do networkx's `write_edgelist` and `write_weighted_edgelist`, and igraph's `write_edgelist` and `write_ncol`,
write it. Blanks separate the words, and names have none. A `#` begins a comment. Weights are whole numbers from 1
to 4294967295.

The names are kept in the graph text, in lines `n V NAME`, which popsample passes over. What comes back is an edge
list again: for each arrow its tail and its head.
"""

from __future__ import annotations

import argparse
import ast
import sys
from typing import Iterable, NamedTuple

from graph_text import read_arrows, read_graph
from telling import run

GREATEST_WEIGHT = 2**32 - 1


class NamedEdge(NamedTuple):
    """An edge between two names."""

    first: str
    second: str
    weight: int


def weight_of(text: str) -> int:
    """The weight behind an edge: 1 where there is none. Raises ValueError where it is no weight."""
    try:
        value = ast.literal_eval(text.strip() or "1")
    except SyntaxError:
        raise ValueError(f"{text.strip()!r} is neither a weight nor a dict") from None
    if isinstance(value, dict):
        value = value.get("weight", 1)
    if isinstance(value, float) and value.is_integer():
        value = int(value)
    if type(value) is not int or not 1 <= value <= GREATEST_WEIGHT:
        raise ValueError(f"the weight {value!r} is no whole number from 1 to {GREATEST_WEIGHT}")
    return value


def edge_of(line: str) -> NamedEdge | None:
    """The edge of a line; none where the line is blank or a comment. Raises ValueError where it is neither."""
    words = line.partition("#")[0].split(maxsplit=2)
    if not words:
        return None
    if len(words) == 1:
        raise ValueError("an edge has two names")
    return NamedEdge(words[0], words[1], weight_of(words[2] if len(words) == 3 else ""))


def read_edges(lines: Iterable[str]) -> list[NamedEdge]:
    """The edges of an edge list. Raises ValueError, with the number of the line."""
    edges = []
    for number, line in enumerate(lines, 1):
        try:
            edge = edge_of(line)
        except ValueError as error:
            raise ValueError(f"line {number}: {error}") from None
        if edge:
            edges.append(edge)
    return edges


def graph_text(edges: list[NamedEdge]) -> str:
    """The graph text of these edges. Vertices are numbered as their names come."""
    numbers: dict[str, int] = {}
    for edge in edges:
        for name in (edge.first, edge.second):
            numbers.setdefault(name, len(numbers) + 1)
    lines = [f"p edge {len(numbers)} {len(edges)}"]
    lines += [f"n {number} {name}" for name, number in numbers.items()]
    lines += [f"e {numbers[edge.first]} {numbers[edge.second]} {edge.weight}" for edge in edges]
    return "\n".join(lines) + "\n"


def named_arrows(graph: Iterable[str], sample: Iterable[str]) -> str:
    """The arrows of a sample of the graph, by names."""
    names = read_graph(graph).names
    return "".join(f"{names[arrow.tail]} {names[arrow.head]}\n" for arrow in read_arrows(sample))


def main() -> None:
    parser = argparse.ArgumentParser(description="Makes a graph text of an edge list.")
    parser.add_argument("file", metavar="EDGES", help="the edge list, or behind --back the graph text")
    parser.add_argument("--back", action="store_true", help="read a sample of the graph, and write its arrows by names")
    asked = parser.parse_args()
    with open(asked.file, encoding="utf-8") as file:
        text = named_arrows(file, sys.stdin) if asked.back else graph_text(read_edges(file))
    sys.stdout.write(text)


if __name__ == "__main__":
    run(main)
