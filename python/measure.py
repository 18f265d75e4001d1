"""Measures the module beside graph-tool, igraph and networkx, and prints one table.

    POPSAMPLE_LIBRARY=.. python3 measure.py

A row is measured some times over, and the best of them is printed: seconds by the clock, and seconds of processors,
which a busy machine changes less. Beside it stand what is wanted, and the seconds of the others, both by the clock.

What is wanted was set on a machine where graph-tool takes 0.045 s for one tree from the array of 100,000 edges. If
graph-tool is installed, it is scaled to this machine by graph-tool's seconds.
"""

from __future__ import annotations

import importlib.util
import os
import random
import subprocess
import sys
import tempfile
import time
from collections.abc import Callable, Iterator
from concurrent.futures import ThreadPoolExecutor
from functools import partial
from pathlib import Path
from typing import Any, NamedTuple

import popsample

sys.path.append(str(Path(__file__).resolve().parents[1] / "bench"))
from peers import igraph_library  # noqa: E402

Edges = list[tuple[int, int]]
MANY = 20_000
SMALL = [(0, 1), (1, 2), (2, 0)]
KEY = bytes(32)
# What graph-tool takes, in seconds, where what is wanted was set.
BASE = 0.045
# The row by which that is scaled.
SCALE = "20,000 vertices, 100,000 edges: numpy array"


class Row(NamedTuple):
    """A row of the table: a name, a call, how often it is measured, what is wanted, and how many calls it makes."""

    name: str
    call: Callable[[], Any]
    times: int = 5
    wanted: float | None = None
    calls: int = 1


class Taken(NamedTuple):
    """Seconds by the clock, and seconds of processors."""

    clock: float
    processors: float


def grid_edges(side: int) -> Edges:
    """Return the edges of a square grid."""
    across = [(side * row + column, side * row + column + 1) for row in range(side) for column in range(side - 1)]
    return across + [(vertex, vertex + side) for vertex in range(side * (side - 1))]


def random_edges(vertices: int, edges: int) -> Edges:
    """Return the edges of a random connected graph."""
    chance = random.Random(51)
    path = [(chance.randrange(vertex), vertex) for vertex in range(1, vertices)]
    return path + [(chance.randrange(vertices), chance.randrange(vertices)) for _ in range(edges - len(path))]


def has(name: str) -> bool:
    """Return whether a package is installed."""
    return importlib.util.find_spec(name) is not None


def array_of(edges: Edges) -> Any:
    """Return the edges as an array of numpy."""
    import numpy

    return numpy.array(edges, dtype=numpy.uint32)


def taken(row: Row) -> Taken:
    """Return what the best of some calls takes."""
    found = []
    for _ in range(row.times):
        began, worked = time.perf_counter(), time.process_time()
        row.call()
        found.append(Taken(time.perf_counter() - began, time.process_time() - worked))
    clock, processors = min(each.clock for each in found), min(each.processors for each in found)
    return Taken(clock / row.calls, processors / row.calls)


def foreign_graphs(edges: Edges, vertices: int) -> Iterator[tuple[str, Any, float | None]]:
    """Yield a graph of each library that is installed, with what is wanted of one tree of it."""
    if has("networkx"):
        import networkx

        yield "networkx graph", networkx.Graph(edges), 0.15
    if has("scipy"):
        import numpy
        import scipy.sparse

        tails, heads = numpy.array(edges).T
        ones = numpy.ones(len(edges), dtype=numpy.int64)
        half = scipy.sparse.coo_array((ones, (tails, heads)), shape=(vertices, vertices)).tocsr()
        yield "scipy matrix", half + half.T, None
    if has("igraph"):
        import igraph

        yield "igraph graph", igraph.Graph(n=vertices, edges=edges), None
    if has("graph_tool"):
        import graph_tool

        graph = graph_tool.Graph(directed=False)
        graph.add_edge_list(edges)
        yield "graph-tool graph", graph, None


def single_rows(edges: Edges, huge: Edges) -> Iterator[Row]:
    """Yield the rows of one tree."""
    of_edges = "20,000 vertices, 100,000 edges"
    yield Row(f"{of_edges}: list of pairs", partial(popsample.spanning_tree, edges), wanted=0.04)
    if has("numpy"):
        yield Row(SCALE, partial(popsample.spanning_tree, array_of(edges)), 9, 0.012)
    for name, graph, wanted in foreign_graphs(edges, 20_000):
        yield Row(f"{of_edges}: {name}", partial(popsample.spanning_tree, graph), wanted=wanted)
    if has("numpy"):
        name = "200,000 vertices, 1,000,000 edges: numpy array"
        yield Row(name, partial(popsample.spanning_tree, array_of(huge)), wanted=0.25)


def all_of(trees: Any) -> int:
    """Return how many trees there are. Each is made, and nobody looks into it."""
    return sum(1 for _ in trees)


def many_rows(grid: Edges, threads: ThreadPoolExecutor) -> Iterator[Row]:
    """Yield the rows of many trees of a small graph, and of many calls."""
    trees = partial(popsample.spanning_trees, grid, MANY)
    if has("numpy"):
        yield Row("20,000 trees of a 10 by 10 grid: arrays", lambda: trees().arrays(), 3, 0.7)
        yield Row("the same, 4 threads", lambda: trees(executor=threads).arrays(), 3, 0.28)
    yield Row("20,000 trees of a 10 by 10 grid: objects", lambda: all_of(trees()), 3, 0.8)
    yield Row("the same, 4 threads, objects", lambda: all_of(trees(executor=threads)), 3)
    calls = 2000
    call = partial(popsample.spanning_tree, SMALL, key=KEY)
    yield Row("one call, a list of 3 edges", lambda: [call() for _ in range(calls)], 3, 60e-6, calls)


def of_graph_tool(grid: Edges, edges: Edges, huge: Edges) -> Iterator[Row]:
    """Yield the rows of graph-tool, under the names of those beside which they stand."""
    import graph_tool
    import graph_tool.topology

    sample = graph_tool.topology.random_spanning_tree

    def made(given: Any) -> Any:
        graph = graph_tool.Graph(directed=False)
        graph.add_edge_list(given)
        return graph

    for name, given in (
        ("20,000 vertices, 100,000 edges: list of pairs", edges),
        (SCALE, array_of(edges)),
        ("200,000 vertices, 1,000,000 edges: numpy array", array_of(huge)),
    ):
        yield Row(name, lambda given=given: sample(made(given)))
    hand, small = made(edges), made(grid)
    yield Row("20,000 vertices, 100,000 edges: graph-tool graph", lambda: sample(hand))
    yield Row("20,000 trees of a 10 by 10 grid: arrays", lambda: [sample(small).a.copy() for _ in range(MANY)], 1)


def of_igraph(folder: str, grid: Edges, edges: Edges) -> Iterator[Row]:
    """Yield the rows of igraph's C library, by a program that reads and prints: igraph of Python has no such call."""
    peer = igraph_library(folder)
    if peer is None:
        return
    for name, given, trees in (
        ("20,000 vertices, 100,000 edges: igraph graph", edges, 1),
        ("20,000 trees of a 10 by 10 grid: arrays", grid, MANY),
    ):
        lines = [f"p edge {1 + max(map(max, given))} {len(given)}", *(f"e {a + 1} {b + 1}" for a, b in given), ""]
        call = partial(subprocess.run, peer.command(51, trees), text=True, capture_output=True, check=True)
        yield Row(name, partial(call, input="\n".join(lines)), 3)


def of_networkx(grid: Edges) -> Iterator[Row]:
    """Yield the row of networkx: it is too slow for more than a few trees, and so its seconds are scaled."""
    import networkx

    graph, trees = networkx.Graph(grid), 2
    call = partial(networkx.random_spanning_tree, graph)
    yield Row("20,000 trees of a 10 by 10 grid: objects", lambda: [call() for _ in range(trees)], 1, None, trees)


def beside(grid: Edges, edges: Edges, huge: Edges) -> dict[tuple[str, str], float]:
    """Return the seconds of the others by the clock, by the row and the name of the library."""
    found = {}
    if has("graph_tool") and has("numpy"):
        found = {(row.name, "graph-tool"): taken(row).clock for row in of_graph_tool(grid, edges, huge)}
    with tempfile.TemporaryDirectory() as folder:
        found |= {(row.name, "igraph"): taken(row).clock for row in of_igraph(folder, grid, edges)}
    if has("networkx"):
        found |= {(row.name, "networkx"): MANY * taken(row).clock for row in of_networkx(grid)}
    return found


def shown(seconds: float | None) -> str:
    """Return seconds as the table has them."""
    if seconds is None:
        return ""
    return f"{seconds * 1e6:.0f} us" if seconds < 0.001 else f"{seconds:.3f}"


def main() -> int:
    """Measure all, and print the table."""
    grid, edges, huge = grid_edges(10), random_edges(20_000, 100_000), random_edges(200_000, 1_000_000)
    others = beside(grid, edges, huge)
    scale = others.get((SCALE, "graph-tool"), BASE) / BASE
    print(f"popsample {popsample.__version__} by {popsample.find_library() or popsample.find_program()}")
    print(f"Python {sys.version.split()[0]}, {os.cpu_count()} processors, load {os.getloadavg()[0]:.1f}")
    print(f"What is wanted is scaled by {scale:.2f}.\n")
    peers = ("graph-tool", "igraph", "networkx")
    print(f"| One spanning tree, or many | popsample | processors | wanted | {' | '.join(peers)} |")
    print("|---" * 7 + "|")
    with ThreadPoolExecutor(4) as threads:
        for row in (*single_rows(edges, huge), *many_rows(grid, threads)):
            found = taken(row)
            wanted = None if row.wanted is None else row.wanted * scale
            cells = [shown(found.clock), shown(found.processors), shown(wanted)]
            cells += [shown(others.get((row.name, peer))) for peer in peers]
            print(f"| {row.name} | {' | '.join(cells)} |", flush=True)
    return 0


if __name__ == "__main__":
    sys.exit(main())
