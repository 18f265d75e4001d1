#!/usr/bin/env python3
"""Measures trees from an array of edges to arrays of parents: popsample's typed call, its Python module, and Boost,
igraph and graph-tool, in turns. README.md says more."""
import argparse
import array
import os
import random
import statistics
import subprocess
import sys
import tempfile
import time
from typing import Callable, List, NamedTuple

# The repository stays as it is.
sys.dont_write_bytecode = True

from peers import succeeds, words_of
from run import print_head, print_row, processor_name

HERE = os.path.dirname(os.path.abspath(__file__))
PROGRAMS = os.path.join(HERE, "from_arrays")
ROOT = os.path.dirname(HERE)
# An input's rows take turns so often, each time under another seed, and medians are told.
TURNS = 9


class Input(NamedTuple):
    """A graph, and how many trees of it are drawn."""

    name: str
    vertices: int
    edges: Callable[[], List[int]]
    trees: int


class Contender(NamedTuple):
    """One row: what draws, with its command for a file of edges, a seed and a number of trees."""

    name: str
    command: Callable[..., List[str]]
    # It may draw fewer trees than the input asks for; its seconds are scaled.
    most: int = 1 << 30
    threads: int = 1


def grid(side):
    """The ends of the edges of a square grid, one behind the other."""
    for row in range(side):
        for column in range(side):
            vertex = row * side + column
            if column + 1 < side:
                yield from (vertex, vertex + 1)
            if row + 1 < side:
                yield from (vertex, vertex + side)


def connected(vertices, edges):
    """The ends of a random tree's edges, and of further random edges."""
    draw = random.Random(51)
    for vertex in range(1, vertices):
        yield from (draw.randrange(vertex), vertex)
    for _ in range(edges - vertices + 1):
        yield from (draw.randrange(vertices), draw.randrange(vertices))


INPUTS = [
    Input("20000 trees of a 10 by 10 grid", 100, lambda: grid(10), 20000),
    Input("one tree, 20000 vertices, 100000 edges", 20000, lambda: connected(20000, 100000), 1),
    Input("one tree, 200000 vertices, 1000000 edges", 200000, lambda: connected(200000, 1000000), 1),
]


def write_input(given, path):
    """Writes an input as the programs read it."""
    ends = array.array("I", given.edges())
    with open(path, "wb") as file:
        array.array("I", [given.vertices, len(ends) // 2]).tofile(file)
        ends.tofile(file)


def built(source, folder, *more):
    """The program of a source that stands in from_arrays/, or None where it doesn't compile; g++ says why."""
    program = os.path.join(folder, os.path.splitext(source)[0])
    command = ["g++", "-O3", "-std=c++17", "-pthread", os.path.join(PROGRAMS, source), "-o", program, *more]
    return program if subprocess.run(command, check=False).returncode == 0 else None


def typed_calls(asked, folder):
    """The call over arrays, by one thread and by several."""
    header = f"-I{os.path.join(ROOT, 'c', 'include')}"
    program = built("typed_trees.cpp", folder, header, os.path.join(asked.libraries, "libpopsample.a"))
    for threads in (1, 2, 4):
        words = [str(threads)]
        name = "popsample, typed call" + (f", {threads} threads" if threads > 1 else "")
        yield Contender(name, lambda *numbers, words=words: [program, *map(str, numbers), *words], threads=threads)


def compiled_peers(folder):
    """Boost and igraph, where they are installed."""
    boost = built("boost_trees.cpp", folder)
    if boost:
        for name, kind in (("Boost, compressed rows", "rows"), ("Boost, adjacency list", "list")):
            yield Contender(name, lambda *numbers, kind=kind: [boost, *map(str, numbers), kind])
    if succeeds(["pkg-config", "--exists", "igraph"]):
        igraph = built("igraph_trees.cpp", folder, *words_of(["pkg-config", "--cflags", "--libs", "igraph"]))
        if igraph:
            yield Contender("igraph, in C", lambda *numbers: [igraph, *map(str, numbers)])


def python_calls(python):
    """The Python module and graph-tool, where numpy and they are installed."""
    script = os.path.join(PROGRAMS, "python_trees.py")

    def contender(name, *words, most=1 << 30, threads=1):
        command = [python, "-W", "ignore", script]
        return Contender(name, lambda *numbers: [*command, *map(str, numbers), *words], most, threads)

    if succeeds([python, "-c", "import numpy"]):
        yield contender("popsample, Python, a numpy array in, arrays out", "popsample")
        yield contender("the same, 4 threads", "popsample", "4", threads=4)
        yield contender("popsample, Python, a numpy array in, objects out", "objects")
        if succeeds([python, "-W", "ignore", "-c", "import graph_tool.topology"]):
            yield contender("graph-tool, Python, its graph at hand", "graph_tool_at_hand", most=2000)
            yield contender("graph-tool, Python, from a numpy array", "graph_tool", most=2000)


def seconds_of(contender, path, seed, trees):
    """The seconds that a contender tells, for all trees."""
    drawn = min(trees, contender.most)
    told = subprocess.run(contender.command(path, seed, drawn), stdout=subprocess.PIPE, check=True).stdout
    return float(told) * trees / drawn


def measure(given, contenders, turns, folder):
    """Prints the rows of one input."""
    path = os.path.join(folder, "edges")
    write_input(given, path)
    # One tree is one thread's.
    contenders = [contender for contender in contenders if contender.threads <= given.trees]
    seconds = {contender.name: [] for contender in contenders}
    for turn in range(1, turns + 1):
        for contender in contenders:
            seconds[contender.name].append(seconds_of(contender, path, turn, given.trees))
    first = statistics.median(seconds[contenders[0].name])
    for name, times in seconds.items():
        median = statistics.median(times)
        print_row(given.name, name, f"{median:.4f}", f"{min(times):.4f}", f"{first / median:.2f}")


def arguments():
    parser = argparse.ArgumentParser(description=__doc__.splitlines()[0])
    parser.add_argument("--program", required=True, type=os.path.abspath, metavar="PATH", help="the built program")
    parser.add_argument("--libraries", required=True, type=os.path.abspath, metavar="FOLDER",
                        help="the folder with libpopsample.a and libpopsample.so")
    parser.add_argument("--python", default="/usr/bin/python3", metavar="PATH", help="a Python with numpy")
    parser.add_argument("--turns", type=int, default=TURNS, metavar="N", help="how often the rows take turns")
    return parser.parse_args()


def main():
    asked = arguments()
    os.environ.update(POPSAMPLE=asked.program, POPSAMPLE_LIBRARY=os.path.join(asked.libraries, "libpopsample.so"))
    print(f"{time.strftime('%F')}, {processor_name()}, {os.cpu_count()} processors, medians of {asked.turns} turns\n")
    with tempfile.TemporaryDirectory(prefix="popsample-bench-") as folder:
        contenders = [*typed_calls(asked, folder), *compiled_peers(folder), *python_calls(asked.python)]
        print_head("input", "by", "seconds", "least", "popsample / this")
        for given in INPUTS:
            measure(given, contenders, asked.turns, folder)


if __name__ == "__main__":
    main()
