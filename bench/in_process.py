#!/usr/bin/env python3
"""Measures one spanning tree of a small graph: in this process by the library for C, by starting the program, and by
others that are in a process already. README.md says more."""
import os
import subprocess
import sys
import tempfile
import time
from concurrent.futures import ThreadPoolExecutor

# The repository stays as it is.
sys.dont_write_bytecode = True
sys.path.insert(1, os.path.join(os.path.dirname(os.path.dirname(os.path.abspath(__file__))), "python"))

import inputs
import popsample
from asking import parser_of
from peers import find_peers
from popsample._engine import library
from run import key_of, print_head, print_row, processor_name

VERTICES = (100, 1000)
# The least time of so many series is told: others may have the processors for a while, and no series is too fast.
SERIES = 5
# A series takes about so many seconds, and has so many calls at the most.
SECONDS, MOST = 0.5, 4000
# So many trees are made in one process of another program, and in a batch.
TREES = 2000
THREADS = (1, 2, 4)


def seconds_of(call, count):
    """The seconds that so many calls take, of which each is handed its number."""
    began = time.perf_counter()
    for number in range(count):
        call(number)
    return time.perf_counter() - began


def least_of(call):
    """The seconds of a call, the least of the series."""
    count = max(1, min(MOST, int(SECONDS / seconds_of(call, 1))))
    return min(seconds_of(call, count) for _ in range(SERIES)) / count


def output_of(command, text):
    """What a program prints; where it fails, this one ends."""
    return subprocess.run(command, input=text, stdout=subprocess.PIPE, check=True).stdout


def seconds_each(command_for, text):
    """The seconds that a program takes for one tree more, where it makes many of them."""
    many, one = (least_of(lambda number: output_of(command_for(number + 1, trees), text)) for trees in (TREES, 1))
    return (many - one) / (TREES - 1)


def with_networkx(edges):
    """networkx with its version, and a call of it on a graph; nothing where it, or what it asks for, isn't here."""
    try:
        import networkx
        import numpy
        import scipy  # noqa: F401
    except ImportError:
        return []
    graph = networkx.Graph(edges)

    def call(number):
        # It counts trees by doubles. Where these have no room for the number, what it gives back is no tree.
        with numpy.errstate(over="raise", invalid="raise"):
            return networkx.random_spanning_tree(graph, seed=number)

    return [(f"networkx {networkx.__version__}", lambda: least_of(call))]


def words_of(number, *more):
    """The words for a tree under the key of this number."""
    return ["tree", "--key", key_of(number), *more]


def edges_of(text):
    """The edges of a text of a graph, as pairs."""
    return [tuple(map(int, line.split()[1:3])) for line in text.decode().splitlines() if line.startswith("e ")]


def contenders(asked, text):
    """Each that is measured, with the seconds of a tree: a name, and a function that finds them."""
    words, edges, counted = words_of, edges_of(text), [asked.program, *words_of(0), "--count", str(TREES)]
    yield "library, from text to text", lambda: least_of(lambda n: library.answered(asked.library, words(n), text))
    yield "library, by `spanning_tree`", lambda: least_of(lambda n: popsample.spanning_tree(edges, key=key_of(n)))
    yield "program, from text to text", lambda: least_of(lambda n: output_of([asked.program, *words(n)], text))
    yield f"program, one of {TREES} by `--count`", lambda: least_of(lambda n: output_of(counted, text)) / TREES
    for peer in asked.peers:
        yield f"{peer.name}, one of {TREES} in a process", lambda peer=peer: seconds_each(peer.command, text)
    yield from with_networkx(edges)


def microseconds_of(seconds):
    """What a contender takes, or why that can't be told."""
    try:
        return round(1e6 * seconds())
    except FloatingPointError as fault:
        return f"no tree: {fault}"


def agree(asked, text):
    """Ends this program where the library and the program don't print the same."""
    for number in range(50):
        words = words_of(number)
        if library.answered(asked.library, words, text) != (0, output_of([asked.program, *words], text)):
            sys.exit(f"the library and the program don't agree on {words}")


def text_of(vertices):
    """The text of a random graph with 4 edges at each vertex."""
    return "".join(inputs.regular(2 * vertices)).encode()


def on_threads(asked, text):
    """Trees a second, from text to text, that pools of threads draw by the library."""
    for threads in THREADS:
        with ThreadPoolExecutor(threads) as pool:
            began = time.perf_counter()
            for _ in pool.map(lambda number: library.answered(asked.library, words_of(number), text), range(4 * TREES)):
                pass
            yield 4 * TREES / (time.perf_counter() - began)


def main():
    parser = parser_of(__doc__.splitlines()[0])
    parser.add_argument("--library", required=True, type=os.path.abspath, metavar="PATH", help="the built library")
    asked = parser.parse_args()
    os.environ.update(POPSAMPLE=asked.program, POPSAMPLE_LIBRARY=asked.library)
    print(f"{time.strftime('%F')}, {processor_name()}, one thread, microseconds a tree\n")
    with tempfile.TemporaryDirectory() as folder:
        asked.peers = find_peers(folder)
        print_head("vertices", "edges", "by", "microseconds")
        for vertices in VERTICES:
            text = text_of(vertices)
            agree(asked, text)
            for name, seconds in contenders(asked, text):
                print_row(vertices, 2 * vertices, name, microseconds_of(seconds))
    print()
    print_head("vertices", *(f"trees a second on {threads} threads" for threads in THREADS))
    for vertices in VERTICES:
        print_row(vertices, *map(round, on_threads(asked, text_of(vertices))))


if __name__ == "__main__":
    main()
