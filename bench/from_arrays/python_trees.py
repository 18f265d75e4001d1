"""Trees by calls of Python, with the seconds by the clock that they take: python_trees.py EDGES SEED TREES KIND [THREADS]"""
import os
import sys
import time
from concurrent.futures import ThreadPoolExecutor

import numpy

HERE = os.path.dirname(os.path.abspath(__file__))
sys.path.insert(1, os.path.join(os.path.dirname(os.path.dirname(HERE)), "python"))


def read_edges(path):
    """The number of vertices, and an array of the ends of each edge."""
    numbers = numpy.fromfile(path, dtype=numpy.uint32)
    return int(numbers[0]), numbers[2:].reshape(-1, 2)


def by_popsample(vertices, ends, seed, trees, threads):
    """The parents of all trees as one array."""
    import popsample

    with ThreadPoolExecutor(threads) as pool:
        executor = pool if threads > 1 else None
        return popsample.spanning_trees(ends, trees, key=bytes([seed] * 32), executor=executor).arrays().parents


def by_objects(vertices, ends, seed, trees, threads):
    """Each tree as an object into which nobody looks."""
    import popsample

    return sum(1 for _ in popsample.spanning_trees(ends, trees, key=bytes([seed] * 32)))


def graph_tool_graph(vertices, ends):
    import graph_tool

    graph = graph_tool.Graph(directed=False)
    graph.add_vertex(vertices)
    graph.add_edge_list(ends)
    return graph


def graph_tool_trees(graph, trees):
    from graph_tool import topology

    for _ in range(trees):
        topology.random_spanning_tree(graph, root=graph.vertex(0))


def by_graph_tool(vertices, ends, seed, trees, threads):
    """Each tree as a property of the edges, with the time that the graph takes to be built."""
    graph_tool_trees(graph_tool_graph(vertices, ends), trees)


KINDS = {"popsample": by_popsample, "objects": by_objects, "graph_tool": by_graph_tool}


def seconds_of(call, *arguments):
    begun = time.perf_counter()
    call(*arguments)
    return time.perf_counter() - begun


def main():
    path, seed, trees, kind, *threads = sys.argv[1:]
    vertices, ends = read_edges(path)
    seed, trees = int(seed), int(trees)
    if kind == "graph_tool_at_hand":
        graph = graph_tool_graph(vertices, ends)
        graph_tool_trees(graph, 1)
        print(seconds_of(graph_tool_trees, graph, trees))
        return
    # What is imported and found once isn't counted.
    warm = numpy.array([[0, 1], [1, 2], [2, 0]], dtype=numpy.uint32)
    KINDS[kind](3, warm, seed, 2, 1)
    print(seconds_of(KINDS[kind], vertices, ends, seed, trees, int(*threads or [1])))


if __name__ == "__main__":
    main()
