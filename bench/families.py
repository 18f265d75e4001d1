"""The families of inputs that are measured, each in several sizes."""
from typing import Callable, Iterator, List, NamedTuple, Optional, Tuple

import inputs


class Input(NamedTuple):
    """An input: how many edges or clauses it has, the words of the command, and the lines of the text, if it reads
    one."""

    elements: int
    words: List[str]
    lines: Optional[Callable[[], Iterator[str]]]


class Family(NamedTuple):
    """Inputs of one kind, by rising size."""

    name: str
    counted: str
    inputs: List[Input]
    # Whether Boost and igraph can do the same, and whether the edges have weights.
    is_tree: bool
    has_weights: bool


EDGES = (10_000, 100_000, 1_000_000)
CLAUSES = (10_000, 100_000, 1_000_000)
# The edges of a grid go with the square of its side.
SIDES = (70, 223, 707)
# Each pair of these clauses shares its variables, so that the time goes with the square of their number.
DENSE_CLAUSES = (255, 1023, 4095)


def edges_of_grid(side):
    return 2 * side * (side - 1)


def of_sizes(command, writer, sizes):
    return [Input(size, [command], lambda size=size: writer(size)) for size in sizes]


def grids():
    return [Input(edges_of_grid(side), ["tree"], lambda side=side: inputs.grid(side)) for side in SIDES]


def made_grids():
    return [Input(edges_of_grid(side), ["make", "grid", str(side)], None) for side in SIDES]


def trees(name, given, has_weights=False):
    return Family(f"tree, {name}", "edges", given, True, has_weights)


def formulas(name, writer, sizes):
    return Family(f"formula, {name}", "clauses", of_sizes("formula", writer, sizes), False, False)


def families():
    return [
        Family("make grid", "edges", made_grids(), False, False),
        trees("grids", grids()),
        trees("random with 4 edges at each vertex", of_sizes("tree", inputs.regular, EDGES)),
        trees("the same with weights to 100", of_sizes("tree", inputs.weighted, EDGES), True),
        trees("hubs", of_sizes("tree", inputs.hubs, EDGES)),
        Family(
            "orient, random with 4 edges at each vertex",
            "edges",
            of_sizes("orient", inputs.regular, EDGES),
            False,
            False,
        ),
        formulas("chains", inputs.chain, CLAUSES),
        formulas("each variable twice", inputs.twice, CLAUSES),
        formulas("dense", inputs.dense, DENSE_CLAUSES),
    ]
