"""Samples of graphs as graphs of other libraries."""

from __future__ import annotations

import importlib
from collections.abc import Sequence
from typing import TYPE_CHECKING, Any

from .._errors.argument_errors import OptionError
from ..errors import NotInstalledError

if TYPE_CHECKING:
    from .results import GraphSample

# Whether edges point as the arrows do, the other way round, or not at all: of trees, and of orientations.
TREE_DIRECTIONS = ("to_root", "from_root", "undirected")
ORIENTATION_DIRECTIONS = ("to_head", "undirected")


def imported(name: str) -> Any:
    """Return a library that the module doesn't need otherwise. Raise NotInstalledError if it isn't installed."""
    try:
        return importlib.import_module(name)
    except ImportError:
        raise NotInstalledError(name, "") from None


def checked_direction(sample: GraphSample, direction: str | None) -> str:
    """Return a direction of the sample, by default that of its arrows. Raise OptionError if it is none."""
    known = sample._directions
    if direction is None:
        return known[0]
    if direction not in known:
        raise OptionError("direction", direction, f"one of {', '.join(map(repr, known))}")
    return direction


def turned(sample: GraphSample, direction: str) -> tuple[Sequence[int], Sequence[int], Sequence[int]]:
    """Return the tails, the heads and the edges of the arrows, by number, in this direction."""
    tails, heads, edges = sample._numbers()
    return (heads, tails, edges) if direction == "from_root" else (tails, heads, edges)


def networkx_of(sample: GraphSample, direction: str | None) -> Any:
    """Return what `Tree.to_networkx` says."""
    chosen = checked_direction(sample, direction)
    networkx = imported("networkx")
    made = attributed(sample, networkx)
    if chosen == "from_root":
        return made.reverse()
    return made.to_undirected() if chosen == "undirected" else made


def attributed(sample: GraphSample, networkx: Any) -> Any:
    """Return the arrows as a directed graph of networkx, with the attributes of a graph of networkx."""
    directed: Any = sample._given.directed
    if directed is not None and directed.func.__module__.endswith("networkx_input"):
        return directed(sample.arrows)
    pairs = {frozenset((arrow.tail, arrow.head)) for arrow in sample.arrows}
    made = networkx.DiGraph() if len(pairs) == len(sample.arrows) else networkx.MultiDiGraph()
    made.add_nodes_from(sample._given.vertices)
    made.add_edges_from((arrow.tail, arrow.head, {"edge": arrow.edge}) for arrow in sample.arrows)
    return made


def igraph_of(sample: GraphSample, direction: str | None) -> Any:
    """Return what `Tree.to_igraph` says."""
    chosen = checked_direction(sample, direction)
    igraph = imported("igraph")
    tails, heads, edges = turned(sample, chosen)
    is_directed = chosen != "undirected"
    made = igraph.Graph(n=len(sample._given.vertices), edges=list(zip(tails, heads)), directed=is_directed)
    made.vs["name"] = list(sample._given.vertices)
    made.es["edge"] = [sample._given.edges[place] for place in edges]
    return made


def graph_tool_of(sample: GraphSample, direction: str | None) -> Any:
    """Return what `Tree.to_graph_tool` says."""
    chosen = checked_direction(sample, direction)
    library = imported("graph_tool")
    made = library.Graph(directed=chosen != "undirected")
    made.add_vertex(len(sample._given.vertices))
    place = made.new_edge_property("int64_t")
    rows = list(zip(*turned(sample, chosen)))
    if rows:
        made.add_edge_list(rows, eprops=[place])
    made.edge_properties["edge"] = place
    names = made.new_vertex_property("object")
    for number, name in enumerate(sample._given.vertices):
        names[number] = name
    made.vertex_properties["name"] = names
    return made


def scipy_of(sample: GraphSample, direction: str | None) -> Any:
    """Return what `Tree.to_scipy` says."""
    chosen = checked_direction(sample, direction)
    numpy, sparse = imported("numpy"), imported("scipy.sparse")
    tails, heads, _ = turned(sample, chosen)
    pairs = list(zip(tails, heads))
    if chosen == "undirected":
        pairs += [(head, tail) for tail, head in pairs if tail != head]
    count = len(sample._given.vertices)
    rows, columns = zip(*pairs) if pairs else ((), ())
    return sparse.coo_array((numpy.ones(len(pairs), numpy.int64), (rows, columns)), shape=(count, count)).tocsr()
