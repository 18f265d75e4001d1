"""A backend of networkx: `networkx.random_spanning_tree(graph, backend="popsample")`.

networkx finds this module by its entry point `networkx.backends`, and calls its functions by the names that it asks of
a backend, those of `networkx.utils.backends`. There is no entry point `networkx.backend_info`, since with one each
import of networkx would import this package.
"""

from __future__ import annotations

from typing import Any

from ._calls.graphs import spanning_tree
from ._engine.engine import has_program
from ._engine.library import find_library
from ._errors.argument_errors import NoWeightError, WeightError
from ._given.graph_input import GraphInput, read_graph

NAME = "popsample"
FUNCTION = "random_spanning_tree"
KEY_BYTES = 32


def can_run(name: str, args: tuple[Any, ...], kwargs: dict[str, Any]) -> bool | str:
    """Return whether a call of networkx can be answered here, or why it can't."""
    if name != FUNCTION:
        return f"there is no {name} here"
    return refused(*bound(*args, **kwargs)) or True


def should_run(name: str, args: tuple[Any, ...], kwargs: dict[str, Any]) -> bool | str:
    """Return whether a call that can be answered here and elsewhere is answered here, or why not.

    The library or the program must be found.
    """
    return True if find_library() or has_program() else "neither the library nor the program of popsample is found"


def convert_from_nx(graph: Any, **asked: Any) -> Any:
    """Return the graph itself: it is read at each call, so that whatever was changed in it since is seen."""
    return graph


def convert_to_nx(result: Any, **asked: Any) -> Any:
    """Return the result itself, which is a graph of networkx."""
    return result


def random_spanning_tree(
    G: Any, weight: Any = None, *, multiplicative: bool = True, seed: Any = None, **named: Any
) -> Any:
    """Sample a spanning tree, of which the probability is the product of its edges' weights over the sum of all.

    The arguments, and the graph that comes back, are those of the function of networkx of this name: the edges of the
    tree, without attributes. The seed may be all that networkx takes, and 32 bytes of it are the key of the run.

    Raises NotImplementedError if `multiplicative` is False, if the graph is directed, and if weights can't be
    scaled to integers: the message names the edge. Raises NoWeightError, a KeyError, if an edge has no weight, and
    what `spanning_tree` raises, such as CutOffError if the graph isn't connected.
    """
    import networkx

    forget(G)
    reason = refused(G, multiplicative)
    if reason:
        raise NotImplementedError(reason)
    tree = networkx.empty_graph(G.nodes)
    if len(G) > 1:
        # What is refused here leaves the seed as it was, for networkx to go on with.
        given = weighted_input(G, weight)
        key = drawn_key(networkx.utils.create_py_random_state(seed))
        tree.add_edges_from(spanning_tree(given, key=key).parents.items())
    return tree


def weighted_input(graph: Any, weight: Any) -> GraphInput:
    """Return the graph as it is sampled.

    Raises NoWeightError, a KeyError, if an edge has no weight, and NotImplementedError if the weights can't be
    scaled to whole numbers.
    """
    for *edge, attributes in graph.edges(data=True) if weight is not None else ():
        if weight not in attributes:
            raise NoWeightError(weight, tuple(edge))
    try:
        return read_graph(graph, weight)
    except WeightError as error:
        raise NotImplementedError(str(error)) from error


def bound(G: Any, weight: Any = None, *, multiplicative: bool = True, **named: Any) -> tuple[Any, bool]:
    """Return what a refusal is about, of the arguments of a call."""
    return G, multiplicative


def refused(graph: Any, multiplicative: bool) -> str:
    """Return why a call can't be answered; empty if it can."""
    if not multiplicative:
        return "popsample samples by the product of weights, and not by their sum: multiplicative=False is refused"
    if graph.is_directed():
        return "the graph must be undirected: pass graph.to_undirected()"
    return ""


def drawn_key(random: Any) -> str:
    """Return a key of 32 bytes drawn from a generator that networkx made of a seed."""
    return bytes(int(random.randrange(256)) for _ in range(KEY_BYTES)).hex()


def forget(graph: Any) -> None:
    """Take the graph out of the cache of converted graphs that networkx keeps at it.

    There is nothing converted, and networkx would warn of what is cached.
    """
    cache = getattr(graph, "__networkx_cache__", None)
    if cache:
        cache.get("backends", {}).pop(NAME, None)
