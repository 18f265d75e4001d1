"""Graphs of other libraries. None is imported here: who hands in a graph of a library has imported it.

The module for a library has three functions: `takes` says whether something is a graph of it, `read` gives its vertices
and edges, and `directed` makes of arrows a directed graph of the library.
"""

from __future__ import annotations

from types import ModuleType
from typing import Any

from . import graph_tool_input, igraph_input, networkx_input, scipy_input

LIBRARIES: tuple[ModuleType, ...] = (networkx_input, igraph_input, graph_tool_input, scipy_input)


def library_of(graph: Any) -> ModuleType | None:
    """Return the module for the library that the graph is of; none if it is of none of them."""
    return next((library for library in LIBRARIES if library.takes(graph)), None)
