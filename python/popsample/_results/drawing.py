"""Pictures of trees by matplotlib, which is imported when one is drawn."""

from __future__ import annotations

from collections.abc import Hashable, Mapping
from typing import TYPE_CHECKING, Any

from ..errors import NotInstalledError
from .tree_layout import Place, tree_layout

if TYPE_CHECKING:
    from .results import Tree

# Above so many vertices their names would lie over each other, and are left out.
NAMED = 60
LINE = "0.45"
ROOT = "tab:orange"
VERTEX = "tab:blue"


def drawing_library() -> Any:
    """Return the module pyplot of matplotlib. Raises NotInstalledError, an ImportError, if it isn't installed."""
    try:
        from matplotlib import pyplot
    except ImportError:
        raise NotInstalledError("matplotlib", "") from None
    return pyplot


def draw(
    tree: Tree, axes: Any = None, positions: Mapping[Hashable, Place] | None = None, names: bool | None = None
) -> Any:
    """Draw a tree, as `Tree.draw` says."""
    chosen = drawing_library().gca() if axes is None else axes
    places = tree_layout(tree.root, tree.parents) if positions is None else positions
    vertices = [tree.root, *tree.parents]
    draw_arrows(chosen, [(places[tail], places[head]) for tail, head in tree.parents.items()])
    named = len(vertices) <= NAMED if names is None else names
    for vertex in vertices:
        draw_vertex(chosen, places[vertex], str(vertex) if named else None, ROOT if vertex == tree.root else VERTEX)
    chosen.margins(0.1)
    chosen.set_axis_off()
    return chosen


def draw_arrows(axes: Any, lines: list[tuple[Place, Place]]) -> None:
    """Draw an arrow for each pair of places, from the first to the second, all of them as one artist."""
    begins = [(tail[0], tail[1]) for tail, _ in lines]
    ways = [(head[0] - tail[0], head[1] - tail[1]) for tail, head in lines]
    across, up = [way[0] for way in ways], [way[1] for way in ways]
    scale = {"angles": "xy", "scale_units": "xy", "scale": 1, "units": "dots", "width": 1.5, "headwidth": 6}
    axes.quiver([x for x, _ in begins], [y for _, y in begins], across, up, color=LINE, zorder=1, **scale)


def draw_vertex(axes: Any, place: Place, name: str | None, color: str) -> None:
    """Draw a vertex as a dot, or as a box with its name."""
    if name is None:
        axes.plot([place[0]], [place[1]], "o", color=color, markersize=4, zorder=2)
        return
    box = {"boxstyle": "round", "facecolor": "white", "edgecolor": color}
    axes.plot([place[0]], [place[1]], alpha=0)
    axes.text(place[0], place[1], name, ha="center", va="center", zorder=2, bbox=box)
