#!/usr/bin/env python3
"""Draws the log that popsample prints with `--log on`, as an SVG on standard output.

    python3 draw_layers.py PRINTED > layers.svg

Variables that were popped stand side by side, and layers below one another. A pop joins a dot at each of its variables,
which has the number of the entry that was used; behind it stands the number of its event, which gives the colour.
"""

from __future__ import annotations

import argparse
import colorsys
from typing import Iterable, Iterator, NamedTuple

from draw import picture
from telling import run

COLUMN, LANE, SPACE = 30, 26, 14
LEFT, TOP = 48, 40
DOT = 10


class Pop(NamedTuple):
    """A line `pop Y E V:K V:K ..`: the layer, the number of the event, and the entry of each of its variables."""

    layer: int
    event: int
    entries: dict[int, int]


def read_entries(pairs: Iterable[str]) -> dict[int, int]:
    """The entries `V:K ..` by their variables."""
    parts = (pair.split(":") for pair in pairs)
    return {int(name): int(entry) for name, entry in parts}


def read_log(lines: Iterable[str]) -> list[Pop]:
    """Reads the log in a printed text. Raises ValueError where there is none of version 2."""
    words = [line.split() for line in lines]
    if not any(line[:2] == ["log", "2"] for line in words):
        raise ValueError("the text has no log of version 2: print it with --log on")
    return [Pop(int(line[1]), int(line[2]), read_entries(line[3:])) for line in words if line[:1] == ["pop"]]


def lanes_of(pops: list[Pop], columns: dict[int, int]) -> list[int]:
    """The lane of each pop of a layer, from 0: the first in which it crosses no pop that was placed before."""
    lanes: list[list[tuple[int, int]]] = []
    found = []
    for pop in pops:
        places = [columns[name] for name in pop.entries]
        first, last = min(places), max(places) + 1
        free = (number for number, lane in enumerate(lanes) if all(last < a or b < first for a, b in lane))
        lane = next(free, len(lanes))
        lanes[lane:] = lanes[lane:] or [[]]
        lanes[lane].append((first, last))
        found.append(lane)
    return found


def colour(event: int) -> str:
    """A colour of an event: neighbouring numbers have hues that are far from each other."""
    parts = colorsys.hls_to_rgb(event * 0.618 % 1, 0.68, 0.75)
    return "#" + "".join(f"{round(part * 255):02x}" for part in parts)


def text(x: float, y: float, words: object, fill: str = "#fff") -> str:
    """Words around a point."""
    return f'<text x="{x:g}" y="{y:g}" fill="{fill}">{words}</text>'


def drawn_pop(pop: Pop, columns: dict[int, int], y: float) -> Iterator[str]:
    """A pop: its dots, what joins them, and its numbers."""
    places = {name: LEFT + columns[name] * COLUMN for name in pop.entries}
    shade, first, last = colour(pop.event), min(places.values()), max(places.values())
    yield f'<path stroke="{shade}" d="M{first:g} {y:g}H{last:g}"/>'
    yield text(last + 0.7 * COLUMN, y + 4, pop.event, shade)
    for name, x in places.items():
        yield f'<circle cx="{x:g}" cy="{y:g}" r="{DOT}" fill="{shade}"/>'
        yield text(x, y + 4, pop.entries[name], "#101018")


def drawing(pops: list[Pop]) -> str:
    """The picture of a log."""
    names = sorted({name for pop in pops for name in pop.entries})
    columns = {name: place for place, name in enumerate(names)}
    body = []
    top = TOP
    for layer in sorted({pop.layer for pop in pops}):
        together = [pop for pop in pops if pop.layer == layer]
        lanes = lanes_of(together, columns)
        body.append(text(LEFT / 3, top + LANE / 2 + 4, layer, "#99a"))
        for pop, lane in zip(together, lanes):
            body += drawn_pop(pop, columns, top + (lane + 0.5) * LANE)
        top += (max(lanes) + 1) * LANE + SPACE
    bars = "".join(f"M{LEFT + place * COLUMN:g} {TOP - 8}V{top:g}" for place in columns.values())
    heads = [text(LEFT + place * COLUMN, TOP - 16, name, "#99a") for name, place in columns.items()]
    style = '<g font-family="sans-serif" font-size="12" text-anchor="middle" stroke-width="5">'
    ground = f'<path stroke="#334" stroke-width="1" d="{bars}"/>'
    return picture(LEFT + (len(names) + 0.5) * COLUMN, iter([style, ground, *heads, *body, "</g>"]), top + SPACE)


def main() -> None:
    parser = argparse.ArgumentParser(description="Draws the layers of a log as an SVG on standard output.")
    parser.add_argument("printed", metavar="PRINTED", help="what popsample printed with --log on")
    asked = parser.parse_args()
    with open(asked.printed, encoding="utf-8") as file:
        print(drawing(read_log(file)))


if __name__ == "__main__":
    run(main)
