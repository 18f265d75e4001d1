#!/usr/bin/env python3
"""Says whether one vertex of a directed network draws more arrows than chance explains.

    python3 null_model.py advice.txt --samples 1000

The network is an edge list of names, in which `Ann Bob` is an arrow from Ann to Bob. The null model keeps who is joined
to whom, and turns each edge by chance, but so that some arrow leaves each vertex: an orientation without sinks. What is
compared is the greatest number of arrows that lead to one vertex.
"""

from __future__ import annotations

import sys
from collections import Counter
from typing import Iterable, Iterator

from calling import caller, printed_by
from draw import picture
from from_edges import NamedEdge, graph_text, read_edges
from telling import run

COLUMN, HEIGHT, MARGIN = 56, 200, 36
USUAL, UNUSUAL = "#fac058", "#e86a58"


def greatest_of(heads: Iterable[object]) -> int:
    """How many arrows lead to the vertex to which most lead."""
    return max(Counter(heads).values())


def greatest_of_samples(printed: str) -> Iterator[int]:
    """The same for each sample of a batch of orientations."""
    for sample in printed.split("\nsample ")[1:]:
        words = (line.split() for line in sample.splitlines())
        yield greatest_of(word[2] for word in words if word[0] == "a")


def histogram(found: Counter[int], observed: int) -> str:
    """A column for each number of arrows; those from the observed one on have another colour."""
    numbers = range(min(found), max(*found, observed) + 1)
    body = ['<g font-family="sans-serif" font-size="13" text-anchor="middle" fill="#fff">']
    for place, number in enumerate(numbers):
        high = HEIGHT * found[number] / max(found.values())
        x, top = MARGIN + place * COLUMN, MARGIN + HEIGHT - high
        shade = UNUSUAL if number >= observed else USUAL
        body.append(f'<rect x="{x:g}" y="{top:.1f}" width="{COLUMN - 10}" height="{high:.1f}" fill="{shade}"/>')
        body.append(f'<text x="{x + COLUMN / 2 - 5:g}" y="{top - 6:.1f}">{found[number]}</text>')
        body.append(f'<text x="{x + COLUMN / 2 - 5:g}" y="{HEIGHT + MARGIN + 20}">{number}</text>')
    return picture(2 * MARGIN + len(numbers) * COLUMN - 10, iter([*body, "</g>"]), HEIGHT + 2 * MARGIN)


def told(edges: list[NamedEdge], found: Counter[int]) -> str:
    """What was found, in lines."""
    heads = Counter(edge.second for edge in edges)
    name, observed = max(heads.items(), key=lambda each: each[1])
    lines = [f"{observed} arrows lead to {name}"]
    lines += [f"{found[number]} samples have up to {number} to a vertex" for number in sorted(found)]
    unusual = sum(count for number, count in found.items() if number >= observed)
    return "\n".join([*lines, f"{unusual} of {sum(found.values())} samples have {observed} or more"])


def main() -> None:
    parser = caller("Compares the vertex that most arrows lead to with orientations of chance.")
    parser.add_argument("edges", metavar="EDGES", help="the arrows, as an edge list of names")
    asked = parser.parse_args()
    with open(asked.edges, encoding="utf-8") as file:
        edges = read_edges(file)
    lacking = {edge.second for edge in edges} - {edge.first for edge in edges}
    if lacking:
        sys.exit(f"null_model.py: no arrow leaves {min(lacking)}, and in the null model some does")
    words = ["orient", "--count", str(asked.samples), "--key", asked.key]
    found = Counter(greatest_of_samples(printed_by(asked.program, words, graph_text(edges))))
    print(told(edges, found))
    if asked.svg:
        observed = greatest_of(edge.second for edge in edges)
        with open(asked.svg, "w", encoding="utf-8") as file:
            print(histogram(found, observed), file=file)


if __name__ == "__main__":
    run(main)
