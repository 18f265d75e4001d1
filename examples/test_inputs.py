#!/usr/bin/env python3
"""Draws test inputs: solutions of a formula that says which combinations of options are allowed.

    python3 test_inputs.py options.cnf --samples 20

Each variable is an option, which a comment `c 3 --tls` names. The formula may be any: each solution is drawn by `rounds`,
under a key of its own, and is as likely as any other. A line is printed for each input: the options that are on.
"""

from __future__ import annotations

import hashlib
from typing import Iterable

from calling import caller, printed_by
from draw import picture
from telling import run

ROW, COLUMN, LEFT, TOP = 14, 22, 12, 100
ON, OFF = "#fac058", "#26263a"


def names_of(lines: Iterable[str]) -> dict[int, str]:
    """The names of variables, by the comments `c V NAME`."""
    words = (line.split() for line in lines)
    return {int(word[1]): word[2] for word in words if len(word) == 3 and word[0] == "c" and word[1].isdecimal()}


def derived_key(key: str, number: int) -> str:
    """A key for each of many runs, made of one: as `popsample.derived_key` makes it."""
    return hashlib.sha256(bytes.fromhex(key) + number.to_bytes(8, "little")).hexdigest()


def solution_of(printed: str) -> list[int]:
    """The variables that are on, of the line `v`."""
    line = next(line for line in printed.splitlines() if line.startswith("v "))
    return [int(word) for word in line.split()[1:] if int(word) > 0]


def table(inputs: list[list[int]], names: dict[int, str]) -> str:
    """A row for each input, and a column for each option."""
    columns = {variable: LEFT + place * COLUMN for place, variable in enumerate(sorted(names))}
    body = ['<g font-family="sans-serif" font-size="13" fill="#fff">']
    for variable, x in columns.items():
        body.append(f'<text transform="translate({x + 14} {TOP - 8}) rotate(-60)">{names[variable]}</text>')
    for place, chosen in enumerate(inputs):
        for variable, x in columns.items():
            shade = ON if variable in chosen else OFF
            y = TOP + place * ROW
            body.append(f'<rect x="{x}" y="{y}" width="{COLUMN - 3}" height="{ROW - 3}" fill="{shade}"/>')
    width = 2 * LEFT + len(columns) * COLUMN + 40
    return picture(width, iter([*body, "</g>"]), TOP + len(inputs) * ROW + LEFT)


def main() -> None:
    parser = caller("Draws test inputs: solutions of a formula, each as likely as any other.")
    parser.add_argument("formula", metavar="FORMULA", help="the formula, in which comments name the variables")
    asked = parser.parse_args()
    with open(asked.formula, encoding="utf-8") as file:
        text = file.read()
    names = names_of(text.splitlines())
    keys = [derived_key(asked.key, number) for number in range(asked.samples)]
    inputs = [solution_of(printed_by(asked.program, ["rounds", "--key", key], text)) for key in keys]
    for chosen in inputs:
        print(*(names.get(variable, variable) for variable in chosen))
    if asked.svg:
        with open(asked.svg, "w", encoding="utf-8") as file:
            print(table(inputs, names), file=file)


if __name__ == "__main__":
    run(main)
