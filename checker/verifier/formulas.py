"""Formulas in the DIMACS CNF format: their text, their events, and their samples."""

from __future__ import annotations

import re
from typing import Iterator, NamedTuple

from .families import Cube, Event, Listed
from .refusals import Difference, Refusal
from .text import MOST_NAMED, after_last, check_limit, malformed, number_of, told_lines

MOST_LITERALS = 33554432


class Formula(NamedTuple):
    """Clauses of literals, over variables from 1 on."""

    variables: int
    clauses: list[list[int]]


def read_header(text: bytes, line: int, words: list[bytes]) -> tuple[int, int]:
    """The number of variables and of clauses."""
    numbers = [number_of(word) for word in words[2:4]]
    if words[:2] != [b"p", b"cnf"] or len(numbers) < 2 or None in numbers:
        raise malformed(line, 1)
    if len(words) > 4:
        raise malformed(line, 4)
    check_limit(numbers[0], MOST_NAMED, 2, line)
    check_limit(numbers[1], MOST_NAMED, 3, line)
    return numbers[0], numbers[1]


def read_literal(line: int, word: bytes, variables: int) -> int:
    """A literal of the formula, or 0 for an end."""
    if number_of(word) == 0:
        return 0
    variable = number_of(re.sub(b"^-", b"", word))
    if not variable or variable > 2147483647:
        raise malformed(line, 2)
    if variable > variables:
        raise malformed(line, 3)
    return -variable if word.startswith(b"-") else variable


def read_literals(
        lines: Iterator[tuple[int, list[bytes]]], variables: int) -> Iterator[tuple[int, int]]:
    """The literals and ends of the lines up to one that begins with `%`, each with its line."""
    for line, words in lines:
        if words[0].startswith(b"%"):
            break
        for word in words:
            yield line, read_literal(line, word, variables)
    for _ in lines:
        pass


def read_clauses(literals: Iterator[tuple[int, int]]) -> list[list[int]]:
    """The clauses that literals and ends make. Limits are passed at the first word too many."""
    clauses: list[list[int]] = []
    clause: list[int] = []
    count = 0
    for line, literal in literals:
        if not clause:
            check_limit(len(clauses) + 1, MOST_NAMED, 3, line)
        if literal:
            count += 1
            check_limit(count, MOST_LITERALS, 4, line)
            clause.append(literal)
        else:
            clauses.append(clause)
            clause = []
    return clauses + [clause] if clause else clauses


def read_formula(text: bytes) -> Formula:
    """The formula of a text, or its first refusal."""
    lines = told_lines(text)
    line, words = next(lines, (after_last(text), []))
    variables, declared = read_header(text, line, words)
    clauses = read_clauses(read_literals(lines, variables))
    if len(clauses) != declared:
        raise Refusal(3, f"s COUNT {declared} {len(clauses)}")
    if [] in clauses:
        raise Refusal(6, f"s EMPTY {clauses.index([]) + 1}")
    return Formula(variables, clauses)


def falsifying_cubes(formula: Formula) -> Iterator[tuple[int, Cube]]:
    """The number of each event, and the values at which the literals of its clause are all false."""
    seen = set()
    for number, clause in enumerate(formula.clauses, 1):
        if not any(-literal in clause for literal in clause):
            cube = tuple(sorted({(abs(literal) - 1, int(literal < 0)) for literal in clause}))
            if cube not in seen:
                seen.add(cube)
                yield number, cube


class FormulaSetting:
    """What a run on a formula needs: names, weights and events, and how its end is told."""

    def __init__(self, formula: Formula) -> None:
        self.formula = formula
        self.names = list(range(1, formula.variables + 1))
        self.weights = [[1, 1]] * formula.variables
        self.family = Listed(falsifying_cubes(formula))

    def sample_lines(self, values: list[int]) -> list[str]:
        """The assignment."""
        literals = [name if value else -name for name, value in zip(self.names, values)]
        return [" ".join(map(str, ["v", *literals, 0]))]

    def stuck_line(self, event: Event) -> str:
        """An event that still occurs."""
        return f"stuck {event.number}"

    def check_sample(self, lines: list[str]) -> None:
        """Reads off the printed line alone that each clause has a true literal."""
        literals = set(map(int, lines[1].split()[1:-1]))
        for number, clause in enumerate(self.formula.clauses, 1):
            if not literals & set(clause):
                raise Difference(2, f"clause {number} isn't satisfied")
