"""What is wanted of a sample, said without the program."""

from __future__ import annotations

import numbers
import os
import tempfile
import unittest
from collections.abc import Hashable, Iterable, Iterator, Sequence
from contextlib import contextmanager
from pathlib import Path
from unittest import mock

import popsample

ZEROS = "0" * 64
# After so many seconds a test that hangs is ended. A test that passes doesn't come near, however busy the machine is.
LIMIT = 600
# What a program does that is to go on for longer than the tests wait.
ENDLESS = f"exec sleep {2 * LIMIT}"
Pair = tuple[Hashable, Hashable]


def reached(root: Hashable, pairs: Iterable[Pair]) -> set[Hashable]:
    """The vertices that a path of these edges joins to the root, which is one of them."""
    beside: dict[Hashable, list[Hashable]] = {}
    for first, second in pairs:
        beside.setdefault(first, []).append(second)
        beside.setdefault(second, []).append(first)
    found, ahead = {root}, [root]
    while ahead:
        new = set(beside.get(ahead.pop(), ())) - found
        found |= new
        ahead += new
    return found


def is_tree_to(root: Hashable, vertices: Sequence[Hashable], pairs: Sequence[Pair], tree: popsample.Tree) -> bool:
    """Whether the arrows are a spanning tree of this graph, edge E of which is pair E, with ways to the root.

    One arrow leaves each vertex but the root, it lies on the edge that it names, and the root is reached against the
    arrows' number: as many edges as vertices but one that join all vertices are a tree.
    """
    tails = [arrow.tail for arrow in tree.arrows]
    on_edges = all({arrow.tail, arrow.head} == set(pairs[arrow.edge]) for arrow in tree.arrows)
    joined = reached(root, [(arrow.tail, arrow.head) for arrow in tree.arrows])
    return on_edges and sorted(map(repr, [*tails, root])) == sorted(map(repr, vertices)) and joined == set(vertices)


def has_no_sink(vertices: Iterable[Hashable], arrows: Iterable[popsample.Arrow]) -> bool:
    """Whether some arrow leaves each vertex."""
    return set(vertices) <= {arrow.tail for arrow in arrows}


def satisfies(clauses: Iterable[Iterable[int]], literals: Sequence[int]) -> bool:
    """Whether the literals name each variable once, and each clause has one of them."""
    counted = [abs(literal) for literal in literals] == list(range(1, len(literals) + 1))
    return counted and all(set(clause) & set(literals) for clause in clauses)


@contextmanager
def file_of(text: str) -> Iterator[Path]:
    """A file with this text."""
    with tempfile.TemporaryDirectory() as folder:
        path = Path(folder, "text")
        path.write_text(text, encoding="utf-8")
        yield path


def until(path: Path) -> str:
    """The words of the shell that wait until a file is there, or a test that waits has failed."""
    return f"for i in $(seq {20 * LIMIT}); do [ ! -e '{path}' ] || break; sleep 0.05; done"


@contextmanager
def program_of(script: str) -> Iterator[None]:
    """A script of the shell in the program's place; $PROGRAM is the program."""
    program = popsample.find_program()
    with file_of(f"#!/bin/sh\nPROGRAM='{program}'\n{script}\n") as path:
        path.chmod(0o755)
        with mock.patch.dict(os.environ, {"POPSAMPLE": str(path), "POPSAMPLE_LIBRARY": ""}):
            yield


def kinds_below(kind: type[Exception]) -> set[type[Exception]]:
    """The exceptions that are of this kind, however far below, but this kind itself."""
    beside = kind.__subclasses__()
    return {*beside, *(below for other in beside for below in kinds_below(other))}


class LikeNumpy:
    """A whole number that is no int, as those of numpy are."""

    def __init__(self, number: int) -> None:
        self.number = number

    def __index__(self) -> int:
        return self.number

    def __eq__(self, other: object) -> bool:
        return self.number == other

    def __hash__(self) -> int:
        return hash(self.number)


numbers.Integral.register(LikeNumpy)


class Refusing(unittest.TestCase):
    """A test that looks at exceptions."""

    def refused(self, kind: type[Exception], call, /, *words, **named) -> Exception:
        """The exception, of this kind, that the call raises."""
        with self.assertRaises(kind) as caught:
            call(*words, **named)
        return caught.exception


def extremal_solution(clauses, key=None, **named):
    """An assignment of an extremal formula, by popping."""
    return popsample.solution(clauses, "extremal", key, **named)


def extremal_solutions(clauses, count, key=None, **named):
    """Assignments of an extremal formula, by popping."""
    return popsample.solutions(clauses, count, "extremal", key, **named)


def rounds_solution(clauses, key=None, **named):
    """An assignment of any formula, by rounds."""
    return popsample.solution(clauses, "rounds", key, **named)
