"""Certificates of runs that were stopped: how far their logs lead, and how the runs are continued."""

from __future__ import annotations

import os
import re
from dataclasses import dataclass
from pathlib import Path
from typing import Any, TypeAlias, Union

from .._engine.answer import Answer
from .._engine.text_rows import row_of
from .._errors.argument_errors import ArgumentError, InputTypeError, shown
from .._given.arguments import WORKERS, whole
from .._given.graph_input import GraphInput, read_graph, read_text
from .._given.keys import Key
from .._given.problems import OrientationProblem, TreeProblem
from .._given.subject import NUMBERS, Subject
from .._results.results import Assignment, Orientation, Replayed, Tree
from .assignment_rows import assignment_in
from .graphs import orientation_of, tree_of
from .history import Asked
from .refusing import ask, ask_replay

# The bytes of a certificate, as `Paused` has them, or the path of a file.
Certificate: TypeAlias = Union[bytes, bytearray, str, "os.PathLike[str]"]

HEAD = re.compile(
    rb"cert 1 ([a-z]+)\n(?:key ([0-9a-f]{64})\nheight [0-9]+\n|stacks.*\n)"
    rb"(?:root ([0-9]{1,10})\n)?input ([0-9]{1,10})\n"
)


def replay(
    certificate: Certificate, *, graph: Any = None, weight: Any = None, timeout: float | None = None
) -> Replayed:
    """Verify the log of a certificate, and return how far it leads.

    Parameters
    ----------
    certificate : bytes, str or os.PathLike
        What `Paused` has, or the path of a file.
    graph : GraphLike, optional
        The graph that was sampled, so that vertices and edges have their names. Default: they have numbers, from 1.
    weight : str, optional
        As of `spanning_tree`, if `graph` is given.
    timeout : float, optional
        The greatest number of seconds that the call waits. Then `RunTimeoutError` is raised.

    Returns
    -------
    Replayed
        How many pops there are, and where they end.

    Raises
    ------
    NotLegalError
        If a record of the log isn't valid.
    MalformedError
        If the certificate is none.
    ArgumentError
        If `graph` isn't the graph of the certificate.

    See Also
    --------
    resume
    """
    read = read_certificate(certificate, graph, weight)
    answer = ask_replay(read.subject, read.key, timeout)
    return Replayed(int(answer.row("s")[1]), read.used(answer), answer.row("end")[0], read.key)


def resume(
    certificate: Certificate,
    workers: int = 1,
    *,
    graph: Any = None,
    weight: Any = None,
    timeout: float | None = None,
) -> Tree | Orientation | Assignment:
    """Continue a run that was stopped, from the log of its certificate.

    Parameters
    ----------
    certificate : bytes, str or os.PathLike
        As of `replay`.
    workers : int
        How many threads of the program share the pops that are left, from 1 to 64.
    graph, weight, timeout : object
        As of `replay`.

    Returns
    -------
    Tree, Orientation or Assignment
        What the run would have given if it hadn't been stopped; of `resample`, whose order of pops is free, an
        assignment whose log has the pops of the certificate.

    Raises
    ------
    NotLegalError, MalformedError, ArgumentError
        As of `replay`.
    ExhaustedError
        If the run is exhausted.

    See Also
    --------
    replay
    """
    words = ["resume", "--workers", str(whole("workers", workers, 1, WORKERS))]
    read = read_certificate(certificate, graph, weight)
    return read.result(ask(words, read.subject, read.key, timeout))


@dataclass(frozen=True)
class Read:
    """A certificate as it was read, and its graph: of a formula one of numbers alone."""

    subject: Subject
    given: GraphInput
    key: Key | None = None
    root: int = 1

    def used(self, answer: Answer) -> dict[Any, int]:
        """Return how many values of each variable were popped. In a tree these are the vertices but the root."""
        counts = answer.numbers("used")
        left_out = self.root if self.subject.command == "tree" else 0
        numbers = (number for number in range(1, len(counts) + 2) if number != left_out)
        return {self.subject.variable(number): count for number, count in zip(numbers, counts)}

    def result(self, answer: Answer) -> Tree | Orientation | Assignment:
        """Return what the command of the certificate gives."""
        given, ends = self.given, self.given.ends
        if self.subject.command in ("tree", "orient"):
            assert ends is not None
        if self.subject.command == "tree":
            tree = TreeProblem(len(given.vertices), ends, given.weights, self.root - 1)
            return tree_of(given, self.root - 1, row_of(tree, answer), 0, self.key)
        if self.subject.command == "orient":
            return orientation_of(given, row_of(OrientationProblem(len(given.vertices), ends), answer), 0, self.key)
        is_logged = self.subject.command == "resample"
        told = Asked(True, None, ()).told(answer, self.subject) if is_logged else None
        return assignment_in(answer, self.key, told)


def certificate_bytes(certificate: Certificate) -> bytes:
    """Return the bytes of a certificate. Raises InputTypeError if it is neither bytes nor the path of a file."""
    if isinstance(certificate, (bytes, bytearray)):
        return bytes(certificate)
    if isinstance(certificate, (str, os.PathLike)):
        return Path(certificate).read_bytes()
    raise InputTypeError(f"A certificate must be bytes or the path of a file, not {shown(certificate)}.")


def read_certificate(certificate: Certificate, graph: Any, weight: Any) -> Read:
    """Return what a certificate has in it.

    Whether it is one the program says: if its head can't be read, it has nothing.

    Raises ArgumentError, a ValueError, if a graph is passed that isn't its input.
    """
    data = certificate_bytes(certificate)
    head = HEAD.match(data)
    end = head.end() + int(head[4]) if head else len(data)
    text, log = (data[head.end() : end], data[end:]) if head else (b"", b"")
    command = head[1].decode() if head else None
    given = GraphInput(NUMBERS, NUMBERS, None, source=text)
    if graph is not None:
        given = read_graph(graph, weight)
    elif command in ("tree", "orient"):
        given = read_text(text)
    if head and given.text != text:
        raise ArgumentError("The certificate is of another graph: pass the one that was sampled, or none.")
    variables = given.edges if command == "orient" else given.vertices
    subject = Subject(text, given.vertices, variables, None, data, command, log)
    key = Key(head[2].decode()) if head and head[2] else None
    return Read(subject, given, key, int(head[3] or 1) if head else 1)
