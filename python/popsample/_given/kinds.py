"""What is sampled of something that was passed: trees or orientations of a graph, or assignments of a formula."""

from __future__ import annotations

import os
from collections.abc import Sequence
from pathlib import Path
from typing import Any

from .._errors.argument_errors import ArgumentError, OptionError
from .formula_input import is_cnf, literal
from .text_input import file_text

KINDS = ("tree", "orientation", "assignment")
ASKED = "say which by kind='tree', kind='orientation' or kind='assignment'"


def kind_of(subject: Any, kind: str | None) -> str:
    """Return what is sampled.

    That is what `kind` says. If it is None, a formula has assignments and a graph spanning trees.

    A list of clauses is distinguished from a list of edges by what it has in it. Negative numbers are in clauses alone,
    pairs and triples alone are edges, and names are in edges alone. Raises OptionError if `kind` is none, and
    ArgumentError if a list may be either.
    """
    if kind is not None:
        if kind not in KINDS:
            raise OptionError("kind", kind, f"one of {', '.join(map(repr, KINDS))}")
        return kind
    if is_cnf(subject):
        return "assignment"
    if isinstance(subject, (str, os.PathLike)):
        return kind_of_text(file_text(Path(subject)))
    if isinstance(subject, (list, tuple)):
        return kind_of_list(subject)
    return "tree"


def kind_of_text(text: bytes) -> str:
    """Return that of a file, by the header of a formula; else it is of a graph, or of none."""
    headers = (line.split()[:2] for line in text.split(b"\n") if line.lstrip()[:1] == b"p")
    return "assignment" if next(headers, []) == [b"p", b"cnf"] else "tree"


def kind_of_list(subject: Sequence[Any]) -> str:
    """Return that of a list of clauses or of edges."""
    if not all(isinstance(item, (list, tuple)) and all(map(is_literal, item)) for item in subject):
        return "tree"
    if any(len(item) not in (2, 3) or any(part < 0 for part in item) for item in subject):
        return "assignment"
    raise ArgumentError(f"A list of {len(subject)} pairs or triples of numbers may be of edges or of clauses: {ASKED}.")


def is_literal(part: Any) -> bool:
    """Return whether something may be a literal."""
    try:
        return literal(part) != 0
    except (TypeError, ValueError):
        return False
