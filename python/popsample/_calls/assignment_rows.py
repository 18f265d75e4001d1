"""The assignment in an answer of the program."""

from __future__ import annotations

from array import array
from collections.abc import Mapping
from typing import Any

from .._engine.answer import Answer
from .._engine.text_rows import row_of
from .._given.keys import Key
from .._given.problems import FormulaProblem
from .._results.results import Assignment


def assignment_in(answer: Answer, key: Key | None, told: Mapping[str, Any] | None = None) -> Assignment:
    """Return the assignment that an answer has, with what was printed of its log."""
    problem = FormulaProblem(len(answer.numbers("used")), array("i"), False)
    return Assignment(row_of(problem, answer), 0, key, False, told)
