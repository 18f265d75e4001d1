"""What is sampled: its numbers and its names, and how results are made."""

from __future__ import annotations

from collections.abc import Callable, Mapping, Sequence
from dataclasses import dataclass
from typing import Any, Generic, TypeVar

from .._engine.engine import Request, draw
from .._engine.exhausted_rows import stuck_in
from .._engine.refused import CallRefusedError, TextRefusedError
from .._engine.rows import Rows
from .._engine.text_rows import row_of
from .._engine.watch import Watch
from .._given.keys import Key
from .._given.problems import OrientationProblem, Problem, TreeProblem
from .._given.subject import Subject
from ..errors import ExhaustedError, OutOfMemoryError
from .history import Asked
from .refusing import ask, told_refusal

Result = TypeVar("Result")
Arrays = TypeVar("Arrays")


@dataclass(frozen=True)
class Target(Generic[Result, Arrays]):
    """What is sampled of a subject.

    `problem` is None if the subject is a text with errors, which the program reports. `words` are the command and its
    own options. `result` makes a result of a row, the key, and what was printed of its log, and `arrays` makes arrays
    of rows.
    """

    problem: Problem | None
    subject: Subject
    words: tuple[str, ...]
    result: Callable[[Rows, int, Key | None, Mapping[str, Any] | None], Result]
    arrays: Callable[[Sequence[Rows]], Arrays]
    weight_error: float | None = None

    @property
    def variables(self) -> int:
        """How many variables a sample has."""
        return 1 if self.problem is None else self.problem.variables

    def request(self, key: Key, height: int | None) -> Request:
        """Return what is asked for under a key."""
        text = self.subject.text if self.problem is None else b""
        return Request(self.problem, self.words, key, height, text)

    def one(self, key: Key, height: int | None, sample: int, timeout: float | None) -> Result:
        """Return the sample of this number under a key. Raises what it is refused for."""
        request = self.request(key, height)
        try:
            rows = draw(request, sample, 1, Watch(timeout))
        except (CallRefusedError, TextRefusedError, OutOfMemoryError) as refused:
            raise self.refusal(refused, key) from None
        return self.told(rows, 0, request)

    def refusal(self, refused: Exception, key: Key) -> Exception:
        """Return the exception for what was answered in place of samples."""
        if isinstance(refused, (CallRefusedError, TextRefusedError)):
            return told_refusal(refused, self.subject, key)
        if isinstance(refused, OutOfMemoryError):
            refused.key = key
        return refused

    def told(self, rows: Rows, row: int, request: Request) -> Result:
        """Return the result of a row. Raises ExhaustedError if its run was exhausted."""
        if rows.is_exhausted(row):
            raise self.exhausted(rows, row, request)
        return self.result(rows, row, request.key, None)

    def exhausted(self, rows: Rows, row: int, request: Request) -> ExhaustedError:
        """Return the exception of a row whose run was exhausted."""
        problem = self.problem
        assert problem is not None
        stuck = stuck_in(problem, rows, row, request.stack_height())
        used = list(rows.used_row(row))
        if isinstance(problem, TreeProblem):
            del used[problem.root]
            events: list[Any] = [tuple(map(self.subject.vertex, event)) for event in stuck.events]
            where = f"the cycle of {', '.join(map(repr, events[0]))}"
        elif isinstance(problem, OrientationProblem):
            events = [self.subject.vertex(event[0]) for event in stuck.events]
            where = f"vertex {events[0]!r}"
        else:
            events = [event[0] for event in stuck.events]
            where = f"clause {events[0]!r}"
        count, by_rounds = rows.pops(row), self.words[0] == "rounds"
        pops, rounds = (None, count) if by_rounds else (count, None)
        raised = ExhaustedError(where, events, used, pops, (), rounds, stuck.short)
        raised.key, raised.sample = request.key, rows.first + row
        return raised

    def asked(self, words: list[str], key: Key | None, asked: Asked, timeout: float | None) -> Result:
        """Return the result of a run of the program with these words, and what is printed of its log."""
        answer = ask([*self.words, *words], self.subject, key, timeout)
        assert self.problem is not None
        told = asked.told(answer, self.subject)
        return self.result(row_of(self.problem, answer), 0, key, told)
