"""From an answer of the program, or of a call of the library, to the exception for it."""

from __future__ import annotations

from collections.abc import Callable, Sequence
from typing import Any

from .. import errors
from .._engine.answer import Answer, read_answer
from .._engine.program import printed
from .._engine.refused import CallRefusedError, TextRefusedError
from .._given.arguments import checked_timeout
from .._given.subject import Subject
from ..errors import Refusal
from .history import read_log

Numbers = list[int]
# A status, and what was printed.
Told = tuple[int, bytes]

# The code of a line of a log that can't stand there.
LOG_LINE = 31

# For the first line of each refusal that has numbers, what it is raised as.
REFUSALS: dict[str, Callable[[Numbers, Answer, Subject], Refusal]] = {
    "USAGE": lambda numbers, answer, _: errors.UsageError(numbers[0], word_at(answer, numbers[0])),
    "MALFORMED": lambda numbers, _, subject: malformed(numbers[0], numbers[1], subject),
    "COUNT": lambda numbers, *_: errors.CountError(*numbers),
    "ROWS": lambda numbers, *_: errors.RowsError(*numbers),
    "EMPTYROW": lambda numbers, _, subject: errors.EmptyRowError(subject.variable(numbers[0])),
    "VALUE": lambda numbers, _, subject: errors.EntryError(subject.variable(numbers[0]), numbers[1]),
    "LIMIT": lambda numbers, _, subject: limit(numbers, subject),
    "CLASH": lambda numbers, _, subject: clash(numbers, subject),
    "EMPTY": lambda numbers, *_: errors.EmptyClauseError(*numbers),
    "ISOLATED": lambda numbers, _, subject: errors.IsolatedError(subject.vertex(numbers[0])),
    "ROOT": lambda numbers, _, subject: errors.RootError(numbers[0] if subject.root is None else subject.root),
    "CUTOFF": lambda numbers, _, subject: errors.CutOffError(subject.vertex(numbers[0])),
    "NOTLEGAL": lambda numbers, _, subject: errors.NotLegalError(numbers[0], subject.line(numbers[0] + 1, LOG_LINE)),
    "READFAULT": lambda *_: errors.ReadError(),
    "MEMORY": lambda *_: errors.OutOfMemoryError(),
}


# What follows the sentence of a limit of weights in Python.
ADVICE = " With weight_bits=, weights are rounded so that they fit."

# For each kind of refusal of a call of the library, what it is raised as; places count from 0.
CALL_REFUSALS: dict[int, Callable[[int, Subject], Exception]] = {
    1: lambda place, _: errors.LimitError(2, 4194305, "vertex"),
    3: lambda place, _: errors.LimitError(5, 8388609, "edge"),
    7: lambda place, subject: errors.RootError(place if subject.root is None else subject.root),
    8: lambda place, subject: errors.CutOffError(subject.vertex(place + 1)),
    9: lambda place, subject: errors.LimitError(6, subject.vertex(place + 1), advice=ADVICE),
    10: lambda place, subject: errors.IsolatedError(subject.vertex(place + 1)),
    11: lambda place, _: errors.LimitError(2, 4194305, "variable"),
    12: lambda place, _: errors.LimitError(4, 33554433, "literal"),
    15: lambda place, _: errors.EmptyClauseError(place),
    16: lambda place, subject: clash([place >> 32, place & 0xFFFFFFFF], subject),
}


def call_refusal(kind: int, place: int, subject: Subject) -> Exception:
    """Return the exception for a refusal of a call of the library."""
    if kind in CALL_REFUSALS:
        return CALL_REFUSALS[kind](place, subject)
    return errors.NoAnswerError(2, f"refusal {kind} at {place}")


def told_refusal(refused: CallRefusedError | TextRefusedError, subject: Subject, key: str | None) -> Exception:
    """Return the exception for what was answered in place of a sample, by the names of the subject."""
    if isinstance(refused, TextRefusedError):
        return advised(under_key(refused.words, (refused.status, refused.text), subject, key))
    raised = call_refusal(refused.kind, refused.place, subject)
    if isinstance(raised, Refusal):
        raised.key = key
    return raised


def advised(raised: Exception) -> Exception:
    """Return the exception, with what to do in Python about weights that are too large."""
    if isinstance(raised, errors.LimitError) and raised.kind == 6:
        told = errors.LimitError(6, raised.place, advice=ADVICE)
        told.key = raised.key
        return told
    return raised


def word_at(answer: Answer, place: int) -> str | None:
    """Return the word at a place, from 1; none after the last one."""
    return answer.words[place - 1] if place <= len(answer.words) else None


def malformed(line: int, code: int, subject: Subject) -> Refusal:
    """Return the line that is invalid."""
    return errors.MalformedError(line, code, subject.line(line, code), subject.part(code)[0])


def limit(numbers: Numbers, subject: Subject) -> Refusal:
    """Return the limit that is exceeded.

    Of kind 6 it is so at a vertex, of the kinds 7 and 8 by a certificate, of kind 9 by the samples of a batch, and
    otherwise at a line.
    """
    kind, place = numbers
    if kind == 9:
        return errors.TooManySamplesError(place)
    if kind in (7, 8):
        return errors.TooLongError(kind)
    return errors.LimitError(kind, subject.vertex(place) if kind == 6 else place)


def clash(numbers: Numbers, subject: Subject) -> Refusal:
    """Return the two clauses that clash, with their literals."""
    first, second = numbers
    return errors.ClashError(first, second, (subject.clause(first), subject.clause(second)))


def stuck_events(answer: Answer, subject: Subject) -> list[Any]:
    """Return what follows each `stuck`: the number of a clause, a vertex, or the vertices of a cycle."""
    rows = [[int(word) for word in row] for row in answer.rows("stuck")]
    command = subject.command_of(answer.words)
    if command == "orient":
        return [subject.vertex(row[0]) for row in rows]
    if command == "tree":
        return [tuple(map(subject.vertex, row)) for row in rows]
    return [row[0] for row in rows]


def exhausted(answer: Answer, subject: Subject) -> errors.ExhaustedError:
    """Return the end of a run that came to the end of a stack."""
    stuck = stuck_events(answer, subject)
    command = subject.command_of(answer.words)
    if command == "tree":
        where = f"the cycle of {', '.join(map(repr, stuck[0]))}"
    else:
        where = f"{'vertex' if command == 'orient' else 'clause'} {stuck[0]!r}"
    counted = (answer.number("pops"), read_log(answer, subject), answer.number("rounds"), answer.number("short"))
    return errors.ExhaustedError(where, stuck, answer.numbers("used"), *counted)


def refusal(answer: Answer, subject: Subject) -> Exception:
    """Return the exception for an answer without a sample."""
    first = answer.row("s")
    if answer.status == errors.WriteError.status:
        return errors.WriteError()
    if answer.status == errors.OutOfMemoryError.status:
        return errors.OutOfMemoryError()
    if answer.row("witness")[:1] == ["none"]:
        return errors.NoWitnessError(*map(int, answer.row("witness")[1:]))
    if first == ["EXHAUSTED"]:
        return exhausted(answer, subject)
    if first and first[0] in REFUSALS:
        return REFUSALS[first[0]]([int(word) for word in first[1:]], answer, subject)
    return errors.NoAnswerError(answer.status, " ".join(["s", *first]) if first else "")


def under_key(words: Sequence[str], told: Told, subject: Subject, key: str | None) -> Exception:
    """Return the same of a status and a printed text, with the key of the call. Of a certificate no line is read."""
    status, text = told
    is_certificate = status == errors.Paused.status and text.startswith(b"cert ")
    raised = errors.Paused(text) if is_certificate else refusal(read_answer(words, status, text), subject)
    if isinstance(raised, (Refusal, errors.Paused)):
        raised.key = key
    return raised


def ask(words: list[str], subject: Subject, key: str | None = None, timeout: float | None = None) -> Answer:
    """Return the program's answer with status 0; any other is raised, with the key of the call."""
    status, text = printed(words, subject.given, checked_timeout(timeout))
    if status == 0:
        return checked_answer(words, text)
    raise advised(under_key(words, (status, text), subject, key))


def checked_answer(words: Sequence[str], text: bytes) -> Answer:
    """Return the answer with status 0 that a text is. Raise NoAnswerError if it is none."""
    answer = read_answer(words, 0, text)
    if not answer.row("s"):
        raise errors.NoAnswerError(0, text[:40].decode("utf-8", "replace"))
    return answer


def ask_replay(subject: Subject, key: str | None, timeout: float | None = None) -> Answer:
    """Return the answer that the log of a certificate is legal; any other is raised."""
    words = ["replay"]
    status, text = printed(words, subject.given, checked_timeout(timeout))
    if status in (0, 1, errors.Paused.status) and text.startswith(b"s LEGAL "):
        return read_answer(words, status, text)
    raise under_key(words, (status, text), subject, key)
