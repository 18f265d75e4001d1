"""The log of a run, its witness trees and its reports: the words that ask for them, and what is printed."""

from __future__ import annotations

from collections.abc import Hashable, Sequence
from dataclasses import dataclass
from typing import Any

from .._engine.answer import Answer
from .._errors.argument_errors import OptionError
from .._given.arguments import ENTRY, report_names, whole
from .._given.subject import Subject
from .._results.results import Layers, Pop, Totals, WitnessVertex


@dataclass(frozen=True)
class Asked:
    """What is asked of a run's log: the log itself, the witness of an entry of a variable, and reports by name."""

    log: bool
    witness: tuple[Hashable, int] | None
    reports: Sequence[str]

    def words(self, variables: Sequence[Hashable]) -> list[str]:
        """Return the words that ask for it, if these are the variables."""
        words = ["--log", "on"] if self.log else []
        if self.witness is not None:
            words += ["--witness", witness_word(self.witness, variables)]
        if self.reports:
            words += ["--report", ",".join(report_names(self.reports))]
        return words

    def words_beside(self, variables: Sequence[Hashable], pops: int | None) -> list[str]:
        """Return the same, if the run may be stopped after so many pops.

        Raises OptionError if it is, and something is asked for.
        """
        for argument in ("log", "witness", "reports"):
            value = getattr(self, argument)
            if pops is not None and value:
                raise OptionError(argument, value, "left out if pops= is given")
        return self.words(variables)

    def told(self, answer: Answer, subject: Subject) -> dict[str, Any]:
        """Return what an answer has of it, by the names of the fields of a `History`."""
        reports = {row[0]: tuple(map(int, row[1:])) for row in answer.rows("report")}
        return {
            "log": read_log(answer, subject) if self.log else None,
            "witness": None if self.witness is None else read_witness(answer, subject),
            "totals": Totals(*reports["totals"]) if "totals" in reports else None,
            "heights": reports.get("heights"),
            "layers": Layers(*reports["layers"]) if "layers" in reports else None,
        }


def witness_word(witness: tuple[Hashable, int], variables: Sequence[Hashable]) -> str:
    """Return the word that asks for the witness of an entry of a variable.

    Raises OptionError if it is no such pair.
    """
    if not isinstance(witness, (tuple, list)) or len(witness) != 2:
        raise OptionError("witness", witness, "a pair of a variable and the place of one of its values")
    name, entry = witness
    return f"{place_of(name, variables) + 1},{whole('witness', entry, 0, ENTRY)}"


def place_of(name: Hashable, names: Sequence[Hashable]) -> int:
    """Return the place of a name, from 0; the number of the names where it is none of them."""
    if isinstance(names, range):
        # One that looks for what is no int goes through all of its numbers.
        number = whole_number(name)
        if number is None:
            return len(names)
        name = number
    try:
        return names.index(name)
    except ValueError:
        return len(names)


def whole_number(name: Any) -> int | None:
    """Return the int that a name equals, as 1.0 equals 1; None if there is none."""
    try:
        number = int(name)
    except (TypeError, ValueError, OverflowError):
        return None
    return number if number == name else None


def event_of(answer: Answer, subject: Subject, word: str) -> Hashable:
    """Return the event of a number: a vertex of a graph, or the number of a clause."""
    of_graph = subject.command_of(answer.words) in ("orient", "tree")
    return subject.vertex(int(word)) if of_graph else int(word)


def pairs_of(subject: Subject, words: Sequence[str], sign: str) -> dict[Hashable, int]:
    """Return the pairs of a variable and a number that are joined by this sign."""
    parts = (word.partition(sign) for word in words)
    return {subject.variable(int(first)): int(second) for first, _, second in parts}


def read_log(answer: Answer, subject: Subject) -> tuple[Pop, ...]:
    """Return the pops that were printed; none if no log was."""
    return tuple(
        Pop(event_of(answer, subject, row[1]), pairs_of(subject, row[2:], ":"), int(row[0]))
        for row in answer.rows("pop")
    )


def read_witness(answer: Answer, subject: Subject) -> tuple[WitnessVertex, ...]:
    """Return the vertices of the witness tree that were printed."""
    return tuple(
        WitnessVertex(int(row[0]), event_of(answer, subject, row[1]), pairs_of(subject, row[2:], "="))
        for row in answer.rows("wit")
    )
