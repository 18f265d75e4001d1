"""Formulas as they are passed: lists of clauses, those of python-sat, and files."""

from __future__ import annotations

import operator
import os
from array import array
from collections.abc import Iterable, Mapping, Sequence
from dataclasses import dataclass
from functools import partial
from itertools import chain
from pathlib import Path
from typing import Any, Literal, TypeAlias, Union

from .._errors.argument_errors import ArgumentError, InputTypeError, OptionError, UnsatisfiableError, shown
from .arguments import whole
from .components import clause_pairs, tree_part
from .problems import FormulaProblem, formula_text
from .subject import Subject
from .text_input import file_text, has_plain_blanks

# What the functions take as a formula: a list of clauses, each a list of literals; a CNF of python-sat; or the path of
# a DIMACS CNF file.
Formula: TypeAlias = Union[Iterable[Iterable[int]], str, "os.PathLike[str]", Any]
# How an assignment is sampled.
Method: TypeAlias = Literal["rounds", "extremal"]

KINDS = (
    "A formula is a list of clauses, each a list of integers other than 0, a CNF of python-sat, or the path of a "
    "DIMACS CNF file"
)
PATHS = (str, os.PathLike)
# The most variables that a formula has.
VARIABLES = 4194304


@dataclass(frozen=True)
class FormulaInput:
    """A formula: its text, how many variables it has, and its clauses, which are None if a file has errors."""

    subject: Subject
    variables: int
    clauses: Sequence[Sequence[int]] | None = ()

    def problem(self, by_rounds: bool) -> FormulaProblem | None:
        """Return what is sampled, by rounds or by popping; None if a file has errors."""
        if self.clauses is None:
            return None
        flat = array("i", chain.from_iterable((*clause, 0) for clause in self.clauses))
        return FormulaProblem(self.variables, flat, by_rounds)


def literal(value: Any) -> int:
    """Return a literal as a number.

    Raise InputTypeError if it is no integer, and ArgumentError if it is 0 or too large.
    """
    if isinstance(value, bool):
        raise InputTypeError(f"A literal must be an integer, not {value!r}.")
    try:
        number = operator.index(value)
    except TypeError:
        raise InputTypeError(f"A literal must be an integer, not {value!r}.") from None
    if number == 0:
        raise ArgumentError("A literal must not be 0: variables count from 1, and nothing ends a clause of a list.")
    if not -VARIABLES <= number <= VARIABLES:
        raise ArgumentError(f"A literal must be from -{VARIABLES} to {VARIABLES}, not {shown(number)}.")
    return number


def is_cnf(formula: Any) -> bool:
    """Return whether something is a formula of python-sat, which has clauses and the number of its variables."""
    return hasattr(formula, "clauses") and hasattr(formula, "nv")


def clause_literals(clause: Any) -> list[int]:
    """Return the literals of a clause. Raises InputTypeError if it isn't a list of numbers."""
    if isinstance(clause, (str, bytes, Mapping)) or not isinstance(clause, Iterable):
        raise InputTypeError(f"The clause {clause!r} must be a list of integers. {KINDS}.")
    return [literal(value) for value in clause]


def read_formula(formula: Formula, variables: int | None = None) -> FormulaInput:
    """Return the formula of what was passed. `variables` may say how many there are, beyond those in clauses.

    Raises InputTypeError if it is of a kind that isn't read, and ArgumentError if it can't be taken.
    """
    if isinstance(formula, (str, os.PathLike)):
        if variables is not None:
            raise OptionError("variables", variables, "None for a file, whose header says how many there are")
        return read_file(file_text(Path(formula)))
    if isinstance(formula, (bytes, bytearray, Mapping)) or not (is_cnf(formula) or isinstance(formula, Iterable)):
        raise InputTypeError(f"{formula!r} is no formula. {KINDS}.")
    if getattr(formula, "atmosts", None):
        raise ArgumentError("The formula must not have cardinality constraints (atmosts): write them as clauses.")
    given: Any = formula
    clauses = [clause_literals(clause) for clause in (given.clauses if is_cnf(given) else given)]
    declared = given.nv if is_cnf(given) else 0
    return listed(clauses, variable_count(clauses, declared, variables))


def sampled_formula(formula: Formula, variables: int | None) -> FormulaInput:
    """Return the same, of a formula that is to be sampled.

    Raises UnsatisfiableError if clauses of a list that variables join like a tree can't all be true.
    """
    given = read_formula(formula, variables)
    # A tree has leaves, which are clauses of one variable: most formulas have none, and aren't gone through further.
    clauses = given.clauses or ()
    has_leaves = any(len({abs(literal) for literal in clause}) == 1 for clause in clauses)
    stuck = tree_part(len(clauses), clause_pairs(clauses)) if has_leaves and not isinstance(formula, PATHS) else []
    if stuck:
        raise UnsatisfiableError(stuck)
    return given


def variable_count(clauses: Sequence[Sequence[int]], declared: int, variables: int | None) -> int:
    """Return how many variables there are.

    That is what `variables` says, and otherwise what the formula declares, but no less than its clauses have. Raises
    OptionError if `variables` is less than that.
    """
    greatest = max((abs(number) for clause in clauses for number in clause), default=0)
    if variables is None:
        return max(greatest, declared)
    if whole("variables", variables, 0, VARIABLES) < greatest:
        raise OptionError("variables", variables, f"at least {greatest}, a variable of the clauses")
    return operator.index(variables)


def listed(clauses: Sequence[Sequence[int]], variables: int) -> FormulaInput:
    """Return the formula of these clauses, in whose text clause N is in line N + 1."""
    return FormulaInput(Subject(partial(formula_text, variables, clauses)), variables, clauses)


def read_file(text: bytes) -> FormulaInput:
    """Return a formula of a file, whose clauses are None if the program would reject it, which says more about it."""
    rows = [line.split() for line in text.split(b"\n") if line.lstrip()[:1] not in (b"", b"c")]
    header = rows[0] if rows else []
    is_plain = header[:2] == [b"p", b"cnf"] and len(header) == 4 and has_plain_blanks(text)
    if not is_plain or not all(word.isdigit() for word in header[2:]) or int(header[2]) > VARIABLES:
        return FormulaInput(Subject(text), 1, None)
    try:
        return FormulaInput(Subject(text), int(header[2]), file_clauses(rows, int(header[2]), int(header[3])))
    except ValueError:
        return FormulaInput(Subject(text), 1, None)


def file_clauses(rows: Sequence[Sequence[bytes]], variables: int, count: int) -> Sequence[Sequence[int]]:
    """Return the clauses of a file, from the words of its lines.

    Raises ValueError if they aren't as its header says.
    """
    clauses: list[list[int]] = [[]]
    for row in rows[1:]:
        if row[0].startswith(b"%"):
            break
        for word in row:
            digits = word.removeprefix(b"-")
            number = int(word) if digits.isdigit() and len(digits) <= 10 else variables + 1
            if abs(number) > variables or (number == 0 and digits != word):
                raise ValueError(word)
            if number:
                clauses[-1].append(number)
            else:
                clauses.append([])
    if not clauses[-1]:
        clauses.pop()
    if len(clauses) != count or [] in clauses:
        raise ValueError(count)
    return clauses
