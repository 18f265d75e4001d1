"""Assignments of formulas in conjunctive normal form."""

from __future__ import annotations

from collections.abc import Mapping
from functools import partial
from typing import Any, Unpack

from .._engine.rows import Rows
from .._errors.argument_errors import OptionError
from .._given.arguments import Source, checked_timeout, course_of
from .._given.formula_input import Formula, FormulaInput, Method, read_formula, sampled_formula
from .._given.keys import Key, KeyLike, SeedLike
from .._given.run_options import OPTIONS, RESAMPLE_OPTIONS, ROUNDS_OPTIONS, RunOptions, check_names
from .._given.subject import NUMBERS
from .._results.arrays import AssignmentArrays, assignment_arrays
from .._results.results import Assignment
from ..errors import ClashError
from .assignment_rows import assignment_in
from .history import Asked
from .one_sample import one_sample
from .progress import Progress
from .refusing import ask
from .sample_iterator import Executor, OnExhausted, Samples
from .series import series
from .target import Target

COMMANDS = {"rounds": "rounds", "extremal": "formula"}


def solution(
    clauses: Formula,
    method: Method = "rounds",
    key: KeyLike | None = None,
    *,
    variables: int | None = None,
    seed: SeedLike | None = None,
    sample: int = 0,
    **options: Unpack[RunOptions],
) -> Assignment:
    """Draw a random satisfying assignment of a formula.

    Each satisfying assignment has the same probability.

    Parameters
    ----------
    clauses : Formula
        A list of clauses, each a list of literals: the number of a variable, from 1, or the negative of it; a CNF of
        python-sat; or the path of a DIMACS CNF file.
    method : {"rounds", "extremal"}
        By synchronous rounds, which any formula allows; or by popping one clause after the other, which takes an
        extremal formula. Under one key both give the same assignment of an extremal formula.
    key : str or bytes, optional
        64 hexadecimal digits or 32 bytes, from which all random values come. Default: a random key, which the result
        has.
    variables : int, optional
        How many variables there are, if some are in no clause. Default: the greatest number in a clause.
    seed : int, bytes or generator, optional
        What makes the key: a non-negative integer, 32 bytes, a random.Random, or a Generator, RandomState or
        SeedSequence of numpy.
    sample : int
        The number of the sample under the key, from 0. Samples of different numbers are independent.
    **options : RunOptions
        ``height`` and ``timeout``; for "extremal" also what few callers need: see `RunOptions`.

    Returns
    -------
    Assignment
        A mapping of each variable to whether it is true, with the ``key`` that gives it again.

    Raises
    ------
    ClashError
        If `method` is "extremal" and the formula isn't: two clauses share a variable and can both be false.
    UnsatisfiableError
        If clauses of a list that are joined like a tree by their variables can't all be true.
    ExhaustedError
        If a stack of ``height`` values runs out. Most likely the formula has no solution then.
    ArgumentError
        If an argument can't be taken. It is a ValueError, raised before anything runs.

    See Also
    --------
    solutions : Many assignments under one key.
    resample : One assignment and the log of its pops, whose distribution is unspecified.
    is_extremal, find_clash

    References
    ----------
    .. [1] H. Guo, M. Jerrum and J. Liu, "Uniform sampling through the Lovász local lemma", J. ACM 66(3), 2019.

    Examples
    --------
    >>> import popsample
    >>> popsample.solution([[1], [-1, 2]], key="0" * 64).literals
    (1, 2)
    """
    target = assignment_target(sampled_formula(clauses, variables), method)
    known = ROUNDS_OPTIONS if method == "rounds" else OPTIONS
    return one_sample("solution", target, NUMBERS, key, seed, sample, options, known)


def solutions(
    clauses: Formula,
    count: int | None = None,
    method: Method = "rounds",
    key: KeyLike | None = None,
    *,
    variables: int | None = None,
    seed: SeedLike | None = None,
    first: int = 0,
    executor: Executor | None = None,
    progress: bool | Progress | None = None,
    on_exhausted: OnExhausted = "raise",
    height: int | None = None,
    timeout: float | None = None,
    ahead: int | None = None,
) -> Samples[Assignment, AssignmentArrays]:
    """Draw many random satisfying assignments of a formula.

    Assignment I is that of ``solution(clauses, method, key=key, sample=I)``, whatever makes it.

    Parameters
    ----------
    clauses : Formula
        As of `solution`.
    count : int, optional
        How many assignments. Default: they don't end.
    method, key, variables, seed : object
        As of `solution`.
    first : int
        The number of the first assignment under the key.
    executor, progress, on_exhausted, height, timeout, ahead : object
        As of `samples`.

    Returns
    -------
    Samples
        An iterator over `Assignment`. Its ``arrays()`` are all of them as `AssignmentArrays`.

    Raises
    ------
    ArgumentError, InputRefusal
        As `solution` does, before the first one.
    NeedsLibraryError
        If `method` is "rounds", `count` isn't 1, and no library with the call `popsample_assignments` is found. Without
        it draw each assignment under a key of its own, by `derived_key`.

    See Also
    --------
    solution, samples

    Examples
    --------
    >>> import popsample
    >>> found = popsample.solutions([[1, 2], [-1, 2]], 100, "extremal", key="0" * 64)
    >>> {assignment.literals for assignment in found} == {(1, 2), (-1, 2)}
    True
    """
    target = assignment_target(sampled_formula(clauses, variables), method)
    return series(target, count, key, seed, first, height, timeout, executor, ahead, progress, on_exhausted).begun()


def assignment_target(given: FormulaInput, method: str) -> Target[Assignment, AssignmentArrays]:
    """Return the assignments of a formula, by this method. Raises OptionError if there is no such method."""
    if method not in COMMANDS:
        raise OptionError("method", method, f"one of {', '.join(map(repr, COMMANDS))}")
    by_rounds = method == "rounds"
    result, arrays = partial(assignment_of, by_rounds), partial(assignment_arrays, given.variables)
    return Target(given.problem(by_rounds), given.subject, (COMMANDS[method],), result, arrays)


def assignment_of(
    by_rounds: bool, rows: Rows, row: int, key: Key | None, told: Mapping[str, Any] | None = None
) -> Assignment:
    """Return the assignment of a row, of a run by rounds or by popping."""
    return Assignment(rows, row, key, by_rounds, told)


def resample(
    clauses: Formula,
    key: KeyLike | None = None,
    *,
    variables: int | None = None,
    seed: SeedLike | None = None,
    **options: Unpack[RunOptions],
) -> Assignment:
    """Find a satisfying assignment of a formula by resampling, with the log of its pops.

    The distribution of the result is unspecified, unless the formula is extremal: it depends on the order of the pops.
    `solution` samples any formula exactly.

    Parameters
    ----------
    clauses, key, variables, seed : object
        As of `solution`.
    **options : RunOptions
        All but ``log``: the result always has the log. With several ``workers`` it may differ from call to call.

    Returns
    -------
    Assignment
        The assignment, whose ``log`` has the pops.

    Raises
    ------
    NoWitnessError
        If no pop used the value of ``witness``.
    ExhaustedError, ArgumentError
        As of `solution`.

    See Also
    --------
    solution

    References
    ----------
    .. [1] R. A. Moser and G. Tardos, "A constructive proof of the general Lovász local lemma", J. ACM 57(2), 2010.

    Examples
    --------
    >>> import popsample
    >>> popsample.resample([[1]], stacks=[[0, 0, 1]]).log
    (Pop(event=1, entries={1: 0}, layer=1), Pop(event=1, entries={1: 1}, layer=2))
    """
    check_names("resample", options, RESAMPLE_OPTIONS)
    source = Source(key, seed, options.get("height"), options.get("stacks"))
    made = source.made_key()
    words = [*source.words(made), *course_of(options).words(source)]
    given = sampled_formula(clauses, variables)
    asked = Asked(False, options.get("witness"), options.get("reports", ()))
    words += asked.words_beside(NUMBERS, options.get("pops"))
    timeout = checked_timeout(options.get("timeout"))
    return resampled(given, ["resample", *words], made, Asked(True, asked.witness, asked.reports), timeout)


def resampled(
    given: FormulaInput, words: list[str], key: Key | None, asked: Asked, timeout: float | None
) -> Assignment:
    """Return the assignment that a run of the program with these words has, with what is printed of its log."""
    answer = ask(words, given.subject, key, timeout)
    return assignment_in(answer, key, asked.told(answer, given.subject))


def is_extremal(clauses: Formula, *, timeout: float | None = None) -> bool:
    """Return whether a formula is extremal: any two clauses that share a variable can't both be false.

    Parameters
    ----------
    clauses : Formula
        A formula, as of `solution`.
    timeout : float, optional
        The greatest number of seconds that the call waits. Then `RunTimeoutError` is raised.

    Returns
    -------
    bool
        Whether ``solution(clauses, method="extremal")`` takes it.

    See Also
    --------
    find_clash

    Examples
    --------
    >>> import popsample
    >>> popsample.is_extremal([[1, 2], [-1, 3]]), popsample.is_extremal([[1, 2], [1, 3]])
    (True, False)
    """
    return find_clash(clauses, timeout=timeout) is None


def find_clash(clauses: Formula, *, timeout: float | None = None) -> tuple[int, int] | None:
    """Return the first two clauses that share a variable and can both be false, so that a formula isn't extremal.

    Parameters
    ----------
    clauses : Formula
        A formula, as of `solution`.
    timeout : float, optional
        The greatest number of seconds that the call waits. Then `RunTimeoutError` is raised.

    Returns
    -------
    tuple of int, or None
        The numbers of the two clauses, from 1; None if the formula is extremal.

    See Also
    --------
    is_extremal

    Examples
    --------
    >>> import popsample
    >>> popsample.find_clash([[1, 2], [-1, 3], [1, 3]])
    (1, 3)
    """
    try:
        ask(["check"], read_formula(clauses).subject, None, timeout)
    except ClashError as clash:
        return clash.first, clash.second
    return None
