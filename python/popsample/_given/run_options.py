"""The options of runs that few callers need, in one place."""

from __future__ import annotations

from collections.abc import Hashable, Iterable, Sequence
from typing import Any, TypedDict

Stacks = Iterable[Iterable[int]]


class RunOptions(TypedDict, total=False):
    """Options of a run that few callers need. Each is a keyword argument of the functions for one sample.

    Attributes
    ----------
    height : int
        How many random values each variable has, from 1 to 2**31 - 1. Default: 1048576. If a stack of this many values
        runs out, `ExhaustedError` is raised.
    timeout : float
        The greatest number of seconds that a call waits. Then `RunTimeoutError` is raised, a TimeoutError.
    stacks : iterable of iterables of int
        Rows of values, one row for each variable, in place of a key.
    grow : int
        Make the run in stages, at heights that double from `height` to `grow`. The result is that of the height
        `grow`.
    workers : int
        How many threads of the program share one run, from 1 to 64. It changes no result but that of `resample`, and
        rarely makes a run faster.
    log : bool
        Whether the result has the log of the pops.
    witness : tuple of hashable and int
        A variable (a vertex of a tree, an edge of an orientation as its arrows name it, or the number of a formula's
        variable) and the place of one of its values, from 0. The result has the witness tree of the pop that used it.
    reports : sequence of str
        Which reports on the log the result has: some of ``totals``, ``heights`` and ``layers``.
    pops : int
        Stop the run after so many pops. If it isn't at its end then, `Paused` is raised, with a certificate.

    Notes
    -----
    ``workers``, ``grow``, ``stacks``, ``log``, ``witness``, ``reports`` and ``pops`` run the program, and go with
    ``sample=0`` alone.
    """

    height: int | None
    timeout: float | None
    stacks: Stacks | None
    grow: int | None
    workers: int
    log: bool
    witness: tuple[Hashable, int] | None
    reports: Sequence[str]
    pops: int | None


def check_names(function: str, options: Any, known: frozenset[str]) -> None:
    """Raise TypeError if some option isn't known, as Python does for an unknown argument."""
    for name in options:
        if name not in known:
            raise TypeError(f"{function}() got an unexpected keyword argument {name!r}")


OPTIONS = frozenset(RunOptions.__annotations__)
# What a run by rounds takes, and a log that is always there.
ROUNDS_OPTIONS = frozenset({"height", "timeout", "stacks"})
RESAMPLE_OPTIONS = OPTIONS - {"log"}
