"""The arguments of a call: each is checked before anything runs, and becomes words for the program."""

from __future__ import annotations

import numbers
import operator
from collections.abc import Mapping, Sequence
from dataclasses import dataclass
from typing import Any

from .._errors.argument_errors import OptionError
from .keys import Key, KeyLike, SeedLike, key_of
from .run_options import Stacks

# The greatest values, of docs/FORMATS.md, and of seconds.
WORKERS = 64
HEIGHT = 2**31 - 1
POPS = ENTRY = 2**32 - 1
# The height if none is given.
DEFAULT_HEIGHT = 2**20
# The greatest number of a sample under a key.
SAMPLE = 2**32 - 1
# The longest word that the system hands to a program.
WORD = 131000
SECONDS = 10**6
REPORTS = ("totals", "heights", "layers")


def whole(argument: str, value: Any, least: int, most: int | None = None) -> int:
    """Return an integer in these bounds, of which the greater may be missing. Raise OptionError if it is none."""
    wanted = "a non-negative integer" if (least, most) == (0, None) else f"an integer of at least {least}"
    if most is not None:
        wanted = f"an integer from {least} to {most}"
    if isinstance(value, bool):
        raise OptionError(argument, value, wanted)
    try:
        number = operator.index(value)
    except TypeError:
        raise OptionError(argument, value, wanted) from None
    if number < least or (most is not None and number > most):
        raise OptionError(argument, value, wanted)
    return number


def checked_timeout(timeout: Any) -> float | None:
    """Return a number of seconds, or None. Raise OptionError if it is none, or more than can be waited for."""
    if timeout is None:
        return None
    seconds = float(timeout) if isinstance(timeout, numbers.Real) else 0.0
    if 0 < seconds <= SECONDS:
        return seconds
    raise OptionError("timeout", timeout, f"a number of seconds above 0, up to {SECONDS}")


def rows_word(stacks: Stacks) -> str:
    """Return the word that gives rows of values. Raise OptionError if they aren't rows of non-negative integers."""
    wanted = f"a sequence of rows, each of integers from 0 to {ENTRY}"
    try:
        rows = [[operator.index(entry) for entry in row] for row in stacks]
    except TypeError:
        raise OptionError("stacks", stacks, wanted) from None
    if any(not 0 <= entry <= ENTRY for row in rows for entry in row):
        raise OptionError("stacks", stacks, wanted)
    if rows == [[]]:
        # An empty word says that there is no row.
        raise OptionError("stacks", stacks, "rows of which a single one isn't empty")
    word = ";".join(",".join(map(str, row)) for row in rows)
    if len(word) > WORD:
        raise OptionError("stacks", stacks, f"at most {WORD} characters long when written as text")
    return word


@dataclass(frozen=True)
class Source:
    """Where the values of a run come from: a key or a seed, and a height, or rows in their place; and which sample."""

    key: KeyLike | None = None
    seed: SeedLike | None = None
    height: int | None = None
    stacks: Stacks | None = None
    sample: int = 0

    def number(self) -> int:
        """Return the number of the sample."""
        return whole("sample", self.sample, 0, SAMPLE)

    def top(self) -> int:
        """Return the number of values that each variable has."""
        return DEFAULT_HEIGHT if self.height is None else whole("height", self.height, 1, HEIGHT)

    def made_key(self) -> Key | None:
        """Return the key, a random one if nothing is given, and None if rows are."""
        if self.stacks is None:
            return key_of(self.key, self.seed)
        for argument in ("key", "seed", "height"):
            value = getattr(self, argument)
            if value is not None:
                raise OptionError(argument, value, "None if stacks= is given")
        return None

    def words(self, key: Key | None) -> list[str]:
        """Return the words that say where the values come from, if this is the key."""
        if key is None:
            return ["--stacks", rows_word(self.stacks or [])]
        height = [] if self.height is None else ["--height", str(self.top())]
        return ["--key", key, *height]


@dataclass(frozen=True)
class Course:
    """How a run goes.

    `workers` share it, it grows up to the height `grow`, and it is stopped after `pops` pops, which goes with one
    worker alone.
    """

    workers: int = 1
    grow: int | None = None
    pops: int | None = None

    def words(self, source: Source) -> list[str]:
        """Return the words that say it, of a run on these values."""
        workers = whole("workers", self.workers, 1, WORKERS)
        words = []
        if self.grow is not None:
            if source.stacks is not None:
                raise OptionError("grow", self.grow, "None if stacks= is given")
            words += ["--grow", str(whole("grow", self.grow, 1, HEIGHT))]
        if self.pops is None:
            return [*words, "--workers", str(workers)]
        if self.grow is not None:
            raise OptionError("grow", self.grow, "None if pops= is given")
        if workers != 1:
            raise OptionError("workers", workers, "1 if pops= is given")
        return [*words, "--pops", str(whole("pops", self.pops, 1, POPS))]


def course_of(options: Mapping[str, Any]) -> Course:
    """Return how a run with these options goes."""
    return Course(options.get("workers", 1), options.get("grow"), options.get("pops"))


def report_names(reports: Sequence[str]) -> list[str]:
    """Return the names of reports. Raise OptionError if there is no such report, or one is repeated."""
    try:
        names = [reports] if isinstance(reports, str) else list(reports)
        is_known = len(set(names)) == len(names) and set(names) <= set(REPORTS)
    except TypeError:
        is_known = False
    if not is_known:
        raise OptionError("reports", reports, f"a sequence of some of {', '.join(map(repr, REPORTS))}, each once")
    return names
