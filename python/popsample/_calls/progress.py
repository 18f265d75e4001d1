"""How far an iterator is: a bar of tqdm if that is installed, or whatever the caller shows."""

from __future__ import annotations

import importlib
import time
import warnings
from collections.abc import Callable
from typing import Any

from .._errors.argument_errors import OptionError

# What is called with how many samples were made, and how many there are; None if they don't end.
Progress = Callable[[int, "int | None"], Any]
# A caller is told at most once in so many seconds, and at the end.
PAUSE = 0.1


class Bar:
    """A bar of tqdm, or of a class that is made and called like it."""

    def __init__(self, kind: Any, count: int | None) -> None:
        self.bar = kind(total=count, unit="sample")
        self.shown = 0

    def __call__(self, done: int, count: int | None) -> None:
        """Show how many are done, and end after the last one."""
        self.bar.update(done - self.shown)
        self.shown = done
        if done == count:
            self.bar.close()


class Seldom:
    """Calls another progress at most once in a while, and at the end."""

    def __init__(self, called: Progress) -> None:
        self.called = called
        self.last = 0.0

    def __call__(self, done: int, count: int | None) -> None:
        """Show how many are done, if it is time to."""
        now = time.monotonic()
        if now - self.last >= PAUSE or done == count:
            self.last = now
            self.called(done, count)


def no_progress(done: int, count: int | None) -> None:
    """Show nothing."""


def progress_of(progress: bool | Progress | None, count: int | None) -> Progress:
    """Return what is called for what was passed: True is a bar of tqdm, and a class is made like one.

    If tqdm isn't installed, a warning says that there is no bar. Raise OptionError if it is neither a bool nor
    callable.
    """
    if progress is None or progress is False:
        return no_progress
    if isinstance(progress, type):
        return Seldom(Bar(progress, count))
    if progress is not True:
        if callable(progress):
            return Seldom(progress)
        raise OptionError("progress", progress, "a bool, a class such as tqdm.tqdm, or a function of two numbers")
    try:
        return Seldom(Bar(importlib.import_module("tqdm").tqdm, count))
    except ImportError:
        warnings.warn("tqdm isn't installed, so progress=True shows no bar", stacklevel=4)
        return no_progress
