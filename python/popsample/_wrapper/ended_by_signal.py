"""Signals that end the wrapper, so that what it began is ended too."""

from __future__ import annotations

import signal
from collections.abc import Iterator
from contextlib import contextmanager
from types import FrameType

# What `kill` sends by default, and what a terminal sends when it is closed.
SIGNALS = (signal.SIGTERM, signal.SIGHUP)
# The status of a shell is the sum of this and the signal's number.
SIGNALLED = 128

# The first signal that came, if any.
came: list[int] = []
# Whether the end waits for a step that must not be interrupted; there is one entry for each.
held: list[None] = []


def end(number: int, frame: FrameType | None) -> None:
    """Raise SystemExit with the status of a shell, once: a second such signal doesn't disturb the end."""
    if not came:
        came.append(number)
        if not held:
            check_signals()


@contextmanager
def signals_held() -> Iterator[None]:
    """Let a signal that comes during a step, such as a fork, wait until `check_signals` is called.

    Python drops what a handler raises within its own calls around a fork, and prints it.
    """
    held.append(None)
    try:
        yield
    finally:
        held.pop()


def check_signals() -> None:
    """Raise SystemExit if a signal came before."""
    if came:
        raise SystemExit(SIGNALLED + came[0])


@contextmanager
def ended_by_signals() -> Iterator[None]:
    """Raise SystemExit when such a signal comes. A signal that is ignored or handled stays so.

    Only the main thread may decide on signals, so in another one nothing changes.
    """
    before = {}
    try:
        for number in SIGNALS:
            if signal.getsignal(number) is signal.SIG_DFL:
                before[number] = signal.signal(number, end)
    except ValueError:
        pass
    try:
        yield
    finally:
        for number, handler in before.items():
            signal.signal(number, handler)
        came.clear()
