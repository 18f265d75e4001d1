"""The start of the program, which ends with the process that started it."""

from __future__ import annotations

import ctypes
import os
import signal
import subprocess
import sys
from collections.abc import Callable, Sequence
from functools import cache
from typing import Any

# The number of `prctl` under which a process asks for a signal at the death of the thread that started it (prctl(2)).
PR_SET_PDEATHSIG = 1


@cache
def prctl() -> Any:
    """Return the call of Linux's C library, or None if there is none.

    It keeps Python's lock, since a process that was forked has no other thread that would give it back.
    """
    call = getattr(ctypes.PyDLL(None), "prctl", None) if sys.platform == "linux" else None
    if call is not None:
        call.argtypes = [ctypes.c_int, ctypes.c_ulong]
    return call


def bound_to_parent() -> Callable[[], None] | None:
    """Return what a new process does first, so that it is killed when the thread that starts it ends.

    It is None if that can't be asked for.
    """
    call, parent = prctl(), os.getpid()
    if call is None:
        return None

    def bind() -> None:
        call(PR_SET_PDEATHSIG, signal.SIGKILL)
        if os.getppid() != parent:
            os.kill(os.getpid(), signal.SIGKILL)

    return bind


def start(command: Sequence[str], is_bound: bool, **streams: Any) -> subprocess.Popen[bytes]:
    """Start a program. If it is bound, it is killed when the thread that started it ends.

    A thread also ends with its process, even by SIGKILL. Only bind a program that this thread waits for. Raises OSError
    if it can't be run.
    """
    bind = bound_to_parent() if is_bound else None
    if bind is not None:
        try:
            return subprocess.Popen(command, preexec_fn=bind, **streams)
        except RuntimeError:
            # A subinterpreter starts processes without such a step.
            pass
    return subprocess.Popen(command, **streams)
