"""Calls of C that may take long, made so that signals are seen meanwhile."""

from __future__ import annotations

import threading
from collections.abc import Callable
from concurrent.futures import Future
from typing import TypeVar

Value = TypeVar("Value")


def in_thread(call: Callable[[], Value]) -> Value:
    """Return what a call returns, or raise what it raises, while a thread of its own makes it.

    Python handles signals between two steps of its own, so a call of C delays Ctrl-C until it returns. Waiting for
    another thread doesn't. If the wait is interrupted, the thread is left to itself: it ends with its call, or with
    the process.
    """
    future: Future[Value] = Future()

    def make() -> None:
        try:
            future.set_result(call())
        except BaseException as error:  # whoever waits raises it
            future.set_exception(error)

    threading.Thread(target=make, daemon=True, name="popsample").start()
    return future.result()
