"""What ends a call before its time: a number of seconds, or the caller who has no use for it any more."""

from __future__ import annotations

import threading
import time
from typing import Any

from .._errors.base_error import Error
from ..errors import RunTimeoutError


class ClosedSeriesError(Error):
    """Nobody waits for the samples any more. It is raised in threads of an executor, and nobody sees it."""


class Watch:
    """What a long call looks at from time to time.

    It goes from process to process without the caller's word, which isn't heard there.
    """

    def __init__(self, timeout: float | None = None, cancelled: threading.Event | None = None) -> None:
        self.timeout = timeout
        self.cancelled = cancelled
        self.began = time.monotonic()

    def begun(self) -> Watch:
        """Return the same, of a call that begins now."""
        return Watch(self.timeout, self.cancelled)

    def left(self) -> float | None:
        """Return how many seconds are left; None if they aren't counted."""
        return None if self.timeout is None else max(0.0, self.timeout - (time.monotonic() - self.began))

    def heard(self) -> None:
        """Raise ClosedSeriesError if nobody waits any more."""
        if self.cancelled is not None and self.cancelled.is_set():
            raise ClosedSeriesError()

    def look(self) -> None:
        """Raise ClosedSeriesError if nobody waits any more, and RunTimeoutError if the time is over."""
        self.heard()
        if self.timeout is not None and time.monotonic() - self.began >= self.timeout:
            raise RunTimeoutError(self.timeout)

    def __reduce__(self) -> tuple[Any, ...]:
        """Another process counts for itself."""
        return Watch, (self.timeout,)
