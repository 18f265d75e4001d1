"""The standard streams, any of which may be closed: then Python has None in its place."""

from __future__ import annotations

import errno
import sys
from contextlib import suppress
from typing import IO, Any


def closed(name: str) -> OSError:
    """Return the error of using a standard stream that was closed before Python started."""
    return OSError(errno.EBADF, f"{name} is closed")


def is_terminal(stream: IO[Any] | None) -> bool:
    """Tell whether a standard stream is there and is a terminal."""
    return stream is not None and stream.isatty()


def write_error(text: str) -> None:
    """Write to standard error, if that can be written. A message that nobody gets changes nothing else."""
    if sys.stderr is not None:
        with suppress(OSError):
            print(text, end="", file=sys.stderr, flush=True)
