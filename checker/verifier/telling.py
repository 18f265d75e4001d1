"""What the scripts beside `verify.py` print, and their statuses."""

from __future__ import annotations

from typing import Callable


def status_of(judging: Callable[[], str]) -> int:
    """Prints the line in which a judgement ends, or the ValueError that it found: the status is 0, or else 1."""
    try:
        print(judging())
    except ValueError as error:
        print(error)
        return 1
    return 0
