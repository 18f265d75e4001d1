"""What the scripts share: numbers that are asked for, and how it is told that something can't be done."""

from __future__ import annotations

import sys
from pathlib import Path
from typing import Callable


def positive(word: str) -> int:
    """A whole number from 1 on. Raises ValueError where it is none."""
    number = int(word)
    if number < 1:
        raise ValueError(word)
    return number


# What argparse calls a value that isn't one.
positive.__name__ = "number from 1 on"


def run(main: Callable[[], None]) -> None:
    """Runs a script, and ends with a line that says what can't be read, written or run, where there is such a thing."""
    try:
        main()
    except (OSError, ValueError) as error:
        sys.exit(f"{Path(sys.argv[0]).name}: {error}")
