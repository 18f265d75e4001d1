"""How far a batch is, shown on standard error if that is a terminal."""

from __future__ import annotations

import time

from .._given.standard_streams import write_error

START_OF_LINE = "\r\x1b[K"
# The line is written at most once in so many seconds, except for the last sample.
PAUSE = 0.1


class BatchProgress:
    """A line that shows how many samples of a batch are printed, and before the first one how long the batch takes.

    The program draws all samples before it prints the first one.
    """

    def __init__(self, count: str) -> None:
        self.count = count
        self.begun = time.monotonic()
        self.written = 0.0
        self.come = 0

    def __call__(self, come: int) -> None:
        """Show that so many samples are printed, or that the run goes on."""
        self.come = max(self.come, come)
        now = time.monotonic()
        if now - self.written < PAUSE and str(self.come) != self.count:
            return
        self.written = now
        seconds = f"{now - self.begun:.0f} s"
        shown = f"{self.come} of {self.count} samples" if self.come else f"drawing {self.count} samples: {seconds}"
        self.write(f"popsample: {shown}")

    def end(self) -> None:
        """Remove the line."""
        self.write("")

    def write(self, line: str) -> None:
        """Write the line over the one before."""
        write_error(START_OF_LINE + line)


def no_progress(come: int) -> None:
    """Show nothing."""
