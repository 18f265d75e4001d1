"""How a run is refused, and how a printed text is found wrong."""

from __future__ import annotations


class Refusal(Exception):
    """What popsample answers in place of a run: a status, and the one line that it prints."""

    def __init__(self, status: int, line: str) -> None:
        super().__init__(line)
        self.status = status
        self.line = line


class Difference(Exception):
    """What is wrong with a printed text, and the line, from 1, at which that shows first."""

    def __init__(self, line: int, message: str) -> None:
        super().__init__(f"line {line}: {message}")
        self.line = line
        self.message = message

    def moved(self, lines: int) -> Difference:
        """The same, so many lines later."""
        return Difference(self.line + lines, self.message)
