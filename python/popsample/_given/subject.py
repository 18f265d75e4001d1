"""A text for the program, and what the numbers in its answers mean."""

from __future__ import annotations

from collections.abc import Callable, Hashable, Sequence
from dataclasses import dataclass
from functools import cached_property

# The names of what is named by its number, from 1. The next number is the greatest of the program, and names nothing.
NUMBERS: Sequence[Hashable] = range(1, 2**32 - 1)


@dataclass(frozen=True)
class Subject:
    """A text, the names of its vertices and of the variables, as the program counts them, and the root asked for.

    `source` is the text, or what makes it when it is first asked for. If the text is the input of a certificate, this
    is what the program reads, and its command and its log are there.
    """

    source: bytes | Callable[[], bytes]
    vertices: Sequence[Hashable] = NUMBERS
    variables: Sequence[Hashable] = NUMBERS
    root: Hashable = None
    certificate: bytes | None = None
    command: str | None = None
    log: bytes = b""

    @cached_property
    def text(self) -> bytes:
        """The text."""
        return self.source() if callable(self.source) else self.source

    @property
    def given(self) -> bytes:
        """What the program reads."""
        return self.text if self.certificate is None else self.certificate

    def command_of(self, words: Sequence[str]) -> str:
        """Return the command whose end is printed for these words: that of the certificate, if there is one."""
        return self.command or words[0]

    def part(self, code: int) -> tuple[str, bytes]:
        """In which part of what the program reads the lines stand that a code speaks of, in words, and that part."""
        if self.certificate is None:
            return "the input", self.text
        if code in (21, 22):
            return "the certificate", self.certificate
        if code in (31, 32):
            return "the certificate's log", self.log
        return "the certificate's input", self.text

    def vertex(self, number: int) -> Hashable:
        """Return the name of a vertex; the number itself if there is none."""
        return self.vertices[number - 1] if 1 <= number <= len(self.vertices) else number

    def variable(self, number: int) -> Hashable:
        """Return the name of a variable; the number itself if there is none."""
        return self.variables[number - 1] if 1 <= number <= len(self.variables) else number

    def line(self, number: int, code: int) -> str | None:
        """Return a line, from 1, of the part that the code speaks of; none after the last one."""
        lines = self.part(code)[1].split(b"\n", number)
        return lines[number - 1].decode("utf-8", "replace").strip() if number <= len(lines) else None

    def clause(self, number: int) -> str:
        """Return the literals of a clause of a formula, from 1."""
        lines = (line.split() for line in self.text.split(b"\n"))
        rows = [words for words in lines if words and not words[0].startswith(b"c")]
        ends, literals = 0, []
        for word in (word for words in rows[1:] for word in words):
            if not word.strip(b"0"):
                ends += 1
            elif ends == number - 1:
                literals.append(word.decode("utf-8", "replace"))
            if ends == number:
                break
        return " ".join(literals)
