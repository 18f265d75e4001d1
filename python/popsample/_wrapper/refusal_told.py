"""What an error of the program means, and what to do: the lines for standard error."""

from __future__ import annotations

import re
import shlex
from collections.abc import Sequence

from .._calls.certificates import read_certificate
from .._calls.refusing import under_key
from .._given.subject import Subject
from ..errors import ExhaustedError, UsageError

# A sample of a batch, from its number on.
NUMBERED = re.compile(rb"([0-9]+)\n(?=s )")


def subject_of(command: str, text: bytes) -> Subject:
    """Return what the numbers in an answer mean: for the input as it is, these numbers themselves."""
    return read_certificate(text, None, None).subject if command in ("replay", "resume") else Subject(text)


def refusal_told(words: Sequence[str], text: bytes, status: int, telling: bytes) -> list[str]:
    """Return the lines that say what an answer of this status means, and what to do; none if it is no error.

    `telling` is the output or, if a sample of a batch is exhausted, the first such sample, from its number on.
    """
    if status == 0 or telling.startswith(b"s LEGAL "):
        return []
    numbered = NUMBERED.match(telling)
    answer = telling[numbered.end() :] if numbered else telling
    told = under_key(words, (status, answer), subject_of(words[0], text), None)
    if isinstance(told, ExhaustedError) and words[0] == "make":
        told = ExhaustedError(f"one of {told.stuck[0]} cycles", told.stuck, told.used, told.pops, told.log)
    lines = [f"Sample {numbered[1].decode()}: {told}" if numbered else str(told)]
    if isinstance(told, UsageError):
        lines.append(f"The command line of the program is: {shlex.join(['popsample', *words])}")
    return lines
