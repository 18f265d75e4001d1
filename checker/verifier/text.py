"""Lines, words and numbers of the texts that popsample reads."""

from __future__ import annotations

import re
from io import BytesIO
from typing import Iterator, Optional

from .refusals import Refusal

MOST_BYTES = 268435456
MOST_NAMED = 4194304


def numbered_lines(text: bytes) -> Iterator[tuple[int, list[bytes]]]:
    """The lines, from 1 on, each as its words."""
    taken = 0
    for number, line in enumerate(BytesIO(text), 1):
        taken += len(line)
        check_limit(taken, MOST_BYTES, 1, number)
        yield number, re.findall(rb"[^ \t\r\n]+", line)


def told_lines(text: bytes, passed: tuple[bytes, ...] = ()) -> Iterator[tuple[int, list[bytes]]]:
    """The lines that aren't passed over: neither empty nor a comment, and with no first word of `passed`."""
    for number, words in numbered_lines(text):
        if words and not words[0].startswith(b"c") and words[0] not in passed:
            yield number, words


def after_last(text: bytes) -> int:
    """The number of the line after the last."""
    return text.count(b"\n") + 1 + (text != b"" and not text.endswith(b"\n"))


def number_of(word: bytes) -> Optional[int]:
    """The number that a word is, or None: one to ten decimal digits of at most 4294967295."""
    if re.fullmatch(rb"[0-9]{1,10}", word) and int(word) <= 4294967295:
        return int(word)
    return None


def malformed(line: int, code: int) -> Refusal:
    """A line that can't stand in the text."""
    return Refusal(3, f"s MALFORMED {line} {code}")


def check_limit(count: int, most: int, kind: int, line: int) -> None:
    """Refuses a count that passes a limit."""
    if count > most:
        raise Refusal(4, f"s LIMIT {kind} {line}")
