"""Judges a printed text and a status."""

from __future__ import annotations

from .answers import Answer, answer_to
from .refusals import Difference


def printed_lines(printed: bytes) -> list[str]:
    """The lines of a printed text, each of which a line feed ends. Of each byte comes a character."""
    lines = printed.decode("latin-1").split("\n")
    if lines.pop():
        raise Difference(len(lines) + 1, "no line feed ends the line")
    return lines


def compare(lines: list[str], wanted: list[str]) -> None:
    """Finds the first line that differs."""
    for number, (line, other) in enumerate(zip(lines, wanted), 1):
        if line != other:
            raise Difference(number, f"`{line}` is printed, and `{other}` is right")
    if len(lines) > len(wanted):
        raise Difference(len(wanted) + 1, "nothing more is to be printed")
    if len(lines) < len(wanted):
        raise Difference(len(lines) + 1, f"`{wanted[len(lines)]}` is missing")


def check_samples(lines: list[str], wanted: Answer) -> None:
    """Reads off the lines alone that they tell samples, where they are to."""
    for end in wanted.ends if wanted.setting else ():
        try:
            wanted.setting.check_sample(lines[end:])
        except Difference as difference:
            raise difference.moved(end) from difference


def answer_that_is_unmade(words: list[str]) -> bool:
    """Whether the words can't be made: one isn't UTF-8."""
    return any("\udc80" <= letter <= "\udcff" for word in words for letter in word)


def judge(printed: bytes, status: int, words: list[str], text: bytes) -> None:
    """Raises a Difference unless the text and the status are the answer to the words and the input."""
    lines = printed_lines(printed)
    if answer_that_is_unmade(words):
        wanted = Answer(9, [])
    else:
        wanted = answer_to(words, text, lines)
    compare(lines, wanted.lines)
    check_samples(lines, wanted)
    if status != wanted.status:
        raise Difference(len(lines) + 1, f"the status is {status}, and {wanted.status} is right")
