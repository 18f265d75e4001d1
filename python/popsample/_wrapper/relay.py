"""A run of the program whose output is passed on as it comes, and the part of it that says what it means."""

from __future__ import annotations

from collections.abc import Callable, Iterator, Sequence

from .._engine.answer import sample_texts
from .._engine.stream import Stream, comes_within
from .ended_by_signal import check_signals, signals_held

# After so many seconds without output it is shown that the run goes on.
TICK = 0.5

Write = Callable[[bytes], None]
# What is called with the number of samples of a batch that have come.
Come = Callable[[int], None]


def relay(words: Sequence[str], text: bytes, write: Write, come: Come) -> tuple[int, bytes]:
    """Run the program with these arguments and this input, and write what it prints.

    Return the status, and the part of the output that says what it means. Raises NoProgramError if there is no program,
    OSError if it cannot be run, and what `write` raises.
    """
    with signals_held():
        stream = Stream(words, text, None)
    try:
        telling = telling_part(sample_texts(passed_on(stream, write, come)), come)
        return stream.status(), telling
    finally:
        stream.end()


def passed_on(stream: Stream, write: Write, come: Come) -> Iterator[bytes]:
    """Yield what the program prints, piece by piece, after it was written. `come` is called while nothing comes."""
    while True:
        check_signals()
        if not comes_within(stream.output, TICK):
            come(0)
            continue
        piece = stream.read()
        if not piece:
            return
        write(piece)
        yield piece


def telling_part(parts: Iterator[tuple[bytes, bool]], come: Come) -> bytes:
    """Return the part that says what an output means, of the parts that `sample_texts` yields.

    For a batch this is the first sample that is exhausted, from its number on, or nothing. Otherwise it is the whole
    output.
    """
    head, _ = next(parts)
    found = b""
    for number, (part, _) in enumerate(parts, 1):
        come(number)
        if not found and part.partition(b"\n")[2].startswith(b"s EXHAUSTED\n"):
            found = part
    return found if head.startswith(b"batch ") else head
