"""A run of the program whose output is read as it comes."""

from __future__ import annotations

import math
import os
import selectors
import subprocess
import threading
import time
from collections.abc import Callable, Generator, Iterable, Iterator, Sequence
from contextlib import suppress
from typing import IO

from ..errors import RunTimeoutError
from .answer import sample_texts
from .launching import start
from .program import LOOK, find_program
from .refused import TextRefusedError

# How many bytes are asked for at a time.
CHUNK = 1 << 20


def feed(pipe: IO[bytes], text: bytes) -> None:
    """Write a text, which nobody may read to its end, and closes the pipe."""
    with suppress(BrokenPipeError), pipe:
        pipe.write(text)


def comes_within(pipe: IO[bytes], seconds: float) -> bool:
    """Return whether there is something to read, or the end, within so many seconds."""
    with selectors.DefaultSelector() as selector:
        selector.register(pipe, selectors.EVENT_READ)
        return bool(selector.select(seconds))


class Stream:
    """A run of the program.

    If it has a timeout, RunTimeoutError is raised when a chunk is waited for longer: the time that the caller takes
    between two chunks doesn't count.
    """

    def __init__(
        self, words: Sequence[str], text: bytes, timeout: float | None, look: Callable[[], None] | None = None
    ) -> None:
        """Start the run.

        Its input is written beside, since the program may print before it has read all. `look` is called from time to
        time while nothing is printed, and what it raises is raised.

        A run that the main thread starts ends with this process. Another thread may end before its run is read.
        """
        pipe = subprocess.PIPE
        self.look = look
        self.timeout = timeout
        is_main = threading.current_thread() is threading.main_thread()
        self.process = start([find_program(), *words], is_main, stdin=pipe, stdout=pipe)
        assert self.process.stdin and self.process.stdout
        self.output = self.process.stdout
        self.feeder = threading.Thread(target=feed, args=(self.process.stdin, text), daemon=True)
        self.feeder.start()

    def chunks(self) -> Iterator[bytes]:
        """Return what it prints, to the end."""
        while chunk := self.read():
            yield chunk

    def read(self) -> bytes:
        """Return what it prints next; nothing at the end. Raises RunTimeoutError if that doesn't come in time."""
        began = time.monotonic()
        while self.timeout is not None or self.look is not None:
            left = math.inf if self.timeout is None else self.timeout - (time.monotonic() - began)
            if comes_within(self.output, max(0.0, min(LOOK, left))):
                break
            if self.timeout is not None and left <= LOOK:
                raise RunTimeoutError(self.timeout)
            if self.look is not None:
                self.look()
        return os.read(self.output.fileno(), CHUNK)

    def status(self) -> int:
        """Its status, if it has closed its output."""
        try:
            return self.process.wait(self.timeout)
        except subprocess.TimeoutExpired:
            raise RunTimeoutError(self.timeout or 0) from None

    def end(self) -> None:
        """End it, if it isn't at its end, and leave nothing open."""
        if self.process.poll() is None:
            self.process.kill()
        self.process.wait()
        self.feeder.join()
        self.output.close()


def batch_texts(
    words: Sequence[str], text: bytes, timeout: float | None, look: Callable[[], None] | None = None
) -> Generator[bytes, None, None]:
    """Yield the texts of the samples of a batch, as the program prints them.

    Raises TextRefusedError if it prints none.
    """
    stream = Stream(words, text, timeout, look)
    try:
        yield from samples_in(words, stream.chunks(), stream.status)
    finally:
        stream.end()


def samples_in(words: Sequence[str], chunks: Iterable[bytes], status: Callable[[], int]) -> Iterator[bytes]:
    """Yield the texts of the samples in what the program prints of a batch.

    The last one comes when its status is known, and if that is none of a batch, TextRefusedError is raised.
    """
    head: bytes | None = None
    for text, is_last in sample_texts(chunks):
        first = text if head is None else head
        ended = status() if is_last else 0
        if ended not in (0, 1) or not first.startswith(b"batch "):
            raise TextRefusedError(words, ended, first)
        if head is not None:
            yield text
        head = first
