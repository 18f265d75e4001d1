"""Samples of a series in chunks: made one after the other in this process, or shared out by an executor."""

from __future__ import annotations

import concurrent.futures
import itertools
import os
import threading
import time
from collections import deque
from collections.abc import Callable, Generator, Iterator
from dataclasses import dataclass
from typing import Any, Protocol

from .._given.arguments import SAMPLE
from ..errors import RunTimeoutError
from .engine import Request, draw, library_for, streamed, streamed_on
from .rows import Rows
from .watch import Watch

# How many samples a chunk has at the most, and how many variables these have together.
MOST_SAMPLES = 1024
MOST_VARIABLES = 2**20
# In this process chunks grow until one takes about so many seconds.
CHUNK_SECONDS = 0.05

Chunks = Generator[Rows, None, None]


class Executor(Protocol):
    """What runs calls, as a `concurrent.futures.Executor` does."""

    def submit(self, call: Callable[..., Any], /, *arguments: Any) -> Any:
        """Return a future of the call's result."""


@dataclass(frozen=True)
class Task:
    """A chunk of samples that goes to another thread or process."""

    request: Request
    first: int
    count: int
    watch: Watch


def run_task(task: Task) -> Rows:
    """Return the samples of a task."""
    return draw(task.request, task.first, task.count, task.watch.begun())


def chunk_size(variables: int) -> int:
    """Return how many samples a chunk has at the most, if a sample has so many variables."""
    return max(1, min(MOST_SAMPLES, MOST_VARIABLES // max(1, variables)))


def end_of(first: int, count: int | None) -> int:
    """Return the number after that of the last sample."""
    return SAMPLE + 1 if count is None else first + count


def local_chunks(request: Request, variables: int, first: int, count: int | None, watch: Watch) -> Chunks:
    """Yield the samples by the library in this process, in chunks that grow; or by runs of the program."""
    if not library_for(request.problem):
        end = end_of(first, count)
        yield from streamed_on(request, first, watch) if count is None else streamed(request, first, end, watch)
        return
    size, end = 1, end_of(first, count)
    while first < end:
        many = min(size, end - first)
        began = time.monotonic()
        yield draw(request, first, many, watch.begun())
        first += many
        if many == size and time.monotonic() - began < CHUNK_SECONDS:
            size = min(2 * size, chunk_size(variables))


def shared_chunks(
    request: Request, variables: int, first: int, count: int | None, watch: Watch, executor: Executor, ahead: int | None
) -> Chunks:
    """Yield the samples by tasks of an executor, of which no more than `ahead` are submitted and not yielded.

    Those that aren't asked for any more are cancelled, and those that are run by threads are stopped.
    """
    most = 2 * (os.cpu_count() or 1) if ahead is None else ahead
    cancelled = threading.Event()
    shared = Watch(watch.timeout, cancelled)
    waiting: deque[Any] = deque()
    try:
        for task in tasks_of(request, variables, first, count, shared):
            waiting.append(executor.submit(run_task, task))
            if len(waiting) >= most:
                yield result_of(waiting.popleft(), watch)
        while waiting:
            yield result_of(waiting.popleft(), watch)
    finally:
        cancelled.set()
        for future in waiting:
            future.cancel()


def tasks_of(
    request: Request, variables: int, first: int, count: int | None, watch: Watch
) -> Iterator[Task]:
    """Yield the tasks of a series."""
    size, end = chunk_size(variables), end_of(first, count)
    for place in itertools.count(first, size):
        if place >= end:
            return
        yield Task(request, place, min(size, end - place), watch)


def result_of(future: Any, watch: Watch) -> Rows:
    """Return the result of a future. Raises RunTimeoutError if it doesn't come in time."""
    if watch.timeout is None:
        rows = future.result()
    else:
        try:
            rows = future.result(watch.timeout)
        except (concurrent.futures.TimeoutError, TimeoutError) as error:
            raise RunTimeoutError(watch.timeout) from error
    assert isinstance(rows, Rows)
    return rows
