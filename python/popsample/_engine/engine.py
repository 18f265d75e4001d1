"""What makes samples: the library, by calls with arrays; or the program, by text."""

from __future__ import annotations

import os
import pickle
import subprocess
import sys
from collections.abc import Generator
from dataclasses import dataclass
from pathlib import Path
from typing import Any

from .._errors.argument_errors import OptionError
from .._errors.base_error import Error
from .._given.arguments import DEFAULT_HEIGHT, SAMPLE
from .._given.keys import Key
from .._given.problems import FormulaProblem, Problem
from ..errors import NeedsLibraryError, OutOfMemoryError
from . import typed_calls
from .answer import is_answer, read_answer, read_sample
from .library import PROCESS, find_library
from .program import find_program, printed
from .refused import TextRefusedError
from .rows import Rows
from .stream import batch_texts
from .text_rows import row_of
from .watch import Watch

# The greatest numbers of samples and of variables of one run of the program.
RUN_SAMPLES, RUN_VARIABLES = 65536, 33554432
# How many samples the program makes first, where nobody says how many are wanted, and by how much more each time.
FIRST_RUN, GROWTH = 256, 8


@dataclass(frozen=True)
class Request:
    """What is sampled, under which key, and of which height. It goes from process to process.

    `words` are the command of the program, and its own options. If the text of a file has errors, `problem` is None,
    and `text` is this text.
    """

    problem: Problem | None
    words: tuple[str, ...]
    key: Key
    height: int | None = None
    text: bytes = b""

    def stack_height(self) -> int:
        """Return how many values each variable has."""
        return DEFAULT_HEIGHT if self.height is None else self.height

    def key_words(self) -> list[str]:
        """Return the words of the program."""
        height = [] if self.height is None else ["--height", str(self.height)]
        return [*self.words, "--key", self.key, *height]

    def input(self) -> bytes:
        """Return what the program reads."""
        return self.text if self.problem is None else self.problem.text()


def library_for(problem: Problem | None) -> str | None:
    """Return the library, if it has the call with arrays for a problem, whatever process this is."""
    place = find_library()
    return place if place and problem is not None and typed_calls.answers(place, problem) else None


def is_forked() -> bool:
    """Return whether this process was forked after the module was imported: then C owes the library less."""
    return os.getpid() != PROCESS


def draw(request: Request, first: int, count: int, watch: Watch) -> Rows:
    """Return so many samples, the first of which has the number `first`.

    Raises CallRefusedError or TextRefusedError if the input is rejected, OutOfMemoryError, NeedsLibraryError if the
    program can't make these samples, and what `watch` raises.
    """
    if first + count > SAMPLE + 1:
        raise OptionError("sample", first + count - 1, f"an integer from 0 to {SAMPLE}")
    place = library_for(request.problem)
    if place is None:
        return by_program(request, first, count, watch)
    if is_forked():
        return by_new_process(request, first, count, watch)
    return by_library(place, request, first, count, watch)


def by_library(place: str, request: Request, first: int, count: int, watch: Watch) -> Rows:
    """Return the samples by calls of the library of this place."""
    assert request.problem is not None
    try:
        return typed_calls.draw(place, request.problem, request.key.bytes, request.stack_height(), first, count, watch)
    except MemoryError:
        raise OutOfMemoryError() from None


def by_program(request: Request, first: int, count: int, watch: Watch) -> Rows:
    """Return the samples by a run of the program, which makes all from sample 0 on."""
    if (first, count) != (0, 1):
        return joined(list(streamed(request, first, first + count, watch)))
    words = request.key_words()
    status, text = printed(words, request.input(), watch.timeout, watch.heard)
    answer = read_answer(words, status, text)
    if request.problem is not None and is_answer(answer):
        return row_of(request.problem, answer)
    raise TextRefusedError(words, status, text)


def most_samples(request: Request) -> int:
    """Return how many samples one run of the program may have."""
    if isinstance(request.problem, FormulaProblem) and request.problem.by_rounds:
        return 0
    variables = 1 if request.problem is None else max(1, request.problem.variables)
    return min(RUN_SAMPLES, RUN_VARIABLES // variables)


def streamed(request: Request, first: int, end: int, watch: Watch) -> Generator[Rows, None, None]:
    """Yield the samples from `first` on, before `end`, each when a run of the program prints it."""
    if (first, end) == (0, 1):
        yield by_program(request, 0, 1, watch)
        return
    if end > most_samples(request):
        raise NeedsLibraryError(end - 1)
    words = [*request.key_words(), "--count", str(end)]
    texts = batch_texts(words, request.input(), watch.timeout, watch.heard)
    try:
        for number, text in enumerate(texts):
            if number >= first:
                assert request.problem is not None
                yield row_of(request.problem, read_sample(words, text), number)
    finally:
        texts.close()


def streamed_on(request: Request, first: int, watch: Watch) -> Generator[Rows, None, None]:
    """Yield the samples from `first` on without end, by runs of the program of which each makes many more."""
    size = FIRST_RUN
    while True:
        end = min(first + size, max(first + 1, most_samples(request)))
        yield from streamed(request, first, end, watch)
        first, size = end, size * GROWTH


def joined(parts: list[Rows]) -> Rows:
    """Return all rows, one after the other."""
    made = Rows.empty(parts[0].first, 0, parts[0].width, parts[0].values.typecode)
    for part in parts:
        made.stuck.update({made.count + place: told for place, told in part.stuck.items()})
        made.count += part.count
        for name in ("values", "used", "counts", "edges"):
            getattr(made, name).extend(getattr(part, name))
    return made


def by_new_process(request: Request, first: int, count: int, watch: Watch) -> Rows:
    """Return the samples by the library in another process, which is begun anew.

    A single first sample is made by the program, which begins faster.
    """
    if (first, count) == (0, 1) and has_program():
        return by_program(request, first, count, watch)
    called = pickle.dumps((request, first, count, watch))
    code = "from popsample._engine.engine import answer_call; answer_call()"
    folder = str(Path(__file__).resolve().parents[2])
    path = os.pathsep.join(filter(None, [folder, os.environ.get("PYTHONPATH")]))
    ran = subprocess.run(
        [sys.executable, "-c", code], input=called, stdout=subprocess.PIPE, env={**os.environ, "PYTHONPATH": path}
    )
    told = pickle.loads(ran.stdout)
    if isinstance(told, Exception):
        raise told
    assert isinstance(told, Rows)
    return told


def has_program() -> bool:
    """Return whether the program is found."""
    try:
        find_program()
    except Error:
        return False
    return True


def answer_call() -> None:
    """Answer a call of another process, from standard input to standard output."""
    request, first, count, watch = pickle.loads(sys.stdin.buffer.read())
    told: Any
    try:
        told = draw(request, first, count, watch)
    except Error as error:
        told = error
    sys.stdout.buffer.write(pickle.dumps(told))
