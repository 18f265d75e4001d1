"""Calls of the front end, `python -m popsample`, and of the program beside it."""

from __future__ import annotations

import io
import os
import pty
import re
import signal
import subprocess
import sys
import tempfile
from collections.abc import Iterator
from contextlib import contextmanager
from pathlib import Path
from typing import Any, NamedTuple
from unittest import mock

import popsample
from popsample._wrapper.front import main

PYTHON = Path(popsample.__file__).resolve().parents[1]
TOP = PYTHON.parent
FORMATS = TOP / "docs" / "FORMATS.md"


class Ended(NamedTuple):
    """The status of a call, its output, and what it told on standard error."""

    status: int
    output: bytes
    told: str


def called(*words: str | Path, given: bytes = b"", **changed: str) -> Ended:
    """A call of the front end in this process, with files in the places of its three streams."""
    with tempfile.TemporaryFile() as read, tempfile.TemporaryFile() as written, tempfile.TemporaryFile() as shown:
        read.write(given)
        read.seek(0)
        streams = dict(zip(("stdin", "stdout", "stderr"), map(io.TextIOWrapper, (read, written, shown))))
        with mock.patch.multiple(sys, **streams), mock.patch.dict(os.environ, changed):
            try:
                status = main(list(map(str, words)))
            except SystemExit as left:
                status = left.code
            sys.stdout.flush()
            sys.stderr.flush()
        for file in (written, shown):
            file.seek(0)
        return Ended(status, written.read(), shown.read().decode())


def heed_signals() -> None:
    """Do on a signal what the system does. Whoever runs the tests may ignore some, and so would what they start."""
    for number in (signal.SIGINT, signal.SIGHUP, signal.SIGTERM, signal.SIGQUIT):
        signal.signal(number, signal.SIG_DFL)


@contextmanager
def running(*words: str | Path, **streams: Any) -> Iterator[subprocess.Popen[bytes]]:
    """A process of the front end, with pipes where no other streams are named, which heeds all signals."""
    path = os.pathsep.join([str(PYTHON), *filter(None, [os.environ.get("PYTHONPATH")])])
    pipes = {"stdin": subprocess.DEVNULL, "stdout": subprocess.PIPE, "stderr": subprocess.PIPE}
    named = {**pipes, "preexec_fn": heed_signals, **streams}
    command = [sys.executable, "-m", "popsample", *map(str, words)]
    with subprocess.Popen(command, env={**os.environ, "PYTHONPATH": path}, **named) as process:
        yield process


def by_program(*words: str, given: bytes = b"") -> tuple[int, bytes]:
    """The status and the output of the program."""
    ran = subprocess.run([popsample.find_program(), *words], input=given, stdout=subprocess.PIPE)
    return ran.returncode, ran.stdout


@contextmanager
def terminal() -> Iterator[tuple[int, int]]:
    """The two ends of a terminal: what is typed and seen, and what a program has."""
    outer, inner = pty.openpty()
    try:
        yield outer, inner
    finally:
        os.close(outer)
        os.close(inner)


def pattern_of(first_line: str) -> str:
    """What the sentence of docs/FORMATS.md for a first line looks like, with its numbers and names open."""
    rows = (line.split(" | ") for line in FORMATS.read_text(encoding="utf-8").splitlines() if line.startswith("| "))
    sentence = next(row[2] for row in rows if first_line in row[1])
    return re.sub(r"\b[A-Z]+\b", ".+", re.escape(sentence))


def example(name: str) -> Path:
    """A file of the examples; certificates stand among their cases."""
    folder = TOP / "examples"
    return (folder / "cases" if name.endswith(".cert") else folder) / name
