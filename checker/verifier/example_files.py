"""The cases in `examples/cases`: NAME.case has a command, what it prints, and its status."""

from __future__ import annotations

import shlex
from pathlib import Path
from typing import Iterator, NamedTuple

EXAMPLES = Path(__file__).resolve().parents[2] / "examples"
CASES = EXAMPLES / "cases"


class Example(NamedTuple):
    """Command words and an input, with what is printed and the status."""

    name: str
    words: list[str]
    text: bytes
    printed: bytes
    status: int


class Parts(NamedTuple):
    """The lines of a case: the words of the command, the output and the status."""

    words: list[str]
    printed: bytes
    status: int


def parts_of(path: Path) -> Parts:
    """Takes a case apart: `$ popsample WORD..`, then the output, and at last `status N`."""
    command, *printed, last = path.read_bytes().splitlines(True)
    return Parts(shlex.split(command.decode())[2:], b"".join(printed), int(last.split()[1]))


def input_of(name: str) -> bytes:
    """An input by its name: the output of the case NAME as NAME.out, a certificate that stands beside the cases, or an
    example.
    """
    if name.endswith(".out"):
        return parts_of(CASES / name.replace(".out", ".case")).printed
    return (CASES / name if name.endswith(".cert") else EXAMPLES / name).read_bytes()


def read_example(path: Path) -> Example:
    """A case, whose words name the input behind a `<`."""
    words, printed, status = parts_of(path)
    text = b""
    if words[-2:-1] == ["<"]:
        text = input_of(words[-1])
        words = words[:-2]
    return Example(path.stem, words, text, printed, status)


def all_examples() -> Iterator[Example]:
    """All cases, by name."""
    for path in sorted(CASES.glob("*.case")):
        yield read_example(path)
