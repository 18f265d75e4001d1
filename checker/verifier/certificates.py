"""Certificates: texts that hold a command, its stacks, its input and the text of a log."""

from __future__ import annotations

import re
from typing import NamedTuple

from .command_line import Job, read_number, read_rows
from .text import check_limit, malformed

MOST_BYTES = 536870912
NUMBER = rb"(?:0|[1-9][0-9]{0,9})"
# The line of stacks: a key, or rows, of which there is none or more than an empty one.
ROW = rb"(?:%s(?:,%s)*)?" % (NUMBER, NUMBER)
STACKS = rb"key ([0-9a-f]{64})|stacks(?: (?=.)(%s(?:;%s)*))?" % (ROW, ROW)


class Certificate(NamedTuple):
    """The job of a certificate, which asks for no more than its head says, the input, and the text of the log."""

    job: Job
    text: bytes
    log: str


def rows_text(rows: list[list[int]]) -> str:
    """Rows, as they stand behind `stacks`."""
    return " " + ";".join(",".join(map(str, row)) for row in rows) if rows else ""


def front_of(job: Job, text: bytes) -> str:
    """What stands before the log in a job's certificate: the lines of its head, and the input."""
    lines = [f"cert 1 {job.command}"]
    if job.rows is None:
        lines += [f"key {job.key.hex()}", f"height {job.height}"]
    else:
        lines.append(f"stacks{rows_text(job.rows)}")
    if job.command == "tree":
        lines.append(f"root {job.root}")
    lines.append(f"input {len(text)}")
    return "".join(f"{line}\n" for line in lines) + text.decode("latin-1")


class Head:
    """Reads the head of a certificate, line by line. The first line that can't stand in it is refused."""

    def __init__(self, data: bytes) -> None:
        self.rest = data
        self.line = 0

    def next_line(self, form: bytes) -> re.Match:
        """The next line, which has this form."""
        line, end, self.rest = self.rest.partition(b"\n")
        self.line += 1
        found = re.fullmatch(form, line) if end else None
        if not found:
            raise malformed(self.line, 21)
        return found

    def number(self, word: bytes, least: int = 0, most: int = 4294967295) -> int:
        """The number of the next line, behind a word."""
        found = self.next_line(rb"%s (%s)" % (word, NUMBER))
        try:
            return read_number(found[1].decode(), least, most)
        except ValueError:
            raise malformed(self.line, 21) from None

    def rows(self, word: bytes) -> list[list[int]]:
        """The rows of the line that was read last."""
        try:
            return read_rows(word.decode())
        except ValueError:
            raise malformed(self.line, 21) from None


def read_certificate(data: bytes) -> Certificate:
    """The certificate of a text, or its first refusal."""
    check_limit(len(data), MOST_BYTES, 8, 1)
    head = Head(data)
    command = head.next_line(rb"cert 1 (formula|orient|tree|resample)")[1].decode()
    stacks = head.next_line(STACKS)
    key = bytes.fromhex(stacks[1].decode()) if stacks[1] else bytes(32)
    rows = None if stacks[1] else head.rows(stacks[2] or b"")
    height = head.number(b"height", 1, 2147483647) if rows is None else 1048576
    root = head.number(b"root", 1) if command == "tree" else 1
    size = head.number(b"input")
    if len(head.rest) < size:
        raise malformed(head.line, 22)
    job = Job(command, rows, key, height, root, None, [], 0, command == "resample", None, None)
    return Certificate(job, head.rest[:size], head.rest[size:].decode("latin-1"))
