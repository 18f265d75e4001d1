"""The texts of logs, of either version, against an instance: their records, or the first refusal."""

from __future__ import annotations

import re
from typing import NamedTuple, Optional

from .logs import layers_of
from .refusals import Difference, Refusal
from .runs import Board, Record

MOST_BYTES = 268435456
DIGITS = "(?:0|[1-9][0-9]*)"
RECORD = f"{DIGITS}(?: {DIGITS}:{DIGITS})+"
LINES = {1: f"pop {RECORD}", 2: f"pop {DIGITS} {RECORD}"}


class LogRefusal(Refusal):
    """Why a text isn't that of a log, and the line, from 1, at which that shows."""

    def __init__(self, status: int, line: str, place: int) -> None:
        super().__init__(status, line)
        self.place = place


class Written(NamedTuple):
    """What the line of a record says. In version 1 it says no layer, and this is 0."""

    layer: int
    number: int
    variables: list[int]
    entries: list[int]


def malformed(place: int, code: int) -> LogRefusal:
    """A line that can't stand in the text (code 31), or whose record isn't layered as it is written (code 32)."""
    return LogRefusal(3, f"s MALFORMED {place} {code}", place)


def read_record(board: Board, places: dict[int, int], version: int, line: str) -> Optional[Written]:
    """What a line says, where it may stand in a text of this version."""
    if not re.fullmatch(LINES[version], line):
        return None
    layer, *numbers = [int(word) for word in re.findall("[0-9]+", line if version == 2 else f"0 {line}")]
    variables = [places.get(name, -1) for name in numbers[1::2]]
    fits = max(numbers) < 1 << 32 and (version == 1 or 0 < layer < 1 << 64)
    if not fits or -1 in variables or not board.family.may_name(numbers[0], variables):
        return None
    return Written(layer, numbers[0], variables, numbers[2::2])


def read_lines(board: Board, names: list[int], text: str) -> tuple[int, list[Written]]:
    """The version of a text, and what the lines of its records say."""
    places = {name: variable for variable, name in enumerate(names)}
    *lines, unended = text.split("\n")
    head = re.fullmatch(f"log ([12]) ({DIGITS})", lines[0]) if lines else None
    if not head or int(head[2]) >= 1 << 64:
        raise malformed(1, 31)
    version, count = int(head[1]), int(head[2])
    found = []
    for place, line in enumerate(lines[1:], 2):
        record = read_record(board, places, version, line)
        if record is None or place > count + 1:
            raise malformed(place, 31)
        found.append(record)
    if unended or len(found) < count:
        raise malformed(len(lines) + 1, 31)
    return version, found


def replay(board: Board, written: list[Written]) -> list[Record]:
    """Pops what the lines say, as long as it is legal."""
    records = []
    for place, (_, number, variables, entries) in enumerate(written, 1):
        event = board.family.named_event(number, variables, board.values)
        cursors = [board.cursors[variable] for variable in variables]
        if event is None or not board.poppable(event.cube) or entries != cursors:
            raise LogRefusal(11, f"s NOTLEGAL {place}", place + 1)
        records.append(board.pop(event))
    return records


def check_layers(written: list[Written], records: list[Record]) -> None:
    """Sees that each record has its layer, and that layer and unit follow those of the record before it."""
    before = (0, 0)
    for place, (line, record, layer) in enumerate(zip(written, records, layers_of(records)), 2):
        stands = (line.layer, record.event.unit)
        if line.layer != layer or stands < before:
            raise malformed(place, 32)
        before = stands


def read_log_text(board: Board, names: list[int], text: str) -> list[Record]:
    """The records of a text, after their pops; else its first refusal."""
    if len(text) > MOST_BYTES:
        raise LogRefusal(4, "s LIMIT 7 1", 1)
    version, written = read_lines(board, names, text)
    records = replay(board, written)
    if version == 2:
        check_layers(written, records)
    return records


def read_told(board: Board, names: list[int], text: str, before: int) -> list[Record]:
    """The same of a log that is printed behind so many lines, where a refusal is a difference."""
    try:
        return read_log_text(board, names, text)
    except LogRefusal as refusal:
        message = f"of a log by itself the refusal would be `{refusal.line}`"
        raise Difference(before + refusal.place, message) from refusal


def read_ended_log(board: Board, lines: list[str], names: list[int]) -> list[Record]:
    """The records of the log among printed lines, which ends where no event is poppable."""
    heads = [index for index, line in enumerate(lines) if re.fullmatch(f"log 2 {DIGITS}", line)]
    if not heads:
        raise Difference(len(lines) + 1, "there is no log")
    first = heads[0]
    told = lines[first:first + 1 + int(lines[first].split()[2])]
    records = read_told(board, names, "".join(f"{line}\n" for line in told), first)
    event = board.first_poppable()
    if event:
        raise Difference(first + len(told), f"the log ends where event {event.number} can be popped")
    return records
