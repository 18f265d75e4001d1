"""The grammar of command lines: words into a job, or the first word that can't stand where it stands."""

from __future__ import annotations

import re
from typing import Callable, NamedTuple, NoReturn, Optional

from .refusals import Refusal

MOST = 4294967295
STACKED = {"--stacks", "--key", "--height"}
CREW = {"--workers", "--board"}
SAMPLED = STACKED | CREW | {"--grow"}
TOLD = {"--witness", "--report"}
LOGGED = SAMPLED | TOLD | {"--log"}
BATCHED = LOGGED | {"--count"}
STOPPED = {"--pops"}
OPTIONS = {
    "formula": BATCHED | STOPPED,
    "orient": BATCHED | STOPPED,
    "tree": BATCHED | STOPPED | {"--root"},
    "resample": SAMPLED | TOLD | STOPPED,
    "check": set(),
    "make": LOGGED | {"grid"},
    "rounds": STACKED,
    "replay": set(),
    "resume": CREW,
}
# Each pair of options that don't stand together: none of the second ones beside the first.
APART = {
    frozenset((name, other)) for name, others in (
        ("--stacks", {"--key", "--height", "--grow"}),
        ("--count", LOGGED - {"--key", "--height"}),
        ("--pops", BATCHED - STACKED))
    for other in others}


class Job(NamedTuple):
    """What a command line asks for. Without rows the entries come from the key, and `height` is the last height."""

    command: str
    rows: Optional[list[list[int]]]
    key: bytes
    height: int
    root: int
    witness: Optional[tuple[int, int]]
    reports: list[str]
    side: int
    log: bool
    count: Optional[int]
    pops: Optional[int]


def read_number(word: str, least: int = 0, most: int = MOST) -> int:
    """One to ten decimal digits, of a value in the range. Raises ValueError for any other word."""
    if not re.fullmatch("[0-9]{1,10}", word) or not least <= int(word) <= most:
        raise ValueError(word)
    return int(word)


def read_rows(word: str) -> list[list[int]]:
    """Rows joined by `;`, of numbers joined by `,`. An empty word has no row."""
    rows = [row.split(",") if row else [] for row in word.split(";")] if word else []
    if len(rows) > 4194304 or sum(map(len, rows)) > 1048576:
        raise ValueError(word)
    return [[read_number(entry) for entry in row] for row in rows]


def read_key(word: str) -> bytes:
    """64 hexadecimal digits; the first two are byte 0."""
    if not re.fullmatch("[0-9A-Fa-f]{64}", word):
        raise ValueError(word)
    return bytes.fromhex(word)


def read_witness(word: str) -> tuple[int, int]:
    """`V,K`: the name of a variable, and one of its entries."""
    name, entry = word.split(",")
    return read_number(name), read_number(entry)


def one_of(*words: str) -> Callable[[str], str]:
    """What reads one of these words."""
    def read(word: str) -> str:
        if word not in words:
            raise ValueError(word)
        return word

    return read


def read_reports(word: str) -> list[str]:
    """`totals`, `heights` and `layers`, each at most once, in any order."""
    kinds = word.split(",")
    if len(set(kinds)) < len(kinds) or not set(kinds) <= {"totals", "heights", "layers"}:
        raise ValueError(word)
    return kinds


READERS = {
    "--stacks": read_rows,
    "--key": read_key,
    "--height": lambda word: read_number(word, 1, 2147483647),
    "--grow": lambda word: read_number(word, 1, 2147483647),
    "--workers": lambda word: read_number(word, 1, 64),
    "--board": one_of("words", "lock"),
    "--root": lambda word: read_number(word, 1),
    "--log": one_of("on", "off"),
    "--witness": read_witness,
    "--report": read_reports,
    "--count": lambda word: read_number(word, 1, 65536),
    "--pops": lambda word: read_number(word, 1),
    "grid": lambda word: read_number(word, 1, 2048),
}


def refuse(place: int) -> NoReturn:
    """Refuses the word at a place, from 1."""
    raise Refusal(2, f"s USAGE {place}")


def read_options(command: str, words: list[str]) -> dict:
    """The values of the options behind a command."""
    given: dict = {}
    for index in range(1, len(words), 2):
        name = words[index]
        is_apart = any(frozenset((name, other)) in APART for other in given)
        if name not in OPTIONS[command] or name in given or is_apart:
            refuse(index + 1)
        if index + 1 == len(words):
            refuse(index + 2)
        try:
            given[name] = READERS[name](words[index + 1])
        except ValueError:
            refuse(index + 2)
    return given


def read_words(words: list[str]) -> Job:
    """The job of a command line; else the refusal of its first bad word."""
    if not words or words[0] not in OPTIONS:
        refuse(1)
    given = read_options(words[0], words)
    if words[0] == "make" and "grid" not in given:
        refuse(len(words) + 1)
    # Stages at lesser heights don't show in the answer.
    height = given.get("--grow", given.get("--height", 1048576))
    return Job(
        words[0], given.get("--stacks"), given.get("--key", bytes(32)), height,
        given.get("--root", 1), given.get("--witness"), given.get("--report", []), given.get("grid", 0),
        words[0] == "resample" or given.get("--log") == "on", given.get("--count"), given.get("--pops"))
