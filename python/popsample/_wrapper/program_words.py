"""The commands and the options of the program, and what they mean."""

from __future__ import annotations

from dataclasses import dataclass


@dataclass(frozen=True)
class Command:
    """What a command reads, or None if it reads nothing, and what it does."""

    reads: str | None
    does: str


@dataclass(frozen=True)
class Option:
    """The name of an option's value, what the option means, and the commands that have it."""

    value: str
    meaning: str
    commands: frozenset[str]


FORMULA = "a formula in DIMACS CNF format"
GRAPH = "a graph in a format based on DIMACS"
CERTIFICATE = "a certificate"
# The size of what `make` makes.
GRID = "number of rows and of columns, from 1 to 2048"

COMMANDS = {
    "formula": Command(FORMULA, "sample a satisfying assignment of an extremal formula"),
    "orient": Command(GRAPH, "sample a sink-free orientation"),
    "tree": Command(GRAPH, "sample a spanning tree, with arrows to its root"),
    "resample": Command(FORMULA, "find a satisfying assignment of any formula, and print the log"),
    "check": Command(FORMULA, "check whether a formula is extremal"),
    "make": Command(None, "sample a spanning tree of a square grid, and print a summary"),
    "rounds": Command(FORMULA, "sample a satisfying assignment of any formula, in synchronous rounds"),
    "replay": Command(CERTIFICATE, "verify the log of a certificate, and print the state that it reaches"),
    "resume": Command(CERTIFICATE, "continue the run of a certificate to its end"),
}

SAMPLED = frozenset({"formula", "orient", "tree"})
POPPED = SAMPLED | {"resample", "make"}

OPTIONS = {
    "--stacks": Option(
        "ROWS", "stack entries of each variable: rows joined by ';', their numbers by ','", POPPED | {"rounds"}
    ),
    "--key": Option("KEY", "random key, 64 hexadecimal digits (default: 64 zeros)", POPPED | {"rounds"}),
    "--height": Option("N", "stack length, from 1 to 2147483647 (default: 1048576)", POPPED | {"rounds"}),
    "--grow": Option("N", "increase the stack length in stages, up to N", POPPED),
    "--workers": Option("N", "threads for one run, from 1 to 64 (default: 1)", POPPED | {"resume"}),
    "--board": Option(
        "BOARD", "synchronisation between workers: words (lock-free, default) or lock", POPPED | {"resume"}
    ),
    "--root": Option("VERTEX", "root of the tree, from 1 (default: 1)", frozenset({"tree"})),
    "--log": Option("on|off", "print the log of the pops (default: off)", SAMPLED | {"make"}),
    "--witness": Option("V,K", "print the witness tree of the pop that used entry K, from 0, of variable V", POPPED),
    "--report": Option("NAMES", "print statistics of the log: some of totals, heights, layers, joined by ','", POPPED),
    "--count": Option("N", "draw N samples on all processors, from 1 to 65536", SAMPLED),
    "--pops": Option("N", "stop the run after N pops, and print its certificate", SAMPLED | {"resample"}),
}
