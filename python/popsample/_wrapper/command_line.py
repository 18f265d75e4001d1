"""The command line of `python -m popsample`: the program's commands and options, as argparse reads them."""

from __future__ import annotations

import argparse
from collections.abc import Sequence
from dataclasses import dataclass
from typing import Any

from .._given.keys import seed_key
from .._version import version
from .program_words import COMMANDS, GRID, OPTIONS, Command

DESCRIPTION = "Draw random spanning trees, sink-free orientations and satisfying assignments."
EPILOG = (
    "The output and the exit status are those of the program popsample. It is the program that the environment "
    "variable POPSAMPLE names, the one installed with this package, or the one on the PATH. If the program reports an "
    "error, standard error says what it means and what to do."
)
SAME_SAMPLE = "Without --key and --seed every call prints the same sample."

# The options that say where the entries come from, beside a seed.
ORIGINS = ("--key", "--stacks")


@dataclass(frozen=True)
class Called:
    """What the command line asks for.

    `words` are the arguments of the program, the command first. `path` is the file that is read, or None for standard
    input; `output` is the file that is written, or None for standard output. If there is a seed, its key is in the
    arguments.
    """

    words: tuple[str, ...]
    path: str | None
    output: str | None
    seed: int | None
    quiet: bool

    @property
    def command(self) -> str:
        """The command of the program."""
        return self.words[0]

    def value(self, option: str) -> str | None:
        """Return the value of an option of the program, or None if it isn't given."""
        return self.words[self.words.index(option) + 1] if option in self.words else None


class Passed(argparse.Action):
    """Keep an option of the program and its value, in the order of the command line."""

    def __call__(self, parser: Any, namespace: Any, values: Any, option_string: str | None = None) -> None:
        """Keep the option, under the first of its names, and its value."""
        namespace.passed = [*namespace.passed, self.option_strings[0], values]


class Seeded(argparse.Action):
    """Keep a seed, and its key as an option of the program."""

    def __call__(self, parser: Any, namespace: Any, values: Any, option_string: str | None = None) -> None:
        """Keep the seed, and its key."""
        namespace.seed = values
        namespace.passed = [*namespace.passed, "--key", seed_key(values)]


def read_seed(word: str) -> int:
    """Return a seed: a non-negative integer. Raises ValueError if the argument is none."""
    seed = int(word)
    if seed < 0:
        raise ValueError(word)
    return seed


# What argparse calls a value that isn't one.
read_seed.__name__ = "seed"


def command_line() -> argparse.ArgumentParser:
    """Return the parser of all commands."""
    parser = argparse.ArgumentParser("python -m popsample", description=DESCRIPTION, epilog=EPILOG, allow_abbrev=False)
    parser.add_argument("--version", action="version", version=f"popsample {version()}")
    commands = parser.add_subparsers(dest="command", metavar="COMMAND", required=True, title="commands")
    for name, command in COMMANDS.items():
        does = f"{command.does[0].upper()}{command.does[1:]}."
        epilog = SAME_SAMPLE if name in OPTIONS["--key"].commands else None
        below = commands.add_parser(name, help=command.does, description=does, epilog=epilog, allow_abbrev=False)
        add_words(below, name, command)
    return parser


def add_words(parser: argparse.ArgumentParser, name: str, command: Command) -> None:
    """Add the arguments that a command takes."""
    parser.set_defaults(passed=[], seed=None, path=None)
    if command.reads is None:
        parser.add_argument("grid", choices=["grid"], help="the kind of graph")
        parser.add_argument("size", metavar="N", help=GRID)
    else:
        meaning = f"{command.reads}; it may be compressed by gzip (default, and if FILE is -: standard input)"
        parser.add_argument("path", metavar="FILE", nargs="?", help=meaning)
    if name in OPTIONS["--key"].commands:
        add_origins(parser.add_mutually_exclusive_group())
    for option, meant in OPTIONS.items():
        if name in meant.commands and option not in ORIGINS:
            add_option(parser, option)
    meaning = "write to FILE instead of standard output; an error leaves FILE as it was"
    parser.add_argument("--output", metavar="FILE", help=meaning)
    parser.add_argument("--quiet", action="store_true", help="print only errors to standard error")


def add_origins(group: Any) -> None:
    """Add the options that say where the entries come from, of which at most one is allowed."""
    meaning = "non-negative integer from which a key is made; standard error shows the key"
    group.add_argument("--seed", metavar="SEED", type=read_seed, action=Seeded, help=meaning)
    for option in ORIGINS:
        add_option(group, option)


def add_option(group: Any, option: str) -> None:
    """Add an option of the program."""
    meant = OPTIONS[option]
    group.add_argument(option, metavar=meant.value, action=Passed, default=argparse.SUPPRESS, help=meant.meaning)


def read_command_line(arguments: Sequence[str] | None = None) -> Called:
    """Return what the arguments ask for; by default those of the process.

    If they are not a valid command line, print why to standard error and exit with status 2. After a help text or the
    version exit with status 0.
    """
    asked = command_line().parse_args(arguments)
    made = ["grid", asked.size] if COMMANDS[asked.command].reads is None else []
    path = None if asked.path == "-" else asked.path
    return Called((asked.command, *asked.passed, *made), path, asked.output, asked.seed, asked.quiet)
