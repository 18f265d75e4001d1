"""The command-line wrapper of the program: `python -m popsample`."""

from __future__ import annotations

import sys
from collections.abc import Sequence

from .._given.standard_streams import is_terminal, write_error
from .._given.text_files import read_text, reason_of
from ..errors import ExhaustedError, NoProgramError, Paused, ReadError, Refusal, UsageError, WriteError
from .batch_progress import BatchProgress, no_progress
from .command_line import Called, read_command_line
from .ended_by_signal import SIGNALLED, ended_by_signals
from .output_file import Output, is_one_file
from .program_words import COMMANDS
from .refusal_told import refusal_told
from .relay import relay

# The status of a command line that isn't valid, as argparse has it.
USAGE = 2
# The statuses of a shell: of a program that cannot be run, of one that isn't found, and of one that was stopped from
# the keyboard.
NOT_RUN = 126
NOT_FOUND = 127
INTERRUPTED = 130
# The statuses with which an output is complete: a sample or a batch, one in which a run was exhausted, a certificate.
COMPLETE = frozenset({0, ExhaustedError.status, Paused.status})


def main(arguments: Sequence[str] | None = None) -> int:
    """Do what the command line asks for, by default that of the process, and return the status.

    Raises SystemExit for a help text, a command line that isn't valid, and a signal that asks the process to end.
    """
    called = read_command_line(arguments)
    with ended_by_signals():
        status = ended(called)
    # A program that a signal ended has the negative of the signal's number.
    return status if status >= 0 else SIGNALLED - status


def ended(called: Called) -> int:
    """Run, and return the status, also of a run that fails or is stopped from the keyboard."""
    try:
        status = run(called)
    except ReadError as error:
        status = fault(error, called.path)
    except WriteError as error:
        status = fault(error, called.output)
    except NoProgramError as error:
        status = report(str(error), NOT_FOUND)
    except OSError as error:
        status = report(f"The program cannot be run: {reason_of(error)}.", NOT_RUN)
    except KeyboardInterrupt:
        status = INTERRUPTED
    return status


def run(called: Called) -> int:
    """Read the input, run the program, pass its output on, and explain an error: the status."""
    reads = COMMANDS[called.command].reads is not None
    if reads and called.output is not None and is_one_file(called.output, called.path):
        return report(f"{called.output}: This file is the input. Name another file after --output.", USAGE)
    give_notice(called)
    with Output(called.output) as output:
        text = read_input(called, output)
        status, telling = relayed(called, text, output)
        if called.output is None or status in COMPLETE:
            output.keep()
    named = "" if called.path is None or status == UsageError.status else f"{called.path}: "
    for line in refusal_told(called.words, text, status, telling):
        report(named + line)
    return status


def read_input(called: Called, output: Output) -> bytes:
    """Return the input of the command. If it cannot be read, write the program's line for that, and raise ReadError."""
    if COMMANDS[called.command].reads is None:
        return b""
    try:
        return read_text(called.path)
    except ReadError:
        output.write(f"{ReadError.form}\n".encode())
        raise


def relayed(called: Called, text: bytes, output: Output) -> tuple[int, bytes]:
    """Run the program and write its output: the status, and the part of the output that says what it means."""
    count = called.value("--count")
    if count is None or called.quiet or not is_terminal(sys.stderr):
        return relay(called.words, text, output.write, no_progress)
    progress = BatchProgress(count)
    try:
        return relay(called.words, text, output.write, progress)
    finally:
        progress.end()


def give_notice(called: Called) -> None:
    """Print the key of a seed, and that a terminal is read."""
    if called.quiet:
        return
    if called.seed is not None:
        report(f"The key of seed {called.seed} is {called.value('--key')}.")
    reads = COMMANDS[called.command].reads
    if reads is not None and called.path is None and is_terminal(sys.stdin):
        report(f"Standard input is a terminal. Type {reads} and press Ctrl-D, or name a file.")


def fault(refusal: Refusal, path: str | None) -> int:
    """Report that the input or the output failed, and why, which the cause says: the status."""
    return report(f"{'' if path is None else f'{path}: '}{reason_of(refusal.__cause__)}. {refusal}", refusal.status)


def report(line: str, status: int = 0) -> int:
    """Print a line to standard error, and return the status."""
    write_error(f"popsample: {line}\n")
    return status
