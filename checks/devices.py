"""Runs a built popsample on real devices that fail, end early or go slowly, and judges what it answers.

    python3 -m checks.devices --program PROGRAM

One line is printed for what went wrong, and a last one that counts. The status is 0 where nothing did.
"""
import os
import subprocess
import sys
import tempfile
from typing import Callable, NamedTuple

from bench.asking import parser_of

SECONDS = 60

FORMULA = b"c by hand\np cnf 3 2\n1 -2\nc within\n0\n2 3\n"
FORMULA_ANSWER = b"s SAMPLE\nv -1 -2 3 0\nused 0 0 0\npops 0\n"
GRAPH = b"p edge 4 3\ne 2 3\ne 3 4\ne 4 1\n"
TREE_ANSWER = b"s SAMPLE\na 2 3 1\na 3 4 2\na 4 1 3\nused 0 1 1\npops 1\n"
MADE_ANSWER = b"s SAMPLE\ngrid 2\nused 0 0\npops 0\nsum 9\n"
BATCH = b"p edge 2 1\ne 1 2\n"
BATCH_ANSWER = b"batch 2\n" + b"".join(b"sample %d\ns SAMPLE\na 2 1 1\nused 0\npops 0\n" % j for j in range(2))
FORMULA_WORDS = ("formula", "--stacks", "0;0;1")
TREE_WORDS = ("tree", "--stacks", "0,0;1,1;0,1")
MADE_WORDS = ("make", "grid", "2", "--stacks", "0;0;0")
BATCH_WORDS = ("tree", "--count", "2")
ONE = b"p cnf 1 1\n1 0\n"
ONE_ANSWER = b"s SAMPLE\nv 1 0\nused 2\npops 2\n"
STOPPED_WORDS = ("formula", "--stacks", "0,0,1", "--pops", "1")
RESUMED_WORDS = ("resume", "--workers", "2")
CERTIFICATE = b"cert 1 formula\nstacks 0,0,1\ninput 14\n" + ONE + b"log 2 1\npop 1 1 1:0\n"
# An answer that no pipe holds at once has a line for each of so many leaves.
LEAVES = 20000


class Told(NamedTuple):
    """What the program printed, to both of its outputs, and its status, which is negative where a signal ended it."""

    printed: bytes
    errors: bytes
    status: int


def star():
    """The graph text of a star, which is its only tree."""
    edges = [b"e 1 %d\n" % leaf for leaf in range(2, LEAVES + 2)]
    return b"p edge %d %d\n" % (LEAVES + 1, LEAVES) + b"".join(edges)


def ended(process, printed=b""):
    """What a started program told, whose output goes elsewhere."""
    _, errors = process.communicate(timeout=SECONDS)
    return Told(printed, errors, process.returncode)


def started(program, words, source, sink):
    """The program on these two files."""
    return subprocess.Popen([program, *words], stdin=source, stdout=sink, stderr=subprocess.PIPE)


def from_file(program, words, path, flags=os.O_RDONLY):
    """Its answer where standard input is a file that was opened so."""
    source = os.open(path, flags)
    ran = subprocess.run([program, *words], stdin=source, capture_output=True, timeout=SECONDS)
    os.close(source)
    return Told(ran.stdout, ran.stderr, ran.returncode)


def to_file(program, words, text, path, flags=os.O_WRONLY):
    """Its answer where standard output is a file that was opened so, to which nothing comes."""
    sink = os.open(path, flags)
    ran = subprocess.run([program, *words], input=text, stdout=sink, stderr=subprocess.PIPE, timeout=SECONDS)
    os.close(sink)
    return Told(b"", ran.stderr, ran.returncode)


def closed(program, words, text, number):
    """Its answer where the standard input (0) or output (1) is closed."""
    shell = ["/bin/sh", "-c", f'exec "$0" "$@" {"<" if number == 0 else ">"}&-', program, *words]
    ran = subprocess.run(shell, input=text, capture_output=True, timeout=SECONDS)
    return Told(ran.stdout, ran.stderr, ran.returncode)


def pipe_of_packets():
    """A pipe of which each read gets what one write gave, where the system has such."""
    try:
        return os.pipe2(os.O_DIRECT | os.O_CLOEXEC)
    except OSError:
        return os.pipe()


def byte_by_byte(program, words, text):
    """Its answer where standard input is a pipe of which each read gets a byte."""
    takes, gives = pipe_of_packets()
    process = started(program, words, takes, subprocess.PIPE)
    os.close(takes)
    for place in range(len(text)):
        os.write(gives, text[place:place + 1])
    os.close(gives)
    printed, errors = process.communicate(timeout=SECONDS)
    return Told(printed, errors, process.returncode)


def reader_takes(program, words, text, count):
    """Its answer to a reader that takes so many bytes and closes the pipe: these bytes."""
    with tempfile.TemporaryFile() as source:
        source.write(text)
        source.seek(0)
        gives, takes = os.pipe()
        if count == 0:
            os.close(gives)
        process = started(program, words, source, takes)
        os.close(takes)
        printed = os.read(gives, count) if count else b""
        if count:
            os.close(gives)
        return ended(process, printed)


class Trial(NamedTuple):
    """A device, the call on it, and what is to be told."""

    name: str
    call: Callable[[], Told]
    wanted: Told


def wanted(status, printed=b""):
    return Told(printed, b"", status)


def source_trials(program, folder):
    """Standard inputs that fail, end early or go slowly."""
    def on(text, words):
        return lambda: byte_by_byte(program, words, text)

    fault = wanted(7, b"s READFAULT\n")
    return [
        Trial("a directory as input", lambda: from_file(program, FORMULA_WORDS, folder), fault),
        Trial("a directory as input of make", lambda: from_file(program, MADE_WORDS, folder), wanted(0, MADE_ANSWER)),
        Trial("a directory and a bad word", lambda: from_file(program, ("tree", "--root", "0"), folder),
              wanted(2, b"s USAGE 3\n")),
        Trial("an input that is only written", lambda: from_file(program, TREE_WORDS, os.devnull, os.O_WRONLY), fault),
        Trial("a closed input", lambda: closed(program, FORMULA_WORDS, b"", 0), fault),
        Trial("an empty input", lambda: from_file(program, TREE_WORDS, os.devnull), wanted(3, b"s MALFORMED 1 11\n")),
        Trial("a pipe that closes after a byte", on(FORMULA[10:11], FORMULA_WORDS), wanted(3, b"s MALFORMED 1 1\n")),
        Trial("a formula byte by byte", on(FORMULA, FORMULA_WORDS), wanted(0, FORMULA_ANSWER)),
        Trial("a graph byte by byte", on(GRAPH, TREE_WORDS), wanted(0, TREE_ANSWER)),
        Trial("a batch byte by byte", on(BATCH, BATCH_WORDS), wanted(0, BATCH_ANSWER)),
        Trial("a stopped run byte by byte", on(ONE, STOPPED_WORDS), wanted(10, CERTIFICATE)),
        Trial("a certificate byte by byte", on(CERTIFICATE, ("replay",)), wanted(10, b"s LEGAL 1\nused 1\nend open\n")),
        Trial("a certificate that goes on, byte by byte", on(CERTIFICATE, RESUMED_WORDS), wanted(0, ONE_ANSWER)),
        Trial("a certificate that ends early", on(CERTIFICATE[:40], ("replay",)), wanted(3, b"s MALFORMED 3 22\n")),
        Trial("a directory as certificate", lambda: from_file(program, RESUMED_WORDS, folder), fault),
        Trial("a directory as input of a stopped run", lambda: from_file(program, STOPPED_WORDS, folder), fault),
    ]


def sink_trials(program, folder):
    """Standard outputs that fail or end early."""
    full = "/dev/full"
    return [
        Trial("a full device", lambda: to_file(program, FORMULA_WORDS, FORMULA, full), wanted(8)),
        Trial("a full device and a bad word", lambda: to_file(program, ("tree", "2"), b"", full), wanted(8)),
        Trial("a full device and a batch", lambda: to_file(program, BATCH_WORDS, BATCH, full), wanted(8)),
        Trial("a full device and a certificate", lambda: to_file(program, STOPPED_WORDS, ONE, full), wanted(8)),
        Trial("a full device and a certificate that goes on",
              lambda: to_file(program, RESUMED_WORDS, CERTIFICATE, full), wanted(8)),
        Trial("an output that is only read", lambda: to_file(program, TREE_WORDS, GRAPH, os.devnull, os.O_RDONLY),
              wanted(8)),
        Trial("a closed output", lambda: closed(program, TREE_WORDS, GRAPH, 1), wanted(8)),
        Trial("a closed output of make", lambda: closed(program, MADE_WORDS, b"", 1), wanted(8)),
        Trial("no reader", lambda: reader_takes(program, FORMULA_WORDS, FORMULA, 0), wanted(8)),
        Trial("a reader that closes early", lambda: reader_takes(program, ("tree",), star(), 9),
              wanted(8, b"s SAMPLE\n")),
        Trial("a directory as input, and a full device", lambda: both_fail(program, folder, full), wanted(8)),
    ]


def both_fail(program, folder, path):
    """Its answer where reading fails, and then writing."""
    source, sink = os.open(folder, os.O_RDONLY), os.open(path, os.O_WRONLY)
    process = started(program, FORMULA_WORDS, source, sink)
    os.close(source)
    os.close(sink)
    return ended(process)


def is_right(trial):
    """Whether a trial went as it should; prints what it told where it didn't."""
    try:
        told = trial.call()
    except (OSError, subprocess.TimeoutExpired) as error:
        told = error
    if told != trial.wanted:
        print(f"{trial.name}: {trial.wanted} is right, and it told {told}")
    return told == trial.wanted


def main():
    program = parser_of(__doc__.splitlines()[0]).parse_args().program
    with tempfile.TemporaryDirectory() as folder:
        trials = [*source_trials(program, folder), *sink_trials(program, folder)]
        wrong = [trial for trial in trials if not is_right(trial)]
    print(f"devices: {len(trials) - len(wrong)} answer as they should, {len(wrong)} don't")
    return 1 if wrong else 0


if __name__ == "__main__":
    sys.exit(main())
