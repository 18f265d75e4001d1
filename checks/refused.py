"""Refuses each allocation of popsample in turn, each thread, each read and each write, and judges what it answers.

    python3 -m checks.refused --program PROGRAM

The calls are refused by a small library that is put before the C library of the built program. What is right is said by
the checker, which shares nothing with the program. README.md says more.
"""
import os
import struct
import subprocess
import sys
import tempfile
from collections import Counter
from functools import lru_cache
from typing import NamedTuple, Optional

from bench.asking import parser_of
from checker.verifier.command_line import read_words
from checker.verifier.example_files import all_examples
from checker.verifier.judging import judge
from checker.verifier.refusals import Difference, Refusal

HERE = os.path.dirname(os.path.abspath(__file__))

KINDS = ("alloc", "thread", "read", "write")
# A sweep is at its end when so many numbers in a row weren't reached: with several workers they change a little.
BEYOND = 3
# Where there are more calls, they aren't all refused, but one after every so many.
MOST_REFUSED = 500
SECONDS = 60

ONE = b"p cnf 1 1\n1 0\n"
TRIANGLE = b"p edge 3 3\ne 1 2\ne 2 3\ne 1 3\n"
CERTIFICATE = b"cert 1 formula\nstacks 0,0,1\ninput 14\n" + ONE + b"log 2 1\npop 1 1 1:0\n"
ROUND_TRIP = b"p col 3 3\ne 1 2\ne 2 3\ne 3 1\n"
# Runs whose answers stand in docs/FORMATS.md or were worked out by hand.
SMALL = (
    ("one clause", "formula --stacks 0,0,1", ONE),
    ("tree of a triangle", "tree --stacks 1,0;0,0", TRIANGLE),
    ("orientation of a triangle", "orient --stacks 0,0;1,0;0", ROUND_TRIP),
    ("log, witness, reports", "resample --stacks 0,0,1 --witness 1,1 --report totals,heights", ONE),
    ("grid of side 2", "make grid 2 --stacks 0;0;0", b""),
    ("stages of a clause", "formula --height 1 --grow 8", b"p cnf 1 1\n-1 0\n"),
    ("batch of trees", "tree --count 2", b"p edge 2 1\ne 1 2\n"),
    ("one clause, stopped", "formula --stacks 0,0,1 --pops 1", ONE),
    ("tree of a triangle, stopped", "tree --stacks 1,1,0;0,0,0 --pops 1", TRIANGLE),
    ("one clause, replayed", "replay", CERTIFICATE),
    ("one clause, resumed", "resume", CERTIFICATE),
)


class Case(NamedTuple):
    """Words and an input, and whether they are small enough to go by single bytes."""

    name: str
    words: tuple
    text: bytes
    is_small: bool


class Answer(NamedTuple):
    """What a program printed, its status, None where it didn't end, and how often each kind of call came."""

    printed: bytes
    status: Optional[int]
    calls: dict


class Bench(NamedTuple):
    """The program, the library that refuses, and the file in which that counts."""

    program: str
    library: str
    tally: str

    def run(self, case, refused="", piece=""):
        """The answer to a case, where a call is refused."""
        with open(self.tally, "wb") as tally:
            tally.write(bytes(32))
        told = {"REFUSED": refused, "PIECE": piece, "TALLY": self.tally, "LD_PRELOAD": self.library}
        given = {name: value for name, value in told.items() if value}
        try:
            ran = subprocess.run(
                [self.program, *case.words], input=case.text, stdout=subprocess.PIPE, stderr=subprocess.STDOUT,
                env=given, timeout=SECONDS)
            printed, status = ran.stdout, ran.returncode
        except subprocess.TimeoutExpired:
            printed, status = b"nothing: it didn't end", None
        with open(self.tally, "rb") as tally:
            calls = dict(zip(KINDS, struct.unpack("<4Q", tally.read())))
        return Answer(printed, status, calls)


@lru_cache(maxsize=None)
def is_right(case, printed, status):
    """Whether the answer is right, as if nothing had been refused."""
    try:
        judge(printed, status, list(case.words), case.text)
    except Difference:
        return False
    return True


def outcome(case, kind, answer, plain):
    """In a word, how the program answered to a refused call; None where it should not have answered so."""
    told = (answer.status, answer.printed)
    if is_right(case, answer.printed, answer.status):
        return "whole"
    if told == (9, b"s MEMORY\n") and kind in ("alloc", "thread"):
        return "memory"
    # The words themselves can't be made.
    if told == (9, b"") and kind == "alloc":
        return "no words"
    if told == (7, b"s READFAULT\n") and kind == "read":
        return "read fault"
    if answer.status == 8 and kind == "write" and plain.printed.startswith(answer.printed):
        return "write fault"
    return None


def sweep(bench, case, kind, piece=""):
    """How often each outcome came when each call of a kind was refused in turn, and after how many the next one was.
    Raises ValueError at a wrong one.
    """
    plain = bench.run(case, piece=piece)
    if not is_right(case, plain.printed, plain.status):
        raise ValueError(f"{case.name}: with nothing refused the answer is {plain.status}, {plain.printed!r}")
    found = Counter()
    step = 1 + plain.calls[kind] // MOST_REFUSED
    number, beyond = 1, 0
    while beyond < BEYOND:
        answer = bench.run(case, f"{kind} {number}", piece)
        told = outcome(case, kind, answer, plain)
        is_late = told == "no words" and bool({*found} - {told})
        if told is None or is_late or (answer.calls[kind] < number and told != "whole"):
            raise ValueError(f"{case.name}: at {kind} {number} the answer is {answer.status}, {answer.printed!r}")
        reached = answer.calls[kind] >= number
        beyond = 0 if reached else beyond + 1
        found[told] += reached
        number += step
    return found, step


def cases():
    """The small runs, and those of the examples."""
    for name, words, text in SMALL:
        yield Case(name, tuple(words.split()), text, True)
    for example in all_examples():
        yield Case(example.name, tuple(example.words), example.text, False)


def with_options(case, options):
    """The case by two workers on a board, where its words go together with these options."""
    words = (*case.words, *options)
    try:
        read_words(list(words))
    except Refusal:
        return None
    return case._replace(name=" ".join([case.name, *options]), words=words)


def boards_of(bench):
    """The options of workers, for each board that the program has."""
    workers = ["--workers", "2"]
    answer = bench.run(Case("boards", ("make", "grid", "1", "--board", "lock"), b"", True))
    if answer.calls["alloc"] == 0:
        sys.exit("no call was counted: is the program linked to the C library when it starts?")
    boards = ("words", "lock") if answer.status == 0 else ()
    return [[*workers, "--board", board] for board in boards] or [workers]


def variants(case, boards):
    """The case on each board, or as it is where its words take no workers."""
    made = [with_options(case, options) for options in boards]
    return [each for each in made if each] or [case]


def in_words(found, step):
    """Counts of outcomes, in words."""
    total = sum(found.values())
    counts = ", ".join(f"{count} {name}" for name, count in found.items() if count)
    chosen = f"{total}" if step == 1 else f"{total}, one of every {step}"
    return f"{chosen}: {counts}" if total else "none"


def judge_case(bench, case):
    """Sweeps a case, and prints its row. Says whether all was as it should be."""
    try:
        cells = [in_words(*sweep(bench, case, kind)) for kind in ("alloc", "thread")]
        piece = "1" if case.is_small else ""
        cells += [in_words(*sweep(bench, case, kind, piece)) for kind in ("read", "write")]
    except ValueError as wrong:
        print(f"| WRONG: {wrong} |", flush=True)
        return False
    print(f"| {case.name} | " + " | ".join(cells) + " |", flush=True)
    return True


def build(folder):
    """The library that refuses calls, compiled by the C compiler of the machine."""
    library = os.path.join(folder, "refusing.so")
    compiler = os.environ.get("CC", "cc")
    subprocess.run(
        [compiler, "-O2", "-shared", "-fPIC", "-o", library, os.path.join(HERE, "refusing.c")], check=True)
    return library


def arguments():
    parser = parser_of(__doc__.splitlines()[0])
    parser.add_argument("--only", default="", metavar="WORD", help="leave out runs without this in their name")
    return parser.parse_args()


def main():
    asked = arguments()
    with tempfile.TemporaryDirectory(prefix="popsample-refused-") as folder:
        bench = Bench(asked.program, build(folder), os.path.join(folder, "tally"))
        boards = boards_of(bench)
        chosen = [each for case in cases() for each in variants(case, boards) if asked.only in each.name]
        print("| run | allocations | threads | reads | writes |\n| --- | --- | --- | --- | --- |")
        wrong = [case.name for case in chosen if not judge_case(bench, case)]
    print(f"{len(chosen)} runs, {len(wrong)} of them wrong")
    return 1 if wrong else 0


if __name__ == "__main__":
    sys.exit(main())
