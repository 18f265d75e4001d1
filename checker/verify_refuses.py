#!/usr/bin/env python3
"""Sees that the checker accepts all cases of examples, and what was worked by hand of certificates, and refuses false runs, and
each case with a number, a line or the status changed.

    python3 checker/verify_refuses.py

One line is printed: how many outputs agree, and how many changed ones are refused; else the first that is
judged wrong.
"""

from __future__ import annotations

import re
import sys
from typing import Iterator

from verifier.chacha import block
from verifier.example_files import Example, all_examples
from verifier.judging import judge
from verifier.refusals import Difference

# A block of RFC 8439, 2.3.2: its key, stream number, counter and first words.
STANDARD = (bytes(range(32)), 0x4A000000, 0x0900000000000001)
STANDARD_WORDS = (0xE4E7F110, 0x15593BD1, 0x1FDD0F50, 0xC47120A3)

# Outputs that are right in themselves, of runs that are wrong: one stops where an event can be popped, one pops
# what doesn't occur, and one begins at a later entry; four tell a legal log that isn't layered, by its order or by its
# numbers, one in the order of the pops, and one for another; two end with what is no sample. Of the rounds one lets no
# event join, and one moves a variable of an excluded event. A batch tells sample 0 for each, and one is cut short. Of
# the certificates one has a pop less than was asked for and one a pop more, one is of a run at its end, two have a log
# that isn't legal or isn't layered, one is of version 1, and two are of another job or input; one end comes behind more
# pops than were asked for. Of resamplings the same: an end behind too many, a run at its end, a log that isn't layered.
# One that goes on leaves out a pop of its certificate, and a log that isn't legal is replayed up to its last record.
ONE = b"p cnf 1 1\n1 0\n"
TWO = b"p cnf 2 2\n1 0\n2 0\n"
TWO_TOLD = b"s SAMPLE\nv 1 2 0\nused 2 1\npops 3\nlog 2 3\n"
TWO_POPS = b"pop 1 1 1:0\npop 1 2 2:0\npop 2 1 1:1\n"
FOUR_POPS = b"pop 1 1 1:0\npop 2 1 1:1\npop 3 1 1:2\npop 4 1 1:3\n"
AGREEING = b"p cnf 3 2\n1 2 0\n2 3 0\n"
DIFFERING = b"p cnf 3 2\n1 2 0\n-2 3 0\n"
TRIANGLE = b"p edge 3 3\ne 1 2\ne 2 3\ne 1 3\n"
BATCH = "formula --height 2 --count 2 --key " + 63 * "0" + "1"
BEGUN = b"cert 1 resample\nstacks 0,1;0,1;0,1\ninput 22\n" + AGREEING + b"log 2 1\npop 1 1 1:0 2:0\n"
OTHER_END = b"s SAMPLE\nv -1 2 3 0\nused 0 1 1\npops 1\nlog 2 1\npop 1 2 2:0 3:0\n"
SAMPLED = b"s SAMPLE\nv 1 0\nused 0\npops 0\n"
FOUR = b"cert 1 formula\nstacks 0,0,0,0,1\ninput 14\n" + ONE
FREE = b"cert 1 resample\nstacks 0,0,1;0,1\ninput 18\n" + TWO
FALSE_RUNS = (
    ("resample --stacks 0,0,1", ONE, b"s EXHAUSTED\nstuck 1\nused 1\npops 1\nlog 2 1\npop 1 1 1:0\n", 1),
    ("resample --stacks 1,1", ONE, b"s SAMPLE\nv 1 0\nused 1\npops 1\nlog 2 1\npop 1 1 1:0\n", 0),
    ("resample --stacks 0,0,1", ONE, b"s SAMPLE\nv 1 0\nused 2\npops 1\nlog 2 1\npop 1 1 1:1\n", 0),
    ("resample --stacks 0,0,1;0,1", TWO, TWO_TOLD + b"pop 1 2 2:0\npop 1 1 1:0\npop 2 1 1:1\n", 0),
    ("resample --stacks 0,0,1;0,1", TWO, TWO_TOLD + b"pop 1 1 1:0\npop 2 1 1:1\npop 1 2 2:0\n", 0),
    ("resample --stacks 0,0,1;0,1", TWO, TWO_TOLD + b"pop 1 1 1:0\npop 2 2 2:0\npop 3 1 1:1\n", 0),
    ("formula --stacks 0,0,1;0,1 --log on", TWO, TWO_TOLD + b"pop 1 1 1:0\npop 2 1 1:1\npop 1 2 2:0\n", 0),
    ("resample --stacks 0,0,1", ONE, b"s SAMPLE\nv 1 0\nused 2\npops 2\nlog 1 2\npop 1 1:0\npop 1 1:1\n", 0),
    ("orient --stacks 0,0;1,1;1,1", TRIANGLE, b"s SAMPLE\na 1 2 1\na 3 2 2\na 3 1 3\nused 0 0 0\npops 0\n", 0),
    ("tree --stacks 1,0;0,0", TRIANGLE, b"s SAMPLE\na 2 3 2\na 3 2 2\nused 0 0\npops 0\n", 0),
    ("rounds --stacks 0,1;0,0;1,1", AGREEING, b"s SAMPLE\nv 1 -2 3 0\nused 1 1 0\nrounds 1\n", 0),
    ("rounds --stacks 0,1;0,0;0,0", DIFFERING, b"s SAMPLE\nv 1 -2 -3 0\nused 1 1 1\nrounds 1\n", 0),
    (BATCH, ONE, b"batch 2\nsample 0\n" + SAMPLED + b"sample 1\n" + SAMPLED, 0),
    (BATCH, ONE, b"batch 1\nsample 0\n" + SAMPLED, 0),
    ("formula --stacks 0,0,0,0,1 --pops 2", ONE, FOUR + b"log 2 1\npop 1 1 1:0\n", 10),
    ("formula --stacks 0,0,0,0,1 --pops 1", ONE, FOUR + b"log 2 2\npop 1 1 1:0\npop 2 1 1:1\n", 10),
    ("formula --stacks 0,0,0,0,1 --pops 4", ONE, FOUR + b"log 2 4\n" + FOUR_POPS, 10),
    ("formula --stacks 0,0,0,0,1 --pops 2", ONE, FOUR + b"log 2 2\npop 1 1 1:0\npop 2 1 1:2\n", 10),
    ("formula --stacks 0,0,0,0,1 --pops 2", ONE, FOUR + b"log 2 2\npop 1 1 1:0\npop 1 1 1:1\n", 10),
    ("formula --stacks 0,0,0,0,1 --pops 2", ONE, FOUR + b"log 1 2\npop 1 1:0\npop 1 1:1\n", 10),
    ("formula --stacks 0,0,0,1,0 --pops 1", ONE, FOUR + b"log 2 1\npop 1 1 1:0\n", 10),
    ("formula --stacks 0,0,0,0,1 --pops 1", b"c\n" + ONE, FOUR + b"log 2 1\npop 1 1 1:0\n", 10),
    ("formula --stacks 0,0,0,0,1 --pops 3", ONE, b"s SAMPLE\nv 1 0\nused 4\npops 4\n", 0),
    ("resample --stacks 0,0,1;0,1 --pops 2", TWO, TWO_TOLD + TWO_POPS, 0),
    ("resample --stacks 0,0,1;0,1 --pops 3", TWO, FREE + b"log 2 3\n" + TWO_POPS, 10),
    ("resample --stacks 0,0,1;0,1 --pops 2", TWO, FREE + b"log 2 2\npop 1 2 2:0\npop 1 1 1:0\n", 10),
    ("resume", BEGUN, OTHER_END, 0),
    ("replay", FOUR + b"log 2 2\npop 1 1 1:0\npop 2 1 1:2\n", b"s LEGAL 1\nused 1\nend open\n", 10),
)

# Certificates that were worked by hand, of one clause, by what is changed in the right one: what `replay` answers.
LED = b"cert 1 formula\nstacks 0,0,1\ninput 14\n" + ONE + b"log 2 1\npop 1 1 1:0\n"
KEY = b"key " + 64 * b"0"
REPLAYS = (
    (b"", b"", b"s LEGAL 1\nused 1\nend open\n", 10),
    (b"0,0,1", b"0,1", b"s LEGAL 1\nused 1\nend sample\n", 0),
    (b"0,0,1", b"0,0", b"s LEGAL 1\nused 1\nend exhausted\n", 1),
    (b"log 2 1\npop 1 ", b"log 1 1\npop ", b"s LEGAL 1\nused 1\nend open\n", 10),
    (b"1:0\n", b"1:1\n", b"s NOTLEGAL 1\n", 11),
    (b"1:0\n", b"1:4294967295\n", b"s NOTLEGAL 1\n", 11),
    (b"cert 1", b"cert 2", b"s MALFORMED 1 21\n", 3),
    (b"formula", b"check", b"s MALFORMED 1 21\n", 3),
    (b"stacks 0", b"stacks 00", b"s MALFORMED 2 21\n", 3),
    (b"stacks 0,0,1", b"stacks ", b"s MALFORMED 2 21\n", 3),
    (b"stacks 0,0,1", KEY.replace(b"0", b"A"), b"s MALFORMED 2 21\n", 3),
    (b"stacks 0,0,1", KEY, b"s MALFORMED 3 21\n", 3),
    (b"stacks 0,0,1", KEY + b"\nheight 2147483648", b"s MALFORMED 3 21\n", 3),
    (b"formula", b"tree", b"s MALFORMED 3 21\n", 3),
    (b"input 14", b"input 4294967296", b"s MALFORMED 3 21\n", 3),
    (b"input 14", b"input 4294967295", b"s MALFORMED 3 22\n", 3),
    (b"stacks 0,0,1", b"stacks", b"s ROWS 0 1\n", 3),
    (b"stacks 0,0,1", b"stacks ;", b"s ROWS 2 1\n", 3),
    (b"1 0\n", b"2 0\n", b"s MALFORMED 2 3\n", 3),
    (b"input 14", b"input 13", b"s MALFORMED 1 31\n", 3),
    (b"log 2 1", b"log 2 01", b"s MALFORMED 1 31\n", 3),
    (b"log 2 1", b"log 2 0", b"s MALFORMED 2 31\n", 3),
    (b"log 2 1", b"log 2 2", b"s MALFORMED 3 31\n", 3),
    (b"1:0\n", b"1:0", b"s MALFORMED 2 31\n", 3),
    (b"1:0\n", b"1:4294967296\n", b"s MALFORMED 2 31\n", 3),
    (b"pop 1 1", b"pop 1 2", b"s MALFORMED 2 31\n", 3),
    (b"pop 1 1", b"pop 0 1", b"s MALFORMED 2 31\n", 3),
    (b"pop 1 1", b"pop 2 1", b"s MALFORMED 2 32\n", 3),
)


def changed_numbers(example: Example) -> Iterator[Example]:
    """The example with one number changed: one more, one less, or a digit more at its end."""
    for found in re.finditer(rb"[0-9]+", example.printed):
        number = int(found[0])
        for other in {number + 1, abs(number - 1), number * 10 + 1}:
            printed = example.printed[:found.start()] + b"%d" % other + example.printed[found.end():]
            yield example._replace(printed=printed)


def changed_lines(example: Example) -> Iterator[Example]:
    """The example with a line left out, doubled, or put for its neighbour; and with another status."""
    lines = example.printed.splitlines(True)
    for place, line in enumerate(lines):
        for other in ([], [line, line], [line.upper()], [line[:-1]], [line[:-1] + b" \n"]):
            printed = b"".join(lines[:place] + other + lines[place + 1:])
            if printed != example.printed:
                yield example._replace(printed=printed)
        turned = lines[:place] + lines[place:place + 2][::-1] + lines[place + 2:]
        if turned != lines:
            yield example._replace(printed=b"".join(turned))
    for status in {example.status + 1, abs(example.status - 1)}:
        yield example._replace(status=status)


def is_accepted(example: Example) -> bool:
    """Whether the checker accepts the output."""
    try:
        judge(example.printed, example.status, example.words, example.text)
    except Difference:
        return False
    return True


def judge_false_runs() -> None:
    """Sees that each false run is refused."""
    for words, text, printed, status in FALSE_RUNS:
        if is_accepted(Example("a false run", words.split(), text, printed, status)):
            raise ValueError(f"accepted for {words}:\n{printed.decode()}")


def judge_replays() -> None:
    """Sees that each certificate that was worked by hand is judged so."""
    for right, other, printed, status in REPLAYS:
        certificate = LED.replace(right, other, 1)
        if not is_accepted(Example("a certificate", ["replay"], certificate, printed, status)):
            raise ValueError(f"refused of a certificate with {other!r} for {right!r}:\n{printed.decode()}")


def judge_changed(example: Example) -> int:
    """Sees that the example is accepted, and each changed one refused; tells how many these are."""
    if not is_accepted(example):
        raise ValueError(f"{example.name} is refused")
    count = 0
    for changed in (*changed_numbers(example), *changed_lines(example)):
        count += 1
        if is_accepted(changed):
            printed = changed.printed.decode()
            raise ValueError(f"{example.name} is accepted with status {changed.status} and\n{printed}")
    return count


def main() -> int:
    """Runs all, and tells the status."""
    try:
        if block(*STANDARD)[:4] != STANDARD_WORDS:
            raise ValueError("the cipher isn't that of RFC 8439")
        judge_false_runs()
        judge_replays()
        counts = [judge_changed(example) for example in all_examples()]
    except ValueError as error:
        print(error)
        return 1
    print(f"verify: {len(counts)} examples and {len(REPLAYS)} certificates agree, {sum(counts)} changed ones and "
          f"{len(FALSE_RUNS)} false runs are refused")
    return 0


if __name__ == "__main__":
    sys.exit(main())
