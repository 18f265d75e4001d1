#!/usr/bin/env python3
"""Judges what popsample printed, from the definitions, and shares nothing with it.

    popsample tree < maze.col > maze.tree
    python3 checker/verify.py maze.tree $? tree < maze.col

The words are the file with what was printed, the status, and the command words; the input is standard
input. `python3 checker/verify.py --examples` judges the cases of examples. One line is printed: `agrees`, or
what differs first. The status is 0 where the answer is right, 1 where it isn't, and 2 where the call is
wrong.
"""

from __future__ import annotations

import sys
from pathlib import Path

from verifier.example_files import all_examples
from verifier.judging import judge
from verifier.refusals import Difference


def judge_examples() -> str:
    """Judges all examples, and tells how many there are."""
    count = 0
    for example in all_examples():
        count += 1
        try:
            judge(example.printed, example.status, example.words, example.text)
        except Difference as difference:
            raise ValueError(f"{example.name}.case, {difference}") from difference
    return f"agrees: {count} examples"


def judge_call(arguments: list[str]) -> str:
    """Judges a printed file."""
    words = arguments[2:]
    unread = words[:1] == ["make"]
    text = b"" if unread else sys.stdin.buffer.read()
    judge(Path(arguments[0]).read_bytes(), int(arguments[1]), words, text)
    return "agrees"


def main() -> int:
    """Runs the call, and tells its status."""
    arguments = sys.argv[1:]
    examples = arguments == ["--examples"]
    if not examples and (len(arguments) < 2 or not arguments[1].isdecimal()):
        print("usage: verify.py PRINTED STATUS WORD.. < INPUT, or verify.py --examples", file=sys.stderr)
        return 2
    try:
        print(judge_examples() if examples else judge_call(arguments))
    except (Difference, ValueError) as difference:
        print(difference)
        return 1
    except OSError as error:
        print(f"verify.py: {error}", file=sys.stderr)
        return 2
    return 0


if __name__ == "__main__":
    sys.exit(main())
