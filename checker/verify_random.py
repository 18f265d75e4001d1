#!/usr/bin/env python3
"""Runs a built program on small random instances of all commands, and judges each answer by the checker.

    python3 checker/verify_random.py PROGRAM [COUNT [SEED]]

Each certificate among the answers is replayed, and resumed by several crews, as it is and changed. One line is printed:
how many answers of each status agree; else the first that doesn't, with its words and its input.
"""

from __future__ import annotations

import argparse
import subprocess
import sys
from collections import Counter
from random import Random
from typing import Iterator

from verifier.judging import judge
from verifier.random_cases import changed_certificate, random_case
from verifier.refusals import Difference
from verifier.telling import status_of

# The status of a run that was stopped, whose answer is a certificate.
STOPPED = 10
# How often each certificate is changed.
CHANGED = 3
CREWS = [
    ["--workers", workers, "--board", board] for board in ("words", "lock") for workers in ("1", "2", "8")]


def judged(program: str, words: list[str], text: bytes) -> tuple[int, bytes]:
    """The answer to words and an input, which is judged: its status, and what is printed."""
    answer = subprocess.run([program, *words], input=text, capture_output=True, check=False)
    try:
        judge(answer.stdout, answer.returncode, words, text)
    except Difference as difference:
        printed = answer.stdout.decode("ascii", "replace")
        raise ValueError(f"{difference}\nwords {words}\ninput {text!r}\nprinted {printed}") from difference
    return answer.returncode, answer.stdout


def without_pops(words: list[str]) -> list[str]:
    """The command line that asks for the whole run."""
    place = words.index("--pops")
    return words[:place] + words[place + 2:]


def judge_certificate(program: str, words: list[str], text: bytes, certificate: bytes) -> Iterator[int]:
    """Judges what becomes of the certificate of a run that was stopped, by every crew, and tells the statuses. But for
    resamplings it is, byte for byte, what becomes of the whole run.
    """
    yield judged(program, ["replay"], certificate)[0]
    whole = judged(program, without_pops(words), text)
    for crew in CREWS:
        resumed = judged(program, ["resume", *crew], certificate)
        if words[0] != "resample" and resumed != whole:
            raise ValueError(f"resumed by {crew} is another answer than to\nwords {words}\ninput {text!r}")
        yield resumed[0]


def judge_changed(program: str, chance: Random, certificate: bytes) -> Iterator[int]:
    """Judges what becomes of changed certificates, and tells the statuses."""
    for _ in range(CHANGED):
        changed = changed_certificate(chance, certificate)
        for words in (["replay"], ["resume", *chance.choice(CREWS)]):
            yield judged(program, words, changed)[0]


def judge_cases(program: str, count: int, seed: int) -> str:
    """Judges the answers to so many random cases, and to the certificates among them."""
    chance = Random(seed)
    statuses: Counter[int] = Counter()
    certificates: Counter[int] = Counter()
    for _ in range(count):
        words, text = random_case(chance)
        status, printed = judged(program, words, text)
        statuses[status] += 1
        if status == STOPPED:
            certificates.update(judge_certificate(program, words, text, printed))
            certificates.update(judge_changed(program, chance, printed))
    return (f"agrees: {count} random instances of seed {seed}, {in_words(statuses)}; "
            f"{sum(certificates.values())} runs of their certificates, {in_words(certificates)}")


def in_words(statuses: Counter[int]) -> str:
    """How often each status came."""
    return ", ".join(f"{times} of status {status}" for status, times in sorted(statuses.items()))


def main() -> int:
    """Runs the call, and tells its status."""
    parser = argparse.ArgumentParser(description="Judges the answers of a built program to random words and texts.")
    parser.add_argument("program", metavar="PROGRAM", help="the built program")
    parser.add_argument("count", metavar="COUNT", type=int, nargs="?", default=300, help="how many instances (300)")
    parser.add_argument("seed", metavar="SEED", type=int, nargs="?", default=1, help="by which they are drawn (1)")
    asked = parser.parse_args()
    return status_of(lambda: judge_cases(asked.program, asked.count, asked.seed))


if __name__ == "__main__":
    sys.exit(main())
