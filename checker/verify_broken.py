#!/usr/bin/env python3
"""Runs a built program on broken certificates, and judges each answer by the checker.

    python3 checker/verify_broken.py PROGRAM

They are the fronts of a certificate of one pop, and that certificate with one bit changed, each of which is replayed and
resumed. One line is printed: how many answers of each status agree; else the first that doesn't, with its certificate.
"""

from __future__ import annotations

import argparse
import sys
from collections import Counter
from typing import Iterator

from verifier.telling import status_of
from verify_random import in_words, judged

# A run of one clause that was stopped at its first pop.
CERTIFICATE = b"cert 1 formula\nstacks 0,0,1\ninput 14\np cnf 1 1\n1 0\nlog 2 1\npop 1 1 1:0\n"


def fronts(certificate: bytes) -> Iterator[bytes]:
    """The certificate, cut behind so many bytes."""
    for length in range(len(certificate)):
        yield certificate[:length]


def flipped(certificate: bytes) -> Iterator[bytes]:
    """The certificate with one bit of one byte changed."""
    for place, byte in enumerate(certificate):
        for bit in range(8):
            yield certificate[:place] + bytes([byte ^ 1 << bit]) + certificate[place + 1:]


def judge_broken(program: str) -> str:
    """Judges the answers to all of them."""
    texts = [*fronts(CERTIFICATE), *flipped(CERTIFICATE)]
    statuses: Counter[int] = Counter()
    for command in ("replay", "resume"):
        statuses.update(judged(program, [command], text)[0] for text in texts)
    return f"agrees: {len(texts)} broken certificates, replayed and resumed, {in_words(statuses)}"


def main() -> int:
    """Runs the call, and tells its status."""
    parser = argparse.ArgumentParser(description="Judges the answers of a built program to broken certificates.")
    parser.add_argument("program", metavar="PROGRAM", help="the built program")
    asked = parser.parse_args()
    return status_of(lambda: judge_broken(asked.program))


if __name__ == "__main__":
    sys.exit(main())
