"""What the scripts that call popsample share: the options of a call, and the call."""

from __future__ import annotations

import argparse
import re
import secrets
import subprocess
import sys

from telling import positive


def key(word: str) -> str:
    """A key. Raises ValueError where the word is none."""
    if not re.fullmatch(r"[0-9a-fA-F]{64}", word):
        raise ValueError(word)
    return word


def caller(description: str) -> argparse.ArgumentParser:
    """A parser of what scripts are asked that make many samples: how many, under which key, and by which program."""
    parser = argparse.ArgumentParser(description=description)
    parser.add_argument("--samples", type=positive, default=100, metavar="N", help="how many are drawn (100)")
    parser.add_argument("--key", type=key, default=secrets.token_hex(32), metavar="DIGITS", help="the key (one of chance)")
    parser.add_argument("--program", default="popsample", metavar="PATH", help="the program (popsample)")
    parser.add_argument("--svg", metavar="FILE", help="where to draw what was found (nowhere)")
    return parser


def printed_by(program: str, words: list[str], text: str) -> str:
    """What the program prints. Ends with its first line where it isn't a sample or a batch of samples.

    Raises OSError if there is no such program, or it can't be run.
    """
    try:
        ran = subprocess.run([program, *words], input=text, stdout=subprocess.PIPE, text=True, check=False)
    except OSError as error:
        remedy = "Install popsample, or name its path after --program."
        raise OSError(f"the program {program!r} can't be run ({error.strerror}). {remedy}") from error
    if ran.returncode:
        sys.exit(f"popsample answers {ran.stdout.splitlines()[:1]}, with status {ran.returncode}")
    return ran.stdout
