#!/usr/bin/env python3
"""Runs a built program on the cases of `worked/`, most of which were worked by hand; the checker judges them too.

    python3 checker/verify_worked.py PROGRAM

The status is 0 where all are answered as they say, 1 where some aren't, and 2 where the call is wrong.
"""

from __future__ import annotations

import argparse
import os
import sys
import unittest
from pathlib import Path

FOLDER = Path(__file__).resolve().parent


def main() -> int:
    """Runs the call, and tells its status."""
    parser = argparse.ArgumentParser(description="Runs a built program on the cases of worked/, and judges its answers.")
    parser.add_argument("program", metavar="PROGRAM", help="the built program")
    os.environ["POPSAMPLE"] = str(Path(parser.parse_args().program).resolve())
    cases = unittest.defaultTestLoader.discover(str(FOLDER / "worked"), top_level_dir=str(FOLDER))
    return 0 if unittest.TextTestRunner().run(cases).wasSuccessful() else 1


if __name__ == "__main__":
    sys.exit(main())
