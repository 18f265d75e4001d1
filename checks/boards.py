"""Lets many threads work on many small random boards of claim words, and compares each closed board with the one-thread run.

    python3 -m checks.boards

A test of `worker_tests` does so with a few boards and two threads. This runs the same test, on a copy of the crates in a
temporary folder, with as many boards and threads as are asked for. It is run by hand: `rt test` proves the copy and
builds its tests, of which this one is then run for as long as it takes; with `--unproved` it is only run, by
`rt try --test`, which gives it a minute, enough for some hundred boards.
"""
import argparse
import os
import re
import shutil
import subprocess
import sys
import tempfile
import time

CRATE = "worker_tests"
TEST = os.path.join("crates", CRATE, "src", "claims", "boards.rt")
NAME = "claims::boards::threads_end_alike_on_boards_of_both_families"
# A test that ends at once. By its name `rt test` runs none that takes long.
SHORT = "a_claimed_variable_is_busy_for_another_pass"


def arguments():
    parser = argparse.ArgumentParser(description=__doc__.splitlines()[0])
    parser.add_argument("--boards", type=int, default=100_000)
    parser.add_argument("--threads", type=int, default=8)
    parser.add_argument("--unproved", action="store_true", help="run the test without its proof")
    return parser.parse_args()


def with_constant(text, name, value):
    """The text of a test, with another value of a constant of type u32."""
    changed, count = re.subn(rf"(const {name}: u32 = )[0-9_]+;", rf"\g<1>{value};", text)
    if count != 1:
        sys.exit(f"{TEST} has no constant {name}")
    return changed


def main():
    asked = arguments()
    top = os.path.dirname(os.path.dirname(os.path.abspath(__file__)))
    with tempfile.TemporaryDirectory() as folder:
        copy = os.path.join(folder, "copy")
        skipped = shutil.ignore_patterns(".git", "out", "python", "examples", "checker", "release")
        shutil.copytree(top, copy, ignore=skipped)
        path = os.path.join(copy, TEST)
        with open(path, encoding="utf-8") as file:
            text = file.read()
        text = with_constant(text, "BOARDS", asked.boards)
        text = with_constant(text, "THREADS", asked.threads)
        with open(path, "w", encoding="utf-8") as file:
            file.write(text)
        crate = os.path.join(copy, "crates", CRATE)
        if asked.unproved:
            words = ["rt", "try", "--test"]
        else:
            if status := subprocess.run(["rt", "test", "--", SHORT], cwd=crate).returncode:
                sys.exit(status)
            words = [os.path.join(crate, "out", f"{CRATE}_tests"), NAME]
        begun = time.monotonic()
        ended = subprocess.run(words, cwd=crate)
        seconds = time.monotonic() - begun
    how = " with the build" if asked.unproved else ""
    print(f"{asked.boards} boards, {asked.threads} threads, {seconds:.0f} s{how}: status {ended.returncode}")
    sys.exit(ended.returncode)


if __name__ == "__main__":
    main()
