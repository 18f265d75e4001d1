#!/usr/bin/env python3
"""Stops runs of a built popsample halfway, and compares what becomes of their certificates with the whole runs.

README.md says more.
"""
import filecmp
import os
import sys
import tempfile
import time
from typing import NamedTuple

# The repository stays as it is.
sys.dont_write_bytecode = True

import inputs
from asking import parser_of
from measure import run_into
from run import key_of, peak_of, print_head, print_row, processor_name, written

SIDE = 100
SIZE = 10**4
# Runs are stopped after so many seconds.
LONGEST = 120
OPEN = 10
# The last line of an answer, that of its pops, has at most so many bytes.
LAST_LINE = 40
CREWS = [["--workers", "1"]] + [
    ["--workers", workers, "--board", board] for board in ("words", "lock") for workers in ("2", "8")]
# What is stopped: a name, the command, and the lines of the text.
INPUTS = [
    (f"tree, grid of side {SIDE}", "tree", lambda: inputs.grid(SIDE)),
    (f"tree, random, edges, {SIZE}", "tree", lambda: inputs.regular(SIZE)),
    (f"orient, random, edges, {SIZE}", "orient", lambda: inputs.regular(SIZE)),
    (f"formula, chain, clauses, {SIZE}", "formula", lambda: inputs.chain(SIZE)),
]


class Case(NamedTuple):
    """A run under a key: the program, what is run, the words and the text, and the folder for what is printed."""

    program: str
    name: str
    words: list
    text: str
    folder: str

    def place(self, name):
        return os.path.join(self.folder, name)

    def run(self, words, text, answer):
        return run_into([self.program, *words], text, self.place(answer), LONGEST)


def pops_told(path):
    """The number in the last line of an answer."""
    with open(path, "rb") as text:
        text.seek(max(0, os.path.getsize(path) - LAST_LINE))
        return int(text.read().split()[-1])


def print_run(case, what, run, path, verdict):
    """The row of a run. Says whether it went as it should."""
    size = os.path.getsize(path)
    print_row(case.name, what, f"{run.seconds:.3f}", f"{run.processor:.3f}", peak_of([run]), size, verdict or "WRONG")
    return bool(verdict)


def stop(case, pops):
    """Stops the run after so many pops, and replays the certificate. Says whether both went as they should."""
    run = case.run([*case.words, "--pops", str(pops)], case.text, "certificate")
    is_stopped = (run.status, run.first_line) == (OPEN, f"cert 1 {case.words[0]}")
    stopped = print_run(
        case, f"--pops {pops}", run, case.place("certificate"), "a certificate" if is_stopped else "")
    replayed = case.run(["replay"], case.place("certificate"), "replayed")
    is_legal = (replayed.status, replayed.first_line) == (OPEN, f"s LEGAL {pops}")
    return print_run(case, "replay", replayed, case.place("replayed"), "legal" if is_legal else "") and stopped


def resume(case, crew, whole):
    """Resumes the certificate, and compares status and bytes with those of the whole run."""
    run = case.run(["resume", *crew], case.place("certificate"), "resumed")
    is_same = run.status == whole.status and filecmp.cmp(case.place("resumed"), case.place("whole"), shallow=False)
    what = " ".join(["resume", *crew])
    return print_run(case, what, run, case.place("resumed"), "the whole run's bytes" if is_same else "")


def measure(case):
    """The rows of a case. Says whether all went as they should."""
    whole = case.run(case.words, case.text, "whole")
    if whole.status != 0:
        return print_run(case, "whole", whole, case.place("whole"), "")
    pops = pops_told(case.place("whole"))
    print_run(case, "whole", whole, case.place("whole"), f"a sample, {pops} pops")
    if pops < 2:
        return True
    stopped = stop(case, pops // 2)
    resumed = [resume(case, crew, whole) for crew in CREWS]
    return stopped and all(resumed)


def arguments():
    parser = parser_of(__doc__.splitlines()[0])
    parser.add_argument("--only", default="", metavar="WORD", help="leave out inputs without this in their name")
    return parser.parse_args()


def main():
    asked = arguments()
    print(f"{time.strftime('%Y-%m-%d')}, {processor_name()}, {os.cpu_count()} processors\n")
    print_head("input", "run", "seconds", "processor", "peak MiB", "bytes", "verdict")
    with tempfile.TemporaryDirectory(prefix="popsample-bench-") as folder:
        fine = [
            measure(Case(asked.program, name, [command, "--key", key_of(1)], written(lines, folder), folder))
            for name, command, lines in INPUTS if asked.only in name]
    sys.exit(0 if all(fine) else 1)


if __name__ == "__main__":
    main()
