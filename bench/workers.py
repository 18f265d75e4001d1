#!/usr/bin/env python3
"""Measures a built popsample with several workers on both boards beside one worker. README.md says more."""
import os
import statistics
import sys
import tempfile
import time

# The repository stays as it is.
sys.dont_write_bytecode = True

import inputs
from asking import parser_of
from measure import run_fastest
from run import MEBIBYTE, key_of, print_head, print_row, processor_name, written

ONE = []
CREWS = [["--workers", workers, "--board", board] for board in ("words", "lock") for workers in ("2", "4")]
# Under the lock each attempt at a cycle follows its arrows anew, which takes minutes on a large grid.
LARGEST_GRID_UNDER_LOCK = 300


def of_text(name, command, writer, size):
    return f"{name}, {size}", [command], lambda: writer(size), True


def measured(small):
    """What is measured: a name, the words, the lines of the text if one is read, and whether under the lock too."""
    sizes = (10**5,) if small else (10**5, 10**6)
    for side in (100, 300) if small else (300, 1000):
        yield f"make grid {side}", ["make", "grid", str(side)], None, side <= LARGEST_GRID_UNDER_LOCK
    for size in sizes:
        yield of_text("tree, random, edges", "tree", inputs.regular, size)
        yield of_text("orient, random, edges", "orient", inputs.regular, size)
        yield of_text("formula, chain, clauses", "formula", inputs.chain, size)
        yield of_text("formula, twice, clauses", "formula", inputs.twice, size)


def rounds_of(program, words, crews, text, folder, asked):
    """The runs of each crew, in turn, each the fastest of several, so that a busy machine slows all alike.

    Each turn has a key of its own."""
    runs = [[] for _ in crews]
    for turn in range(asked.turns):
        for crew, past in zip(crews, runs):
            command = [program, *words, "--key", key_of(turn + 1), *crew]
            past.append(run_fastest(command, text, folder, asked.seconds, asked.times))
    return runs


def print_crew(name, crew, runs, first):
    """The row of a crew, and its shares of what one worker took, turn by turn."""
    if any(run.status != 0 for run in runs):
        return print_row(name, " ".join(crew), "took too long or failed", "", "", "", "")
    seconds = statistics.median(run.seconds for run in runs)
    processor = statistics.median(run.processor for run in runs)
    share = statistics.median(run.seconds / one.seconds for run, one in zip(runs, first))
    worked = statistics.median(run.processor / one.processor for run, one in zip(runs, first))
    peak = max(run.peak or 0 for run in runs) // MEBIBYTE
    print_row(name, " ".join(crew) or "one", f"{seconds:.3f}", f"{processor:.3f}", peak, f"{share:.2f}", f"{worked:.2f}")


def arguments():
    parser = parser_of(__doc__)
    parser.add_argument("--only", default="", metavar="WORD", help="leave out inputs without this in their name")
    parser.add_argument("--turns", type=int, default=3, metavar="N", help="run each crew under so many keys")
    parser.add_argument("--times", type=int, default=3, metavar="N", help="and under each so often, for the fastest")
    parser.add_argument("--seconds", type=float, default=120, metavar="N", help="stop a run after so many seconds")
    parser.add_argument("--small", action="store_true", help="leave out the largest inputs")
    return parser.parse_args()


def main():
    asked = arguments()
    print(f"{time.strftime('%Y-%m-%d')}, {processor_name()}, {os.cpu_count()} processors\n")
    print_head("input", "crew", "seconds", "processor", "peak MiB", "seconds / one", "processor / one")
    with tempfile.TemporaryDirectory(prefix="popsample-bench-") as folder:
        for name, words, lines, under_lock in measured(asked.small):
            if asked.only in name:
                crews = [ONE, *(crew for crew in CREWS if under_lock or "words" in crew)]
                runs = rounds_of(asked.program, words, crews, written(lines, folder), folder, asked)
                for crew, of_crew in zip(crews, runs):
                    print_crew(name, crew, of_crew, runs[0])


if __name__ == "__main__":
    main()
