#!/usr/bin/env python3
"""Measures batches of a built popsample beside runs of one sample, and beside Boost and igraph. README.md says more."""
import os
import statistics
import sys
import tempfile
import time
from typing import NamedTuple

# The repository stays as it is.
sys.dont_write_bytecode = True

import inputs
from asking import parser_of
from measure import run_fastest, run_once
from peers import find_peers
from run import answered, key_of, peak_of, print_head, print_row, processor_name, written

SAMPLES = 64
SIZE = 10**5
# Runs are stopped after so many seconds.
LONGEST = 120
# A run that is compared with others is the fastest of so many.
TIMES = 5
# So many samples of these inputs are too many, which is told once the text is read.
TOO_MANY = "65536"
LIMIT = 4
# What is measured: a name, the command, and the lines of the text.
INPUTS = [
    ("tree, random, edges", "tree", inputs.regular),
    ("orient, random, edges", "orient", inputs.regular),
    ("formula, chain, clauses", "formula", inputs.chain),
]


class Turn(NamedTuple):
    """One turn: a batch, the reading of its text alone, one sample alone, and as many runs of one sample."""

    batch: object
    reading: object
    alone: object
    apart: list


def turn_of(program, command, text, folder, number, limit):
    """Each turn has keys of its own."""
    keys = [key_of(SAMPLES * number + place) for place in range(SAMPLES)]

    def run(times, *words):
        return run_fastest([program, command, "--key", *words], text, folder, limit, times)

    return Turn(
        batch=run(TIMES, keys[0], "--count", str(SAMPLES)),
        reading=run(TIMES, keys[0], "--count", TOO_MANY),
        alone=run(TIMES, keys[0]),
        apart=[run(1, key) for key in keys],
    )


def is_good(turn):
    runs_end = all(answered(run) for run in [turn.batch, *turn.apart])
    return runs_end and turn.reading.status == LIMIT


def sampling(turn):
    """The seconds of a batch without the reading of its text."""
    return max(turn.batch.seconds - turn.reading.seconds, 1e-6)


def by_one(turn):
    """The seconds of as many samples on one thread, without the reading of the text."""
    return SAMPLES * (turn.alone.seconds - turn.reading.seconds)


def middle(turns, figure):
    return statistics.median(map(figure, turns))


def print_turns(name, turns):
    """The row of a batch: medians over the turns."""
    if not all(map(is_good, turns)):
        return print_row(name, "took too long or failed", "", "", "", "", "", "", "")
    print_row(
        name,
        f"{middle(turns, lambda turn: turn.batch.seconds):.3f}",
        f"{middle(turns, lambda turn: turn.batch.processor):.3f}",
        peak_of([turn.batch for turn in turns]),
        f"{middle(turns, lambda turn: turn.reading.seconds):.3f}",
        f"{middle(turns, lambda turn: turn.alone.seconds):.3f}",
        f"{middle(turns, by_one):.3f}",
        f"{middle(turns, lambda turn: by_one(turn) / sampling(turn)):.2f}",
        f"{middle(turns, lambda turn: sum(run.seconds for run in turn.apart)):.3f}",
    )


def print_peer(name, peer, text, folder, limit):
    """The row of another program: as many samples in one process, which reads the text once, and by a run each."""
    batch = run_once(peer.command(1, SAMPLES), text, folder, limit)
    apart = [run_once(peer.command(seed + 1), text, folder, limit) for seed in range(SAMPLES)]
    if not all(map(answered, [batch, *apart])):
        return print_row(f"{name}, {peer.name}", "took too long or failed", "", "", "", "", "", "", "")
    seconds = sum(run.seconds for run in apart)
    print_row(
        f"{name}, {peer.name}",
        f"{batch.seconds:.3f}", f"{batch.processor:.3f}", peak_of([batch]), "",
        f"{seconds / SAMPLES:.3f}", "", "", f"{seconds:.3f}",
    )


def arguments():
    parser = parser_of(__doc__)
    parser.add_argument("--turns", type=int, default=3, metavar="N", help="measure each input so often")
    return parser.parse_args()


def main():
    asked = arguments()
    print(f"{time.strftime('%Y-%m-%d')}, {processor_name()}, {os.cpu_count()} processors\n")
    with tempfile.TemporaryDirectory(prefix="popsample-bench-") as folder:
        peers = find_peers(folder)
        print_head(
            "input", "batch", "its processor", "its peak MiB", "reading", "one run",
            f"{SAMPLES} on one thread", "times as fast", f"{SAMPLES} runs",
        )
        for name, command, lines in INPUTS:
            text = written(lambda: lines(SIZE), folder)
            print_turns(
                f"{name}, {SIZE}",
                [turn_of(asked.program, command, text, folder, turn, LONGEST) for turn in range(asked.turns)],
            )
            for peer in peers if command == "tree" else []:
                print_peer(f"{name}, {SIZE}", peer, text, folder, LONGEST)


if __name__ == "__main__":
    main()
