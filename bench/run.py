#!/usr/bin/env python3
"""Measures a built popsample beside Boost and igraph, or tries it at its limits. README.md says more."""
import math
import os
import statistics
import sys
import tempfile
import time

# The repository stays as it is.
sys.dont_write_bytecode = True

from asking import parser_of
from families import families
from inputs import write_apart
from limits import trials
from measure import run_once
from peers import Peer, find_peers

# An input is run again, under another key, until it was run so often or took so many seconds.
REPETITIONS = 3
ENOUGH_SECONDS = 3
# Words that are no command line: a command that the program doesn't have yet.
NO_COMMAND = 2
MEBIBYTE = 2**20
# What a run may take at its limits.
MOST_MEMORY = 2560 * MEBIBYTE


def key_of(seed):
    return f"{seed:064x}"


def popsample(program, words):
    """The program under a command, as a peer of the others: each seed is another key."""
    return Peer("popsample", lambda seed: [program, *words, "--key", key_of(seed)], True)


def contenders_of(family, given, program, peers):
    """The program, and the peers that can do the same."""
    fitting = [peer for peer in peers if family.is_tree and (peer.takes_weights or not family.has_weights)]
    return [popsample(program, given.words), *fitting]


def written(lines, folder):
    """The place of a text of these lines, or None where there is no text."""
    if lines is None:
        return None
    text = os.path.join(folder, "text")
    write_apart(text, lines())
    return text


def repeat(contender, text, folder, limit):
    """Runs of a contender on a text, each under another seed."""
    runs = []
    while len(runs) < REPETITIONS and sum(run.seconds for run in runs) < ENOUGH_SECONDS:
        runs.append(run_once(contender.command(len(runs) + 1), text, folder, limit))
    return runs


def answered(run):
    return run.status == 0 and run.first_line != ""


def failure(run):
    """In words, why there are no figures."""
    if run.status is None:
        return "took too long"
    return "not built" if run.status == NO_COMMAND else f"status {run.status}: {run.first_line}"


def exponent(before, after):
    """The power of the size with which a time grows, from one (size, time) to another."""
    return math.log(after[1] / before[1]) / math.log(after[0] / before[0])


def growth(history, name, size, processor):
    """The exponent since the size before, as text."""
    before = history.get(name)
    history[name] = (size, processor)
    return f"{exponent(before, history[name]):.2f}" if before else ""


def peak_of(runs):
    """The greatest peak in MiB, as text; - where it is too small to be told."""
    return max((f"{run.peak / MEBIBYTE:.0f}" for run in runs if run.peak), key=int, default="-")


def print_row(*cells):
    print("| " + " | ".join(map(str, cells)) + " |", flush=True)


def print_head(*cells):
    print_row(*cells)
    print_row(*["---"] * len(cells))


def print_figures(history, size, name, runs, first):
    """The row of a contender at a size. `first` has the processor seconds of popsample, if it is known."""
    seconds = statistics.median(run.seconds for run in runs)
    processor = statistics.median(run.processor for run in runs)
    share = f"{first / processor:.2f}" if first else ""
    since = growth(history, name, size, processor)
    print_row(size, name, f"{seconds:.3f}", f"{processor:.3f}", peak_of(runs), since, share)
    return processor


def measure_contender(history, size, contender, first, text, folder, limit):
    """The row of a contender at a size. Gives its processor seconds, or None where it failed."""
    runs = repeat(contender, text, folder, limit)
    failed = [run for run in runs if not answered(run)]
    if failed:
        print_row(size, contender.name, failure(failed[0]), "", "", "", "")
        return None
    return print_figures(history, size, contender.name, runs, first)


def measure_input(family, given, program, peers, folder, limit, history):
    """The rows of one input. Says whether popsample answered."""
    text = written(given.lines, folder)
    first = None
    for contender in contenders_of(family, given, program, peers):
        processor = measure_contender(history, given.elements, contender, first, text, folder, limit)
        # Without figures of popsample there is nothing to compare with.
        if first is None and processor is None:
            return False
        first = first or processor
    return True


def measure_family(family, program, peers, folder, limit):
    print(f"\n## {family.name}\n")
    print_head(family.counted, "program", "seconds", "processor", "peak MiB", "growth", "popsample / this")
    history = {}
    for given in family.inputs:
        if not measure_input(family, given, program, peers, folder, limit, history):
            return


def measure_all(program, only, folder, limit):
    chosen = [family for family in families() if only in family.name]
    peers = find_peers(folder) if any(family.is_tree for family in chosen) else []
    for family in chosen:
        measure_family(family, program, peers, folder, limit)
    return 0


def is_as_wanted(trial, run):
    return (run.status, run.first_line) == (trial.status, trial.first_line)


def verdict(trial, run):
    if run.status is None:
        return "TOOK TOO LONG"
    if is_as_wanted(trial, run):
        return "as it should be" if (run.peak or 0) <= MOST_MEMORY else "TOO MUCH MEMORY"
    if "make" in trial.words and run.status == NO_COMMAND:
        return "not built"
    return f"SHOULD BE {trial.status}, {trial.first_line}"


def try_one(trial, program, folder, limit):
    """Runs the program on one trial and prints the row. Says whether it went wrong."""
    run = run_once([program, *trial.words], written(trial.lines, folder), folder, limit)
    found = verdict(trial, run)
    times = (f"{run.seconds:.2f}", f"{run.processor:.2f}")
    print_row(trial.name, run.status, run.first_line, *times, peak_of([run]), found)
    return found not in ("as it should be", "not built")


def try_limits(program, only, folder, limit):
    print("\n## At the limits\n")
    print_head("limit", "status", "first line", "seconds", "processor", "peak MiB", "verdict")
    wrong = [trial.name for trial in trials() if only in trial.name and try_one(trial, program, folder, limit)]
    return 1 if wrong else 0


def processor_name():
    try:
        with open("/proc/cpuinfo", encoding="utf-8") as facts:
            names = [line.split(":")[1].strip() for line in facts if line.startswith("model name")]
    except OSError:
        names = []
    return names[0] if names else "a processor without a name"


def arguments():
    parser = parser_of(__doc__)
    parser.add_argument("--limits", action="store_true", help="try it at each limit and one past it")
    parser.add_argument("--only", default="", metavar="WORD", help="leave out families without this in their name")
    parser.add_argument("--seconds", type=float, metavar="N", help="stop a run after so many seconds")
    return parser.parse_args()


def main():
    given = arguments()
    print(f"{time.strftime('%Y-%m-%d')}, {processor_name()}, one worker")
    with tempfile.TemporaryDirectory(prefix="popsample-bench-") as folder:
        if given.limits:
            return try_limits(given.program, given.only, folder, given.seconds or 600)
        return measure_all(given.program, given.only, folder, given.seconds or 60)


if __name__ == "__main__":
    sys.exit(main())
