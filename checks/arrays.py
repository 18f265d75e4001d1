"""Compares the rows of the library's calls with arrays with the text of the same samples, on random graphs and formulas.

    python3 -m checks.arrays --library LIBRARY [--graphs N] [--formulas N] [--seed N]

The text comes from the library's own call with words, which answers as the program does. README.md says more.
"""
import argparse
import random
import sys
from collections import Counter

from . import array_formulas, array_graphs
from .array_calls import EXHAUSTED, NO_LIMIT, OK, STOPPED, UNTOUCHED, Different, Library, read_samples


def compare_rows(subject, draw, rows, text):
    """Each row has what the text says of its sample; by rounds the text has one sample."""
    for j in range(draw.count):
        subject.check_row(rows, j)
    for j, sample in enumerate(read_samples(text)[draw.first:]):
        if rows.counts[2 * j:2 * j + 2] != [sample.pops, sample.stuck] or subject.row_used(rows, j) != sample.used:
            raise Different(f"row {j} has other counts or cursors")
        if not sample.stuck and not subject.has_sample(rows, j, sample):
            raise Different(f"row {j} has another sample")


def by_budgets(library, subject, draw, rows, budget):
    """Calls with a budget each go on to the same rows, with as many pops or rounds together."""
    row_len = subject.row_len
    row, pops, start = 0, 0, ()
    while row < draw.count:
        part = subject.rows(library, draw._replace(first=draw.first + row, count=draw.count - row), start, budget)
        done = part.place if part.status == STOPPED else draw.count - row
        for j in range(done):
            here, there = slice(j * row_len, (j + 1) * row_len), slice((row + j) * row_len, (row + j + 1) * row_len)
            counts = [part.counts[2 * j] + (pops if j == 0 else 0), part.counts[2 * j + 1]]
            same = part.main[here] == rows.main[there] and part.used[here] == rows.used[there]
            if not same or counts != rows.counts[2 * (row + j):2 * (row + j) + 2]:
                raise Different(f"row {row + j} differs after a stop")
        if part.status != STOPPED:
            return
        spent = sum(part.counts[2 * j] for j in range(done + 1))
        if spent != budget or part.counts[2 * done + 1] == 0:
            raise Different(f"the call stopped at row {row + done} with {spent} pops")
        pops = part.counts[2 * done] + (pops if done == 0 else 0)
        start, row = part.used[done * row_len:(done + 1) * row_len], row + done


def compare(library, subject, draw, chance):
    """Compares the rows of a graph or a formula with its text, and answers with how it ended."""
    rows = subject.rows(library, draw, (), NO_LIMIT)
    status, text = library.text(subject.words(draw), subject.text())
    if rows.status in (OK, EXHAUSTED):
        if status != max(EXHAUSTED * any(s.stuck for s in read_samples(text)), OK):
            raise Different(f"the text has status {status}")
        compare_rows(subject, draw, rows, text)
        is_stuck = any(rows.counts[1::2])
        if rows.status != (EXHAUSTED if is_stuck else OK):
            raise Different(f"status {rows.status} with counts {rows.counts}")
        by_budgets(library, subject, draw, rows, 1 + sum(rows.counts[::2]) // chance.randrange(1, 8))
        return "exhausted" if is_stuck else "samples"
    is_changed = any(set(array) - {UNTOUCHED} for array in (rows.main, rows.used, rows.counts))
    if is_changed or not subject.is_refused(rows, text.split("\n")[0]):
        raise Different(f"kind {rows.kind} at {rows.place}, and the text says {text.splitlines()[:1]}")
    return f"kind {rows.kind}"


def compare_all(library, name, count, chance, make, draw_of, kinds):
    """Compares so many random graphs or formulas, and returns whether all are alike and each kind was met."""
    found = Counter()
    for number in range(count):
        subject = make(chance)
        draw = draw_of(chance, subject)
        try:
            found[compare(library, subject, draw, chance)] += 1
        except Different as error:
            print(f"{name} {number}: {error}: {subject}, {draw}", file=sys.stderr)
            return False
    print(f"arrays: {count} {name}s alike, " + ", ".join(f"{end} {found[end]}" for end in sorted(found)))
    missing = {f"kind {kind}" for kind in kinds} - set(found)
    if count >= 1000 and missing:
        print(f"arrays: never met: {sorted(missing)}", file=sys.stderr)
        return False
    return True


def main():
    parser = argparse.ArgumentParser(description=__doc__.splitlines()[0])
    parser.add_argument("--library", required=True, help="libpopsample.so")
    parser.add_argument("--graphs", type=int, default=1000, help="how many random graphs")
    parser.add_argument("--formulas", type=int, default=1000, help="how many random formulas")
    parser.add_argument("--seed", type=int, default=7, help="what they are drawn by")
    told = parser.parse_args()
    library = Library(told.library)
    are_alike = [
        compare_all(library, "graph", told.graphs, random.Random(told.seed), array_graphs.random_graph,
                    array_graphs.random_draw, range(array_graphs.NO_VERTEX, array_graphs.ISOLATED + 1)),
        compare_all(library, "formula", told.formulas, random.Random(told.seed), array_formulas.random_formula,
                    array_formulas.random_draw, range(array_formulas.NO_LITERAL, array_formulas.CLASHING + 1)),
    ]
    return 0 if all(are_alike) else 1


if __name__ == "__main__":
    sys.exit(main())
