#!/usr/bin/env python3
"""Tries the exact distribution by brute force on small instances, by the checker's definitions; no program is run.

    python3 checker/verify_shares.py

Each entry of keyed stacks is made of a number below 2^64. Here there are 8 numbers or 4 in place of 2^64, and all
tables of them are counted. The share of a value is how many of the numbers give it; the share of a sample is the
product of the shares of its values.

- Of all tables whose run ends with a sample, those for one sample are to all as its share to the sum of all shares.
- The same holds of the tables that end at given cursors, or after so many steps, or within so many steps.
- The tables of one whole run are as many as the product of the shares that its log and its sample use.
- Each spanning tree, as a set of edges, is drawn by the product of its edges' weights, whatever the root is.

One line is printed: how many tables were counted; otherwise the first count that is wrong.
"""

from __future__ import annotations

import argparse
import sys
from collections import Counter
from itertools import accumulate, combinations, islice, product
from math import prod
from typing import Callable, NamedTuple, Optional, Union

from verifier.command_line import read_words
from verifier.families import Cycles, Listed
from verifier.formulas import Formula, falsifying_cubes
from verifier.graphs import Edge, Graph
from verifier.rounds import run_rounds
from verifier.runs import Board
from verifier.stacks import Stacks, value_of
from verifier.telling import status_of
from verifier.trees import TreeSetting

Values = tuple  # of a value for each variable
Rows = tuple  # of the entries of each variable
Tree = frozenset  # of the numbers of its edges


class Steps(NamedTuple):
    """How many pops or rounds a run had, and of pops its log: the cube and the entries of each record."""

    count: int
    log: tuple


class Case(NamedTuple):
    """Events, the weights of each variable's values, how many entries each variable has, the run over them, and of how
    many bits the numbers are that the entries are made of.
    """

    name: str
    family: Union[Listed, Cycles]
    weights: list[list[int]]
    heights: list[int]
    run: Callable[[Board], Steps]
    bits: int = 3

    def numbers(self) -> int:
        """How many numbers there are."""
        return 1 << self.bits

    def given(self, weights: list[int]) -> list[int]:
        """The value that each of the numbers gives under weights, from number 0 on."""
        sums = list(accumulate(weights))
        return [value_of(number, self.bits, sums) for number in range(self.numbers())]

    def shares(self) -> list[list[int]]:
        """How many of the numbers give each value, for each variable."""
        return [[self.given(each).count(value) for value in range(len(each))] for each in self.weights]


class End(NamedTuple):
    """The values at a run's end, its cursors, and its steps."""

    values: Values
    cursors: tuple[int, ...]
    steps: Steps


def by_pops(board: Board) -> Steps:
    """Makes the one-thread run. Returns its pops."""
    records = board.run_first()
    return Steps(len(records), tuple((record.event.cube, tuple(record.entries)) for record in records))


def by_rounds(board: Board) -> Steps:
    """Makes the run by rounds. Returns how many there are."""
    return Steps(run_rounds(board)[0], ())


def events_of(variables: int, *clauses: list[int]) -> Listed:
    """The events of clauses."""
    return Listed(falsifying_cubes(Formula(variables, list(clauses))))


EXTREMAL = events_of(3, [1, 2], [-2, 3])
CLASHING = events_of(3, [1, 2], [1, 3])
# Both other events clash with the second.
CHAINED = events_of(3, [1, 2], [2, 3], [-1, 3])
# The first two clash. Where the third is excluded, the last variable stays.
PARTLY = events_of(4, [1, 2], [2, 3], [-3, 4])
# Two edges between 1 and 2; the root is 1.
TREES = TreeSetting(Graph(3, [Edge(1, 2, 1), Edge(2, 1, 2), Edge(2, 3, 3), Edge(3, 1, 2)]), 1)
# Two edges between 1 and 2, and a self-loop at 3. Without the loop, the weights at each vertex sum to 4 or 8.
EVEN_GRAPH = Graph(4, [
    Edge(1, 2, 1), Edge(2, 1, 2), Edge(2, 3, 1), Edge(3, 3, 7), Edge(3, 4, 3), Edge(4, 1, 5)])
# The same edges, whose weights have other sums.
ROUNDED_GRAPH = Graph(4, [
    Edge(1, 2, 1), Edge(2, 1, 1), Edge(2, 3, 1), Edge(3, 3, 1), Edge(3, 4, 2), Edge(4, 1, 3)])
COINS = [[1, 1], [1, 1], [1, 1]]
# Sums that divide 8.
EVEN = [[1, 3], [1, 1], [5, 3]]
# Thirds and fifths, of which 8 numbers have no whole share.
ROUNDED = [[1, 2], [1, 1], [3, 2]]
CASES = [
    Case("pops, coins", EXTREMAL, COINS, [2, 2, 2], by_pops),
    Case("pops, even shares", EXTREMAL, EVEN, [2, 3, 2], by_pops),
    Case("pops, rounded shares", EXTREMAL, ROUNDED, [2, 3, 2], by_pops),
    Case("pops, trees", TREES.family, TREES.weights, [4, 3], by_pops),
    Case("rounds, rounded shares", EXTREMAL, ROUNDED, [2, 3, 2], by_rounds),
    Case("rounds, even shares, events clash", CLASHING, EVEN, [2, 2, 2], by_rounds),
    Case("rounds, rounded shares, events clash", CLASHING, ROUNDED, [2, 2, 2], by_rounds),
    Case("rounds, higher stacks, events clash", CLASHING, [[1, 3], [1, 1], [2, 1]], [3, 3, 3], by_rounds, 2),
    Case("rounds, higher stacks, a chain of clashes", CHAINED, [[2, 1], [1, 1], [1, 3]], [3, 3, 3], by_rounds, 2),
    Case("rounds, some events clash", PARTLY, [[1, 1], [2, 1], [3, 1], [1, 2]], [2, 2, 3, 2], by_rounds, 2),
]
# To pops of events that clash the law doesn't extend: here it has to fail.
LAWLESS = Case("pops, events clash", CLASHING, COINS, [2, 2, 2], by_pops)


def require(holds: bool, case: Case, *told: object) -> None:
    """Raises ValueError where something doesn't hold of a case."""
    if not holds:
        raise ValueError(" ".join(map(str, [f"{case.name}:", *told])))


def sample_weight(weights: list[list[int]], values: Values) -> int:
    """The product of the weights, or shares, of values, one of each variable."""
    return prod(each[value] for each, value in zip(weights, values))


def check_shares(case: Case) -> None:
    """A share is as the weight to all weights: exactly where these divide the numbers, and else within one."""
    numbers = case.numbers()
    for weights, shares in zip(case.weights, case.shares()):
        total = sum(weights)
        # The first number of each value is a quotient that is rounded up.
        first = [-(-numbers * before // total) for before in accumulate([0, *weights])]
        for value, (weight, share) in enumerate(zip(weights, shares)):
            require(share == first[value + 1] - first[value], case, "share", share, "of", weights)
            most_apart = total if numbers % total else 1
            require(abs(share * total - numbers * weight) < most_apart, case, "share", share, "is far from", weights)


def samples_of(case: Case) -> list[Values]:
    """The values at which no event occurs."""
    everything = product(*(range(len(weights)) for weights in case.weights))
    return [values for values in everything if not any(case.family.near(range(len(values)), list(values)))]


def tables_by_rows(case: Case) -> Counter[Rows]:
    """All rows that tables of numbers give, and by how many tables each is given."""
    pairs = zip(case.weights, case.heights)
    # Each table comes once, as the values that its numbers give.
    all_tables = product(*(case.given(weights) for weights, height in pairs for _ in range(height)))
    counts: Counter[Rows] = Counter()
    for entries, count in Counter(all_tables).items():
        left = iter(entries)
        counts[tuple(tuple(islice(left, height)) for height in case.heights)] = count
    return counts


def end_of(case: Case, rows: Rows) -> Optional[End]:
    """The end of the run over rows, where no event occurs there."""
    job = read_words(["formula"])._replace(rows=[list(row) for row in rows])
    board = Board(case.family, Stacks(job, list(range(len(rows))), case.weights), len(rows))
    steps = case.run(board)
    return None if board.occurring() else End(tuple(board.values), tuple(board.cursors), steps)


def ends_of(case: Case, tables: Counter[Rows]) -> Counter[End]:
    """The ends with samples, and how many tables have each."""
    counts: Counter[End] = Counter()
    for rows, count in tables.items():
        end = end_of(case, rows)
        if end is not None:
            counts[end] += count
    return counts


def check_rows(case: Case, tables: Counter[Rows]) -> None:
    """As many tables give rows as the product of the shares of all entries."""
    shares = case.shares()
    for rows, count in tables.items():
        made = prod(share[value] for share, row in zip(shares, rows) for value in row)
        require(count == made, case, count, "tables give", rows, "and not", made)


def sums_divide(case: Case) -> bool:
    """Whether the weights of each variable sum to a number that divides how many numbers there are."""
    return not any(case.numbers() % sum(weights) for weights in case.weights)


def bounds(case: Case) -> tuple[int, int]:
    """The factors between which counts are as weights, where the sums of the weights don't divide the numbers."""
    numbers, most = case.numbers(), max(map(sum, case.weights))
    return max(0, numbers - most) ** len(case.weights), (numbers + most) ** len(case.weights)


def require_near(case: Case, left: int, right: int, *told: object) -> None:
    """Two products are equal where the sums of the weights divide the numbers, and otherwise within the factors."""
    low, high = bounds(case)
    near = left * low <= right * high and right * low <= left * high
    require(left == right if sums_divide(case) else near, case, *told, "by weights")


def check_counts(case: Case, counts: Counter[Values]) -> None:
    """The run ends with samples alone. The tables for each are to all as its share to the sum of all shares, and so by
    weights, exactly or nearly. Any samples together are drawn so: it is seen of all fronts of their list.
    """
    samples = samples_of(case)
    require(set(counts) <= set(samples), case, "the ends are", sorted(counts))
    ended, shares = sum(counts.values()), case.shares()
    by_share = [sample_weight(shares, values) for values in samples]
    by_weight = [sample_weight(case.weights, values) for values in samples]
    for first, last in combinations(range(len(samples) + 1), 2):
        some = slice(first, last)
        count = sum(counts[values] for values in samples[some])
        told = (count, "of", ended, "tables end with one of", samples[some])
        require(count * sum(by_share) == ended * sum(by_share[some]), case, *told)
        require_near(case, count * sum(by_weight), ended * sum(by_weight[some]), *told)


def check_given_up(case: Case, ends: Counter[End]) -> None:
    """Of the tables whose run ends within so many steps, as many are for each sample as the law says."""
    for most in range(max(end.steps.count for end in ends)):
        counts: Counter[Values] = Counter()
        for end, count in ends.items():
            if end.steps.count <= most:
                counts[end.values] += count
        check_counts(case, counts)


def check_whole_runs(case: Case, ends: Counter[End]) -> None:
    """The tables of a log and a sample are as many as the shares of the values that the log's records demand, times
    the share of the sample, times all numbers for each entry that isn't read; and the sample doesn't hang on the log.
    """
    shares, samples = case.shares(), samples_of(case)
    with_log: Counter[tuple] = Counter()
    with_sample: Counter[Values] = Counter()
    both: Counter[tuple] = Counter()
    for end, count in ends.items():
        with_log[end.steps.log] += count
        with_sample[end.values] += count
        both[end.steps.log, end.values] += count
    ended = sum(ends.values())
    for log, values in product(with_log, samples):
        demanded = [shares[variable][value] for cube, _ in log for variable, value in cube]
        unread = sum(case.heights) - len(demanded) - len(values)
        made = prod(demanded) * sample_weight(shares, values) * case.numbers() ** unread
        count = both[log, values]
        require(count == made, case, count, "tables end by", log, "with", values, "and not", made)
        require(count * ended == with_log[log] * with_sample[values], case, values, "hangs on", log)


def judge(case: Case) -> tuple[int, int]:
    """Sees that the law holds of a case. Returns how many tables there are, and how many end with a sample."""
    check_shares(case)
    tables = tables_by_rows(case)
    check_rows(case, tables)
    in_all: Counter[Values] = Counter()
    places: dict[tuple, Counter[Values]] = {}
    ends = ends_of(case, tables)
    for end, count in ends.items():
        in_all[end.values] += count
        places.setdefault((end.cursors, end.steps.count), Counter())[end.values] += count
    for counts in (in_all, *places.values()):
        require(set(counts) == set(samples_of(case)), case, "the ends are", sorted(counts))
        check_counts(case, counts)
    check_given_up(case, ends)
    if case.run is by_pops:
        check_whole_runs(case, ends)
    return sum(tables.values()), sum(in_all.values())


def spanning_trees(graph: Graph) -> dict[Tree, int]:
    """The spanning trees of a graph, as sets of edges that join all vertices and are one fewer than these, and the
    product of the weights of each. No root and no arrows are in that.
    """
    found = {}
    for numbers in combinations(range(1, len(graph.edges) + 1), graph.vertices - 1):
        part = {vertex: vertex for vertex in range(1, graph.vertices + 1)}
        edges = [graph.edges[number - 1] for number in numbers]
        for edge in edges:
            old, new = part[edge.first], part[edge.second]
            part = {vertex: new if each == old else each for vertex, each in part.items()}
        if len(set(part.values())) == 1:
            found[Tree(numbers)] = prod(edge.weight for edge in edges)
    return found


def judge_trees(name: str, graph: Graph, root: int) -> tuple[int, int]:
    """Sees that each spanning tree is drawn by its weight. Returns how many tables there are, and how many end."""
    setting = TreeSetting(graph, root)
    case = Case(f"{name}, root {root}", setting.family, setting.weights, [2] * len(setting.names), by_pops)
    tables = tables_by_rows(case)
    counts: Counter[Tree] = Counter()
    for end, count in ends_of(case, tables).items():
        counts[Tree(slot[value][2] for slot, value in zip(setting.slots, end.values))] += count
    trees = spanning_trees(graph)
    require(set(counts) == set(trees), case, "the trees are", sorted(map(sorted, counts)))
    ended, whole = sum(counts.values()), sum(trees.values())
    for tree, weight in trees.items():
        require_near(case, counts[tree] * whole, ended * weight, counts[tree], "tables end with", sorted(tree))
    return sum(tables.values()), ended


def is_lawless(case: Case) -> bool:
    """Whether the law is found to fail of a case."""
    counts: Counter[Values] = Counter()
    for end, count in ends_of(case, tables_by_rows(case)).items():
        counts[end.values] += count
    try:
        check_counts(case, counts)
    except ValueError:
        return True
    return False


def judge_all() -> str:
    """Judges all cases, and sees that the law is found to fail where it does."""
    require(is_lawless(LAWLESS), LAWLESS, "the law is found to hold")
    judged = [judge(case) for case in CASES]
    for name, graph in (("trees, even weights", EVEN_GRAPH), ("trees, rounded weights", ROUNDED_GRAPH)):
        judged += [judge_trees(name, graph, root) for root in range(1, graph.vertices + 1)]
    tables, ended = map(sum, zip(*judged))
    return f"agrees: {len(judged)} instances, {tables} tables of numbers, of which {ended} end with a sample"


def main() -> int:
    """Runs the call, and tells its status."""
    argparse.ArgumentParser(description=__doc__.splitlines()[0]).parse_args()
    return status_of(judge_all)


if __name__ == "__main__":
    sys.exit(main())
