"""The stacks of the variables: given rows, or entries that are drawn by a key."""

from __future__ import annotations

from copy import copy
from itertools import accumulate

from .chacha import drawn_number
from .command_line import Job
from .refusals import Refusal


class Stacks:
    """The stacks of a job, for one of its samples. `weights[v][j]` is the weight of value j of variable v."""

    def __init__(self, job: Job, names: list[int], weights: list[list[int]]) -> None:
        self.job = job
        self.sample = 0
        if job.rows is not None:
            check_rows(job.rows, names, weights)
        self.sums = [list(accumulate(each)) for each in weights]
        for name, sums in zip(names, self.sums):
            if sums and sums[-1] > 4294967295:
                raise Refusal(4, f"s LIMIT 6 {name}")

    def for_sample(self, sample: int) -> Stacks:
        """The stacks of another sample under the same key."""
        other = copy(self)
        other.sample = sample
        return other

    def height(self, variable: int) -> int:
        """How many entries the stack of a variable has."""
        return self.job.height if self.job.rows is None else len(self.job.rows[variable])

    def entry(self, variable: int, place: int) -> int:
        """An entry of a stack, from 0. Variables count from 0."""
        if self.job.rows is not None:
            return self.job.rows[variable][place]
        stream = (self.sample << 32) + variable
        return value_of(drawn_number(self.job.key, stream, place), 64, self.sums[variable])


def value_of(number: int, bits: int, sums: list[int]) -> int:
    """The value that a number of so many bits gives, where `sums` has the weights up to each value together."""
    scaled = number * sums[-1] >> bits
    return next(value for value, total in enumerate(sums) if total > scaled)


def check_rows(rows: list[list[int]], names: list[int], weights: list[list[int]]) -> None:
    """Refuses rows that don't fit: their number, then an empty one, then an entry that is no value."""
    if len(rows) != len(names):
        raise Refusal(3, f"s ROWS {len(rows)} {len(names)}")
    for name, row in zip(names, rows):
        if not row:
            raise Refusal(3, f"s EMPTYROW {name}")
    for name, row, values in zip(names, rows, weights):
        for place, entry in enumerate(row):
            if entry >= len(values):
                raise Refusal(3, f"s VALUE {name} {place}")
