"""Numbers in flat arrays: of numpy if it is installed, otherwise of the standard library."""

from __future__ import annotations

import importlib.util
import sys
from array import array
from collections.abc import Hashable, Iterable, Sequence
from functools import cache
from itertools import chain
from typing import Any, Union

# An array of the module array, or of numpy, in one piece.
Flat = Union["array[int]", Any]

# What stands for no vertex and no edge.
NONE = 2**32 - 1


@cache
def is_installed(name: str) -> bool:
    """Return whether a module is found. To look for one that isn't there takes longer than to read a small graph."""
    return importlib.util.find_spec(name) is not None


def numpy_module() -> Any:
    """Return numpy, or None if it isn't installed."""
    if "numpy" not in sys.modules and not is_installed("numpy"):
        return None
    try:
        import numpy
    except ImportError:
        return None
    return numpy


def zeros(code: str, count: int) -> array[int]:
    """Return so many zeros, of the type code of the module array."""
    return array(code, [0]) * count


def address(numbers: Flat) -> int:
    """Return where the numbers are in memory. An empty array is nowhere, and any address but 0 will do then."""
    if isinstance(numbers, array):
        return numbers.buffer_info()[0] or 8
    return int(numbers.__array_interface__["data"][0]) or 8


def listed(numbers: Flat) -> list[int]:
    """Return the numbers as a list."""
    found: list[int] = numbers.tolist()
    return found


def as_flat(numbers: Any, dtype: str) -> Flat:
    """Return an array of numpy in one piece and of this type, without a copy if it is so already."""
    numpy = numpy_module()
    return numpy.ascontiguousarray(numbers, dtype=dtype).reshape(-1)


def numbered(ends: Sequence[Sequence[Hashable]]) -> tuple[Flat, Sequence[Hashable]]:
    """Return the ends of pairs as numbers from 0, and the names: each new name has the next number.

    Raises TypeError if some name can't be hashed.
    """
    numpy = numpy_module()
    if numpy is not None and len(ends) > 64 and set(map(type, chain.from_iterable(ends))) == {int}:
        try:
            given = numpy.fromiter(chain.from_iterable(ends), numpy.int64, 2 * len(ends))
        except OverflowError:
            given = None
        if given is not None and given.min() >= 0 and given.max() <= 8 * len(given):
            return numbered_small(given)
    names = list(dict.fromkeys(chain.from_iterable(ends)))
    return numbers_of(ends, names), names


def numbers_of(ends: Iterable[Sequence[Hashable]], names: Sequence[Hashable]) -> Flat:
    """Return the ends of pairs as numbers from 0, if these are the names in order."""
    number = dict(zip(names, range(len(names))))
    return array("I", map(number.__getitem__, chain.from_iterable(ends)))


def are_in_order(given: Any) -> bool:
    """Return whether non-negative integers are 0, 1, 2 and so on in the order in which they first occur."""
    most = numpy_module().maximum.accumulate(given)
    return bool(most[0] == 0 and (most[1:] - most[:-1]).max(initial=0) <= 1)


def numbered_small(given: Any) -> tuple[Any, Sequence[int]]:
    """Return the same for an array of small non-negative integers, in which each name is an integer.

    The numbers are a copy. Results look up names when they are asked, and the caller may change the array before.
    """
    numpy = numpy_module()
    if are_in_order(given):
        return given.astype(numpy.uint32), range(int(given.max()) + 1)
    given = given.astype(numpy.int64, copy=False)
    count = len(given)
    first = numpy.full(int(given.max()) + 1, count, dtype=numpy.int64)
    # The last one that is put is the first one that occurs.
    first[given[::-1]] = numpy.arange(count - 1, -1, -1)
    begins = numpy.zeros(count, dtype=bool)
    begins[first[first < count]] = True
    names = given[begins]
    number = numpy.empty(len(first), dtype=numpy.uint32)
    number[names] = numpy.arange(len(names), dtype=numpy.uint32)
    return number[given], names.tolist()


def numbered_array(given: Any) -> tuple[Any, Sequence[int]]:
    """Return the same for a flat array of any integers."""
    numpy = numpy_module()
    if len(given) == 0:
        return numpy.zeros(0, dtype=numpy.uint32), []
    if given.min() >= 0 and given.max() <= 8 * len(given):
        return numbered_small(given)
    values, places, inverse = numpy.unique(given, return_index=True, return_inverse=True)
    order = numpy.argsort(places)
    number = numpy.empty(len(values), dtype=numpy.uint32)
    number[order] = numpy.arange(len(values), dtype=numpy.uint32)
    return number[inverse.reshape(-1)], values[order].tolist()


def degrees(vertices: int, ends: Flat) -> Sequence[int]:
    """Return for each vertex how many ends it is."""
    numpy = numpy_module()
    if numpy is not None:
        found: list[int] = numpy.bincount(numpy.asarray(ends, dtype=numpy.int64), minlength=vertices).tolist()
        return found
    counts = [0] * vertices
    for vertex in ends:
        counts[vertex] += 1
    return counts
