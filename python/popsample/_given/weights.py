"""Weights of edges: exact integers, fractions scaled to integers, or real numbers rounded to so many bits."""

from __future__ import annotations

import math
import operator
from array import array
from collections.abc import Callable, Hashable, Iterable, Mapping, Sequence
from fractions import Fraction
from typing import Any

from .._errors.argument_errors import InputTypeError, NoWeightError, OptionError, WeightError
from .._results.results import Edge
from .flat_numbers import Flat

WANTED = "the name of the attribute that has the weights"
# The greatest number that the program reads, and the greatest sum of the weights of a vertex's edges.
GREATEST = 2**32 - 1
# The most bits of a rounded weight.
BITS = 32
# What attributes may be: the abstract class, after the one that most are, which is checked in a tenth of its time.
ATTRIBUTES = (dict, Mapping)

# From the place of an edge to its name.
Names = Callable[[int], Hashable]


def is_hashable(name: Any) -> bool:
    """Return whether a name may be in a dict."""
    try:
        hash(name)
    except TypeError:
        return False
    return True


def attribute_name(weight: Any) -> Any:
    """Return the name of the attribute that has the weights, or None. Raise OptionError if it can be no name."""
    if is_hashable(weight):
        return weight
    raise OptionError("weight", weight, WANTED)


def attribute_weights(edges: Iterable[Edge], weight: str | None) -> list[Edge]:
    """Return the edges, with the attribute's value in the place of a dict of attributes.

    A weight is 1 if no attribute is named, or if an edge hasn't the one that is named and others have it, as elsewhere
    in networkx. Raises NoWeightError, a KeyError, if no edge has it, and OptionError if it is no name.
    """
    attribute_name(weight)
    given = list(edges)
    named = [isinstance(edge[2], ATTRIBUTES) for edge in given]
    if weight is not None and given and all(named) and not any(weight in edge[2] for edge in given):
        raise NoWeightError(weight)
    return [
        (tail, head, value.get(weight, 1) if has_names else value, name)
        for (tail, head, value, name), has_names in zip(given, named)
    ]


def ratio(given: Any, name: Hashable) -> tuple[int, int]:
    """Return the weight of the edge of this name as a numerator and a denominator, exactly.

    Raises WeightError if it isn't above 0, and InputTypeError if it is no number.
    """
    try:
        top, bottom = (operator.index(given), 1) if hasattr(given, "__index__") else given.as_integer_ratio()
    except (AttributeError, TypeError):
        raise InputTypeError(
            f"The weight of edge {name!r} must be an int, a float, a fractions.Fraction or a decimal.Decimal, not "
            f"{given!r}."
        ) from None
    except (OverflowError, ValueError):
        raise WeightError(name, given, "it must be a number above 0") from None
    if top <= 0:
        raise WeightError(name, given, "it must be a number above 0")
    return int(top), int(bottom)


def whole_weights(given: Sequence[Any], names: Names) -> Flat | None:
    """Return the weights as integers in the same proportions; None if all are 1.

    Integers stay as they are. If some weight is a fraction, as 0.5 or Fraction(1, 3), all are multiplied by their least
    common denominator, and divided by their greatest common divisor. A float is the binary fraction that it is
    exactly, so 0.1 hardly fits. Raises WeightError if a weight isn't above 0 or they don't fit, and InputTypeError if
    one is no number.
    """
    if set(map(type, given)) <= {int} and min(given, default=1) > 0 and max(given, default=1) <= GREATEST:
        return None if max(given, default=1) == 1 else array("I", given)
    ratios = [ratio(value, names(place)) for place, value in enumerate(given)]
    common = math.lcm(*(bottom for _, bottom in ratios))
    numbers = [top * (common // bottom) for top, bottom in ratios]
    shared = math.gcd(*numbers) if common > 1 else 1
    if max(numbers) // shared > GREATEST:
        place = max(range(len(given)), key=lambda place: max(ratios[place]))
        raise misfit(names(place), given[place], *ratios[place])
    return array("I", [number // shared for number in numbers])


def misfit(name: Hashable, given: Any, top: int, bottom: int) -> WeightError:
    """Return what is raised of the edge with the greatest numerator or denominator, if weights don't fit."""
    exactly = f"it is exactly {top}/{bottom}, and " if bottom > 1 else ""
    return WeightError(
        name,
        given,
        f"{exactly}the weights can't all be scaled exactly to integers up to {GREATEST}. Round them: weight_bits=24 "
        "does so, and the result has the error; or multiply them by a power of ten and round to integers",
    )


def rounded_weights(given: Sequence[Any], ends: Flat, bits: int, names: Names) -> tuple[Flat, float]:
    """Return real weights, rounded to integers of at most so many bits, and the greatest relative error of one.

    All are multiplied by one power of two, the greatest for which the integers fit, and those of the edges of each
    vertex together too, and rounded to the nearest integer. Raises WeightError if a weight isn't above 0, or is
    rounded to 0.
    """
    ratios = [ratio(value, names(place)) for place, value in enumerate(given)]
    exact = [Fraction(top, bottom) for top, bottom in ratios]
    greatest = max(exact)
    shift = bits - greatest.numerator.bit_length() + greatest.denominator.bit_length() + 1
    while True:
        scaled = [value * 2**shift if shift >= 0 else value / 2**-shift for value in exact]
        numbers = [round(value) for value in scaled]
        if max(numbers) < 2**bits and heaviest(numbers, ends) <= GREATEST:
            break
        shift -= 1
    if 0 in numbers:
        place = numbers.index(0)
        raise WeightError(
            names(place), given[place], f"it is too small beside the greatest weight to be rounded to {bits} bits"
        )
    error = max((abs(number / value - 1) for number, value in zip(numbers, scaled)), default=Fraction(0))
    return array("I", numbers), math.nextafter(float(error), math.inf) if error else 0.0


def heaviest(numbers: Sequence[int], ends: Flat) -> int:
    """Return the greatest sum of the weights of a vertex's edges, in which a self-loop isn't counted."""
    sums: dict[int, int] = {}
    for place, number in enumerate(numbers):
        tail, head = ends[2 * place], ends[2 * place + 1]
        if tail != head:
            sums[tail] = sums.get(tail, 0) + number
            sums[head] = sums.get(head, 0) + number
    return max(sums.values(), default=0)
