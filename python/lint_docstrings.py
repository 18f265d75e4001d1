#!/usr/bin/env python3
"""Checks the docstrings of what the module exports by numpydoc, if that is installed: their sections and parameters.

The public methods of its classes are checked too. The status is 1 if a docstring has a fault, and otherwise 0.
"""

from __future__ import annotations

import importlib.util
import inspect
import sys
from collections.abc import Iterator

import popsample

# What isn't asked of each docstring: a second paragraph, examples, cross references and a description of each; and the
# form of the first line, which pydocstyle checks.
FREE = {"ES01", "EX01", "GL01", "GL02", "GL03", "SA01", "SA04", "SS06"}
# Callers make keys alone. The parameters of the other classes are for the module, and attributes are documented.
MADE_BY_CALLERS = {"Key"}


def documented() -> Iterator[str]:
    """Yield the names of functions, of classes and of their public methods. An alias of a type has no docstring."""
    for name in popsample.__all__:
        value = getattr(popsample, name)
        if inspect.isroutine(value) or inspect.isclass(value):
            yield name
        if inspect.isclass(value):
            own = (base for base in value.__mro__ if base.__module__.startswith("popsample"))
            methods = {method for base in own for method, found in vars(base).items() if inspect.isroutine(found)}
            yield from sorted(f"{name}.{method}" for method in methods if not method.startswith("_"))


def faults(name: str) -> list[str]:
    """Return the faults of the docstring of a name of the module."""
    from numpydoc.validate import validate

    found = validate(f"popsample.{name}")["errors"]
    is_made_here = inspect.isclass(getattr(popsample, name, None)) and name not in MADE_BY_CALLERS
    free = {*FREE, "PR01"} if is_made_here else FREE
    return [f"popsample.{name}: {code} {fault}" for code, fault in found if code not in free]


def main() -> int:
    """Print the faults of all docstrings, and return the status."""
    if not importlib.util.find_spec("numpydoc"):
        print("numpydoc: left out, since it isn't installed")
        return 0
    found = [fault for name in documented() for fault in faults(name)]
    print("\n".join(found) if found else "numpydoc: ok")
    return 1 if found else 0


if __name__ == "__main__":
    sys.exit(main())
