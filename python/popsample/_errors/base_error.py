"""What all exceptions of the module have in common: one base, and that they go from process to process."""

from __future__ import annotations

from typing import Any


# The flag of a class that isn't of C.
HEAP_TYPE = 1 << 9


class Carried(Exception):
    """An exception that goes from process to process with all that it has."""

    def __reduce__(self) -> tuple[Any, ...]:
        """Return what makes the exception again."""
        return made_again, (type(self), self.args, self.__dict__)


class Error(Carried):
    """The base of all errors that this module raises."""


def made_again(kind: type[Carried], words: tuple[Any, ...], values: dict[str, Any]) -> Carried:
    """Return an exception of this kind that has the same words and values."""
    # The class of C below decides how an instance is made; another base may hide it, as MemoryError does.
    static: Any = kind
    while static.__flags__ & HEAP_TYPE:
        static = static.__base__
    made: Carried = static.__new__(kind, *words)
    made.args = words
    made.__dict__.update(values)
    return made
