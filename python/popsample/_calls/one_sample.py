"""One sample: by the engine, or by a run of the program if more is asked for than that."""

from __future__ import annotations

from collections.abc import Hashable, Mapping, Sequence
from typing import Any, TypeVar

from .._errors.argument_errors import OptionError
from .._given.arguments import Source, checked_timeout, course_of
from .._given.keys import KeyLike, SeedLike
from .._given.run_options import OPTIONS, check_names
from .history import Asked
from .target import Target

Result = TypeVar("Result")

# What needs a run of the program, and the value that says that it isn't wanted.
EXPERT: Mapping[str, Any] = {
    "workers": 1,
    "grow": None,
    "stacks": None,
    "log": False,
    "witness": None,
    "reports": (),
    "pops": None,
}


def one_sample(
    function: str,
    target: Target[Result, Any],
    variables: Sequence[Hashable],
    key: KeyLike | None,
    seed: SeedLike | None,
    sample: int,
    options: Mapping[str, Any],
    known: frozenset[str] = OPTIONS,
) -> Result:
    """Return the sample of this number of a target, whose variables have these names.

    `function` is the name of the caller, and `known` are the options that it takes.
    """
    check_names(function, options, known)
    timeout = checked_timeout(options.get("timeout"))
    source = Source(key, seed, options.get("height"), options.get("stacks"), sample)
    number, made = source.number(), source.made_key()
    wanted = {name: options[name] for name in EXPERT if name in options and is_wanted(name, options[name])}
    if not wanted and made is not None and target.words[0] != "resample":
        height = None if options.get("height") is None else source.top()
        return target.one(made, height, number, timeout)
    if number:
        name = next(iter(wanted), "sample")
        raise OptionError("sample", sample, f"0 if {name}= is given")
    asked = Asked(bool(options.get("log")), options.get("witness"), options.get("reports", ()))
    course = [] if target.words[0] == "rounds" else course_of(options).words(source)
    words = [*source.words(made), *course, *asked.words_beside(variables, options.get("pops"))]
    return target.asked(words, made, asked, timeout)


def is_wanted(name: str, value: Any) -> bool:
    """Return whether the value of an option asks for something. A value that can't be taken does too."""
    if name == "reports":
        return not isinstance(value, (tuple, list, str)) or len(value) > 0
    if name == "workers":
        return type(value) is not int or value != 1
    return value is not EXPERT[name]
