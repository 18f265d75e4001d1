"""The program: where it is, and a call of it, or of the library in its place."""

from __future__ import annotations

import math
import os
import shutil
import site
import subprocess
import sysconfig
import time
from collections.abc import Callable, Sequence
from functools import cache
from pathlib import Path

from ..errors import NoProgramError, RunTimeoutError
from .launching import start
from .library import answered, find_library, takes

# A run is waited for so many seconds before it is looked whether it is still wanted.
LOOK = 0.5
# Where a build in the checkout leaves the program, seen from the checkout.
BUILT = Path("crates", "popsample", "out", "popsample")


@cache
def installed() -> tuple[Path, ...]:
    """Return the places of a program that was installed with the module.

    These are the folder of the environment's commands, that of the user's if the environment sees what the user
    installed, and the one beside the module, as `pip install --target` has it.
    """
    folders = [Path(sysconfig.get_path("scripts"))]
    if site.ENABLE_USER_SITE:
        folders.append(Path(sysconfig.get_path("scripts", sysconfig.get_preferred_scheme("user"))))
    folders.append(Path(__file__).resolve().parents[2] / "bin")
    return tuple(folder / "popsample" for folder in folders)


def find_program() -> str:
    """Return the path of the program.

    It is what POPSAMPLE names. If that isn't set, it is what was installed with the package, what the PATH has, or what
    is built in the checkout.

    Returns
    -------
    str
        The path.

    Raises
    ------
    NoProgramError
        If there is none.

    See Also
    --------
    find_library
    """
    named = os.environ.get("POPSAMPLE")
    built = Path(__file__).resolve().parents[3] / BUILT
    places: list[str | Path] = [named] if named else [*installed(), "popsample", built]
    for place in places:
        if found := shutil.which(place):
            return str(found)
    raise NoProgramError(named)


def printed(
    words: Sequence[str], text: bytes, timeout: float | None = None, look: Callable[[], None] | None = None
) -> tuple[int, bytes]:
    """Return the status for these arguments and this input, and what the program prints.

    The library answers if it is found and may answer them, and otherwise a run of the program, since a call of the
    library can't be ended.

    Raises RunTimeoutError if the program isn't at its end after so many seconds, and what `look` raises, which is
    called from time to time; then the program is ended.
    """
    if timeout is None and takes(words, text) and (library := find_library()):
        return answered(library, words, text)
    return run(words, text, timeout, look)


def run(
    words: Sequence[str], text: bytes, timeout: float | None, look: Callable[[], None] | None = None
) -> tuple[int, bytes]:
    """Run the program with these words and this input, and return its status and what it prints."""
    end = math.inf if timeout is None else time.monotonic() + timeout
    given: bytes | None = text
    pipe = subprocess.PIPE
    with start([find_program(), *words], True, stdin=pipe, stdout=pipe) as process:
        try:
            while True:
                try:
                    output, _ = process.communicate(given, max(0.0, min(LOOK, end - time.monotonic())))
                    return process.returncode, output
                except subprocess.TimeoutExpired:
                    given = None
                    if timeout is not None and time.monotonic() >= end:
                        raise RunTimeoutError(timeout) from None
                    if look is not None:
                        look()
        except BaseException:
            process.kill()
            raise
