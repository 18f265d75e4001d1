"""The library, which answers in this process: where it is, and a call of it."""

from __future__ import annotations

import ctypes
import os
from collections.abc import Sequence
from functools import cache
from pathlib import Path
from typing import Any

from ..errors import NoLibraryError, OutOfMemoryError
from .waiting import in_thread

# Beside the module, as a wheel has it; where the system's loader finds it; and where a build in the checkout leaves it.
BESIDE = Path(__file__).parents[1] / "libpopsample.so"
SYSTEMS = "libpopsample.so.0"
BUILT = Path(__file__).resolve().parents[3] / "crates" / "popsample_c" / "out" / "libpopsample.so"

# What a call answers that the program doesn't: the output has too little room, and the words are none.
NO_ROOM, NO_WORDS = 12, 13
# For a longer input the start of the program takes little beside the work, and a run of the program can be ended.
LONGEST = 1 << 20
# How many bytes there is room for at first, for each sample: so many, and so many for each byte of the text.
ROOM, ROOM_FOR_BYTE = 1024, 4
# A child that was forked may be one of a process with threads, where malloc owes the library nothing.
PROCESS = os.getpid()


@cache
def loaded(place: str) -> Any:
    """Return the library's function, or None if the library isn't there or can't be loaded."""
    try:
        run = ctypes.CDLL(place).popsample_run
    except (OSError, AttributeError):
        return None
    part = [ctypes.c_char_p, ctypes.c_size_t]
    run.argtypes = [*part, *part, *part, ctypes.POINTER(ctypes.c_size_t)]
    run.restype = ctypes.c_uint32
    return run


def find_library() -> str | None:
    """Return the library that is called in this process.

    It is what POPSAMPLE_LIBRARY names. If that isn't set, and POPSAMPLE names no program, it is the library that was
    installed with the package, what the system's loader finds, or what is built in the checkout.

    Returns
    -------
    str or None
        The path or the name of the library; None if POPSAMPLE_LIBRARY is empty, or none is found.

    Raises
    ------
    NoLibraryError
        If what POPSAMPLE_LIBRARY names can't be loaded.

    See Also
    --------
    find_program
    """
    named = os.environ.get("POPSAMPLE_LIBRARY")
    if named and not loaded(named):
        raise NoLibraryError(named)
    if named is not None:
        return named or None
    if os.environ.get("POPSAMPLE"):
        return None
    return next((place for place in (str(BESIDE), SYSTEMS, str(BUILT)) if loaded(place)), None)


def takes(words: Sequence[str], text: bytes) -> bool:
    """Return whether the library may answer these words and this input, here.

    One worker must do, the input must be short, and this process must have imported the module.
    """
    workers = words[words.index("--workers") + 1] if "--workers" in words else "1"
    is_plain = not any("\0" in word for word in words)
    return workers == "1" and len(text) <= LONGEST and is_plain and os.getpid() == PROCESS


def answered(place: str, words: Sequence[str], text: bytes) -> tuple[int, bytes]:
    """Return the status of the program and what it prints, by a call of the library of this place.

    Other threads of Python go on meanwhile, and so does the handling of signals: how long a run takes has little to do
    with the length of its input.
    """
    return in_thread(lambda: called(place, words, text))


def called(place: str, words: Sequence[str], text: bytes) -> tuple[int, bytes]:
    """Return the same, by a call in this thread."""
    run, line, written = loaded(place), b"".join(os.fsencode(word) + b"\0" for word in words), ctypes.c_size_t()
    samples = int(words[words.index("--count") + 1]) if "--count" in words else 1
    room = samples * (ROOM + ROOM_FOR_BYTE * len(text))
    try:
        while True:
            output = ctypes.create_string_buffer(room)
            status = run(line, len(line), text, len(text), output, room, ctypes.byref(written))
            if status != NO_ROOM:
                break
            room = written.value
    except MemoryError:
        return OutOfMemoryError.status, b""
    # The program has no words of its own for words that are none: there it has no memory for them.
    return OutOfMemoryError.status if status == NO_WORDS else status, ctypes.string_at(output, written.value)
