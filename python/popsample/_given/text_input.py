"""Texts of files, as the functions read them."""

from __future__ import annotations

import zlib
from pathlib import Path

from ..errors import ReadError
from .text_files import file_bytes, plain


def file_text(path: Path) -> bytes:
    """Return the text of a file, unpacked if gzip packed it, and without a byte-order mark.

    A file that can't be opened is an OSError, as elsewhere in Python, and a damaged archive a ReadError.
    """
    given = file_bytes(path)
    try:
        return plain(given)
    except (EOFError, zlib.error) as error:
        raise ReadError() from error


def has_plain_blanks(text: bytes) -> bool:
    """Return whether Python splits the lines of a text into the same words as the program."""
    return b"\x0b" not in text and b"\x0c" not in text
