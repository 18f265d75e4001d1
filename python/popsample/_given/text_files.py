"""Texts as people have them: in files, compressed, or with a byte-order mark."""

from __future__ import annotations

import codecs
import gzip
import io
import sys
import zlib
from collections.abc import Callable
from pathlib import Path

from ..errors import ReadError
from .standard_streams import closed

# So many bytes are read, one more than the longest input has: an input of this length is refused, whatever follows.
MOST = 536870912 + 1
PIECE = 1 << 20
GZIP = b"\x1f\x8b"


def read_text(path: str | None) -> bytes:
    """Return the contents of a file, or of standard input if there is no path.

    They have no byte-order mark, and are decompressed if their first bytes say that gzip compressed them. Raises
    ReadError, whose cause says why.
    """
    try:
        return plain(input_bytes() if path is None else file_bytes(Path(path)))
    except (OSError, EOFError, zlib.error) as error:
        raise ReadError() from error


def input_bytes() -> bytes:
    """Return the bytes of standard input, up to as many as are read."""
    if sys.stdin is None:
        raise closed("standard input")
    return bounded(sys.stdin.buffer.read)


def file_bytes(path: Path) -> bytes:
    """Return the bytes of a file, up to as many as are read."""
    with path.open("rb") as file:
        return bounded(file.read)


def plain(given: bytes) -> bytes:
    """Return the bytes of an input, decompressed and without a byte-order mark."""
    if given.startswith(GZIP):
        with gzip.open(io.BytesIO(given)) as packed:
            given = bounded(packed.read)
    return given.removeprefix(codecs.BOM_UTF8)


def bounded(read: Callable[[int], bytes]) -> bytes:
    """Return what can be read, up to as many bytes as are read.

    It ends at the first piece that is shorter than asked for, since a terminal reports its end once.
    """
    text = bytearray()
    is_more = True
    while is_more:
        wanted = min(PIECE, MOST - len(text))
        piece = read(wanted)
        text += piece
        is_more = 0 < wanted == len(piece)
    return bytes(text)


def reason_of(error: BaseException | None) -> str:
    """Return why something cannot be read or written, in words."""
    return error.strerror if isinstance(error, OSError) and error.strerror else str(error)
