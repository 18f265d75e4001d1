"""ChaCha20 (RFC 8439, 2.3), with a block counter and a stream number of 64 bits each."""

from __future__ import annotations

import struct
from functools import lru_cache

CONSTANTS = (0x61707865, 0x3320646E, 0x79622D32, 0x6B206574)
COLUMNS = ((0, 4, 8, 12), (1, 5, 9, 13), (2, 6, 10, 14), (3, 7, 11, 15))
DIAGONALS = ((0, 5, 10, 15), (1, 6, 11, 12), (2, 7, 8, 13), (3, 4, 9, 14))
WORD = 0xFFFFFFFF


def rotate(word: int, places: int) -> int:
    """A word of 32 bits, rotated to the left."""
    return (word << places | word >> 32 - places) & WORD


def quarter_round(state: list[int], a: int, b: int, c: int, d: int) -> None:
    """The quarter round on four places of a state (2.1 and 2.2)."""
    for first, second, third, places in ((a, b, d, 16), (c, d, b, 12), (a, b, d, 8), (c, d, b, 7)):
        state[first] = (state[first] + state[second]) & WORD
        state[third] = rotate(state[third] ^ state[first], places)


@lru_cache(maxsize=1 << 16)
def block(key: bytes, stream: int, counter: int) -> tuple[int, ...]:
    """The 16 words of a block. Counter and stream number stand in the state low word first."""
    places = struct.unpack("<4I", struct.pack("<2Q", counter, stream))
    first = [*CONSTANTS, *struct.unpack("<8I", key), *places]
    state = first[:]
    for _ in range(10):
        for quarter in COLUMNS + DIAGONALS:
            quarter_round(state, *quarter)
    return tuple((old + new) & WORD for old, new in zip(first, state))


def drawn_number(key: bytes, stream: int, entry: int) -> int:
    """The number below 2^64 of the words at the places 2k and 2k + 1 of a stream, the low one first."""
    counter, place = divmod(2 * entry, 16)
    words = block(key, stream, counter)
    return words[place] | words[place + 1] << 32
