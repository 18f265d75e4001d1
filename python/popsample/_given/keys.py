"""Keys: the 32 bytes from which all random values come."""

from __future__ import annotations

import hashlib
import operator
import random
import re
import secrets
from typing import Any, Union

from .._errors.argument_errors import OptionError

FORM = re.compile(r"[0-9a-fA-F]{64}")
BYTES = 32
# The greatest number of a child of a key.
MOST_NUMBER = 2**64 - 1
# Seeds have fewer decimal digits than Python converts by default.
MOST_SEED = 10**4300 - 1

WANTED_KEY = "32 bytes or a string of 64 hexadecimal digits; a whole number goes to seed="
WANTED_SEED = (
    "a non-negative integer of at most 4300 digits, 32 bytes, a random.Random, a Generator, RandomState or "
    "SeedSequence of numpy, or None"
)
WANTED_NUMBER = f"an integer from 0 to {MOST_NUMBER}"

# What may be passed as `key`: 32 bytes, or 64 hexadecimal digits.
KeyLike = Union[str, bytes, bytearray, "Key"]
# What may be passed as `seed`: an integer, 32 bytes, or a generator of Python or numpy.
SeedLike = Union[int, bytes, bytearray, random.Random, Any]


class Key(str):
    r"""The 32 bytes from which all random values of a sample come.

    It is a string of 64 lower-case hexadecimal digits, so it can be printed, stored and compared as text.

    Parameters
    ----------
    value : str or bytes
        64 hexadecimal digits, in either case, or 32 bytes.

    Raises
    ------
    OptionError
        If `value` has another form.

    See Also
    --------
    draw_key, seed_key, derived_key

    Examples
    --------
    >>> from popsample import Key
    >>> Key(bytes(31) + b"\xab")[-4:]
    '00ab'
    >>> Key("AB" * 32) == "ab" * 32
    True
    """

    __slots__ = ()

    def __new__(cls, value: KeyLike) -> Key:
        """Make a key of 32 bytes or of 64 hexadecimal digits."""
        if isinstance(value, Key):
            return value
        if isinstance(value, (bytes, bytearray)) and len(value) == BYTES:
            return super().__new__(cls, value.hex())
        if isinstance(value, str) and FORM.fullmatch(value):
            return super().__new__(cls, value.lower())
        raise OptionError("key", value, WANTED_KEY)

    @classmethod
    def random(cls) -> Key:
        """Return a key of the operating system's randomness."""
        return cls(secrets.token_bytes(BYTES))

    @classmethod
    def from_seed(cls, seed: SeedLike = None) -> Key:
        """Return the key of a seed.

        Parameters
        ----------
        seed : int, bytes, random.Random, numpy.random.Generator, numpy.random.RandomState, \
numpy.random.SeedSequence or None
            The key of a non-negative integer N is the SHA-256 hash of the text ``popsample seed N``, with N in decimal
            digits. 32 bytes are the key. A generator gives 32 bytes, and its state moves on. None: a random key.

        Returns
        -------
        Key
            The key.

        Raises
        ------
        OptionError
            If `seed` is none of these.

        Examples
        --------
        >>> from popsample import Key
        >>> Key.from_seed(1)[:8]
        '1dd9fde6'
        """
        if seed is None:
            return cls.random()
        if isinstance(seed, (bytes, bytearray)):
            if len(seed) != BYTES:
                raise OptionError("seed", seed, WANTED_SEED)
            return cls(seed)
        drawn = drawn_bytes(seed)
        return cls(hashlib.sha256(f"popsample seed {seed_number(seed)}".encode()).digest() if drawn is None else drawn)

    @property
    def bytes(self) -> bytes:
        """The 32 bytes."""
        return bytes.fromhex(self)

    def child(self, number: int) -> Key:
        """Return the key of job `number` under this key.

        Parameters
        ----------
        number : int
            From 0 to 2**64 - 1.

        Returns
        -------
        Key
            The SHA-256 hash of 40 bytes: the 32 bytes of this key, and `number` in 8 bytes, the lowest byte first.

        Raises
        ------
        OptionError
            If `number` isn't such an integer.
        """
        place = checked(number, "number", MOST_NUMBER, WANTED_NUMBER)
        return type(self)(hashlib.sha256(self.bytes + place.to_bytes(8, "little")).digest())

    def spawn(self, count: int) -> list[Key]:
        """Return the keys of the first jobs under this key.

        Parameters
        ----------
        count : int
            How many.

        Returns
        -------
        list of Key
            The keys of the jobs 0 to ``count - 1``, as `child` makes them.
        """
        return [self.child(number) for number in range(checked(count, "count", MOST_NUMBER, WANTED_NUMBER))]


def drawn_bytes(generator: Any) -> bytes | None:
    """Return the 32 bytes that a generator of Python or numpy gives; None if it is none."""
    if isinstance(generator, random.Random):
        return bytes(generator.randrange(256) for _ in range(BYTES))
    if callable(getattr(generator, "generate_state", None)):
        return b"".join(int(word).to_bytes(4, "little") for word in generator.generate_state(BYTES // 4))
    if callable(getattr(generator, "bytes", None)):
        return bytes(generator.bytes(BYTES))
    return None


def checked(value: Any, argument: str, most: int, wanted: str) -> int:
    """Return an integer from 0 to `most`, or raise OptionError."""
    try:
        number = -1 if isinstance(value, bool) else operator.index(value)
    except TypeError:
        number = -1
    if 0 <= number <= most:
        return number
    raise OptionError(argument, value, wanted)


def seed_number(seed: Any) -> int:
    """Return an integer that is a seed, or raise OptionError."""
    return checked(seed, "seed", MOST_SEED, WANTED_SEED)


def draw_key() -> Key:
    """Return a random key, of the operating system's randomness.

    Returns
    -------
    Key
        The key.

    See Also
    --------
    seed_key, derived_key
    """
    return Key.random()


def seed_key(seed: SeedLike) -> Key:
    """Return the key of a seed, as ``seed=`` of the sampling functions does.

    Parameters
    ----------
    seed : int, bytes or generator
        See `Key.from_seed`.

    Returns
    -------
    Key
        The key.

    Raises
    ------
    OptionError
        If `seed` is none of these.
    """
    if seed is None:
        raise OptionError("seed", seed, WANTED_SEED.removesuffix(", or None"))
    return Key.from_seed(seed)


def derived_key(key: KeyLike, number: int) -> Key:
    """Return the key of job `number` under a key, so that one key serves many jobs, on many machines.

    Parameters
    ----------
    key : str or bytes
        64 hexadecimal digits or 32 bytes.
    number : int
        From 0 to 2**64 - 1.

    Returns
    -------
    Key
        The SHA-256 hash of 40 bytes: the 32 bytes of the key, and `number` in 8 bytes, the lowest byte first.

    Raises
    ------
    OptionError
        If `key` or `number` has another form.

    Notes
    -----
    Samples under one key don't need it: the functions take ``sample=``, and each number has values of its own.
    """
    return Key(key).child(number)


def key_of(key: KeyLike | None, seed: SeedLike | None) -> Key:
    """Return the key of the arguments `key` and `seed`, of which one may be given; a random one if neither is."""
    if key is None:
        return Key.from_seed(seed)
    if seed is not None:
        raise OptionError("seed", seed, "None if key= is given")
    return Key(key)
