"""The library's calls with arrays and with words, and the samples of a text."""
import ctypes
from typing import NamedTuple

NO_LIMIT = 2**64 - 1
OK, EXHAUSTED, STOPPED, NO_ROOM = 0, 1, 10, 12
SAMPLES, UNTOUCHED = 5, 7

U32, U64, SIZE = ctypes.c_uint32, ctypes.c_uint64, ctypes.c_size_t


class Different(Exception):
    """A row or a refusal that isn't that of the text."""


class Draw(NamedTuple):
    """By which key and height samples are drawn, from which number on, and how many."""

    key: bytes
    height: int
    first: int
    count: int


class Rows(NamedTuple):
    """What a call with arrays left."""

    status: int
    kind: int
    place: int
    main: list
    edges: list
    used: list
    counts: list


class Sample(NamedTuple):
    """A sample as the text has it, whose pops are rounds where it was drawn by rounds."""

    used: list
    pops: int
    stuck: int
    arrows: list
    literals: list


def numbers(of, values):
    """An array of these numbers; an address is there also where none is."""
    return (of * max(1, len(values)))(*values)


class Library:
    """The calls of the library."""

    def __init__(self, path):
        self.library = ctypes.CDLL(path)

    def text(self, words, text):
        """The status and the answer to words and a text."""
        line = b"".join(word.encode() + b"\0" for word in words)
        room, written = 1 << 16, SIZE()
        while True:
            output = ctypes.create_string_buffer(room)
            status = self.library.popsample_run(
                line, SIZE(len(line)), text, SIZE(len(text)), output, SIZE(room), ctypes.byref(written))
            if status != NO_ROOM:
                return status, output.raw[:written.value].decode()
            room = written.value

    def rows(self, name, subject_words, main, row, draw, start, budget, has_edges=False):
        """The rows of a call with arrays, whose first arguments are the words of its subject."""
        size = row * draw.count
        edges, used = numbers(U32, [UNTOUCHED] * size), numbers(U32, [UNTOUCHED] * size)
        main, counts = numbers(main, [UNTOUCHED] * size), numbers(U64, [UNTOUCHED] * 2 * draw.count)
        kind, place = U64(), U64()
        status = getattr(self.library, name)(
            *subject_words, draw.key, SIZE(len(draw.key)), U32(draw.height), U32(draw.first), numbers(U32, start),
            SIZE(len(start)), U64(budget), main, SIZE(size), *((edges, SIZE(size)) if has_edges else ()),
            used, SIZE(size), counts, SIZE(2 * draw.count), ctypes.byref(kind), ctypes.byref(place))
        cut = [list(array)[:size] for array in (main, edges, used)]
        return Rows(status, kind.value, place.value, *cut, list(counts)[:2 * draw.count])


def read_sample(text):
    """The sample of a text."""
    lines = [line.split() for line in text.split("\n")]
    used = [int(word) for line in lines if line[:1] == ["used"] for word in line[1:]]
    pops = next(int(line[1]) for line in lines if line[:1] in (["pops"], ["rounds"]))
    stuck = sum(line[:1] == ["stuck"] for line in lines)
    arrows = [tuple(int(word) for word in line[1:]) for line in lines if line[:1] == ["a"]]
    literals = [int(word) for line in lines if line[:1] == ["v"] for word in line[1:-1]]
    return Sample(used, pops, stuck, arrows, literals)


def read_samples(text):
    """The samples of the text of a batch, or the only one of a text without numbers."""
    if not text.startswith("batch "):
        return [read_sample(text)]
    return [read_sample(block.split("\n", 1)[1]) for block in text.split("sample ")[1:]]
