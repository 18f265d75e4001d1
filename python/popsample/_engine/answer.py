"""What the program prints, line by line."""

from __future__ import annotations

from collections.abc import Iterable, Iterator, Sequence
from dataclasses import dataclass

# What begins a sample of a batch, and an arrow, but in a first line.
SAMPLE = b"\nsample "
ARROW = b"\na "


@dataclass(frozen=True)
class Answer:
    """What the program answered to its words.

    It has the status, the lines of the arrows, and for every other line the words after its first one.
    """

    words: Sequence[str]
    status: int
    lines: dict[str, list[list[str]]]
    arrows: bytes = b""

    def row(self, first: str) -> list[str]:
        """Return the words after the first word, in its only line; none if there is no such line."""
        rows = self.lines.get(first, [[]])
        return rows[0]

    def rows(self, first: str) -> list[list[str]]:
        """Return the words after the first word, for each line that it begins."""
        return self.lines.get(first, [])

    def numbers(self, first: str) -> list[int]:
        """Return the numbers after the first word, in its only line."""
        return list(map(int, self.row(first)))

    def pops(self) -> int:
        """Return the number of pops of a run."""
        return int(self.row("pops")[0])

    def number(self, first: str) -> int | None:
        """Return the number after the first word, in its only line, if there is such a line."""
        row = self.row(first)
        return int(row[0]) if row else None

    def arrow_columns(self) -> tuple[list[int], list[int], list[int]]:
        """Return the tails, the heads and the edges of the arrows, by their numbers."""
        words = self.arrows.split()
        tails, heads, edges = (list(map(int, words[place::4])) for place in (1, 2, 3))
        return tails, heads, edges


def cut_arrows(text: bytes) -> tuple[bytes, bytes]:
    """Return the lines of the arrows, which are together in an answer, and the text without them."""
    begin = text.find(ARROW) + 1
    if not begin:
        return b"", text
    end = text.find(b"\n", text.rfind(ARROW) + 1) + 1 or len(text)
    return text[begin:end], text[:begin] + text[end:]


def read_answer(words: Sequence[str], status: int, text: bytes) -> Answer:
    """Return the answer that a text is. It may be any text: what can't be read is left to who looks at it."""
    arrows, others = cut_arrows(text)
    lines: dict[str, list[list[str]]] = {}
    for line in others.decode("utf-8", "replace").split("\n"):
        row = line.split()
        if row:
            lines.setdefault(row[0], []).append(row[1:])
    return Answer(words, status, lines, arrows)


def sample_texts(chunks: Iterable[bytes]) -> Iterator[tuple[bytes, bool]]:
    """Return the parts of a text that comes in chunks, and whether each is the last.

    They are what comes before the first sample of a batch, and then each sample, from its number on. No more is kept
    than a part and a chunk.
    """
    kept = bytearray()
    looked = 0
    for chunk in chunks:
        kept += chunk
        at = kept.find(SAMPLE, looked)
        while at >= 0:
            yield bytes(kept[: at + 1]), False
            del kept[: at + len(SAMPLE)]
            at = kept.find(SAMPLE)
        looked = max(0, len(kept) - len(SAMPLE))
    yield bytes(kept), True


def is_whole(text: bytes) -> bool:
    """Return whether the text of a sample of a batch has a sample, and no end of a stack."""
    return text.startswith(b"s SAMPLE\n", text.find(b"\n") + 1)


def read_sample(words: Sequence[str], text: bytes) -> Answer:
    """Return the answer of a sample of a batch, as of a run by itself."""
    return read_answer(words, 0 if is_whole(text) else 1, text[text.find(b"\n") + 1 :])


def is_answer(answer: Answer) -> bool:
    """Return whether an answer has a sample, or how its run was exhausted."""
    return answer.row("s") == (["SAMPLE"] if answer.status == 0 else ["EXHAUSTED"]) and answer.status in (0, 1)
