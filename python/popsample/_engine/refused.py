"""What was answered in place of samples, before it is reported by the names of the caller."""

from __future__ import annotations

from collections.abc import Sequence

from .._errors.base_error import Error


class CallRefusedError(Error):
    """The library refused the arrays: `status`, `kind` and `place` say why."""

    def __init__(self, status: int, kind: int, place: int) -> None:
        super().__init__(status, kind, place)
        self.status, self.kind, self.place = status, kind, place


class TextRefusedError(Error):
    """The program printed no sample: `words`, `status` and `text` say why."""

    def __init__(self, words: Sequence[str], status: int, text: bytes) -> None:
        super().__init__(words, status, text)
        self.words, self.status, self.text = words, status, text
