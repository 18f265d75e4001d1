"""Many samples of one input, one after the other or as arrays."""

from __future__ import annotations

from collections.abc import Iterator
from typing import Any, Generic, Literal

from .._engine.chunks import Chunks, Executor
from .._engine.engine import Request
from .._engine.refused import CallRefusedError, TextRefusedError
from .._engine.rows import Rows
from .._errors.argument_errors import OptionError
from ..errors import OutOfMemoryError
from .progress import Progress, no_progress
from .target import Arrays, Result, Target

__all__ = ["Executor", "OnExhausted", "Samples"]

OnExhausted = Literal["raise", "skip", "yield"]
KNOWN = ("raise", "skip", "yield")


class Samples(Iterator[Result], Generic[Result, Arrays]):
    """Samples in the order of their numbers, each made when it is asked for.

    It is an iterator, and a context manager that ends what it began.

    Attributes
    ----------
    key : Key
        The key of all samples.
    count : int or None
        How many samples there are in all; None if they don't end.
    done : int
        How many samples were made or passed over so far.
    weight_error : float or None
        The greatest relative error of a weight that ``weight_bits=`` rounded.

    Examples
    --------
    >>> import popsample
    >>> with popsample.spanning_trees([("a", "b"), ("b", "c")], key="0" * 64) as trees:
    ...     sorted(next(trees).parents)
    ['b', 'c']
    """

    def __init__(
        self,
        target: Target[Result, Arrays],
        request: Request,
        count: int | None,
        chunks: Chunks,
        progress: Progress = no_progress,
        on_exhausted: OnExhausted = "raise",
    ) -> None:
        """Make the iterator of what these chunks have."""
        if on_exhausted not in KNOWN:
            raise OptionError("on_exhausted", on_exhausted, f"one of {', '.join(map(repr, KNOWN))}")
        self.key = request.key
        self.count = count
        self.done = 0
        self.weight_error = target.weight_error
        self._target, self._request = target, request
        self._chunks, self._progress = chunks, progress
        self._on_exhausted = on_exhausted
        self._rows: Rows | None = None
        self._row = 0

    def begun(self) -> Samples[Result, Arrays]:
        """Make the first samples, so that what the input is rejected for is raised here.

        Returns
        -------
        Samples
            The iterator itself.
        """
        if self._rows is None:
            self._rows = self._next_rows()
        return self

    def _next_rows(self) -> Rows | None:
        """Return the next chunk; None after the last one."""
        try:
            return next(self._chunks, None)
        except (CallRefusedError, TextRefusedError, OutOfMemoryError) as refused:
            raise self._target.refusal(refused, self.key) from None

    def __length_hint__(self) -> Any:
        """Return how many samples are left, if they end."""
        return NotImplemented if self.count is None else self.count - self.done

    def __next__(self) -> Result:
        """Return the next sample.

        Raises
        ------
        StopIteration
            After the last one.
        ExhaustedError
            If the run of the sample was exhausted, unless ``on_exhausted`` says otherwise. The next call goes on after
            it.
        """
        while True:
            while self._rows is None or self._row >= self._rows.count:
                self._rows, self._row = self._next_rows(), 0
                if self._rows is None:
                    raise StopIteration
            rows, row = self._rows, self._row
            self._row = row + 1
            self.done += 1
            if self._progress is not no_progress:
                self._progress(self.done, self.count)
            if not rows.counts[2 * row + 1]:
                return self._target.result(rows, row, self.key, None)
            if self._on_exhausted == "skip":
                continue
            raised: Any = self._target.exhausted(rows, row, self._request)
            if self._on_exhausted == "raise":
                raise raised
            found: Result = raised
            return found

    def arrays(self) -> Arrays:
        """Return all samples as arrays of numpy, with a row for each.

        Returns
        -------
        TreeArrays, OrientationArrays or AssignmentArrays
            The samples. With ``on_exhausted="skip"`` those whose runs were exhausted are left out.

        Raises
        ------
        ExhaustedError
            If the run of a sample was exhausted, unless ``on_exhausted="skip"``.
        OptionError
            If the samples don't end, or some were handed out already.
        NotInstalledError
            If numpy isn't installed.
        """
        if self.count is None:
            raise OptionError("count", None, "given for arrays, which have an end")
        if self.done:
            raise OptionError("count", self.count, "asked for as arrays before a sample is handed out")
        if self._on_exhausted == "yield":
            raise OptionError("on_exhausted", "yield", "'raise' or 'skip' for arrays")
        self._target.arrays([])
        parts = []
        while (rows := self._rows or self._next_rows()) is not None:
            self._rows = None
            parts += self._whole(rows)
            self._step(rows.count)
        return self._target.arrays(parts)

    def _whole(self, rows: Rows) -> list[Rows]:
        """Return the parts of a chunk without samples whose runs were exhausted, or raise the first of these."""
        wrong = [row for row in range(rows.count) if rows.is_exhausted(row)] if any(rows.counts[1::2]) else []
        if wrong and self._on_exhausted == "raise":
            raise self._target.exhausted(rows, wrong[0], self._request)
        cuts = [-1, *wrong, rows.count]
        return [rows.part(one + 1, other) for one, other in zip(cuts, cuts[1:]) if other > one + 1] if wrong else [rows]

    def _step(self, more: int) -> None:
        """Show that so many more samples were made."""
        self.done += more
        self._progress(self.done, self.count)

    def close(self) -> None:
        """End what was begun. There are no samples after it."""
        self._rows = None
        self._chunks.close()

    def __enter__(self) -> Samples[Result, Arrays]:
        """Return the iterator itself."""
        return self

    def __exit__(self, *raised: object) -> None:
        """End what was begun."""
        self.close()

    def __repr__(self) -> str:
        """Return a short text."""
        all_ = "without end" if self.count is None else f"of {self.count}"
        return f"<Samples {all_}, {self.done} done, key={self.key[:8]}..>"
