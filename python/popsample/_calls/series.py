"""Series of samples under one key, from the arguments of a call."""

from __future__ import annotations

from .._engine.chunks import Executor, local_chunks, shared_chunks
from .._engine.watch import Watch
from .._errors.argument_errors import OptionError
from .._given.arguments import SAMPLE, Source, checked_timeout, whole
from .._given.keys import KeyLike, SeedLike
from .progress import Progress, progress_of
from .sample_iterator import OnExhausted, Samples
from .target import Arrays, Result, Target


def series(
    target: Target[Result, Arrays],
    count: int | None,
    key: KeyLike | None,
    seed: SeedLike | None,
    first: int,
    height: int | None,
    timeout: float | None,
    executor: Executor | None,
    ahead: int | None,
    progress: bool | Progress | None,
    on_exhausted: OnExhausted,
) -> Samples[Result, Arrays]:
    """Return so many samples of a target, as `samples` says."""
    begin = whole("first", first, 0, SAMPLE)
    if count is not None:
        count = whole("count", count, 1, SAMPLE + 1 - begin)
    if ahead is not None:
        whole("ahead", ahead, 1)
    source = Source(key, seed, height)
    made = source.made_key()
    assert made is not None
    request = target.request(made, None if height is None else source.top())
    watch = Watch(checked_timeout(timeout))
    if executor is None:
        chunks = local_chunks(request, target.variables, begin, count, watch)
    elif isinstance(executor, type) or not callable(getattr(executor, "submit", None)):
        raise OptionError("executor", executor, "a concurrent.futures.Executor")
    else:
        chunks = shared_chunks(request, target.variables, begin, count, watch, executor, ahead)
    return Samples(target, request, count, chunks, progress_of(progress, count), on_exhausted)
