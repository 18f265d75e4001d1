"""Samples of anything, as many as are wanted."""

from __future__ import annotations

from collections.abc import Hashable, Iterator
from typing import Any

from .._errors.argument_errors import OptionError
from .._given.formula_input import Method, sampled_formula
from .._given.graph_input import read_graph
from .._given.keys import KeyLike, SeedLike
from .._given.kinds import kind_of
from .formulas import assignment_target
from .graphs import orientation_target, tree_target
from .progress import Progress
from .sample_iterator import Executor, OnExhausted, Samples
from .series import series
from .target import Target


def samples(
    subject: Any,
    count: int | None = None,
    key: KeyLike | None = None,
    executor: Executor | None = None,
    progress: bool | Progress | None = None,
    *,
    kind: str | None = None,
    root: Hashable = None,
    weight: Any = None,
    weight_bits: int | None = None,
    variables: int | None = None,
    method: Method | None = None,
    seed: SeedLike | None = None,
    first: int = 0,
    height: int | None = None,
    timeout: float | None = None,
    ahead: int | None = None,
    on_exhausted: OnExhausted = "raise",
) -> Samples[Any, Any]:
    """Draw many samples of a graph or of a formula, optionally in parallel through an executor.

    Sample I under a key is the same through every door. It is that of the function for one sample with ``sample=I``. It
    doesn't depend on the executor, the number of threads or processes, or the order in which they end.

    Parameters
    ----------
    subject : GraphLike or Formula
        A graph, as of `spanning_tree`, or a formula, as of `solution`.
    count : int, optional
        How many samples. Default: they don't end.
    key : str or bytes, optional
        64 hexadecimal digits or 32 bytes. Default: a random key, which the result has.
    executor : concurrent.futures.Executor, optional
        What makes samples side by side: threads, processes, joblib's loky, ``client.get_executor()`` of
        dask.distributed, or mpi4py.futures. Default: they are made in this thread.
    progress : bool or callable, optional
        What is called with the number of samples so far and of all; a class such as ``tqdm.tqdm``; or True for a bar
        of tqdm, if that is installed.
    kind : {"tree", "orientation", "assignment"}, optional
        What is sampled. Default: assignments of a formula, and trees of a graph. A list that may be of clauses or of
        edges needs it.
    root, weight, weight_bits : object
        Of trees, as of `spanning_tree`.
    variables, method : object
        Of assignments, as of `solution`.
    seed : int, bytes or generator, optional
        What makes the key, as of `spanning_tree`.
    first : int
        The number of the first sample under the key.
    height : int, optional
        How many random values each variable has. Default: 1048576.
    timeout : float, optional
        The greatest number of seconds that one call waits: for the next sample, or for the next part of the arrays.
        Then `RunTimeoutError` is raised.
    ahead : int, optional
        How many parts are submitted to the executor and not yet read, which bounds the memory. Default: twice the
        number of this machine's processors.
    on_exhausted : {"raise", "skip", "yield"}
        What is done with a sample whose run was exhausted: raise `ExhaustedError` in its place (the next call goes on
        after it), leave it out, or yield the exception. Leaving out doesn't change the probabilities of the others.

    Returns
    -------
    Samples
        An iterator, with ``arrays()`` for all samples as arrays of numpy.

    Raises
    ------
    ArgumentError
        If an argument can't be taken. What the program or the library rejects is raised with the first sample.

    See Also
    --------
    spanning_trees, sink_free_orientations, solutions

    Examples
    --------
    >>> import popsample
    >>> from concurrent.futures import ThreadPoolExecutor
    >>> circle = [("a", "b"), ("b", "c"), ("c", "a")]
    >>> with ThreadPoolExecutor(2) as threads:
    ...     shared = list(popsample.samples(circle, 300, seed=42, executor=threads))
    >>> shared == list(popsample.samples(circle, 300, seed=42))
    True
    """
    given = list(subject) if isinstance(subject, Iterator) else subject
    options = {
        "root": root, "weight": weight, "weight_bits": weight_bits, "variables": variables, "method": method
    }  # fmt: skip
    target = target_of(given, kind_of(given, kind), options)
    return series(target, count, key, seed, first, height, timeout, executor, ahead, progress, on_exhausted)


WANTED: dict[str, tuple[str, ...]] = {
    "tree": ("root", "weight", "weight_bits"),
    "orientation": (),
    "assignment": ("variables", "method"),
}


def target_of(subject: Any, kind: str, options: dict[str, Any]) -> Target[Any, Any]:
    """Return what is sampled of this kind. Raises OptionError if it has an argument of another kind."""
    for argument, value in options.items():
        if value is not None and argument not in WANTED[kind]:
            raise OptionError(argument, value, f"left out for samples of the kind {kind!r}")
    if kind == "tree":
        return tree_target(read_graph(subject, options["weight"], options["weight_bits"]), options["root"])
    if kind == "orientation":
        return orientation_target(read_graph(subject))
    return assignment_target(sampled_formula(subject, options["variables"]), options["method"] or "rounds")
