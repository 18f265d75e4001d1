"""Draws a series by other hosts, and compares it with that of this process, as `checks.hosts` asks for it:

    hosts_client.py dask ADDRESS N [--kill]
    hosts_client.py mpi - N

It prints how many samples agree. With `--kill` it asks for the end of a worker in the middle, by a line `kill`, and goes
on when a line answers. For each batch a file in the folder that NOTES names tells on which host it was drawn.
"""

from __future__ import annotations

import os
import socket
import sys
import tempfile
from collections.abc import Callable, Iterator
from concurrent.futures import Executor
from contextlib import contextmanager
from typing import Any

import popsample

SIDE = 12
SEED = 77
# The sample after which a worker is killed.
KILLED_AFTER = 2000


def noted(call: Callable[..., Any], *given: Any) -> Any:
    """Call a function, and leave a file whose name tells on which host that was."""
    found = call(*given)
    os.close(tempfile.mkstemp(prefix=f"{socket.gethostname()}.", dir=os.environ["NOTES"])[0])
    return found


def set_notes(folder: str) -> None:
    """Name the folder of the notes to a worker, which began without it."""
    os.environ["NOTES"] = folder


class Noting:
    """An executor whose calls are noted."""

    def __init__(self, executor: Executor) -> None:
        self.executor = executor

    def submit(self, call: Callable[..., Any], /, *given: Any) -> Any:
        """Hand on a call, which is noted when it ends."""
        return self.executor.submit(noted, call, *given)


@contextmanager
def executor_of(kind: str, address: str) -> Iterator[Executor]:
    """Give an executor over the other hosts."""
    if kind == "dask":
        from dask.distributed import Client

        with Client(address, timeout=60) as client:
            client.wait_for_workers(2, timeout=120)
            client.run(set_notes, os.environ["NOTES"])
            yield client.get_executor()
    else:
        from mpi4py.futures import MPIPoolExecutor

        with MPIPoolExecutor() as executor:
            yield executor


def grid(side: int) -> list[tuple[int, int]]:
    """Return the edges of a square grid."""
    across = [(row * side + column, row * side + column + 1) for row in range(side) for column in range(side - 1)]
    return across + [(vertex, vertex + side) for vertex in range(side * (side - 1))]


def trees(count: int, executor: Any) -> Iterator[dict[Any, Any]]:
    """Draw trees, as a dict of parents each."""
    return (tree.parents for tree in popsample.samples(grid(SIDE), count, kind="tree", seed=SEED, executor=executor))


def main() -> int:
    kind, address, count = sys.argv[1], sys.argv[2], int(sys.argv[3])
    found = []
    with executor_of(kind, address) as executor:
        for number, tree in enumerate(trees(count, Noting(executor))):
            found.append(tree)
            if number == KILLED_AFTER and "--kill" in sys.argv:
                print("kill", flush=True)
                sys.stdin.readline()
    wanted = list(trees(count, None))
    agreeing = sum(map(dict.__eq__, found, wanted))
    print(f"{agreeing} of {count} samples agree, {len({tuple(tree.values()) for tree in found})} are different trees")
    return 0 if found == wanted and len(found) == count else 1


if __name__ == "__main__":
    sys.exit(main())
