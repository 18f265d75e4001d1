"""Samples that engines of other packages share out, where these are installed: the same as without an executor."""

import importlib.util
import os
import shutil
import subprocess
import sys
import unittest
from pathlib import Path

from popsample import samples

from .checks import LIMIT, ZEROS, file_of

TEAMS = [(first, second) for first in range(5) for second in range(first)]
COUNT = 2100
TOP = Path(__file__).resolve().parents[1]
# Prints the edges of each tree, by a pool of the processes of an MPI job.
MPI_SCRIPT = f"""
from mpi4py.futures import MPIPoolExecutor
from popsample import samples

if __name__ == "__main__":
    with MPIPoolExecutor() as pool:
        for tree in samples({TEAMS!r}, {COUNT}, {ZEROS!r}, pool, kind="tree"):
            print(tree.edges)
"""


def installed(name: str) -> bool:
    """Whether a package is there."""
    return importlib.util.find_spec(name) is not None


class Engines(unittest.TestCase):
    @classmethod
    def setUpClass(cls):
        cls.wanted = list(samples(TEAMS, COUNT, ZEROS, kind="tree"))

    def judge(self, executor) -> None:
        """The executor gives the samples that there are without one."""
        self.assertEqual(list(samples(TEAMS, COUNT, ZEROS, executor, kind="tree")), self.wanted)

    @unittest.skipUnless(installed("joblib"), "joblib, which has loky, isn't installed")
    def test_loky(self):
        from joblib.externals.loky import get_reusable_executor

        executor = get_reusable_executor(max_workers=2)
        self.judge(executor)
        executor.shutdown()

    @unittest.skipUnless(installed("distributed"), "dask.distributed isn't installed")
    def test_dask(self):
        from distributed import Client

        with Client(processes=False, n_workers=1, threads_per_worker=2, dashboard_address=None) as client:
            self.judge(client.get_executor())

    @unittest.skipUnless(installed("mpi4py") and shutil.which("mpiexec"), "mpi4py, or mpiexec, isn't installed")
    def test_mpi(self):
        # What Open MPI asks for where a container has one user, and few processors.
        allowed = {"OMPI_ALLOW_RUN_AS_ROOT": "1", "OMPI_ALLOW_RUN_AS_ROOT_CONFIRM": "1"}
        named = {**os.environ, **allowed, "OMPI_MCA_rmaps_base_oversubscribe": "1", "PYTHONPATH": str(TOP)}
        with file_of(MPI_SCRIPT) as script:
            words = ["mpiexec", "-n", "3", sys.executable, "-m", "mpi4py.futures", str(script)]
            ran = subprocess.run(words, env=named, capture_output=True, text=True, timeout=LIMIT)
        self.assertEqual(ran.returncode, 0, ran.stderr)
        self.assertEqual(ran.stdout.splitlines(), [str(tree.edges) for tree in self.wanted])


if __name__ == "__main__":
    unittest.main()
