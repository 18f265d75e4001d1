"""The backend of networkx, where networkx is installed and has backends."""

import os
import subprocess
import sys
import tempfile
import tomllib
import unittest
from importlib import util
from pathlib import Path

import popsample

PYTHON = Path(popsample.__file__).resolve().parents[1]
PROJECT = tomllib.loads((PYTHON / "pyproject.toml").read_text(encoding="utf-8"))["project"]
# What a package tells of itself, for networkx to find its backend.
METADATA = "Metadata-Version: 2.1\nName: popsample\nVersion: 0\n"
ENTRY_POINTS = "[networkx.backends]\npopsample = {popsample}\n".format(**PROJECT["entry-points"]["networkx.backends"])


def has_backends() -> bool:
    """Whether networkx is there, from the version on that has backends."""
    return util.find_spec("networkx") is not None and util.find_spec("networkx.utils.backends") is not None


@unittest.skipUnless(has_backends(), "there is no networkx with backends")
class Backend(unittest.TestCase):
    def test_networkx_finds_it(self):
        with tempfile.TemporaryDirectory() as folder:
            told = Path(folder, "popsample-0.dist-info")
            told.mkdir()
            Path(told, "METADATA").write_text(METADATA, encoding="utf-8")
            Path(told, "entry_points.txt").write_text(ENTRY_POINTS, encoding="utf-8")
            path = os.pathsep.join([folder, *filter(None, [os.environ.get("PYTHONPATH")])])
            command = [sys.executable, "-m", "unittest", "-v", "tests.networkx_dispatched"]
            changed = {**os.environ, "PYTHONPATH": path}
            ran = subprocess.run(command, cwd=PYTHON, env=changed, capture_output=True, text=True)
        self.assertEqual(ran.returncode, 0, ran.stderr)
        for line in filter(lambda line: "skipped" in line, ran.stderr.splitlines()):
            print(line, file=sys.stderr)


if __name__ == "__main__":
    unittest.main()
