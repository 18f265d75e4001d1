"""The completion for bash, which stands beside this folder in the repository, where bash is there."""

import shutil
import subprocess
import unittest
from pathlib import Path

COMPLETION = Path(__file__).resolve().parents[2] / "completion" / "popsample.bash"
SCRIPT = 'source "$0"; COMP_WORDS=("$@"); COMP_CWORD=$(($# - 1)); _popsample; echo "${COMPREPLY[*]}"'
STACKED = ["--stacks", "--key", "--height"]
CREW = ["--workers", "--board"]
EVERYWHERE = [*STACKED, "--grow", *CREW]
TOLD = ["--witness", "--report"]
LOGGED = ["--log", *TOLD]
BATCHED = [*LOGGED, "--count", "--pops"]


def completed(*words: str) -> list[str]:
    """What the last word may become."""
    ran = subprocess.run(["bash", "-c", SCRIPT, COMPLETION, "popsample", *words], capture_output=True, text=True)
    if ran.returncode or ran.stderr:
        raise AssertionError(ran.stderr)
    return ran.stdout.split()


@unittest.skipUnless(shutil.which("bash") and COMPLETION.exists(), "there is no bash, or no completion")
class Completion(unittest.TestCase):
    def test_commands(self):
        commands = ["formula", "orient", "tree", "resample", "check", "make", "rounds", "replay", "resume"]
        self.assertEqual(completed(""), commands)
        self.assertEqual(completed("re"), ["resample", "replay", "resume"])
        self.assertEqual(completed("t"), ["tree"])
        self.assertEqual(completed("x"), [])

    def test_options(self):
        self.assertEqual(completed("formula", ""), [*EVERYWHERE, *BATCHED])
        self.assertEqual(completed("orient", ""), [*EVERYWHERE, *BATCHED])
        self.assertEqual(completed("tree", ""), [*EVERYWHERE, "--root", *BATCHED])
        self.assertEqual(completed("resample", ""), [*EVERYWHERE, *TOLD, "--pops"])
        self.assertEqual(completed("make", ""), [*EVERYWHERE, "grid", *LOGGED])
        self.assertEqual(completed("rounds", ""), STACKED)
        self.assertEqual(completed("check", ""), [])
        self.assertEqual(completed("replay", ""), [])
        self.assertEqual(completed("resume", ""), CREW)
        self.assertEqual(completed("tree", "--r"), ["--root", "--report"])

    def test_what_stands_or_is_excluded(self):
        self.assertEqual(completed("tree", "--root", "2", "--"), [*EVERYWHERE, *BATCHED])
        self.assertEqual(completed("formula", "--stacks", "0", ""), [*CREW, *LOGGED, "--pops"])
        self.assertEqual(completed("formula", "--key", "00", ""), ["--height", "--grow", *CREW, *BATCHED])
        self.assertEqual(completed("make", "--grow", "9", ""), ["--key", "--height", *CREW, "grid", *LOGGED])
        self.assertEqual(completed("rounds", "--stacks", "0", ""), [])
        self.assertEqual(completed("resume", "--workers", "2", ""), ["--board"])
        self.assertEqual(completed("tree", "--count", "3", ""), ["--key", "--height", "--root"])
        self.assertEqual(completed("tree", "--pops", "3", ""), [*STACKED, "--root"])
        self.assertEqual(completed("resample", "--grow", "3", "--pop"), [])
        self.assertEqual(completed("orient", "--log", "on", ""), [*EVERYWHERE, *TOLD])

    def test_values(self):
        self.assertEqual(completed("resample", "--report", "t"), ["totals", "totals,heights,layers"])
        self.assertEqual(completed("orient", "--log", "o"), ["on", "off"])
        self.assertEqual(completed("make", "--board", ""), ["words", "lock"])
        self.assertEqual(completed("tree", "--root", ""), [])


if __name__ == "__main__":
    unittest.main()
