"""The files and the standard streams of the command-line wrapper, when something is wrong with them."""

import os
import stat
import subprocess
import sys
import tempfile
import unittest
from pathlib import Path

from .checks import LIMIT, program_of
from .front_calls import PYTHON, by_program, called, running

GRAPH = b"p edge 3 3\ne 1 2\ne 2 3\ne 1 3\n"
OLD = b"an older file\n"
KEPT = 0o640
SEEDED = ("tree", "--seed", "1")


def by_shell(words: str) -> subprocess.CompletedProcess[bytes]:
    """Run the wrapper in a shell, which redirects its streams: `words` follow the command."""
    path = os.pathsep.join([str(PYTHON), *filter(None, [os.environ.get("PYTHONPATH")])])
    command = ["sh", "-c", f'exec "$0" -m popsample {words}', sys.executable]
    return subprocess.run(command, input=GRAPH, capture_output=True, env={**os.environ, "PYTHONPATH": path})


class InFolder(unittest.TestCase):
    def setUp(self):
        folder = tempfile.TemporaryDirectory()
        self.addCleanup(folder.cleanup)
        self.folder = Path(folder.name)
        self.input = self.folder / "in.col"
        self.input.write_bytes(GRAPH)
        self.output = self.folder / "out"

    def assert_old(self):
        """The older output is as it was, and nothing is left beside it."""
        self.assertEqual(self.output.read_bytes(), OLD)
        self.assertEqual({path.name for path in self.folder.iterdir()}, {"in.col", "out"})


class OneFile(InFolder):
    """The input that is also named as the output."""

    def refused(self, *words, **streams):
        """Run the wrapper, which refuses, and leaves the input as it was."""
        with running(*words, **streams) as process:
            output, told = process.communicate(timeout=LIMIT)
        self.assertEqual((process.returncode, output), (2, b""))
        self.assertIn(b"This file is the input", told)
        self.assertEqual(self.input.read_bytes(), GRAPH)

    def test_a_named_file(self):
        self.refused("tree", self.input, "--output", self.input)

    def test_standard_input(self):
        with self.input.open("rb") as file:
            self.refused("tree", "--output", self.input, stdin=file)

    def test_a_link(self):
        link = self.folder / "link"
        link.symlink_to(self.input)
        self.refused("tree", self.input, "--output", link)

    def test_a_device_may_be_both(self):
        ended = called("tree", "/dev/null", "--output", "/dev/null")
        self.assertEqual((ended.status, ended.output), (3, b""))


class OldOutputs(InFolder):
    """What becomes of a file that was there before."""

    def setUp(self):
        super().setUp()
        self.output.write_bytes(OLD)
        self.output.chmod(KEPT)

    def test_a_result_replaces_it(self):
        for words in (("tree",), ("tree", "--count", "3"), ("tree", "--pops", "1", "--stacks", "0,1;1,0")):
            with self.subTest(words):
                status, output = by_program(*words, given=GRAPH)
                self.assertEqual(called(*words, self.input, "--output", self.output)[:2], (status, b""))
                self.assertEqual(self.output.read_bytes(), output)

    def test_an_exhausted_run_replaces_it(self):
        words = ("tree", "--stacks", "1;0")
        self.assertEqual(called(*words, self.input, "--output", self.output)[:2], (1, b""))
        self.assertEqual((1, self.output.read_bytes()), by_program(*words, given=GRAPH))

    def test_it_stays_if_the_input_is_missing(self):
        self.assertEqual(called("tree", self.folder / "none.col", "--output", self.output)[:2], (7, b""))
        self.assert_old()

    def test_it_stays_if_the_input_is_refused(self):
        for words, status in ((["tree", "--root", "9"], 6), (["orient", "--height", "0"], 2), (["formula"], 3)):
            self.assertEqual(called(*words, self.input, "--output", self.output)[:2], (status, b""), words)
            self.assert_old()

    def test_it_stays_without_a_program(self):
        ended = called("tree", self.input, "--output", self.output, POPSAMPLE="/nowhere/popsample")
        self.assertEqual((ended.status, ended.output), (127, b""))
        self.assert_old()

    def test_it_stays_if_the_program_is_killed(self):
        with program_of("echo s SAMPLE; kill -9 $$"):
            self.assertEqual(called("tree", self.input, "--output", self.output)[:2], (137, b""))
        self.assert_old()

    def test_a_new_file_has_the_rights_of_any(self):
        umask = os.umask(0o027)
        self.addCleanup(os.umask, umask)
        called("tree", self.input, "--output", self.folder / "new")
        called("tree", self.input, "--output", self.output)
        self.assertEqual(stat.S_IMODE((self.folder / "new").stat().st_mode), 0o640)
        self.assertEqual(stat.S_IMODE(self.output.stat().st_mode), KEPT)

    @unittest.skipUnless(os.geteuid() == 0, "only root may give a file away")
    def test_the_owner_stays(self):
        os.chown(self.output, 12345, 54321)
        called("tree", self.input, "--output", self.output)
        found = self.output.stat()
        self.assertEqual((found.st_uid, found.st_gid), (12345, 54321))

    def test_a_link_stays_one(self):
        link = self.folder / "link"
        link.symlink_to("out")
        self.assertEqual(called("tree", self.input, "--output", link)[:2], (0, b""))
        self.assertTrue(link.is_symlink())
        self.assertEqual((0, self.output.read_bytes()), by_program("tree", given=GRAPH))

    def test_a_folder_that_is_missing(self):
        ended = called("tree", self.input, "--output", self.folder / "none" / "out")
        self.assertEqual((ended.status, ended.output), (8, b""))
        self.assertIn(f"{self.folder / 'none' / 'out'}: No such file or directory", ended.told)


class ClosedStreams(InFolder):
    """Standard streams that were closed by the shell."""

    def test_messages_go_nowhere_else(self):
        wanted = called(*SEEDED, "--quiet", self.input).output
        for words in (f"tree {self.input} --seed 1 2>&-", f"tree {self.input} --seed 1 2>/dev/full"):
            ran = by_shell(words)
            self.assertEqual((ran.returncode, ran.stdout, ran.stderr), (0, wanted, b""), words)

    def test_a_batch_has_no_progress(self):
        ran = by_shell(f"tree {self.input} --count 3 2>&-")
        self.assertEqual((ran.returncode, ran.stdout), by_program("tree", "--count", "3", given=GRAPH))

    def test_standard_input(self):
        ran = by_shell("tree <&-")
        self.assertEqual((ran.returncode, ran.stdout), (7, b"s READFAULT\n"))
        self.assertRegex(ran.stderr, rb"^popsample: standard input is closed\. [^\n]+\n$")

    def test_a_file_is_read_without_it(self):
        ran = by_shell(f"tree {self.input} <&-")
        self.assertEqual((ran.returncode, ran.stdout), by_program("tree", given=GRAPH))

    def test_standard_output(self):
        ran = by_shell(f"tree {self.input} >&-")
        self.assertEqual((ran.returncode, ran.stdout), (8, b""))
        self.assertRegex(ran.stderr, rb"^popsample: standard output is closed\. [^\n]+\n$")

    def test_a_file_is_written_without_it(self):
        ran = by_shell(f"tree {self.input} --output {self.output} >&-")
        self.assertEqual((ran.returncode, ran.stderr), (0, b""))
        self.assertEqual((0, self.output.read_bytes()), by_program("tree", given=GRAPH))

    def test_all_of_them(self):
        self.assertEqual(by_shell(f"tree {self.input} <&- >&- 2>&-").returncode, 8)


if __name__ == "__main__":
    unittest.main()
