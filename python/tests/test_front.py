"""The front end: what it reads, what it passes on, and what it tells."""

import gzip
import hashlib
import os
import re
import select
import signal
import subprocess
import tempfile
import unittest
from collections.abc import Callable
from concurrent.futures import ThreadPoolExecutor
from importlib import metadata
from pathlib import Path
from unittest import mock

from popsample._wrapper.program_words import COMMANDS, OPTIONS

from .checks import ENDLESS, LIMIT, file_of, program_of, until
from .front_calls import by_program, called, example, running, terminal
from .test_completion import COMPLETION, completed

BOM = b"\xef\xbb\xbf"
TRIANGLE = b"p edge 3 3\ne 1 2\ne 2 3\ne 1 3\n"
KEY = hashlib.sha256(b"popsample seed 42").hexdigest()
CALLS = (
    ("tree", "roads.col", []),
    ("tree", "roads.col", ["--root", "3", "--height", "4096", "--log", "on", "--report", "totals,layers"]),
    ("tree", "roads.col", ["--count", "70"]),
    ("tree", "roads.col", ["--pops", "1"]),
    ("tree", "islands.col", []),
    ("orient", "tournament.col", ["--key", KEY, "--workers", "2", "--board", "lock"]),
    ("orient", "path.col", ["--height", "3"]),
    ("formula", "chain.cnf", ["--grow", "64", "--witness", "1,0"]),
    ("formula", "channels.cnf", []),
    ("formula", "one.cnf", ["--height", "2", "--key", f"{1:064x}", "--count", "3"]),
    ("resample", "channels.cnf", ["--key", KEY]),
    ("check", "petersen.cnf", []),
    ("check", "channels.cnf", []),
    ("rounds", "channels.cnf", ["--key", KEY]),
    ("replay", "two.cert", []),
    ("replay", "illegal.cert", []),
    ("resume", "two.cert", ["--workers", "2"]),
)


@unittest.skipUnless(example("roads.col").exists(), "the examples aren't there")
class PassedOn(unittest.TestCase):
    def test_outputs_and_statuses_are_those_of_the_program(self):
        for command, name, words in CALLS:
            with self.subTest(command=command, name=name, words=words):
                path = example(name)
                wanted = by_program(command, *words, given=path.read_bytes())
                self.assertEqual(called(command, path, *words)[:2], wanted)

    def test_what_reads_nothing(self):
        words = ["make", "grid", "9", "--log", "on"]
        self.assertEqual(called(*words), (*by_program(*words), ""))
        self.assertEqual(called("make", "--workers", "2", "grid", "9")[:2], by_program("make", "grid", "9"))

    def test_options_may_stand_before_the_file(self):
        path = example("roads.col")
        wanted = by_program("tree", "--root", "3", "--height", "9", given=path.read_bytes())
        self.assertEqual(called("tree", "--root", "3", path, "--height", "9")[:2], wanted)
        self.assertEqual(called("tree", "--root=3", "--height=9", path)[:2], wanted)

    def test_the_output_of_a_thousand_samples(self):
        words = ["--count", "1000"]
        wanted = by_program("tree", *words, given=example("roads.col").read_bytes())
        self.assertEqual(called("tree", example("roads.col"), *words), (*wanted, ""))


class Read(unittest.TestCase):
    def setUp(self):
        folder = tempfile.TemporaryDirectory()
        self.addCleanup(folder.cleanup)
        self.folder = Path(folder.name)
        self.wanted = by_program("tree", given=TRIANGLE)

    def file(self, name: str, content: bytes) -> Path:
        """A file with this content."""
        path = self.folder / name
        path.write_bytes(content)
        return path

    def test_files(self):
        for name, content in (
            ("plain.col", TRIANGLE),
            ("packed.col.gz", gzip.compress(TRIANGLE)),
            ("marked.col", BOM + TRIANGLE),
            ("marked.col.gz", gzip.compress(BOM + TRIANGLE)),
            ("unnamed", gzip.compress(TRIANGLE[:20]) + gzip.compress(TRIANGLE[20:])),
        ):
            self.assertEqual(called("tree", self.file(name, content)), (*self.wanted, ""), name)

    def test_standard_input(self):
        self.assertEqual(called("tree", given=TRIANGLE), (*self.wanted, ""))
        self.assertEqual(called("tree", "-", given=TRIANGLE), (*self.wanted, ""))
        self.assertEqual(called("tree", given=gzip.compress(BOM + TRIANGLE)), (*self.wanted, ""))

    def test_a_mark_within_a_text_stays(self):
        self.assertEqual(called("tree", given=b"c\n" + BOM + TRIANGLE).output, b"s MALFORMED 2 11\n")

    def test_what_cannot_be_read(self):
        packed = gzip.compress(TRIANGLE * 100)
        for path, reason in (
            (self.folder / "none.col", "No such file or directory"),
            (self.folder, "Is a directory"),
            (self.file("cut.gz", packed[:-9]), "end-of-stream marker"),
            (self.file("broken.gz", packed[:20] + b"\xff" * 20 + packed[40:]), ""),
        ):
            ended = called("tree", path)
            self.assertEqual((ended.status, ended.output), (7, b"s READFAULT\n"), path)
            self.assertRegex(ended.told, f"^popsample: {path}: .*{reason}.* The input could not be read. Check")

    def test_a_terminal(self):
        with terminal() as (outer, inner), running("tree", stdin=inner) as process:
            os.write(outer, TRIANGLE + b"\x04")
            output, told = process.communicate(timeout=LIMIT)
        self.assertEqual((process.returncode, output), self.wanted)
        self.assertIn("Standard input is a terminal. Type a graph in ", told.decode())


class Written(unittest.TestCase):
    def test_a_file(self):
        with tempfile.TemporaryDirectory() as folder:
            path = Path(folder, "out")
            self.assertEqual(called("tree", "--output", path, given=TRIANGLE), (0, b"", ""))
            self.assertEqual((0, path.read_bytes()), by_program("tree", given=TRIANGLE))

    def test_what_cannot_be_written(self):
        with tempfile.TemporaryDirectory() as folder:
            for path, reason in ((folder, "Is a directory"), ("/dev/full", "No space left on device")):
                ended = called("tree", "--output", path, given=TRIANGLE)
                self.assertEqual((ended.status, ended.output), (8, b""))
                self.assertIn(f"popsample: {path}: {reason}. The output could not be written. Check", ended.told)

    def test_a_pipe_that_was_closed(self):
        with running("make", "grid", "60", "--log", "on") as process:
            process.stdout.close()
            told = process.stderr.read().decode()
        self.assertEqual(process.returncode, 8)
        self.assertRegex(told, r"^popsample: Broken pipe\. The output could not be written\. [^\n]*\n$")


class Seeds(unittest.TestCase):
    def test_a_seed_is_a_key(self):
        ended = called("tree", "--seed", "42", given=TRIANGLE)
        self.assertEqual(ended[:2], by_program("tree", "--key", KEY, given=TRIANGLE))
        self.assertEqual(ended.told, f"popsample: The key of seed 42 is {KEY}.\n")
        self.assertEqual(called("tree", "--seed", "42", "--quiet", given=TRIANGLE).told, "")

    def test_what_is_refused(self):
        for told in ("--seed -1", "--seed x", f"--seed 1 --key {KEY}", "--stacks 0;0 --seed 1"):
            words = told.split()
            ended = called("tree", *words, given=TRIANGLE)
            self.assertEqual((ended.status, ended.output), (2, b""), words)
            self.assertIn("--seed", ended.told.splitlines()[-1])
        self.assertEqual(called("check", "--seed", "1", given=TRIANGLE).status, 2)


class Progress(unittest.TestCase):
    def seen(self, *words: str, look: Callable[[str], object] = len) -> tuple[str, bytes]:
        """What a call shows on a terminal, and its output. `look` is called with what was shown so far."""
        shown = b""
        with terminal() as (outer, inner), running(*words, stdin=subprocess.PIPE, stderr=inner) as process:
            with ThreadPoolExecutor(1) as threads:
                answer = threads.submit(process.communicate, TRIANGLE, LIMIT)
                # A terminal holds little, and a call that shows more waits until somebody reads.
                while not answer.done() or select.select([outer], [], [], 0)[0]:
                    if select.select([outer], [], [], 0.1)[0]:
                        shown += os.read(outer, 4096)
                        look(shown.decode())
            return shown.decode(), answer.result()[0]

    def test_samples_are_counted(self):
        told, output = self.seen("tree", "--count", "500")
        self.assertRegex(told, r"\r\x1b\[Kpopsample: 500 of 500 samples\r\x1b\[K$")
        self.assertEqual((0, output), by_program("tree", "--count", "500", given=TRIANGLE))

    def test_seconds_are_told_until_the_first(self):
        # The program waits until some are told.
        with tempfile.TemporaryDirectory() as folder:
            go_on = Path(folder, "go_on")
            are_told = re.compile(r"popsample: drawing 5 samples: [1-9]\d* s")
            with program_of(f'{until(go_on)}; exec "$PROGRAM" "$@"'):
                told, output = self.seen("tree", "--count", "5", look=lambda told: are_told.search(told) and go_on.touch())
        self.assertRegex(told, are_told)
        self.assertEqual((0, output), by_program("tree", "--count", "5", given=TRIANGLE))

    def test_nowhere_else(self):
        self.assertEqual(called("tree", "--count", "5", given=TRIANGLE).told, "")


class Programs(unittest.TestCase):
    def test_the_module_is_run(self):
        with running("tree", stdin=subprocess.PIPE) as process:
            output, told = process.communicate(TRIANGLE, timeout=LIMIT)
        self.assertEqual((process.returncode, output, told), (*by_program("tree", given=TRIANGLE), b""))

    def test_no_program(self):
        ended = called("make", "grid", "2", POPSAMPLE="/nowhere/popsample")
        self.assertEqual((ended.status, ended.output), (127, b""))
        self.assertRegex(ended.told, "^popsample: POPSAMPLE names '/nowhere/popsample', which is no program")

    def test_a_program_that_is_killed(self):
        with program_of("kill -9 $$"):
            ended = called("make", "grid", "2")
        self.assertEqual((ended.status, ended.output), (137, b""))
        self.assertIn("none of its answers", ended.told)

    def test_one_that_cannot_be_run(self):
        with file_of("no program") as path:
            path.chmod(0o755)
            self.assertEqual(called("make", "grid", "2", POPSAMPLE=str(path)).status, 126)

    def test_the_keyboard_ends_it(self):
        with program_of(f"echo begun; {ENDLESS}"):
            with running("make", "grid", "2") as process:
                self.assertEqual(os.read(process.stdout.fileno(), 6), b"begun\n")
                process.send_signal(signal.SIGINT)
                told = process.communicate(timeout=LIMIT)[1]
        self.assertEqual((process.returncode, told), (130, b""))


class Help(unittest.TestCase):
    @unittest.skipUnless(COMPLETION.exists(), "there is no completion")
    def test_each_command_has_the_options_that_are_completed(self):
        for command in COMMANDS:
            wanted = {word for word in completed(command, "") if word != "grid"}
            self.assertEqual({name for name, option in OPTIONS.items() if command in option.commands}, wanted, command)

    def test_each_command_tells_its_options(self):
        for command in COMMANDS:
            ended = called(command, "--help")
            self.assertEqual((ended.status, ended.told), (0, ""))
            wanted = {name for name, option in OPTIONS.items() if command in option.commands}
            shown = set(re.findall(r"(?m)^  (--[a-z]+)", ended.output.decode()))
            self.assertEqual(shown - {"--output", "--quiet", "--seed"}, wanted)

    def test_all_commands_are_told(self):
        told = called("--help").output.decode()
        self.assertEqual(re.findall(r"(?m)^    ([a-z]+) ", told), list(COMMANDS))

    def test_a_formula_that_is_resampled_is_not_sampled(self):
        row = next(line for line in called("--help").output.decode().splitlines() if line.startswith("    resample "))
        self.assertEqual(row.split()[1], "find")

    def test_the_words_are_plain(self):
        for words in ([], *([command] for command in COMMANDS)):
            page = called(*words, "--help").output.decode()
            self.assertNotRegex(page, r"(?i)\b(tell|tells|told|stands?|behind|else|so many|where)\b", words)

    def test_the_version(self):
        with file_of("1.2.3\n") as path, mock.patch("popsample._version.FILE", path):
            self.assertEqual(called("--version"), (0, b"popsample 1.2.3\n", ""))

    def test_the_version_of_an_installed_module(self):
        with mock.patch("popsample._version.FILE", Path("nowhere")):
            with mock.patch("importlib.metadata.version", return_value="1.2.3"):
                self.assertEqual(called("--version").output, b"popsample 1.2.3\n")
            with mock.patch("importlib.metadata.version", side_effect=metadata.PackageNotFoundError):
                self.assertEqual(called("--version").output, b"popsample unknown\n")

    def test_words_that_are_none(self):
        for told in ("", "trees", "tree --roo 2", "tree a b", "make ring 3", "make grid", "tree --root", "check --key"):
            words = told.split()
            ended = called(*words, given=TRIANGLE)
            self.assertEqual((ended.status, ended.output), (2, b""), words)
            self.assertIn("usage: python -m popsample", ended.told)


if __name__ == "__main__":
    unittest.main()
