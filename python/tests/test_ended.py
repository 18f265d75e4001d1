"""The program doesn't go on when Python is killed."""

import os
import signal
import subprocess
import sys
import tempfile
import time
import unittest
from collections.abc import Iterator
from concurrent.futures import ThreadPoolExecutor
from contextlib import contextmanager
from pathlib import Path
from unittest import mock

from popsample._engine import launching

from .checks import ENDLESS, LIMIT, program_of
from .front_calls import PYTHON, running

# A program that writes its number to a file, and then goes on.
NUMBERED = f'echo $$ > "$NUMBER"; {ENDLESS}'
EDGES = "[[1, 2], [2, 3]]"
# Calls that run the program: with a time-out, and by a series, in the main thread and beside it.
WAITING = (
    f"popsample.spanning_tree({EDGES}, timeout=9000)",
    f"next(iter(popsample.samples({EDGES}, 3, kind='tree')))",
    f"ThreadPoolExecutor(1).submit(popsample.spanning_tree, {EDGES}, timeout=9000).result()",
)


def heeding() -> None:
    """Heed signals, in a process that begins: a shell that runs the tests may have told it to ignore some."""
    for number in (signal.SIGTERM, signal.SIGHUP, signal.SIGQUIT):
        signal.signal(number, signal.SIG_DFL)


@contextmanager
def ending(process: subprocess.Popen[bytes]) -> Iterator[None]:
    """Kill a process at last, if a test fails before it has ended."""
    try:
        yield
    finally:
        process.kill()


def is_gone(number: int) -> bool:
    """Tell whether a process is gone within the time: a zombie is, since nobody may be there to read its status."""
    end = time.monotonic() + LIMIT
    while time.monotonic() < end:
        try:
            state = Path(f"/proc/{number}/stat").read_text().rpartition(")")[2].split()[0]
        except FileNotFoundError:
            return True
        if state == "Z":
            return True
        time.sleep(0.02)
    return False


@unittest.skipUnless(launching.prctl(), "there is no prctl")
class Killed(unittest.TestCase):
    def setUp(self):
        folder = tempfile.TemporaryDirectory()
        self.addCleanup(folder.cleanup)
        self.folder = Path(folder.name)
        self.file = self.folder / "number"
        self.enterContext(mock.patch.dict(os.environ, {"NUMBER": str(self.file)}))
        self.enterContext(program_of(NUMBERED))

    def started(self) -> int:
        """Return the number of the program's process, once it runs."""
        end = time.monotonic() + LIMIT
        while not (self.file.exists() and self.file.read_text().endswith("\n")):
            self.assertLess(time.monotonic(), end, "the program wasn't started")
            time.sleep(0.02)
        number = int(self.file.read_text())
        self.addCleanup(self.end, number)
        self.file.unlink()
        return number

    def given(self) -> list[int]:
        """Return the numbers of the processes that have the file's name in their environment, but for this one."""
        named = f"NUMBER={self.file}".encode()
        found = []
        for path in Path("/proc").glob("[0-9]*/environ"):
            try:
                has_it = named in path.read_bytes().split(b"\0")
            except OSError:
                continue
            if has_it and int(path.parent.name) != os.getpid():
                found.append(int(path.parent.name))
        for number in found:
            self.addCleanup(self.end, number)
        return found

    def end(self, number: int) -> None:
        """End a program that was left behind."""
        try:
            os.kill(number, signal.SIGKILL)
        except ProcessLookupError:
            pass

    def test_the_wrapper(self):
        for number, status in ((signal.SIGTERM, 143), (signal.SIGHUP, 129), (signal.SIGKILL, -9), (signal.SIGQUIT, -3)):
            wrapper = running("make", "grid", "2", preexec_fn=heeding)
            with self.subTest(number.name), wrapper as process, ending(process):
                program = self.started()
                process.send_signal(number)
                output, told = process.communicate(timeout=LIMIT)
                self.assertEqual((process.returncode, output, told), (status, b"", b""))
                self.assertTrue(is_gone(program))

    def test_a_signal_at_the_start_is_not_lost(self):
        # Python drops what the handler raises while it forks.
        path = os.pathsep.join([str(PYTHON), *filter(None, [os.environ.get("PYTHONPATH")])])
        script = "import os, signal, sys\nfrom popsample._wrapper.front import main\n"
        script += "os.register_at_fork(after_in_parent=lambda: os.kill(os.getpid(), signal.SIGTERM))\n"
        command = [sys.executable, "-c", script + "sys.exit(main(['make', 'grid', '2']))"]
        named = {**os.environ, "PYTHONPATH": path}
        streams = {"stderr": subprocess.DEVNULL, "env": named, "preexec_fn": heeding}
        with subprocess.Popen(command, **streams) as process, ending(process):
            self.assertEqual(process.wait(LIMIT), 143)
        # The program may be ended before it wrote its number, so it is looked for by what it was given.
        self.assertTrue(all(map(is_gone, self.given())))

    def test_the_wrapper_leaves_an_old_output(self):
        path = self.folder / "out"
        path.write_text("old")
        with running("make", "grid", "2", "--output", path, preexec_fn=heeding) as process, ending(process):
            self.started()
            process.send_signal(signal.SIGTERM)
            process.communicate(timeout=LIMIT)
        self.assertEqual(path.read_text(), "old")
        self.assertEqual(list(self.folder.iterdir()), [path])

    def test_a_signal_that_is_ignored_stays_so(self):
        def deaf():
            heeding()
            signal.signal(signal.SIGHUP, signal.SIG_IGN)

        with running("make", "grid", "2", preexec_fn=deaf) as process, ending(process):
            program = self.started()
            process.send_signal(signal.SIGHUP)
            time.sleep(0.5)
            self.assertIsNone(process.poll())
            process.send_signal(signal.SIGTERM)
            self.assertEqual(process.wait(LIMIT), 143)
        self.assertTrue(is_gone(program))

    def test_calls_of_the_module(self):
        for call in WAITING:
            for number in (signal.SIGTERM, signal.SIGKILL):
                with self.subTest(call=call, signal=number.name):
                    script = f"import popsample\nfrom concurrent.futures import ThreadPoolExecutor\n{call}"
                    path = os.pathsep.join([str(PYTHON), *filter(None, [os.environ.get("PYTHONPATH")])])
                    named = {**os.environ, "PYTHONPATH": path}
                    python = subprocess.Popen([sys.executable, "-c", script], env=named, preexec_fn=heeding)
                    with python as process, ending(process):
                        program = self.started()
                        process.send_signal(number)
                        process.wait(LIMIT)
                    self.assertTrue(is_gone(program))


class Started(unittest.TestCase):
    def test_a_series_outlives_the_thread_that_began_it(self):
        pipe = subprocess.PIPE
        with ThreadPoolExecutor(1) as threads:
            process = threads.submit(launching.start, ["cat"], False, stdin=pipe, stdout=pipe).result()
        with process:
            self.assertEqual(process.communicate(b"text")[0], b"text")

    def test_where_no_step_can_be_made_before_the_program(self):
        real = subprocess.Popen

        def refusing(*words, preexec_fn=None, **named):
            if preexec_fn is not None:
                raise RuntimeError("preexec_fn not supported within subinterpreters")
            return real(*words, **named)

        with mock.patch.object(subprocess, "Popen", refusing):
            with launching.start(["true"], True) as process:
                self.assertEqual(process.wait(LIMIT), 0)

    def test_without_prctl(self):
        with mock.patch.object(launching, "prctl", lambda: None), launching.start(["true"], True) as process:
            self.assertEqual(process.wait(LIMIT), 0)


if __name__ == "__main__":
    unittest.main()
