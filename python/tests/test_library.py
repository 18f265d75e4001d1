"""Where the library is looked for, what it is asked for, and that it answers as the program does."""

import os
import subprocess
import sys
import unittest
from concurrent.futures import ThreadPoolExecutor
from pathlib import Path
from unittest import mock

import popsample
from popsample._engine import library, program

from .checks import LIMIT
from .instances import TRIANGLE

# The library that the tests are run with, where they are.
NAMED = os.environ.get("POPSAMPLE_LIBRARY", "")


class Places(unittest.TestCase):
    def setUp(self):
        """No library is named, and none is found but those of `there`."""
        self.there = set()
        self.enterContext(mock.patch.dict(os.environ))
        os.environ.pop("POPSAMPLE", None)
        os.environ.pop("POPSAMPLE_LIBRARY", None)
        self.enterContext(mock.patch.object(library, "loaded", self.there.__contains__))

    def test_what_is_named_is_the_only_one(self):
        self.there |= {"named", str(library.BESIDE)}
        os.environ["POPSAMPLE_LIBRARY"] = "named"
        self.assertEqual(popsample.find_library(), "named")
        os.environ["POPSAMPLE_LIBRARY"] = "other"
        self.assertRaises(popsample.NoLibraryError, popsample.find_library)

    def test_an_empty_name_turns_it_off(self):
        self.there.add(str(library.BESIDE))
        os.environ["POPSAMPLE_LIBRARY"] = ""
        self.assertIsNone(popsample.find_library())

    def test_the_order(self):
        places = [str(library.BESIDE), library.SYSTEMS, str(library.BUILT)]
        self.there |= set(places)
        for place in places:
            self.assertEqual(popsample.find_library(), place)
            self.there.remove(place)
        self.assertIsNone(popsample.find_library())

    def test_who_names_a_program_wants_that_one(self):
        self.there |= {"named", library.SYSTEMS}
        os.environ["POPSAMPLE"] = "program"
        self.assertIsNone(popsample.find_library())
        os.environ["POPSAMPLE_LIBRARY"] = "named"
        self.assertEqual(popsample.find_library(), "named")


class Loading(unittest.TestCase):
    def test_what_is_no_library_is_none(self):
        self.assertIsNone(library.loaded(__file__))
        self.assertIsNone(library.loaded("libm.so.6"))


class Asked(unittest.TestCase):
    """What goes to the library, and what to the program."""

    def test_what_the_library_takes(self):
        self.assertTrue(library.takes(["tree"], b""))
        self.assertTrue(library.takes(["tree", "--workers", "1"], b""))
        self.assertFalse(library.takes(["tree", "--workers", "2"], b""))
        self.assertFalse(library.takes(["tree", "a\0b"], b""))
        self.assertFalse(library.takes(["tree"], bytes(library.LONGEST + 1)))
        with mock.patch.object(library, "PROCESS", 0):
            self.assertFalse(library.takes(["tree"], b""))

    def test_a_timeout_goes_to_the_program(self):
        with (
            mock.patch.object(program, "find_library", lambda: "library"),
            mock.patch.object(program, "answered", lambda *call: (0, b"library")),
            mock.patch.object(program, "run", lambda *call: (0, b"program")),
        ):
            self.assertEqual(program.printed(["tree"], b""), (0, b"library"))
            self.assertEqual(program.printed(["tree"], b"", 1.0), (0, b"program"))


# A call that is in C for longer than the test waits, whatever signals come, in the place of the library's.
INTERRUPTED = f"""
import ctypes, os, signal, threading
from popsample._engine import library
lock, mutex = ctypes.CDLL(None).pthread_mutex_lock, ctypes.create_string_buffer(64)
lock(mutex)
# Whoever runs the tests may ignore interrupts, and so would this process.
signal.signal(signal.SIGINT, signal.default_int_handler)
def call(*words):
    threading.Timer(0.5, os.kill, (os.getpid(), signal.SIGINT)).start()
    lock(mutex)
library.loaded = lambda place: call
late = threading.Timer({LIMIT}, os._exit, (1,))
late.daemon = True
late.start()
library.answered("library", ["rounds"], b"")
"""


class Interrupted(unittest.TestCase):
    def test_the_keyboard_stops_a_long_call(self):
        path = {"PYTHONPATH": str(Path(popsample.__file__).resolve().parents[1])}
        command = [sys.executable, "-B", "-c", INTERRUPTED]
        ran = subprocess.run(command, env={**os.environ, **path}, stderr=subprocess.PIPE, timeout=2 * LIMIT)
        self.assertIn(b"KeyboardInterrupt", ran.stderr)


@unittest.skipUnless(NAMED, "no library is named")
class Answers(unittest.TestCase):
    def agree(self, words, text):
        """The library answers as the program does."""
        self.assertEqual(library.answered(NAMED, words, text), program.run(words, text, None))

    def test_the_library_is_taken(self):
        with mock.patch.object(program, "run", None):
            self.assertEqual(len(popsample.spanning_tree(TRIANGLE).arrows), 2)

    def test_it_answers_as_the_program_does(self):
        graph = b"p edge 3 3\ne 1 2\ne 2 3\ne 1 3\n"
        for words in (
            ["tree", "--root", "3", "--report", "totals,heights,layers"],
            ["tree", "--count", "100"],
            ["orient", "--log", "on"],
            ["tree", "--root", "4"],
            ["tree", "--roof", "4"],
            ["formula"],
            [],
        ):
            with self.subTest(words):
                self.agree(words, graph)

    def test_a_word_that_is_not_utf8(self):
        self.agree(["tree", "\udcff"], b"")

    def test_an_answer_may_be_long(self):
        with mock.patch.object(library, "ROOM", 0), mock.patch.object(library, "ROOM_FOR_BYTE", 0):
            self.agree(["make", "grid", "40", "--log", "on"], b"")

    def test_threads_agree_with_one(self):
        alone = list(popsample.samples(TRIANGLE, 5000, kind="tree", seed=42))
        with ThreadPoolExecutor(4) as threads:
            self.assertEqual(list(popsample.samples(TRIANGLE, 5000, kind="tree", seed=42, executor=threads)), alone)

    def test_a_child_that_was_forked_runs_the_program(self):
        script = (
            "import os, popsample, popsample._engine.program as program\n"
            "program.answered = None\n"
            "if os.fork() == 0:\n"
            "    os._exit(len(popsample.spanning_tree([(1, 2), (2, 3)]).arrows))\n"
            "raise SystemExit(os.waitstatus_to_exitcode(os.wait()[1]))\n"
        )
        path = {"PYTHONPATH": str(Path(popsample.__file__).resolve().parents[1])}
        ran = subprocess.run([sys.executable, "-B", "-c", script], env={**os.environ, **path})
        self.assertEqual(ran.returncode, 2)


if __name__ == "__main__":
    unittest.main()
