"""How assignments are sampled: by the library's call for them, or by text if the library hasn't that call.

The library is a stub, whose answers the tests work out by themselves.
"""

import os
import shutil
import subprocess
import tempfile
import unittest
from pathlib import Path
from unittest import mock

import popsample
from popsample import samples, solution, solutions

from .checks import Refusing

HERE = Path(__file__).resolve().parent
INCLUDE = HERE.parents[1] / "c" / "include"
STUB = HERE / "stub_library.c"
CLAUSES = [[1, 2], [-2, 3, 4]]
KEY = bytes(31) + b"\x05"
METHODS = ("rounds", "extremal")
# Of the stub: sample S takes S modulo so many steps, and with so many variables and K more it refuses by kind K.
STEPS, REFUSING = 5, 1000


def values_of(number, method):
    """The literals of a sample under the key, by the stub."""
    bits = number + KEY[-1] + (method == "rounds") + sum(map(sum, CLAUSES))
    return tuple(variable if bits >> variable - 1 & 1 else -variable for variable in range(1, 5))


def told(found):
    """The literals of an assignment, how many values were passed, and the pops or rounds."""
    return found.literals, set(found.used.values()), found.rounds if found.pops is None else found.pops


def wanted(number, method):
    """The same of a sample, by the stub."""
    return values_of(number, method), {number % STEPS}, number % STEPS


class WithStub(Refusing):
    """Tests with a stub, which is built with these words of the compiler."""

    words = ()

    @classmethod
    def setUpClass(cls):
        folder = cls.enterClassContext(tempfile.TemporaryDirectory())
        stub = str(Path(folder, "stub.so"))
        compiler = ["cc", "-shared", "-fPIC", "-Wall", "-Wextra", "-Werror", f"-I{INCLUDE}", *cls.words]
        subprocess.run([*compiler, "-o", stub, str(STUB)], check=True)
        named = {"POPSAMPLE_LIBRARY": stub, "POPSAMPLE": "/nowhere/popsample"}
        cls.enterClassContext(mock.patch.dict(os.environ, named))


@unittest.skipUnless(shutil.which("cc") and INCLUDE.exists(), "there is no C compiler, or no header")
class ByCalls(WithStub):
    words = ("-DASSIGNMENTS",)

    def test_each_sample(self):
        for method in METHODS:
            for number in (0, 1, 4, 7, 2**32 - 1):
                found = solution(CLAUSES, method, KEY, sample=number)
                self.assertEqual(told(found), wanted(number, method))
                self.assertEqual((found.key, found.sample), (KEY.hex(), number))

    def test_series(self):
        for method in METHODS:
            for found in (
                solutions(CLAUSES, 40, method, KEY, first=3),
                samples(CLAUSES, 40, KEY, kind="assignment", method=method, first=3),
            ):
                self.assertEqual([told(each) for each in found], [wanted(number, method) for number in range(3, 43)])

    def test_arrays(self):
        try:
            found = solutions(CLAUSES, 40, key=KEY, first=3).arrays()
        except popsample.NotInstalledError:
            self.skipTest("numpy isn't installed")
        alone = list(solutions(CLAUSES, 40, key=KEY, first=3))
        self.assertEqual(found.values.tolist(), [list(each.values()) for each in alone])
        self.assertEqual(found.pops.tolist(), [each.rounds for each in alone])

    def test_runs_in_parts(self):
        for budget in (1, 2, 3, 7):
            for method in METHODS:
                with (
                    mock.patch("popsample._given.problems.FormulaProblem.first_budget", budget),
                    mock.patch("popsample._engine.typed_calls.next_budget", lambda budget, took: budget),
                ):
                    found = [told(each) for each in solutions(CLAUSES, 40, method, KEY)]
                self.assertEqual(found, [wanted(number, method) for number in range(40)])

    def test_exhausted_samples(self):
        for method in METHODS:
            found = list(solutions(CLAUSES, 10, method, KEY, height=3, on_exhausted="yield"))
            for number, each in enumerate(found):
                if number % STEPS < 3:
                    self.assertEqual(told(each), wanted(number, method))
                else:
                    self.assertIsInstance(each, popsample.ExhaustedError)
                    self.assertEqual((each.stuck, each.used, each.sample), ((1,), (2, 2, 2, 2), number))
                    self.assertEqual(each.rounds if method == "rounds" else each.pops, 2)

    def test_refusals(self):
        def refused(kind, wanted):
            return self.refused(wanted, solution, CLAUSES, variables=REFUSING + kind)

        self.assertEqual(refused(11, popsample.LimitError).kind, 2)
        self.assertEqual(refused(12, popsample.LimitError).kind, 4)
        self.assertIn("refusal 13", str(refused(13, popsample.NoAnswerError)))
        self.assertEqual(refused(15, popsample.EmptyClauseError).clause, 2 * 2**32 + 3)
        clash = self.refused(popsample.ClashError, solution, [*CLAUSES, [1, 4]], variables=REFUSING + 16)
        self.assertEqual((clash.first, clash.second, clash.clauses), (2, 3, ("-2 3 4", "1 4")))


@unittest.skipUnless(shutil.which("cc") and INCLUDE.exists(), "there is no C compiler, or no header")
class ByText(WithStub):
    def test_one(self):
        found = solution([[1], [2, -1]], key=KEY)
        self.assertEqual((found.literals, found.rounds, found.sample, found.key), ((1, 2), 0, 0, KEY.hex()))
        self.assertEqual(list(solutions([[1], [2, -1]], 1, key=KEY)), [found])

    def test_what_needs_the_call(self):
        for call in (
            lambda: solution(CLAUSES, key=KEY, sample=1),
            lambda: solutions(CLAUSES, 2, key=KEY),
            lambda: next(samples(CLAUSES, 2, KEY, kind="assignment")),
        ):
            self.refused(popsample.NeedsLibraryError, call)

    def test_the_program_makes_what_text_can(self):
        # There is none, and it is what is asked for.
        self.refused(popsample.NoProgramError, solutions, CLAUSES, 2, "extremal")


if __name__ == "__main__":
    unittest.main()
