"""All exceptions of the module: one base, names that end in Error, and that they go from process to process."""

import copy
import importlib
import inspect
import pickle
import pkgutil
import unittest

import popsample
from popsample._errors import base_error

from .checks import ZEROS, Refusing, extremal_solution, kinds_below

# For the annotation of each parameter of an exception, something that may be passed.
GIVEN = {
    "int": 7,
    "int | None": 7,
    "float": 1.5,
    "str": "x",
    "str | None": "x",
    "bytes": b"cert",
    "Any": 0.5,
    "Hashable": ("v", 1),
    "Sequence[Any]": (3, "v"),
    "Sequence[int]": (1, 2),
    "Sequence[str]": ("tree", "--root"),
    "Sequence[Hashable]": ("v", "w"),
    "tuple[str, str]": ("1 2", "-1 3"),
}
# The names that don't end in Error: the base of what the program answers, and that of refused input.
REFUSALS = {"Refusal", "InputRefusal"}


def made(kind):
    """An exception of this kind, of what its parameters ask for; a message, where it has none."""
    if kind.__init__ is popsample.Error.__init__ or not inspect.isfunction(kind.__init__):
        return kind("what was wrong")
    parameters = list(inspect.signature(kind.__init__).parameters.values())[1:]
    named = [part for part in parameters if part.kind == inspect.Parameter.POSITIONAL_OR_KEYWORD]
    return kind(*(GIVEN[part.annotation] for part in named))


def defined():
    """The exceptions that the modules of the package define."""
    found = set()
    for module in pkgutil.walk_packages(popsample.__path__, "popsample."):
        if module.name.endswith("__main__"):
            continue
        try:
            members = vars(importlib.import_module(module.name)).values()
        except ImportError as error:
            if error.name and error.name.startswith("popsample"):
                raise
            continue
        here = (kind for kind in members if isinstance(kind, type) and kind.__module__.startswith("popsample"))
        found |= {kind for kind in here if issubclass(kind, BaseException)}
    return found


class Exceptions(Refusing):
    def test_one_base(self):
        # A run that was stopped as it was asked for is no error.
        others = {popsample.Error, popsample.Paused, base_error.Carried}
        self.assertEqual(defined() - others, kinds_below(popsample.Error))
        self.assertGreater(len(kinds_below(popsample.Error)), 30)

    def test_names(self):
        wrong = {kind.__name__ for kind in kinds_below(popsample.Error) if not kind.__name__.endswith("Error")}
        self.assertEqual(wrong, REFUSALS)

    def test_no_old_names(self):
        for name in ("Exhausted", "CutOff", "Memory", "batch_key", "rounds", "check", "sample_formula"):
            self.assertFalse(hasattr(popsample, name), name)

    def test_all_pickle(self):
        for kind in {popsample.Error, popsample.Paused, *kinds_below(popsample.Error)}:
            error = made(kind)
            error.key, error.note = ZEROS, ("more", 1)
            again = [pickle.loads(pickle.dumps(error, protocol)) for protocol in range(pickle.HIGHEST_PROTOCOL + 1)]
            for other in (*again, copy.copy(error), copy.deepcopy(error)):
                with self.subTest(kind=kind.__name__):
                    self.assertIs(type(other), kind)
                    self.assertEqual((other.args, str(other), vars(other)), (error.args, str(error), vars(error)))

    def test_refused_arguments_are_value_errors(self):
        for kind in (*kinds_below(popsample.ArgumentError), *kinds_below(popsample.InputRefusal)):
            self.assertTrue(issubclass(kind, ValueError), kind)
        builtin = {
            popsample.InputTypeError: TypeError,
            popsample.NoWeightError: KeyError,
            popsample.RunTimeoutError: TimeoutError,
            popsample.NotInstalledError: ImportError,
            popsample.ReadError: OSError,
            popsample.WriteError: OSError,
            popsample.OutOfMemoryError: MemoryError,
        }
        for kind, base in builtin.items():
            self.assertTrue(issubclass(kind, base), kind)

    def test_what_was_raised_goes_along(self):
        raised = [
            self.refused(popsample.RootError, popsample.spanning_tree, [("Ann", "Bob")], "Zoe"),
            self.refused(popsample.ExhaustedError, extremal_solution, [[1]], stacks=[[0]]),
            self.refused(popsample.CutOffError, popsample.spanning_tree, [("Ann", "Bob"), ("Cem", "Dan")], key=ZEROS),
        ]
        for error in raised:
            again = pickle.loads(pickle.dumps(error))
            self.assertEqual((type(again), str(again), vars(again)), (type(error), str(error), vars(error)))


if __name__ == "__main__":
    unittest.main()
