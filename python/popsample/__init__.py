"""Sampling by popping: random spanning trees, sink-free orientations and satisfying assignments.

    >>> import popsample
    >>> tree = popsample.spanning_tree([("Ann", "Bob"), ("Bob", "Cem"), ("Cem", "Ann")], key="0" * 64)
    >>> tree.parents
    {'Bob': 'Cem', 'Cem': 'Ann'}

The functions call the library `libpopsample` in this process, if it is found (`find_library`), and otherwise run the
program `popsample` (`find_program`). A result has the key that it came from: the same call with that key gives the same
result. All errors are an `Error`, whose message says what is wrong, where, and what to do. An `ArgumentError` is
raised before anything runs, and a `Refusal` if the library or the program rejects the input.
"""

from ._calls.certificates import replay, resume
from ._calls.formulas import find_clash, is_extremal, resample, solution, solutions
from ._calls.graphs import GraphLike, sink_free_orientation, sink_free_orientations, spanning_tree, spanning_trees
from ._calls.sample_iterator import Samples
from ._calls.sampling import samples
from ._engine.library import find_library
from ._engine.program import find_program
from ._given.formula_input import Formula, Method
from ._given.graph_input import GraphInput, from_adjacency, from_edges
from ._given.keys import Key, KeyLike, SeedLike, derived_key, draw_key, seed_key
from ._given.run_options import RunOptions
from ._results.arrays import AssignmentArrays, OrientationArrays, TreeArrays
from ._results.results import (
    Arrow,
    Assignment,
    History,
    Layers,
    Orientation,
    Pop,
    Replayed,
    Totals,
    Tree,
    WitnessVertex,
)
from ._version import version as _version
from .errors import (
    ArgumentError,
    ClashError,
    CountError,
    CutOffError,
    EmptyClauseError,
    EmptyGraphError,
    EmptyRowError,
    EntryError,
    Error,
    ExhaustedError,
    InputRefusal,
    InputTypeError,
    IsolatedError,
    LimitError,
    MalformedError,
    NeedsLibraryError,
    NoAnswerError,
    NoLibraryError,
    NoProgramError,
    NoWeightError,
    NoWitnessError,
    NotInstalledError,
    NotLegalError,
    OptionError,
    OutOfMemoryError,
    Paused,
    ReadError,
    Refusal,
    RootError,
    RowsError,
    RunTimeoutError,
    StacksError,
    TooLongError,
    TooManySamplesError,
    TreeComponentError,
    UnsatisfiableError,
    UsageError,
    WeightError,
    WriteError,
)

__version__ = _version()

__all__ = [
    "ArgumentError",
    "Arrow",
    "Assignment",
    "AssignmentArrays",
    "ClashError",
    "CountError",
    "CutOffError",
    "EmptyClauseError",
    "EmptyGraphError",
    "EmptyRowError",
    "EntryError",
    "Error",
    "ExhaustedError",
    "Formula",
    "GraphInput",
    "GraphLike",
    "History",
    "InputRefusal",
    "InputTypeError",
    "IsolatedError",
    "Key",
    "KeyLike",
    "Layers",
    "LimitError",
    "MalformedError",
    "Method",
    "NeedsLibraryError",
    "NoAnswerError",
    "NoLibraryError",
    "NoProgramError",
    "NoWeightError",
    "NoWitnessError",
    "NotInstalledError",
    "NotLegalError",
    "OptionError",
    "Orientation",
    "OrientationArrays",
    "OutOfMemoryError",
    "Paused",
    "Pop",
    "ReadError",
    "Refusal",
    "Replayed",
    "RootError",
    "RowsError",
    "RunOptions",
    "RunTimeoutError",
    "Samples",
    "SeedLike",
    "StacksError",
    "TooLongError",
    "TooManySamplesError",
    "Totals",
    "Tree",
    "TreeArrays",
    "TreeComponentError",
    "UnsatisfiableError",
    "UsageError",
    "WeightError",
    "WitnessVertex",
    "WriteError",
    "__version__",
    "derived_key",
    "draw_key",
    "find_clash",
    "find_library",
    "find_program",
    "from_adjacency",
    "from_edges",
    "is_extremal",
    "replay",
    "resample",
    "resume",
    "samples",
    "seed_key",
    "sink_free_orientation",
    "sink_free_orientations",
    "solution",
    "solutions",
    "spanning_tree",
    "spanning_trees",
]

# A public name says where callers find it, in tracebacks, in pickles and in help.
for _name in __all__:
    _value = globals()[_name]
    if getattr(_value, "__module__", "").startswith(f"{__name__}._"):
        _is_error = isinstance(_value, type) and issubclass(_value, Error)
        _value.__module__ = f"{__name__}.errors" if _is_error else __name__
