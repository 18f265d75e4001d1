"""All exceptions. Here stand the refusals: an exception for each answer that is no sample.

The sentence of a refusal is that of `docs/FORMATS.md`, word for word. What is in capitals in it is a number of
the first line, or another word of that line, and the message has in its place what it means.
"""

from __future__ import annotations

import re
from collections.abc import Hashable, Sequence
from typing import Any, ClassVar

from ._errors.argument_errors import (
    ArgumentError,
    EmptyGraphError,
    InputTypeError,
    NoWeightError,
    OptionError,
    TreeComponentError,
    UnsatisfiableError,
    WeightError,
)
from ._errors.base_error import Carried, Error

__all__ = [
    "ArgumentError",
    "ClashError",
    "CountError",
    "CutOffError",
    "EmptyClauseError",
    "EmptyGraphError",
    "EmptyRowError",
    "EntryError",
    "Error",
    "ExhaustedError",
    "InputRefusal",
    "InputTypeError",
    "IsolatedError",
    "LimitError",
    "MalformedError",
    "NeedsLibraryError",
    "NoAnswerError",
    "NoLibraryError",
    "NoProgramError",
    "NoWeightError",
    "NoWitnessError",
    "NotInstalledError",
    "NotLegalError",
    "OptionError",
    "OutOfMemoryError",
    "Paused",
    "ReadError",
    "Refusal",
    "RootError",
    "RowsError",
    "RunTimeoutError",
    "StacksError",
    "TooLongError",
    "TooManySamplesError",
    "TreeComponentError",
    "UnsatisfiableError",
    "UsageError",
    "WeightError",
    "WriteError",
]

# Why a line is invalid, by code.
REASONS = {
    1: "not a CNF header (`p cnf VARIABLES CLAUSES`)",
    2: "a token is neither a literal nor 0",
    3: "a literal exceeds the declared number of variables",
    4: "the header has extra tokens",
    11: "not a graph header (`p edge N M` or `p col N M`)",
    12: "a vertex or weight is not a number",
    13: "a vertex is outside 1..N",
    14: "the weight is 0",
    15: "not an edge line (`e U V` or `e U V W`)",
    21: "not a valid certificate header line",
    22: "the input is shorter than declared",
    31: "not a valid log line",
    32: "wrong layer, or records out of order",
}

# The limits, by kind.
LIMITS = {
    1: "268435456 bytes of input",
    2: "4194304 variables or vertices",
    3: "4194304 clauses",
    4: "33554432 literals",
    5: "8388608 edges",
    6: "4294967295 for the sum of the weights of a vertex's edges",
    7: "268435456 bytes of a certificate's log",
    8: "536870912 bytes of a certificate",
    9: "33554432 variables of all samples of a batch together",
}


class Refusal(Error):
    """The program answered with something other than a sample.

    `status` is its status, and `form` its first line, of which the exception has the numbers. `key` is the key of the
    call, or None if rows were given: under the same key the same call is refused alike.
    """

    status: ClassVar[int]
    form: ClassVar[str]
    sentence: ClassVar[str] = "The program answered with something else than a sample."

    def __init__(self, **meanings: Any) -> None:
        self.key: str | None = None
        super().__init__(re.sub(r"\b[A-Z]+\b", lambda word: str(meanings.get(word[0], word[0])), self.sentence))


class InputRefusal(Refusal, ValueError):
    """The program rejected what was passed: the input, or an argument."""


class ExhaustedError(Refusal):
    """The run came to the end of a stack, and events still occur.

    `stuck` has for each of them the number of its clause, its vertex, or the vertices of its cycle. `used` has the
    numbers of popped entries, in the order of the variables, `pops` that of the pops, and `log` the pops where they are
    told.
    Of rounds `pops` is None, `rounds` is how many there were, and `short` is the variable that has no next entry.
    `sample` is the number of the run's sample: 0, but in a batch.
    """

    status = 1
    form = "s EXHAUSTED"
    sentence = (
        "A stack ran out while bad events remain; the first is STUCK. Use a greater height or longer rows. If the "
        "default height is not enough, there is most likely no sample."
    )

    def __init__(
        self,
        where: str,
        stuck: Sequence[Any],
        used: Sequence[int],
        pops: int | None,
        log: Sequence[Any],
        rounds: int | None = None,
        short: int | None = None,
    ) -> None:
        super().__init__(STUCK=where)
        self.stuck = tuple(stuck)
        self.used = tuple(used)
        self.pops = pops
        self.log = tuple(log)
        self.rounds = rounds
        self.short = short
        self.sample = 0


class Paused(Carried):
    """The run was stopped after the number of pops that was asked for, and can be continued. This is no `Error`.

    `certificate` is its certificate, as the bytes of a text: it holds the command, the stacks, the input and the log.
    `key` is the key of the call, or None if rows were given.
    """

    status = 10
    form = "cert 1 C"
    sentence = (
        "The run has not finished within the requested number of pops. Continue it with resume, or allow more pops."
    )

    def __init__(self, certificate: bytes) -> None:
        super().__init__(self.sentence)
        self.key: str | None = None
        self.certificate = certificate


class UsageError(InputRefusal):
    """The arguments are no command line: the first that is not valid is `word`, at `place`, from 1."""

    status = 2
    form = "s USAGE P"
    sentence = (
        "Argument P, WORD, is not valid here. Check the spelling, whether this command has the option, whether it is "
        "repeated or conflicts with another option, and whether its value is in range."
    )

    def __init__(self, place: int, word: str | None) -> None:
        super().__init__(P=place, WORD="the end" if word is None else repr(word))
        self.place = place
        self.word = word


class MalformedError(InputRefusal):
    """A line of the input is invalid: `line` is its number, `code` says why, and `text` is the line itself.

    Of a certificate `part` says in which part of it lines are counted.
    """

    status = 3
    form = "s MALFORMED L C"
    sentence = "Line L of PART is invalid: WHY (code C). It reads TEXT."

    def __init__(self, line: int, code: int, text: str | None, part: str = "the input") -> None:
        shown = "nothing, since the lines end before it" if text is None else repr(text)
        super().__init__(L=line, C=code, PART=part, TEXT=shown, WHY=REASONS.get(code, "it has another form"))
        self.line = line
        self.code = code
        self.text = text
        self.part = part


class CountError(InputRefusal):
    """The text has another number of clauses (`found`) than its header says (`declared`)."""

    status = 3
    form = "s COUNT D F"
    sentence = (
        "The header declares D clauses, but there are F. Check whether the file is truncated or a clause lacks its "
        "final 0; otherwise write F into the header."
    )

    def __init__(self, declared: int, found: int) -> None:
        super().__init__(D=declared, F=found)
        self.declared = declared
        self.found = found


class StacksError(InputRefusal):
    """The rows of `stacks=` don't fit the variables."""


class RowsError(StacksError):
    """There are `given` rows of entries for `wanted` variables."""

    status = 3
    form = "s ROWS G W"
    sentence = (
        "There are G rows of entries for W variables. Give one row per variable, in the order of the variables, of "
        "the edges, or of the vertices without the root."
    )

    def __init__(self, given: int, wanted: int) -> None:
        super().__init__(G=given, W=wanted)
        self.given = given
        self.wanted = wanted


class EmptyRowError(StacksError):
    """The row of this variable has no entry; it is the first such."""

    status = 3
    form = "s EMPTYROW V"
    sentence = "The row of variable V is empty. Give it at least one entry."

    def __init__(self, variable: Hashable) -> None:
        super().__init__(V=repr(variable))
        self.variable = variable


class EntryError(StacksError):
    """Entry `entry`, from 0, of a variable is none of its values."""

    status = 3
    form = "s VALUE V K"
    sentence = (
        "Entry K of variable V is out of range. Use 0 or 1; in a tree, use 0 to one less than the vertex's number of "
        "edges, not counting self-loops."
    )

    def __init__(self, variable: Hashable, entry: int) -> None:
        super().__init__(V=repr(variable), K=entry)
        self.variable = variable
        self.entry = entry


class LimitError(InputRefusal):
    """The input exceeds a limit of this kind, at the line of this number.

    Of kind 6 `place` is a vertex. If no text was read, it is that of the first vertex, clause or edge too many.
    `advice` follows the sentence.
    """

    status = 4
    form = "s LIMIT K L"
    sentence = (
        "The input exceeds the limit of WHICH at PLACE. Use a smaller input, or divide all weights by a common "
        "factor."
    )

    def __init__(self, kind: int, place: Hashable, noun: str | None = None, advice: str = "") -> None:
        named = noun or ("vertex" if kind == 6 else "line")
        super().__init__(WHICH=LIMITS.get(kind, f"kind {kind}"), PLACE=f"{named} {place!r}")
        self.args = (self.args[0] + advice,)
        self.kind = kind
        self.place = place


class TooLongError(InputRefusal):
    """A certificate, or the log in it, is too long: `kind` is that of the limit."""

    status = 4
    form = "s LIMIT 7 1"
    sentence = "The certificate exceeds the limit of WHICH. Stop the run after fewer pops, or let it finish."

    def __init__(self, kind: int) -> None:
        super().__init__(WHICH=LIMITS[kind])
        self.kind = kind


class TooManySamplesError(InputRefusal):
    """`count` samples of the input have too many variables in total."""

    status = 4
    form = "s LIMIT 9 N"
    sentence = (
        "N samples of this input have more than 33554432 variables in total. Request fewer samples per run, with a "
        "different key for each run."
    )

    def __init__(self, count: int) -> None:
        super().__init__(N=count)
        self.count = count


class ClashError(InputRefusal):
    """The formula isn't extremal: the clauses of these two numbers, the least such pair, clash."""

    status = 5
    form = "s CLASH I J"
    sentence = (
        "Clauses I (FIRST) and J (SECOND) share a variable and can both be false, so the formula is not extremal. "
        "Use rounds, which samples every formula exactly; resample also accepts it, but its distribution is "
        "unspecified."
    )

    def __init__(self, first: int, second: int, texts: tuple[str, str]) -> None:
        super().__init__(I=first, J=second, FIRST=texts[0], SECOND=texts[1])
        self.first = first
        self.second = second
        self.clauses = texts


class EmptyClauseError(InputRefusal):
    """The clause of this number, the first such, has no literal."""

    status = 6
    form = "s EMPTY N"
    sentence = "Clause N is empty, so the formula is unsatisfiable. Look for a stray 0."

    def __init__(self, clause: int) -> None:
        super().__init__(N=clause)
        self.clause = clause


class IsolatedError(InputRefusal):
    """The vertex has no edges; it is the first such vertex."""

    status = 6
    form = "s ISOLATED V"
    sentence = "Vertex V has no edges, so no edge can leave it. Remove the vertex."

    def __init__(self, vertex: Hashable) -> None:
        super().__init__(V=repr(vertex))
        self.vertex = vertex


class RootError(InputRefusal):
    """The root that was asked for is no vertex."""

    status = 6
    form = "s ROOT R"
    sentence = "The root R is not a vertex of the graph. Choose another root."

    def __init__(self, root: Hashable) -> None:
        super().__init__(R=repr(root))
        self.root = root


class CutOffError(InputRefusal):
    """The vertex is not connected to the root; it is the first such vertex."""

    status = 6
    form = "s CUTOFF V"
    sentence = (
        "Vertex V is not connected to the root. Choose another root, or sample each connected component separately."
    )

    def __init__(self, vertex: Hashable) -> None:
        super().__init__(V=repr(vertex))
        self.vertex = vertex


class NoWitnessError(InputRefusal):
    """No pop used entry `entry` of the variable: pops used only its first `cursor` entries."""

    status = 6
    form = "witness none V K C"
    sentence = "No pop used entry K of variable V; only its first C entries were used. Ask for one of those."

    def __init__(self, variable: int, entry: int, cursor: int) -> None:
        super().__init__(V=variable, K=entry, C=cursor)
        self.variable = variable
        self.entry = entry
        self.cursor = cursor


class ReadError(Refusal, OSError):
    """Reading the input failed."""

    status = 7
    form = "s READFAULT"
    sentence = "The input could not be read. Check that it is a readable file and not a directory."


class WriteError(Refusal, OSError):
    """Writing the output failed."""

    status = 8
    form = ""
    sentence = "The output could not be written. Check for a full disk or a closed pipe."


class OutOfMemoryError(Refusal, MemoryError):
    """Memory ran out, or an argument isn't UTF-8."""

    status = 9
    form = "s MEMORY"
    sentence = (
        "Out of memory, or an argument is not valid UTF-8. Use more memory, a smaller input or one worker, or "
        "correct the argument."
    )


class NotLegalError(InputRefusal):
    """A record of a certificate's log isn't legal: `record` is its number, from 1, and `text` its line."""

    status = 11
    form = "s NOTLEGAL I"
    sentence = (
        "Record I of the certificate's log, TEXT, is not valid: after the records before it, its event does not "
        "occur, cannot be popped, or used other entries. Use the log as written, or only the records before this "
        "one."
    )

    def __init__(self, record: int, text: str | None) -> None:
        super().__init__(I=record, TEXT=repr(text))
        self.record = record
        self.text = text


class NoProgramError(Error):
    """The program isn't found."""

    def __init__(self, named: str | None) -> None:
        missing = "There is no popsample among the commands of this Python or on the PATH"
        where = f"POPSAMPLE names {named!r}, which is no program" if named else missing
        super().__init__(f"{where}. Install or build it, and name it by POPSAMPLE or put its folder on the PATH.")


class NoLibraryError(Error):
    """What POPSAMPLE_LIBRARY names can't be loaded."""

    def __init__(self, named: str) -> None:
        super().__init__(
            f"POPSAMPLE_LIBRARY names {named!r}, which is no library of popsample. Name another one, or set it to an "
            "empty value, so that the program runs."
        )


class NeedsLibraryError(Error):
    """The program alone can't make the sample of this number (`sample`), and no call of a library can."""

    def __init__(self, sample: int) -> None:
        super().__init__(
            f"Sample {sample} needs a call of the library that isn't found. Install a release, or name the library by "
            "POPSAMPLE_LIBRARY. The program alone makes samples below 65536, of fewer than 33554432 variables "
            "together. By rounds it makes sample 0 alone: derive a key for each sample, by `derived_key`."
        )
        self.sample = sample


class NoAnswerError(Error):
    """The program ended without one of its results, for example since it was killed."""

    def __init__(self, status: int, first: str) -> None:
        super().__init__(f"The program ended with status {status}, and {first!r} is none of its answers.")
        self.status = status


class RunTimeoutError(Error, TimeoutError):
    """A call had no result within `timeout` seconds, and what it ran was ended."""

    def __init__(self, timeout: float) -> None:
        super().__init__(f"There was no result after timeout={timeout!r} seconds, and the run was ended. Allow more.")
        self.timeout = timeout


class NotInstalledError(Error, ImportError):
    """A package that the call needs isn't installed. Other calls don't need it."""

    def __init__(self, library: str, otherwise: str = ", or take the samples one by one") -> None:
        super().__init__(f"{library} isn't installed, and this needs it. Install it{otherwise}.")
        self.library = library
