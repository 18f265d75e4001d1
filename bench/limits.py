"""Inputs at each limit of the program and one past it, with what it is to say."""
import itertools
from typing import Callable, Iterator, List, NamedTuple, Optional

import certificate_inputs
import inputs

VARIABLES = 2**22
CLAUSES = 2**22
LITERALS = 2**25
VERTICES = 2**22
EDGES = 2**23
TEXT_BYTES = 2**28
WEIGHTS = 2**32 - 1
SIDE = 2048
HEIGHT = 2**31 - 1
WORKERS = 64
SAMPLES = 2**16
BATCH_VALUES = 2**25
ROOT = 2**32 - 1
POPS = 2**32 - 1
CERTIFICATE_BYTES = 2**29
LOG_BYTES = 2**28


class Trial(NamedTuple):
    """An input at a limit or past it: the words of the command, the lines of the text, if it reads one, and the status
    and the first line that are wanted."""

    name: str
    words: List[str]
    lines: Optional[Callable[[], Iterator[str]]]
    status: int
    first_line: str


def fits(name, words, lines):
    return Trial(f"{name}: at the limit", words, lines, 0, "s SAMPLE")


def is_refused(name, words, lines, first_line, status=4):
    return Trial(f"{name}: one past", words, lines, status, first_line)


def chain_of_most_variables():
    """A chain that uses all variables but one, which stands in the header alone."""
    clauses = (VARIABLES - 2) // 2
    yield f"p cnf {VARIABLES} {clauses}\n"
    yield from inputs.chain_lines(clauses)


def few_signs(count):
    """Numbers below 256 with the fewest bits. Each sign takes a byte, and so many literals leave few to spare."""
    return sorted(range(256), key=lambda signs: bin(signs).count("1"))[:count]


def clause_form(signs):
    """The line of a clause over 8 variables that are yet to be named, negated where the number has a bit."""
    return "".join(("-" if signs >> place & 1 else "") + "{" + str(place) + "} " for place in range(8)) + "0\n"


def block_lines():
    """As many clauses as there may be, of 8 literals each: as many literals as there may be. Blocks of 8 variables have
    32 clauses each, so that a quarter of the variables serves, whose names are short enough for the text's limit."""
    form = "".join(map(clause_form, few_signs(32)))
    for first in range(1, CLAUSES // 32 * 8, 8):
        yield form.format(*range(first, first + 8))


def fullest_formula():
    yield f"p cnf {VARIABLES} {CLAUSES}\n"
    yield from block_lines()


def clause_too_many():
    """The header declares as many as it may, and one more follows."""
    yield from fullest_formula()
    yield f"{VARIABLES} 0\n"


def literal_too_many():
    """Most literals in half as many clauses, and then one more."""
    yield f"p cnf {VARIABLES} {CLAUSES}\n"
    for _ in range(LITERALS // 16):
        yield "1 2 3 4 5 6 7 8 9 10 11 12 13 14 15 16 0\n"
    yield "1 0\n"


def padded(size):
    """A formula of one clause, with comments that fill the text up to so many bytes."""
    front = "p cnf 1 1\n1 0\n"
    line = "c" * 1023 + "\n"
    yield front
    whole, rest = divmod(size - len(front), len(line))
    for _ in range(whole):
        yield line
    yield "c" * rest


def edge_too_many():
    yield from inputs.torus(SIDE)
    yield "e 1 2\n"


def pair_of_weight(sum_of_weights):
    """Two vertices, joined by two edges of this weight together."""
    yield from ("p edge 2 2\n", f"e 1 2 {sum_of_weights - 1}\n", "e 1 2 1\n")


def formula_trials():
    formula = ["formula"]
    lines_of_padding = (TEXT_BYTES - 14) // 1024
    return [
        fits("variables", formula, chain_of_most_variables),
        is_refused("variables", formula, lambda: [f"p cnf {VARIABLES + 1} 1\n"], "s LIMIT 2 1"),
        fits("variables, clauses and literals", formula, fullest_formula),
        is_refused("clauses declared", formula, lambda: [f"p cnf 1 {CLAUSES + 1}\n"], "s LIMIT 3 1"),
        is_refused("clauses", formula, clause_too_many, f"s LIMIT 3 {CLAUSES + 2}"),
        is_refused("literals", formula, literal_too_many, f"s LIMIT 4 {LITERALS // 16 + 2}"),
        fits("bytes", formula, lambda: padded(TEXT_BYTES)),
        is_refused("bytes", formula, lambda: padded(TEXT_BYTES + 1), f"s LIMIT 1 {lines_of_padding + 3}"),
    ]


def full_trials():
    """The fullest formula under the other commands that read one."""
    name = "variables, clauses and literals"
    return [
        fits(f"resample, {name}", ["resample"], fullest_formula),
        fits(f"rounds, {name}", ["rounds"], fullest_formula),
        Trial(f"check, {name}: at the limit", ["check"], fullest_formula, 0, f"s EXTREMAL {CLAUSES}"),
    ]


def stopped_trials():
    """Runs that are stopped read their text whole, and print it."""
    all_pops, lines_of_padding = ["formula", "--pops", str(POPS)], (TEXT_BYTES - 14) // 1024
    last = f"s LIMIT 1 {lines_of_padding + 3}"
    name = "stopped, variables, clauses and literals"
    return [
        fits("pops and bytes", all_pops, lambda: padded(TEXT_BYTES)),
        is_refused("pops and bytes", all_pops, lambda: padded(TEXT_BYTES + 1), last),
        is_refused("pops", ["formula", "--pops", str(POPS + 1)], lambda: padded(14), "s USAGE 3", status=2),
        Trial(f"{name}: at the limit", ["formula", "--pops", "1"], fullest_formula, 10, "cert 1 formula"),
    ]


def small_certificate(input_lines, size, log_lines):
    """A certificate with an input of so many bytes, whose head has the least formula's stacks."""
    yield f"cert 1 formula\nstacks 0,1\ninput {size}\n"
    yield from input_lines
    yield from log_lines


def certificate_too_long():
    """Which is told before its head is looked at."""
    line = "c" * 1023 + "\n"
    for _ in range(CERTIFICATE_BYTES // 1024):
        yield line
    yield "c"


def log_too_long():
    """Which is told before its lines are looked at."""
    return small_certificate(padded(14), 14, itertools.chain(itertools.repeat("c" * 1024, LOG_BYTES // 1024), ["c"]))


def certificate_trials():
    """Certificates as long as they may be, with logs as long as these may be; and what is longer."""
    open_one, ended = certificate_inputs.open_turning(LOG_BYTES), certificate_inputs.ended_turning(LOG_BYTES)
    lines_of_padding = (TEXT_BYTES - 14) // 1024
    name = "certificate and its log"
    longest_input = lambda: small_certificate(padded(TEXT_BYTES + 1), TEXT_BYTES + 1, ["log 2 0\n"])
    return [
        Trial(f"{name}: at the limit", ["replay"], lambda: open_one.lines(LOG_BYTES, CERTIFICATE_BYTES), 10,
              f"s LEGAL {open_one.records}"),
        Trial("log, replayed: at the limit", ["replay"], ended.lines, 1, f"s LEGAL {ended.records}"),
        Trial("log, resumed: at the limit", ["resume"], ended.lines, 1, "s EXHAUSTED"),
        Trial("log, resumed by workers: at the limit", ["resume", "--workers", "8"], ended.lines, 1, "s EXHAUSTED"),
        is_refused("certificate", ["replay"], certificate_too_long, "s LIMIT 8 1"),
        is_refused("log", ["resume"], log_too_long, "s LIMIT 7 1"),
        is_refused("input of a certificate", ["replay"], longest_input, f"s LIMIT 1 {lines_of_padding + 3}"),
    ]


def graph_trials(command):
    return [
        fits(f"{command}, vertices and edges", [command], lambda: inputs.torus(SIDE)),
        is_refused(f"{command}, vertices", [command], lambda: [f"p edge {VERTICES + 1} 0\n"], "s LIMIT 2 1"),
        is_refused(f"{command}, edges", [command], edge_too_many, f"s LIMIT 5 {EDGES + 2}"),
    ]


def weight_trials():
    tree = ["tree"]
    return [
        fits("tree, weights at a vertex", tree, lambda: pair_of_weight(WEIGHTS)),
        is_refused("tree, weights at a vertex", tree, lambda: pair_of_weight(WEIGHTS + 1), "s LIMIT 6 2"),
    ]


def pair_with(name, words, most, lines):
    """A number among the words at its limit, and one past it, where it is refused as a word."""
    place = len(words) + 1
    return [
        fits(name, [*words, str(most)], lines),
        is_refused(name, [*words, str(most + 1)], lines, f"s USAGE {place}", status=2),
    ]


def word_trials():
    roots = pair_with("root", ["tree", "--root"], ROOT, lambda: pair_of_weight(2))
    return [
        *pair_with("make grid", ["make", "grid"], SIDE, None),
        *pair_with("height", ["formula", "--height"], HEIGHT, lambda: inputs.chain(1000)),
        *pair_with("last height", ["formula", "--grow"], HEIGHT, lambda: inputs.chain(1000)),
        *pair_with("workers", ["formula", "--workers"], WORKERS, lambda: inputs.chain(1000)),
        # A root may be named that no graph has.
        roots[0]._replace(status=6, first_line=f"s ROOT {ROOT}"),
        roots[1],
    ]


def batch_trials():
    """As many samples as there may be, of as many variables together, and one variable more of each; and one sample
    more."""
    words, most = ["formula", "--count"], BATCH_VALUES // SAMPLES
    name, fullest = "samples and their variables", [*words, str(SAMPLES)]
    return [
        Trial(f"{name}: at the limit", fullest, lambda: [f"p cnf {most} 0\n"], 0, f"batch {SAMPLES}"),
        is_refused(name, fullest, lambda: [f"p cnf {most + 1} 0\n"], f"s LIMIT 9 {SAMPLES}"),
        is_refused("samples", [*words, str(SAMPLES + 1)], lambda: inputs.chain(1000), "s USAGE 3", status=2),
    ]


def trials():
    graphs = [*graph_trials("orient"), *graph_trials("tree"), *weight_trials()]
    stopped = [*stopped_trials(), *certificate_trials()]
    return [*formula_trials(), *full_trials(), *stopped, *graphs, *batch_trials(), *word_trials()]
