"""Small random command lines and inputs, right and wrong ones."""

from __future__ import annotations

import re
from random import Random

ODD_WORDS = (
    b"0 -0 00 1 -1 2 -2 03 -03 7 99 -99 2147483647 -2147483648 4194305 4294967295 4294967296 00000000001 "
    b"x -x -- - % c cc p e n v cnf edge col +1 1.0 \r \x0b \xff").split(b" ")
ODD_VALUES = (
    "0 1 2 65 2048 2049 00 0001 4294967295 4294967296 x , ; 1,0 0,0 0;1 1,1,1 totals heights layers on off "
    "totals,totals words lock").split()
ODD_OPTIONS = (
    ["--root", "1"], ["--key", "0" * 64], ["grid", "2"], ["--workers", "1"], ["--board", "lock"],
    ["--report", "totals"], ["--log", "on"], ["--grow", "3"], ["--count", "2"], ["--pops", "2"])
REPORTS = ("totals", "heights", "layers")


def random_clauses(chance: Random, variables: int) -> list[list[int]]:
    """Clauses of random literals."""
    count = chance.randint(0, 8) if variables else 0
    names = range(1, variables + 1)
    return [
        [chance.choice((-1, 1)) * chance.choice(names) for _ in range(chance.randint(1, 4))]
        for _ in range(count)]


def sink_clauses(chance: Random, variables: int) -> list[list[int]]:
    """Clauses that any two share at most one variable of, with opposite signs, so that they are extremal."""
    clauses: list[list[int]] = [[] for _ in range(chance.randint(2, 6))]
    for name in range(1, variables + 1):
        first, second = chance.sample(clauses, 2)
        first.append(name)
        second.append(-name)
    return [clause for clause in clauses if clause]


def formula_text(chance: Random) -> bytes:
    """The text of a formula, its literals broken into lines at random."""
    variables = chance.randint(0, 7)
    clauses = chance.choice((random_clauses, sink_clauses))(chance, variables)
    words = [str(literal) for clause in clauses for literal in (*clause, 0)]
    body = "".join(word + chance.choice((" ", " ", "\n", "\t", "\r\n")) for word in words)
    return f"c a formula\np cnf {variables} {len(clauses)}\n{body}".encode()


def graph_text(chance: Random) -> bytes:
    """The text of a graph; mostly a path joins its vertices."""
    vertices = chance.randint(1, 8)
    ends = [(chance.randint(1, vertex - 1), vertex) for vertex in range(2, vertices + 1)]
    if chance.random() < 0.2:
        ends = ends[:len(ends) // 2]
    ends += [
        (chance.randint(1, vertices), chance.randint(1, vertices))
        for _ in range(chance.randint(0, vertices + 3))]
    chance.shuffle(ends)
    lines = [f"p {chance.choice(('edge', 'col'))} {vertices} {len(ends)}"]
    for first, second in ends:
        weight = chance.choice(("", "", f" {chance.randint(1, 9)}", " 4294967295"[:chance.choice((3, 11))]))
        lines.append(f"e {first} {second}{weight}")
    return ("\n".join(lines) + chance.choice(("", "\n"))).encode()


def changed_text(chance: Random, text: bytes) -> bytes:
    """A text with some words or lines of it changed."""
    lines = [line.split(b" ") for line in text.split(b"\n")]
    for _ in range(chance.randint(1, 3)):
        line = chance.choice(lines)
        place = chance.randrange(len(line) + 1)
        line[place:place + chance.randint(0, 1)] = chance.choices(ODD_WORDS, k=chance.randint(0, 2))
        if chance.random() < 0.2:
            lines.remove(line) if len(lines) > 1 else None
    return b"\n".join(b" ".join(line) for line in lines)


def rows_word(chance: Random, rows: int) -> str:
    """Rows of zeros and ones, now and then of another number or with an empty one."""
    lowest, greatest = chance.choice(((0, 3), (1, 4), (2, 30)))
    most = chance.choice((1, 1, 1, 2))
    return ";".join(
        ",".join(str(chance.randint(0, most)) for _ in range(chance.randint(lowest, greatest)))
        for _ in range(rows))


def named_variables(text: bytes, command: str) -> int:
    """About how many variables a text has."""
    lines = text.split(b"\n")
    if command == "orient":
        return sum(line.startswith(b"e ") for line in lines)
    counts = [line.split(b" ")[2] for line in lines if line.startswith(b"p ") and line.count(b" ") > 2]
    number = int(counts[0]) if counts and counts[0].isdigit() and len(counts[0]) < 3 else 0
    return max(0, number - (command == "tree"))


def keyed_options(chance: Random) -> list[list[str]]:
    """A key and a height."""
    return [
        ["--key", "".join(chance.choices("0123456789abcdefABCDEF", k=64))],
        ["--height", str(chance.choice((1, 2, 3, 8, 40)))]]


def grown_options(chance: Random) -> list[list[str]]:
    """A key, and mostly a height; of this and the last height either may be the lesser."""
    return [["--grow", str(chance.choice((1, 2, 3, 8, 40)))], *keyed_options(chance)[:chance.choice((1, 2, 2, 2))]]


def history_options(chance: Random, command: str, variables: int) -> list[list[str]]:
    """What is asked of the log: of `resample` mostly much."""
    often = 0.7 if command == "resample" else 0.3
    options = []
    if command != "resample" and chance.random() < 0.4:
        options.append(["--log", chance.choice(("on", "on", "off"))])
    if chance.random() < often:
        options.append(["--witness", f"{chance.randint(0, variables + 2)},{chance.choice((0, 0, 1, 2, 5))}"])
    if chance.random() < often:
        options.append(["--report", ",".join(chance.sample(REPORTS, chance.randint(1, 3)))])
    return options


def run_options(chance: Random, command: str, variables: int) -> list[list[str]]:
    """The options of one run."""
    if chance.random() < 0.4:
        wrong = chance.choice((0, 0, 0, 0, 0, 0, 1, -1))
        options = [["--stacks", rows_word(chance, max(0, variables + wrong))]]
    elif command != "rounds" and chance.random() < 0.4:
        options = grown_options(chance)
    else:
        options = keyed_options(chance)
    if command != "rounds" and chance.random() < 0.3:
        options.append(["--workers", str(chance.choice((1, 2, 3, 8)))])
    if command != "rounds" and chance.random() < 0.3:
        options.append(["--board", chance.choice(("words", "lock"))])
    if command != "rounds":
        options += history_options(chance, command, variables)
    return options


def batch_options(chance: Random) -> list[list[str]]:
    """The options of a batch."""
    return [["--count", str(chance.choice((1, 2, 3, 5)))], *keyed_options(chance)]


def stopped_options(chance: Random, variables: int) -> list[list[str]]:
    """The options of a run that is stopped after few pops, with stacks that are mostly high enough for them."""
    options = [["--pops", str(chance.choice((1, 1, 1, 2, 2, 3, 5)))]]
    if chance.random() < 0.2:
        return [*options, ["--stacks", rows_word(chance, variables)]]
    key, _ = keyed_options(chance)
    return [*options, key, ["--height", str(chance.choice((2, 8, 40)))]]


def random_options(chance: Random, command: str, variables: int) -> list[list[str]]:
    """The options of a run, of a batch, or of a run that is stopped."""
    choice = chance.random()
    if command in ("formula", "orient", "tree") and choice < 0.2:
        return batch_options(chance)
    if command in ("formula", "orient", "tree", "resample") and choice < 0.5:
        return stopped_options(chance, variables)
    return run_options(chance, command, variables)


def random_words(chance: Random, command: str, variables: int) -> list[str]:
    """A command line, mostly a right one. Heights are small, since the checker is slow."""
    options = random_options(chance, command, variables)
    if command == "tree" and chance.random() < 0.5:
        options.append(["--root", str(chance.randint(1, variables + 2))])
    chance.shuffle(options)
    return [command, *(word for option in options for word in option)]


def changed_words(chance: Random, words: list[str]) -> list[str]:
    """Words of which one is cut off, doubled or put for another."""
    words = words[:]
    place = chance.randrange(len(words))
    choice = chance.randrange(4)
    if choice == 0:
        return words[:place]
    if choice == 1:
        words[place] = chance.choice(ODD_VALUES)
    elif choice == 2:
        words[place:place] = words[place - 1:place + 1]
    else:
        words += chance.choice(ODD_OPTIONS)
    return words


def random_case(chance: Random) -> tuple[list[str], bytes]:
    """Command words and an input."""
    command = chance.choice("formula orient tree resample check make rounds".split())
    text = graph_text(chance) if command in ("orient", "tree") else formula_text(chance)
    variables = named_variables(text, command)
    if chance.random() < 0.2:
        text = changed_text(chance, text)
    if command == "check":
        words = ["check"]
    else:
        side = chance.choice((1, 2, 2, 3, 3, 4, 6))
        words = random_words(chance, command, side * side - 1 if command == "make" else variables)
    if command == "make":
        place = chance.choice(range(1, len(words) + 1, 2))
        words[place:place] = ["grid", str(side)]
    if chance.random() < 0.1:
        words = changed_words(chance, words)
    if not {"check", "--stacks", "--height", "--grow"} & set(words):
        words += ["--height", "7"]
    return words, text


def changed_places(chance: Random, certificate: bytes) -> bytes:
    """A certificate with words, a digit or the order of two lines changed, or cut off."""
    choice, place = chance.randrange(4), chance.randrange(len(certificate))
    if choice == 0:
        return changed_text(chance, certificate)
    if choice == 1:
        digits = [each.start() for each in re.finditer(b"[0-9]", certificate)]
        place = chance.choice(digits)
        return certificate[:place] + b"%d" % chance.randrange(10) + certificate[place + 1:]
    if choice == 2:
        lines = certificate.split(b"\n")
        place = chance.randrange(len(lines) - 1)
        lines[place:place + 2] = lines[place:place + 2][::-1]
        return b"\n".join(lines)
    return certificate[:place]


def changed_certificate(chance: Random, certificate: bytes) -> bytes:
    """A certificate with something changed, but not to a great height, since the checker is slow."""
    changed = changed_places(chance, certificate)
    return certificate if re.search(rb"^height [0-9]{3}", changed, re.MULTILINE) else changed
