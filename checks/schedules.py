"""Runs a built popsample by several workers, thousands of times, and compares each answer with that of one worker.

    python3 -m checks.schedules --program PROGRAM

What is run are small instances that were worked by hand, and random ones of all three families, some in stages, whose
answer is that of one worker without stages. Runs that can be are also stopped halfway, and several workers go on.
README.md says more.
"""
import collections
import itertools
import random
import subprocess
import sys
import time

from bench.asking import parser_of
from bench.inputs import clause_line, edge_line

WORKERS = (2, 3, 8, 64)
BOARDS = ("words", "lock")
# The vertices of random graphs, and their stacks' heights: low ones leave some runs exhausted.
SIZES = (2, 3, 8, 30, 100)
HEIGHTS = (1, 2, 4, 1000)

TRIANGLE = "p edge 3 3\ne 1 2\ne 2 3\ne 1 3\n"
# Instances that the documents and tests work by hand: the words, and the text.
WORKED = [
    (["formula", "--stacks", "0,0,1"], "p cnf 1 1\n1 0\n"),
    (["formula", "--stacks", "0,0"], "p cnf 1 1\n1 0\n"),
    (["formula", "--stacks", ""], "p cnf 0 0\n"),
    (["formula", "--stacks", "0;0,0,1"], "p cnf 2 2\n1 0\n2 0\n"),
    (["formula", "--stacks", "0,1;0,1"], "p cnf 2 2\n1 2 0\n-1 2 0\n"),
    (["tree", "--stacks", "1,0;0,0"], TRIANGLE),
    (["tree", "--stacks", "1;0"], TRIANGLE),
    (["tree", "--stacks", "0,0;1,1;0,1"], "p edge 4 3\ne 2 3\ne 3 4\ne 4 1\n"),
    (["orient", "--stacks", "0,0;1,0;0"], TRIANGLE),
    (["orient", "--stacks", "0,1,0"], "p edge 2 1\ne 1 2\n"),
    (["make", "grid", "40"], ""),
    (["formula", "--height", "1", "--grow", "8"], "p cnf 1 1\n-1 0\n"),
    (["formula", "--height", "5", "--grow", "1"], "p cnf 1 1\n-1 0\n"),
    (["make", "grid", "30", "--height", "1", "--grow", "4096"], ""),
]


def graph_text(vertices, edges):
    return f"p edge {vertices} {len(edges)}\n" + "".join(map(edge_line, edges))


def formula_text(vertices, edges):
    """A variable for each edge, and for each vertex the clause that an edge, which is no loop, leaves it."""
    clauses = [[] for _ in range(vertices)]
    for number, (tail, head) in enumerate(edges, 1):
        if tail != head:
            clauses[tail - 1].append(number)
            clauses[head - 1].append(-number)
    return f"p cnf {len(edges)} {vertices}\n" + "".join(map(clause_line, clauses))


def random_edges(vertices, chance):
    """Each vertex is joined to an earlier one, and further edges may be parallel, or loops."""
    edges = [(chance.randint(1, vertex - 1), vertex) for vertex in range(2, vertices + 1)]
    for _ in range(chance.randint(0, 2 * vertices)):
        edges.append((chance.randint(1, vertices), chance.randint(1, vertices)))
    chance.shuffle(edges)
    return edges


def random_case(chance):
    """The words and the text of a random instance, under a random key."""
    command, size = chance.choice(("formula", "orient", "tree", "make")), chance.choice(SIZES)
    key, height = f"{chance.getrandbits(256):064x}", str(chance.choice(HEIGHTS))
    words = [command, "--key", key, "--height", height]
    if chance.random() < 0.3:
        words += ["--grow", str(chance.choice(HEIGHTS))]
    if command == "make":
        return [*words, "grid", str(size // 4 + 1)], ""
    write = formula_text if command == "formula" else graph_text
    return words, write(size, random_edges(size, chance))


def cases(chance):
    """The worked instances, and then random ones without end."""
    yield from WORKED
    while True:
        yield random_case(chance)


def answer_of(program, words, text):
    ran = subprocess.run([program, *words], input=text, capture_output=True)
    return ran.returncode, ran.stdout


def crews():
    return [["--workers", str(workers), "--board", board] for board in BOARDS for workers in WORKERS]


def without_stages(words):
    """The words that ask for the last height from the start, and so have the same answer."""
    options = dict(zip(words[1::2], words[2::2]))
    if "--grow" in options:
        options["--height"] = options.pop("--grow")
    return [words[0], *itertools.chain.from_iterable(options.items())]


def pops_of(words, alone):
    """How many pops a run has that can be stopped; 0 for any other."""
    is_run = alone[0] in (0, 1) and words[0] != "make" and "--grow" not in words
    return int(alone[1].split()[-1]) if is_run else 0


def resumed_otherwise(program, words, text, alone):
    """Of the run's certificate, which is stopped halfway, the crews that went on to another answer."""
    pops = pops_of(words, alone)
    if pops < 2:
        return []
    _, certificate = answer_of(program, [*words, "--pops", str(pops // 2)], text)
    again = [["resume", *crew] for crew in crews()]
    return [each for each in again if answer_of(program, each, certificate) != alone]


def compare(program, words, text):
    """The status of one worker without stages, and the crews that answered otherwise."""
    alone = answer_of(program, without_stages(words), text)
    asked = [[], *crews()] if "--grow" in words else crews()
    others = [crew for crew in asked if answer_of(program, [*words, *crew], text) != alone]
    return alone[0], others + resumed_otherwise(program, words, text, alone)


def arguments():
    parser = parser_of(__doc__.splitlines()[0])
    parser.add_argument("--runs", type=int, default=10_000, help="how many runs of several workers, at least")
    parser.add_argument("--seed", type=int, default=1)
    return parser.parse_args()


def main():
    asked = arguments()
    runs, wrong, statuses, begun = 0, 0, collections.Counter(), time.monotonic()
    for words, text in cases(random.Random(asked.seed)):
        status, others = compare(asked.program, words, text.encode())
        for crew in others:
            print("DIFFERS:", *words, *crew, repr(text))
        runs, wrong = runs + len(crews()), wrong + len(others)
        statuses[words[0], status] += 1
        if runs >= asked.runs:
            break
    for (command, status), count in sorted(statuses.items()):
        print(f"{command}, status {status}: {count} instances")
    print(f"{runs} runs of several workers, {wrong} differ from one worker, {time.monotonic() - begun:.0f} s")
    sys.exit(1 if wrong else 0)


if __name__ == "__main__":
    main()
