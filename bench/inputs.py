"""The texts that are measured: graphs and formulas, piece by piece. Each has a fixed seed, so that each run is on the
same texts."""
import itertools
import os
import random
import sys
import traceback

# Lines are joined to pieces of so many before they are written.
PIECE = 4096


def pieces_of(lines):
    lines = iter(lines)
    while True:
        piece = "".join(itertools.islice(lines, PIECE))
        if not piece:
            return
        yield piece


def write_all(path, lines):
    with open(path, "w", encoding="ascii") as text:
        for piece in pieces_of(lines):
            text.write(piece)


def write_apart(path, lines):
    """Writes lines in a process of its own: the one that measures must stay small, since Linux counts its memory into
    the peaks of the programs that it starts."""
    child = os.fork()
    if child == 0:
        try:
            write_all(path, lines)
            os._exit(0)
        except BaseException:
            traceback.print_exc()
            os._exit(1)
    _, ended = os.waitpid(child, 0)
    if ended != 0:
        sys.exit("the text could not be written")


def edge_line(edge):
    return f"e {edge[0]} {edge[1]}\n"


def weighted_line(edge, weight):
    return f"e {edge[0]} {edge[1]} {weight}\n"


def grid_edges(side):
    for row in range(side):
        for vertex in range(row * side + 1, row * side + side):
            yield vertex, vertex + 1
        if row + 1 < side:
            for vertex in range(row * side + 1, row * side + side + 1):
                yield vertex, vertex + side


def grid(side):
    """The square grid of side * side vertices."""
    yield f"p edge {side * side} {2 * side * (side - 1)}\n"
    yield from map(edge_line, grid_edges(side))


def torus(side):
    """The square grid with its opposite sides joined: 4 edges at each vertex."""
    yield f"p edge {side * side} {2 * side * side}\n"
    for row in range(side):
        for column in range(side):
            here = row * side + column + 1
            yield edge_line((here, row * side + (column + 1) % side + 1))
            yield edge_line((here, (row + 1) % side * side + column + 1))


def round_trip(vertices, chance):
    """The edges of a cycle through all vertices in a random order."""
    order = list(range(1, vertices + 1))
    chance.shuffle(order)
    return zip(order, order[1:] + order[:1])


def regular_edges(vertices, chance):
    """The edges of two such cycles, in a random order: 4 at each vertex, and the graph hangs together."""
    edges = [*round_trip(vertices, chance), *round_trip(vertices, chance)]
    chance.shuffle(edges)
    return edges


def regular(edges):
    """A random graph with 4 edges at each vertex."""
    vertices = edges // 2
    yield f"p edge {vertices} {edges}\n"
    yield from map(edge_line, regular_edges(vertices, random.Random(1)))


def weighted(edges):
    """A random graph with 4 edges at each vertex, of weights from 1 to 100."""
    vertices, chance = edges // 2, random.Random(2)
    yield f"p edge {vertices} {edges}\n"
    for edge in regular_edges(vertices, chance):
        yield weighted_line(edge, chance.randrange(1, 101))


def hubs(edges):
    """A graph of preferential attachment: each vertex is joined to two earlier ones, by chance in the measure of their
    edges, so that a few get very many (Barabasi and Albert 1999)."""
    vertices, chance = edges // 2 + 1, random.Random(3)
    yield f"p edge {vertices} {edges}\n"
    # Each vertex stands here once for each end of an edge at it.
    ends = [1]
    for vertex in range(2, vertices + 1):
        for other in (chance.choice(ends), chance.choice(ends)):
            yield edge_line((vertex, other))
            ends += (vertex, other)


def clause_line(literals):
    return " ".join(map(str, literals)) + " 0\n"


def chain_lines(clauses):
    for place in range(1, 2 * clauses, 2):
        yield f"{place} {place + 1} -{place + 2} 0\n"


def chain(clauses):
    """Clauses of three literals in a row: the last variable of each is the first of the next, with the other sign."""
    yield f"p cnf {2 * clauses + 1} {clauses}\n"
    yield from chain_lines(clauses)


def twice(clauses):
    """Random clauses of three literals, in which each variable stands once with either sign. The number of clauses is
    even."""
    variables = 3 * clauses // 2
    literals = [*range(1, variables + 1), *range(-variables, 0)]
    random.Random(4).shuffle(literals)
    yield f"p cnf {variables} {clauses}\n"
    for place in range(0, len(literals), 3):
        yield clause_line(literals[place:place + 3])


def with_signs(variables, signs):
    """Literals of the variables up to this one, negated where the number has a bit."""
    return [-v if signs >> v - 1 & 1 else v for v in range(1, variables + 1)]


def dense(clauses):
    """All clauses over a few variables but one, so that each pair of them shares all its variables. The number of
    clauses is a power of two less 1."""
    variables = clauses.bit_length()
    yield f"p cnf {variables} {clauses}\n"
    for signs in range(clauses):
        yield clause_line(with_signs(variables, signs))
