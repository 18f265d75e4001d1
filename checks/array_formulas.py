"""Formulas in arrays: assignments, by popping and by rounds."""
import ctypes
from typing import NamedTuple

from .array_calls import SAMPLES, SIZE, U32, Different, Draw, numbers

# The kinds of refusals that random formulas have.
NO_LITERAL, UNENDED, EMPTY_CLAUSE, CLASHING = 13, 14, 15, 16


class Formula(NamedTuple):
    """A formula by its literals, with a 0 behind each clause."""

    variables: int
    literals: list
    by_rounds: bool

    @property
    def row_len(self):
        """How many numbers a row has."""
        return self.variables

    def clauses(self):
        """The literals of each clause; those after the last 0 are one too."""
        found, clause = [], []
        for literal in self.literals:
            if literal == 0:
                found.append(clause)
                clause = []
            else:
                clause.append(literal)
        return found + ([clause] if clause else [])

    def text(self):
        """The formula as the command line takes it, a clause a line."""
        clauses = self.clauses()
        lines = [f"p cnf {self.variables} {len(clauses)}"]
        lines += [" ".join(str(literal) for literal in [*clause, 0]) for clause in clauses]
        return ("\n".join(lines) + "\n").encode()

    def words(self, draw):
        """The command line of the same samples; of sample 0 alone by rounds."""
        count = [] if self.by_rounds else ["--count", str(draw.first + draw.count)]
        return ["rounds" if self.by_rounds else "formula", "--key", draw.key.hex(), "--height", str(draw.height), *count]

    def rows(self, library, draw, start, budget):
        """The rows of a call with arrays."""
        words = (U32(self.variables), numbers(ctypes.c_int32, self.literals), SIZE(len(self.literals)),
                 U32(self.by_rounds))
        return library.rows("popsample_assignments", words, ctypes.c_uint8, self.row_len, draw, start, budget)

    def row_used(self, rows, j):
        """The cursors of row j."""
        return rows.used[j * self.variables:(j + 1) * self.variables]

    def row_values(self, rows, j):
        """The values of row j."""
        return rows.main[j * self.variables:(j + 1) * self.variables]

    def has_sample(self, rows, j, sample):
        """Whether row j has the assignment of a sample."""
        return [(v + 1) * (1 if value else -1) for v, value in enumerate(self.row_values(rows, j))] == sample.literals

    def check_row(self, rows, j):
        """The clauses that are false in row j, each combination of literals once, are those that are counted."""
        values = self.row_values(rows, j)
        if set(values) - {0, 1}:
            raise Different(f"row {j} has other values than 0 and 1")
        false = {frozenset(clause) for clause in self.clauses()
                 if all(values[abs(literal) - 1] == (literal < 0) for literal in clause)}
        if len(false) != rows.counts[2 * j + 1]:
            raise Different(f"row {j} has {len(false)} clauses that are false")

    def is_refused(self, rows, line):
        """Whether the first line of a text refuses what the arrays are refused for. A text needs no 0 at its end."""
        place = rows.place
        if rows.kind == UNENDED:
            return not line.startswith(("s MALFORMED", "s COUNT", "s LIMIT")) and self.literals[-1] != 0
        return line == {
            NO_LITERAL: f"s MALFORMED {2 + self.literals[:place].count(0)} 3",
            EMPTY_CLAUSE: f"s EMPTY {place}",
            CLASHING: f"s CLASH {place >> 32} {place % 2**32}",
        }.get(rows.kind)


def do_clash(one, other):
    """Whether two clauses share a variable and can both be false."""
    return bool({abs(x) for x in one} & {abs(x) for x in other}) and not {-x for x in one} & set(other)


def random_clause(chance, n):
    """A clause of few variables; now and then a literal comes twice, or with its negation."""
    clause = [v * chance.choice([-1, 1]) for v in chance.sample(range(1, n + 1), min(n, chance.choice([1, 2, 3, 3, 3])))]
    if chance.random() < 0.1:
        clause.append(clause[0] * chance.choice([-1, 1]))
    return clause


def random_formula(chance):
    """A formula of which most by popping are extremal; now and then one is to be refused."""
    n, by_rounds = chance.choice([1, 2, 3, 5, 8, 20, 60]), chance.random() < 0.4
    is_extremal = not by_rounds and chance.random() < 0.85
    clauses = []
    for _ in range(chance.randrange(2 * n + 2)):
        clause = random_clause(chance, n)
        if not (is_extremal and any(do_clash(clause, other) and set(clause) != set(other) for other in clauses)):
            clauses.append(clause)
    if chance.random() < 0.05:
        clauses.insert(chance.randrange(len(clauses) + 1), [])
    literals = [literal for clause in clauses for literal in [*clause, 0]]
    if literals and chance.random() < 0.05:
        literals[chance.randrange(len(literals))] = chance.choice([-1, 1]) * (n + chance.randrange(1, 3))
    if literals and chance.random() < 0.05:
        literals.pop()
    return Formula(n, literals, by_rounds)


def random_draw(chance, formula):
    """Samples 0 to 4, or some of them. Heights are low, since a formula may have no assignment, or few."""
    first = 0 if formula.by_rounds else chance.choice([0, 0, 1, 3])
    return Draw(chance.getrandbits(256).to_bytes(32, "big"), chance.choice([1, 2, 3, 10, 50]), first, SAMPLES - first)
