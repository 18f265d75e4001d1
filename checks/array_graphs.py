"""Graphs in arrays: trees and orientations."""
import ctypes
from typing import NamedTuple, Optional

from .array_calls import SAMPLES, SIZE, U32, Different, Draw, numbers

NONE = 2**32 - 1

# The kinds of refusals that random graphs have: what the text says at a place of the arrays.
NO_VERTEX, NO_WEIGHT, NO_ROOT, CUT_OFF, HEAVY, ISOLATED = 5, 6, 7, 8, 9, 10


class Graph(NamedTuple):
    """A graph whose vertices count from 0, with a root, or None where it is to be oriented."""

    vertices: int
    edges: list
    weights: Optional[list]
    root: Optional[int]

    @property
    def row_len(self):
        """How many numbers a row has."""
        return self.vertices if self.root is not None else len(self.edges)

    def text(self):
        """The graph as the command line takes it."""
        lines = [f"p edge {self.vertices} {len(self.edges)}"]
        for i, (u, v) in enumerate(self.edges):
            lines.append(f"e {u + 1} {v + 1}" + (f" {self.weights[i]}" if self.weights else ""))
        return ("\n".join(lines) + "\n").encode()

    def words(self, draw):
        """The command line of the same samples."""
        words = ["orient"] if self.root is None else ["tree", "--root", str(self.root + 1)]
        return [*words, "--key", draw.key.hex(), "--height", str(draw.height), "--count", str(draw.first + draw.count)]

    def rows(self, library, draw, start, budget):
        """The rows of a call with arrays."""
        ends = [end for edge in self.edges for end in edge]
        words = (U32(self.vertices), numbers(U32, ends), SIZE(len(ends)))
        if self.root is None:
            return library.rows("popsample_orientations", words, ctypes.c_uint8, self.row_len, draw, start, budget)
        weights = self.weights or []
        words += (numbers(U32, weights), SIZE(len(weights)), U32(self.root))
        return library.rows("popsample_trees", words, U32, self.row_len, draw, start, budget, has_edges=True)

    def row_arrows(self, rows, j):
        """The arrows of row j, as the text has them: their tail, head and edge."""
        if self.root is None:
            ways = rows.main[j * len(self.edges):]
            return [(v + 1, u + 1, i + 1) if ways[i] else (u + 1, v + 1, i + 1)
                    for i, (u, v) in enumerate(self.edges)]
        at = j * self.vertices
        return [(w + 1, rows.main[at + w] + 1, rows.edges[at + w] + 1)
                for w in range(self.vertices) if w != self.root]

    def row_used(self, rows, j):
        """The cursors of row j, as the text has them."""
        if self.root is None:
            return rows.used[j * len(self.edges):(j + 1) * len(self.edges)]
        at = j * self.vertices
        if rows.used[at + self.root] != 0 or rows.main[at + self.root] != NONE or rows.edges[at + self.root] != NONE:
            raise Different("the root has an arrow")
        return [rows.used[at + w] for w in range(self.vertices) if w != self.root]

    def has_sample(self, rows, j, sample):
        """Whether row j has the arrows of a sample."""
        return self.row_arrows(rows, j) == sample.arrows

    def check_row(self, rows, j):
        """Each row is compared with its text, so nothing else is asked of it."""

    def is_refused(self, rows, line):
        """Whether the first line of a text refuses what the arrays are refused for."""
        place = rows.place
        if rows.kind == NO_VERTEX:
            # All ends are looked at before the weights, and a text is looked at line by line.
            zeros = [i for i, weight in enumerate(self.weights or []) if weight == 0 and i < place // 2]
            return line in ([f"s MALFORMED {2 + i} 14" for i in zeros[:1]] or [f"s MALFORMED {2 + place // 2} 13"])
        return line == {
            NO_WEIGHT: f"s MALFORMED {2 + place} 14",
            NO_ROOT: f"s ROOT {(self.root or 0) + 1}",
            CUT_OFF: f"s CUTOFF {place + 1}",
            HEAVY: f"s LIMIT 6 {place + 1}",
            ISOLATED: f"s ISOLATED {place + 1}",
        }.get(rows.kind)


def random_graph(chance):
    """A graph with loops and parallel edges, whose weights may be large; now and then it is to be refused."""
    n = chance.choice([1, 2, 3, 5, 8, 20, 60])
    is_tree = chance.random() < 0.6
    edges = [(chance.randrange(v), v) for v in range(1, n)] if chance.random() < 0.85 else []
    edges += [(chance.randrange(n), chance.randrange(n)) for _ in range(chance.randrange(4 * n + 1))]
    chance.shuffle(edges)
    weights = None
    if is_tree and edges and chance.random() < 0.6:
        most = 2**31 if chance.random() < 0.15 else 1000
        weights = [chance.randrange(1, most) for _ in edges]
        if chance.random() < 0.1:
            weights[chance.randrange(len(weights))] = 0
    if edges and chance.random() < 0.05:
        edges[chance.randrange(len(edges))] = (n, 0)
    root = chance.randrange(n + (chance.random() < 0.05)) if is_tree else None
    return Graph(n, edges, weights, root)


def random_draw(chance, graph):
    """Samples 0 to 4, or some of them. A forest has no orientation without sinks, so there stacks have to run out."""
    first = chance.choice([0, 0, 1, 3])
    height = chance.choice([1, 2, 3, 10, 100] if graph.root is None else [1, 2, 3, 10, 4096, 2**31 - 1])
    return Draw(chance.getrandbits(256).to_bytes(32, "big"), height, first, SAMPLES - first)
