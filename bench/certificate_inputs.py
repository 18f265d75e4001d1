"""Certificates whose logs are known without a run: trees in which two vertices point at one another again and again.

Vertices stand in pairs, of which each has a heavy edge between its two and a light one from the second to the root. So
under a key both point at one another, but for one entry in 2^32, and popping their cycle changes nothing.
"""
HEAVY = 2**32 - 2
GREATEST_HEIGHT = 2**31 - 1
# The bytes of the one record of a pair whose names have two digits, and of one whose names have three.
SHORT, LONG = 19, 22
# As many bytes, and more, are so many short records and so many long ones together.
FILLED = SHORT * LONG
FIRST_SHORT, FIRST_LONG = 10, 100


def digits_below(number):
    """How many digits the numbers below this one have together."""
    count, power = number, 10
    while power < number:
        count += number - power
        power *= 10
    return count


def log_head(records):
    return f"log 2 {records}\n"


def pop_line(layer, vertex, entry):
    """The record of the pair whose first vertex this is."""
    return f"pop {layer} {vertex} {vertex}:{entry} {vertex + 1}:{entry}\n"


def turns_bytes(turns):
    """The bytes of so many records of the first pair."""
    bare = len(pop_line("", 2, ""))
    return bare * turns + digits_below(turns + 1) - 1 + 2 * digits_below(turns)


def most_turns(size):
    """How many records of the first pair have at most so many bytes."""
    least, beyond = 0, size
    while beyond - least > 1:
        middle = (least + beyond) // 2
        least, beyond = (middle, beyond) if turns_bytes(middle) <= size else (least, middle)
    return least


def filling(size):
    """So many short and so many long records that have just so many bytes together."""
    return next(
        ((size - LONG * count) // SHORT, count) for count in range(SHORT) if (size - LONG * count) % SHORT == 0)


def graph_lines(vertices):
    """The pairs up to this vertex."""
    yield f"p edge {vertices} {vertices - 1}\n"
    for vertex in range(2, vertices, 2):
        yield f"e 1 {vertex + 1} 1\n"
        yield f"e {vertex} {vertex + 1} {HEAVY}\n"


def padded_graph(vertices, size):
    """The same with a comment behind it, so that the text has so many bytes; just the same where it has none."""
    text = "".join(graph_lines(vertices))
    return text if size is None else text + "c" * (size - len(text) - 1) + "\n"


class Turning:
    """A certificate in which the first pair turns often, and further pairs once, so that lengths come out as wanted."""

    def __init__(self, turns, firsts, height):
        """So many records of the first pair, and one of each pair that these vertices begin."""
        self.turns, self.firsts, self.height = turns, firsts, height
        self.records = turns + len(firsts)
        self.vertices = max([2, *firsts]) + 1

    def log_lines(self):
        yield log_head(self.records)
        yield pop_line(1, 2, 0)
        for vertex in self.firsts:
            yield pop_line(1, vertex, 0)
        for turn in range(1, self.turns):
            yield pop_line(turn + 1, 2, turn)

    def head(self, size):
        return f"cert 1 tree\nkey {64 * '0'}\nheight {self.height}\nroot 1\ninput {size}\n"

    def lines(self, log_bytes=0, total=None):
        """The text; where it is to have so many bytes, of which the log takes so many, the input is filled up."""
        size = None
        if total is not None:
            # The size has as many digits as the total.
            size = total - log_bytes - len(self.head(total))
        graph = padded_graph(self.vertices, size)
        yield self.head(len(graph))
        yield graph
        yield from self.log_lines()


def open_turning(log_bytes):
    """A certificate whose log has just so many bytes, and whose run goes on."""
    turns = most_turns(log_bytes - len(log_head(log_bytes)) - FILLED)
    # The number of records has as many digits as that of the turns.
    left = log_bytes - len(log_head(turns)) - turns_bytes(turns)
    short, long = filling(left)
    firsts = [FIRST_SHORT + 2 * place for place in range(short)] + [FIRST_LONG + 2 * place for place in range(long)]
    return Turning(turns, firsts, GREATEST_HEIGHT)


def ended_turning(log_bytes):
    """A certificate whose log has as many bytes as these at most, and whose run is at its end, exhausted."""
    turns = most_turns(log_bytes - len(log_head(log_bytes)))
    return Turning(turns, [], turns + 1)
