"""Certificates that are replayed."""

from __future__ import annotations

from worked.answers import Worked, answer

# The certificate of a run that stopped after one pop, worked by hand: the one clause `1` over the entries 0, 0, 1.
TEXT = "cert 1 formula\nstacks 0,0,1\ninput 14\np cnf 1 1\n1 0\nlog 2 1\npop 1 1 1:0\n"

# Worked by hand from the definitions.
LEGAL = [
    ("replay", "cert 1 formula\nstacks 0,0,1\ninput 14\np cnf 1 1\n1 0\nlog 2 1\npop 1 1 1:0\n", 10,
     "s LEGAL 1\nused 1\nend open\n"),
    ("replay", "cert 1 formula\nstacks 0,0,1\ninput 14\np cnf 1 1\n1 0\nlog 2 0\n", 10,
     "s LEGAL 0\nused 0\nend open\n"),
    # a log in the order of its pops
    ("replay", "cert 1 formula\nstacks 0,0,1\ninput 14\np cnf 1 1\n1 0\nlog 1 1\npop 1 1:0\n", 10,
     "s LEGAL 1\nused 1\nend open\n"),
    ("replay", "cert 1 formula\nstacks 0,0,1\ninput 14\np cnf 1 1\n1 0\nlog 2 2\npop 1 1 1:0\npop 2 1 1:1\n", 0,
     "s LEGAL 2\nused 2\nend sample\n"),
    # the clause is false after one pop, and its variable has no next entry
    ("replay", "cert 1 formula\nstacks 0,0\ninput 14\np cnf 1 1\n1 0\nlog 2 1\npop 1 1 1:0\n", 1,
     "s LEGAL 1\nused 1\nend exhausted\n"),
    ("replay", "cert 1 formula\nstacks\ninput 10\np cnf 0 0\nlog 2 0\n", 0, "s LEGAL 0\nused\nend sample\n"),
    # the input needs no line end
    ("replay", "cert 1 resample\nstacks 0,0,1\ninput 15\nc\np cnf 1 1\n1 0log 2 1\npop 1 1 1:0\n", 10,
     "s LEGAL 1\nused 1\nend open\n"),
    ("replay",
     "cert 1 tree\nstacks 0,0,1;0,0,1\nroot 1\ninput 29\np edge 3 3\ne 2 3\ne 2 1\ne 3 1\nlog 2 1\n"
     "pop 1 2 2:0 3:0\n", 10,
     "s LEGAL 1\nused 1 1\nend open\n"),
    ("replay", "cert 1 orient\nstacks 0,1,0\ninput 17\np edge 2 1\ne 1 2\nlog 2 1\npop 1 2 1:0\n", 10,
     "s LEGAL 1\nused 1\nend open\n"),
]

# Certificates that are refused, with the status and the line.
REFUSED = [
    ("", 3, "s MALFORMED 1 21\n"),
    ("cert 2 formula\nstacks 0,0,1\ninput 14\np cnf 1 1\n1 0\nlog 2 1\npop 1 1 1:0\n", 3, "s MALFORMED 1 21\n"),
    ("cert 1 formula\nstacks 0,0,1\ninput 14\np cnf 1 1", 3, "s MALFORMED 3 22\n"),
    # lines of the input count from its first
    ("cert 1 formula\nstacks 0,0,1\ninput 14\np cnf 1 1\n2 0\nlog 2 0\n", 3, "s MALFORMED 2 3\n"),
    ("cert 1 formula\nstacks 0,0,1\ninput 14\np cnf 1 2\n1 0\nlog 2 0\n", 3, "s COUNT 2 1\n"),
    ("cert 1 formula\nstacks 0\ninput 12\np cnf 1 1\n0\nlog 2 0\n", 6, "s EMPTY 1\n"),
    ("cert 1 formula\nstacks 0,2\ninput 14\np cnf 1 1\n1 0\nlog 2 0\n", 3, "s VALUE 1 1\n"),
    ("cert 1 formula\nstacks 0;0\ninput 20\np cnf 2 2\n1 0\n1 2 0\nlog 2 0\n", 5, "s CLASH 1 2\n"),
    ("cert 1 orient\nstacks\ninput 11\np edge 1 0\nlog 2 0\n", 6, "s ISOLATED 1\n"),
    ("cert 1 tree\nstacks 0\nroot 3\ninput 17\np edge 2 1\ne 1 2\nlog 2 0\n", 6, "s ROOT 3\n"),
    ("cert 1 tree\nstacks 0;0\nroot 1\ninput 17\np edge 3 1\ne 1 2\nlog 2 0\n", 6, "s CUTOFF 3\n"),
    # lines of the log text count from its first
    ("cert 1 formula\nstacks 0,0,1\ninput 14\np cnf 1 1\n1 0\n", 3, "s MALFORMED 1 31\n"),
    ("cert 1 formula\nstacks 0,0,1\ninput 14\np cnf 1 1\n1 0\nlog 2 2\npop 1 1 1:0\n", 3, "s MALFORMED 3 31\n"),
    ("cert 1 formula\nstacks 0,0,1\ninput 14\np cnf 1 1\n1 0\nlog 2 1\npop 1 1 2:0\n", 3, "s MALFORMED 2 31\n"),
    ("cert 1 formula\nstacks 0,0,1\ninput 14\np cnf 1 1\n1 0\nlog 2 1\npop 1 1 1:1\n", 11, "s NOTLEGAL 1\n"),
    # the variable has no entry behind the last
    ("cert 1 formula\nstacks 0,0\ninput 14\np cnf 1 1\n1 0\nlog 1 2\npop 1 1:0\npop 1 1:1\n", 11, "s NOTLEGAL 2\n"),
    ("cert 1 formula\nstacks 0,0,1\ninput 14\np cnf 1 1\n1 0\nlog 2 1\npop 2 1 1:0\n", 3, "s MALFORMED 2 32\n"),
    ("cert 1 formula\nstacks 0,1;0,1\ninput 18\np cnf 2 2\n1 0\n2 0\nlog 2 2\npop 1 2 2:0\npop 1 1 1:0\n", 3,
     "s MALFORMED 3 32\n"),
    # what is judged first is told first
    ("cert 1 formula\nstacks 0,2\ninput 14\np cnf 1 1\n1 0\nlog\n", 3, "s VALUE 1 1\n"),
]


def cut_line(length: int) -> str:
    """How the first bytes of the certificate are refused: the lines of its head end behind the bytes 15, 28 and 37, its
    input behind byte 51, and the lines of its log text behind 59 and 71.
    """
    ends = [(15, "1 21"), (28, "2 21"), (37, "3 21"), (51, "3 22"), (59, "1 31"), (71, "2 31")]
    return next(f"s MALFORMED {line}\n" for end, line in ends if length < end)


def changed_answer(place: int, byte: str) -> tuple[int, str]:
    """How the certificate is refused with another byte of ASCII at a place of its log text, worked by hand: 55 says the
    version, 57 the number of records, 63 the layer, and 69 the entry.
    """
    if place == 69 and byte in "123456789":
        return 11, "s NOTLEGAL 1\n"
    if place == 57 and byte in "23456789":
        return 3, "s MALFORMED 3 31\n"
    if place == 63 and byte in "23456789":
        return 3, "s MALFORMED 2 32\n"
    if place > 58 or (place, byte) in ((55, "1"), (57, "0")):
        return 3, "s MALFORMED 2 31\n"
    return 3, "s MALFORMED 1 31\n"


class Replays(Worked):
    """How far a certificate leads, or its first refusal."""

    def test_a_legal_log_is_replayed(self) -> None:
        self.are_answered(LEGAL)

    def test_the_first_fault_of_a_certificate_is_named(self) -> None:
        for command in ("replay", "resume"):
            self.are_answered((command, *row) for row in REFUSED)

    def test_each_cut_is_refused_at_its_line(self) -> None:
        self.are_answered(("replay", TEXT[:length], 3, cut_line(length)) for length in range(71))

    def test_each_changed_byte_of_a_log_is_refused(self) -> None:
        """Each other byte of ASCII at each place of the log text."""
        for place in range(51, 71):
            for byte in map(chr, range(128)):
                if byte != TEXT[place]:
                    changed = TEXT[:place] + byte + TEXT[place + 1:]
                    self.assertEqual(answer("replay", changed), changed_answer(place, byte), f"{byte!r} at {place}")
