"""What the front end tells of each refusal: the sentence of docs/FORMATS.md, and the status of the program."""

import unittest

from .checks import file_of, program_of
from .front_calls import FORMATS, by_program, called, example, pattern_of

GRAPH = "p edge 3 3\ne 1 2\ne 2 3\ne 1 3\n"
PATH = "p edge 3 2\ne 1 2\ne 2 3\n"
UNIT = "p cnf 1 1\n1 0\n"
CLASHING = "p cnf 3 2\n1 2 0\n1 3 0\n"
# The words, the input, the status, the first line in docs/FORMATS.md, and what the sentence names.
REFUSED: tuple[tuple[list[str], str, int, str, str], ...] = (
    (["formula", "--height", "0"], UNIT, 2, "`s USAGE", "Argument 3, '0', is not valid"),
    (["tree", "--count", "2", "--log", "on"], GRAPH, 2, "`s USAGE", "Argument 4, '--log', is not valid"),
    (["tree"], "p edge 2 1\ne 1 x\n", 3, "`s MALFORMED", "Line 2 of the input is invalid: a vertex or weight"),
    (["formula"], "p cnf 1 2\n1 0\n", 3, "`s COUNT", "The header declares 2 clauses, but there are 1"),
    (["formula", "--stacks", "0;1"], UNIT, 3, "`s ROWS", "There are 2 rows of entries for 1 variables"),
    (["formula", "--stacks", "0;"], "p cnf 2 0\n", 3, "`s EMPTYROW", "The row of variable 2 is empty"),
    (["formula", "--stacks", "0,2"], UNIT, 3, "`s VALUE", "Entry 1 of variable 1 is out of range"),
    (["check"], "p cnf 4194305 0\n", 4, "`s LIMIT K", "exceeds the limit of 4194304 variables or vertices at line 1"),
    (["formula", "--count", "9"], "p cnf 4194304 0\n", 4, "`s LIMIT 9", "9 samples of this input have more than"),
    (["formula"], CLASHING, 5, "`s CLASH", "Clauses 1 (1 2) and 2 (1 3) share a variable"),
    (["check"], CLASHING, 5, "`s CLASH", "Clauses 1 (1 2) and 2 (1 3) share a variable"),
    (["formula"], "p cnf 1 2\n1 0\n0\n", 6, "`s EMPTY N", "Clause 2 is empty"),
    (["orient"], "p edge 3 1\ne 1 2\n", 6, "`s ISOLATED", "Vertex 3 has no edges"),
    (["tree", "--root", "9"], GRAPH, 6, "`s ROOT", "The root 9 is not a vertex of the graph"),
    (["tree"], "p edge 3 1\ne 1 2\n", 6, "`s CUTOFF", "Vertex 3 is not connected to the root"),
    (["resample", "--stacks", "0,1", "--witness", "1,1"], UNIT, 6, "`witness none", "No pop used entry 1"),
    (["formula", "--stacks", "0,0,1", "--pops", "1"], UNIT, 10, "`cert 1 C`", "Continue it with resume"),
    (["formula", "--stacks", "0,0"], UNIT, 1, "`s EXHAUSTED`", "the first is clause 1. Use a greater height"),
    (["rounds", "--stacks", "0,0"], UNIT, 1, "`s EXHAUSTED`", "the first is clause 1. Use a greater height"),
    (["tree", "--stacks", "1;0"], GRAPH, 1, "`s EXHAUSTED`", "the first is the cycle of 2, 3. Use a greater height"),
    (["orient", "--height", "3"], PATH, 1, "`s EXHAUSTED`", "the first is vertex "),
    (["make", "grid", "2", "--stacks", "1;0;0"], "", 1, "`s EXHAUSTED`", "the first is one of 1 cycles. Use a greater"),
)


@unittest.skipUnless(FORMATS.exists(), "docs/FORMATS.md isn't there")
class Told(unittest.TestCase):
    def test_each_refusal(self):
        for words, text, status, first_line, named in REFUSED:
            with self.subTest(words=words, text=text):
                ended = called(*words, given=text.encode())
                self.assertEqual(ended[:2], by_program(*words, given=text.encode()))
                self.assertEqual(ended.status, status)
                self.assertIn(named, ended.told)
                self.assertRegex(ended.told.splitlines()[0], f"^popsample: {pattern_of(first_line)}$")

    def test_the_line_of_a_batch(self):
        words = ["formula", "--height", "2", "--key", f"{1:064x}", "--count", "3"]
        ended = called(*words, given=UNIT.encode())
        self.assertEqual(ended[:2], by_program(*words, given=UNIT.encode()))
        self.assertRegex(ended.told, f"^popsample: Sample 1: {pattern_of('`s EXHAUSTED`')}\n$")

    def test_a_late_sample_of_a_batch(self):
        words = ["formula", "--height", "13", "--count", "20000"]
        status, output = by_program(*words, given=UNIT.encode())
        first = output.partition(b"\ns EXHAUSTED\n")[0].rpartition(b"sample ")[2].decode()
        ended = called(*words, given=UNIT.encode())
        self.assertEqual((ended.status, ended.output), (1, output))
        self.assertIn(f"Sample {first}: A stack ran out", ended.told)

    def test_the_file_is_named(self):
        with file_of(CLASHING) as path:
            self.assertRegex(called("check", path).told, f"^popsample: {path}: Clauses 1 ")
            self.assertRegex(called("formula", path, "--height", "0").told, "^popsample: Argument 3, ")

    def test_certificates(self):
        for name, command, status, first_line, named in (
            ("illegal.cert", "replay", 11, "`s NOTLEGAL", "Record 2 of the certificate's log"),
            ("roads.col", "resume", 3, "`s MALFORMED", "Line 1 of the certificate is invalid: "),
        ):
            ended = called(command, example(name))
            self.assertEqual(ended.status, status)
            self.assertIn(named, ended.told)
            self.assertRegex(ended.told, f": {pattern_of(first_line)}\n$")

    def test_a_legal_log_is_no_refusal(self):
        ended = called("replay", example("two.cert"))
        self.assertEqual((ended.status, ended.told), (10, ""))

    def test_the_words_of_the_program_are_told(self):
        told = called("formula", "--height", "0", given=UNIT.encode()).told.splitlines()[1]
        self.assertEqual(told, "popsample: The command line of the program is: popsample formula --height 0")

    def test_memory(self):
        with program_of("echo s MEMORY; exit 9"):
            ended = called("make", "grid", "2")
        self.assertEqual((ended.status, ended.output), (9, b"s MEMORY\n"))
        self.assertRegex(ended.told, pattern_of("`s MEMORY`"))


if __name__ == "__main__":
    unittest.main()
