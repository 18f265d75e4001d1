"""The scripts that draw, which stand beside this folder in the repository."""

import importlib.util
import os
import subprocess
import sys
import tempfile
import unittest
from pathlib import Path
from unittest import mock
from xml.etree import ElementTree

from .checks import ZEROS

TOP = Path(__file__).resolve().parents[2]
SVG = "{http://www.w3.org/2000/svg}"
# The scripts, and how many files each reads.
SCRIPTS = {
    "draw.py": 2,
    "draw_layers.py": 1,
    "draw_networkx.py": 0,
    "draw_orientation.py": 2,
    "from_edges.py": 1,
    "grid.py": 0,
    "null_model.py": 1,
    "test_inputs.py": 1,
}


def drawn(name: str, *words: str) -> subprocess.CompletedProcess:
    """What a script of the examples prints."""
    named = {**os.environ, "PYTHONPATH": str(TOP / "python")}
    return subprocess.run([sys.executable, TOP / "examples" / name, *words], capture_output=True, text=True, env=named)


@unittest.skipUnless((TOP / "examples").exists(), "there are no examples")
class Drawings(unittest.TestCase):
    def setUp(self):
        folder = tempfile.TemporaryDirectory()
        self.addCleanup(folder.cleanup)
        self.folder = Path(folder.name)

    def printed(self, name: str) -> str:
        """A file with what a case of the examples prints: the lines between its command and its status."""
        lines = (TOP / "examples" / "cases" / f"{name}.case").read_text().splitlines(True)
        path = self.folder / f"{name}.out"
        path.write_text("".join(lines[1:-1]))
        return str(path)

    def test_each_script_tells_its_options(self):
        for name in SCRIPTS:
            ran = drawn(name, "--help")
            self.assertEqual((ran.returncode, ran.stderr), (0, ""), name)
            self.assertTrue(ran.stdout.startswith(f"usage: {name} "))

    def test_what_can_not_be_done_is_told_in_a_line(self):
        nowhere, advice = str(self.folder / "nothing"), str(TOP / "examples" / "advice.txt")
        missing = [[name] + [nowhere] * files for name, files in SCRIPTS.items() if files]
        for words in (*missing, ["null_model.py", advice, "--program", nowhere], ["from_edges.py", __file__]):
            ran = drawn(*words)
            self.assertEqual((ran.returncode, ran.stdout, ran.stderr.count("\n")), (1, "", 1), words)
            self.assertTrue(ran.stderr.startswith(f"{words[0]}: "))
        for words in (["grid.py", "0"], ["null_model.py", advice, "--key", "12"], ["test_inputs.py", "--samples", "0"]):
            ran = drawn(*words)
            self.assertEqual((ran.returncode, ran.stdout), (2, ""), words)
            self.assertIn(" value: ", ran.stderr)

    def test_a_program_that_is_missing(self):
        with mock.patch.dict(os.environ, {"PATH": str(self.folder)}):
            for name, file in (("null_model.py", "advice.txt"), ("test_inputs.py", "options.cnf")):
                ran = drawn(name, str(TOP / "examples" / file))
                self.assertEqual((ran.returncode, ran.stdout), (1, ""), name)
                self.assertRegex(ran.stderr, f"^{name}: the program 'popsample' can't be run .* after --program")

    @unittest.skipUnless(importlib.util.find_spec("networkx"), "networkx isn't installed")
    def test_a_tree_of_a_graph_of_networkx(self):
        picture = ElementTree.fromstring(drawn("draw_networkx.py", ZEROS).stdout)
        self.assertEqual(picture.find(f"{SVG}title").text, ZEROS)
        # The graph has 15 families: so many dots and names, and one line less, on the paths that have a colour.
        self.assertEqual([len(list(picture.iter(SVG + kind))) for kind in ("circle", "text")], [15, 15])
        lines = picture.find(f"{SVG}g").iter(f"{SVG}path")
        self.assertEqual(sum(path.get("d").count("M") for path in lines), 14)

    @unittest.skipUnless(importlib.util.find_spec("networkx"), "networkx isn't installed")
    def test_a_key_of_another_form(self):
        ran = drawn("draw_networkx.py", "12")
        self.assertEqual((ran.returncode, ran.stdout), (1, ""))
        self.assertIn("`key` must be 32 bytes or a string of 64 hexadecimal digits", ran.stderr)

    def test_an_orientation(self):
        ran = drawn("draw_orientation.py", str(TOP / "examples" / "petersen.col"), self.printed("petersen-orient"))
        picture = ElementTree.fromstring(ran.stdout)
        self.assertEqual(sum(path.get("d").count("M") for path in picture.iter(f"{SVG}path")), 15)

    def test_what_is_no_orientation(self):
        ran = drawn("draw_orientation.py", str(TOP / "examples" / "path.col"), self.printed("path-orient"))
        self.assertEqual((ran.returncode, ran.stdout), (1, ""))
        self.assertIn("doesn't begin with 's SAMPLE'", ran.stderr)

    def test_a_layered_log(self):
        ran = drawn("draw_layers.py", self.printed("roads-log"))
        picture = ElementTree.fromstring(ran.stdout)
        dots = [(circle.get("cx"), circle.get("cy")) for circle in picture.iter(f"{SVG}circle")]
        words = [text.text for text in picture.iter(f"{SVG}text")]
        # Four pops at five vertices, two of them beside one another in the first layer.
        self.assertEqual((len(dots), len({x for x, _ in dots}), len({y for _, y in dots})), (8, 5, 3))
        self.assertEqual(words[:5], ["3", "4", "5", "7", "8"])
        self.assertEqual(sorted(words[5:]), sorted(["1", "2", "3"] + ["3", "7", "4", "4"] + list("00001021")))

    def test_what_has_no_layered_log(self):
        ran = drawn("draw_layers.py", self.printed("roads-tree"))
        self.assertEqual((ran.returncode, ran.stdout), (1, ""))
        self.assertIn("has no log", ran.stderr)


if __name__ == "__main__":
    unittest.main()
