"""Pictures of trees, where matplotlib is installed, and where their vertices stand."""

import io
import random
import unittest
from unittest import mock

import popsample
from popsample._results.tree_layout import tree_layout

from .checks import ZEROS

try:
    import matplotlib

    matplotlib.use("Agg")
    from matplotlib import pyplot
    from matplotlib.quiver import Quiver
except ImportError:
    matplotlib = None

ROADS = [("Ann", "Bob"), ("Bob", "Cem"), ("Cem", "Ann"), ("Cem", "Dan")]


class Layout(unittest.TestCase):
    def test_places_by_hand(self):
        # The root has two children; the first of them has two leaves, and the second is one.
        places = tree_layout("r", {"a": "r", "b": "r", "c": "a", "d": "a"})
        self.assertEqual(places, {"r": (1.25, 0), "a": (0.5, -1), "c": (0, -2), "d": (1, -2), "b": (2, -1)})
        self.assertEqual(tree_layout("r", {}), {"r": (0, 0)})

    def test_random_trees(self):
        chance = random.Random(501)
        for _ in range(20):
            parents = {vertex: chance.randrange(vertex) for vertex in range(1, chance.randrange(2, 80))}
            places = tree_layout(0, parents)
            self.assertEqual(set(places), {0, *parents})
            self.assertEqual(len(set(places.values())), len(places))
            for child, parent in parents.items():
                self.assertEqual(places[child][1], places[parent][1] - 1)

    def test_a_long_path(self):
        places = tree_layout(0, {vertex: vertex - 1 for vertex in range(1, 50000)})
        self.assertEqual(places[49999], (0, -49999))


class WithoutMatplotlib(unittest.TestCase):
    def test_it_is_asked_for(self):
        tree = popsample.spanning_tree(ROADS, key=ZEROS)
        with mock.patch.dict("sys.modules", {"matplotlib": None}), self.assertRaises(ImportError) as missing:
            tree.draw()
        self.assertIsInstance(missing.exception, popsample.Error)
        self.assertEqual(str(missing.exception), "matplotlib isn't installed, and this needs it. Install it.")


@unittest.skipUnless(matplotlib, "matplotlib isn't installed")
class Pictures(unittest.TestCase):
    def setUp(self):
        self.addCleanup(pyplot.close, "all")
        self.tree = popsample.spanning_tree(ROADS, "Dan", key=ZEROS)

    def arrows(self, axes) -> list:
        """For each arrow that was drawn, where it begins and where it ends."""
        (drawn,) = (artist for artist in axes.get_children() if isinstance(artist, Quiver))
        begins = zip(drawn.X.tolist(), drawn.Y.tolist())
        return [((x, y), (x + u, y + v)) for (x, y), u, v in zip(begins, drawn.U.tolist(), drawn.V.tolist())]

    def test_the_arrows_and_names_are_those_of_the_tree(self):
        axes = self.tree.draw()
        self.assertIs(axes, pyplot.gca())
        names = {text.get_text(): text.get_position() for text in axes.texts}
        self.assertEqual(set(names), {"Ann", "Bob", "Cem", "Dan"})
        wanted = {(names[tail], names[head]) for tail, head in self.tree.parents.items()}
        self.assertEqual(set(self.arrows(axes)), wanted)
        self.assertEqual(names["Dan"][1], max(place[1] for place in names.values()))

    def test_axes_and_places_may_be_handed_in(self):
        axes = pyplot.figure().add_subplot()
        positions = {"Ann": (0, 0), "Bob": (4, 0), "Cem": (4, 3), "Dan": (0, 3)}
        self.assertIs(self.tree.draw(axes, positions=positions), axes)
        self.assertEqual({text.get_text(): text.get_position() for text in axes.texts}, positions)
        with self.assertRaises(KeyError):
            self.tree.draw(axes, positions={"Ann": (0, 0)})

    def test_names_are_left_out_of_large_trees(self):
        tree = popsample.spanning_tree([(place, place + 1) for place in range(100)], key=ZEROS)
        self.assertEqual(len(tree.draw(pyplot.figure().add_subplot()).texts), 0)
        self.assertEqual(len(tree.draw(pyplot.figure().add_subplot(), names=True).texts), 101)

    def test_one_vertex(self):
        tree = popsample.spanning_tree([("alone", "alone")], key=ZEROS)
        self.assertEqual([text.get_text() for text in tree.draw().texts], ["alone"])

    def test_a_file(self):
        written = io.BytesIO()
        self.tree.draw().figure.savefig(written, format="png")
        self.assertTrue(written.getvalue().startswith(b"\x89PNG"))


if __name__ == "__main__":
    unittest.main()
