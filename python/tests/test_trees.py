"""Spanning trees of edge lists and files."""

import importlib.util
import pickle
import random
import unittest
from types import SimpleNamespace

import popsample

from .checks import ZEROS, LikeNumpy, file_of, is_tree_to, reached

TRIANGLE = [("Ann", "Bob"), ("Bob", "Cem"), ("Cem", "Ann")]


def connected_pairs(chance: random.Random, vertices: int) -> list[tuple[int, int]]:
    """The edges of a random connected graph, with loops and parallel edges among them."""
    path = [(chance.randrange(vertex), vertex) for vertex in range(1, vertices)]
    more = [(chance.randrange(vertices), chance.randrange(vertices)) for _ in range(vertices)]
    pairs = path + more
    chance.shuffle(pairs)
    return pairs


class Trees(unittest.TestCase):
    def test_rows_that_were_worked_by_hand(self):
        # Bob begins towards Cem and Cem towards Bob: that cycle is popped, and then both go to Ann.
        tree = popsample.spanning_tree(TRIANGLE, stacks=[[1, 0], [0, 1]])
        self.assertEqual(tree.parents, {"Bob": "Ann", "Cem": "Ann"})
        self.assertEqual((tree.edge_indices, tree.edges), ((0, 2), (("Ann", "Bob"), ("Cem", "Ann"))))
        self.assertEqual((tree.root, tree.used, tree.pops, tree.key), ("Ann", {"Bob": 1, "Cem": 1}, 1, None))

    def test_random_graphs_have_spanning_trees(self):
        chance = random.Random(33)
        for vertices in range(2, 30):
            pairs = connected_pairs(chance, vertices)
            root = chance.randrange(vertices)
            tree = popsample.spanning_tree(pairs, root)
            self.assertTrue(is_tree_to(root, range(vertices), pairs, tree), (root, pairs, tree))

    def test_the_check_sees_what_is_no_tree(self):
        good = popsample.spanning_tree(TRIANGLE, key=ZEROS)
        names = ["Ann", "Bob", "Cem"]
        self.assertTrue(is_tree_to("Ann", names, TRIANGLE, good))
        for arrows in (good.arrows[:1], [("Bob", "Cem", 1), ("Cem", "Bob", 1)], [("Bob", "Ann", 1), ("Cem", "Ann", 2)]):
            other = SimpleNamespace(arrows=[popsample.Arrow(*arrow) for arrow in arrows])
            self.assertFalse(is_tree_to("Ann", names, TRIANGLE, other), arrows)

    def test_names_may_be_of_any_kind(self):
        pairs = [((0, 1), None), (None, "x"), ("x", 2.5)]
        tree = popsample.spanning_tree(pairs, "x")
        self.assertEqual(tree.parents, {(0, 1): None, None: "x", 2.5: "x"})

    def test_a_key_gives_the_same_tree_whatever_the_workers(self):
        pairs = connected_pairs(random.Random(5), 40)
        first = popsample.spanning_tree(pairs)
        again = popsample.spanning_tree(pairs, key=first.key, workers=8)
        self.assertEqual((first, first.used, first.pops), (again, again.used, again.pops))

    def test_heights_that_grow_change_nothing(self):
        pairs = connected_pairs(random.Random(8), 40)
        whole = popsample.spanning_tree(pairs, key=ZEROS, height=4096, log=True)
        for workers in (1, 8):
            grown = popsample.spanning_tree(pairs, key=ZEROS, workers=workers, height=1, grow=4096, log=True)
            self.assertEqual((grown, grown.used, grown.log), (whole, whole.used, whole.log))

    def test_keys_are_drawn_anew(self):
        self.assertEqual(len({popsample.spanning_tree(TRIANGLE).key for _ in range(5)}), 5)

    def test_heavy_edges_are_likelier(self):
        # The light edge has one tree in 2^32 - 2, which none of 20 keys is likely to give.
        edges = [("a", "b", 1), ("a", "b", 2**32 - 3)]
        self.assertEqual({tree.edge_indices[0] for tree in popsample.spanning_trees(edges, 20, key=ZEROS)}, {1})

    def test_weights_may_be_attributes_and_whole_floats(self):
        edges = [("a", "b", {"buses": 1.0}), ("a", "b", {"buses": float(2**32 - 3)})]
        trees = popsample.spanning_trees(edges, 20, weight="buses", key=ZEROS)
        self.assertEqual({tree.edge_indices[0] for tree in trees}, {1})
        self.assertEqual({tree.edge_indices[0] for tree in popsample.spanning_trees(edges, 20, key=ZEROS)}, {0, 1})

    def test_files_name_by_number(self):
        with file_of("c by hand\np edge 3 3\ne 1 2\ne 2 3\ne 3 1\n") as path:
            tree = popsample.spanning_tree(path, root=3, stacks=[[1], [1]])
            self.assertEqual(tree, popsample.spanning_tree(str(path), root=3, stacks=[[1], [1]]))
            self.assertEqual(tree, popsample.spanning_tree(path, root=LikeNumpy(3), stacks=[[1], [1]]))
        self.assertEqual(tree.arrows, (popsample.Arrow(1, 3, 3), popsample.Arrow(2, 3, 2)))
        self.assertEqual((tree.root, tree.used), (3, {1: 0, 2: 0}))

    def test_reached(self):
        self.assertEqual(reached(1, [(1, 2), (3, 2), (4, 5)]), {1, 2, 3})


class Keys(unittest.TestCase):
    def test_derived_keys(self):
        # By sha256sum, of 40 zero bytes, and of 32 zero bytes and the number 3.
        wanted = {
            0: "2c34ce1df23b838c5abf2a7f6437cca3d3067ed509ff25f11df6b11b582b51eb",
            3: "10e4e4e8b82cc8366b15bcdca094e2f874acda862564743ec6f92dbb97045e46",
        }
        self.assertEqual({number: popsample.derived_key(ZEROS, number) for number in wanted}, wanted)

    def test_keys_of_another_form(self):
        for key in ("", "0" * 63, "0" * 66, "g" * 64, " " + "0" * 63, b"0" * 31, 7, None):
            with self.assertRaises(popsample.OptionError, msg=key):
                popsample.derived_key(key, 0)

    def test_numbers_of_another_form(self):
        for number in (-1, 2**64, 1.0, "1", None, True):
            with self.assertRaises(popsample.OptionError, msg=number):
                popsample.derived_key(ZEROS, number)
        self.assertEqual(popsample.derived_key(ZEROS, LikeNumpy(3)), popsample.derived_key(ZEROS, 3))

    def test_a_key_is_text_in_small_letters(self):
        for key in ("AB" * 32, "ab" * 32, b"\xab" * 32, bytearray(b"\xab" * 32)):
            self.assertEqual(popsample.spanning_tree(TRIANGLE, key=key).key, "ab" * 32)
        key = popsample.Key("AB" * 32)
        self.assertEqual((key.bytes, popsample.Key(key)), (b"\xab" * 32, key))
        self.assertEqual(key.spawn(3), [popsample.derived_key(key, number) for number in range(3)])
        self.assertEqual(pickle.loads(pickle.dumps(key)), key)
        self.assertIsInstance(popsample.spanning_tree(TRIANGLE).key, popsample.Key)

    def test_seeds_of_each_kind(self):
        # By sha256sum, of the text "popsample seed 42".
        wanted = "a4e4d65abfb20da55efeb3b803172d7922166ee8fdf470e9a6d573ac07038eb8"
        self.assertEqual((popsample.seed_key(42), popsample.seed_key(LikeNumpy(42))), (wanted, wanted))
        self.assertEqual(popsample.seed_key(b"\x01" * 32), "01" * 32)
        drawn = bytes(random.Random(3).randrange(256) for _ in range(1))
        self.assertEqual(popsample.seed_key(random.Random(3)).bytes[:1], drawn)
        chance = random.Random(3)
        self.assertNotEqual(popsample.seed_key(chance), popsample.seed_key(chance))
        self.assertEqual(popsample.seed_key(10**4299), popsample.seed_key(10**4299))
        for seed in (10**5000, -1, 1.5, "7", b"7", True, None):
            with self.assertRaises(popsample.OptionError):
                popsample.seed_key(seed)

    @unittest.skipUnless(importlib.util.find_spec("numpy"), "numpy isn't installed")
    def test_seeds_of_numpy(self):
        import numpy

        makers = (numpy.random.default_rng, numpy.random.RandomState, numpy.random.SeedSequence)
        keys = [popsample.spanning_tree(TRIANGLE, seed=made(5)).key for made in makers]
        self.assertEqual(keys, [popsample.seed_key(made(5)) for made in makers])
        self.assertEqual(len(set(keys)), 3)
        self.assertEqual(popsample.seed_key(numpy.int64(42)), popsample.seed_key(42))

    def test_drawn_keys(self):
        keys = {popsample.draw_key() for _ in range(10)}
        self.assertEqual((len(keys), {len(bytes.fromhex(key)) for key in keys}), (10, {32}))


if __name__ == "__main__":
    unittest.main()
