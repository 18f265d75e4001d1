"""Assignments of formulas."""

import random
import unittest
from collections.abc import Mapping

import popsample

from .checks import ZEROS, extremal_solution, file_of, rounds_solution, satisfies

# Each variable stands in two clauses, with either sign, so the formula is extremal.
RING = [[1, 2, -3], [3, 4, -5], [5, 6, -1]]
# Neighbours in a row of masts send on different channels: both channels of a pair of masts are forbidden.
CHANNELS = [[1, 2], [-1, -2], [2, 3], [-2, -3]]


def extremal_clauses(chance: random.Random, clauses: int) -> list[list[int]]:
    """A random formula in whose clauses each variable stands twice, with either sign, in different clauses."""
    places: list[list[int]] = [[] for _ in range(clauses)]
    for variable in range(1, 2 * clauses):
        first, second = chance.sample(range(clauses), 2)
        places[first].append(variable)
        places[second].append(-variable)
    return [clause for clause in places if len(clause) > 2]


class Formulas(unittest.TestCase):
    def test_rows_that_were_worked_by_hand(self):
        assignment = extremal_solution([[1, 2], [-1, 2]], stacks=[[0, 1], [0, 1]])
        self.assertEqual((assignment.literals, assignment.used, assignment.pops), ((1, 2), {1: 1, 2: 1}, 1))
        self.assertIsNone(assignment.key)
        self.assertTrue(assignment[1] and assignment[2])

    def test_random_formulas_are_satisfied(self):
        chance = random.Random(11)
        for size in range(3, 25):
            clauses = extremal_clauses(chance, size)
            assignment = extremal_solution(clauses)
            self.assertTrue(satisfies(clauses, assignment.literals), (clauses, assignment))

    def test_the_check_sees_what_satisfies_not(self):
        self.assertTrue(satisfies([[1, -2]], (-1, -2)))
        self.assertFalse(satisfies([[1, -2]], (-1, 2)))
        self.assertFalse(satisfies([[1]], (1, -1)))

    def test_values_are_those_of_the_literals(self):
        assignment = extremal_solution(RING)
        for variable in range(1, 7):
            self.assertEqual(assignment[variable], variable in assignment.literals)
        for variable in (0, -1, 7):
            with self.assertRaises(KeyError):
                assignment[variable]

    def test_a_key_gives_the_same_assignment_whatever_the_workers(self):
        first = extremal_solution(RING)
        self.assertEqual(first, extremal_solution(RING, first.key, workers=8))

    def test_heights_that_grow_worked_by_hand(self):
        # Under this key the entries of the variable are 1, 0, ..: it is popped once, if there is a next entry.
        grown = extremal_solution([[-1]], ZEROS, height=1, grow=8)
        self.assertEqual((grown.literals, grown.used, grown.pops), ((-1,), {1: 1}, 1))
        with self.assertRaises(popsample.ExhaustedError) as caught:
            extremal_solution([[-1]], ZEROS, height=5, grow=1)
        self.assertEqual((caught.exception.stuck, caught.exception.used), ((1,), (0,)))

    def test_heights_that_grow_change_nothing(self):
        for workers in (1, 4):
            grown = extremal_solution(RING, ZEROS, workers=workers, height=1, grow=64)
            self.assertEqual(grown, extremal_solution(RING, ZEROS, height=64))

    def test_files(self):
        with file_of("c by hand\np cnf 2 2\n1 2 0\n-1 2 0\n") as path:
            self.assertEqual(extremal_solution(path, stacks=[[1], [1]]).literals, (1, 2))
            self.assertTrue(popsample.is_extremal(str(path)))

    def test_what_is_no_literal(self):
        for value, kind in ((0, ValueError), (True, TypeError), (1.0, TypeError), ("1", TypeError)):
            with self.assertRaises(kind, msg=repr(value)):
                extremal_solution([[value]])

    def test_no_clause(self):
        self.assertEqual(extremal_solution([]).literals, ())

    def test_extremal_formulas(self):
        # The first two clauses are one event, and the third is never false.
        self.assertIsNone(popsample.find_clash([[1, 2], [2, 1], [1, -1]]))
        self.assertIs(popsample.is_extremal([[1, 2], [2, 1], [1, -1]]), True)
        self.assertEqual(popsample.find_clash(CHANNELS), (1, 3))
        self.assertEqual(popsample.find_clash([[3], [1, 2], [-1, 4], [2, 5]]), (2, 4))
        self.assertIs(popsample.is_extremal([[1], [1, 2]]), False)

    def test_an_assignment_is_a_mapping(self):
        found = popsample.solution([[1], [-2]])
        self.assertIsInstance(found, Mapping)
        self.assertEqual((list(found), len(found), dict(found)), ([1, 2], 2, {1: True, 2: False}))
        self.assertTrue(1 in found and 3 not in found and "1" not in found)
        self.assertEqual((found, found.get(7)), ({1: True, 2: False}, None))
        for name in ("1", 1.0, True, None, 0):
            with self.assertRaises(KeyError, msg=name):
                found[name]
        self.assertEqual((found.rounds is None, found.pops), (False, None))

    def test_methods(self):
        for wrong in ("round", None, 5):
            with self.assertRaises(popsample.OptionError):
                popsample.solution([[1]], wrong)
        with self.assertRaises(popsample.ClashError):
            popsample.solution([[1, 2], [1, 3]], "extremal")
        with self.assertRaises(TypeError) as unknown:
            popsample.solution([[1]], log=True)
        self.assertIn("solution() got an unexpected keyword argument 'log'", str(unknown.exception))


class Resampling(unittest.TestCase):
    def test_rows_that_were_worked_by_hand(self):
        told = popsample.resample([[1]], stacks=[[0, 0, 1]], witness=(1, 1), reports=["heights", "totals"])
        self.assertEqual((told.literals, told.used, told.pops), ((1,), {1: 2}, 2))
        self.assertEqual(told.log, (popsample.Pop(1, {1: 0}, 1), popsample.Pop(1, {1: 1}, 2)))
        vertices = (popsample.WitnessVertex(0, 1, {1: 0}), popsample.WitnessVertex(1, 1, {1: 0}))
        self.assertEqual((told.witness, told.totals, told.heights), (vertices, popsample.Totals(2, 2, 1), (1, 1)))

    def test_what_was_not_asked_for_is_none(self):
        told = popsample.resample([[1]], stacks=[[1]])
        self.assertEqual((told.log, told.witness, told.totals, told.heights), ((), None, None, None))

    def test_formulas_that_clash_are_satisfied(self):
        for workers in (1, 4):
            told = popsample.resample(CHANNELS, workers=workers)
            self.assertTrue(satisfies(CHANNELS, told.literals), told)
            self.assertEqual(told.pops, len(told.log))

    def test_the_log_tells_what_was_used(self):
        told = popsample.resample(CHANNELS, ZEROS)
        used = dict.fromkeys((1, 2, 3), 0)
        for pop in told.log:
            self.assertEqual(list(pop.entries), sorted(abs(literal) for literal in CHANNELS[pop.event - 1]))
            for variable, entry in pop.entries.items():
                self.assertEqual(entry, used[variable])
                used[variable] += 1
        self.assertEqual(told.used, used)

    def test_heights_that_grow(self):
        for workers in (1, 4):
            told = popsample.resample(CHANNELS, workers=workers, height=1, grow=2**20)
            self.assertTrue(satisfies(CHANNELS, told.literals), told)
            self.assertEqual(told.pops, len(told.log))

    def test_one_worker_gives_the_same_again(self):
        first = popsample.resample(CHANNELS)
        self.assertEqual(first, popsample.resample(CHANNELS, first.key))


class Rounds(unittest.TestCase):
    def test_rows_that_were_worked_by_hand(self):
        # The second event agrees at variable 2, and joins; in the second formula it differs there, and is excluded.
        told = rounds_solution([[1, 2], [2, 3]], stacks=[[0, 1], [0, 0], [1, 1]])
        self.assertEqual((told.literals, told.used, told.rounds), ((1, -2, 3), {1: 1, 2: 1, 3: 1}, 1))
        told = rounds_solution([[1, 2], [-2, 3]], stacks=[[0, 1], [0, 0], [0]])
        self.assertEqual((told.literals, told.used, told.rounds), ((1, -2, -3), {1: 1, 2: 1, 3: 0}, 1))
        self.assertTrue(told[1] and not told[2])
        self.assertIsNone(told.key)

    def test_formulas_that_clash_are_satisfied(self):
        told = rounds_solution(CHANNELS)
        self.assertTrue(satisfies(CHANNELS, told.literals), told)
        self.assertEqual(told, rounds_solution(CHANNELS, told.key))

    def test_extremal_formulas_have_the_same_assignment(self):
        chance = random.Random(12)
        for size in range(3, 25):
            clauses = extremal_clauses(chance, size)
            popped = extremal_solution(clauses, ZEROS)
            told = rounds_solution(clauses, ZEROS)
            self.assertEqual((told.literals, told.used), (popped.literals, popped.used), clauses)


if __name__ == "__main__":
    unittest.main()
