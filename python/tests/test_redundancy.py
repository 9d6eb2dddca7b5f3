"""Rows that the others imply, beside what oracle/reps.py and oracle/sets.py compute of them apart."""
import random
import unittest
from fractions import Fraction
from types import SimpleNamespace
from unittest import mock

from bensolve import redundancy, run
from bensolve.texts import Representation
from tests.stand_in import bench


def least_apart(problem):
    """What `solve` tells of a problem with one objective, from the points and directions of the feasible set."""
    oracle = bench("sets")
    found = oracle.feasible(oracle.Problem(problem.text()))
    if not found.points:
        return SimpleNamespace(answer="infeasible")
    (objective,) = problem.objectives
    value = lambda vector: sum((x * vector[place - 1] for place, x in objective.items()), Fraction(0))
    if any(value(vector) < 0 for vector in found.directions) or any(value(vector) for vector in found.lines):
        return SimpleNamespace(answer="whole")
    return SimpleNamespace(answer="solved", points=[(min(map(value, found.points)),)])


def converted(given):
    """The other representation of the same set, the same for each text of it."""
    return bench("reps").told("vertices" if given.kind == "sides" else "facets", given.text())


def random_sets(kind, seed, count):
    draw = random.Random(seed)
    words = {"sides": "hhhhhe", "gens": "111100l"}[kind]
    for _ in range(count):
        width = draw.randint(1, 2)
        rows = []
        for word in (draw.choice(words) for _ in range(draw.randint(2, 6))):
            rows.append((word, tuple(Fraction(draw.randint(-3, 3)) for _ in range(width + (kind == "sides")))))
        rows += draw.sample(rows, draw.randint(0, 1))
        yield Representation(kind, width, tuple(rows))


class Needed(unittest.TestCase):
    def test_the_same_set_and_no_row_too_much(self):
        left_out = 0
        with mock.patch.object(run, "solve", least_apart):
            for kind, seed in (("sides", 1), ("gens", 2)):
                for given in random_sets(kind, seed, 14):
                    if converted(given)[0]:
                        continue
                    found = redundancy.needed(given)
                    wanted = converted(given)
                    self.assertEqual(converted(found), wanted, given.text())
                    left = iter(given.rows)
                    self.assertTrue(all(row in left for row in found.rows), given.text())
                    for row in found.rows:
                        rows = list(found.rows)
                        rows.remove(row)
                        self.assertNotEqual(converted(Representation(kind, given.width, tuple(rows))), wanted, given.text())
                    left_out += len(given.rows) - len(found.rows)
        self.assertGreater(left_out, 20)

    def test_too_many_rows(self):
        rows = (("h", (Fraction(1), Fraction(0))),) * 1001
        with self.assertRaisesRegex(ValueError, "1001 rows"):
            redundancy.needed(Representation("sides", 1, rows))


if __name__ == "__main__":
    unittest.main()
