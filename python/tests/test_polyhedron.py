"""Polyhedra, and which of their vertices and facets are neighbours."""
import itertools
import unittest
from fractions import Fraction
from unittest import mock

from bensolve.polyhedron import Adjacency, Polyhedron, adjacency, incidence, report_adjacency
from bensolve.texts import Projection, Report, Representation
from tests.cases import EXAMPLES, NO_PROGRAM, built_program
from tests.stand_in import StandIn, bench


def cube(width):
    unit = [[int(i == j) for j in range(width)] for i in range(width)]
    return Polyhedron.of_inequalities([(row, 0) for row in unit] + [([-x for x in row], -1) for row in unit])


class WithStandIn(unittest.TestCase):
    @classmethod
    def setUpClass(cls):
        cls.stand_in = StandIn()

    def setUp(self):
        patch = mock.patch("bensolve.run.run", self.stand_in.run)
        patch.start()
        self.addCleanup(patch.stop)


class Polyhedra(WithStandIn):
    def test_a_square(self):
        square = cube(2)
        self.assertEqual(square.vertices(), ((0, 0), (0, 1), (1, 0), (1, 1)))
        self.assertEqual(len(square.facets()), 4)
        self.assertEqual((square.directions(), square.lines(), square.equations()), ((), (), ()))
        self.assertFalse(square.is_empty)
        self.assertTrue(square.contains([1, "1/2"]))
        self.assertFalse(square.contains([1, "1.0001"]))
        with self.assertRaises(ValueError):
            square.contains([1])

    def test_equality_is_of_sets(self):
        square = cube(2)
        corners = [[0, 0], [1, 0], [1, 1], [0, 1], ["1/2", 0]]
        self.assertEqual(square, Polyhedron.of_points(corners))
        self.assertNotEqual(square, Polyhedron.of_points(corners[1:]))
        self.assertNotEqual(square, cube(3))
        self.assertNotEqual(square, "a square")

    def test_a_strip_and_what_has_equations(self):
        strip = Polyhedron.of_points([[0, 0], [1, 0]], lines=[[0, 1]])
        self.assertEqual(strip.lines(), ((0, 1),))
        self.assertEqual(strip, Polyhedron.of_inequalities([([1, 0], 0), ([-1, 0], -1)]))
        ray = Polyhedron.of_inequalities([([1, 0], 2)], equations=[([0, 2], 1)])
        self.assertEqual((ray.vertices(), ray.directions()), (((2, Fraction(1, 2)),), ((1, 0),)))
        self.assertTrue(ray.contains([3, "0.5"]))
        self.assertFalse(ray.contains([3, 1]))
        self.assertEqual(len(ray.equations()), 1)

    def test_what_is_empty(self):
        nothing = Polyhedron(Representation("gens", 1, ()))
        for empty in (Polyhedron.of_inequalities([([1], 1), ([-1], 0)]), Polyhedron.of_points([], directions=[[1]]), nothing):
            self.assertTrue(empty.is_empty)
            self.assertFalse(empty.contains([0]))
            self.assertEqual(empty, nothing)
        self.assertNotEqual(empty, Polyhedron.of_points([[0]]))

    def test_of_what_the_program_tells(self):
        projection = Polyhedron.of_projection(Projection.load(EXAMPLES / "energy.projection"))
        self.assertEqual(projection, Polyhedron.of_inequalities([([1, 0], 0), ([0, 1], 0), ([0, -1], -8), ([1, 1], 6)]))
        image = Polyhedron.of_report(Report.load(EXAMPLES / "energy.report"))
        self.assertTrue(image.contains([32, 21]))
        self.assertFalse(image.contains([28, 25]))
        self.assertEqual(len(image.facets()), 5)
        self.assertTrue(Polyhedron.of_projection(Projection.load(EXAMPLES / "early-late.meet")).is_empty)
        with self.assertRaises(ValueError):
            Polyhedron.of_report(Report.load(EXAMPLES / "shortage.report"))

    def test_rows_that_do_not_fit(self):
        for points in ([[1], [1, 2]], [], [[0] * 20]):
            with self.assertRaises(ValueError):
                Polyhedron.of_points(points)

    def test_each_is_found_once(self):
        square = cube(2)
        square.vertices()
        asked = len(self.stand_in.asked)
        square.vertices(), square.gens(), square.contains([0, 0])
        self.assertEqual(len(self.stand_in.asked), asked)


class Neighbours(WithStandIn):
    def test_transport(self):
        found = report_adjacency(Report.load(EXAMPLES / "transport.report"))
        points = [[k for k in numbers if k <= 4] for numbers in found.points]
        self.assertEqual(points, [[2], [1, 3], [2, 4], [3]])
        self.assertEqual(found.directions, ((1, 2, 3, 4), (1, 2), (2, 3, 4)))

    def test_energy(self):
        found = report_adjacency(Report.load(EXAMPLES / "energy.report"))
        self.assertEqual(found, Adjacency(((2, 5), (1, 3), (2, 4), (3, 6)), ((1,), (4,)), ((2,), (1, 3), (2, 4), (3, 5), (4,))))
        self.assertTrue(found.text().startswith("points 4\nn 2 2 5\nn 2 1 3\n"))

    def test_cubes_and_their_duals(self):
        for width in (1, 2, 3, 4):
            found = cube(width).adjacency()
            self.assertEqual({len(numbers) for numbers in found.points}, {width})
            self.assertEqual({len(numbers) for numbers in found.facets}, {2 * width - 2})
        cross = Polyhedron.of_points([[s * int(i == j) for j in range(4)] for i in range(4) for s in (1, -1)]).adjacency()
        self.assertEqual({len(numbers) for numbers in cross.points}, {6})
        self.assertEqual({len(numbers) for numbers in cross.facets}, {4})

    def test_all_corners_of_a_cyclic_polytope_are_neighbours(self):
        found = Polyhedron.of_points([[t, t**2, t**3, t**4] for t in range(7)]).adjacency()
        self.assertEqual({len(numbers) for numbers in found.points}, {6})

    def test_a_pair_is_joined_where_its_middle_is_on_no_other_segment(self):
        """Two vertices are neighbours where no facet's equations but theirs leave more than their line: by ranks, apart."""
        rank = lambda rows: len(bench("reports").echelon(rows)) if rows else 0
        for shape in (Polyhedron.of_points([[0, 0, 0], [2, 0, 0], [0, 2, 0], [2, 2, 0], [1, 1, 1], [1, 0, 2]]), cube(3)):
            vertices, facets, told = shape.vertices(), shape.facets(), shape.adjacency()
            for i, j in itertools.combinations(range(len(vertices)), 2):
                on = lambda k, facet: sum(a * b for a, b in zip(facet.normal, vertices[k])) == facet.bound
                tight = [facet.normal for facet in facets if on(i, facet) and on(j, facet)]
                self.assertEqual(j + 1 in told.points[i], rank(tight) == 2, (i, j))

    def test_directions_alone_are_no_edge_and_no_ridge(self):
        found = adjacency(1, 3, [(1, 2, 3), (1, 3, 4), (1, 2, 4)])
        self.assertEqual(found, Adjacency(((2, 3, 4),), ((1,), (1,), (1,)), ((2, 3), (1, 3), (1, 2))))
        slab = adjacency(2, 2, [(1, 3, 4), (2, 3, 4), (1, 2, 4), (1, 2, 3)])
        self.assertEqual((slab.points, slab.directions), (((2, 3, 4), (1, 3, 4)), ((1, 2), (1, 2))))
        self.assertEqual(slab.facets, ((3, 4), (3, 4), (1, 2, 4), (1, 2, 3)))
        strip = adjacency(2, 1, [(1, 3), (2, 3), (1, 2)])
        self.assertEqual(strip.facets, ((3,), (3,), (1, 2)))

    def test_a_half_line_and_a_half_space(self):
        self.assertEqual(adjacency(1, 1, [(1,)]), Adjacency(((2,),), ((1,),), ((),)))
        self.assertEqual(adjacency(1, 0, []), Adjacency(((),), (), ()))
        self.assertEqual(adjacency(2, 0, [(1,), (2,)]), Adjacency(((2,), (1,)), (), ((), ())))

    def test_many_points(self):
        """A polygon of 2,000 corners takes a moment, as each corner has two facets."""
        count = 2000
        found = adjacency(count, 0, [(k + 1, (k + 1) % count + 1) for k in range(count)])
        self.assertEqual(found.points[0], (2, count))
        self.assertEqual({len(numbers) for numbers in found.facets}, {2})

    def test_incidence(self):
        sides, gens = Representation.load(EXAMPLES / "alloy2.sides"), Representation.load(EXAMPLES / "alloy.gens")
        self.assertEqual(incidence(sides, gens), [(2, 3), (1, 2), (3, 4), (1, 4)])
        corner = Representation.read("gens 2\n1 1/2 3\n0 0 1\n0 1 0\nend\n")
        self.assertEqual(incidence(Representation.read("sides 2\nh 0 1 3\nh 2 0 1\nend\n"), corner), [(1, 3), (1, 2)])


@unittest.skipUnless(built_program(), NO_PROGRAM)
class ByTheProgram(unittest.TestCase):
    def test_a_cube(self):
        self.assertEqual(len(cube(3).vertices()), 8)
        self.assertEqual(cube(3), Polyhedron.of_points(list(itertools.product((0, 1), repeat=3))))
        self.assertEqual(cube(3).adjacency().points[0], (2, 3, 5))


if __name__ == "__main__":
    unittest.main()
