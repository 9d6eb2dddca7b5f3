"""Tables of answers by names, and texts as JSON."""
import itertools
import json
import unittest
from fractions import Fraction
from unittest import mock

from bensolve import tables
from bensolve.problem import Problem
from bensolve.texts import FaultLine, Log, Projection, Report, Representation, Weighed, read_any
from tests.cases import EXAMPLES
from tests.stand_in import StandIn, bench


def example(name):
    return Problem.load(EXAMPLES / f"{name}.vlp"), Report.load(EXAMPLES / f"{name}.report")


class Plans(unittest.TestCase):
    def test_energy(self):
        problem, report = example("energy")
        self.assertEqual(
            tables.plan_table(problem, tables.plans(problem, report)).text(),
            "point  cost  emissions  plan\n"
            "1      20    50         coal=10\n"
            "2      28    26         coal=2 gas=8\n"
            "3      36    16         gas=8 wind=2\n"
            "4      42    12         gas=6 wind=4\n",
        )

    def test_transport(self):
        problem, report = example("transport")
        self.assertEqual(
            tables.plan_table(problem, tables.plans(problem, report)).text(),
            "point  cost  time  emissions  plan\n"
            "1      6     36    12         ship=6\n"
            "2      14    24    8          rail=4 ship=2\n"
            "3      22    14    12         truck=2 rail=4\n"
            "4      30    6     24         truck=6\n",
        )

    def test_without_names(self):
        problem, report = example("farm")
        table = tables.plan_table(problem, tables.plans(problem, report))
        self.assertEqual(table.head, ("point", "objective 1", "objective 2", "plan"))
        self.assertEqual(table.rows[0][3], "x2=6")

    def test_each_plan_gives_its_point(self):
        for name in ("energy", "farm", "prices", "tradeoff", "transfer", "transport"):
            problem, report = example(name)
            if problem.cone is None:
                for point, plan in zip(report.points, report.plans):
                    self.assertEqual(tuple(problem.value(row, plan) for row in problem.objectives), point)

    def test_the_plan_beside_what_is_weighed(self):
        problem, report = example("energy")
        rows = tables.plans(problem, report, Weighed.load(EXAMPLES / "energy.weighed"))
        self.assertEqual(rows, [tables.Plan(4, (42, 12), {"gas": 6, "wind": 4})])

    def test_a_column_for_each_column(self):
        problem, report = example("energy")
        self.assertEqual(
            tables.to_csv(tables.plan_columns(problem, tables.plans(problem, report))),
            "point,cost,emissions,coal,gas,wind\n1,20,50,10,0,0\n2,28,26,2,8,0\n3,36,16,0,8,2\n4,42,12,0,6,4\n",
        )

    def test_a_report_of_another_problem(self):
        with self.assertRaises(ValueError):
            tables.plans(example("energy")[0], example("transport")[1])


class Facets(unittest.TestCase):
    def test_their_sides_by_name(self):
        problem, report = example("energy")
        rows = tables.facets(problem, report)
        self.assertEqual(rows[1].sides, {"demand >= 10": Fraction(12, 5), "coal >= 0": Fraction(7, 5)})
        self.assertEqual(rows[1].touches, (3, 4))
        self.assertEqual(
            tables.facet_table(problem, report, rows).text().splitlines()[:3],
            [
                "facet  cost  emissions  >=     touches  sides",
                "1      0     1          12     4 6      demand >= 10: 2; coal >= 0: 3; wind <= 4: 2",
                "2      2/5   3/5        24     3 4      demand >= 10: 12/5; coal >= 0: 7/5",
            ],
        )

    def test_of_a_file_that_maximises(self):
        problem, report = example("farm")
        self.assertEqual(tables.facet_table(problem, report, tables.facets(problem, report)).head[3], "<=")

    def test_multipliers_show_each_facet(self):
        """The sum of the sides is the weighed sum of the objectives, and its bound that of the facet."""
        for name in ("energy", "transport", "farm"):
            problem, report = example(name)
            sign = -1 if report.maximises else 1
            for facet, multipliers in zip(report.facets, report.multipliers):
                total, bound = {}, Fraction(0)
                for number, value in multipliers.items():
                    side = problem.sides()[number - 1]
                    row = problem.rows[side.number - 1] if side.of == "row" else {side.number: Fraction(1)}
                    turned = -value if side.is_upper else value
                    bound += turned * side.value
                    for column, entry in row.items():
                        total[column] = total.get(column, 0) + turned * entry
                for column in range(1, problem.columns + 1):
                    weighed = sum(w * row.get(column, 0) for w, row in zip(facet.normal, problem.objectives))
                    self.assertEqual(total.get(column, 0), sign * weighed)
                self.assertEqual(bound, sign * facet.bound)

    def test_what_contradicts(self):
        problem, report = example("shortage")
        self.assertEqual(tables.by_sides(problem, report.multipliers[0]), {"row 1 >= 10": 1, "x1 <= 5": 1, "x2 <= 4": 1})
        with self.assertRaises(ValueError):
            tables.by_sides(problem, {9: Fraction(1)})

    def test_of_a_set_they_are_fewer_than_its_sides(self):
        cross = [tuple(Fraction(s * (i == j)) for j in range(3)) for i in range(3) for s in (-1, 1)]
        cube = [tuple(map(Fraction, corner)) for corner in itertools.product((0, 1), repeat=3)]
        for points, facets, sides in ((cube, 6, 11), (cross, 8, 15)):
            hull = bench("sets").Hull(3, points, [], [])
            told = "\n".join([*bench("sets").set_lines(hull), "witnesses", *["x 0"] * len(points), ""])
            projection = Projection.read(told)
            with mock.patch("bensolve.run.run", StandIn().run):
                found = tables.set_facets(projection)
            self.assertEqual((len(found.of("h")), len(projection.sides)), (facets, sides))


class Json(unittest.TestCase):
    def test_of_a_report_by_names(self):
        problem, report = example("energy")
        found = json.loads(tables.to_json(report, problem))
        self.assertEqual(found["points"][1], ["28", "26"])
        self.assertEqual(found["plans"][1], {"coal": "2", "gas": "8"})
        self.assertEqual(found["multipliers"][1], {"demand >= 10": "12/5", "coal >= 0": "7/5"})
        self.assertEqual(found["facets"][1], {"normal": ["2/5", "3/5"], "bound": "24"})
        self.assertEqual(found["incidence"][0], [4, 6])
        self.assertEqual(json.loads(tables.to_json(report))["plans"][1], {"1": "2", "2": "8"})

    def test_of_each_text(self):
        for name, key, value in (
            ("energy.weighed", "value", "66"),
            ("energy.weights", "touching", [[4, 5], [3, 4], [2, 3], [1, 2]]),
            ("early-late.meet", "multipliers", {"1": "1", "4": "1"}),
            ("alloy.gens", "width", 3),
            ("transfer.report", "line_rays", [[{"3": "-1"}, {"3": "1"}]]),
        ):
            with self.subTest(name=name):
                found = json.loads(tables.to_json(read_any((EXAMPLES / name).read_text())))
                self.assertEqual(found[key], value)
        log = json.loads(tables.to_json(Log.load(EXAMPLES / "energy.log")))
        self.assertEqual(log["entries"][:2], [["version", 2], ["duality", ["1", "1"], [], [], []]])
        fault = json.loads(tables.to_json(FaultLine.read("fault 17 3 mul 1/2 7\n")))
        self.assertEqual(fault, {"text": "FaultLine", "status": 17, "item": 3, "op": "mul", "first": "1/2", "second": "7"})
        self.assertEqual(json.loads(tables.to_json(Representation("sides", 1, ())))["rows"], [])


if __name__ == "__main__":
    unittest.main()
