"""Problems: made from numbers, read from vlp files and written again."""
import os
import tempfile
import unittest
from decimal import Decimal
from fractions import Fraction

from bensolve.problem import Bound, NotExact, Problem, Side, decimal_text, decimal_value, exact
from bensolve.texts import TextFault
from tests.cases import EXAMPLES, all_cases


def energy(**changes):
    """The problem of examples/energy.vlp."""
    parts = {
        "row_bounds": [(10, None)],
        "column_bounds": [(0, None), (0, 8), (0, 4)],
        "row_names": ["demand"],
        "column_names": ["coal", "gas", "wind"],
        "objective_names": ["cost", "emissions"],
    }
    return Problem("min", [[2, 3, 6], [5, 2, 0]], [[1, 1, 1]], **{**parts, **changes})


def without_comments(text):
    return "".join(line for line in text.splitlines(keepends=True) if not line.startswith("c"))


class Texts(unittest.TestCase):
    def test_what_the_program_prints_is_printed_again(self):
        seen = 0
        for case in all_cases():
            if case.words[:1] == ["associate"] or case.words[:2] in (["print", "problem"], ["print", "sample"]):
                for text in case.texts("out"):
                    if text.startswith("p vlp"):
                        with self.subTest(case=case.name):
                            self.assertEqual(Problem.read(text).text(), text)
                            if case.words[:2] == ["print", "problem"]:
                                self.assertEqual(Problem.read(case.text("file")).text(), text)
                            seen += 1
        self.assertGreaterEqual(seen, 28)

    def test_examples_without_their_comments(self):
        for name in ("energy", "transport", "shortage", "transfer", "early", "late", "energy2"):
            with self.subTest(name=name):
                text = (EXAMPLES / f"{name}.vlp").read_text()
                self.assertEqual(without_comments(Problem.read(text).text()), without_comments(text))

    def test_from_matrices(self):
        self.assertEqual(without_comments(energy().text()), without_comments((EXAMPLES / "energy.vlp").read_text()))

    def test_all_parts_come_back(self):
        problem = Problem(
            "max",
            [{1: "0.5"}, {3: Decimal("-2")}],
            [{2: 1}, {}, {1: 4, 3: 1}],
            columns=3,
            row_bounds=["s 6", None, (None, "1e-3")],
            column_bounds=[(0, 0), (None, None), 7],
            cone=[["1", "0.25"], [0, 1]],
            dual_form=True,
            duality=[0, 1],
            row_names=["demand", None, "what is left"],
            objective_names=["Gewinn in \u20ac", None],
        )
        again = Problem.read(problem.text())
        self.assertEqual(again, problem)
        self.assertEqual(again.text(), problem.text())
        self.assertEqual([bound and bound.kind for bound in again.row_bounds + again.column_bounds], ["s", None, "u", "d", "f", "s"])

    def test_a_file(self):
        with tempfile.TemporaryDirectory() as folder:
            path = os.path.join(folder, "x.vlp")
            energy().write(path)
            self.assertEqual(Problem.load(path), energy())
            with open(path, "a") as file:
                file.write("after the end\n")
            self.assertEqual(Problem.load(path), energy())
            with open(path, "w") as file:
                file.write("p vlp min 0 1 0 1 1\no 1 1 1/3\ne\n")
            with self.assertRaises(TextFault) as refused:
                Problem.load(path)
            self.assertEqual(str(refused.exception), f"{path}:2: `1/3` is no number as 12, -4.5 or 1e-3")


class Names(unittest.TestCase):
    def test_of_comments(self):
        text = "c\tcolumn 1  hard coal \nc column 1 gas\nc column 3 none\nc column 2 hard coal\nc row two of all\n"
        problem = Problem.read(text + "p vlp min 0 2 0 1 0\nc objective 1 cost\ne\nc column 2 late\n")
        self.assertEqual(problem.names, {"row": (), "column": ("hard coal", None), "objective": ("cost",)})
        self.assertEqual([problem.name("column", 1), problem.name("column", 2)], ["hard coal", "x2"])
        self.assertEqual([problem.number("column", "hard coal"), problem.number("column", 2)], [1, 2])
        for wrong in ("gas", 3, 0, True, None):
            with self.subTest(wrong=wrong), self.assertRaises(ValueError):
                problem.number("column", wrong)

    def test_that_are_none(self):
        for first in ("two\nlines", "", " a", "c", 2, "x" * 4096):
            with self.subTest(first=first), self.assertRaises(ValueError):
                energy(column_names=[first, "b", "c"])
        with self.assertRaises(ValueError):
            energy(column_names=["a", "b"])


class Numbers(unittest.TestCase):
    def test_exact(self):
        for value, number in (
            (3, 3), ("4.5", Fraction(9, 2)), (" 1e-3", Fraction(1, 1000)), ("1/3", Fraction(1, 3)), ("-6/4", Fraction(-3, 2)),
            (Decimal("0.1"), Fraction(1, 10)), (Fraction(2, 7), Fraction(2, 7)), (2.0, 2), (-0.0, 0),
        ):
            with self.subTest(value=value):
                self.assertEqual(exact(value), number)

    def test_that_are_none(self):
        for value in (0.1, 2.0**53, float("inf"), float("nan"), Decimal("NaN"), True, None, "1/0", "0,5", "1 2", "", [1], "\u0661"):
            with self.subTest(value=value), self.assertRaises(NotExact):
                exact(value)

    def test_at_the_limits_of_a_file(self):
        self.assertEqual(decimal_value("8e-36"), Fraction(8, 10**36))
        for word, kind in (("8e-37", "NumberWide"), ("1e37", "NumberWide"), ("1" * 37, "Digits"), ("2" + "0" * 36, "NumberWide")):
            with self.subTest(word=word), self.assertRaises(ValueError) as refused:
                decimal_value(word)
            self.assertEqual(refused.exception.args[0], kind)
        longest = 123456789012345678901234567890123456
        self.assertEqual([decimal_text(Fraction(longest)), decimal_text(Fraction(10 * longest))], [str(longest), f"{longest}0"])
        for number in (Fraction(10 * longest + 1), Fraction(1, 3), Fraction(1, 2**37)):
            with self.subTest(number=number), self.assertRaises(NotExact):
                decimal_text(number)

    def test_how_a_float_is_to_be_written(self):
        with self.assertRaises(NotExact) as refused:
            Problem("min", [[0.1]])
        self.assertIn('write it as text, "0.1", or as Fraction', str(refused.exception))

    def test_a_third_is_not_written_until_its_row_is_whole(self):
        problem = Problem("min", [[1, 1]], [["1/3", 1]], row_bounds=["l 1/2"], row_names=["demand"])
        with self.assertRaises(NotExact) as refused:
            problem.text()
        self.assertIn("demand, x1: 1/3 has no decimal form", str(refused.exception))
        whole = problem.with_whole_rows()
        self.assertEqual((whole.rows, whole.row_bounds), (({1: 2, 2: 6},), (Bound("l", Fraction(3)),)))

    def test_arrays(self):
        class Array:
            """What numpy's arrays share: `tolist`."""

            def __init__(self, rows):
                self.rows = rows

            def tolist(self):
                return self.rows

        made = Problem("min", Array([[2.0, 3.0, 6.0], [5.0, 2.0, 0.0]]), Array([[1, 1, 1]]))
        self.assertEqual((made.objectives, made.rows), (energy().objectives, energy().rows))

    def test_numpy(self):
        try:
            import numpy
        except ImportError:
            self.skipTest("numpy is not here")
        made = Problem("min", numpy.array([[2, 3, 6], [5, 2, 0]]), numpy.ones((1, 3)))
        self.assertEqual((made.objectives, made.rows), (energy().objectives, energy().rows))


class Shapes(unittest.TestCase):
    def test_that_do_not_fit(self):
        for change in (
            {"row_bounds": []},
            {"column_bounds": [None]},
            {"row_bounds": [(1, 2, 3)]},
            {"row_bounds": ["l"]},
            {"row_bounds": ["x 1"]},
            {"cone": []},
            {"cone": [[1]]},
            {"dual_form": True},
            {"duality": [1, 1, 1]},
        ):
            with self.subTest(change=change), self.assertRaises(ValueError):
                energy(**change)
        for parts in (([], []), ([[1, 2]], [[1]]), ([{1: 1}], [])):
            with self.subTest(parts=parts), self.assertRaises(ValueError):
                Problem("min", *parts)
        with self.assertRaises(ValueError):
            Problem("least", [[1]])

    def test_sides(self):
        self.assertEqual(
            [energy().side_name(side) for side in energy().sides()],
            ["demand >= 10", "coal >= 0", "gas >= 0", "gas <= 8", "wind >= 0", "wind <= 4"],
        )
        fixed = Problem("min", [[1]], [[1]], row_bounds=["s 6"], column_bounds=["f"])
        self.assertEqual(fixed.sides(), [Side("row", 1, False, 6), Side("row", 1, True, 6)])

    def test_columns_first(self):
        moved, order = energy().with_columns_first(["wind", 1])
        self.assertEqual(order, [3, 1, 2])
        self.assertEqual(moved.names["column"], ("wind", "coal", "gas"))
        self.assertEqual(moved.objectives, ({1: 6, 2: 2, 3: 3}, {2: 5, 3: 2}))
        self.assertEqual(moved.column_bounds[0], Bound("d", Fraction(0), Fraction(4)))
        self.assertEqual(Problem("min", [[1, 2, 3, 4]]).with_columns_first([3])[1], [3, 1, 2, 4])
        with self.assertRaises(ValueError):
            energy().with_columns_first(["wind", 3])

    def test_a_file_with_many_entries(self):
        entries = [f"a {i} {j} 1" for i in range(1, 201) for j in range(1, 201)]
        text = "\n".join([f"p vlp min 200 200 {len(entries)} 1 0", *entries, "e", ""])
        self.assertEqual(Problem.read(text).text(), text)


if __name__ == "__main__":
    unittest.main()
