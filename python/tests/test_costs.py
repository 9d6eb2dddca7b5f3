"""Problems from tables of costs."""
import unittest
from fractions import Fraction

from bensolve.costs import problem_of_table
from bensolve.problem import Bound, Problem
from bensolve.texts import TextFault
from tests.cases import EXAMPLES

TABLE = (EXAMPLES / "energy.csv").read_text()


def turned(table):
    """The same table with its rows as columns."""
    cells = [line.split(",") for line in table.splitlines()]
    return "\n".join(",".join(column) for column in zip(*cells)) + "\n"


class Tables(unittest.TestCase):
    def test_energy(self):
        self.assertEqual(problem_of_table(TABLE), Problem.load(EXAMPLES / "energy.vlp"))

    def test_other_layouts(self):
        energy = problem_of_table(TABLE)
        for text in (
            turned(TABLE),
            TABLE.replace(",", ";"),
            TABLE.replace(",", "\t"),
            "\ufeff" + TABLE.replace("\n", "\r\n"),
            TABLE.replace("coal", '"coal"').replace("min cost", " min  cost "),
            TABLE.replace("\n", "\n\n,,,,\n"),
            TABLE.replace("10,", "10,lower,").replace("1,\n", "1,0,\n").replace("1,8", "1,0,8").replace("1,4", "1,0,4"),
        ):
            with self.subTest(text=text):
                self.assertEqual(problem_of_table(text), energy)

    def test_rows_and_bounds(self):
        made = problem_of_table("x,max gain,a <= 1/3,b = 2,1.5 <= c <= 2.5,lower,upper\np,0.5,1,,1,,\nq,-1,1/2,1,,-1,3\n")
        self.assertEqual(made.direction, "max")
        self.assertEqual(made.objectives, ({1: Fraction(1, 2), 2: -1},))
        self.assertEqual(made.rows, ({1: 6, 2: 3}, {2: 1}, {1: 2}))
        self.assertEqual(made.row_bounds, (Bound("u", None, 2), Bound("s", 2, 2), Bound("d", 3, 5)))
        self.assertEqual(made.column_bounds, (Bound("f"), Bound("d", -1, 3)))
        self.assertEqual(Problem.read(made.text()), made)

    def test_a_name_with_a_comma(self):
        self.assertEqual(problem_of_table('p,min cost\n"coal, hard",1\n').names["column"], ("coal, hard",))


class Faults(unittest.TestCase):
    def test_their_lines(self):
        for line, old, new, told in (
            (3, "gas,3", "gas,x", "cost of gas: `x` is no number"),
            (3, "gas,3", 'gas,"3,5"', "cost of gas: `3,5` is no number"),
            (3, "1,8", "1,8,9", "6 cells, and the first has 5"),
            (3, "1,8", "1", "4 cells, and the first has 5"),
            (1, "demand >= 10", "demand", "`demand` is no heading"),
            (1, "demand >= 10", "demand >= ten", "`ten` is no number"),
            (1, "demand >= 10", "1 <= demand >= 10", "is no heading"),
            (1, "min emissions", "max emissions", "both min and max"),
            (1, "min cost,min emissions", "lower,upper", "two columns of `upper`"),
            (1, "min emissions", "min cost", "two columns of `cost`"),
            (1, "gas", "coal", "two columns have the name 'coal'"),
        ):
            with self.subTest(new=new), self.assertRaises(TextFault) as refused:
                self.assertIn(old, TABLE)
                problem_of_table(TABLE.replace(old, new, 1))
            self.assertIn(told, str(refused.exception))
            self.assertEqual(refused.exception.line, line)

    def test_the_line_behind_a_cell_of_two_lines(self):
        with self.assertRaises(TextFault) as refused:
            problem_of_table('p,min cost\n"two\nlines",1\nq,x\n')
        self.assertEqual(refused.exception.line, 4)

    def test_a_turned_table(self):
        with self.assertRaises(TextFault) as refused:
            problem_of_table(turned(TABLE.replace("gas,3", "gas,x")))
        self.assertEqual(str(refused.exception), "line 2: cost of gas: `x` is no number as 12, -4.5 or 1e-3")

    def test_what_is_no_table(self):
        for text in ("", "\n", "plan\n", "plan,min cost\n", "plan,cost\ncoal,2\n"):
            with self.subTest(text=text), self.assertRaises(TextFault):
                problem_of_table(text)


if __name__ == "__main__":
    unittest.main()
