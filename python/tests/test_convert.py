"""Files of other programs as texts of this one, and the other way.

Beside the files in data/convert stands what other programs make of them: `X.lrs` is the output of `lrs X`, `X.scdd` the file that
`scdd_gmp X` writes (`scdd` for real.ine), `X.in.out` that of `normaliz --ExtremeRays --MaximalSubspace X`, and `X.glpk.*` what
`glpsol` writes of X (with ROW4 for names that it gives, as R and seven digits). Conversions between inequalities and points are those of oracle/reps.py, apart from the package.
"""
import io
import os
import re
import stat
import subprocess
import sys
import tempfile
import unittest
from contextlib import redirect_stderr
from fractions import Fraction
from pathlib import Path
from unittest import mock

from bensolve.convert import KINDS, NotConverted, Source, convert, main
from bensolve.problem import Problem
from bensolve.texts import Report, Representation, TextFault

TOP = Path(__file__).resolve().parents[2]
DATA = Path(__file__).resolve().parent / "data" / "convert"
EXAMPLES = TOP / "examples"

# Of each file the programs that read it as it is read here. Where one is left out, it passes a word over, as the reader says.
PEERS = {
    "a1.ine": ("lrs", "scdd"),
    "a2.ine": ("scdd",),
    "a3.ext": ("lrs", "scdd"),
    "a4.ine": ("lrs",),
    "a5.ine": ("scdd",),
    "after.ine": ("lrs", "scdd"),
    "bases.ine": ("lrs", "scdd"),
    "cube.ine": ("lrs", "scdd"),
    "e.ine": ("lrs", "scdd"),
    "everything.ine": ("lrs", "scdd"),
    "hull-after.ine": ("scdd",),
    "hull-before.ine": ("lrs",),
    "lines.ext": ("lrs", "scdd"),
    "long.ine": ("lrs", "scdd"),
    "n.ine": ("lrs",),
    "nothing.ine": ("lrs", "scdd"),
    "options.ine": ("lrs", "scdd"),
    "rays.ext": ("lrs", "scdd"),
    "real.ine": ("scdd",),
    "t.ine": ("lrs", "scdd"),
}

# And where one does so, or reads a number in another way.
DIFFER = (
    ("a2.ine", "lrs"),
    ("a4.ine", "scdd"),
    ("a5.ine", "lrs"),
    ("decimals.ine", "scdd"),
    ("hull-after.ine", "lrs"),
    ("hull-before.ine", "scdd"),
    ("n.ine", "scdd"),
)

TEXTS = {
    "a1.ext": "gens 2|1 0 1|1 1 0|end",
    "a1.ine": "sides 2|h 1 0 0|h 0 1 0|e -1 -1 -1|end",
    "a2.ext": "gens 2|1 0 1|1 1 0|end",
    "a2.ine": "sides 2|h 1 0 0|h 0 1 0|e -1 -1 -1|end",
    "a3.ext": "gens 2|1 0 0|1 1 0|1 0 1|end",
    "a3.ine": "sides 2|h -1 -1 -1|h 1 0 0|h 0 1 0|end",
    "a4.ext": "gens 2|0 -1 0|1 1 0|l -1 1|end",
    "a4.ine": "sides 2|h -1 -1 -1|h 1 0 0|h 0 1 0|end",
    "a5.ext": "gens 2|1 0 1|1 1 0|end",
    "a5.ine": "sides 2|h 1 0 0|h 0 1 0|e -1 -1 -1|end",
    "cube.ext": "gens 3|1 1 -1 -1|1 1 -1 1|1 1 1 1|1 1 1 -1|1 -1 1 1|1 -1 1 -1|1 -1 -1 1|1 -1 -1 -1|end",
    "cube.ine": "sides 3|h 1 0 0 -1|h 0 1 0 -1|h 0 0 1 -1|h -1 0 0 -1|h 0 -1 0 -1|h 0 0 -1 -1|end",
    "e.ine": "sides 1|h 1 1|h -1 0|end",
    "n.ine": "sides 2|h -1 -1 -1|h 1 0 0|h 0 1 0|end",
    "t.ine": "gens 2|1 0 0|0 1 0|0 0 1|end",
    "lines.ext": "gens 2|1 0 0|l 1 1|1 1 0|end",
    "options.ine": "sides 3|h 1 0 0 -1/2|h 1 0 0 0|h 0 0 1 0|e -1 -1 -1 -1/2|end",
    "real.ine": "sides 2|h 1 0 0|h 1/2 1 0|h -1 -1 -3/2|end",
    "nothing.ine": "sides 2|h 0 0 1|end",
}


def read(kind, text, relax=False):
    return KINDS[kind].read(Source(text, relax))


def lines_of(text):
    """A text in one line, as the tables have it."""
    return text.rstrip("\n").replace("\n", "|")


def text_of(line):
    return line.replace("|", "\n") + "\n"


def kind_of(name):
    return name.rpartition(".")[2]


class Refusals(unittest.TestCase):
    def refused(self, kind, text, line, sentence, relax=False):
        with self.subTest(text=text), self.assertRaises(TextFault) as caught:
            convert(Source(text, relax), kind)
        self.assertEqual((caught.exception.line, caught.exception.sentence), (line, sentence))


@unittest.skipUnless(hasattr(sys, "set_int_max_str_digits"), "oracle/reps.py needs a newer Python")
class Apart(unittest.TestCase):
    """Conversions that are computed apart from the package."""

    @classmethod
    def setUpClass(cls):
        sys.path.insert(0, str(TOP / "oracle"))
        try:
            import reps
        finally:
            sys.path.pop(0)
        cls.reps = reps

    def other(self, text):
        status, told = self.reps.told(self.reps.COMMAND[text.split()[0]], text)
        self.assertEqual(status, 0, told)
        return told

    def reduced(self, text):
        """The one text `gens` of the set of a text."""
        return self.other(text) if text.startswith("sides") else self.other(self.other(text))

    def test_files_beside_lrs_and_scdd(self):
        for name, peers in PEERS.items():
            mine = self.reduced(convert(Source((DATA / "cdd" / name).read_text()), kind_of(name)))
            for peer in peers:
                with self.subTest(name=name, peer=peer):
                    printed = (DATA / "cdd" / f"{name}.{peer}").read_text()
                    self.assertEqual(self.reduced(convert(Source(printed), "ine")), mine)

    def test_where_lrs_and_scdd_differ(self):
        for name, peer in DIFFER:
            with self.subTest(name=name, peer=peer):
                mine = self.reduced(convert(Source((DATA / "cdd" / name).read_text()), kind_of(name)))
                try:
                    printed = convert(Source((DATA / "cdd" / f"{name}.{peer}").read_text()), "ine")
                except TextFault:
                    continue
                self.assertNotEqual(self.reduced(printed), mine)

    def test_files_beside_normaliz(self):
        for path in sorted((DATA / "normaliz").glob("*.out")):
            with self.subTest(name=path.stem):
                mine = convert(Source((DATA / "normaliz" / path.stem).read_text()), "normaliz")
                told = told_by_normaliz(path.read_text(), path.stem == "polytope.in").text()
                self.assertEqual(self.reduced(mine), self.reduced(told))

    def test_projections(self):
        """The inequalities and the points of a projection are one set."""
        for name in ("energy.map", "energy.projection", "early-late.sum", "early-late.join", "early-late.meet"):
            with self.subTest(name=name):
                text = (EXAMPLES / name).read_text()
                sides, gens = (convert(Source(text), "projection", target) for target in ("sides", "gens"))
                self.assertEqual(self.reduced(sides), self.reduced(gens))
                problem = convert(Source(text), "projection", "vlp")
                self.assertEqual(self.reduced(convert(Source(problem), "vlp", "sides")), self.reduced(gens))

    def test_reports(self):
        for path in sorted(EXAMPLES.glob("*.report")):
            with self.subTest(name=path.name):
                text = path.read_text()
                if Report.read(text).answer != "solved":
                    with self.assertRaises(NotConverted):
                        convert(Source(text), "report")
                    continue
                sides, gens = (convert(Source(text), "report", target) for target in ("sides", "gens"))
                self.assertEqual(self.reduced(sides), self.reduced(gens))


def told_by_normaliz(text, is_polytope):
    """The points, directions and lines that an output file of Normaliz lists."""
    parts = {}
    for match in re.finditer(r"^[0-9]+ ([a-z ]+):\n((?: *-?[0-9][-0-9 ]*\n)*)", text, re.M):
        parts[match[1]] = [tuple(map(Fraction, line.split())) for line in match[2].splitlines()]
    is_inhomogeneous = "vertices of polyhedron" in parts
    cut = slice(0, -1 if is_inhomogeneous or is_polytope else None)
    points = parts["vertices of polyhedron"] if is_inhomogeneous else parts["extreme rays"] if is_polytope else None
    rays = parts["extreme rays of recession cone"] if is_inhomogeneous else () if is_polytope else parts["extreme rays"]
    lines = parts.get("basis elements of maximal subspace", ())
    width = int(re.search("embedding dimension = ([0-9]+)", text)[1]) - (is_inhomogeneous or is_polytope)
    vertices = [(Fraction(0),) * width] if points is None else [tuple(x / v[-1] for x in v[:-1]) for v in points]
    rows = [("1", v) for v in vertices]
    if rows:
        rows += [("0", v[cut]) for v in rays] + [("l", v[cut]) for v in lines]
    return Representation("gens", width, tuple(rows))


class CddFiles(Refusals):
    def test_texts(self):
        for name, text in TEXTS.items():
            with self.subTest(name=name):
                self.assertEqual(lines_of(convert(Source((DATA / "cdd" / name).read_text()), kind_of(name))), text)

    def test_there_and_back(self):
        for name, text in TEXTS.items():
            target = "ine" if text.startswith("sides") else "ext"
            with self.subTest(name=name):
                written = convert(Source(text_of(text)), text.split()[0], target)
                self.assertEqual(lines_of(convert(Source(written), target)), text)

    def test_written(self):
        sides = "sides 2|h 1 0 1/2|e 1 1 1|h 0 1 -2|end"
        self.assertEqual(
            lines_of(convert(Source(text_of(sides)), "sides", "ine")),
            "H-representation|linearity 1 2|begin|3 3 rational|-1/2 1 0|-1 1 1|2 0 1|end",
        )
        self.assertEqual(
            lines_of(convert(Source("gens 2\nl 1 0\n1 1/2 3\n0 0 1\nend\n"), "gens", "ext")),
            "V-representation|linearity 1 1|begin|3 3 rational|0 1 0|1 1/2 3|0 0 1|end",
        )
        self.assertEqual(lines_of(convert(Source("sides 1\nend\n"), "sides", "ine")), "H-representation|begin|1 2 rational|1 0|end")
        with self.assertRaisesRegex(NotConverted, "the set has no point"):
            convert(Source("gens 2\nend\n"), "gens", "ext")

    def test_a_row_may_break_and_numbers_are_exact(self):
        text = "V-representation\nbegin\n2 3 rational\n3 1\n 1 0\n 0.1 1e-3\nend\n"
        self.assertEqual(lines_of(convert(Source(text), "ext")), "gens 2|1 1/3 1/3|0 1/10 1/1000|end")
        nines = "0." + "9" * 30
        text = f"H-representation\nbegin\n1 2 real\n{nines} 1\nend\n"
        self.assertEqual(read("ine", text).rows[0][1][1], -Fraction(nines))

    def test_what_lrs_prints_again(self):
        text = "*lrs:lrslib\nV-representation\nbegin\n***** 2 rational\n 1 5\nV-representation\nbegin\n***** 2 rational\n 1 7\n 1 9\nend\n"
        self.assertEqual(lines_of(convert(Source(text), "ext")), "gens 1|1 7|1 9|end")
        text = text.replace(" 1 5\n", " 1 5\nend\n")
        self.assertEqual(lines_of(convert(Source(text), "ext")), "gens 1|1 7|1 9|end")
        self.assertEqual(lines_of(convert(Source(text + "mplrs:lrslib v.7\n"), "ext")), "gens 1|1 7|1 9|end")
        self.refused("ext", text.replace("*lrs:", "* lrs:"), 7, "`V-representation` stands after `begin` in line 3")

    def test_refusals(self):
        triangle = "H-representation\nbegin\n3 3 rational\n0 1 0\n0 0 1\n1 -1 -1\nend\n"
        points = "V-representation\nbegin\n2 3 rational\n1 1 0\n1 0 1\nend\n"
        self.assertEqual(lines_of(convert(Source(triangle), "ine")), "sides 2|h 1 0 0|h 0 1 0|h -1 -1 -1|end")
        for text, line, sentence in (
            ((DATA / "cdd" / "b.ine").read_text(), 4, "`x` is no number as 12, -4.5, 1e-3 or 2/3"),
            (triangle + "strict_inequality 1 3\n", 8, "the option `strict_inequality` is not taken: the set would not be closed"),
            ("strict_inequality 1 3\n" + triangle, 1, "the option `strict_inequality` is not taken: the set would not be closed"),
            (triangle + "nonnegative\n", 8, "`nonnegative` stands after `begin`, where lrs passes it over: put it before"),
            ("nonnegative\n" + points, 1, "`nonnegative` stands beside points: it is an option of an H-representation"),
            (triangle + "hull\n", 8, "`hull` makes points of the rows, and the header says H-representation"),
            (triangle + "maximize 0 1 1\n", 8, "the option `maximize` is not taken: a linear program is no set; take the line out for its feasible set"),
            (triangle + "project 1 2\n", 8, "the option `project` is not taken: it asks for a projection; `bensolve project` does that of a vlp file"),
            (triangle + "incidence\nincidenc\n", 9, "the option `incidenc` is not known"),
            ("a linearity 1 3 of mine\n" + triangle, 1, "`linearity` stands in the middle of a line: begin a line with it, or leave it out"),
            ("linearity 1 4\n" + triangle, 1, "there is no row 4: the matrix has 3"),
            ("linearity 1 0\n" + triangle, 1, "there is no row 0: the matrix has 3"),
            ("linearity 2 1\n" + triangle, 1, "`linearity` says 2 rows, and names 1 on its line"),
            ("linearity 1 -3\n" + triangle, 1, "`-3` stands where a number of rows or a row is wanted"),
            ("equality\n" + triangle, 1, "`equality` names no rows on its line"),
            (triangle.replace("3 3", "4 3"), 3, "`begin` says 4 rows, and there are 3"),
            (triangle.replace("1 -1 -1", "1 -1"), 6, "2 numbers are left over: a row has 3"),
            (triangle.replace("rational", "ratonal"), 3, "`ratonal` is no type of numbers: integer, rational, real"),
            (triangle.replace("3 3 rational\n", "3 3\n"), 4, "`0` is no type of numbers: integer, rational, real"),
            (triangle.replace("end\n", ""), 7, "there is no line `end`"),
            ("begin\n0 99999 rational\nend\n", 2, "`99999` stands where the number of columns is wanted, which is at most 1,000"),
            ("H-representation\n3 3 rational\n", 2, "the option `3` is not known"),
            ("cube\n", 2, "there is no line `begin`"),
            (triangle + triangle, 8, "`H-representation` stands after `begin` in line 2"),
            ("V-representation\n" + triangle, 2, "`H-representation` stands after `V-representation`"),
            (points.replace("1 1 0", "-1 1 0"), 4, "a row of a V-representation begins with 0, or with a number above 0"),
            ("linearity 1 1\n" + points, 5, "row 1 is a point, and `linearity` names it"),
            (triangle.replace("1 -1 -1", "1 -1 1/0"), 6, "`1/0` is no number as 12, -4.5, 1e-3 or 2/3"),
            (triangle.replace("1 -1 -1", "1 -1 1e99999999999"), 6, "`1e99999999999` needs more than 1,000 digits"),
            (triangle.replace("1 -1 -1", "1 -1 1_0"), 6, "`1_0` is no number as 12, -4.5, 1e-3 or 2/3"),
            (triangle.replace("0 1 0\n", "0 1 0\r"), 4, "a carriage return stands alone: line ends are a line feed, or both"),
        ):
            self.refused("ine", text, line, sentence)


class NormalizFiles(Refusals):
    def test_texts(self):
        for name, text in (
            ("symbolic", "sides 2|h 1 2 5|h 15/2 -3 -1/2|e 1 0 3|h 0 -1 -2|end"),
            ("constraints", "sides 2|h 1 2 5|e 1 -1 1/2|end"),
            ("equations", "sides 2|e 1 -1 0|h 1 0 0|h 0 1 0|end"),
            ("signs", "sides 3|h 1 0 0 0|h 0 0 -1 0|end"),
            ("polytope", "gens 2|1 0 0|1 1 0|1 0 1/2|end"),
            ("polyhedron", "gens 2|1 0 0|1 1/2 0|0 0 1|end"),
            ("cone", "gens 2|1 0 0|0 1 1|end"),
            ("nothing", "gens 2|end"),
            ("sparse", "sides 3|h 1 0 0 1|h 0 3 1/2 0|end"),
            ("decimals", "sides 2|h 1/2 1/10 1|h 1/2 -3 -1/4|end"),
        ):
            with self.subTest(name=name):
                self.assertEqual(lines_of(convert(Source((DATA / "normaliz" / f"{name}.in").read_text()), "normaliz")), text)

    def test_written(self):
        sides = "sides 2\nh 1 0 1/2\ne 1 1 1\nend\n"
        self.assertEqual(
            lines_of(convert(Source(sides), "sides", "normaliz")),
            "amb_space 2|inhom_equations 1|1 1 -1|inhom_inequalities 1|1 0 -1/2",
        )
        self.assertEqual(
            lines_of(convert(Source("gens 2\nl 1 0\n1 1/2 3\n0 0 1\nend\n"), "gens", "normaliz")),
            "amb_space 2|vertices 1|1 6 2|cone 1|0 1|subspace 1|1 0",
        )
        equations = convert(Source("sides 2\ne 1 1 1\nend\n"), "sides", "normaliz")
        self.assertEqual(lines_of(convert(Source(equations), "normaliz")), "sides 2|e 1 1 1|h 0 0 -1|end")
        with self.assertRaisesRegex(NotConverted, "the set has no point"):
            convert(Source("gens 2\nend\n"), "gens", "normaliz")

    def test_there_and_back(self):
        for line in TEXTS.values():
            given = Representation.read(text_of(line))
            if given.kind == "gens" and not given.of("1"):
                continue
            with self.subTest(text=line):
                back = read("normaliz", convert(Source(given.text()), given.kind, "normaliz"))
                self.assertEqual(sorted(back.rows), sorted(given.rows))

    def test_refusals(self):
        head = "amb_space 2\n"
        taken = ", ".join(("inequalities", "equations", "inhom_inequalities", "inhom_equations", "constraints", "signs", "nonnegative",
                           "cone", "subspace", "vertices", "polyhedron", "polytope"))
        for text, line, sentence in (
            ((DATA / "normaliz" / "b.in").read_text(), 3, "`x` is no number as 12, -4.5, 1e-3 or 2/3"),
            ("2\n2\n1 0\n0 1\ninequalities\n", 1, "`2` stands where `amb_space` and the dimension is wanted, with which a file begins"),
            (head + "strict_inequalities 1\n1 1\n", 2, "`strict_inequalities` is a strict form: the set would not be closed"),
            (head + "strict_signs\n1 1\n", 2, "`strict_signs` is a strict form: the set would not be closed"),
            (head + "congruences 1\n1 1 3\n", 2, f"`congruences` is not taken: {taken}, and what Normaliz is to compute"),
            (head + "cone 1\n1 1\nNonnegative\n", 4, f"`Nonnegative` is not taken: {taken}, and what Normaliz is to compute"),
            (head + "constraints 1\n1 1 > 3\n", 3, "`>` is strict: the set would not be closed"),
            (head + "constraints 1\n1 1 ~ 3\n", 3, "`~` stands where `<=`, `>=` or `=` is wanted"),
            (head + "constraints 2 symbolic\nx[1] >= 1;\nx[1] < 2 x[2];\n", 4, "`<` is strict: the set would not be closed"),
            (head + "constraints 1 symbolic\nx[1] >=\n1 + x[3];\n", 3, "there is no x[3]: the dimension is 2"),
            (head + "constraints 1 symbolic\nx[1] >= 1 x[2] 3;\n", 3, "`3` stands where `;` is wanted"),
            (head + "constraints 1 symbolic\nx[1] >= y;\n", 3, "`y` is no part of a symbolic constraint"),
            (head + "constraints 1 symbolic\nx[1] >= 2 * ;\n", 3, "the text ends where a name is wanted"),
            (head + "constraints 1 symbolic\nx[1] + - x[2] >= 2;\n", 3, "`-` stands where a number or a name, after one sign, is wanted"),
            (head + "constraints 1 symbolic\nx[1] + x[2];\n", 3, "a symbolic constraint has a relation: `<=`, `>=` or `=`"),
            (head + "constraints 1 symbolic\nx[1] >= 2\n", 4, "a symbolic constraint ends with a semicolon"),
            (head + "inequalities 2\n1 0\n0\n", 5, "the file ends where a number is wanted"),
            (head + "inequalities 1\n1 0\n0 1\n", 4, f"`0` is not taken: {taken}, and what Normaliz is to compute"),
            (head + "cone 1\n1 0\ninequalities 1\n1 0\n", 4, "constraints stand beside generators: the set is what both have in common, and is not taken"),
            (head + "vertices 1\n1 0 0\n", 3, "a point of Normaliz ends with a denominator above 0, and not with 0"),
            (head + "nonnegative\nsigns\n0 1\n", 3, "`signs` or `nonnegative` stands in line 2 already"),
            (head + "signs\n1 2\n", 3, "a sign is 1, -1 or 0, and not 2"),
            (head + "inequalities 1 sparse\n1:1 3:2;\n", 3, "there is no place 3 of 2"),
            (head + "inequalities 1 sparse\n1:1 1:2;\n", 3, "the place 1 is given twice"),
            (head + "inequalities [[1 2][3]]\n", 2, "a row has 2 numbers here, and not 1"),
            ("amb_space auto\ninequalities 1\n1 2\n", 2, "after `amb_space auto` a matrix in brackets comes first, which tells the dimension"),
            ("amb_space 99999\nnonnegative\n", 1, "`99999` stands where the dimension, or `auto`, is wanted, which is at most 1,000"),
            ("amb_space 1\npolytope 1\n\n", 2, "a polytope has the dimension 2 at least, one more than its points have entries"),
            (head + "HilbertBasis\n", 2, "the file gives no constraints and no generators"),
        ):
            self.refused("normaliz", text, line, sentence)


class LooseTexts(Refusals):
    def test_texts(self):
        text = "\ufeff# alloys\r\nsides\t3\r\n  e 1.0 1 +1 2/2  # all\r\nc a comment\r\nh 1 0 0 0.50\r\n\r\n* more\r\nh 0 -1 0 -4/10\r\nend"
        self.assertEqual(lines_of(convert(Source(text), "sides")), "sides 3|e 1 1 1 1|h 1 0 0 1/2|h 0 -1 0 -2/5|end")
        text = "gens 2\nl 1e1 -0\n1 .5 2.\n0 -0.0 4/2\nend\n\nc end\n"
        self.assertEqual(lines_of(convert(Source(text), "gens")), "gens 2|l 10 0|1 1/2 2|0 0 2|end")
        strict = (EXAMPLES / "alloy.sides").read_text()
        self.assertEqual(convert(Source(strict), "sides"), strict)

    def test_refusals(self):
        for text, line, sentence in (
            ("", 1, "the text says nothing: its first line is `sides K` or `gens K`"),
            ("side 2\nend\n", 1, "`side` stands where `sides` or `gens` is wanted"),
            ("sides 0\nend\n", 1, "`0` stands where the number of entries is wanted"),
            ("sides 1001\nend\n", 1, "`1001` stands where the number of entries is wanted, which is at most 1,000"),
            ("sides 2 3\nend\n", 1, "after `sides` stands the number of entries alone"),
            ("sides 2\nh 1 0\nend\n", 2, "a row `h` has 3 numbers here, and not 2"),
            ("sides 2\n1 1 0 2\nend\n", 2, "no row of `sides` begins with `1`: h, e or end"),
            ("gens 2\nh 1 0\nend\n", 2, "no row of `gens` begins with `h`: l, 1, 0 or end"),
            ("gens 2\n1 1,5 0\nend\n", 2, "`1,5` is no number as 12, -4.5, 1e-3 or 2/3"),
            ("gens 2\n1 1 0\n", 3, "the line `end` is wanting"),
            ("gens 2\n1 1 0\nend\n1 2 3\n", 4, "`1` stands after the line `end`"),
        ):
            self.refused("sides", text, line, sentence)

    def test_limits_of_the_program(self):
        for text, sentence in (
            (f"gens 1\n1 {2**120}\nend\n", "row 1 has a numerator or a denominator of 2\\^120 or more"),
            (f"gens 1\n1 1/{2**120}\nend\n", "row 1 has a numerator or a denominator of 2\\^120 or more"),
            ("gens 20\nend\n", "vectors have 20 entries, and the program takes at most 19"),
            ("gens 1\n" + "1 0\n" * 9999 + "end\n", "there are 9,999 rows, and the program takes at most 9,998"),
        ):
            with self.subTest(text=text[:20]), self.assertRaisesRegex(NotConverted, sentence):
                convert(Source(text), "gens")
        self.assertTrue(convert(Source(f"gens 1\n1 1/{2**120 - 1}\nend\n"), "gens"))


def by_names(problem):
    """What a problem says, apart from the order and its objectives but the first. Columns `~r_N`, by which glpk writes a range, are
    put back into their rows."""
    columns = problem.names["column"]
    places = range(1, problem.columns + 1)
    slack = {place for place in places if columns[place - 1].startswith("~r_")}

    def entries(row):
        return {columns[place - 1]: value for place, value in row.items() if place not in slack}

    def ends(bound):
        return (None, None) if bound is None else (bound.lower, bound.upper)

    rows = {}
    for name, row, bound in zip(problem.names["row"], problem.rows, problem.row_bounds):
        lower, upper = ends(bound)
        for place in slack & set(row):
            upper = lower + problem.column_bounds[place - 1].upper
        rows[name] = entries(row), lower, upper
    bounds = {columns[place - 1]: ends(problem.column_bounds[place - 1]) for place in places if place not in slack}
    return entries(problem.objectives[0]), rows, bounds


class Programs(Refusals):
    maxDiff = None

    def test_files_beside_glpk(self):
        for name in ("plan.mps", "blend.lp"):
            mine = by_names(read(kind_of(name), (DATA / "programs" / name).read_text()))
            stem = name.partition(".")[0]
            for other, kind in (("free.mps", "mps"), ("fixed.mps", "fixedmps"), ("fixed.mps", "mps"), ("lp", "lp")):
                with self.subTest(name=name, other=other, kind=kind):
                    objective, rows, bounds = by_names(read(kind, (DATA / "programs" / f"{stem}.glpk.{other}").read_text()))
                    given = {None if re.fullmatch("r[._][0-9]+|ROW4", row) else row: value for row, value in rows.items()}
                    self.assertEqual((objective, given, bounds), mine)

    def test_the_vlp_of_an_mps_file(self):
        text = convert(Source((DATA / "programs" / "plan.mps").read_text()), "mps")
        self.assertEqual(text, (DATA / "programs" / "plan.vlp").read_text())
        problem = Problem.read(text)
        self.assertEqual(problem.names["objective"], ("COST", "EMIS"))
        self.assertEqual(problem.names["column"][0], "COAL")
        self.assertEqual(problem.text(), text)

    def test_the_vlp_of_an_lp_file(self):
        text = "maximize multi-objectives\n a: Priority=2 Weight=1 AbsTol=0 RelTol=0\n  x + 2.5 y\n - 3\n b: Weight=2 x[1,2]\n c:\nst\n" \
               "x + y + x + 1 <= 4\n r: -1 <= y - x[1,2] <= 1e1\n 7 >= x\nbounds\n y free\n x[1,2] >= -inf\nend\n"
        source = Source(text)
        self.assertEqual(
            lines_of(convert(source, "lp")),
            "c row 2 r|c column 1 x|c column 2 y|c column 3 x[1,2]|c column 4 constant|c objective 1 a|c objective 2 b|c objective 3 c|"
            "p vlp max 3 4 5 3 4|a 1 1 2|a 1 2 1|a 2 2 1|a 2 3 -1|a 3 1 1|o 1 1 1|o 1 2 25e-1|o 1 4 -3|o 2 3 1|"
            "i 1 u 3|i 2 d -1 10|i 3 u 7|j 1 l 0|j 4 s 1|e",
        )
        self.assertEqual(source.notes, ["line 2: the objective `a` has the constant -3, by the column `constant`, which is fixed at 1"])

    MPS = "NAME t\nROWS\n N cost\n L cap\n E bal\n G low\nCOLUMNS\n x cost 1 cap 1\n x low 2\n y cost 2 bal 1\n{columns}RHS\n{rhs}RANGES\n{ranges}BOUNDS\n{bounds}ENDATA\n"

    def mps(self, **parts):
        return self.MPS.format(**{**{"columns": "", "rhs": "", "ranges": "", "bounds": ""}, **parts})

    def bounds_of(self, text, relax=False):
        """The row and column bounds of an MPS file in one line, with the notes."""
        source = Source(text, relax)
        lines = convert(source, "mps").splitlines()
        return "|".join(line for line in lines if line[0] in "ij"), source.notes

    def test_bounds_of_mps(self):
        plain = "i 1 u 0|i 2 s 0|i 3 l 0|"
        for bounds, told in (
            ("", "j 1 l 0|j 2 l 0"),
            (" UP b x 4\n", "j 1 d 0 4|j 2 l 0"),
            (" UP x 4\n LO y -4.5\n", "j 1 d 0 4|j 2 l -45e-1"),
            (" LO b x 1\n UP b x 1\n", "j 1 s 1|j 2 l 0"),
            (" FX b x 1e3\n FR b y\n", "j 1 s 1000"),
            (" FR x\n MI y\n", ""),
            (" FR b x 0\n PL b y 1e30\n", "j 2 l 0"),
            (" MI b x\n UP b x -3\n", "j 1 u -3|j 2 l 0"),
            (" UP b x 0\n", "j 1 s 0|j 2 l 0"),
            (" UP b x Inf\n LO b y -1e19\n", "j 1 l 0|j 2 l -10000000000000000000"),
            (" LO b x 0\n UP b x -3\n", "j 1 d 0 -3|j 2 l 0"),
        ):
            with self.subTest(bounds=bounds):
                self.assertEqual(self.bounds_of(self.mps(bounds=bounds)), ((plain + told).rstrip("|"), []))
        self.assertEqual(
            self.bounds_of(self.mps(bounds=" UP b x -3\n")),
            (plain + "j 1 u -3|j 2 l 0", ["line 14: `x` has an upper bound below 0 and no lower one, so it is not held at 0 from below"]),
        )

    def test_sides_and_ranges_of_mps(self):
        columns = "|j 1 l 0|j 2 l 0"
        for rhs, ranges, told in (
            (" R cap 4 bal 5\n R low 1\n", "", "i 1 u 4|i 2 s 5|i 3 l 1"),
            (" cap 4 bal 5\n", " cap 2 low 3\n", "i 1 d 2 4|i 2 s 5|i 3 d 0 3"),
            (" R cap 4 bal 5\n", " S cap -2 bal -2.5\n", "i 1 d 2 4|i 2 d 25e-1 5|i 3 l 0"),
            (" R bal 5\n", " S bal 1 low -4\n", "i 1 u 0|i 2 d 5 6|i 3 d 0 4"),
            (" R bal 5\n", " S bal 0\n", "i 1 u 0|i 2 s 5|i 3 l 0"),
        ):
            with self.subTest(rhs=rhs, ranges=ranges):
                self.assertEqual(self.bounds_of(self.mps(rhs=rhs, ranges=ranges))[0], told + columns)

    def test_directions_and_constants_of_mps(self):
        text = self.mps(rhs=" R cost -5.5\n").replace("ROWS", "OBJSENSE\n    MAX\nROWS")
        source = Source(text)
        told = convert(source, "mps").splitlines()
        self.assertIn("p vlp max 3 3 3 1 3", told)
        self.assertTrue({"o 1 3 55e-1", "j 3 s 1", "c column 3 constant"} <= set(told))
        self.assertEqual(source.notes, ["line 5: the objective `cost` has the constant 11/2, by the column `constant`, which is fixed at 1"])
        for words in ("OBJSENSE MAXIMIZE\n", "OBJSENSE\n max\n", "MAX\n"):
            self.assertEqual(read("mps", words + self.mps()).direction, "max")
        self.assertEqual(read("mps", "OBJSENSE\n MINIMIZE\n" + self.mps()).direction, "min")

    def test_fixed_mps_has_names_with_blanks(self):
        text = (
            "NAME          two words\nROWS\n N  the cost\n G  a row\nCOLUMNS\n"
            "    coal one  the cost           2.5   a row                1\n"
            "    gas       the cost             3   a row              2e0\n"
            "RHS\n              a row               10\nBOUNDS\n UP           gas                  4\nENDATA\n"
        )
        self.assertEqual(
            lines_of(convert(Source(text), "fixedmps")),
            "c row 1 a row|c column 1 coal one|c column 2 gas|c objective 1 the cost|p vlp min 1 2 2 1 2|a 1 1 1|a 1 2 2|"
            "o 1 1 25e-1|o 1 2 3|i 1 l 10|j 1 l 0|j 2 d 0 4|e",
        )
        self.refused("mps", text, 3, "a row is its type and its name, and not 3 words; --from fixedmps takes names with blanks")
        moved = text.replace("the cost           2.5", "the cost  2.5")
        self.refused("fixedmps", moved, 6, "`2.5 a row` is no number as 12, -4.5, 1e-3 or 2/3")
        self.refused("fixedmps", text.replace("  the cost           2.5", "   the cost          2.5"), 6,
                     "`t` stands between the fields, in column 23; --from mps takes the free form")

    WHOLE = " MARK 'MARKER' 'INTORG'\n z cost 1 cap 1\n MARK 'MARKER' 'INTEND'\n"

    def test_whole_columns(self):
        self.refused("mps", self.mps(columns=self.WHOLE), 12, "the column `z` is to be whole, which no vlp file can say; --relax leaves that out")
        self.refused("mps", self.mps(columns=self.WHOLE), 12, "`z` has no upper bound: some programs take 1 for a whole column, and some none", True)
        bounds, notes = self.bounds_of(self.mps(columns=self.WHOLE, bounds=" UP b z 9\n"), True)
        self.assertTrue(bounds.endswith("j 3 d 0 9"))
        self.assertEqual(notes, ["line 12: columns that need not be whole any more: 1, `z` the first"])
        for card, told in ((" BV b x\n", "j 1 d 0 1"), (" UI b x 7\n", "j 1 d 0 7"), (" LI b x 2\n UP b x 5\n", "j 1 d 2 5")):
            self.refused("mps", self.mps(bounds=card), 14, "the column `x` is to be whole, which no vlp file can say; --relax leaves that out")
            self.assertIn(told, self.bounds_of(self.mps(bounds=card), True)[0])
        lp = "min\n x + y\nst\n x + y >= 1\nbounds\n y <= 4\n{}\nend\n"
        for section in ("general\n y", "binaries\n x"):
            self.refused("lp", lp.format(section), 8, f"the column `{section[-1]}` is to be whole, which no vlp file can say; --relax leaves that out")
            source = Source(lp.format(section), True)
            self.assertIn("j 2 d 0 4", convert(source, "lp"))
            self.assertEqual(source.notes, [f"line 8: columns that need not be whole any more: 1, `{section[-1]}` the first"])
        self.assertIn("j 1 d 0 1\n", convert(Source(lp.format("bin\n x"), True), "lp"))
        self.refused("lp", lp.format("bin\n y"), 8, "`y` is binary, and line 6 bounds it: some programs keep that and some do not", True)

    def test_refusals_of_mps(self):
        plain = self.mps()
        for text, line, sentence in (
            (plain.replace("NAME t\n", "NAME t\n x 1\n"), 2, "a line of data stands before any section"),
            (plain.replace("ENDATA\n", ""), 14, "the line `ENDATA` is wanting"),
            (plain.replace("RANGES", "SOS"), 12, "the section `SOS` is not taken: NAME, OBJSENSE, MAX, MIN, ROWS, COLUMNS, RHS, RANGES, BOUNDS, ENDATA"),
            (plain.replace("RANGES", "RHS"), 12, "a second section RHS: the first began in line 11"),
            ("COLUMNS\n", 1, "the section ROWS comes before COLUMNS"),
            (plain.replace(" L cap", " M cap"), 4, "`M` is no type of a row: N, L, G or E"),
            (plain.replace(" G low", " G cap"), 6, "the name `cap` was given in line 4"),
            (plain.replace(" N cost", " N $cost"), 3, "the name `$cost` begins with $, as a comment does"),
            (plain.replace(" x low 2", " x lov 2"), 9, "no row is named `lov`"),
            (plain.replace(" x low 2", " x cap 2"), 9, "column `x` has an entry of row `cap` before"),
            (plain.replace(" x low 2", " x low 2,5"), 9, "`2,5` is no number as 12, -4.5, 1e-3 or 2/3"),
            (plain.replace(" x low 2", " x low 2D0"), 9, "`2D0` is no number as 12, -4.5, 1e-3 or 2/3"),
            (plain.replace(" x low 2", " x low"), 9, "2 words are no name with pairs of a row and a value; --from fixedmps takes names with blanks"),
            (self.mps(columns=" x bal 1\n"), 11, "the column `x` was given in line 8"),
            (self.mps(columns=" M 'MARKER' 'SOSORG'\n"), 11, "the marker `'SOSORG'` is not taken: 'INTORG' or 'INTEND'"),
            (self.mps(columns=" M 'MARKER' 'INTEND'\n"), 11, "the marker INTEND ends none"),
            (self.mps(rhs=" R cap 1\n S low 1\n"), 13, "`S` is a second set of RHS, beside `R`: leave one"),
            (self.mps(rhs=" R cap 1\n R cap 1\n"), 13, "the right-hand side of `cap` was given before"),
            (self.mps(rhs=" R cap 1e30\n"), 12, "`1e30` is a right-hand side of 1e20 or more, which many programs read as none: leave it out"),
            (self.mps(ranges=" R cost 1\n"), 13, "`cost` is an objective, and has no range"),
            (self.mps(ranges=" R cap 1\n R cap 1\n"), 14, "the range of `cap` was given before"),
            (self.mps(bounds=" XX b x 1\n"), 14, "`XX` is no type of a bound: LO, LI, UP, UI, FX, FR, MI, PL, BV"),
            (self.mps(bounds=" SC b x 1\n"), 14, "the bound type SC is not taken: a semi-continuous column is none of a linear program"),
            (self.mps(bounds=" UP b z 1\n"), 14, "no column is named `z`"),
            (self.mps(bounds=" FR b z\n"), 14, "no column is named `z`"),
            (self.mps(columns=" 5 cap 1\n", bounds=" FR x 5\n"), 15, "`5` may be a column or a value here: name the set, and leave a value out"),
            (self.mps(bounds=" UP b x 1\n UP b x 2\n"), 15, "the upper bound of `x` was given in line 14"),
            (self.mps(bounds=" FX b x 1\n MI b x\n"), 15, "the lower bound of `x` was given in line 14"),
            (self.mps(bounds=" UP b x 1e20\n"), 14, "`1e20` is a bound of 1e20 or more, which many programs read as none: leave it out"),
            (self.mps(bounds=" UP b x -inf\n"), 14, "`-inf` is no upper bound"),
            (self.mps(bounds=" UP b x 1\n UP c y 2\n"), 15, "`c` is a second set of BOUNDS, beside `b`: leave one"),
            (self.mps(bounds=" UP b\n"), 14, "a bound is its type, its set, a column and a value, and not 2 words"),
            (plain.replace("NAME t\n", "OBJSENSE MAY\n"), 1, "`MAY` is no direction: MIN or MAX"),
            (plain.replace("NAME t\n", "OBJSENSE MAX\n MIN\n"), 2, "the direction was given in line 1"),
            ("ROWS\n L r\nCOLUMNS\n x r 1\nENDATA\n", 5, "the file gives no objective"),
        ):
            self.refused("mps", text, line, sentence)

    def test_refusals_of_lp(self):
        def lp(objective="x + y", rows="x + y >= 1", rest=""):
            return f"minimize\n o: {objective}\nsubject to\n {rows}\n{rest}end\n"

        self.assertIn("i 1 l 1", convert(Source(lp()), "lp"))
        for text, line, sentence in (
            ("max: x + y;\nx <= 1;\n", 1, "`max: x + y;` stands where `minimize` or `maximize` is wanted, with which a file begins"),
            (lp().replace("end\n", ""), 5, "the line `end` is wanting"),
            (lp() + "bounds\n", 6, "`bounds` stands after `end`"),
            (lp("x + y z"), 2, "`z` stands where `subject to`, or `multi-objectives` after the direction, is wanted"),
            (lp("x p: y"), 2, "`p` stands where `subject to`, or `multi-objectives` after the direction, is wanted"),
            (lp("x + [ x ^ 2 ] / 2"), 2, "`[` is not taken: a square is no matter of a linear program"),
            (lp("x + - y"), 2, "`-` stands where a number or a name, after one sign, is wanted"),
            (lp("3 e2 + y"), 2, "the name `e2` may be an exponent: rename it"),
            (lp("x + e1x"), 2, "the name `e1x` may be an exponent: rename it"),
            (lp("2 3 x"), 2, "`3` stands where `subject to`, or `multi-objectives` after the direction, is wanted"),
            (lp(rows="x + y >= 1 z"), 4, "`z` stands where the end of the line, after the right-hand side, is wanted"),
            (lp(rows="x >= y"), 4, "`y` stands where a number, alone on the right-hand side, is wanted"),
            (lp(rows="x + y"), 5, "the text ends where `<=`, `>=` or `=` is wanted"),
            (lp(rows="1 <= x >= 2"), 4, "a range has `<=` twice, or `>=` twice"),
            (lp(rows="c: x = 1 -> y <= 2"), 4, "`->` is not taken: it belongs to an indicator, which is no row of a linear program"),
            (lp(rows="c: x <= 1e31"), 4, "`1e31` is a side of 1e20 or more, which many programs read as none: leave it out"),
            (lp(rows="c: x <= 1\n c: y <= 1"), 5, "the name `c` was given in line 4"),
            (lp(rows="o: x <= 1"), 4, "the name `o` was given in line 2"),
            (lp(rows="c: 3 <= 5"), 4, "a row has a column at least"),
            (lp(rest="bounds\n x <= -3\n"), 6, "`x` has an upper bound below 0 and no lower one, which some programs read as 0 and some as none: give it"),
            (lp(rest="bounds\n z <= 3\n"), 6, "no column is named `z`"),
            (lp(rest="bounds\n x <= 3\n x <= 4\n"), 7, "the upper bound of `x` was given in line 6"),
            (lp(rest="bounds\n x <= 3 4\n"), 6, "`4` stands where the end of the line is wanted"),
            (lp(rest="bounds\n x <= -inf\n"), 6, "an infinite bound of `x` bounds nothing from this side"),
            (lp(rest="bounds\n 1 <= x >= 2\n"), 6, "a bound on both sides has `<=` twice, or `>=` twice"),
            (lp(rest="bounds\n x y\n"), 6, "`y` stands where `<=`, `>=` or `=` is wanted"),
            (lp(rest="semi-continuous\n x\n"), 5, "the section `semi-continuous` is not taken: it is none of a plain linear program"),
            (lp(rest="bounds\n x <= 1\nbounds\n y <= 1\n"), 7, "a second section bounds: the first began in line 5"),
            (lp().replace("subject to\n", ""), 4, "`end` stands where `subject to` is wanted"),
            ("minimize multi-objectives\n a: Weight=-1 x\nst\n x >= 1\nend\n", 2, "a weight of 0 or below turns an objective: turn its signs and give 1"),
        ):
            self.refused("lp", text, line, sentence)

    def test_numbers_that_no_vlp_file_has(self):
        with self.assertRaisesRegex(NotConverted, "row 1, x: .* has no decimal form of at most 36 digits"):
            convert(Source("min\n x\nst\n 1e-37 x >= 1\nend\n"), "lp")
        with self.assertRaisesRegex(NotConverted, "row 1, x1: .* has no decimal form of at most 36 digits"):
            convert(Source(f"sides 1\nh {10**37} 1\nend\n"), "sides", "vlp")


class Sets(unittest.TestCase):
    def test_a_set_as_a_problem_and_back(self):
        sides = "sides 2|e 1 1/3 1/2|h -1 0 -4|end"
        problem = convert(Source(text_of(sides)), "sides", "vlp")
        self.assertEqual(lines_of(problem), "p vlp min 2 2 3 1 0|a 1 1 6|a 1 2 2|a 2 1 -1|i 1 s 3|i 2 l -4|e")
        self.assertEqual(lines_of(convert(Source(problem), "vlp", "sides")), "sides 2|e 6 2 3|h -1 0 -4|end")

    def test_a_problem_as_a_set(self):
        source = Source((EXAMPLES / "energy.vlp").read_text())
        self.assertEqual(
            lines_of(convert(source, "vlp", "sides")),
            "sides 3|h 1 1 1 10|h 1 0 0 0|h 0 1 0 0|h 0 -1 0 -8|h 0 0 1 0|h 0 0 -1 -4|end",
        )
        self.assertEqual(source.notes, ["the objectives are left out: what is feasible is told"])
        self.assertIn("-10 1 1 1", convert(source, "vlp", "ine").splitlines())

    def test_a_projection(self):
        text = (EXAMPLES / "early-late.sum").read_text()
        self.assertEqual(lines_of(convert(Source(text), "projection")), "sides 1|h -1 -4|h 1 2|end")
        self.assertEqual(lines_of(convert(Source(text), "projection", "gens")), "gens 1|1 2|1 4|end")
        nothing = (EXAMPLES / "early-late.meet").read_text()
        self.assertEqual(lines_of(convert(Source(nothing), "projection")), "sides 1|h 0 1|end")
        self.assertEqual(lines_of(convert(Source(nothing), "projection", "gens")), "gens 1|end")
        self.assertEqual(lines_of(convert(Source(nothing), "projection", "vlp")), "p vlp min 1 1 0 1 0|i 1 l 1|e")

    def test_no_way(self):
        for text, kind, target, sentence in (
            ("gens 1\n1 0\nend\n", "gens", "sides", "these are points, and sides tells inequalities: convert to gens, and let `bensolve facets`"),
            ("gens 1\n1 0\nend\n", "gens", "vlp", "these are points, and vlp tells inequalities"),
            ("sides 1\nend\n", "sides", "ext", "these are inequalities, and ext tells points: convert to sides, and let `bensolve vertices`"),
            ("sides 1\nend\n", "sides", "mps", "files of the kind mps are read and not written"),
        ):
            with self.subTest(kind=kind, target=target), self.assertRaisesRegex(NotConverted, sentence):
                convert(Source(text), kind, target)


class Command(unittest.TestCase):
    def setUp(self):
        folder = tempfile.TemporaryDirectory()
        self.addCleanup(folder.cleanup)
        self.folder = Path(folder.name)
        self.cube = self.put("cube.ine", (DATA / "cdd" / "cube.ine").read_text())

    def put(self, name, text):
        path = self.folder / name
        path.write_bytes(text.encode("utf-8", "surrogateescape"))
        return str(path)

    def path(self, name):
        return str(self.folder / name)

    def call(self, *words, stdin=""):
        """The status, standard output and standard error of the command."""
        out, err = io.TextIOWrapper(io.BytesIO(), newline=""), io.StringIO()
        given = io.TextIOWrapper(io.BytesIO(stdin.encode()))
        with mock.patch("sys.stdout", out), mock.patch("sys.stdin", given), redirect_stderr(err):
            status = main(list(words))
            out.flush()
        return status, out.buffer.getvalue().decode("utf-8", "surrogateescape"), err.getvalue().replace(str(self.folder) + os.sep, "")

    def test_kinds_by_names_and_endings(self):
        cube = text_of(TEXTS["cube.ine"])
        self.assertEqual(self.call(self.cube), (0, cube, ""))
        self.assertEqual(self.call(self.cube, "sides"), (0, cube, ""))
        self.assertEqual(self.call(self.cube, self.path("cube.sides")), (0, "", ""))
        self.assertEqual((self.folder / "cube.sides").read_text(), cube)
        self.assertEqual(self.call(self.cube, "normaliz", self.path("cube.text")), (0, "", ""))
        self.assertEqual(self.call("--from", "normaliz", self.path("cube.text")), (0, cube, ""))
        self.assertEqual(self.call("-", "sides", stdin=cube), (0, cube, ""))
        self.assertEqual(self.call("--from", "ine", "-", stdin=Path(self.cube).read_text()), (0, cube, ""))
        sums = str(EXAMPLES / "early-late.sum")
        self.assertEqual(self.call(sums, "gens"), (0, "gens 1\n1 2\n1 4\nend\n", ""))

    def test_notes_stand_beside(self):
        plan = self.put("plan.mps", Programs.MPS.format(columns="", rhs="", ranges="", bounds=" UP b x -3\n"))
        status, text, notes = self.call(plan)
        self.assertEqual((status, text[:7]), (0, "c row 1"))
        self.assertEqual(notes, "bensolve: plan.mps: line 14: `x` has an upper bound below 0 and no lower one, so it is not held at 0 from below\n")

    def test_refused_and_nothing_written(self):
        bad = self.put("bad.ine", Path(self.cube).read_text() + "redundant\n")
        old = self.put("old.sides", "sides 1\nend\n")
        before = sorted(os.listdir(self.folder))
        for words, told in (
            ((bad, old), "bad.ine:12: the option `redundant` is not known"),
            ((bad, self.path("new.sides")), "bad.ine:12: the option `redundant` is not known"),
            ((self.cube, self.path("new.gens")), "cube.ine: these are inequalities, and gens tells points: convert to sides, and let `bensolve vertices` turn them"),
            ((self.cube, "sides", self.cube), "`cube.ine` is the file that is read: give the text that is made another name"),
            ((self.cube, "cone"), f"`cone` is no kind, and its ending tells none: {', '.join(KINDS)}"),
            ((self.cube, "cone", "x"), f"`cone` is no kind: {', '.join(KINDS)}"),
            (("--form", self.cube), "`--form` is no option: --from KIND or --relax"),
            ((self.cube, "--from"), "after --from a kind is wanted"),
            ((), "a file is wanted, and then maybe a kind and the name of the text that is made"),
            ((self.path("none.ine"),), "`none.ine` cannot be read: No such file or directory"),
            ((self.cube, self.path("none/x.sides")), "`none/x.sides` cannot be written: No such file or directory"),
            (("-",), "neither the ending nor the first word tells the kind of `-`: --from KIND names it"),
        ):
            with self.subTest(words=words):
                self.assertEqual(self.call(*words), (2, "", f"bensolve: {told}\n"))
        self.assertEqual(sorted(os.listdir(self.folder)), before)
        self.assertEqual(Path(old).read_text(), "sides 1\nend\n")

    def test_a_text_is_replaced_whole(self):
        old = self.put("old.sides", "sides 1\nend\n")
        os.chmod(old, 0o640)
        self.assertEqual(self.call(self.cube, old)[0], 0)
        self.assertEqual(Path(old).read_text(), text_of(TEXTS["cube.ine"]))
        self.assertEqual(stat.S_IMODE(os.stat(old).st_mode), 0o640)
        self.assertEqual(sorted(os.listdir(self.folder)), ["cube.ine", "old.sides"])

    def test_help(self):
        status, text, told = self.call("--help")
        self.assertEqual((status, told), (0, ""))
        for name in KINDS:
            self.assertIn(f"\n{name} ", text)

    @unittest.skipUnless((TOP / "python" / "bensolve" / "__main__.py").exists(), "the package has no commands")
    def test_as_a_program(self):
        environment = {**os.environ, "PYTHONPATH": str(TOP / "python")}
        done = subprocess.run([sys.executable, "-B", "-m", "bensolve", "convert", self.cube, "vlp"], capture_output=True, text=True, env=environment)
        self.assertEqual((done.returncode, done.stderr), (0, ""))
        self.assertEqual(len(Problem.read(done.stdout).rows), 6)


if __name__ == "__main__":
    unittest.main()
