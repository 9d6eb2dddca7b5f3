"""Pages are read as HTML, and what they say is compared with the report; the decision of the script with plain fractions."""
import base64
import contextlib
import functools
import hashlib
import io
import json
import os
import random
import re
import shutil
import subprocess
import tempfile
import unittest
from fractions import Fraction
from html.parser import HTMLParser
from pathlib import Path

from bensolve import __main__ as commands
from bensolve import explore
from bensolve.problem import Problem
from bensolve.shape import dot
from bensolve.texts import Report
from tests.cases import EXAMPLES, all_cases

SAMPLES = Path(__file__).parent / "data"
SOLVED = [EXAMPLES / name for name in ("energy", "farm", "tradeoff", "transfer", "transport", "prices")]
SOLVED += [SAMPLES / name for name in ("hostile", "line3", "parts3", "parts5")]
OTHERS = [EXAMPLES / name for name in ("shortage", "unlimited")]
TAGS = set("html head meta title style body main h1 h2 p strong b small div section svg label input output span button ul li dl details summary "
           "table thead tbody tr th td script".split())
ATTRIBUTES = set("lang charset name content http-equiv id class tabindex role aria-roledescription aria-labelledby aria-describedby aria-label "
                 "aria-live for type min max autocomplete spellcheck scope open".split())


class Reader(HTMLParser):
    """The tags, the attributes and the texts of a page, by the element that they stand in."""

    def __init__(self, text):
        super().__init__()
        self.tags, self.attributes, self.texts, self.within = set(), set(), {}, []
        self.feed(text)

    def handle_starttag(self, tag, attributes):
        self.tags.add(tag)
        self.attributes |= {name for name, _ in attributes}
        if tag not in ("meta", "input"):
            self.within.append(tag + "".join(f" {value}" for name, value in attributes if name in ("id", "type")))

    def handle_endtag(self, tag):
        self.within.pop()

    def handle_data(self, data):
        if data.strip():
            self.texts.setdefault(self.within[-1], []).append(data)


@functools.lru_cache(None)
def load(path):
    return Problem.load(f"{path}.vlp"), Report.load(f"{path}.report")


@functools.lru_cache(None)
def page_of(path):
    return explore.page_of(*load(path), f"{path.name}.vlp")


def data_of(text):
    return json.loads(re.search('id="data">(.*?)</script>', text, re.S).group(1))


def run(*words):
    err = io.StringIO()
    with contextlib.redirect_stderr(err):
        try:
            status = commands.main(["explore", *map(str, words)])
        except SystemExit as end:
            status = end.code
    return status, err.getvalue()


class Pages(unittest.TestCase):
    def test_each_page_is_whole_and_has_no_other_script(self):
        for path in SOLVED + OTHERS:
            with self.subTest(path.name):
                text = page_of(path)
                page = Reader(text)
                self.assertEqual(page.within, [])
                self.assertLessEqual(page.tags, TAGS)
                self.assertLessEqual({name for name in page.attributes if not name.startswith("data-")}, ATTRIBUTES)
                policy = re.search("style-src '(.*?)'; script-src '(.*?)'", text)
                for part, told in zip(("style", "script"), policy.groups()):
                    body = re.search(f"<{part}>(.*?)</{part}>", text, re.S).group(1)
                    self.assertEqual(told, "sha256-" + base64.b64encode(hashlib.sha256(body.encode()).digest()).decode())
                self.assertEqual(text.count("<script"), 2)
                self.assertFalse("@@" in text.replace("@@script@@ {0}", ""))

    def test_numbers_of_the_report_stand_in_the_page(self):
        for path in SOLVED:
            problem, report = load(path)
            text = page_of(path)
            data = data_of(text)
            for part, vectors in (("points", report.points), ("directions", report.directions), ("lines", report.lines),
                                  ("facets", [facet.normal for facet in report.facets])):
                self.assertEqual([[Fraction(value) for value in vector] for vector in data[part]], [list(vector) for vector in vectors])
            self.assertEqual((data["maximises"], [Fraction(value) for value in data["c"]]), (problem.direction == "max", list(report.duality)))
            for plan in report.plans:
                for column, value in plan.items():
                    self.assertIn(f"<li>{explore.escaped(explore.printable(problem.name('column', column))[:60])} <b>{value}</b>", text)
            for multipliers in report.multipliers:
                for value in multipliers.values():
                    self.assertIn(f"<li>{value} × ", text)

    def test_places_are_those_of_the_numbers(self):
        for path in SOLVED:
            _, report = load(path)
            data = data_of(page_of(path))
            ends = [[Fraction(value) for value in axis] for axis in data["box"]]
            for point, places in zip(report.points, data["places"]):
                for value, place, (low, high) in zip(point, places, ends):
                    self.assertAlmostEqual(float(low + (high - low) * (Fraction(place) + 1) / 2), float(value), delta=float(high - low) * 1e-6)
            for axis, (low, high) in zip(data["ticks"], ends):
                for place, told in axis[0]:
                    self.assertAlmostEqual(float(low + (high - low) * (Fraction(place) + 1) / 2), float(told), delta=float(high - low) * 1e-6)

    def test_cells_hold_the_weights_that_choose_their_point(self):
        for name in ("energy", "farm", "transport", "prices"):
            _, report = load(EXAMPLES / name)
            cells = list(explore.cells_of(report))
            ends = [(min(weights), max(weights)) for weights in zip(*(facet.normal for facet in report.facets))]
            turn = -1 if report.maximises else 1
            for k, cell in enumerate(cells):
                for corner in cell:
                    weights = [low + (high - low) * share for (low, high), share in zip(ends, corner)][:len(report.duality) - 1]
                    weights.append(1 - dot(weights, report.duality))          # their product with c is 1, and the last entry of c is 1
                    self.assertEqual(min(turn * dot(weights, point) for point in report.points), turn * dot(weights, report.points[k]))

    def test_other_answers(self):
        shortage, unlimited = map(page_of, OTHERS)
        self.assertIn("they sum to 0 ≥ 1.", shortage)
        self.assertIn("<li>1 × row 1 ≥ 10</li>", shortage)
        self.assertIn("<li>1 × x1 ≤ 5</li>", shortage)
        self.assertIn("Every vector is in the image", unlimited)
        self.assertEqual((data_of(shortage), data_of(unlimited)), (None, None))

    def test_reports_of_the_cases_have_pages(self):
        seen = set()
        for case in all_cases():
            if case.words[:1] in (["solve"], ["dual"], ["check"]) and case.keys.get("status") == ["0"]:
                for text in case.texts("out"):
                    report = Report.read(text)
                    page = Reader(explore.page_of(Problem.read(case.text("file")), report, case.name))
                    self.assertEqual((page.within, page.tags - TAGS), ([], set()))
                    seen.add((report.answer, len(report.duality)))
        self.assertGreater(len(seen), 5)

    def test_names_are_text(self):
        problem, _ = load(SAMPLES / "hostile")
        text = page_of(SAMPLES / "hostile")
        page = Reader(text)
        for kind, count in (("objective", 2), ("column", 3), ("row", 1)):
            for number in range(1, count + 1):
                name = explore.printable(problem.name(kind, number))[:60]
                self.assertTrue(any(name.strip() in told for told in page.texts.get("li", []) + page.texts.get("th", [])), name)
        self.assertEqual(data_of(text)["names"], [explore.printable(problem.name("objective", k))[:60] for k in (1, 2)])
        self.assertIn("@@script@@ {0}", text)
        self.assertNotIn("\u202e", text)
        self.assertIsNone(re.search("[<>&]", re.search('id="data">(.*?)</script>', text, re.S).group(1)))
        title = Reader(explore.page_of(*load(EXAMPLES / "energy"), '</title><script>"\udc80'))
        self.assertEqual((title.texts["title"], title.texts["h1"]), (['</title><script>" '], ['</title><script>" ']))

    def test_decimals_beside_fractions(self):
        self.assertEqual([explore.near_text(Fraction(*value)) for value in ((1, 2), (2, 3), (-1, 8), (10 ** 40 + 1, 3))],
                         ["=&nbsp;0.5", "≈&nbsp;0.666667", "=&nbsp;-0.125", "≈&nbsp;3.33333e+39"])


class Decisions(unittest.TestCase):
    SCRIPT = """
const lines = require('fs').readFileSync(0, 'utf8').trim().split('\\n').map(JSON.parse), { maximises, ...parts } = lines[0];
const answer = { maximises, c: parts.c.map(parseExact) };
for (const part of ['points', 'directions', 'lines']) answer[part] = parts[part].map(row => row.map(parseExact));
for (const weights of lines.slice(1)) {
  const told = choose(answer, weights.map(parseExact));
  console.log(JSON.stringify(told.why ? null : [told.best, exactText(told.value), told.unit.map(exactText)]));
}"""

    @unittest.skipUnless(shutil.which("node"), "the script is run by node")
    def test_the_script_decides_as_fractions_do(self):
        script = explore.template("exact.js") + explore.template("choice.js") + self.SCRIPT
        rng, ties, endless = random.Random(3), 0, 0
        for path in SOLVED:
            _, report = load(path)
            turn, count = -1 if report.maximises else 1, len(report.duality)
            drawn = [[Fraction(rng.randrange(-2, 20), rng.randrange(1, 9)) for _ in range(count)] for _ in range(30)]
            drawn += [list(facet.normal) for facet in report.facets] + [[Fraction(0)] * count]
            lines = [data_of(page_of(path)), *([str(weight) for weight in weights] for weights in drawn)]
            told = subprocess.run(["node", "-e", script], input="\n".join(map(json.dumps, lines)), capture_output=True, text=True, check=True)
            for weights, line in zip(drawn, told.stdout.splitlines()):
                got = json.loads(line)
                no_best = not any(weights) or any(dot(weights, line) for line in report.lines) or any(
                    turn * dot(weights, direction) < 0 for direction in report.directions)
                endless += no_best
                self.assertEqual(got is None, no_best)
                if got:
                    scale = dot(weights, report.duality)
                    sums = [dot(weights, point) / scale for point in report.points]
                    best = min(sums, key=lambda value: turn * value)
                    self.assertEqual(got[0], [k for k, value in enumerate(sums) if value == best])
                    self.assertEqual((Fraction(got[1]), [Fraction(text) for text in got[2]]), (best, [weight / scale for weight in weights]))
                    ties += len(got[0]) > 1
        self.assertGreater(min(ties, endless), 20)


class Refusals(unittest.TestCase):
    def test_reports_that_are_not_of_the_problem(self):
        energy = (EXAMPLES / "energy.report").read_text()
        for change, told in (
                (("n 2 4 6", "n 2 3 6"), "facet 1 does not touch"),
                (("n 2 1 5", "n 2 1 6"), "facet 5 does not touch"),
                (("x 1 1 10", "x 1 1 11"), "the plan of point 1"),
                (("x 1 1 10", "x 1 4 10"), "a column after the last one, which is 3"),
                (("u 2 1 12/5 2 7/5", "u 2 1 12/5 7 7/5"), "a side after the last one, which is 6"),
                (("0 0 -1\n", "0 0 1\n"), "maximises")):
            with self.subTest(told):
                self.assertIn(change[0], energy)
                with self.assertRaisesRegex(explore.ReportFault, told):
                    explore.page_of(Problem.load(EXAMPLES / "energy.vlp"), Report.read(energy.replace(*change)), "bent")
        for name in ("transport", "farm", "tradeoff"):
            with self.assertRaises(explore.ReportFault):
                explore.page_of(Problem.load(EXAMPLES / "energy.vlp"), Report.load(EXAMPLES / f"{name}.report"), "other")

    def test_no_page_is_written_then(self):
        energy, report = EXAMPLES / "energy.vlp", EXAMPLES / "energy.report"
        with tempfile.TemporaryDirectory() as folder:
            out = Path(folder) / "page.html"
            fault = Path(folder) / "fault"
            fault.write_text("fault 3 line 1 kind 1 NoProblem\n")
            for words, status, told in (
                    ([energy], 2, "usage: python3 -m bensolve explore"),
                    ([energy, EXAMPLES / "farm.report", out], 1, "farm.report: "),
                    ([energy, fault, out], 1, "this is a fault line"),
                    ([energy, EXAMPLES / "energy.weights", out], 1, "no report"),
                    ([report, report, out], 1, "energy.report:1: "),
                    ([energy, energy, out], 1, "energy.vlp:1: ")):
                with self.subTest(told):
                    got, error = run(*words)
                    self.assertEqual(got, status)
                    self.assertIn(told, error)
                    self.assertFalse(out.exists())

    def test_what_was_read_is_not_written_over(self):
        with tempfile.TemporaryDirectory() as folder:
            file, report = Path(folder) / "energy.vlp", Path(folder) / "energy.report"
            for path in (file, report):
                path.write_bytes((EXAMPLES / path.name).read_bytes())
            for out in (file, report):
                self.assertEqual(run(file, report, out)[0], 1)
            self.assertEqual(run(file, report), (0, ""))
            self.assertEqual(sorted(os.listdir(folder)), ["energy.html", "energy.report", "energy.vlp"])
            self.assertEqual(report.read_bytes(), (EXAMPLES / "energy.report").read_bytes())
            self.assertTrue((Path(folder) / "energy.html").read_text(encoding="utf-8").startswith("<!DOCTYPE html>"))


if __name__ == "__main__":
    unittest.main()
