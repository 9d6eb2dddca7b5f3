"""One page to look at an answer, without network or library.

    explore FILE.vlp REPORT [OUT.html]

REPORT is what `solve` prints of FILE.vlp. The page shows the frontier (two objectives), the surface (three) or parallel axes (one,
four and more), the plans by the names of the problem, and which of them given weights choose: that is decided in exact numbers.
Without OUT.html the page goes to REPORT with `.html` in the place of its ending.

The page is no proof: it draws what the report says. Tested is that the report is one of this problem, where that is easy.
"""
import argparse
import base64
import hashlib
import html
import json
import os
import pkgutil
import re
from decimal import Context, Decimal, Inexact
from fractions import Fraction
from typing import Dict, List, Sequence, Tuple

from .picture import report_scene, ticks_of, tuple_text
from .problem import Problem, Side
from .shape import ShapeFault, area_of, box_around, dot, faces_of, ring_of
from .texts import FaultLine, Report, load_any, write_text

SCRIPTS = ("exact", "choice", "sheet", "answer", "frontier", "surface", "parallel", "cells", "page")
NEAR, FAR = Fraction(12, 100), Fraction(3, 10)
LONGEST_NAME = 60


class ReportFault(ValueError):
    """Why a report is not one of this problem, or cannot be shown."""


# ---- whether the report is one of this problem
def told_duality(problem: Problem):
    """The duality vector that a report must have, divided by its last entry; None where the program chooses it for a cone."""
    count = len(problem.objectives)
    if problem.duality is None:
        return (Fraction(1),) * count if problem.cone is None else None
    last = problem.duality.get(count)
    return last and tuple(problem.duality.get(place, Fraction(0)) / last for place in range(1, count + 1))


def test_report(problem: Problem, report: Report) -> None:
    """Refuses a report that is plainly of another problem, or that contradicts itself."""
    sides, objectives = len(problem.sides()), len(problem.objectives)
    if report.answer != "infeasible" and len(report.duality) != objectives:
        raise ReportFault(f"the report has {len(report.duality)} objectives and the problem {objectives}")
    if report.answer != "infeasible" and told_duality(problem) not in (None, report.duality):
        raise ReportFault("the report has another duality vector than the problem")
    if any(place > sides for vector in report.multipliers for place in vector):
        raise ReportFault(f"the report names a side after the last one, which is {sides}")
    lined = [ray for both in report.line_rays for ray in both]
    if any(place > problem.columns for vector in (*report.plans, *report.rays, *lined) for place in vector):
        raise ReportFault(f"the report names a column after the last one, which is {problem.columns}")
    if report.answer != "solved":
        return
    if report.maximises != (problem.direction == "max"):
        raise ReportFault("one of the problem and the report maximises, and the other minimises")
    if not report.points or not report.facets:
        raise ReportFault("a solved answer has a point and a facet at least")
    vectors = [(point, 1) for point in report.points] + [(direction, 0) for direction in report.directions]
    for number, (facet, touching) in enumerate(zip(report.facets, report.incidence), 1):
        for k in touching:
            vector, scale = vectors[k - 1]
            if dot(facet.normal, vector) != facet.bound * scale:
                raise ReportFault(f"facet {number} does not touch what the report says: {k}")
    for number, (point, plan) in enumerate(zip(report.points, report.plans), 1):
        if not report.lines and point != tuple(problem.value(row, plan) for row in problem.objectives):
            raise ReportFault(f"the plan of point {number} has other objectives than the point")


# ---- words and numbers as HTML
escaped = html.escape


def count_text(count: int, word: str) -> str:
    return f"{count} {word}{'' if count == 1 else 's'}"


def printable(text: str) -> str:
    return "".join(sign if sign.isprintable() else " " for sign in text)


def near_text(value: Fraction, digits: int = 6) -> str:
    """A decimal for a fraction, after `=` where it is exact and `≈` where it is rounded."""
    context = Context(prec=digits)
    near = context.divide(Decimal(value.numerator), Decimal(value.denominator))
    return f"{'≈' if context.flags[Inexact] else '='}&nbsp;{near.normalize():g}"


def number_html(value: Fraction) -> str:
    return f"<b>{value}</b>" if value.denominator == 1 else f"<b>{value}</b> <small>{near_text(value)}</small>"


def list_html(entries: Sequence[Tuple[str, str]], none: str = "none") -> str:
    """Names with what belongs to them, as HTML both; folded where there are many."""
    if not entries:
        return none
    items = "<ul>" + "".join(f"<li>{name} {value}</li>" for name, value in entries) + "</ul>"
    return items if len(entries) <= 6 else f"<details><summary>{len(entries)} entries</summary>{items}</details>"


def table_html(ident: str, heads: Sequence[str], rows: Sequence[Tuple[str, Sequence[str]]]) -> str:
    """A table from the attributes and the cells of its rows; each cell has its head, for where there is no room for columns."""
    head = "".join(f'<th scope="col">{escaped(text)}</th>' for text in heads)
    body = []
    for attributes, cells in rows:
        first, *rest = (f'data-label="{escaped(text)}"><div>{cell}</div>' for text, cell in zip(heads, cells))
        body.append(f'<tr{attributes}><th scope="row" {first}</th>' + "".join(f"<td {cell}</td>" for cell in rest) + "</tr>")
    return f'<div class="wide"><table id="{ident}"><thead><tr>{head}</tr></thead>\n<tbody>' + "\n".join(body) + "</tbody></table></div>"


def weights_text(weights) -> str:
    return ",".join(str(weight) for weight in weights)


# ---- what stands on the page
class Page:
    """The parts of the page of one answer. What comes from a file is escaped here, or goes into the data of the script."""

    def __init__(self, problem: Problem, report: Report, title: str) -> None:
        self.problem, self.report, self.title = problem, report, printable(title)
        self.sides = problem.sides()
        self.names = [self.name("objective", number) for number in range(1, len(problem.objectives) + 1)]

    def name(self, kind: str, number: int) -> str:
        return printable(self.problem.name(kind, number))[:LONGEST_NAME]

    def columns_html(self, plan, none: str) -> str:
        return list_html([(escaped(self.name("column", column)), number_html(value)) for column, value in plan.items()], none)

    def side_text(self, side: Side) -> str:
        return f"{self.name(side.of, side.number)} {'≤' if side.is_upper else '≥'} {side.value}"

    def multipliers_html(self, multipliers) -> str:
        return list_html([(f"{value} ×", escaped(self.side_text(self.sides[k - 1]))) for k, value in multipliers.items()])

    def change_html(self, vector) -> str:
        return ", ".join(f"{escaped(name)} {'+' if value > 0 else '−'}{abs(value)}" for name, value in zip(self.names, vector) if value)

    def text(self) -> str:
        """The whole page."""
        paragraphs, parts, data = {"infeasible": self.infeasible, "whole": self.whole, "solved": self.solved}[self.report.answer]()
        script = "\n".join(template(f"{name}.js") for name in SCRIPTS) if data else ""
        script = f"'use strict';\n{script}" if data else ""
        style = template("page.css")
        return filled("page.html", {
            "title": escaped(self.title),
            "words": "\n".join(f"<p>{paragraph}</p>" for paragraph in [*self.about(), *paragraphs]),
            "parts": "\n".join(parts),
            "data": island(data),
            "style": style,
            "style_hash": hash_of(style),
            "script": script,
            "script_hash": hash_of(script),
        })

    def about(self) -> List[str]:
        problem = self.problem
        cone = "" if problem.cone is None else f", ordered by a cone {'in dual form' if problem.dual_form else 'with generators'}"
        direction = "maximised" if problem.direction == "max" else "minimised"
        words = [f"{count_text(len(self.names), 'objective')}, {direction}{cone}: {escaped(', '.join(self.names))}; "
                 f"{count_text(problem.columns, 'column')}, {count_text(len(problem.rows), 'row')}."]
        if any(self.report.free):
            rows, columns = self.report.free
            words.append(f"Without a bound: {count_text(rows, 'row')} and {count_text(columns, 'column')}. "
                         "Where none was meant, a line is missing in the file.")
        return words

    def infeasible(self):
        multipliers = self.report.multipliers[0]
        terms = [(value, self.sides[k - 1]) for k, value in multipliers.items()]
        total = sum(-value * side.value if side.is_upper else value * side.value for value, side in terms)
        words = ["<strong>No plan meets all bounds: the problem is infeasible.</strong> Those below contradict each other: each times its "
                 f"number, upper bounds with their signs turned, they sum to 0 ≥ {total}. One of them is to be changed."]
        return words, ["<h2>What contradicts itself</h2>", self.multipliers_html(multipliers)], None

    def whole(self):
        words = ["<strong>Every vector is in the image: all objectives can improve without end at once.</strong> No weights have a best plan."]
        parts = ["<h2>How it goes without end</h2>", "<p>From this plan:</p>", self.columns_html(self.report.plans[0], "all columns 0"),
                 "<p>one can go without end along this change of the columns, which are to be bounded:</p>",
                 self.columns_html(self.report.rays[0], "none")]
        return words, parts, None

    # ---- a solved answer
    def solved(self):
        report = self.report
        better, best = ("Higher", "greatest") if report.maximises else ("Lower", "least")
        words = [f"<strong>Solved: {count_text(len(report.points), 'point')}, {count_text(len(report.directions), 'direction')}, "
                 f"{count_text(len(report.facets), 'facet')}.</strong> {better} is better, and weights choose the points with the {best} weighed sum."]
        for number, line in enumerate(report.lines, 1):
            words.append(f"<strong>The image contains line {number}, {tuple_text(line)}:</strong> {self.change_html(line)} can be exchanged "
                         "without end, both ways; so no vector is a corner, points stand for all that lies along the lines from them, and only "
                         "weights that weigh lines as 0 have a best plan.")
        parts = [self.look(), "<h2>Plans</h2>", self.plans(), self.facets(), "<h2>Directions</h2>", self.directions()]
        return words, parts, self.data()

    def look(self) -> str:
        """The pictures, the sliders and the chosen plan, which the script fills."""
        count = len(self.names)
        kind = {2: "Frontier", 3: "Surface"}.get(count, "Points on parallel axes")
        hints = {1: "", 2: "Arrow keys step through the points.", 3: "Drag or arrow keys turn the surface; N and P step through the points."}
        sliders = [f'<div class="slider"><label for="slider{k}">{escaped(name)}</label><input type="range" id="slider{k}" min="0" max="100">'
                   f'<output id="weight{k}" for="slider{k}"></output></div>' for k, name in enumerate(self.names)]
        turns = (("-15,0", "left", "◀"), ("15,0", "right", "▶"), ("0,15", "up", "▲"), ("0,-15", "down", "▼"))
        return filled("look.html", {
            "kind": kind,
            "hint": hints.get(count, "Each line is a point. Arrow keys step through them."),
            "turns": "".join(f'<button data-turn="{turn}" aria-label="turn {way}">{sign}</button>' for turn, way, sign in turns) if count == 3 else "",
            "sliders": "\n".join(sliders),
            "c": tuple_text(self.report.duality),
        })

    def plans(self) -> str:
        """The points with their plans, the values of the rows, and the facets between whose weights they are best."""
        report, rows = self.report, []
        touching = touching_of(report)
        for k, (point, plan) in enumerate(zip(report.points, report.plans)):
            normals = [report.facets[facet].normal for facet in touching[k]]
            middle = [sum(weights) / len(normals) for weights in zip(*normals)]
            span = ""
            if len(self.names) == 2:
                least, greatest = (number_html(end(normal[0] for normal in normals)) for end in (min, max))
                span = f"<p>{escaped(self.names[0])} from {least} to {greatest}</p>"
            facets = list_html([(f"facet {facet + 1}", tuple_text(report.facets[facet].normal)) for facet in touching[k]])
            rows.append((f' data-point="{k}"', [
                f'<button data-choose="{k}" aria-label="point {k + 1}">{k + 1}</button><span class="mark"></span>', *map(number_html, point),
                self.columns_html(plan, "all columns 0"), list_html(self.rows_of(plan)),
                f'{span}{facets}<button data-weights="{weights_text(middle)}">choose by weights</button>']))
        return table_html("plans", ["point", *self.names, "plan", "rows", "weights that choose it: all between"], rows)

    def rows_of(self, plan) -> List[Tuple[str, str]]:
        """Each row with its value at a plan and its bounds."""
        entries = []
        for number, (row, bound) in enumerate(zip(self.problem.rows, self.problem.row_bounds), 1):
            value, limits = self.problem.value(row, plan), bound.numbers() if bound else []
            if bound and bound.kind == "s":
                told = f"= {bound.lower}"
            else:
                ends = [("≥", bound.lower), ("≤", bound.upper)] if bound else []
                told = " and ".join(f"{sign} {end}" for sign, end in ends if end is not None) + (", reached" if value in limits else "")
            entries.append((escaped(self.name("row", number)), number_html(value) + (f" <small>({told})</small>" if limits else "")))
        return entries

    def facets(self) -> str:
        report, rows, count = self.report, [], len(self.report.points)
        for number, (facet, touching, multipliers) in enumerate(zip(report.facets, report.incidence, report.multipliers), 1):
            rows.append(("", [
                f'<button data-weights="{weights_text(facet.normal)}" aria-label="weigh as facet {number}">{number}</button>',
                *map(number_html, facet.normal), number_html(facet.bound), ", ".join(str(k) for k in touching if k <= count),
                ", ".join(str(k) for k in touching if k > count), self.multipliers_html(multipliers)]))
        heads = ["facet", *(f"weight of {name}" for name in self.names), "bound", "points", "directions", "sides that show it"]
        return (f"<details{' open' if len(rows) <= 12 else ''}><summary><h2>Facets</h2></summary>"
                "<p>At the weights of a facet all points that it touches tie, and the bound is their weighed sum.</p>"
                + table_html("facets", heads, rows) + "</details>")

    def directions(self) -> str:
        report = self.report
        told = [(str(len(report.points) + k), direction, ray) for k, (direction, ray) in enumerate(zip(report.directions, report.rays), 1)]
        told += [(f"line {k}", line, both[0]) for k, (line, both) in enumerate(zip(report.lines, report.line_rays), 1)]
        rows = [("", [name, tuple_text(vector), self.change_html(vector), self.columns_html(ray, "none: worse is always in the image")])
                for name, vector, ray in told]
        return table_html("directions", ["direction", "vector", "change, without end", "change of the plan"], rows)

    def data(self) -> Dict:
        """What the script draws: exact numbers as texts, and places in the box as decimals from -1 to 1."""
        report, count = self.report, len(self.names)
        scene = report_scene(report, self.title, self.names)
        box = box_around(scene.shape, [(NEAR, FAR if count in (2, 3) else NEAR)] * count)
        faces = faces_of(scene.shape, box) if count in (2, 3) else []
        turn = -1 if report.maximises else 1
        return {
            "maximises": report.maximises,
            "orthant": not report.lines and all(turn * value >= 0 for direction in report.directions for value in direction),
            "names": self.names,
            "c": texts_of(report.duality),
            "points": [texts_of(point) for point in report.points],
            "directions": [texts_of(direction) for direction in report.directions],
            "lines": [texts_of(line) for line in report.lines],
            "facets": [texts_of(facet.normal) for facet in report.facets],
            "box": [texts_of(ends) for ends in zip(box.low, box.high)],
            "ticks": [ticks_data(low, high) for low, high in zip(box.low, box.high)],
            "places": [places_of(box.scaled(point)) for point in report.points],
            "faces": [{"normal": places_of(unit(box.scaled_normal(side.normal))), "touching": side.touching,
                       "corners": [places_of(box.scaled(corner)) for corner in face]} for side, face in faces],
            "area": [places_of(box.scaled(corner)) for corner in area_of(scene.shape, box)] if count == 2 else [],
            "cells": [[places_of(corner) for corner in cell] for cell in cells_of(report)] if count in (2, 3) and not report.lines else [],
        }


# ---- the data of the script
def texts_of(vector) -> List[str]:
    return [str(value) for value in vector]


def places_of(vector) -> List[float]:
    """Places in the picture. Here exact numbers end."""
    return [round(float(value), 6) for value in vector]


def unit(vector) -> List[Fraction]:
    """A vector scaled so that its greatest entry is 1 or -1."""
    greatest = max(abs(value) for value in vector)
    return [value / greatest for value in vector]


def ticks_data(low: Fraction, high: Fraction):
    """Scales of an axis, from a fine one to a coarse one: each number as its place and its text."""
    return [[[*places_of([(2 * value - low - high) / (high - low)]), text] for value, text in ticks_of(low, high, most)] for most in (10, 5, 3)]


def touching_of(report: Report) -> List[List[int]]:
    """For each point the facets that touch it, numbered from 0."""
    touching: List[List[int]] = [[] for _ in report.points]
    for facet, numbers in enumerate(report.incidence):
        for k in numbers:
            if k <= len(report.points):
                touching[k - 1].append(facet)
    return touching


def cells_of(report: Report):
    """For each point the weights that choose it, as shares of the way from the least to the greatest weight of the first two objectives."""
    count = len(report.duality)
    ends = [(min(weights), max(weights)) for weights in zip(*(facet.normal for facet in report.facets))][:2]
    shares = [tuple((weight - low) / (high - low) if high > low else Fraction(0) for weight, (low, high) in zip(facet.normal, ends))
              for facet in report.facets]
    for facets in touching_of(report):
        if count == 2:
            across = [shares[facet][0] for facet in facets]
            yield [(min(across), 0), (max(across), 0), (max(across), 1), (min(across), 1)]
        else:
            yield [corner[:2] for corner in ring_of([(*shares[facet], Fraction(1)) for facet in facets], (0, 1))]


def island(data) -> str:
    """Data as a text within a script element: it has no sign that HTML would read."""
    text = json.dumps(data, separators=(",", ":"))
    return text.replace("<", "\\u003c").replace(">", "\\u003e").replace("&", "\\u0026")


def template(name: str) -> str:
    """A file of the folder `page`, which comes with the package."""
    return pkgutil.get_data(__package__, f"page/{name}").decode("utf-8")


def filled(name: str, parts: Dict[str, str]) -> str:
    """A template with its marks replaced, all at once: what is put in is not looked at again."""
    return re.sub("@@([a-z_]+)@@", lambda mark: parts[mark.group(1)], template(name))


def hash_of(text: str) -> str:
    return "sha256-" + base64.b64encode(hashlib.sha256(text.encode("utf-8")).digest()).decode("ascii")


def page_of(problem: Problem, report: Report, title: str) -> str:
    """The page of an answer as one HTML text. A report that is plainly not of this problem is refused."""
    test_report(problem, report)
    return Page(problem, report, title).text()


# ---- the command
def load_report(path: str) -> Report:
    answer = load_any(path)
    if isinstance(answer, FaultLine):
        raise ReportFault(f"this is a fault line, and no report: {answer.text().strip()}")
    if not isinstance(answer, Report):
        raise ReportFault("this is no report of `solve`")
    return answer


def main(words: Sequence[str]) -> int:
    """The command `explore`."""
    parser = argparse.ArgumentParser(prog="python3 -m bensolve explore", description="one HTML page to look at an answer")
    parser.add_argument("file", metavar="FILE.vlp", help="the problem")
    parser.add_argument("report", metavar="REPORT", help="what solve printed of it")
    parser.add_argument("out", metavar="OUT.html", nargs="?", help="the page; without it REPORT with .html in the place of its ending")
    given = parser.parse_args(words)
    out = given.out or os.path.splitext(given.report)[0] + ".html"
    try:
        text = page_of(Problem.load(given.file), load_report(given.report), os.path.basename(given.file))
        if any(os.path.exists(out) and os.path.samefile(out, read) for read in (given.file, given.report)):
            raise ReportFault(f"the page would take the place of {out}, which was read")
    except (ReportFault, ShapeFault) as fault:
        raise ReportFault(f"{given.report}: {fault}") from None
    write_text(out, text)
    return 0
