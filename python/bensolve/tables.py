"""Answers as tables with the names of the problem: plans, facets, what contradicts; and texts as JSON."""
import argparse
import csv
import dataclasses
import io
import json
import re
import sys
from fractions import Fraction
from typing import Any, Dict, Iterable, List, NamedTuple, Optional, Sequence, Tuple

from . import polyhedron, run
from .problem import Problem
from .texts import Entry, Facet, FaultLine, Projection, Report, Representation, Sparse, Text, Vector, Weighed
from .texts import load_any, read_any


class Table(NamedTuple):
    """Rows below a head."""

    head: Tuple[str, ...]
    rows: Tuple[Tuple[str, ...], ...]

    @classmethod
    def of(cls, head: Iterable[object], rows: Iterable[Iterable[object]]) -> "Table":
        return cls(tuple(map(str, head)), tuple(tuple(map(str, row)) for row in rows))

    def text(self) -> str:
        """The columns side by side, with two blanks between them."""
        cells = (self.head, *self.rows)
        widths = [max(map(len, column)) for column in zip(*cells)]
        return "".join("  ".join(cell.ljust(width) for cell, width in zip(row, widths)).rstrip() + "\n" for row in cells)

    def csv(self) -> str:
        out = io.StringIO()
        csv.writer(out, lineterminator="\n").writerows((self.head, *self.rows))
        return out.getvalue()


class Plan(NamedTuple):
    """A point of the image with a plan that gives it, by the names of the columns; columns that are 0 are left out."""

    number: int
    values: Vector
    plan: Dict[str, Fraction]


class FacetRow(NamedTuple):
    """A facet with the points and directions on it, and the multipliers of the sides that show it, by their names."""

    number: int
    facet: Facet
    touches: Tuple[int, ...]
    sides: Dict[str, Fraction]


def by_columns(problem: Problem, plan: Sparse) -> Dict[str, Fraction]:
    return {problem.name("column", column): value for column, value in plan.items()}


def by_sides(problem: Problem, multipliers: Sparse) -> Dict[str, Fraction]:
    """Multipliers by the names of the sides, as "demand >= 10"."""
    sides = problem.sides()
    if multipliers and max(multipliers) > len(sides):
        raise ValueError(f"the problem has {len(sides)} sides, and side {max(multipliers)} is named: it is another problem")
    return {problem.side_name(sides[number - 1]): value for number, value in multipliers.items()}


def plans(problem: Problem, report: Report, weighed: Optional[Weighed] = None) -> List[Plan]:
    """The plan beside each point of a report; with what `weigh` prints, of the points that are best."""
    if report.duality and len(report.duality) != len(problem.objectives):
        raise ValueError(f"the report has {len(report.duality)} objectives, and the problem {len(problem.objectives)}")
    return [
        Plan(number, point, by_columns(problem, plan))
        for number, (point, plan) in enumerate(zip(report.points, report.plans), 1)
        if weighed is None or point in weighed.points
    ]


def facets(problem: Problem, report: Report) -> List[FacetRow]:
    """The facets of a report with their sides by name."""
    lists = zip(report.facets, report.incidence, report.multipliers)
    return [FacetRow(number, facet, on, by_sides(problem, u)) for number, (facet, on, u) in enumerate(lists, 1)]


def set_facets(projection: Projection) -> Representation:
    """The equations and facets of what `project` and its kin tell, whose sides are more: none of these can be left out."""
    return polyhedron.Polyhedron.of_projection(projection).sides()


def objective_names(problem: Problem) -> List[str]:
    return [problem.name("objective", number) for number in range(1, len(problem.objectives) + 1)]


def told(values: Dict[str, Fraction]) -> str:
    return " ".join(f"{name}={value}" for name, value in values.items())


def plan_table(problem: Problem, rows: Sequence[Plan]) -> Table:
    """Plans in one column, with the names of what is not 0."""
    return Table.of(("point", *objective_names(problem), "plan"), ((row.number, *row.values, told(row.plan)) for row in rows))


def plan_columns(problem: Problem, rows: Sequence[Plan]) -> Table:
    """Plans with a column for each column of the problem."""
    names = [problem.name("column", number) for number in range(1, problem.columns + 1)]
    return Table.of(
        ("point", *objective_names(problem), *names),
        ((row.number, *row.values, *(row.plan.get(name, 0) for name in names)) for row in rows),
    )


def facet_table(problem: Problem, report: Report, rows: Sequence[FacetRow]) -> Table:
    """Facets by the weights of the objectives, with the sides that show each."""
    sign = "<=" if report.maximises else ">="
    return Table.of(
        ("facet", *objective_names(problem), sign, "touches", "sides"),
        (
            (
                row.number,
                *row.facet.normal,
                row.facet.bound,
                " ".join(map(str, row.touches)),
                "; ".join(f"{name}: {value}" for name, value in row.sides.items()),
            )
            for row in rows
        ),
    )


def side_table(sides: Dict[str, Fraction]) -> Table:
    return Table.of(("side", "times"), sides.items())


def to_csv(table: Table) -> str:
    return table.csv()


def to_json(text: Text, problem: Optional[Problem] = None) -> str:
    """A text of the program as JSON. Numbers of vectors are texts as "1/2"; with a problem, plans and multipliers have names."""
    return json.dumps(_as_object(text, problem), indent=1, ensure_ascii=False) + "\n"


def _as_object(text: Text, problem: Optional[Problem]) -> Dict[str, Any]:
    if isinstance(text, FaultLine):
        return {"text": "FaultLine", "status": text.status, **_plain(text.parts)}
    found: Dict[str, Any] = {"text": type(text).__name__}
    for field in dataclasses.fields(text):
        value = getattr(text, field.name)
        if problem is not None and isinstance(text, Report) and field.name in NAMED:
            value = _named(value, NAMED[field.name], problem)
        found[field.name] = _plain(value)
    return found


NAMED = {"line_rays": by_columns, "plans": by_columns, "rays": by_columns, "multipliers": by_sides}


def _named(value: Any, names: Any, problem: Problem) -> Any:
    return names(problem, value) if isinstance(value, dict) else [_named(part, names, problem) for part in value]


def _plain(value: Any) -> Any:
    """What JSON has in the place of a value."""
    if isinstance(value, Fraction):
        return str(value)
    if isinstance(value, Facet):
        return {"normal": _plain(value.normal), "bound": str(value.bound)}
    if isinstance(value, Entry):
        return [value.word, *_plain(value.values)]
    if isinstance(value, dict):
        return {str(key): _plain(part) for key, part in value.items()}
    if value is None or isinstance(value, (str, int)):
        return value
    return [_plain(part) for part in value]


def _read(path: Optional[str]) -> Text:
    """A text of the program from a file, or from standard input."""
    return load_any(path) if path else read_any(sys.stdin.read())


def _parser(name: str, about: str) -> argparse.ArgumentParser:
    return argparse.ArgumentParser(prog=f"python3 -m bensolve {name}", description=about)


def main_plans(words: List[str]) -> int:
    """The command `plans`."""
    parser = _parser("plans", "the plans of a problem by names; with W those that are best for these weights")
    parser.add_argument("file", metavar="FILE", help="a vlp file")
    parser.add_argument("weights", metavar="W", nargs="?", help="weights with commas between them, as 1/2,1/2")
    parser.add_argument("--report", metavar="REPORT", help="its report, where it is there: nothing is solved")
    parser.add_argument("--facets", action="store_true", help="the facets with their sides, in place of the plans")
    parser.add_argument("--csv", action="store_true", help="comma-separated, with a column for each column of the problem")
    # Weights as -1,2 are no option: the blank, which their reading passes over, has argparse see that.
    given = parser.parse_args([f" {word}" if re.match("-[0-9.]", word) else word for word in words])
    problem = Problem.load(given.file)
    report = Report.load(given.report) if given.report else run.solve(given.file)
    weighed = run.weigh(given.file, given.weights.split(",")) if given.weights else None
    sys.stdout.write(_told_answer(problem, report, weighed, given.facets, given.csv))
    return 0


def _told_answer(problem: Problem, report: Report, weighed: Optional[Weighed], with_facets: bool, as_csv: bool) -> str:
    heading, table = "", None
    if report.answer == "infeasible":
        heading, table = "infeasible: these sides contradict each other\n", side_table(by_sides(problem, report.multipliers[0]))
    elif report.answer == "whole":
        plan, ray = (told(by_columns(problem, vector)) for vector in (report.plans[0], report.rays[0]))
        heading = f"whole: from the plan {plan or 'with 0 alone'} all objectives improve without end along {ray}\n"
    elif weighed is not None and weighed.answer == "unbounded":
        heading = f"unbounded: the weighed sum has no end along {' '.join(map(str, weighed.direction))}\n"
    elif with_facets:
        table = facet_table(problem, report, facets(problem, report))
    else:
        if not as_csv:
            heading = _heading(problem, report, weighed)
        table = (plan_columns if as_csv else plan_table)(problem, plans(problem, report, weighed))
    return heading + ("" if table is None else table.csv() if as_csv else table.text())


def _heading(problem: Problem, report: Report, weighed: Optional[Weighed]) -> str:
    """What stands above a table of plans: the lines of the image, whose points are reduced, and the value of the weights."""
    both_ways = zip(report.lines, report.line_rays)
    lines = [f"line {' '.join(map(str, line))}: both ways, by {told(by_columns(problem, ray))}\n" for line, (ray, _) in both_ways]
    return "".join(lines) + (f"value {weighed.value}\n" if weighed is not None else "")


def main_json(words: List[str]) -> int:
    """The command `json`."""
    parser = _parser("json", "a text of the program as JSON, with numbers as texts")
    parser.add_argument("text", metavar="TEXT", nargs="?", help="a report or another text; without it standard input")
    parser.add_argument("--problem", metavar="FILE", help="the vlp file of a report, whose names are taken")
    given = parser.parse_args(words)
    text = _read(given.text)
    sys.stdout.write(to_json(text, Problem.load(given.problem) if given.problem else None))
    return 0


def main_adjacency(words: List[str]) -> int:
    """The command `adjacency`."""
    about = "the neighbours of each point, direction and facet: of a report, or of sides with the gens that they are"
    parser = _parser("adjacency", about)
    parser.add_argument("text", metavar="REPORT|SIDES", nargs="?", help="without it a report from standard input")
    parser.add_argument("gens", metavar="GENS", nargs="?", help="the points, directions and lines of the same set, reduced")
    given = parser.parse_args(words)
    text = _read(given.text)
    if isinstance(text, Report) and given.gens is None and text.answer == "solved":
        found = polyhedron.report_adjacency(text)
    elif isinstance(text, Representation) and text.kind == "sides" and given.gens is not None:
        gens = Representation.load(given.gens)
        if gens.kind != "gens" or gens.width != text.width:
            raise ValueError(f"{given.gens} has no points of {text.width} numbers")
        found = polyhedron.adjacency(len(gens.of("1")), len(gens.of("0")), polyhedron.incidence(text, gens))
    else:
        raise ValueError("adjacency is told of a solved report, or of a text `sides` with a text `gens`")
    sys.stdout.write(found.text())
    return 0
