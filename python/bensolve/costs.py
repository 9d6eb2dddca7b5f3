"""A problem from a table of costs, as a spreadsheet writes it.

    plan,min cost,min emissions,demand >= 10,upper
    coal,2,5,1,
    gas,3,2,1,8
    wind,6,0,1,4

Each plan is a column of the problem. What the table says of it stands under a heading: `min NAME` or `max NAME` is an objective;
`NAME >= NUMBER`, `NAME <= NUMBER`, `NAME = NUMBER` and `NUMBER <= NAME <= NUMBER` are rows; `lower` and `upper` are bounds of the
plan. An empty cell is 0, and no bound below `lower` and `upper`; without a column `lower` each plan is at least 0. The table may
stand the other way too, with a plan in each column and the headings at the left. Cells are parted by commas, semicolons or tabs,
whichever the first line has.
"""
import argparse
import csv
import io
import re
import sys
from fractions import Fraction
from typing import Any, Dict, List, NamedTuple, Optional

from .problem import NotExact, Problem, exact
from .texts import TextFault, read_text

OBJECTIVE = re.compile(r"(min|max)\s+(.+)")
ROW = re.compile(r"(?:(?P<lower>[^<>=]+?)\s*<=\s*)?(?P<name>[^<>=]+?)\s*(?P<sign><=|>=|=)\s*(?P<bound>[^<>=]+)")


class Cell(NamedTuple):
    """A cell with the line of the file that it stands in."""

    text: str
    line: int


class Heading(NamedTuple):
    """What a heading says: an objective with its direction, a row with its bounds, or `lower` or `upper`."""

    kind: str
    name: str
    bounds: Any = None


def _number(cell: Cell, of: str) -> Fraction:
    try:
        return exact(cell.text)
    except NotExact as why:
        raise TextFault(cell.line, "BadNumber", f"{of}: {why}") from None


def cells_of(text: str) -> List[List[Cell]]:
    """The rows of a table, without empty ones: all as long as the first."""
    text = text.lstrip("\ufeff")
    first = text.split("\n", 1)[0]
    delimiter = next((sign for sign in ";\t" if sign in first), ",")
    reader = csv.reader(io.StringIO(text, newline=""), delimiter=delimiter)
    rows: List[List[Cell]] = []
    line = 1
    for cells in reader:
        if any(cell.strip() for cell in cells):
            rows.append([Cell(" ".join(cell.split()), line) for cell in cells])
            if len(cells) != len(rows[0]):
                raise TextFault(line, "BadLine", f"this row has {len(cells)} cells, and the first has {len(rows[0])}")
        line = reader.line_num + 1
    if len(rows) < 2 or len(rows[0]) < 2:
        raise TextFault(line, "NoEnd", "a table has a row of headings and a plan at least")
    return rows


def heading_of(cell: Cell) -> Heading:
    objective = OBJECTIVE.fullmatch(cell.text)
    if objective:
        return Heading(*objective.groups())
    if cell.text in ("lower", "upper"):
        return Heading(cell.text, cell.text)
    row = ROW.fullmatch(cell.text)
    if not row or row["lower"] and row["sign"] != "<=":
        headings = "min NAME, max NAME, NAME >= NUMBER, <=, =, lower or upper"
        raise TextFault(cell.line, "BadLine", f"`{cell.text}` is no heading: {headings}")
    bound = _number(Cell(row["bound"], cell.line), cell.text)
    lower = _number(Cell(row["lower"], cell.line), cell.text) if row["lower"] else None
    bounds = bound if row["sign"] == "=" else (bound, None) if row["sign"] == ">=" else (lower, bound)
    return Heading("row", row["name"], bounds)


def _has_objective(cells: List[Cell]) -> bool:
    return any(OBJECTIVE.fullmatch(cell.text) for cell in cells[1:])


def problem_of_table(text: str) -> Problem:
    """The problem that a table says."""
    cells = cells_of(text)
    if not _has_objective(cells[0]) and _has_objective([row[0] for row in cells]):
        cells = [list(column) for column in zip(*cells)]
    corner, *plans = (row[0] for row in cells)
    objectives: Dict[str, List[Fraction]] = {}
    rows: Dict[str, List[Fraction]] = {}
    row_bounds: List[Any] = []
    own: Dict[str, List[Optional[Fraction]]] = {}
    directions = set()
    for head, *column in list(zip(*cells))[1:]:
        heading = heading_of(head)
        into = own if heading.kind in ("lower", "upper") else rows if heading.kind == "row" else objectives
        if heading.name in into:
            raise TextFault(head.line, "Twice", f"there are two columns of `{heading.name}`")
        values = [_number(cell, f"{heading.name} of {plan.text}") if cell.text else None for plan, cell in zip(plans, column)]
        into[heading.name] = values if into is own else [value or Fraction(0) for value in values]
        if into is rows:
            row_bounds.append(heading.bounds)
        elif into is objectives:
            directions.add(heading.kind)
    if len(directions) != 1:
        what = "both min and max: turn the signs of one kind" if directions else "no objective, as `min cost`"
        raise TextFault(corner.line, "BadLine", f"among the headings is {what}")
    lower = own.get("lower", [Fraction(0)] * len(plans))
    upper = own.get("upper", [None] * len(plans))
    try:
        return Problem(
            directions.pop(),
            list(objectives.values()),
            list(rows.values()),
            row_bounds=row_bounds,
            column_bounds=list(zip(lower, upper)),
            row_names=list(rows),
            column_names=[plan.text or None for plan in plans],
            objective_names=list(objectives),
        ).with_whole_rows()
    except ValueError as why:
        raise TextFault(corner.line, "Twice", str(why)) from None


def main(words: List[str]) -> int:
    """The command `problem`."""
    parser = argparse.ArgumentParser(
        prog="python3 -m bensolve problem",
        description="the vlp file of a table of costs",
        epilog=__doc__.split("\n\n", 1)[1],
        formatter_class=argparse.RawDescriptionHelpFormatter,
    )
    parser.add_argument("table", metavar="TABLE", help="a file with comma-separated values")
    given = parser.parse_args(words)
    try:
        sys.stdout.write(problem_of_table(read_text(given.table)).text())
    except TextFault as why:
        why.file = given.table
        raise
    return 0
