"""Sets made of any number of sets: what is feasible for all, their sums, their closed convex hull.

A set is a `Problem` or the path of a vlp file (what is feasible for it), a `Projection`, a `Representation`, or a `Polyhedron`.
So what one command tells can be given to the next.
"""
from fractions import Fraction
from functools import reduce
from typing import Any, List, Sequence, Tuple, Union

from . import run
from .polyhedron import Polyhedron
from .problem import Bound, Problem, common_denominator
from .texts import Facet, Path, Projection, Representation, Sparse

Set = Union[Problem, Path, Projection, Representation, Polyhedron]


def whole_row(normal: Any, bound: Fraction) -> Tuple[Sparse, Fraction]:
    """A row with its bound, times the least number that makes them whole."""
    factor = common_denominator([*normal, bound])
    return {place: value * factor for place, value in enumerate(normal, 1) if value}, bound * factor


def feasible(given: Set) -> Problem:
    """A problem, with one objective that is 0, for which exactly the members of a set are feasible."""
    if isinstance(given, Polyhedron):
        given = given.sides()
    if isinstance(given, Representation):
        if given.kind == "gens":
            given = run.facets(given)
        rows = [(Facet(numbers[:-1], numbers[-1]), "s" if word == "e" else "l") for word, numbers in given.rows]
        width = given.width
    elif isinstance(given, Projection):
        width = given.columns
        if given.answer == "infeasible":
            rows = [(Facet((Fraction(0),) * width, Fraction(1)), "l")]
        else:
            rows = [(inequality, "l") for inequality in given.inequalities()]
    else:
        return run.as_problem(given)
    whole = [(whole_row(*row), kind) for row, kind in rows]
    return Problem(
        "min",
        [{}],
        [row for (row, _), _ in whole],
        columns=width,
        row_bounds=[Bound.of(bound if kind == "s" else (bound, None)) for (_, bound), kind in whole],
    )


def _problems(sets: Tuple[Set, ...]) -> List[Problem]:
    if len(sets) < 2:
        raise ValueError("two sets are given at least")
    return [feasible(one) for one in sets]


def _width(problems: Sequence[Problem]) -> int:
    widths = sorted({problem.columns for problem in problems})
    if len(widths) > 1:
        raise ValueError(f"the sets have {' and '.join(map(str, widths))} columns: all have as many")
    return widths[0]


def stacked(problems: Sequence[Problem]) -> Problem:
    """The problem for which is feasible what is so for each: the bounds of columns stand in rows, but those of the last."""
    width = _width(problems)
    rows: List[Sparse] = []
    row_bounds: List[Any] = []
    for problem in problems[:-1]:
        rows += [*problem.rows, *({column: Fraction(1)} for column in range(1, width + 1))]
        row_bounds += [*problem.row_bounds, *problem.column_bounds]
    last = problems[-1]
    return Problem(
        "min",
        [{}],
        [*rows, *last.rows],
        columns=width,
        row_bounds=[*row_bounds, *last.row_bounds],
        column_bounds=last.column_bounds,
    )


def meet(*sets: Set) -> Projection:
    """What is in all of the sets. The choices beside the points are the points."""
    first, *others = _problems(sets)
    return run.pair("meet", first, stacked(others) if len(others) > 1 else others[0])


def summed(problems: Sequence[Problem]) -> Problem:
    """The problem whose first columns are a sum: z, then the columns of each, with z the sum of these."""
    width = _width(problems)
    sums: List[Sparse] = [{column: Fraction(1)} for column in range(1, width + 1)]
    rows: List[Sparse] = []
    row_bounds: List[Any] = [0] * width
    column_bounds: List[Any] = ["f"] * width
    for problem in problems:
        before = len(column_bounds)
        for column, row in enumerate(sums, 1):
            row[before + column] = Fraction(-1)
        rows += [{column + before: value for column, value in row.items()} for row in problem.rows]
        row_bounds += problem.row_bounds
        column_bounds += problem.column_bounds
    return Problem(
        "min", [{}], [*sums, *rows], columns=len(column_bounds), row_bounds=row_bounds, column_bounds=column_bounds
    )


def sum(*sets: Set) -> Projection:
    """The sums of a member of each. A choice has the sum, and then the member of each set, in their order."""
    problems = _problems(sets)
    if len(problems) == 2:
        return run.pair("sum", *problems)
    return run.project(summed(problems), problems[0].columns)


def join(*sets: Set) -> Projection:
    """The closed convex hull of all. A choice has the columns of the last step, which joins what was joined to the last set."""
    problems = _problems(sets)
    first: Set = problems[0]
    return reduce(lambda made, problem: run.pair("join", feasible(made), problem), problems[1:], first)
