"""Which rows of a representation can be left out, since the others imply them: a linear program for each, and no conversion.

An inequality can be left out where the least value of its left side over the other rows is no less than its bound; a point, a
direction or a line where the others already make it. Rows are tried from the first to the last, and what is left out counts no
more, so of two that say the same the later one stays. Of inequalities that contradict each other some remain of which each one is
needed for that.
"""
import argparse
from fractions import Fraction
from typing import List, Sequence, Tuple

from . import run
from .problem import Bound, Problem
from .sets import feasible, whole_row
from .texts import Representation, Vector, read_text

Row = Tuple[str, Vector]
# A problem has so many rows and columns at most.
MOST_ROWS = 1000


def _is_above(rows: Sequence[Row], width: int, normal: Vector, bound: Fraction) -> bool:
    """Whether all members of a set of inequalities and equations have `normal . z >= bound`."""
    objective, least = whole_row(normal, bound)
    others = feasible(Representation("sides", width, tuple(rows)))
    report = run.solve(Problem("min", [objective], others.rows, columns=width, row_bounds=others.row_bounds))
    return report.answer == "infeasible" or report.answer == "solved" and report.points[0][0] >= least


def _is_implied(rows: Sequence[Row], width: int, row: Row) -> bool:
    word, numbers = row
    normal, bound = numbers[:-1], numbers[-1]
    if not _is_above(rows, width, normal, bound):
        return False
    return word == "h" or _is_above(rows, width, tuple(-x for x in normal), -bound)


def _is_made(rows: Sequence[Row], wanted: Vector, of_point: bool) -> bool:
    """Whether some of points, directions and lines sum to a vector: of points weights from 0 on that sum to 1, or none at all."""
    used = [row for row in rows if of_point or row[0] != "1"]
    if not used:
        return not of_point and not any(wanted)
    table = [whole_row([numbers[k] for _, numbers in used], entry) for k, entry in enumerate(wanted)]
    table.append(({k: Fraction(1) for k, (word, _) in enumerate(used, 1) if word == "1"}, Fraction(of_point)))
    bounds = [Bound.of(None if word == "l" else (0, None)) or "f" for word, _ in used]
    rows_of, values = zip(*table)
    report = run.solve(Problem("min", [{}], rows_of, columns=len(used), row_bounds=values, column_bounds=bounds))
    return report.answer != "infeasible"


def _is_generated(rows: Sequence[Row], row: Row) -> bool:
    word, vector = row
    ways = [vector, tuple(-x for x in vector)] if word == "l" else [vector]
    return all(_is_made(rows, way, word == "1") for way in ways)


def needed(given: Representation) -> Representation:
    """The same set by those of the rows that the others do not imply, in their order."""
    if len(given.rows) > MOST_ROWS:
        raise ValueError(f"there are {len(given.rows)} rows: a problem has {MOST_ROWS} at most")
    if given.kind == "gens" and not given.of("1"):
        # without a point the set is empty, whatever its directions
        return Representation(given.kind, given.width, ())
    kept: List[Row] = list(given.rows)
    for row in given.rows:
        others = list(kept)
        others.remove(row)
        if _is_implied(others, given.width, row) if given.kind == "sides" else _is_generated(others, row):
            kept = others
    return Representation(given.kind, given.width, tuple(kept))


def main(words: List[str]) -> int:
    """`needed FILE`: a representation without the rows that the others imply."""
    parser = argparse.ArgumentParser(prog="python3 -m bensolve needed", description=main.__doc__)
    parser.add_argument("file", help="a text of `sides` or `gens`")
    print(needed(Representation.read(read_text(parser.parse_args(words).file))).text(), end="")
    return 0
