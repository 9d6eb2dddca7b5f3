"""The table of kinds of texts, and the way from one to another.

A text holds a set by inequalities (`sides`), a set by points (`gens`), or a problem. A problem is told as the inequalities of what is
feasible for it, and inequalities as a problem with one objective that is 0. From inequalities to points and back only the program
goes, by `vertices` and `facets`.
"""
import os
from fractions import Fraction
from typing import Callable, Dict, List, NamedTuple, Optional, Tuple, Union

from ..problem import LIMITS, Bound, NotExact, Problem
from ..sets import feasible
from ..texts import Facet, Projection, Report, Representation, Vector
from . import cdd, lp, mps, normaliz, representations
from .reading import NotConverted, Source

Content = Union[Representation, Problem]


class Kind(NamedTuple):
    """A kind of text: the endings of its files, what it is, how it is read, and how each form that it can have is written."""

    endings: Tuple[str, ...]
    about: str
    read: Optional[Callable[[Source], Union[Content, Projection, Report]]]
    write: Dict[str, Callable[[Content], str]]


def write_problem(problem: Problem) -> str:
    counts = {
        "rows": len(problem.rows),
        "columns": problem.columns,
        "objectives": len(problem.objectives),
        "entries": sum(map(len, problem.rows + problem.objectives + (problem.cone or ()))),
    }
    for what, count in counts.items():
        if count > LIMITS[what]:
            raise NotConverted(f"there are {count:,} {what}, and the program takes at most {LIMITS[what]:,}")
    try:
        return problem.text()
    except NotExact as why:
        raise NotConverted(str(why)) from None


def _of_program(read: Callable[[str], object]) -> Callable[[Source], object]:
    """Reads a text of the program, of which the form is one."""
    return lambda source: read(source.text)


KINDS: Dict[str, Kind] = {
    "sides": Kind((".sides",), "inequalities and equations, as `vertices` reads them",
                  representations.read, {"sides": representations.write}),
    "gens": Kind((".gens",), "points, directions and lines, as `facets` reads them",
                 representations.read, {"gens": representations.write}),
    "vlp": Kind((".vlp",), "a problem", _of_program(Problem.read), {"problem": write_problem}),
    "ine": Kind((".ine",), "an H-representation of lrs or cdd", cdd.read, {"sides": cdd.write_ine}),
    "ext": Kind((".ext",), "a V-representation of lrs or cdd", cdd.read, {"gens": cdd.write_ext}),
    "normaliz": Kind((".in",), "constraints or generators of Normaliz", normaliz.read,
                     {"sides": normaliz.write, "gens": normaliz.write}),
    "mps": Kind((".mps",), "a linear program in free MPS, or in fixed MPS without blanks in names", mps.read_free, {}),
    "fixedmps": Kind((), "a linear program in fixed MPS", mps.read_fixed, {}),
    "lp": Kind((".lp",), "a linear program in the LP format of CPLEX", lp.read, {}),
    "projection": Kind((".projection",), "what project, meet, sum, join and map print", _of_program(Projection.read), {}),
    "report": Kind((".report",), "what solve, dual and check print: its upper image", _of_program(Report.read), {}),
}
FIRST_WORDS = ("sides", "gens", "projection", "report")


def kind_of_name(path: str) -> Optional[str]:
    """The kind that the ending of a file's name tells."""
    ending = os.path.splitext(path)[1].lower()
    return next((name for name, kind in KINDS.items() if ending in kind.endings), None)


def kind_of_text(text: str) -> Optional[str]:
    """The kind of a text of the program, by its first word."""
    words = text[:200].split(maxsplit=1)
    return words[0] if words and words[0] in FIRST_WORDS else None


def convert(source: Source, kind: str, target: Optional[str] = None) -> str:
    """The text of another kind that says the same. Without `target` it is the text of the program for what is read."""
    read = KINDS[kind].read(source)
    forms = _forms(read)
    if target is None:
        target = next(name for name in ("sides", "gens", "vlp") if set(KINDS[name].write) & set(forms))
        if isinstance(read, Problem):
            target = "vlp"
    writers = KINDS[target].write
    if not writers:
        raise NotConverted(f"files of the kind {target} are read and not written")
    for form, write in writers.items():
        if form in forms:
            if form == "sides" and isinstance(read, Problem):
                source.notes.append("the objectives are left out: what is feasible is told")
            return write(forms[form]())
    raise NotConverted(_why_not(next(iter(forms)), target))


def _why_not(form: str, target: str) -> str:
    if form == "gens":
        return f"these are points, and {target} tells inequalities: convert to gens, and let `bensolve facets` turn them"
    return f"these are inequalities, and {target} tells points: convert to sides, and let `bensolve vertices` turn them"


def _forms(read: object) -> Dict[str, Callable[[], Content]]:
    """The forms in which what was read can be told."""
    if isinstance(read, Problem):
        return {"problem": lambda: read, "sides": lambda: feasible_sides(read)}
    if isinstance(read, Projection):
        return {
            "sides": lambda: projection_sides(read),
            "gens": lambda: _listed(read.columns, read.lines, read.points, read.directions),
            "problem": lambda: feasible(read),
        }
    if isinstance(read, Report):
        if read.answer != "solved":
            raise NotConverted(f"the answer is {read.answer}, and no image is told")
        return {
            "sides": lambda: image_sides(read),
            "gens": lambda: _listed(len(read.duality), read.lines, read.points, read.directions),
            "problem": lambda: feasible(image_sides(read)),
        }
    if read.kind == "gens":
        return {"gens": lambda: read}
    return {"sides": lambda: read, "problem": lambda: feasible(read)}


def _listed(width: int, lines: Tuple[Vector, ...], points: Tuple[Vector, ...], directions: Tuple[Vector, ...]) -> Representation:
    parts = (("l", lines), ("1", points), ("0", directions))
    return Representation("gens", width, tuple((word, vector) for word, vectors in parts for vector in vectors))


def _inequalities(width: int, facets: List[Facet]) -> Representation:
    return Representation("sides", width, tuple(("h", facet.normal + (facet.bound,)) for facet in facets))


def projection_sides(projection: Projection) -> Representation:
    if projection.answer == "infeasible":
        return _inequalities(projection.columns, [Facet((Fraction(0),) * projection.columns, Fraction(1))])
    return _inequalities(projection.columns, projection.inequalities())


def image_sides(report: Report) -> Representation:
    """The facets of the upper image; of a file that maximises they hold the other way round."""
    sign = -1 if report.maximises else 1
    turned = [Facet(tuple(sign * weight for weight in facet.normal), sign * facet.bound) for facet in report.facets]
    return _inequalities(len(report.duality), turned)


def feasible_sides(problem: Problem) -> Representation:
    """The bounds of the rows and then of the columns, as inequalities and equations."""
    rows: List[Tuple[str, Vector]] = []
    places = range(1, problem.columns + 1)
    for row, bound in zip(problem.rows, problem.row_bounds):
        rows += _bounded(tuple(row.get(place, Fraction(0)) for place in places), bound)
    for column, bound in zip(places, problem.column_bounds):
        rows += _bounded(tuple(Fraction(place == column) for place in places), bound)
    return Representation("sides", problem.columns, tuple(rows))


def _bounded(normal: Vector, bound: Optional[Bound]) -> List[Tuple[str, Vector]]:
    if bound is None:
        return []
    if bound.kind == "s":
        return [("e", normal + (bound.lower,))]
    lower = [] if bound.lower is None else [("h", normal + (bound.lower,))]
    upper = [] if bound.upper is None else [("h", tuple(-value for value in normal) + (-bound.upper,))]
    return lower + upper
