"""A linear program as its file is read, row by row and column by column, and the vector linear program that it becomes."""
from fractions import Fraction
from typing import Dict, List, Optional, Tuple, Union

from ..problem import LIMITS, Problem, is_name
from ..texts import TextFault
from .reading import Source, number, refuse, shown

LARGEST_BOUND = Fraction(10) ** 20
INFINITE = {"inf": 1, "+inf": 1, "infinity": 1, "+infinity": 1, "-inf": -1, "-infinity": -1}
CONSTANT = "constant"


class Row:
    """A row or an objective: the line of its name, its entries by column, and what bounds it, or stands beside it as a constant."""

    def __init__(self, name: Optional[str], line: int) -> None:
        self.name = name
        self.line = line
        self.entries: Dict[int, Fraction] = {}
        self.lower: Optional[Fraction] = None
        self.upper: Optional[Fraction] = None
        self.constant = Fraction(0)


class Column:
    """A column. A bound that was not given is that of the form: at least 0, and no upper one."""

    def __init__(self, name: str, line: int) -> None:
        self.name = name
        self.line = line
        self.lower: Optional[Fraction] = Fraction(0)
        self.upper: Optional[Fraction] = None
        self.given: Dict[str, int] = {}
        self.integer_line: Optional[int] = None

    def give(self, line: int, side: str, value: Optional[Fraction]) -> None:
        """Takes a bound of the side `lower` or `upper`, or that there is none."""
        if side in self.given:
            refuse(line, f"the {side} bound of `{self.name}` was given in line {self.given[side]}")
        self.given[side] = line
        setattr(self, side, value)

    def is_below_zero(self) -> bool:
        """Whether an upper bound below 0 stands against the lower one of the form."""
        return self.upper is not None and self.upper < 0 and "lower" not in self.given


class Program:
    """A linear program with names. All objectives go one way."""

    def __init__(self, source: Source) -> None:
        self.source = source
        self.direction = "min"
        self.rows: Dict[str, Row] = {}
        self.objectives: Dict[str, Row] = {}
        self.columns: Dict[str, Column] = {}
        self.places: Dict[str, int] = {}

    def add_row(self, line: int, name: Optional[str]) -> Row:
        return self._add(self.rows, line, name, "row", "rows")

    def add_objective(self, line: int, name: Optional[str]) -> Row:
        return self._add(self.objectives, line, name, "objective", "objectives")

    def _add(self, rows: Dict[str, Row], line: int, name: Optional[str], kind: str, limit: str) -> Row:
        if name is not None:
            test_name(line, kind, name)
            for other in (self.rows, self.objectives):
                if name in other:
                    refuse(line, f"the name `{shown(name)}` was given in line {other[name].line}")
        if len(rows) == LIMITS[limit]:
            refuse(line, f"there are more than {LIMITS[limit]:,} {limit}, and the program takes no more")
        row = Row(name, line)
        rows[f"\n{len(rows)}" if name is None else name] = row  # no name has a line feed
        return row

    def add_column(self, line: int, name: str) -> Column:
        if name in self.columns:
            refuse(line, f"the column `{shown(name)}` was given in line {self.columns[name].line}")
        test_name(line, "column", name)
        if len(self.columns) == LIMITS["columns"]:
            refuse(line, f"there are more than {LIMITS['columns']:,} columns, and the program takes no more")
        self.columns[name] = Column(name, line)
        self.places[name] = len(self.columns)
        return self.columns[name]

    def column(self, line: int, name: str) -> Column:
        if name not in self.columns:
            refuse(line, f"no column is named `{shown(name)}`")
        return self.columns[name]

    def make_integer(self, line: int, column: Column) -> None:
        """Takes that a column is to be whole, which no vlp file says: refused, unless it may be left out."""
        if not self.source.relax:
            refuse(line, f"the column `{shown(column.name)}` is to be whole, which no vlp file can say; --relax leaves that out")
        column.integer_line = line

    def problem(self, line: int) -> Problem:
        """The vector linear program. Columns that are to be whole, and constants of objectives, are told in notes."""
        if not self.objectives or not self.columns:
            refuse(line, f"the file gives no {'column' if self.objectives else 'objective'}")
        whole = [column for column in self.columns.values() if column.integer_line is not None]
        if whole:
            first = whole[0]
            told = f"columns that need not be whole any more: {len(whole)}, `{first.name}` the first"
            self.source.note(first.integer_line, told)
        objectives = list(self.objectives.values())
        self._add_constants(objectives)
        rows, columns = list(self.rows.values()), list(self.columns.values())
        return Problem(
            self.direction,
            [objective.entries for objective in objectives],
            [row.entries for row in rows],
            columns=len(columns),
            row_bounds=[_bounds(row) for row in rows],
            column_bounds=[_bounds(column) for column in columns],
            row_names=[row.name for row in rows],
            column_names=[column.name for column in columns],
            objective_names=[objective.name for objective in objectives],
        )

    def _add_constants(self, objectives: List[Row]) -> None:
        """Objectives with a constant get it by one more column, which is fixed at 1."""
        shifted = [objective for objective in objectives if objective.constant]
        if not shifted:
            return
        line = shifted[0].line
        name = CONSTANT
        while name in self.columns:
            name += "_"
        column = self.add_column(line, name)
        column.lower = column.upper = Fraction(1)
        for objective in shifted:
            objective.entries[self.places[name]] = objective.constant
            told = f"the objective `{objective.name}`" if objective.name else "the objective"
            why = f"{told} has the constant {objective.constant}, by the column `{name}`, which is fixed at 1"
            self.source.note(objective.line, why)


def _bounds(of: Union[Row, Column]) -> Union[None, Fraction, Tuple[Optional[Fraction], Optional[Fraction]]]:
    """The bounds as a problem takes them: none, one value, or both."""
    if of.lower is not None and of.lower == of.upper:
        return of.lower
    return None if of.lower is of.upper is None else (of.lower, of.upper)


def test_name(line: int, kind: str, name: str) -> None:
    if not is_name(kind, name):
        refuse(line, f"`{shown(name)}` cannot be written as the name of a {kind}")


def finite(line: int, word: str, what: str) -> Fraction:
    """A number that bounds something. What some programs read as no bound is refused."""
    value = number(line, word)
    if abs(value) >= LARGEST_BOUND:
        raise TextFault(line, "NumberWide", f"`{shown(word)}` is {what} of 1e20 or more, which many programs read as none: leave it out")
    return value


def bound(line: int, word: str) -> Tuple[int, Optional[Fraction]]:
    """A bound of a column: 0 and its value, or the sign of an infinite one and nothing."""
    sign = INFINITE.get(word.lower())
    return (sign, None) if sign else (0, finite(line, word, "a bound"))
