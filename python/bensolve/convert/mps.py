"""Linear programs in MPS, of the fixed and of the free form.

Each N row is an objective, in their order. What readers take in different ways is settled here:

- An upper bound below 0 of a column without a lower one takes away that it is at least 0, with a note.
- MI leaves the upper bound as it is, PL the lower one.
- A number v in the RHS of an objective is its constant -v, with a note (of glpk it is +v).
- RANGES of an E row with R below 0 go down from its right-hand side, and else up.
- Of RHS, RANGES and BOUNDS there is one set each. A bound of 1e20 or more is refused, and `inf` is none.
- Columns that are to be whole (markers, BV, LI, UI) are refused, or with --relax need not be whole; then each needs an upper bound,
  as some readers take 1 where there is none.
"""
from fractions import Fraction
from typing import Callable, Dict, List, NamedTuple, Optional, Tuple

from ..problem import Problem
from .programs import Program, Row, bound, finite
from .reading import Source, is_number, number, refuse, shown

FIELDS = ((1, 3), (4, 12), (14, 22), (24, 36), (39, 47), (49, 61))
DIRECTIONS = {"MIN": "min", "MINIMIZE": "min", "MINIMISE": "min", "MAX": "max", "MAXIMIZE": "max", "MAXIMISE": "max"}

# The bounds that a type gives by its value, those that it gives without one, and the types of columns that are to be whole.
BY_VALUE = {"LO": ("lower",), "LI": ("lower",), "UP": ("upper",), "UI": ("upper",), "FX": ("lower", "upper")}
BY_TYPE: Dict[str, Dict[str, Optional[Fraction]]] = {
    "FR": {"lower": None, "upper": None},
    "MI": {"lower": None},
    "PL": {"upper": None},
    "BV": {"lower": Fraction(0), "upper": Fraction(1)},
}
WHOLE = ("BV", "LI", "UI")
BOUND_TYPES = (*BY_VALUE, *BY_TYPE)
REFUSED_BOUNDS = {"SC": "a semi-continuous column", "SI": "a semi-integer column"}


class Card(NamedTuple):
    """A line of data: its type, where there is one, the set or column before the pairs, and pairs of a name and a value."""

    line: int
    type: str
    head: str
    pairs: List[Tuple[str, str]]


class _Reader:
    def __init__(self, source: Source, cards: "Form") -> None:
        self.source = source
        self.cards = cards
        self.program = Program(source)
        self.section = ""
        self.seen: Dict[str, int] = {}
        self.sets: Dict[str, str] = {}
        self.types: Dict[str, str] = {}
        self.right: Dict[str, Fraction] = {}
        self.ranges: Dict[str, Fraction] = {}
        self.marker: Optional[int] = None
        self.direction_line: Optional[int] = None
        self.last_column = ""

    def read(self) -> Problem:
        for line, text in self.source.lines():
            if text.startswith("*") or not text.strip():
                continue
            if text[0] not in " \t":
                if self._open(line, text.split()):
                    return self._finish(line)
            elif self.section in CARDS:
                CARDS[self.section](self, self.cards.card(self, line, text))
            elif self.section == "OBJSENSE":
                self._direct(line, text.split())
            else:
                refuse(line, f"a line of data stands {'in ' + self.section if self.section else 'before any section'}")
        refuse(line, "the line `ENDATA` is wanting")

    def _open(self, line: int, words: List[str]) -> bool:
        """Takes the first line of a section, and tells whether it is the end."""
        name = words[0].upper()
        if name not in ORDER:
            refuse(line, f"the section `{shown(words[0])}` is not taken: {', '.join(ORDER)}")
        if name in self.seen:
            refuse(line, f"a second section {name}: the first began in line {self.seen[name]}")
        for needed in ORDER[name]:
            if needed not in self.seen:
                refuse(line, f"the section {needed} comes before {name}")
        if self.marker is not None:
            refuse(line, f"the marker of line {self.marker} is not ended")
        self.seen[name] = line
        self.section = "" if name == "NAME" else name
        if name == "OBJSENSE":
            if len(words) > 1:
                self._direct(line, words[1:])
        elif name in ("MAX", "MIN"):
            self._direct(line, [name])
        elif name != "NAME" and len(words) > 1:
            refuse(line, f"`{shown(words[1])}` stands after {name}")
        return name == "ENDATA"

    def _direct(self, line: int, words: List[str]) -> None:
        if len(words) != 1 or words[0].upper() not in DIRECTIONS:
            refuse(line, f"`{shown(' '.join(words))}` is no direction: MIN or MAX")
        if self.direction_line is not None:
            refuse(line, f"the direction was given in line {self.direction_line}")
        self.direction_line = line
        self.program.direction = DIRECTIONS[words[0].upper()]

    def row(self, card: Card, name: str) -> Row:
        row = self.program.rows.get(name) or self.program.objectives.get(name)
        if row is None:
            refuse(card.line, f"no row is named `{shown(name)}`")
        return row

    def take_row(self, card: Card) -> None:
        if card.type not in ("N", "L", "G", "E"):
            refuse(card.line, f"`{shown(card.type)}` is no type of a row: N, L, G or E")
        if card.head.startswith("$"):
            refuse(card.line, f"the name `{shown(card.head)}` begins with $, as a comment does")
        if card.type == "N":
            self.program.add_objective(card.line, card.head)
        else:
            self.program.add_row(card.line, card.head)
        self.types[card.head] = card.type

    def take_entries(self, card: Card) -> None:
        if card.pairs[0][0].upper() in ("'MARKER'", "MARKER") and not is_number(card.pairs[0][1]):
            self._take_marker(card)
            return
        if card.head != self.last_column:
            column = self.program.add_column(card.line, card.head)
            self.last_column = card.head
            if self.marker is not None:
                self.program.make_integer(card.line, column)
        place = self.program.places[card.head]
        for name, word in card.pairs:
            row = self.row(card, name)
            if place in row.entries:
                refuse(card.line, f"column `{shown(card.head)}` has an entry of row `{shown(name)}` before")
            row.entries[place] = number(card.line, word)

    def _take_marker(self, card: Card) -> None:
        word = card.pairs[0][1].upper().strip("'")
        if word not in ("INTORG", "INTEND"):
            refuse(card.line, f"the marker `{shown(card.pairs[0][1])}` is not taken: 'INTORG' or 'INTEND'")
        if (word == "INTORG") != (self.marker is None):
            refuse(card.line, f"the marker {word} stands within one" if self.marker else f"the marker {word} ends none")
        self.marker = card.line if word == "INTORG" else None

    def _test_set(self, card: Card) -> None:
        """RHS, RANGES and BOUNDS have one set each."""
        first = self.sets.setdefault(self.section, card.head)
        if card.head != first:
            refuse(card.line, f"`{shown(card.head)}` is a second set of {self.section}, beside `{shown(first)}`: leave one")

    def take_right(self, card: Card) -> None:
        self._test_set(card)
        for name, word in card.pairs:
            row = self.row(card, name)
            if name in self.right:
                refuse(card.line, f"the right-hand side of `{shown(name)}` was given before")
            self.right[name] = finite(card.line, word, "a right-hand side")
            if self.types[name] == "N":
                row.constant = -self.right[name]

    def take_range(self, card: Card) -> None:
        self._test_set(card)
        for name, word in card.pairs:
            self.row(card, name)
            if self.types[name] == "N":
                refuse(card.line, f"`{shown(name)}` is an objective, and has no range")
            if name in self.ranges:
                refuse(card.line, f"the range of `{shown(name)}` was given before")
            self.ranges[name] = finite(card.line, word, "a range")

    def take_bound(self, card: Card) -> None:
        self._test_set(card)
        (name, word), = card.pairs
        column = self.program.column(card.line, name)
        if card.type in WHOLE:
            self.program.make_integer(card.line, column)
        if card.type in BY_TYPE:
            for side, value in BY_TYPE[card.type].items():
                column.give(card.line, side, value)
            return
        sign, value = bound(card.line, word)
        sides = BY_VALUE[card.type]
        if sign and sides != (("upper",) if sign > 0 else ("lower",)):
            refuse(card.line, f"`{word}` is no {' and no '.join(sides)} bound")
        for side in sides:
            column.give(card.line, side, value)

    def _finish(self, line: int) -> Problem:
        for name, row in self.program.rows.items():
            row.lower, row.upper = _row_ends(self.types[name], self.right.get(name, Fraction(0)), self.ranges.get(name))
        for column in self.program.columns.values():
            name = shown(column.name)
            if column.integer_line is not None and "upper" not in column.given:
                refuse(column.integer_line, f"`{name}` has no upper bound: some programs take 1 for a whole column, and some none")
            if column.is_below_zero():
                column.lower = None
                why = f"`{name}` has an upper bound below 0 and no lower one, so it is not held at 0 from below"
                self.source.note(column.given["upper"], why)
        return self.program.problem(line)


def _row_ends(row_type: str, right: Fraction, span: Optional[Fraction]) -> Tuple[Optional[Fraction], Optional[Fraction]]:
    """The bounds of a row by its type, its right-hand side and its range."""
    if row_type == "E":
        span = span or Fraction(0)
        return min(right, right + span), max(right, right + span)
    if row_type == "L":
        return None if span is None else right - abs(span), right
    return right, None if span is None else right + abs(span)


CARDS: Dict[str, Callable[[_Reader, Card], None]] = {
    "ROWS": _Reader.take_row,
    "COLUMNS": _Reader.take_entries,
    "RHS": _Reader.take_right,
    "RANGES": _Reader.take_range,
    "BOUNDS": _Reader.take_bound,
}

# The sections that are taken, and which of them come before each.
ORDER: Dict[str, Tuple[str, ...]] = {
    "NAME": (),
    "OBJSENSE": (),
    "MAX": (),
    "MIN": (),
    "ROWS": (),
    "COLUMNS": ("ROWS",),
    "RHS": ("COLUMNS",),
    "RANGES": ("COLUMNS",),
    "BOUNDS": ("COLUMNS",),
    "ENDATA": ("COLUMNS",),
}


class Form:
    """How a line of data is cut."""

    def card(self, reader: _Reader, line: int, text: str) -> Card:
        raise NotImplementedError


class Free(Form):
    """Words with blanks between them. A set may be left out."""

    def card(self, reader: _Reader, line: int, text: str) -> Card:
        words = text.split()
        if reader.section == "ROWS":
            if len(words) != 2:
                refuse(line, f"a row is its type and its name, and not {len(words)} words; --from fixedmps takes names with blanks")
            return Card(line, words[0], words[1], [])
        if reader.section == "BOUNDS":
            return self._bound(reader, line, words)
        words = words[:next((k for k, word in enumerate(words) if k and word.startswith("$")), len(words))]
        head = words[0] if len(words) % 2 else ""
        if len(words) < 2 or not head and reader.section == "COLUMNS":
            refuse(line, f"{len(words)} words are no name with pairs of a row and a value; --from fixedmps takes names with blanks")
        rest = words[1:] if head else words
        return Card(line, "", head, list(zip(rest[::2], rest[1::2])))

    @staticmethod
    def _bound(reader: _Reader, line: int, words: List[str]) -> Card:
        test_bound_type(line, words[0])
        columns = reader.program.columns
        if words[0] in BY_TYPE and len(words) in (2, 3):
            has_value = len(words) == 3 and words[1] in columns and is_number(words[2])
            if has_value and words[2] in columns:
                refuse(line, f"`{shown(words[2])}` may be a column or a value here: name the set, and leave a value out")
            if len(words) == 2 or has_value:
                return Card(line, words[0], "", [(words[1], "")])
            return Card(line, words[0], words[1], [(words[2], "")])
        if len(words) not in (3, 4):
            refuse(line, f"a bound is its type, its set, a column and a value, and not {len(words)} words")
        *head, name, word = words[1:]
        return Card(line, words[0], head[0] if head else "", [(name, word)])


class Fixed(Form):
    """Six fields at their columns, in which names may have blanks."""

    def card(self, reader: _Reader, line: int, text: str) -> Card:
        kind, head, *rest = self._fields(line, text)
        if reader.section == "ROWS":
            return Card(line, kind, head, [])
        if reader.section == "BOUNDS":
            test_bound_type(line, kind)
            return Card(line, kind, head, [(rest[0], rest[1])])
        if rest[0].upper() == "'MARKER'":
            return Card(line, "", head, [(rest[0], rest[1] or rest[2])])
        pairs = [pair for pair in (tuple(rest[:2]), tuple(rest[2:])) if pair != ("", "")]
        if not pairs or reader.section == "COLUMNS" and not head:
            refuse(line, "a column or a set, a row and a value stand in the columns 5, 15 and 25 of a line")
        return Card(line, "", head, pairs)

    @staticmethod
    def _fields(line: int, text: str) -> List[str]:
        if "\t" in text:
            refuse(line, "a tab stands in a line of the fixed form, whose fields have their columns")
        for start in (14, 39):
            if text[start:start + 1] == "$":
                text = text[:start]
        ends = [0] + [end for _, end in FIELDS]
        starts = [start for start, _ in FIELDS] + [len(text)]
        for end, start in zip(ends, starts):
            between = text[end:start].strip()
            if between:
                refuse(line, f"`{shown(between)}` stands between the fields, in column {end + 1}; --from mps takes the free form")
        return [" ".join(text[start:end].split()) for start, end in FIELDS]


def test_bound_type(line: int, word: str) -> None:
    if word in REFUSED_BOUNDS:
        refuse(line, f"the bound type {word} is not taken: {REFUSED_BOUNDS[word]} is none of a linear program")
    if word not in BOUND_TYPES:
        refuse(line, f"`{shown(word)}` is no type of a bound: {', '.join(BOUND_TYPES)}")


def read_free(source: Source) -> Problem:
    return _Reader(source, Free()).read()


def read_fixed(source: Source) -> Problem:
    return _Reader(source, Fixed()).read()
