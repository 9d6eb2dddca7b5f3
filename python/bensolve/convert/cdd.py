"""The files of lrs and cdd: .ine with inequalities and equations, .ext with points, directions and lines.

A row `b a1 .. ad` of an H-representation says `b + a1 x1 + .. + ad xd >= 0`; of a V-representation it is the point `a / b`, and
for b = 0 the direction a. Rows that `linearity` names are equations, or lines. The header says which of both it is, whatever the
name of the file; without one it is an H-representation, and with `hull` a V-representation.

Where lrs and cdd read a file as two different sets, one of them is taken and named here, or the file is refused:

- `equality` and `partial_enumeration` are words of cdd for `linearity`. lrs passes them over.
- `nonnegative`, before `begin`, is a word of lrs. cdd passes it over.
- `hull` beside an H-representation, `nonnegative` after `begin` or beside a V-representation, a word that says something of the set
  in the middle of a line, and `linearity` of a point are refused.
- A V-representation with rows but no point is a cone: both put the point 0 in. One without rows is the empty set, as both print it.
- A decimal is what it says, whatever the type of numbers is. In a rational file lrs refuses it, and scdd_gmp reads it as 0.
"""
import re
from fractions import Fraction
from typing import Dict, List, Optional, Set, Tuple

from ..texts import Representation, Vector, joined, whole_text
from .reading import NotConverted, Source, natural, natural_width, number, refuse, shown

HEADERS = {"H-representation": "sides", "V-representation": "gens"}
BOTH_WAYS = ("linearity", "equality", "partial_enumeration")
SAY_THE_SET = (*HEADERS, *BOTH_WAYS, "strict_inequality", "nonnegative", "hull", "begin")
NUMBER_TYPES = ("integer", "rational", "real")

# How lrs and cdd are to search and what they print beside. The set is the same with them and without.
PASSED_OVER = frozenset(
    """adjacency allbases cache countonly debug digits dualperturb dynout_off estimates geometric incidence
    initbasis_at_bottom input_adjacency input_incidence integervertices lexmax lexmin log logfile_on maxcobases maxcutoff maxdepth
    maxindex maxoutput messages mincutoff mindepth minindex minrep mixcutoff nondegeneracy_assumption nooutput_incidence
    output_incidence postanalysis printcobasis printslack random redund redund_list restart row_decomposition seed
    startingcobasis stdout_off strace etrace testlin threads timecheck truncate verbose verify_input volume zero_tolerance""".split()
)

# What asks for something else than the set of the file.
REFUSED = {
    "strict_inequality": "the set would not be closed",
    "maximize": "a linear program is no set; take the line out for its feasible set",
    "minimize": "a linear program is no set; take the line out for its feasible set",
    "lponly": "a linear program is no set; take the line out for its feasible set",
    "bound": "it leaves vertices out by an objective",
    "voronoi": "it asks for a diagram of the points",
    "Voronoi": "it asks for a diagram of the points",
    "project": "it asks for a projection; `bensolve project` does that of a vlp file",
    "eliminate": "it asks for a projection; `bensolve project` does that of a vlp file",
    "extract": "it asks for some columns alone",
    "projection": "it asks for a projection; `bensolve project` does that of a vlp file",
    "preprojection": "it asks for a projection; `bensolve project` does that of a vlp file",
    "facet_listing": "it asks for linear programs",
    "tope_listing": "it asks for the cells of an arrangement",
    "find_interior": "it asks for an interior point",
}

# Lines that lrs prints: its name and version, and the bases of `printcobasis`.
BANNER = re.compile(r"\*?(?:mp)?lrs:")
BASES = re.compile(r"[VF]#[0-9]+")


class _Reader:
    """A file as it is read. `part` is where the line stands: before, in or after the matrix."""

    def __init__(self, source: Source) -> None:
        self.source = source
        self.header: Optional[str] = None
        self.hull: Optional[int] = None
        self.nonnegative: Optional[int] = None
        self.named: Dict[int, int] = {}
        self.words: List[Tuple[int, str]] = []
        self.part = "before"
        self.begin = 0
        self.last = 0
        self.printed_by_lrs = False
        self.is_empty = False

    def read(self) -> Representation:
        for line, text in self.source.lines():
            self.last = line
            words = text.split()
            if BANNER.match(text):
                self.printed_by_lrs = True
            elif words and (not words[0].startswith("*") or self._is_size_by_lrs(words)):
                self._take(line, words)
        if self.part == "before":
            refuse(self.last, "there is no line `begin`")
        if self.part == "in":
            refuse(self.last, "there is no line `end`")
        return self._representation()

    def _is_size_by_lrs(self, words: List[str]) -> bool:
        """Whether this is the line after `begin` of what lrs prints: stars for a number of rows that it does not know yet."""
        return self.part == "in" and not self.words and len(words) == 3 and not words[0].strip("*")

    def _take(self, line: int, words: List[str]) -> None:
        if self.part == "in":
            if words[0] == "end":
                self.part = "after"
            elif words[0] in SAY_THE_SET:
                self._begin_again(line, words)
            elif not (self.printed_by_lrs and BASES.match(words[0])):
                self.words += [(line, word) for word in words]
        elif words[0] in ("begin", *HEADERS) and self.part == "after":
            self._begin_again(line, words)
        elif words[0] == "begin":
            self.part = "in"
            self.begin = line
            self.words = [(line, word) for word in words[1:]]
        else:
            self._take_option(line, words)

    def _begin_again(self, line: int, words: List[str]) -> None:
        """What lrs prints where it starts anew with longer numbers. The last matrix is the whole one."""
        if not self.printed_by_lrs:
            refuse(line, f"`{words[0]}` stands after `begin` in line {self.begin}")
        self.part = "before"
        self._take(line, words)

    def _take_option(self, line: int, words: List[str]) -> None:
        first = words[0]
        if first in HEADERS:
            if self.header not in (None, first):
                refuse(line, f"`{first}` stands after `{self.header}`")
            self.header = first
        elif first in BOTH_WAYS:
            self._name_rows(line, words)
        elif first == "hull":
            self.hull = line
        elif first == "nonnegative":
            if self.part == "after":
                refuse(line, "`nonnegative` stands after `begin`, where lrs passes it over: put it before")
            self.nonnegative = line
        elif first == "strict_inequality" or first in REFUSED and (self.header or self.part == "after"):
            refuse(line, f"the option `{first}` is not taken: {REFUSED[first]}")
        elif first in PASSED_OVER:
            pass
        elif self.part == "after" and self.printed_by_lrs and words == ["No", "feasible", "solution"]:
            self.is_empty = True
        elif self.header or self.part == "after":
            refuse(line, f"the option `{shown(first)}` is not known")
        else:
            self._test_title(line, words)

    @staticmethod
    def _test_title(line: int, words: List[str]) -> None:
        """A line of any words before the header. lrs and cdd look for theirs in the middle of it too."""
        for word in words:
            if word in SAY_THE_SET:
                refuse(line, f"`{word}` stands in the middle of a line: begin a line with it, or leave it out")

    def _name_rows(self, line: int, words: List[str]) -> None:
        if len(words) == 1:
            refuse(line, f"`{words[0]}` names no rows on its line")
        count, *places = (natural(line, word, "a number of rows or a row") for word in words[1:])
        if count != len(places):
            refuse(line, f"`{words[0]}` says {count} rows, and names {len(places)} on its line")
        self.named.update((place, line) for place in places)

    def _representation(self) -> Representation:
        if self.header == "H-representation" and self.hull:
            refuse(self.hull, "`hull` makes points of the rows, and the header says H-representation")
        kind = "gens" if self.hull else HEADERS[self.header or "H-representation"]
        if kind == "gens" and self.nonnegative:
            refuse(self.nonnegative, "`nonnegative` stands beside points: it is an option of an H-representation")
        matrix, width = self._matrix()
        if self.is_empty and kind == "gens" and not matrix:
            return Representation(kind, width, ())
        for place, line in self.named.items():
            if not 1 <= place <= len(matrix):
                refuse(line, f"there is no row {place}: the matrix has {len(matrix)}")
        make = _sides if kind == "sides" else _gens
        rows = make(matrix, set(self.named))
        if self.nonnegative:
            rows += [("h", tuple(Fraction(i == j) for i in range(width)) + (Fraction(0),)) for j in range(width)]
        return Representation(kind, width, tuple(rows))

    def _matrix(self) -> Tuple[List[Tuple[int, Vector]], int]:
        """The rows, each with its line, and the entries of a vector."""
        if len(self.words) < 3:
            refuse(self.begin, "after `begin` stand the numbers of rows and columns and the type of numbers")
        (at, rows), (columns_at, columns), (type_at, number_type), *entries = self.words
        size = natural_width(columns_at, columns, "the number of columns", 2)
        if number_type not in NUMBER_TYPES:
            refuse(type_at, f"`{shown(number_type)}` is no type of numbers: {', '.join(NUMBER_TYPES)}")
        count = len(entries) // size
        if len(entries) % size:
            refuse(entries[count * size][0], f"{len(entries) % size} numbers are left over: a row has {size}")
        if rows.strip("*") and natural(at, rows, "the number of rows") != count:
            refuse(at, f"`begin` says {rows} rows, and there are {count}")
        cut = (entries[k * size:(k + 1) * size] for k in range(count))
        return [(row[0][0], tuple(number(line, word) for line, word in row)) for row in cut], size - 1


def read(source: Source) -> Representation:
    return _Reader(source).read()


def _sides(matrix: List[Tuple[int, Vector]], both_ways: Set[int]) -> List[Tuple[str, Vector]]:
    return [
        ("e" if place in both_ways else "h", row[1:] + (-row[0],))
        for place, (_, row) in enumerate(matrix, 1)
    ]


def _gens(matrix: List[Tuple[int, Vector]], both_ways: Set[int]) -> List[Tuple[str, Vector]]:
    rows: List[Tuple[str, Vector]] = []
    for place, (line, (first, *vector)) in enumerate(matrix, 1):
        if first < 0:
            refuse(line, "a row of a V-representation begins with 0, or with a number above 0")
        if first and place in both_ways:
            refuse(line, f"row {place} is a point, and `linearity` names it")
        word = "1" if first else "l" if place in both_ways else "0"
        rows.append((word, tuple(entry / first for entry in vector) if first else tuple(vector)))
    if rows and all(word != "1" for word, _ in rows):
        rows.insert(0, ("1", (Fraction(0),) * len(rows[0][1])))
    return rows


def write_ine(representation: Representation) -> str:
    """An H-representation. lrs takes none without a row, so where nothing is demanded this is `1 >= 0`."""
    rows = [(word, (-numbers[-1],) + numbers[:-1]) for word, numbers in representation.rows]
    return _write("H-representation", "e", representation.width, rows or [("h", _first(1, representation.width))])


def write_ext(representation: Representation) -> str:
    """A V-representation, which has a point at least."""
    if not representation.of("1"):
        raise NotConverted("the set has no point, and lrs and cdd read a file of it as a cone or not at all")
    rows = [(word, (Fraction(word == "1"),) + numbers) for word, numbers in representation.rows]
    return _write("V-representation", "l", representation.width, rows)


def _first(value: int, width: int) -> Vector:
    return (Fraction(value),) + (Fraction(0),) * width


def _write(header: str, both_word: str, width: int, rows: List[Tuple[str, Vector]]) -> str:
    both_ways = [place for place, (word, _) in enumerate(rows, 1) if word == both_word]
    lines = [header]
    if both_ways:
        lines.append(joined("linearity", len(both_ways), *both_ways))
    lines += ["begin", f"{len(rows)} {width + 1} rational"]
    return whole_text([*lines, *(joined(*row) for _, row in rows), "end"])
