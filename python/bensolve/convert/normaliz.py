"""Files `.in` of Normaliz: a cone or a polyhedron by constraints or by generators.

What is taken is in the tables below; each other word of Normaliz is refused by its name: lattices, congruences, gradings, fields
and all that makes a set that is not closed. Where only equations are given, Normaliz adds that nothing is negative, and so does the
reader. Constraints and generators in one file are refused, as the set is then what both have in common.
"""
import re
from bisect import bisect_right
from fractions import Fraction
from itertools import accumulate
from typing import Callable, Dict, List, Optional, Tuple

from ..texts import Representation, Vector, joined, whole_text
from ..problem import common_denominator
from .expressions import Token, Tokens, take_sum
from .reading import NotConverted, Source, natural, natural_width, number, refuse, shown

Row = Tuple[str, Vector]

STRICT = ("strict_inequalities", "strict_signs", "excluded_faces", "inhom_excluded_faces", "open_facets")

# What Normaliz is to compute, and how. The set is the same with these words and without.
GOALS = frozenset(
    """AffineDim AllGeneratorsTriangulation Approximate AutomorphismGroup AxesScaling BigInt BottomDecomposition ClassGroup
    CombinatorialAutomorphisms ConeDecomposition DefaultMode Deg1Elements Descent DualFVector DualFaceLattice DualIncidence DualMode
    EhrhartQuasiPolynomial EhrhartSeries EmbeddingDim Equations EuclideanAutomorphisms EuclideanVolume ExtremeRays ExtremeRaysFloat
    FVector FaceLattice FixedPrecision FullConeDynamic GeneratorOfInterior HSOP HilbertBasis HilbertQuasiPolynomial HilbertSeries
    Incidence InternalIndex IsDeg1ExtremeRays IsDeg1HilbertBasis IsEmptySemiOpen IsGorenstein IsIntegrallyClosed IsPointed KeepOrder
    LatticePointTriangulation LatticePoints LongLong MaximalSubspace ModuleGenerators ModuleRank Multiplicity NoBottomDec NoDescent
    NoExtRaysOutput NoGradingDenom NoHilbertBasisOutput NoLLL NoMatricesOutput NoNestedTri NoPatching NoPeriodBound NoProjection
    NoRelax NoSignedDec NoSubdivision NoSuppHypsOutput NoSymmetrization NumberLatticePoints OriginalMonoidGenerators
    PlacingTriangulation PrimalMode Projection ProjectionFloat PullingTriangulation Rank RationalAutomorphisms RecessionRank
    SignedDec StanleyDec Static SuppHypsFloat SupportHyperplanes Symmetrize Triangulation TriangulationDetSum TriangulationSize
    UnimodularTriangulation VerticesFloat VerticesOfPolyhedron Volume WritePreComp""".split()
)
COMMENT = re.compile(r"/\*.*?\*/", re.S)
WORD = re.compile(r"[][,;:]|[^][,;:\s]+")
SYMBOL = re.compile(
    r"\s*(?:(?P<number>(?:[0-9]+\.?[0-9]*|\.[0-9]+)(?:[eE][+-]?[0-9]+|/[0-9]+)?)"
    r"|x\s*\[\s*(?P<name>[0-9]+)\s*\]|(?P<other><=|>=|[-+*=<>~]))"
)


class _Reader:
    """A file as it is read, word by word."""

    def __init__(self, source: Source) -> None:
        self.text = COMMENT.sub(lambda comment: "\n" * comment.group().count("\n") or " ", source.text)
        self.starts = list(accumulate((len(line) + 1 for line in self.text.split("\n")), initial=0))
        self.at = 0
        self.line = 1
        self.width: Optional[int] = None
        self.is_auto = False
        self.rows: List[Row] = []
        self.first_lines: Dict[str, int] = {}
        self.bounded = False
        self.sign_line: Optional[int] = None

    def line_at(self, place: int) -> int:
        return bisect_right(self.starts, place)

    def ahead(self) -> str:
        """The next word, or nothing at the end."""
        match = WORD.search(self.text, self.at)
        return match.group() if match else ""

    def take(self, wanted: str) -> str:
        match = WORD.search(self.text, self.at)
        if not match:
            refuse(self.line_at(len(self.text)), f"the file ends where {wanted} is wanted")
        self.at = match.end()
        self.line = self.line_at(match.start())
        return match.group()

    def take_number(self) -> Fraction:
        return number(self.line, self.take("a number"))

    def take_count(self) -> int:
        word = self.take("a number of rows")
        return natural(self.line, word, "a number of rows, or a matrix in brackets,")

    def read(self) -> Representation:
        self._read_head()
        while self.ahead():
            word = self.take("a word")
            if word in FORMS:
                self.first_lines.setdefault(FORMS[word].of, self.line)
                FORMS[word].read(self, FORMS[word])
            elif word in STRICT:
                refuse(self.line, f"`{word}` is a strict form: the set would not be closed")
            elif word not in GOALS:
                refuse(self.line, f"`{shown(word)}` is not taken: {', '.join(FORMS)}, and what Normaliz is to compute")
        return self._representation()

    def _read_head(self) -> None:
        word = self.take("`amb_space`")
        if word != "amb_space":
            refuse(self.line, f"`{shown(word)}` stands where `amb_space` and the dimension is wanted, with which a file begins")
        word = self.take("the dimension")
        self.is_auto = word == "auto"
        if not self.is_auto:
            self.width = natural_width(self.line, word, "the dimension, or `auto`,")

    def entries(self, form: "Form") -> int:
        if self.width is None:
            refuse(self.line, "after `amb_space auto` a matrix in brackets comes first, which tells the dimension")
        if self.width + form.more < 1:
            refuse(self.line, "a polytope has the dimension 2 at least, one more than its points have entries")
        return self.width + form.more

    def matrix(self, form: "Form") -> List[Vector]:
        """The rows after a word: as many as a count says, or within brackets."""
        if self.ahead() == "[":
            return self._in_brackets(form)
        count = self.take_count()
        size = self.entries(form)
        if self.ahead() == "sparse":
            self.take("`sparse`")
            return [self._sparse_row(size) for _ in range(count)]
        return [tuple(self.take_number() for _ in range(size)) for _ in range(count)]

    def _in_brackets(self, form: "Form") -> List[Vector]:
        self.take("`[`")
        rows = []
        while True:
            word = self.take("`[` or `]`")
            if word == "]":
                return rows
            if word == "[":
                rows.append(self.row_in_brackets(form))
            elif word != ",":
                refuse(self.line, f"`{shown(word)}` stands where `[` or `]` is wanted")

    def row_in_brackets(self, form: "Form") -> Vector:
        """The numbers up to a bracket that closes. The first row tells the dimension, where it is `auto`."""
        row: List[Fraction] = []
        while True:
            word = self.take("a number or `]`")
            if word == "]":
                break
            if word != ",":
                row.append(number(self.line, word))
        if self.width is None:
            self.width = len(row) - form.more
            if self.width < 1:
                refuse(self.line, f"a row of {len(row)} numbers tells no dimension")
        if len(row) != self.entries(form):
            refuse(self.line, f"a row has {self.entries(form)} numbers here, and not {len(row)}")
        return tuple(row)

    def _sparse_row(self, size: int) -> Vector:
        """Pairs `place:value` up to a semicolon."""
        row: Dict[int, Fraction] = {}
        while True:
            word = self.take("a place or `;`")
            if word == ";":
                return tuple(row.get(place, Fraction(0)) for place in range(1, size + 1))
            place = natural(self.line, word, f"a place from 1 to {size}", 1)
            if place > size or place in row:
                refuse(self.line, f"the place {place} is given twice" if place in row else f"there is no place {place} of {size}")
            if self.take("`:`") != ":":
                refuse(self.line, f"after the place {place} a colon is wanted")
            row[place] = self.take_number()

    def constrain(self, word: str, row: Vector, bound: Fraction) -> None:
        self.bounded |= word == "h"
        self.rows.append((word, row + (bound,)))

    def take_signs(self, form: "Form") -> Vector:
        """The signs of the entries, which a file gives once."""
        if self.sign_line is not None:
            refuse(self.line, f"`signs` or `nonnegative` stands in line {self.sign_line} already")
        self.sign_line = self.line
        if form.word == "nonnegative":
            return (Fraction(1),) * self.entries(form)
        if self.ahead() == "[":
            self.take("`[`")
            return self.row_in_brackets(form)
        return tuple(self.take_number() for _ in range(self.entries(form)))

    def relate(self, line: int, relation: str, row: Vector, bound: Fraction) -> None:
        """Takes `row REL bound`."""
        if relation in ("<", ">"):
            refuse(line, f"`{relation}` is strict: the set would not be closed")
        if relation not in ("<=", ">=", "="):
            refuse(line, f"`{shown(relation)}` stands where `<=`, `>=` or `=` is wanted")
        sign = -1 if relation == "<=" else 1
        self.constrain("e" if relation == "=" else "h", tuple(sign * value for value in row), sign * bound)

    def take_until_semicolon(self) -> Tuple[int, str]:
        """Where a symbolic constraint begins, and its text."""
        end = self.text.find(";", self.at)
        if end < 0:
            refuse(self.line_at(len(self.text)), "a symbolic constraint ends with a semicolon")
        start = self.at
        self.at = end + 1
        return start, self.text[start:end]

    def _representation(self) -> Representation:
        if len(self.first_lines) > 1:
            kind, line = max(self.first_lines.items(), key=lambda item: item[1])
            others = " and ".join(sorted(set(self.first_lines) - {kind}))
            refuse(line, f"{kind} stand beside {others}: the set is what both have in common, and is not taken")
        if self.width is None or not self.first_lines:
            refuse(self.line, "the file gives no constraints and no generators")
        if "constraints" in self.first_lines:
            return Representation("sides", self.width, tuple(self.rows + self._default_rows()))
        width = self.width - ("a polytope" in self.first_lines)
        rows = self.rows
        has_point = any(word == "1" for word, _ in rows)
        if not has_point and "generators" in self.first_lines:
            rows, has_point = [("1", (Fraction(0),) * width), *rows], True
        return Representation("gens", width, tuple(rows) if has_point else ())

    def _default_rows(self) -> List[Row]:
        """With equations alone nothing is negative."""
        return [] if self.bounded else [("h", _unit(self.width, place, 1) + (Fraction(0),)) for place in range(self.width)]


def _unit(width: int, at: int, value: int) -> Vector:
    return tuple(Fraction(value * (place == at)) for place in range(width))


class Form:
    """A word of a file: what it belongs to, how many numbers its rows have beside the dimension, and how it is read."""

    def __init__(self, of: str, more: int, read: Callable[[_Reader, "Form"], None], word: str = "") -> None:
        self.of = of
        self.more = more
        self.read = read
        self.word = word


def _read_constraints(reader: _Reader, form: Form) -> None:
    for row in reader.matrix(form):
        vector, last = (row[:-1], row[-1]) if form.more else (row, Fraction(0))
        reader.constrain(form.word, vector, -last)


def _read_related(reader: _Reader, form: Form) -> None:
    """`constraints N`, and then rows with a relation, or after `symbolic` sums of x[1], x[2] .."""
    count = reader.take_count()
    size = reader.entries(form)
    if reader.ahead() != "symbolic":
        for _ in range(count):
            row = tuple(reader.take_number() for _ in range(size))
            relation = reader.take("a relation")
            reader.relate(reader.line, relation, row, reader.take_number())
        return
    reader.take("`symbolic`")
    for _ in range(count):
        _read_symbolic(reader, size)


def _read_symbolic(reader: _Reader, size: int) -> None:
    start, text = reader.take_until_semicolon()
    tokens = _symbols(reader, start, text)
    left = take_sum(tokens)
    relation = tokens.take()
    if relation.kind == "end":
        refuse(relation.line, "a symbolic constraint has a relation: `<=`, `>=` or `=`")
    right = take_sum(tokens)
    if tokens.ahead().kind != "end":
        tokens.refuse("`;`")
    row = [Fraction(0)] * size
    for sign, terms in ((1, left.terms), (-1, right.terms)):
        for place, value in terms.items():
            if len(place) > 9 or not 1 <= int(place) <= size:
                refuse(relation.line, f"there is no x[{shown(place)}]: the dimension is {size}")
            row[int(place) - 1] += sign * value
    reader.relate(relation.line, relation.text, tuple(row), right.constant - left.constant)


def _symbols(reader: _Reader, start: int, text: str) -> Tokens:
    tokens, at, text = [], 0, text.rstrip()
    while at < len(text):
        match = SYMBOL.match(text, at)
        if not match:
            rest = text[at:].split()[0]
            refuse(reader.line_at(start + at + text[at:].index(rest)), f"`{shown(rest)}` is no part of a symbolic constraint")
        kind = match.lastgroup
        word = match[kind]
        tokens.append(Token(reader.line_at(start + match.start(kind)), word if kind == "other" else kind, word))
        at = match.end()
    return Tokens(tokens, reader.line_at(start + len(text)))


def _read_signs(reader: _Reader, form: Form) -> None:
    """1 for an entry that is not negative, -1 for one that is not positive, 0 for any."""
    for place, sign in enumerate(reader.take_signs(form)):
        if sign not in (-1, 0, 1):
            refuse(reader.line, f"a sign is 1, -1 or 0, and not {sign}")
        if sign:
            reader.constrain("h", _unit(reader.width, place, int(sign)), Fraction(0))


def _read_generators(reader: _Reader, form: Form) -> None:
    reader.rows += [(form.word, row) for row in reader.matrix(form)]


def _read_points(reader: _Reader, form: Form) -> None:
    """Points with their denominators, and where the word is `0` too, directions with a 0 in its place."""
    for *vector, last in reader.matrix(form):
        if last < 0 or not last and form.word == "1":
            refuse(reader.line, f"a point of Normaliz ends with a denominator above 0, and not with {last}")
        reader.rows.append(("1", tuple(value / last for value in vector)) if last else ("0", tuple(vector)))


FORMS = {
    "inequalities": Form("constraints", 0, _read_constraints, "h"),
    "equations": Form("constraints", 0, _read_constraints, "e"),
    "inhom_inequalities": Form("constraints", 1, _read_constraints, "h"),
    "inhom_equations": Form("constraints", 1, _read_constraints, "e"),
    "constraints": Form("constraints", 0, _read_related),
    "signs": Form("constraints", 0, _read_signs),
    "nonnegative": Form("constraints", 0, _read_signs, "nonnegative"),
    "cone": Form("generators", 0, _read_generators, "0"),
    "subspace": Form("generators", 0, _read_generators, "l"),
    "vertices": Form("generators", 1, _read_points, "1"),
    "polyhedron": Form("a polyhedron", 1, _read_points),
    "polytope": Form("a polytope", -1, _read_generators, "1"),
}


def read(source: Source) -> Representation:
    return _Reader(source).read()


def write(representation: Representation) -> str:
    make = _constraints if representation.kind == "sides" else _generators
    lines = [f"amb_space {representation.width}"]
    for word, rows in make(representation):
        if rows:
            lines += [f"{word} {len(rows)}", *(joined(*row) for row in rows)]
    return whole_text(lines)


def _constraints(representation: Representation) -> List[Tuple[str, List[Vector]]]:
    """The rows, with a 0 >= -1 where there is no inequality, as Normaliz would add some."""
    equations, inequalities = (
        [row[:-1] + (-row[-1],) for row in representation.of(word)] for word in ("e", "h")
    )
    nothing = (Fraction(0),) * representation.width + (Fraction(1),)
    return [("inhom_equations", equations), ("inhom_inequalities", inequalities or [nothing])]


def _generators(representation: Representation) -> List[Tuple[str, List[Vector]]]:
    points = []
    for point in representation.of("1"):
        under = common_denominator(point)
        points.append(tuple(value * under for value in point) + (Fraction(under),))
    if not points:
        raise NotConverted("the set has no point, and Normaliz reads generators without one as a cone")
    return [("vertices", points), ("cone", representation.of("0")), ("subspace", representation.of("l"))]
