"""The texts that the second checker reads: problems, logs and representations."""
import re
from fractions import Fraction
from math import gcd
from typing import Any, Callable, Dict, Iterable, Iterator, List, Optional, Tuple, Union

Number = Union[int, Fraction]
Sparse = List[Tuple[int, Number]]
Lines = Iterable[bytes]

FILE_KINDS = "NoProblem BadLine BadNumber NumberWide Digits OutOfRange Twice CountWrong LimitPassed - LineLong".split()
LOG_KINDS = "BadLine BadNumber NumberWide OutOfRange NoEnd".split()
LIMIT = 1 << 120  # a number is held where its numerator's magnitude and its denominator are below
MOST_NATURAL = 4_294_967_295
MOST_LINE_BYTES = 4_096  # of a problem
MOST_LINES = 10_000  # of a representation


class Fault(Exception):
    """An end without an answer: the status, and what its line tells after it."""


class Wrong(Exception):
    """What is wrong with a line, or the rule that an entry breaks, by its name."""


def require(holds: Any, name: str) -> None:
    if not holds:
        raise Wrong(name)


def is_held(number: Number) -> bool:
    return abs(number.numerator) < LIMIT and number.denominator < LIMIT


def factors_of(vector: Sparse, table: Dict[int, Sparse]) -> Dict[int, List[Tuple[Number, Number]]]:
    """Of each place of the combination of a table's vectors the factors of its products, in order."""
    found: Dict[int, List[Tuple[Number, Number]]] = {}
    for number, value in vector:
        for place, entry in table.get(number, ()):
            found.setdefault(place, []).append((entry, value))
    return found


def vector_text(vector: List[Number]) -> str:
    return " ".join(map(str, vector))


def sparse_text(vector: Sparse) -> str:
    return " ".join([str(len(vector))] + [f"{place} {value}" for place, value in vector])


_DECIMAL = re.compile(r"([+-]?)(?:([0-9]+)\.?([0-9]*)|\.([0-9]+))(?:[eE]([+-]?)([0-9]+))?")
_BOUNDS = {"f": 0, "l": 1, "u": 1, "s": 1, "d": 2}  # how many numbers follow the types of bounds


def _file_natural(word: str) -> int:
    require(word.isascii() and word.isdigit(), "BadLine")
    word = word.lstrip("0") or "0"
    return MOST_NATURAL if len(word) > 10 else min(int(word), MOST_NATURAL)


def _file_number(word: str) -> Number:
    match = _DECIMAL.fullmatch(word)
    require(match, "BadNumber")
    sign, whole, part, lone, down, exponent = match.groups(default="")
    digits = (whole + part + lone).lstrip("0")
    mantissa = digits.rstrip("0")
    require(len(mantissa) <= 36, "Digits")
    if not mantissa:
        return 0
    power = _file_natural(exponent or "0") * (-1 if down == "-" else 1)
    power += len(digits) - len(mantissa) - len(part + lone)
    require(abs(power) <= 36, "NumberWide")
    number = int(sign + mantissa) * Fraction(10) ** power
    require(is_held(number), "NumberWide")
    return number.numerator if number.denominator == 1 else number


class Problem:
    """A vector linear program as its lines say it, and at their end by its sides; all is numbered from 1."""

    def __init__(self) -> None:
        self.objectives, self.maximises = 0, False  # no objectives before the `p` line
        self.cone, self.vectors = "orthant", []  # "orthant", "cone" or "dualcone"
        self.duality: Optional[List[Number]] = None
        self.objective_columns: Dict[int, Sparse] = {}  # of each column, where the file maximises negated
        self.bounds: List[Number] = []  # of each side
        self.sides: Dict[int, Sparse] = {}  # of each its columns
        self.side_columns: Dict[int, Sparse] = {}  # of each column its sides
        self.wanted: Dict[str, int] = {}  # how many lines of each kind the `p` line says
        self.most: Dict[str, Tuple[int, ...]] = {}  # of each kind the greatest places
        self.given: Dict[str, Dict[Tuple[int, ...], Any]] = {kind: {} for kind in "aokij"}

    def take(self, line: str) -> bool:
        """Takes a line, and says whether it is the `e` line."""
        line = line[:-1] if line.endswith("\r") else line
        require(len(line) <= MOST_LINE_BYTES, "LineLong")
        words = [word for word in line.replace("\t", " ").split(" ") if word]
        kind = words[0] if words else "c"
        if kind == "c":
            return False
        require(kind in ("p", "e") or kind in self.given, "BadLine")
        require(kind == "p" or self.objectives, "NoProblem")
        require(kind != "p" or not self.objectives, "Twice")
        if kind == "p":
            self._take_sizes(words)
        elif kind != "e":
            self._take_given(kind, words)
        return kind == "e"

    def _take_sizes(self, words: List[str]) -> None:
        require(len(words) in (8, 11) and words[1] == "vlp" and words[2] in ("min", "max"), "BadLine")
        rows, columns, entries, objectives, values = map(_file_natural, words[3:8])
        vectors, self.wanted = 0, {"a": entries, "o": values}
        if len(words) == 11:
            self.cone, vectors, self.wanted["k"] = words[8], _file_natural(words[9]), _file_natural(words[10])
            require(self.cone in ("cone", "dualcone"), "BadLine")
        require(columns and objectives and (vectors or len(words) == 8), "OutOfRange")
        require(max(rows, columns) <= 1_000 and objectives <= 20 and vectors <= 64, "LimitPassed")
        require(sum(self.wanted.values()) <= 100_000, "LimitPassed")
        self.objectives, self.maximises = objectives, words[2] == "max"
        self.vectors = [[0] * objectives for _ in range(vectors)]
        self.most = {"a": (rows, columns), "o": (objectives, columns), "k": (objectives, vectors),
                     "i": (rows,), "j": (columns,)}

    def _take_given(self, kind: str, words: List[str]) -> None:
        """Takes the entry of a place, or the bounds of a row or column."""
        places, form = len(self.most[kind]), "".join(words[2:3])
        require(len(words) == (4 if places == 2 else 3 + _BOUNDS.get(form, len(words))), "BadLine")
        place = tuple(map(_file_natural, words[1:1 + places]))
        least = (1, 0) if kind == "k" else (1, 1)
        for low, number, high in zip(least, place, self.most[kind]):
            require(low <= number <= high, "OutOfRange")
        numbers = list(map(_file_number, words[3:]))
        require(place not in self.given[kind], "Twice")
        self.given[kind][place] = numbers[0] if places == 2 else (form, numbers)

    def finish(self) -> None:
        """Tests what is tested after the last line, and makes the sides."""
        require(self.objectives, "NoProblem")
        for kind, count in self.wanted.items():
            others = sum(1 for _, vector in self.given[kind] if vector)  # of `k` those of no duality vector
            require(count in (len(self.given[kind]), others), "CountWrong")
        duality: List[Number] = [0] * self.objectives
        for (place, vector), value in self.given["k"].items():
            (self.vectors[vector - 1] if vector else duality)[place - 1] = value
        self.duality = duality if any(not vector for _, vector in self.given["k"]) else None
        for (objective, column), value in sorted(self.given["o"].items()):
            if value:
                signed = -value if self.maximises else value
                self.objective_columns.setdefault(column, []).append((objective, signed))
        rows: Dict[int, Sparse] = {}
        for (row, column), value in sorted(self.given["a"].items()):
            if value:
                rows.setdefault(row, []).append((column, value))
        for (row,), bounds in sorted(self.given["i"].items()):
            self._put_sides(rows.get(row, []), *bounds)
        for (column,), bounds in sorted(self.given["j"].items()):
            self._put_sides([(column, 1)], *bounds)

    def _put_sides(self, terms: Sparse, form: str, numbers: List[Number]) -> None:
        """Puts the sides of bounds, a lower one first."""
        bounds = [(1, number) for number in numbers[:1] if form != "u"]
        bounds += [(-1, number) for number in numbers[-1:] if form != "l"]
        for sign, bound in bounds:
            self.bounds.append(sign * bound)
            self.sides[len(self.bounds)] = [(column, sign * value) for column, value in terms]
            for column, value in terms:
                self.side_columns.setdefault(column, []).append((len(self.bounds), sign * value))


def read_problem(lines: Lines) -> Problem:
    """The problem of a text; its first fault ends with status 3."""
    problem, number = Problem(), 0
    try:
        for number, line in enumerate(lines, 1):
            if problem.take(line.decode("latin-1").rstrip("\n")):
                break
        else:
            number += 1
        problem.finish()
    except Wrong as wrong:
        raise Fault(3, f"line {number} kind {FILE_KINDS.index(str(wrong)) + 1} {wrong}") from None
    return problem


_NUMBER = re.compile(r"0|(-?[1-9][0-9]*)(?:/(?!1\Z)([1-9][0-9]*))?")
_NATURAL = re.compile(r"0|[1-9][0-9]*")


class Words:
    """The words of a line, from the second on."""

    def __init__(self, words: List[str]):
        self.words, self.at = words, 1

    def word(self, choices: Tuple[str, ...] = ()) -> str:
        require(self.at < len(self.words) and (not choices or self.words[self.at] in choices), "BadLine")
        self.at += 1
        return self.words[self.at - 1]

    def natural(self) -> int:
        word = self.word()
        require(_NATURAL.fullmatch(word), "BadNumber")
        require(len(word) <= 10 and int(word) <= MOST_NATURAL, "OutOfRange")
        return int(word)

    def number(self) -> Number:
        match = _NUMBER.fullmatch(self.word())
        require(match, "BadNumber")
        above, below = match.groups(default="")
        require(len(above) <= 38 and len(below) <= 37, "NumberWide")
        top, bottom = int(above or 0), int(below or 1)
        require(is_held(top) and is_held(bottom), "NumberWide")
        require(not below or gcd(top, bottom) == 1, "BadNumber")
        return Fraction(top, bottom) if below else top

    def numbers(self, count: int) -> List[Number]:
        return [self.number() for _ in range(count)]

    def naturals(self, count: int) -> List[int]:
        words = self.words[self.at:self.at + count]
        if len(words) == count > 0 and all(map(_NATURAL.fullmatch, words)) and max(map(len, words)) < 10:
            self.at += count
            return list(map(int, words))
        return [self.natural() for _ in range(count)]

    def sparse(self) -> Sparse:
        found: Sparse = []
        for _ in range(self.natural()):
            place = self.natural()
            require(place > (found[-1][0] if found else 0), "OutOfRange")
            found.append((place, self.number()))
            require(found[-1][1], "BadNumber")
        return found


_FIELDS: Dict[str, Callable[[Words], Any]] = {
    "N": Words.natural, "V": Words.number, "S": Words.sparse, "K": lambda words: words.word(_ANSWERS),
    "L": lambda words: words.numbers(words.natural()), "I": lambda words: words.naturals(words.natural()),
    "P": lambda words: list(zip(*[iter(words.naturals(2 * words.natural()))] * 2))}
_ANSWERS = ("infeasible", "whole", "solved", "novertex")
LOG_SHAPES = {
    "version": "N", "duality": "LLIL", "cut": "LVSS", "start": "ILL", "add": "NP", "point": "NSS", "ray": "NSS",
    "farkas": "S", "whole": "SSS", "line": "LSSSSS", "facet": "N", "end": "K", "share": "S", "cutof": "LVNS",
    "pointof": "NNS", "rayof": "NNS", "addh": "NPI"}
CONVERSION_SHAPES = {"conv": "N", "line": "L", "start": "IL", "add": "NP", "end": ""}


def _each_line(lines: Lines, take: Callable[[Words], Any], status: int) -> Iterator[Tuple[List[str], Any]]:
    """The words of each line and what is taken of them, up to the `end` line; or the first fault."""
    number, is_ended = 0, False
    try:
        for number, line in enumerate(lines, 1):
            require(status != 16 or number <= MOST_LINES, "OutOfRange")
            require(not is_ended and line.endswith(b"\n"), "BadLine")
            words = Words(line[:-1].decode("latin-1").split(" "))
            require("" not in words.words, "BadLine")
            taken = take(words)
            require(words.at == len(words.words), "BadLine")
            is_ended = words.words[0] == "end"
            yield words.words, taken
        number += 1
        require(is_ended, "NoEnd")
    except Wrong as wrong:
        raise Fault(status, f"line {number} kind {LOG_KINDS.index(str(wrong)) + 1} {wrong}") from None


def entries_of(lines: Lines, shapes: Dict[str, str]) -> Iterator[Tuple[List[str], List[Any]]]:
    """The words of each entry of a log, and what it says; the first fault of the text ends with status 9."""
    def take(words: Words) -> List[Any]:
        require(words.words[0] in shapes, "BadLine")
        return [_FIELDS[field](words) for field in shapes[words.words[0]]]
    return _each_line(lines, take, 9)


class Representation:
    """The rows of a polyhedron by sides or by generators, as a conversion numbers them; a fault ends with status 16."""

    def __init__(self, lines: Lines):
        self.entries, self.is_sides = 0, False
        self.rows: List[List[Number]] = []
        list(_each_line(lines, self._take, 16))
        if not self.is_sides and not any(row[-1] for row in self.rows):
            self.rows = []  # there is no point

    def _take(self, words: Words) -> None:
        kind = words.words[0]
        if not self.entries:
            require(kind in ("sides", "gens"), "BadLine")
            self.entries, self.is_sides = words.natural(), kind == "sides"
            require(1 <= self.entries <= 19, "OutOfRange")
            self.rows = [[0] * self.entries + [1]] if self.is_sides else []
        elif kind != "end":
            require(kind in (("h", "e") if self.is_sides else ("l", "1", "0")), "BadLine")
            vector = words.numbers(self.entries + self.is_sides)
            self.rows.append(vector[:-1] + [-vector[-1]] if self.is_sides else vector + [-1 if kind == "1" else 0])
            self.rows += [[-value for value in self.rows[-1]]] if kind in ("e", "l") else []
