"""The texts of the program: each is read here, in one way, and printed again byte for byte.

`Report`, `Projection`, `Weights`, `Weighed`, `Summary`, `Representation`, `Log` and `FaultLine` each have `read(text)`,
`load(path)`, `text()` and `write(path)`. Numbers are `fractions.Fraction`, and vectors are tuples of them. Rows, columns, sides,
points and facets are numbered from 1, as in the texts; a sparse vector is a dictionary from places to the values that are not 0.
What is not of the form that docs/FORMATS.md gives is refused by a `TextFault` with its line, and with the kind that the program
tells of such a line.
"""
import os
import re
import stat
import tempfile
from array import array
from contextlib import contextmanager, suppress
from dataclasses import dataclass, replace
from fractions import Fraction
from math import gcd
from typing import Callable, Dict, Iterable, Iterator, List, NamedTuple, Optional, Sequence, Tuple, Union

Vector = Tuple[Fraction, ...]
Sparse = Dict[int, Fraction]
Path = Union[str, "os.PathLike[str]"]

LARGEST_NATURAL = 4_294_967_295
HELD = 2**120

NUMBER = re.compile(r"(0|-?[1-9][0-9]*)(?:/([1-9][0-9]*))?")
NATURAL = re.compile(r"0|[1-9][0-9]*")


class TextFault(ValueError):
    """Why a text is refused: its line, the kind of fault, and a sentence."""

    def __init__(self, line: int, kind: str, sentence: str) -> None:
        super().__init__(line, kind, sentence)
        self.line = line
        self.kind = kind
        self.sentence = sentence
        self.file: Optional[str] = None

    def __str__(self) -> str:
        place = f"line {self.line}" if self.file is None else f"{self.file}:{self.line}"
        return f"{place}: {self.sentence}"


def read_text(path: Path) -> str:
    """The text of a file. Bytes that are no UTF-8, as a comment may have, come back as they were where it is written."""
    with open(path, "rb") as file:
        return file.read().decode("utf-8", "surrogateescape")


@contextmanager
def whole_file(path: Path) -> Iterator[str]:
    """The name of a new file to write. It takes the place of `path` once the block ends, and is gone where it fails."""
    if os.path.exists(path) and not os.path.isfile(path):
        yield os.fspath(path)
        return
    target = os.path.realpath(path)
    handle, part = tempfile.mkstemp(dir=os.path.dirname(target), prefix=os.path.basename(target) + ".")
    os.close(handle)
    try:
        os.chmod(part, stat.S_IMODE(os.stat(target).st_mode) if os.path.exists(target) else 0o666 & ~_umask())
        yield part
        os.replace(part, target)
    except BaseException:
        with suppress(FileNotFoundError):
            os.unlink(part)
        raise


def write_text(path: Path, text: str) -> None:
    """Writes a file whole, or leaves what was there."""
    with whole_file(path) as part, open(part, "wb") as file:
        file.write(text.encode("utf-8", "surrogateescape"))


def _umask() -> int:
    mask = os.umask(0)
    os.umask(mask)
    return mask


class Text:
    """A text of the program, by a class for each kind of text."""

    @classmethod
    def read(cls, text: str):
        raise NotImplementedError

    @classmethod
    def load(cls, path: Path):
        """What a file says. Its faults name the file."""
        try:
            return cls.read(read_text(path))
        except TextFault as fault:
            fault.file = os.fspath(path)
            raise

    def text(self) -> str:
        raise NotImplementedError

    def write(self, path: Path) -> None:
        write_text(path, self.text())


class Words:
    """The words of a line, taken from left to right."""

    def __init__(self, line: int, text: str) -> None:
        self.line = line
        self.words = text.split(" ")
        self.at = 0
        if "" in self.words:
            raise self.fault("BadLine", "words are separated by exactly one blank, and no line is empty")

    def fault(self, kind: str, sentence: str) -> TextFault:
        return TextFault(self.line, kind, sentence)

    def take(self, wanted: str = "word") -> str:
        if self.at == len(self.words):
            raise self.fault("BadLine", f"a {wanted} is wanting at the end of the line")
        self.at += 1
        return self.words[self.at - 1]

    def finish(self) -> None:
        if self.at < len(self.words):
            raise self.fault("BadLine", f"`{self.words[self.at]}` is left over at the end of the line")

    def one_of(self, words: Iterable[str]) -> str:
        word = self.take()
        choices = tuple(words)
        if word not in choices:
            raise self.fault("BadLine", f"`{word}` stands where `{'` or `'.join(choices)}` is wanted")
        return word

    def natural(self, most: Optional[int] = LARGEST_NATURAL) -> int:
        word = self.take("number")
        if not NATURAL.fullmatch(word):
            raise self.fault("BadNumber", f"`{word}` is no natural number without a zero in front")
        if most is not None and (len(word) > 20 or int(word) > most):
            raise self.fault("OutOfRange", f"`{word}` is above {most}")
        return int(word)

    def place(self, above: int) -> int:
        """A number from 1 that is above the one before."""
        place = self.natural()
        if place <= above:
            raise self.fault("OutOfRange", f"{place} stands where a number above {above} is wanted")
        return place

    def number(self) -> Fraction:
        word = self.take("number")
        match = NUMBER.fullmatch(word)
        if not match:
            raise self.fault("BadNumber", f"`{word}` is no whole number, and no fraction as 1/2")
        over, under = match.group(1), match.group(2)
        if len(over) > 38 or abs(int(over)) >= HELD or under and (len(under) > 37 or int(under) >= HELD):
            raise self.fault("NumberWide", f"`{word}` has a numerator or a denominator of 2^120 or more")
        if under is None:
            return Fraction(int(over))
        if under == "1" or gcd(int(over), int(under)) != 1:
            raise self.fault("BadNumber", f"`{word}` is not in lowest terms")
        return Fraction(int(over), int(under))

    def count_left(self) -> int:
        return len(self.words) - self.at

    def vector(self, width: int) -> Vector:
        return tuple(self.number() for _ in range(width))

    def list(self) -> Vector:
        return tuple(self._counted(self.number))

    def _counted(self, part: Callable[[], object]) -> Iterator:
        for _ in range(self.natural()):
            yield part()

    def naturals(self) -> "array[int]":
        return self._naturals(self.natural())

    def pairs(self) -> "array[int]":
        """The numbers of so many pairs, one after the other."""
        return self._naturals(2 * self.natural())

    def _naturals(self, count: int) -> "array[int]":
        """So many naturals. A long list is read at once, and word by word where it has a fault."""
        words = self.words[self.at:self.at + count]
        if len(words) == count:
            try:
                numbers = array("I", map(int, words))
            except (ValueError, OverflowError):
                pass
            else:
                if all(map(str.__eq__, map(str, numbers), words)):
                    self.at += count
                    return numbers
        return array("I", (self.natural() for _ in range(count)))

    def rising(self, most: int) -> Tuple[int, ...]:
        """A count and so many rising numbers from 1 to `most`."""
        numbers: List[int] = []
        for number in self._counted(lambda: self.place(numbers[-1] if numbers else 0)):
            if number > most:
                raise self.fault("OutOfRange", f"{number} is above {most}, and names nothing")
            numbers.append(number)
        return tuple(numbers)

    def sparse(self) -> Sparse:
        vector: Sparse = {}
        place = 0
        for _ in range(self.natural()):
            place = self.place(place)
            vector[place] = self.number()
            if not vector[place]:
                raise self.fault("BadNumber", "0 is no value of a sparse vector")
        return vector


def cut_lines(text: str) -> Iterator[Tuple[int, str, bool]]:
    """The lines of a text, each with its number and whether its line feed is there."""
    number, at = 1, 0
    while at < len(text):
        end = text.find("\n", at)
        yield number, text[at:end] if end >= 0 else text[at:], end >= 0
        if end < 0:
            return
        number, at = number + 1, end + 1


class Lines:
    """The lines of a text, taken from the first to the last."""

    def __init__(self, text: str) -> None:
        self.lines = cut_lines(text)
        self.number = 0
        self.ahead: Optional[Words] = None

    def _next(self) -> Optional[Words]:
        for number, line, ended in self.lines:
            self.number = number
            if not ended:
                raise TextFault(number, "BadLine", "the line feed at its end is wanting")
            return Words(number, line)
        return None

    def is_next(self, word: str) -> bool:
        """Whether there is a next line, and it begins with this word."""
        if self.ahead is None:
            self.ahead = self._next()
        return self.ahead is not None and self.ahead.words[0] == word

    def take(self, word: str) -> Words:
        """The words of the next line after the first, which is this one."""
        words = self.ahead or self._next()
        self.ahead = None
        if words is None:
            raise TextFault(self.number + 1, "NoEnd", f"the text ends where a line `{word}` is wanted")
        words.one_of([word])
        return words

    def finish(self) -> None:
        words = self.ahead or self._next()
        if words is not None:
            raise TextFault(words.line, "BadLine", "a line is left over at the end of the text")

    def head(self, word: str) -> None:
        """The first line: the kind of text, and its version 1."""
        self.only(word, lambda words: words.one_of(["1"]))

    def only(self, word: str, part: Callable[[Words], object]):
        """What a line says after this word, to its end."""
        words = self.take(word)
        value = part(words)
        words.finish()
        return value

    def counted(self, word: str, row: str, part: Callable[[Words], object], count: Optional[int] = None) -> tuple:
        """A line with a count, which may be known before, and as many lines that begin with `row`."""
        words = self.take(word)
        number = words.natural()
        words.finish()
        if count is not None and number != count:
            raise words.fault("OutOfRange", f"`{word}` counts {number} where there are {count}")
        return tuple(self.only(row, part) for _ in range(number))

    def sparse(self, word: str) -> Sparse:
        return self.only(word, Words.sparse)


class Row:
    """Reads vectors of one width, which the first of them tells."""

    def __init__(self, width: Optional[int] = None) -> None:
        self.width = width

    def vector(self, words: Words) -> Vector:
        if self.width is None:
            self.width = words.count_left()
            if not self.width:
                raise words.fault("BadLine", "a vector has a number at least")
        return words.vector(self.width)

    def facet(self, words: Words) -> "Facet":
        if self.width is None:
            self.width = words.count_left() - 1
        return Facet(words.vector(self.width), words.number())


class Facet(NamedTuple):
    """An inequality: the product with `normal` is at least `bound` (of a file that maximises, at most)."""

    normal: Vector
    bound: Fraction


def joined(word: object, *values: object) -> str:
    return " ".join(map(str, (word, *values)))


def moved(vector: Sparse, place_of: Callable[[int], int]) -> Sparse:
    """A sparse vector with its values at other places."""
    return dict(sorted((place_of(place), value) for place, value in vector.items()))


def sparse_words(vector: Sparse) -> List[object]:
    words: List[object] = [len(vector)]
    for place in vector:
        words += (place, vector[place])
    return words


def sparse_line(word: str, vector: Sparse) -> str:
    return joined(word, *sparse_words(vector))


def block(word: str, row: str, vectors: Sequence[Sequence[object]]) -> List[str]:
    return [f"{word} {len(vectors)}", *(joined(row, *vector) for vector in vectors)]


def whole_text(lines: Iterable[str]) -> str:
    return "".join(f"{line}\n" for line in lines)


@dataclass(frozen=True)
class Report(Text):
    """What `solve`, `dual` and `check` print.

    Of a solved answer `plans`, `rays` and `multipliers` stand beside the points, the directions and the facets, and `line_rays`
    has both ways of each line. Of the answer `infeasible` `multipliers` has the one vector that shows it; of `whole`, `plans` and
    `rays` have a feasible point and a direction.
    """

    answer: str
    free: Tuple[int, int]
    duality: Vector = ()
    maximises: bool = False
    lines: Tuple[Vector, ...] = ()
    points: Tuple[Vector, ...] = ()
    directions: Tuple[Vector, ...] = ()
    facets: Tuple[Facet, ...] = ()
    incidence: Tuple[Tuple[int, ...], ...] = ()
    line_rays: Tuple[Tuple[Sparse, Sparse], ...] = ()
    plans: Tuple[Sparse, ...] = ()
    rays: Tuple[Sparse, ...] = ()
    multipliers: Tuple[Sparse, ...] = ()

    @property
    def dual(self) -> Tuple[Vector, ...]:
        """The vertices of the lower image, one for each facet."""
        return tuple(facet.normal[:-1] + (facet.bound,) for facet in self.facets)

    @property
    def dual_direction(self) -> Vector:
        """The extreme direction of the lower image."""
        last = Fraction(1 if self.maximises else -1)
        return (Fraction(0),) * (len(self.duality) - 1) + (last,)

    @classmethod
    def read(cls, text: str) -> "Report":
        lines = Lines(text)
        lines.head("report")
        answer = lines.only("answer", lambda words: words.one_of(["infeasible", "whole", "solved"]))
        free = lines.only("free", lambda words: (words.natural(), words.natural()))
        parts: Dict[str, object] = {}
        if answer != "infeasible":
            parts["duality"] = lines.only("c", Row().vector)
        if answer == "solved":
            parts.update(_solved_parts(lines, len(parts["duality"])))
        else:
            lines.only("witnesses", lambda words: None)
            if answer == "infeasible":
                parts["multipliers"] = (lines.sparse("u"),)
            else:
                parts["plans"] = (lines.sparse("x"),)
                parts["rays"] = (lines.sparse("r"),)
        lines.finish()
        return cls(answer=answer, free=free, **parts)

    def text(self) -> str:
        return whole_text(self._lines())

    def _lines(self) -> Iterator[str]:
        yield from ("report 1", f"answer {self.answer}", joined("free", *self.free))
        if self.answer != "infeasible":
            yield joined("c", *self.duality)
        if self.answer == "solved":
            if self.lines:
                yield from block("lines", "l", self.lines)
            yield from block("points", "1", self.points)
            yield from block("directions", "0", self.directions)
            yield from block("facets", "f", [facet.normal + (facet.bound,) for facet in self.facets])
            yield from block("dual", "1", self.dual)
            yield joined("0", *self.dual_direction)
            yield from block("incidence", "n", [(len(on), *on) for on in self.incidence])
        yield "witnesses"
        for both in self.line_rays:
            yield from (sparse_line("r", ray) for ray in both)
        for word, vectors in (("x", self.plans), ("r", self.rays), ("u", self.multipliers)):
            yield from (sparse_line(word, vector) for vector in vectors)


def _solved_parts(lines: Lines, width: int) -> Dict[str, object]:
    """What a report tells of a solved answer."""
    row = Row(width)
    parts: Dict[str, object] = {}
    if lines.is_next("lines"):
        parts["lines"] = lines.counted("lines", "l", row.vector)
        if not parts["lines"]:
            raise TextFault(lines.number, "BadLine", "`lines 0` does not stand in a report")
    points = parts["points"] = lines.counted("points", "1", row.vector)
    directions = parts["directions"] = lines.counted("directions", "0", row.vector)
    facets = parts["facets"] = lines.counted("facets", "f", row.facet)
    told = iter(facets)
    lines.counted("dual", "1", lambda words: _dual_vertex(words, next(told)), len(facets))
    parts["maximises"] = lines.only("0", lambda words: _dual_direction(words, width))
    most = len(points) + len(directions)
    parts["incidence"] = lines.counted("incidence", "n", lambda words: words.rising(most), len(facets))
    lines.only("witnesses", lambda words: None)
    parts["line_rays"] = tuple((lines.sparse("r"), lines.sparse("r")) for _ in parts.get("lines", ()))
    parts["plans"] = tuple(lines.sparse("x") for _ in points)
    parts["rays"] = tuple(lines.sparse("r") for _ in directions)
    parts["multipliers"] = tuple(lines.sparse("u") for _ in facets)
    return parts


def _dual_vertex(words: Words, facet: Facet) -> None:
    if words.vector(len(facet.normal)) != facet.normal[:-1] + (facet.bound,):
        raise words.fault("BadLine", "this vertex of the lower image is not the one of its facet")


def _dual_direction(words: Words, width: int) -> bool:
    """Whether the extreme direction of the lower image is that of a file that maximises."""
    direction = words.vector(width)
    if any(direction[:-1]) or abs(direction[-1]) != 1:
        raise words.fault("BadLine", "the direction of the lower image is 0 but for its last entry, which is -1 or 1")
    return direction[-1] == 1


@dataclass(frozen=True)
class Projection(Text):
    """What `project`, `meet`, `sum`, `join` and `map` print.

    Of a solved answer `choices` and `rays` stand beside the points and the directions, and `line_rays` has both ways of each
    line. Of the answer `infeasible` `multipliers` shows it. The sides are inequalities that the members alone meet, and more than
    the facets.
    """

    answer: str
    columns: int
    lines: Tuple[Vector, ...] = ()
    points: Tuple[Vector, ...] = ()
    directions: Tuple[Vector, ...] = ()
    sides: Tuple[Facet, ...] = ()
    line_rays: Tuple[Tuple[Sparse, Sparse], ...] = ()
    choices: Tuple[Sparse, ...] = ()
    rays: Tuple[Sparse, ...] = ()
    multipliers: Optional[Sparse] = None

    def inequalities(self) -> List[Facet]:
        """The sides as inequalities of the columns alone, without one that says nothing."""
        plain = []
        for side in self.sides:
            last = side.normal[-1]
            normal = tuple(weight - last for weight in side.normal[:-1])
            if any(normal) or side.bound > 0:
                plain.append(Facet(normal, side.bound))
        return plain

    def renumbered(self, of_column: Callable[[int], int], of_side: Callable[[int], int]) -> "Projection":
        """The same with other numbers of the columns in the choices, and of the sides in the multipliers."""
        return replace(
            self,
            line_rays=tuple((moved(ray, of_column), moved(back, of_column)) for ray, back in self.line_rays),
            choices=tuple(moved(choice, of_column) for choice in self.choices),
            rays=tuple(moved(ray, of_column) for ray in self.rays),
            multipliers=None if self.multipliers is None else moved(self.multipliers, of_side),
        )

    @classmethod
    def read(cls, text: str) -> "Projection":
        lines = Lines(text)
        lines.head("projection")
        answer = lines.only("answer", lambda words: words.one_of(["infeasible", "solved"]))
        columns = lines.only("columns", lambda words: words.place(0))
        parts: Dict[str, object] = {}
        if answer == "solved":
            row = Row(columns)
            parts["lines"] = lines.counted("lines", "l", row.vector)
            parts["points"] = lines.counted("points", "1", row.vector)
            parts["directions"] = lines.counted("directions", "0", row.vector)
            parts["sides"] = lines.counted("sides", "h", Row(columns + 1).facet)
        lines.only("witnesses", lambda words: None)
        if answer == "solved":
            parts["line_rays"] = tuple((lines.sparse("r"), lines.sparse("r")) for _ in parts["lines"])
            parts["choices"] = tuple(lines.sparse("x") for _ in parts["points"])
            parts["rays"] = tuple(lines.sparse("r") for _ in parts["directions"])
        else:
            parts["multipliers"] = lines.sparse("u")
        lines.finish()
        return cls(answer=answer, columns=columns, **parts)

    def text(self) -> str:
        return whole_text(self._lines())

    def _lines(self) -> Iterator[str]:
        yield from ("projection 1", f"answer {self.answer}", f"columns {self.columns}")
        if self.answer == "solved":
            yield from block("lines", "l", self.lines)
            yield from block("points", "1", self.points)
            yield from block("directions", "0", self.directions)
            yield from block("sides", "h", [side.normal + (side.bound,) for side in self.sides])
        yield "witnesses"
        if self.multipliers is not None:
            yield sparse_line("u", self.multipliers)
        for both in self.line_rays:
            yield from (sparse_line("r", ray) for ray in both)
        yield from (sparse_line("x", choice) for choice in self.choices)
        yield from (sparse_line("r", ray) for ray in self.rays)


@dataclass(frozen=True)
class Weights(Text):
    """What `weights` prints: for each point the numbers of the facets on which it lies, and the facets."""

    answer: str
    points: Tuple[Vector, ...] = ()
    touching: Tuple[Tuple[int, ...], ...] = ()
    facets: Tuple[Facet, ...] = ()

    @classmethod
    def read(cls, text: str) -> "Weights":
        lines = Lines(text)
        lines.head("weights")
        answer = lines.only("answer", lambda words: words.one_of(["infeasible", "whole", "solved"]))
        points: List[Vector] = []
        touching: List[Tuple[int, ...]] = []
        last_lines: List[int] = []
        facets: Tuple[Facet, ...] = ()
        if answer == "solved":
            row = Row()
            for _ in range(lines.only("points", Words.natural)):
                points.append(lines.only("1", row.vector))
                touching.append(lines.only("n", lambda words: words.rising(LARGEST_NATURAL)))
                last_lines.append(lines.number)
            facets = lines.counted("facets", "f", row.facet)
            for line, numbers in zip(last_lines, touching):
                if numbers and numbers[-1] > len(facets):
                    raise TextFault(line, "OutOfRange", f"there is no facet {numbers[-1]}")
        lines.finish()
        return cls(answer, tuple(points), tuple(touching), facets)

    def text(self) -> str:
        return whole_text(self._lines())

    def _lines(self) -> Iterator[str]:
        yield from ("weights 1", f"answer {self.answer}")
        if self.answer == "solved":
            yield f"points {len(self.points)}"
            for point, numbers in zip(self.points, self.touching):
                yield joined("1", *point)
                yield joined("n", len(numbers), *numbers)
            yield from block("facets", "f", [facet.normal + (facet.bound,) for facet in self.facets])


@dataclass(frozen=True)
class Weighed(Text):
    """What `weigh` prints: the best value with the points that have it, or a direction along which it has no end."""

    answer: str
    value: Optional[Fraction] = None
    points: Tuple[Vector, ...] = ()
    direction: Optional[Vector] = None

    @classmethod
    def read(cls, text: str) -> "Weighed":
        lines = Lines(text)
        lines.head("weigh")
        answer = lines.only("answer", lambda words: words.one_of(["infeasible", "whole", "unbounded", "solved"]))
        value, points, direction = None, (), None
        if answer == "unbounded":
            direction = lines.only("0", Row().vector)
        if answer == "solved":
            value = lines.only("value", Words.number)
            points = lines.counted("points", "1", Row().vector)
        lines.finish()
        return cls(answer, value, points, direction)

    def text(self) -> str:
        lines = ["weigh 1", f"answer {self.answer}"]
        if self.direction is not None:
            lines.append(joined("0", *self.direction))
        if self.value is not None:
            lines += [f"value {self.value}", *block("points", "1", self.points)]
        return whole_text(lines)


@dataclass(frozen=True)
class Summary(Text):
    """What `sample` prints: how many vertices, extreme directions and facets the image of the sample file of a number has."""

    number: int
    points: int
    directions: int
    facets: int

    @classmethod
    def read(cls, text: str) -> "Summary":
        lines = Lines(text)
        number = lines.only("sample", lambda words: words.place(0))
        lines.only("answer", lambda words: words.one_of(["solved"]))
        found = cls(number, *(lines.only(word, Words.natural) for word in ("points", "directions", "facets")))
        lines.finish()
        return found

    def text(self) -> str:
        counts = (f"{word} {getattr(self, word)}" for word in ("points", "directions", "facets"))
        return whole_text([f"sample {self.number}", "answer solved", *counts])


@dataclass(frozen=True)
class Representation(Text):
    """A polyhedron by inequalities and equations (`sides`), or by points, directions and lines (`gens`).

    A row is its word, `h`, `e`, `1`, `0` or `l`, and its numbers; those of a row of `sides` end with the bound. A text that the
    program prints may have more lines than the MOST_LINES that it reads: both are read here, unless `most_lines` is given.
    """

    MOST_LINES = 10_000

    kind: str
    width: int
    rows: Tuple[Tuple[str, Vector], ...]

    WORDS = {"sides": ("h", "e"), "gens": ("l", "1", "0")}

    def of(self, word: str) -> List[Vector]:
        """The numbers of the rows that begin with this word."""
        return [numbers for row, numbers in self.rows if row == word]

    @classmethod
    def read(cls, text: str, wanted: Optional[str] = None, most_lines: Optional[int] = None) -> "Representation":
        kind, width, rows, ended, number = "", 0, [], False, 0
        for number, line, fed in cut_lines(text):
            if most_lines is not None and number > most_lines:
                raise TextFault(number, "OutOfRange", f"a text has at most {most_lines} lines")
            if ended or not fed:
                raise TextFault(number, "BadLine", "a line stands after `end`" if ended else "the line feed at its end is wanting")
            words = Words(number, line)
            if number == 1:
                kind, width = words.one_of(cls.WORDS), words.natural()
                if not 1 <= width <= 19:
                    raise words.fault("OutOfRange", f"a vector has from 1 to 19 entries, and not {width}")
            else:
                word = words.one_of((*cls.WORDS[kind], "end"))
                ended = word == "end"
                if not ended:
                    rows.append((word, words.vector(width + (kind == "sides"))))
            words.finish()
        if not ended:
            raise TextFault(number + 1, "NoEnd", "the line `end` is wanting")
        if wanted not in (None, kind):
            raise TextFault(1, "BadLine", f"the text begins with `{kind}` where `{wanted}` is wanted")
        return cls(kind, width, tuple(rows))

    def text(self) -> str:
        return whole_text([f"{self.kind} {self.width}", *(joined(word, *row) for word, row in self.rows), "end"])


class Entry(NamedTuple):
    """A line of a log: its first word, and what follows, in the order of the form."""

    word: str
    values: tuple


PROOF_FORMS = {
    "version": ("natural",),
    "duality": ("list", "list", "naturals", "list"),
    "cut": ("list", "number", "sparse", "sparse"),
    "start": ("naturals", "list", "list"),
    "add": ("natural", "pairs"),
    "point": ("natural", "sparse", "sparse"),
    "ray": ("natural", "sparse", "sparse"),
    "farkas": ("sparse",),
    "whole": ("sparse", "sparse", "sparse"),
    "line": ("list", "sparse", "sparse", "sparse", "sparse", "sparse"),
    "facet": ("natural",),
    "end": ("answer",),
    "share": ("sparse",),
    "cutof": ("list", "number", "natural", "sparse"),
    "pointof": ("natural", "natural", "sparse"),
    "rayof": ("natural", "natural", "sparse"),
    "addh": ("natural", "pairs", "naturals"),
}

CONVERSION_FORMS = {
    "conv": ("natural",),
    "line": ("list",),
    "start": ("naturals", "list"),
    "add": ("natural", "pairs"),
    "end": (),
}

READ_PARTS: Dict[str, Callable[[Words], object]] = {
    "natural": Words.natural,
    "number": Words.number,
    "list": Words.list,
    "naturals": Words.naturals,
    "pairs": Words.pairs,
    "sparse": Words.sparse,
    "answer": lambda words: words.one_of(["infeasible", "whole", "solved", "novertex"]),
}

PRINT_PARTS: Dict[str, Callable[..., Iterable[object]]] = {
    "natural": lambda number: (number,),
    "number": lambda number: (number,),
    "list": lambda numbers: (len(numbers), *numbers),
    "naturals": lambda numbers: (len(numbers), *numbers),
    "pairs": lambda numbers: (len(numbers) // 2, *numbers),
    "sparse": sparse_words,
    "answer": lambda word: (word,),
}


def is_conversion_log(text: str) -> bool:
    """Whether a text begins as the log of a conversion, and not as that of a problem."""
    return text.startswith("conv ")


def log_entries(text: str, conversion: Optional[bool] = None) -> Iterator[Entry]:
    """The entries of a log, one at a time. Without `conversion` the first word tells which of the two kinds it is."""
    if conversion is None:
        conversion = is_conversion_log(text)
    forms = CONVERSION_FORMS if conversion else PROOF_FORMS
    ended, number = False, 0
    for number, line, fed in cut_lines(text):
        if ended or not fed:
            raise TextFault(number, "BadLine", "a line stands after `end`" if ended else "the line feed at its end is wanting")
        words = Words(number, line)
        word = words.take()
        if word not in forms:
            raise words.fault("BadLine", f"no line of this log begins with `{word}`")
        values = tuple(READ_PARTS[part](words) for part in forms[word])
        words.finish()
        ended = word == "end"
        yield Entry(word, values)
    if not ended:
        raise TextFault(number + 1, "NoEnd", "the line `end` is wanting")


@dataclass(frozen=True)
class Log(Text):
    """The log of a problem, of version 1 or 2, or of a conversion. Pairs stand one after the other in one array."""

    entries: Tuple[Entry, ...]
    conversion: bool = False

    @property
    def version(self) -> Optional[int]:
        """What the first line says, where it is one of a version."""
        first = self.entries[0]
        return first.values[0] if first.word in ("version", "conv") else None

    @classmethod
    def read(cls, text: str, conversion: Optional[bool] = None) -> "Log":
        if conversion is None:
            conversion = is_conversion_log(text)
        return cls(tuple(log_entries(text, conversion)), conversion)

    def text(self) -> str:
        return whole_text(self._lines())

    def _lines(self) -> Iterator[str]:
        forms = CONVERSION_FORMS if self.conversion else PROOF_FORMS
        for word, values in self.entries:
            parts = zip(forms[word], values)
            yield joined(word, *(printed for part, value in parts for printed in PRINT_PARTS[part](value)))


OPERATION = "op:add|sub|mul|div first:number second:number"

# A word with a colon is the name of a part and what it is: of one of the kinds in FAULT_PARTS, or one of these words.
FAULT_FORMS = {
    3: ("line line:count kind kind:count name:word",),
    4: ("name:NotSolid|HasLine|NotInterior|LastNotPositive vector:list multipliers:sparse",),
    5: (
        f"step entry:count step:count {OPERATION}",
        f"pivot row:count column:count step:count {OPERATION} basis:naturals",
        f"elim row:count column:count step:count {OPERATION} basis:naturals",
        f"pair family:image|exchanged|cone|rep inside:count outside:count step:count {OPERATION}",
        f"exchange step:count {OPERATION}",
        f"scale entry:count {OPERATION}",
    ),
    9: ("line line:count kind kind:count name:word", "entry entry:count rule rule:count name:word"),
    10: ("text:problem|log bytes:count",),
    12: ("wanted:count columns:count",),
    13: ("line line:count kind kind:count name:word",),
    14: ("part:first|second multipliers:sparse",),
    15: ("first:count second:count",),
    16: ("line line:count kind kind:count name:word",),
    17: (f"item:count {OPERATION}",),
    18: ("given:count objectives:count",),
}

FAULT_PARTS: Dict[str, Callable[[Words], object]] = {
    **READ_PARTS,
    "count": lambda words: words.natural(None),
    "word": Words.take,
}


def _fault_form(status: int, words: Words) -> str:
    """The form of a fault line with this status, by its next word."""
    forms = FAULT_FORMS[status]
    ahead = words.words[words.at] if words.count_left() else ""
    for form in forms:
        first = form.split(" ")[0]
        if ":" in first or first == ahead:
            return form
    raise words.fault("BadLine", f"no fault line with the status {status} goes on with `{ahead}`")


@dataclass(frozen=True)
class FaultLine(Text):
    """The one line `fault STATUS ..`, with its form, of those in FAULT_FORMS, and what it tells by names."""

    status: int
    form: str
    parts: Dict[str, object]

    @classmethod
    def read(cls, text: str) -> "FaultLine":
        lines = Lines(text)
        words = lines.take("fault")
        status = words.natural()
        if status not in FAULT_FORMS:
            raise words.fault("OutOfRange", f"no fault line has the status {status}")
        form = _fault_form(status, words)
        parts: Dict[str, object] = {}
        for word in form.split(" "):
            name, colon, part = word.partition(":")
            if not colon:
                words.one_of([name])
            elif part in FAULT_PARTS:
                parts[name] = FAULT_PARTS[part](words)
            else:
                parts[name] = words.one_of(part.split("|"))
        words.finish()
        lines.finish()
        return cls(status, form, parts)

    def text(self) -> str:
        words: List[object] = ["fault", self.status]
        for word in self.form.split(" "):
            name, colon, part = word.partition(":")
            if colon:
                words += PRINT_PARTS.get(part, lambda value: (value,))(self.parts[name])
            else:
                words.append(name)
        return joined(*words) + "\n"


TEXTS = {
    "report": Report,
    "projection": Projection,
    "weights": Weights,
    "weigh": Weighed,
    "sample": Summary,
    "sides": Representation,
    "gens": Representation,
    "version": Log,
    "conv": Log,
    "fault": FaultLine,
}


def read_any(text: str) -> Text:
    """A text of the program, by its first word."""
    first = re.split("[ \n]", text, maxsplit=1)[0]
    if first not in TEXTS:
        raise TextFault(1, "BadLine", f"no text of the program begins with `{first}`")
    return TEXTS[first].read(text)


def load_any(path: Path) -> Text:
    """The same of a file."""
    try:
        return read_any(read_text(path))
    except TextFault as fault:
        fault.file = os.fspath(path)
        raise
