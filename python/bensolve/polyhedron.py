"""Polyhedra by inequalities and by points, and which of their vertices and facets are neighbours."""
from fractions import Fraction
from typing import Any, Iterable, List, NamedTuple, Optional, Sequence, Tuple

from . import run
from .problem import common_denominator, exact
from .texts import Facet, Projection, Report, Representation, Vector, block, whole_text


class Adjacency(NamedTuple):
    """For each point, direction and facet its neighbours, numbered from 1: points and directions through both lists.

    The neighbours of a point are the other ends of its edges, points or directions; those of a direction are the points from which
    an edge goes along it. The neighbours of a facet are those that meet it in a face of one dimension less.
    """

    points: Tuple[Tuple[int, ...], ...]
    directions: Tuple[Tuple[int, ...], ...]
    facets: Tuple[Tuple[int, ...], ...]

    def text(self) -> str:
        return whole_text(
            line
            for word, lists in zip(self._fields, self)
            for line in block(word, "n", [(len(numbers), *numbers) for numbers in lists])
        )


def _bits(numbers: Iterable[int]) -> int:
    bits = 0
    for number in numbers:
        bits |= 1 << number
    return bits


def _members(bits: int) -> Iterable[int]:
    while bits:
        last = bits & -bits
        yield last.bit_length() - 1
        bits ^= last


def _are_parted(pair: int, shared: int, at: Sequence[int], everything: int) -> bool:
    """Whether a third thing is in all of the sets that two things share."""
    if everything == pair:
        return False
    for number in _members(shared):
        everything &= at[number]
        if everything == pair:
            return False
    return True


def _pairs(on: Sequence[int], at: Sequence[int], first: int, needed: Optional[int]) -> List[Tuple[int, ...]]:
    """For each of some things those that no third thing parts from it.

    `on[i]` are the sets that have the thing i, and `at[s]` the things in the set s. One of a pair is among the `first` things, and
    where `needed` is given, the two share one of these sets.
    """
    found: List[List[int]] = [[] for _ in on]
    everything = (1 << len(on)) - 1
    for i in range(min(first, len(on))):
        near = everything if len(on) == 2 else 0
        for number in _members(on[i]):
            near |= at[number]
        for j in _members(near >> i + 1 << i + 1):
            shared = on[i] & on[j]
            if (needed is None or shared & needed) and not _are_parted(1 << i | 1 << j, shared, at, everything):
                found[i].append(j + 1)
                found[j].append(i + 1)
    return [tuple(sorted(numbers)) for numbers in found]


def adjacency(points: int, directions: int, incidence: Sequence[Sequence[int]]) -> Adjacency:
    """Who is next to whom, from the points and directions on each facet, as the `incidence` of a report has them.

    Exact, by sets alone: two points are the ends of an edge where no third point or direction lies on all facets that have both.
    The work is a step for each pair that shares a facet, times the facets that it shares.
    """
    of_facet = [_bits(number - 1 for number in on) for on in incidence]
    of_generator = [0] * (points + directions)
    for facet, on in enumerate(incidence):
        for number in on:
            of_generator[number - 1] |= 1 << facet
    edges = _pairs(of_generator, of_facet, points, None)
    ridges = _pairs(of_facet, of_generator, len(of_facet), (1 << points) - 1)
    return Adjacency(tuple(edges[:points]), tuple(edges[points:]), tuple(ridges))


def report_adjacency(report: Report) -> Adjacency:
    """The neighbours in the upper image of a report."""
    return adjacency(len(report.points), len(report.directions), report.incidence)


def _whole(numbers: Sequence[Fraction]) -> List[int]:
    factor = common_denominator(numbers)
    return [int(number * factor) for number in numbers]


def incidence(sides: Representation, gens: Representation) -> List[Tuple[int, ...]]:
    """For each inequality of `sides` the points and directions of `gens` at which it is an equation, numbered through both."""
    ends = (("1", Fraction(-1)), ("0", Fraction(0)))
    generators = [_whole((*vector, last)) for word, last in ends for vector in gens.of(word)]
    found = []
    for row in map(_whole, sides.of("h")):
        products = (sum(a * b for a, b in zip(row, generator)) for generator in generators)
        found.append(tuple(number for number, product in enumerate(products, 1) if not product))
    return found


class Polyhedron:
    """A set told by inequalities and equations, or by points, directions and lines.

        square = Polyhedron.of_inequalities([([1, 0], 0), ([-1, 0], -1), ([0, 1], 0), ([0, -1], -1)])

    What is not given is found by the program, once. Two are equal where they are one set.
    """

    def __init__(self, representation: Representation) -> None:
        self.given = representation
        self.width = representation.width
        self._sides: Optional[Representation] = None
        self._gens: Optional[Representation] = None

    @classmethod
    def of_inequalities(cls, inequalities: Sequence[Any], equations: Sequence[Any] = ()) -> "Polyhedron":
        """All z with `normal . z >= bound` for each pair of them, and `normal . z = bound` for the equations."""
        kinds = (("h", inequalities), ("e", equations))
        rows = [(word, (*map(exact, normal), exact(bound))) for word, pairs in kinds for normal, bound in pairs]
        return cls._of_rows("sides", rows)

    @classmethod
    def of_points(cls, points: Sequence[Any], directions: Sequence[Any] = (), lines: Sequence[Any] = ()) -> "Polyhedron":
        """All means of the points plus combinations of the directions, and of the lines both ways."""
        kinds = (("1", points), ("0", directions), ("l", lines))
        return cls._of_rows("gens", [(word, tuple(map(exact, vector))) for word, vectors in kinds for vector in vectors])

    @classmethod
    def of_projection(cls, projection: Projection) -> "Polyhedron":
        """The set that a projection tells."""
        return cls._of_lists(projection.columns, projection.lines, projection.points, projection.directions)

    @classmethod
    def of_report(cls, report: Report) -> "Polyhedron":
        """The upper image that a solved report tells; of a file that maximises, the lower one."""
        if report.answer != "solved":
            raise ValueError(f"the answer is {report.answer}, and not solved")
        return cls._of_lists(len(report.duality), report.lines, report.points, report.directions)

    @classmethod
    def _of_lists(cls, width: int, lines: Sequence[Vector], points: Sequence[Vector], directions: Sequence[Vector]) -> "Polyhedron":
        kinds = (("l", lines), ("1", points), ("0", directions))
        return cls(Representation("gens", width, tuple((word, vector) for word, vectors in kinds for vector in vectors)))

    @classmethod
    def _of_rows(cls, kind: str, rows: List[Tuple[str, Vector]]) -> "Polyhedron":
        widths = {len(numbers) - (kind == "sides") for _, numbers in rows}
        if len(widths) != 1 or not 1 <= max(widths) <= 19:
            raise ValueError("the rows have from 1 to 19 numbers, and all as many")
        return cls(Representation(kind, widths.pop(), tuple(rows)))

    def sides(self) -> Representation:
        """The set by inequalities and equations, none of which can be left out: one text for each set."""
        if self._sides is None:
            self._sides = run.facets(self.given if self.given.kind == "gens" else self.gens())
        return self._sides

    def gens(self) -> Representation:
        """The set by points, directions and lines, none of which can be left out: one text for each set."""
        if self._gens is None:
            self._gens = run.vertices(self.given if self.given.kind == "sides" else self.sides())
        return self._gens

    def vertices(self) -> Tuple[Vector, ...]:
        """The vertices; of a set with lines, those of the part that is 0 at the places of the lines."""
        return tuple(self.gens().of("1"))

    def directions(self) -> Tuple[Vector, ...]:
        return tuple(self.gens().of("0"))

    def lines(self) -> Tuple[Vector, ...]:
        return tuple(self.gens().of("l"))

    def facets(self) -> Tuple[Facet, ...]:
        """The facets, as `normal . z >= bound`."""
        return tuple(Facet(row[:-1], row[-1]) for row in self.sides().of("h"))

    def equations(self) -> Tuple[Facet, ...]:
        """The equations that all members meet."""
        return tuple(Facet(row[:-1], row[-1]) for row in self.sides().of("e"))

    @property
    def is_empty(self) -> bool:
        return not (self.given.of("1") if self.given.kind == "gens" else self.vertices())

    def contains(self, point: Sequence[Any]) -> bool:
        """Whether a point is a member."""
        numbers = [exact(number) for number in point]
        if len(numbers) != self.width:
            raise ValueError(f"a point has {self.width} numbers, and not {len(numbers)}")
        for word, row in (self.given if self.given.kind == "sides" else self.sides()).rows:
            value = sum((a * b for a, b in zip(row, numbers)), Fraction(0))
            if value < row[-1] or word == "e" and value != row[-1]:
                return False
        return True

    def __eq__(self, other: object) -> bool:
        return isinstance(other, Polyhedron) and self.gens() == other.gens()

    __hash__ = None

    def incidence(self) -> List[Tuple[int, ...]]:
        """For each facet the points and directions on it, numbered from 1 through both lists."""
        return incidence(self.sides(), self.gens())

    def adjacency(self) -> Adjacency:
        return adjacency(len(self.vertices()), len(self.directions()), self.incidence())
