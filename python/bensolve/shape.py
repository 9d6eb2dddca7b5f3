"""Polyhedra of the plane and of space as polygons, in exact numbers.

A point y stands as the vector (y, 1) and a direction d as (d, 0). So what goes on without end is cut off at a box exactly.
"""
from fractions import Fraction
from typing import List, NamedTuple, Sequence, Tuple

Vector = Tuple[Fraction, ...]


class ShapeFault(ValueError):
    """What cannot be drawn, and why."""


class Side(NamedTuple):
    """The inequality `normal . y >= bound`, with its number in the text and what touches it, numbered from 0: points, then directions."""
    number: int
    normal: Vector
    bound: Fraction
    touching: Tuple[int, ...]


class Shape(NamedTuple):
    """A polyhedron; its points and directions are 0 at the places of its lines."""
    points: Sequence[Vector]
    directions: Sequence[Vector]
    lines: Sequence[Vector]
    sides: Sequence[Side]


class Box(NamedTuple):
    low: Vector
    high: Vector

    def scaled(self, point: Sequence[Fraction]) -> List[Fraction]:
        """The place of a point in the box, from -1 to 1 along each axis."""
        return [(2 * value - low - high) / (high - low) for value, low, high in zip(point, self.low, self.high)]

    def scaled_normal(self, normal: Sequence[Fraction]) -> List[Fraction]:
        """A normal as it is among the scaled places."""
        return [weight * (high - low) / 2 for weight, low, high in zip(normal, self.low, self.high)]


def dot(first, second):
    return sum(a * b for a, b in zip(first, second))


def box_around(shape: Shape, rooms) -> Box:
    """The box around the points. Each axis has a room (near, far): so many times their span at an end, and where the set goes on."""
    ends = [(min(values), max(values)) for values in zip(*shape.points)]
    widest = max(high - low for low, high in ends) or max(Fraction(1), max(abs(high) for _, high in ends) / 2)
    low, high = [], []
    for axis, ((least, greatest), (near, far)) in enumerate(zip(ends, rooms)):
        span = greatest - least or widest
        lined = any(line[axis] for line in shape.lines)
        falls = lined or any(direction[axis] < 0 for direction in shape.directions)
        rises = lined or any(direction[axis] > 0 for direction in shape.directions)
        low.append(least - span * (far if falls else near))
        high.append(greatest + span * (far if rises else near))
    return Box(tuple(low), tuple(high))


def vectors_of(shape: Shape, numbers, box: Box):
    """The points and directions of these numbers as vectors. A line stands as two ends beyond the box, from each point.

    A reduced point is 0 at the place of a line, which is 1 there. So no point of the box is farther along the line than it is from 0.
    """
    count = len(shape.points)
    ends = [shape.points[k] for k in numbers if k < count]
    for line in shape.lines:
        place = next(axis for axis, value in enumerate(line) if value)
        reach = 1 + max(abs(box.low[place]), abs(box.high[place]))
        ends = [tuple(a + turn * reach * b for a, b in zip(end, line)) for end in ends for turn in (-1, 1)]
    return [(*end, Fraction(1)) for end in ends] + [(*shape.directions[k - count], Fraction(0)) for k in numbers if k >= count]


def positive_on(directions):
    """A vector of the plane with a positive product with each of the directions."""
    inward = [turned for x, y in directions for turned in ((-y, x), (y, -x)) if all(dot(turned, other) >= 0 for other in directions)]
    total = [sum(values) for values in zip(*inward)] if inward else [0, 0]
    total = total if any(total) or not directions else directions[0]
    if any(dot(total, direction) <= 0 for direction in directions):
        raise ShapeFault("the directions of a face contain a line, which no right answer has")
    return total


def half_of(corners):
    """One side of a convex ring, from its corners in rising order, without the last one."""
    half = []
    for corner in corners:
        while len(half) > 1 and turns(half[-2][0], half[-1][0], corner[0]) <= 0:
            half.pop()
        half.append(corner)
    return half[:-1]


def turns(first, second, third):
    """Positive where the way through three points of the plane turns to the left."""
    return (second[0] - first[0]) * (third[1] - first[1]) - (second[1] - first[1]) * (third[0] - first[0])


def ring_of(vectors, axes):
    """The corners, in turn, of what the vectors span; they lie in one plane, in which these two axes tell them apart.

    Each vector is scaled so that one function is 1 at all of them, which brings directions to a finite place and keeps the order. The
    function is positive at all vectors, and at (0, 1) too, so that the two axes still tell the scaled vectors apart.
    """
    slope = positive_on([[v[axis] for axis in axes] for v in vectors if not v[-1]])
    values = [dot(slope, [v[axis] for axis in axes]) for v in vectors]
    lift = 1 - min([0, *(value for value, v in zip(values, vectors) if v[-1])])
    seen = {}
    for value, v in zip(values, vectors):
        scale = value + lift * v[-1]
        seen.setdefault(tuple(v[axis] / scale for axis in axes), v)
    corners = sorted(seen.items())
    if len(corners) < 3:
        return [v for _, v in corners]
    return [v for _, v in half_of(corners) + half_of(corners[::-1])]


def clipped(ring, value_of):
    """What is left of a ring where a linear function of the vectors is not negative."""
    kept = []
    for first, second in zip(ring, ring[1:] + ring[:1]):
        a, b = value_of(first), value_of(second)
        if a >= 0:
            kept.append(first)
        if (a > 0 > b) or (a < 0 < b):
            kept.append(tuple((abs(b) * x + abs(a) * y) / (abs(a) + abs(b)) for x, y in zip(first, second)))
    return kept


def in_box(ring, box: Box):
    """The part of a ring within the box, as points in turn."""
    for axis, (low, high) in enumerate(zip(box.low, box.high)):
        ring = clipped(ring, lambda v: v[axis] - low * v[-1])
        ring = clipped(ring, lambda v: high * v[-1] - v[axis])
    points = [tuple(value / v[-1] for value in v[:-1]) for v in ring]
    return [point for k, point in enumerate(points) if point != points[k - 1] or len(points) == 1]


def face_of(shape: Shape, side: Side, box: Box):
    """The face of a side within the box: the ends of an edge in the plane, the corners of a polygon in turn in space."""
    axes = list(range(len(side.normal)))
    if len(axes) == 3:
        axes.remove(max(axes, key=lambda axis: abs(side.normal[axis])))
    return in_box(ring_of(vectors_of(shape, side.touching, box), axes), box)


def faces_of(shape: Shape, box: Box):
    """The sides with their faces, each face once. A side that touches less than an edge in the plane or a polygon in space has none."""
    found = {}
    for side in shape.sides:
        face = face_of(shape, side, box)
        if len(face) >= len(side.normal):
            found.setdefault(frozenset(face), (side, face))
    return list(found.values())


def area_of(shape: Shape, box: Box):
    """The part of a set of the plane within the box."""
    everything = range(len(shape.points) + len(shape.directions))
    return in_box(ring_of(vectors_of(shape, everything, box), (0, 1)), box)
