"""Pictures of what was solved: two objectives or columns as SVG, three as SVG or OFF.

    picture REPORT|PROJECTION [OUT [NAME ..]]

REPORT is what `solve` prints, PROJECTION what `project`, `map`, `meet`, `sum` and `join` print. Without OUT the SVG goes to standard
output; an OUT that ends in `.off` gets the surface. Names are those of the axes, one for each.
"""
import argparse
import os
import sys
from fractions import Fraction
from typing import List, NamedTuple, Sequence, Union

from .shape import Shape, ShapeFault, Side, area_of, box_around, dot, faces_of
from .sheet import AROUND, Sheet, path_of, pixel
from .texts import Projection, Report, load_any, write_text

IMAGE, EDGE, POINT, ENDLESS, GRID, INK = "#d8e8f5", "#1f5f99", "#123a5e", "#b04a00", "#c9d1d9", "#444"
LABELLED, LONGEST_NAME = 60, 40


class Scene(NamedTuple):
    """What is drawn, and in which words: `at_least` is False where the facets of the text are upper bounds."""
    shape: Shape
    title: str
    names: List[str]
    area: str
    word: str
    at_least: bool


# ---- words
def tuple_text(vector) -> str:
    return "(" + ", ".join(str(value) for value in vector) + ")"


def inequality_text(scene: Scene, side: Side, least="≥", most="≤") -> str:
    """A facet or side by its number and inequality, with the weights as the text has them."""
    turn = 1 if scene.at_least else -1
    terms = [("" if turn * w == 1 else "-" if turn * w == -1 else f"{turn * w} ") + name for w, name in zip(side.normal, scene.names) if w]
    sum_text = " + ".join(terms).replace("+ -", "- ")
    return f"{scene.word} {side.number}: {sum_text} {least if scene.at_least else most} {turn * side.bound}"


def sign_of(value) -> int:
    return (value > 0) - (value < 0)


# ---- axes
def step_of(span: Fraction, most: int) -> Fraction:
    """The least of 1, 2, 5, 10, .. and their parts by powers of ten, of which at most `most` fit into the span."""
    wanted = span / most
    power = Fraction(10) ** (len(str(wanted.numerator)) - len(str(wanted.denominator)) - 1)
    return next(power * k for k in (1, 2, 5, 10, 20, 50, 100) if power * k >= wanted)


def ticks_of(low: Fraction, high: Fraction, most: int):
    """The multiples of a round step from low to high, with their texts."""
    step = step_of(high - low, most)
    first, last = -(-low // step), high // step
    return [(k * step, decimal_text(k * step)) for k in range(int(first), int(last) + 1)]


def decimal_text(value: Fraction) -> str:
    """A multiple of a power of ten as a decimal, as `0.25`, or where that is long and it is shorter as `2.5e9`."""
    places = 0
    while (value * 10 ** places).denominator != 1:
        places += 1
    digits = str(abs(value.numerator) * 10 ** places // value.denominator)
    plain = digits.rjust(places + 1, "0")
    plain = plain[:len(plain) - places] + ("." + plain[len(plain) - places:] if places else "")
    leading = digits.rstrip("0")
    short = leading[:1] + ("." + leading[1:] if leading[1:] else "") + f"e{len(digits) - 1 - places}"
    return ("-" if value < 0 else "") + (short if len(plain) > 7 and len(short) < len(plain) else plain)


# ---- two objectives
FRAME = LEFT, RIGHT, TOP, BOTTOM = 66, 676, 20, 408
FLAT_ROOMS = ((Fraction(3, 2), Fraction(6, 5)), (Fraction(3, 10), Fraction(9, 20)))


class Edge(NamedTuple):
    """An edge in the picture, and for each end whether it lies on the rim, where the set goes on."""
    side: Side
    ends: Sequence[tuple]
    endless: Sequence[bool]


def flat_picture(scene: Scene) -> str:
    """The set in the plane: its area, its edges with their inequalities, its points and where it goes on without end."""
    shape = scene.shape
    box = box_around(shape, FLAT_ROOMS)
    sheet = Sheet(700, 460, scene.title)

    def place(point):
        x, y = box.scaled(point)
        return LEFT + (x + 1) / 2 * (RIGHT - LEFT), BOTTOM - (y + 1) / 2 * (BOTTOM - TOP)

    points = set(shape.points)
    edges = [Edge(side, [place(end) for end in face], [end not in points for end in face]) for side, face in faces_of(shape, box)]
    area = [place(corner) for corner in area_of(shape, box)]
    if len(area) > 2:
        sheet.put("polygon", fill=IMAGE, points=path_of(area))
    draw_axes(sheet, scene, box, place)
    for edge in edges:
        draw_edge(sheet, scene, edge)
    draw_points(sheet, scene, place)
    label_edges(sheet, scene, edges)
    label_endless(sheet, scene, edges)
    if area and scene.area:
        middle = [sum(values) / len(area) for values in zip(*area)]
        sheet.label(*middle, scene.area, ((0, 0),), fill=EDGE, font_style="italic")
    return sheet.text()


def draw_axes(sheet, scene, box, place):
    sheet.put("path", stroke=INK, fill="none", d=f"M{LEFT} {TOP}V{BOTTOM}H{RIGHT}")
    sheet.take_line((LEFT, TOP), (LEFT, BOTTOM))
    sheet.take_line((LEFT, BOTTOM), (RIGHT, BOTTOM))
    for value, text in ticks_of(box.low[0], box.high[0], 8):
        x = place((value, box.low[1]))[0]
        sheet.put("path", stroke=INK, d=f"M{pixel(x)} {BOTTOM}v5")
        sheet.label(x, BOTTOM + 5, text, ((0, 1),), fill=INK)
    for value, text in ticks_of(box.low[1], box.high[1], 7):
        y = place((box.low[0], value))[1]
        sheet.put("path", stroke=INK, d=f"M{LEFT - 5} {pixel(y)}h5")
        sheet.label(LEFT - 4, y, text, ((-1, 0),), gap=6, fill=INK)
    sheet.put("text", scene.names[0], x=pixel((LEFT + RIGHT) / 2), y=BOTTOM + 42, text_anchor="middle")
    sheet.put("text", scene.names[1], transform=f"translate(16 {pixel((TOP + BOTTOM) / 2)}) rotate(-90)", text_anchor="middle")


def on_way(start, end, share):
    """The place so far on the way between two places."""
    return tuple(a + (b - a) * share for a, b in zip(start, end))


def length_of(edge: Edge) -> float:
    (a, b), (c, d) = edge.ends
    return float((c - a) ** 2 + (d - b) ** 2) ** 0.5


def draw_edge(sheet, scene, edge):
    """A line from end to end, with a head where the set goes on."""
    colour = ENDLESS if any(edge.endless) else EDGE
    short = 10 / length_of(edge)
    line = [on_way(edge.ends[k], edge.ends[1 - k], Fraction(short)) if edge.endless[k] else edge.ends[k] for k in (0, 1)]
    sheet.put("polyline", title=inequality_text(scene, edge.side), fill="none", stroke=colour, stroke_width="2.5", points=path_of(line))
    sheet.take_line(*edge.ends)
    for k in (0, 1):
        if edge.endless[k]:
            tip, other = edge.ends[k], edge.ends[1 - k]
            across, down = (float(b - a) * short / 2 for a, b in zip(tip, other))
            base = on_way(tip, other, Fraction(short) * Fraction(6, 5))
            sheet.put("polygon", fill=colour, points=path_of([tip, (base[0] + down, base[1] - across), (base[0] - down, base[1] + across)]))
            sheet.take(*tip, 16, 16)


def spots_of(scene: Scene, spots):
    """The spots beside a place, turned where the set lies on the other side."""
    return spots if scene.at_least else [(-across, -down) for across, down in spots]


def label_endless(sheet, scene, edges):
    """The direction or line along which the set goes on, once each."""
    shape, told = scene.shape, set()
    for edge in edges:
        for k in (0, 1):
            if not edge.endless[k]:
                continue
            number = next((n for n in edge.side.touching if n >= len(shape.points)), None)
            name = "line 1" if number is None else f"direction {number + 1}"
            vector = shape.lines[0] if number is None else shape.directions[number - len(shape.points)]
            if name not in told:
                told.add(name)
                near = on_way(edge.ends[k], edge.ends[1 - k], Fraction(12 / length_of(edge)))
                within, without = (spots_of(scene, spots) for spots in (((1, 0), (0, -1), (-1, -1), (1, -1)), ((0, 1), (-1, 1))))
                any(sheet.label(*near, text, spots, gap=gap, fill=ENDLESS) for text in (f"{name}: {tuple_text(vector)}", name)
                    for spots, gap in ((within, 9), (within, 26), (without, 9), (without, 26)))


def draw_points(sheet, scene, place, seen=None):
    """The points with their numbers, and where there are not too many with their entries."""
    points = scene.shape.points
    shown = [k for k in range(len(points)) if seen is None or seen[k]]
    for k in shown:
        x, y = place(points[k])
        sheet.put("circle", title=f"point {k + 1}: {tuple_text(points[k])}", cx=pixel(x), cy=pixel(y), r=5 if len(shown) <= LABELLED else 2.5, fill=EDGE)
        sheet.take(x, y, 12, 12)
    for k in shown[:LABELLED]:
        full, number = f"{k + 1}: {tuple_text(points[k])}", str(k + 1)
        tries = [(full, gap, True) for gap in (9, 16, 24) if len(shown) <= 12] + [(number, 9, True), (number, 9, False)]
        any(sheet.label(*place(points[k]), text, spots_of(scene, AROUND), gap, apart, font_weight="bold", fill=POINT) for text, gap, apart in tries)


def label_edges(sheet, scene, edges):
    """The inequality of each edge, on the side where the set is not."""
    for edge in edges[:LABELLED]:
        across, down = -sign_of(edge.side.normal[0]), sign_of(edge.side.normal[1])
        spots = [(across, 0), (across, down), (0, down)] if across else [(0, down), (-1, down), (1, down)]
        places = [(*on_way(*edge.ends, Fraction(share, 6)), spots) for share in (3, 2, 4)]
        texts = [inequality_text(scene, edge.side), f"{scene.word} {edge.side.number}"]
        any(sheet.label(x, y, text, spots, gap=14) for text in texts for x, y, spots in places)


# ---- three objectives
class View:
    """The way from the box in space to the picture: seen from the side where the set is not."""

    def __init__(self, from_above: bool):
        turn = 1 if from_above else -1
        cos, sin, rise, level = Fraction(4 * turn, 5), Fraction(3 * turn, 5), Fraction(8 * turn, 17), Fraction(15, 17)
        self.eye = (level * cos, level * sin, rise)
        self.right = (-sin, cos, Fraction(0))
        self.up = (-rise * cos, -rise * sin, level)

    def place(self, scaled):
        return 350 + 158 * dot(self.right, scaled), 280 - 158 * dot(self.up, scaled)


def space_picture(scene: Scene) -> str:
    """The surface in space. Of a convex surface no two faces that look to the eye cover each other, and no two that look away."""
    shape = scene.shape
    box = box_around(shape, [(Fraction(1, 8), Fraction(3, 10))] * 3)
    view = View(not scene.at_least)
    sheet = Sheet(700, 560, scene.title, halo=True)
    faces = faces_of(shape, box)
    front = {side.number: dot(box.scaled_normal(side.normal), view.eye) < 0 for side, _ in faces}

    def place(point):
        return view.place(box.scaled(point))

    draw_frame(sheet, scene, box, view)
    seen = [not faces] * len(shape.points)
    for side, _ in faces:
        for number in side.touching:
            if number < len(shape.points) and (front[side.number] or len(faces) == 1):
                seen[number] = True
    for turned in (False, True):
        for side, face in faces:
            if front[side.number] == turned:
                draw_face(sheet, scene, side, face, box, view, turned)
    draw_points(sheet, scene, place, seen)
    return sheet.text()


def draw_face(sheet, scene, side, face, box, view, front):
    """A face, the darker the more it is seen from the side. Edges at which the box cuts it off are thin."""
    normal = [float(value) for value in box.scaled_normal(side.normal)]
    level = abs(dot(normal, [float(value) for value in view.eye])) / dot(normal, normal) ** 0.5
    shade = [round(deep + (light - deep) * (0.45 + 0.5 * level)) for deep, light in ((31, 232), (95, 242), (153, 250))]
    places = [view.place(box.scaled(corner)) for corner in face]
    sheet.put("polygon", title=inequality_text(scene, side), fill="#%02x%02x%02x" % tuple(shade), fill_opacity="0.85", points=path_of(places))
    for k, corner in enumerate(face):
        cut = any(a == b and a in ends for a, b, ends in zip(corner, face[k - 1], zip(box.low, box.high)))
        sheet.put("polyline", fill="none", stroke=GRID if cut else EDGE, stroke_width=1 if cut else 2, points=path_of([places[k - 1], places[k]]))
        if front and not cut and len(scene.shape.points) <= LABELLED:
            sheet.take_line(places[k - 1], places[k], only_crossed=True)


def draw_frame(sheet, scene, box, view):
    """The edges of the box, and numbers and a name at one edge of each axis on its rim."""
    for axis in range(3):
        others = [k for k in range(3) if k != axis]
        rim = []
        for first in (-1, 1):
            for second in (-1, 1):
                def along(value, first=first, second=second):
                    spot = [Fraction(value)] * 3
                    spot[others[0]], spot[others[1]] = Fraction(first), Fraction(second)
                    return view.place(spot)
                sheet.put("polyline", fill="none", stroke=GRID, points=path_of([along(-1), along(1)]))
                if (first * view.eye[others[0]] > 0) != (second * view.eye[others[1]] > 0):
                    x, y = along(0)
                    rim.append((y - x * Fraction(7, 10), along))
        draw_scale(sheet, scene, box, axis, max(rim, key=lambda entry: entry[0])[1])


def draw_scale(sheet, scene, box, axis, along):
    (x, y), (ahead, below), (a, b) = along(0), along(1), along(-1)
    out = (below - b, a - ahead)
    if out[0] * (x - 350) + out[1] * (y - 280) < 0:
        out = (-out[0], -out[1])
    length = float(out[0] ** 2 + out[1] ** 2) ** 0.5
    across, down = float(out[0]) / length, float(out[1]) / length
    spots = [(round(across * 1.3), round(down * 1.3))]
    sheet.label(float(x) + 30 * across, float(y) + 30 * down, scene.names[axis], spots)
    for value, text in ticks_of(box.low[axis], box.high[axis], 6):
        spot = along((2 * value - box.low[axis] - box.high[axis]) / (box.high[axis] - box.low[axis]))
        sheet.put("path", stroke=GRID, d=f"M{pixel(spot[0])} {pixel(spot[1])}l{pixel(5 * across)} {pixel(5 * down)}")
        sheet.label(*spot, text, spots, gap=7, fill=INK)


def off_text(scene: Scene) -> str:
    """The surface in the form OFF: corners that faces share stand once, and each face ends with its inequality as a comment."""
    shape = scene.shape
    if len(scene.names) != 3:
        raise ShapeFault("a surface has three axes")
    faces = faces_of(shape, box_around(shape, [(Fraction(3, 5), Fraction(3, 5))] * 3))
    if not faces:
        raise ShapeFault("the set has no surface")
    numbers = {}
    for _, face in faces:
        for corner in face:
            numbers.setdefault(corner, len(numbers))
    edges = {frozenset((face[k - 1], face[k])) for _, face in faces for k in range(len(face))}
    rows = ["OFF", "# " + "".join(sign if sign.isprintable() else " " for sign in scene.title), f"{len(numbers)} {len(faces)} {len(edges)}"]
    rows += [" ".join(f"{float(value):.12g}" for value in corner) for corner in numbers]
    rows += [" ".join(str(number) for number in [len(face), *(numbers[corner] for corner in face)]) + " # " + inequality_text(scene, side, ">=", "<=")
             for side, face in faces]
    return "\n".join([*rows, ""])


# ---- the command
def projection_scene(projection, title, names) -> Scene:
    """The sides are inequalities of the columns alone. A projection does not tell what touches them."""
    zero, sides = Fraction(0), []
    for number, (normal, bound) in enumerate(projection.sides, 1):
        plain = tuple(weight - normal[-1] for weight in normal[:-1])
        if any(plain):
            touching = [k for k, point in enumerate(projection.points) if dot(plain, point) == bound]
            touching += [len(projection.points) + k for k, direction in enumerate(projection.directions) if dot(plain, direction) == zero]
            sides.append(Side(number, plain, bound, tuple(touching)))
    shape = Shape(projection.points, projection.directions, projection.lines, sides)
    return Scene(shape, title, names or [f"z{k}" for k in range(1, projection.columns + 1)], "", "side", True)


def report_scene(report, title, names) -> Scene:
    turn = -1 if report.maximises else 1
    sides = [Side(number, tuple(turn * weight for weight in facet.normal), turn * facet.bound, tuple(k - 1 for k in on))
             for number, (facet, on) in enumerate(zip(report.facets, report.incidence), 1)]
    shape = Shape(report.points, report.directions, report.lines, sides)
    return Scene(shape, title, names or [f"y{k}" for k in range(1, len(report.duality) + 1)], "upper image", "facet", not report.maximises)


def scene_of(answer: Union[Report, Projection], title: str, names: Sequence[str] = ()) -> Scene:
    """What is drawn of a report or a projection."""
    if not isinstance(answer, (Report, Projection)):
        raise ShapeFault("only a report of `solve` and a projection can be drawn")
    if answer.answer != "solved":
        raise ShapeFault(f"the answer is `{answer.answer}`, and there is nothing to draw")
    axes = answer.columns if isinstance(answer, Projection) else len(answer.duality)
    if axes not in (2, 3):
        raise ShapeFault(f"there are {axes} axes, and pictures have two or three")
    if names and len(names) != axes:
        raise ShapeFault(f"there are {axes} axes and {len(names)} names")
    named = ["".join(sign if sign.isprintable() else " " for sign in name)[:LONGEST_NAME] for name in names]
    return (projection_scene if isinstance(answer, Projection) else report_scene)(answer, title, named)


def picture_of(scene: Scene) -> str:
    """The SVG of a set of two or three axes."""
    return flat_picture(scene) if len(scene.names) == 2 else space_picture(scene)


def main(words: Sequence[str]) -> int:
    """The command `picture`."""
    parser = argparse.ArgumentParser(prog="python3 -m bensolve picture", description="a report or projection of two or three axes as a picture")
    parser.add_argument("text", metavar="REPORT|PROJECTION", help="what solve, project, map, meet, sum or join printed")
    parser.add_argument("out", metavar="OUT", nargs="?", help="an SVG, or the surface where it ends in .off; without it the SVG is printed")
    parser.add_argument("names", metavar="NAME", nargs="*", help="the names of the axes")
    given = parser.parse_args(words)
    try:
        scene = scene_of(load_any(given.text), os.path.basename(given.text), given.names)
        if given.out is None:
            sys.stdout.write(picture_of(scene))
        elif os.path.exists(given.out) and os.path.samefile(given.out, given.text):
            raise ShapeFault("the picture would take the place of the text")
        else:
            write_text(given.out, off_text(scene) if given.out.endswith(".off") else picture_of(scene))
    except ShapeFault as fault:
        raise ShapeFault(f"{given.text}: {fault}") from None
    return 0
