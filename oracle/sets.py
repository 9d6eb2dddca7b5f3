#!/usr/bin/env python3
"""Compares what is told of projections, of made sets and of weights with what is computed apart.

`sets.py PROGRAM COUNT [SEED]` makes COUNT small random commands `project`, `associate`, `meet`, `sum`, `join`, `map`, `weights` and
`weigh`, runs the program, and compares the text up to its witnesses with the one that is put together here; the witnesses, which may
be others that are right, are tried by themselves. A log that `project` writes goes to `check` with the text of `associate`. Numbers
that overflow are passed over and counted.

The feasible set of a problem is taken as generators, by the double description method of `reports.py` over fractions, and a set is
made of these alone: a projection by leaving out entries, a sum by adding each vertex of one to each of the other, a closed convex
hull by putting both lists together, an image by multiplying; what both have in common by the sides of both. So no set goes by the
problem that the program makes for it. The sides alone are facets of the associated image, by the same method.

`sets.py - WORDS..` prints what is told for a command's words: its fault line or its text, up to the witnesses.

`sets.py = COUNT [SEED]` compares what is computed here with other ways, on small random problems: bounded sets by trying each choice
of sides for a vertex, with hulls in the plane by turns; projections by Fourier-Motzkin elimination; and each set with the projection
of the problem that the program makes for it.
"""
import itertools
import random
import subprocess
import sys
import tempfile
from fractions import Fraction

from reports import Problem, bound, dot, duality_vector, echelon, generators, random_file, report, short, told

ONE, NONE = Fraction(1), Fraction(0)


def minus(v):
    return tuple(-x for x in v)


def plus(a, b):
    return tuple(x + y for x, y in zip(a, b))


def unit(width, at):
    return tuple(Fraction(int(k == at)) for k in range(width))


class Hull:
    """The sums of a mean of points, a combination of directions with no negative multiplier, and one of lines."""

    def __init__(self, width, points, directions, lines):
        self.width, self.points, self.directions, self.lines = width, list(points), list(directions), list(lines)

    def image(self, entries):
        """What a linear function makes of it."""
        of = lambda vectors: [tuple(entries(v)) for v in vectors]
        return Hull(len(entries(unit(self.width, 0))), of(self.points), of(self.directions), of(self.lines))

    def normals(self, more=()):
        """The inequalities (h, -gamma) that hold on it and on these further directions: lines, and rays up to them."""
        rows = [y + (ONE,) for y in self.points] + [d + (NONE,) for d in self.directions + list(more)]
        rows += [side + (NONE,) for l in self.lines for side in (l, minus(l))]
        return generators(self.width + 1, rows)

    def reduced(self):
        """Its lines, vertices and extreme directions, the last two without entries at the places of lines."""
        if not self.points:
            return None
        lines, rays = self.normals()
        both = rays + lines + [minus(l) for l in lines]
        alike, _ = generators(self.width + 1, both + [minus(n) for n in both])
        kept = echelon([l[:-1] for l in alike])
        places = {next(k for k, x in enumerate(l) if x) for l in kept}
        left = [k for k in range(self.width) if k not in places]
        rows = [tuple(n[k] for k in left) + n[-1:] for n in both]
        none, rays = generators(len(left) + 1, rows + [unit(len(left) + 1, len(left))])
        assert not none
        full = lambda v: tuple(v[left.index(k)] if k in left else NONE for k in range(self.width))
        points = sorted(full(tuple(x / r[-1] for x in r)) for r in rays if r[-1])
        return kept, points, sorted(full(short(r)) for r in rays if not r[-1])

    def sides(self):
        """The facets of the associated image: with one more entry, minus the sum of the others, and all that is above."""
        above = self.image(lambda v: v + (-sum(v),))
        none, normals = above.normals([unit(above.width, k) for k in range(above.width)])
        assert not none
        return sorted(tuple(x / sum(n[:-1]) for x in n[:-1]) + (-n[-1] / sum(n[:-1]),) for n in normals if any(n[:-1]))


def hull_of(width, rows):
    """The vectors at which no row (g, -beta) is negative."""
    lines, rays = generators(width + 1, list(rows) + [unit(width + 1, width)])
    points = [tuple(x / r[-1] for x in r[:-1]) for r in rays if r[-1]]
    return Hull(width, points, [r[:-1] for r in rays if not r[-1]], [l[:-1] for l in lines])


def feasible(problem):
    return hull_of(problem.cols, problem.sides())


def values(problem):
    """The objectives, as a linear function."""
    return lambda x: tuple(dot(row, x) for row in problem.p)


# ---- the sets
def projection(problem, k):
    return feasible(problem).image(lambda v: v[:k])


def both(a, b):
    return hull_of(a.cols, list(a.sides()) + list(b.sides()))


def sums(a, b):
    a, b = feasible(a), feasible(b)
    points = [plus(x, y) for x in a.points for y in b.points]
    return Hull(a.width, points, a.directions + b.directions, a.lines + b.lines)


def joined(a, b):
    a, b = feasible(a), feasible(b)
    return Hull(a.width, a.points + b.points, a.directions + b.directions, a.lines + b.lines)


def objectives(a):
    return feasible(a).image(values(a))


def set_lines(found):
    """The text of a set up to its witnesses."""
    head = ["projection 1", "answer " + ("solved" if found.points else "infeasible"), f"columns {found.width}"]
    if not found.points:
        return head
    lines, points, directions = found.reduced()
    out = head + [f"lines {len(lines)}"] + ["l " + told(l) for l in lines]
    out += [f"points {len(points)}"] + ["1 " + told(y) for y in points]
    out += [f"directions {len(directions)}"] + ["0 " + told(d) for d in directions]
    sides = found.sides()
    return out + [f"sides {len(sides)}"] + ["h " + told(h) for h in sides]


# ---- the problems that are made for them
def decimal(x):
    """A number as a whole one over a power of ten."""
    places = next(k for k in range(37) if (x * 10**k).denominator == 1)
    return f"{x * 10**places}e-{places}" if places else str(x)


def bounds_of(problem, word, count, at=0):
    lines = {at + k: v for k, v in problem.bounds[word].items() if k <= count}
    return {k: " ".join([kind] + [decimal(x) for x in v]) for k, (kind, v) in lines.items()}


def file_text(rows, o, row_bounds, col_bounds):
    """The printed text of a problem with these rows and objectives."""
    cells = lambda word, rows: [f"{word} {i} {j} {decimal(v)}" for i, row in enumerate(rows, 1) for j, v in enumerate(row, 1) if v]
    a, p = cells("a", rows), cells("o", o)
    cols = len(o[0])
    lines = [f"p vlp min {len(rows)} {cols} {len(a)} {len(o)} {len(p)}"] + a + p
    lines += [f"i {k} {row_bounds[k]}" for k in sorted(row_bounds)] + [f"j {k} {col_bounds[k]}" for k in sorted(col_bounds)]
    return "\n".join(lines + ["e", ""])


def associated_text(problem, k):
    first = [unit(problem.cols, j) for j in range(k)]
    last = tuple(-ONE if j < k else NONE for j in range(problem.cols))
    row_bounds = bounds_of(problem, "i", problem.rows)
    return file_text(problem.a, first + [last], row_bounds, bounds_of(problem, "j", problem.cols))


def made_text(command, a, b):
    """The problem whose first columns are the set: z, then the columns of the parts, then for `join` two multipliers."""
    n = a.objs if command == "map" else a.cols
    none = lambda count: (NONE,) * count
    at = lambda row, before, after: none(before) + tuple(row) + none(after)
    if command == "meet":
        rows = a.a + b.a + [unit(n, j) for j in range(n)]
        of_rows = bounds_of(a, "i", a.rows) | bounds_of(b, "i", b.rows, a.rows) | bounds_of(b, "j", n, a.rows + b.rows)
        return file_text(rows, [none(n)], of_rows, bounds_of(a, "j", n))
    free = {j: "f" for j in range(1, n + 1)}
    fixed = {i: "s 0" for i in range(1, n + 1)}
    if command == "map":
        rows = [unit(n, i) + minus(a.p[i]) for i in range(n)] + [at(row, n, 0) for row in a.a]
        return file_text(rows, [none(n + a.cols)], fixed | bounds_of(a, "i", a.rows, n), free | bounds_of(a, "j", a.cols, n))
    sum_rows = [unit(n, i) + minus(unit(n, i)) * 2 for i in range(n)]
    if command == "sum":
        rows = sum_rows + [at(row, n, n) for row in a.a] + [at(row, 2 * n, 0) for row in b.a]
        of_rows = fixed | bounds_of(a, "i", a.rows, n) | bounds_of(b, "i", b.rows, n + a.rows)
        return file_text(rows, [none(3 * n)], of_rows, free | bounds_of(a, "j", n, n) | bounds_of(b, "j", n, 2 * n))
    ends = none(2)
    rows = [row + ends for row in sum_rows] + [none(3 * n) + (ONE, ONE)]
    first = [at(s[:-1], n, n) + (s[-1], NONE) for s in a.sides()]
    second = [at(s[:-1], 2 * n, 0) + (NONE, s[-1]) for s in b.sides()]
    lower = {n + 2 + k: "l 0" for k in range(len(first) + len(second))}
    of_cols = {j: "f" for j in range(1, 3 * n + 1)} | {3 * n + 1: "l 0", 3 * n + 2: "l 0"}
    return file_text(rows + first + second, [none(3 * n + 2)], fixed | {n + 1: "s 1"} | lower, of_cols)


# ---- weights
class Image:
    """The lists of a report."""

    def __init__(self, problem):
        self.problem, self.lists = problem, {}
        lines = report(problem, duality_vector(problem))
        self.kind = lines[1]
        word = {"l": "lines", "1": "points", "0": "directions", "f": "facets"}
        for line in lines[3:next((k for k, l in enumerate(lines) if l.startswith("dual ")), 3)]:
            first, *rest = line.split()
            if first in word:
                self.lists.setdefault(word[first], []).append(tuple(Fraction(x) for x in rest))

    def list(self, name):
        return self.lists.get(name, [])


def weights_lines(problem):
    image = Image(problem)
    out = ["weights 1", image.kind]
    if image.kind != "answer solved":
        return out
    points, facets = image.list("points"), image.list("facets")
    out.append(f"points {len(points)}")
    for y in points:
        on = [k for k, f in enumerate(facets, 1) if dot(f[:-1], y) == f[-1]]
        out += ["1 " + told(y), "n " + told([len(on)] + on)]
    return out + [f"facets {len(facets)}"] + ["f " + told(f) for f in facets]


def is_held(x):
    return abs(x.numerator) < 2**120 and x.denominator < 2**120


def product(w, v):
    """The sum of products, and none; or none, and the first operation whose result is not held."""
    total = NONE
    for a, b in zip(w, v):
        if a and b:
            if not is_held(a * b):
                return None, f"mul {a} {b}"
            if not is_held(total + a * b):
                return None, f"add {total} {a * b}"
            total += a * b
    return total, None


def weigh_lines(problem, w):
    """What is told of weights: a status and lines."""
    if len(w) != problem.objs:
        return 18, [f"fault 18 {len(w)} {problem.objs}"]
    image = Image(problem)
    if image.kind != "answer solved":
        return 0, ["weigh 1", image.kind]
    values = []
    for number, (name, v) in enumerate([(n, v) for n in ("lines", "directions", "points") for v in image.list(n)], 1):
        value, left = product(w, v)
        if left:
            return 17, [f"fault 17 {number} {left}"]
        down = problem.sign * value < 0
        if name == "lines" and value or name == "directions" and down:
            return 0, ["weigh 1", "answer unbounded", "0 " + told(v if down else minus(v))]
        values += [(problem.sign * value, v)] * (name == "points")
    least = min(values)[0]
    listed = [v for value, v in values if value == least]
    out = ["weigh 1", "answer solved", f"value {problem.sign * least}", f"points {len(listed)}"]
    return 0, out + ["1 " + told(y) for y in listed]


# ---- what is told of a command
def fault_of_sizes(n, m):
    return (15, [f"fault 15 {n} {m}"]) if n > 19 or n != m else None


def empty_part(a, b):
    for name, part in (("first", a), ("second", b)):
        if not feasible(part).points:
            return 14, [f"fault 14 {name}"]
    return None


def expected(command, a, rest):
    """The status and the lines up to the witnesses, for the text of a problem and what else the words name."""
    a = Problem(a)
    if command in ("project", "associate"):
        if rest > a.cols:
            return 12, [f"fault 12 {rest} {a.cols}"]
        return 0, set_lines(projection(a, rest)) if command == "project" else associated_text(a, rest).splitlines()
    if command == "map":
        return fault_of_sizes(a.objs, a.objs) or (0, set_lines(objectives(a)))
    if command == "weights":
        return 0, weights_lines(a)
    if command == "weigh":
        return weigh_lines(a, rest)
    b = Problem(rest)
    made = {"meet": both, "sum": sums, "join": joined}[command]
    fault = fault_of_sizes(a.cols, b.cols) or (empty_part(a, b) if command == "join" else None)
    return fault or (0, set_lines(made(a, b)))


# ---- witnesses
def sparse(words, width):
    """The vector of a sparse one's words, and the words after it."""
    count, v = int(words[0]), [NONE] * width
    places = [int(words[1 + 2 * k]) for k in range(count)]
    assert places == sorted(set(places)) and all(1 <= p <= width for p in places)
    for k, p in enumerate(places):
        v[p - 1] = Fraction(words[2 + 2 * k])
        assert v[p - 1]
    return tuple(v), words[1 + 2 * count:]


def try_multipliers(problem, words):
    """Multipliers of the sides show that there is no feasible vector."""
    sides = list(problem.sides())
    u, rest = sparse(words, len(sides))
    assert not rest and min(u) >= 0
    total = [sum((x * side[j] for x, side in zip(u, sides)), NONE) for j in range(problem.cols + 1)]
    assert not any(total[:-1]) and total[-1] < 0


def try_choices(problem, lines, witnesses):
    """Choices begin with the lines, points and directions that are told, or with a line's negative."""
    told_of = lambda first: [tuple(Fraction(x) for x in l.split()[1:]) for l in lines if l.startswith(first + " ")]
    of_lines = [v for l in told_of("l") for v in (l, minus(l))]
    wanted = [("r", v) for v in of_lines] + [("x", v) for v in told_of("1")] + [("r", v) for v in told_of("0")]
    assert len(wanted) == len(witnesses)
    for (first, v), line in zip(wanted, witnesses):
        word, *words = line.split()
        x, rest = sparse(words, problem.cols)
        assert word == first and not rest and x[:len(v)] == v
        last = ONE if word == "x" else NONE
        assert all(dot(side, x + (last,)) >= 0 for side in problem.sides())


def try_witnesses(problem, text):
    lines, _, witnesses = text.partition("\nwitnesses\n")
    lines, witnesses = lines.splitlines(), witnesses.splitlines()
    if lines[1] == "answer infeasible":
        assert len(witnesses) == 1 and witnesses[0].startswith("u ")
        try_multipliers(problem, witnesses[0].split()[1:])
    else:
        try_choices(problem, lines, witnesses)


# ---- random commands
def random_part(draw, cols, most_rows=3):
    """A file whose cone and objectives play no part, unless it is mapped."""
    rows, objs = draw.randint(0, most_rows), draw.randint(1, 3)
    some = lambda: draw.randint(-3, 3) if draw.random() > 0.35 else 0
    table = lambda n: [[some() for _ in range(cols)] for _ in range(n)]
    a, o = table(rows), table(objs)
    free = draw.random() * 0.5
    row_bounds = {k: bound(draw) for k in range(1, rows + 1) if draw.random() > 0.1}
    shape = lambda: draw.choice(["l 0", "d -1 2", "d 0.5 1", "l -1.5", "u 3"]) if draw.random() > 0.3 else bound(draw)
    col_bounds = {k: shape() for k in range(1, cols + 1) if draw.random() > free}
    text = file_text([[Fraction(x) for x in row] for row in a], [[Fraction(x) for x in row] for row in o], row_bounds, col_bounds)
    if draw.random() < 0.3:
        text = text.replace("vlp min", "vlp max", 1)
    if draw.random() < 0.2:  # a cone that is not solid, or has lines
        first, _, other = text.partition("\n")
        text = first + f" cone 2 {2 * min(objs, 2)}\n" + "".join(f"k {i} {j} {3 - 2 * j}\n" for j in (1, 2) for i in range(1, min(objs, 2) + 1)) + other
    return text


def facets_of(problem):
    """The facets of the image; none where the duality vector does not serve."""
    try:
        return Image(problem).list("facets")
    except ZeroDivisionError:
        return []


def random_weights(draw, problem):
    kind, facets = draw.random(), facets_of(problem)
    count = problem.objs + (draw.choice([-1, 1]) if draw.random() < 0.05 else 0)
    if kind < 0.45 and facets and count == problem.objs:
        return list(draw.choice(facets)[:-1])
    if kind < 0.8 and len(facets) > 1 and count == problem.objs:
        f, g = draw.sample(facets, 2)
        return [(x + y) / 2 for x, y in zip(f[:-1], g[:-1])]
    return [Fraction(draw.randint(-1 if kind < 0.9 else 0, 4), draw.randint(1, 3)) for _ in range(max(count, 1))]


def random_command(draw):
    """A command, the text of its problem, and what else its words name: a number, a text, or weights."""
    command = draw.choice(["project"] * 3 + ["associate", "meet", "meet", "sum", "sum", "join", "join", "map", "map", "weights", "weigh", "weigh"])
    if command in ("weights", "weigh"):
        text = random_file(draw)
        return command, text, random_weights(draw, Problem(text)) if command == "weigh" else None
    if command in ("project", "associate", "map"):
        cols = draw.randint(1, 5)
        text = random_part(draw, cols, 4)
        return command, text, draw.randint(1, cols + (draw.random() < 0.1)) if command != "map" else None
    cols = draw.randint(1, 3)
    other = cols if draw.random() > 0.05 else draw.randint(1, 3)
    return command, random_part(draw, cols), random_part(draw, other)


class Trial:
    """A command in a folder of its own."""

    def __init__(self, program, folder, command, text, rest):
        self.program, self.folder, self.command, self.text, self.rest = program, folder, command, text, rest
        self.put("a.vlp", text)
        self.words = [command, f"{folder}/a.vlp"]
        if command in ("meet", "sum", "join"):
            self.put("b.vlp", rest)
            self.words.append(f"{folder}/b.vlp")
        elif command == "weigh":
            self.words.append(",".join(str(x) for x in rest))
        elif rest is not None:
            self.words.append(str(rest))

    def put(self, name, text):
        with open(f"{self.folder}/{name}", "w") as out:
            out.write(text)

    def run(self, *words):
        ran = subprocess.run([self.program, *words], capture_output=True, text=True)
        return ran.returncode, ran.stdout

    def problem(self):
        """The problem of whose choices the witnesses speak."""
        if self.command == "project":
            return Problem(self.text)
        return Problem(made_text(self.command, Problem(self.text), Problem(self.rest) if self.rest else None))

    def try_log(self, text):
        """The log of a projection proves an answer to the associated problem, and with it the text is the same."""
        log, made = f"{self.folder}/log", f"{self.folder}/made.vlp"
        assert self.run(*self.words, log) == (0, text)
        _, associated = self.run("associate", *self.words[1:])
        self.put("made.vlp", associated)
        status, checked = self.run("check", made, log)
        problem = Problem(associated)
        assert status == 0 and checked.split("\nwitnesses\n")[0].splitlines() == report(problem, [ONE] * problem.objs)

    def finding(self):
        """Its kind, and what of it differs."""
        status, text = self.run(*self.words)
        if status in (4, 5):
            return f"status {status}", None
        want = expected(self.command, self.text, self.rest)
        kind = f"status {want[0]}" if want[0] else want[1][1][7:] if self.command != "associate" else "text"
        lines = text.split("\nwitnesses\n")[0].splitlines()
        if status == 14:
            lines = [" ".join(line.split()[:3]) for line in lines]
        if (status, lines) != want:
            return kind, "\n".join(["--- the program", f"status {status}"] + lines + ["--- apart", f"status {want[0]}"] + want[1])
        try:
            if status == 14:
                words = text.split()
                try_multipliers(Problem(self.text if words[2] == "first" else self.rest), words[3:])
            if status == 0 and self.command not in ("associate", "weights", "weigh"):
                try_witnesses(self.problem(), text)
            if status == 0 and self.command == "project":
                self.try_log(text)
        except (AssertionError, IndexError, ValueError):
            return kind, "--- the witnesses or the log\n" + text
        return kind, None


def compare(program, count, seed):
    draw = random.Random(seed)
    kinds, differ = {}, 0
    for _ in range(count):
        with tempfile.TemporaryDirectory() as folder:
            trial = Trial(program, folder, *random_command(draw))
            kind, what = trial.finding()
            kind = f"{trial.command}, {kind}"
            kinds[kind] = kinds.get(kind, 0) + 1
            if what:
                differ += 1
                other = f"\n{trial.rest}" if isinstance(trial.rest, str) else ""
                print(f"differs: {' '.join(trial.words)}\n{trial.text}{other}\n{what}")
    for kind in sorted(kinds):
        print(f"{kind}: {kinds[kind]}")
    print(f"{differ} of {count} differ")
    return differ


# ---- other ways
def solved(rows):
    """The only vector at which all rows (g, -beta) are 0; none where there is no such vector, or another."""
    rest = echelon([r for r in rows])
    width = len(rows[0]) - 1
    if len(rest) != width or any(not any(r[:-1]) for r in rest):
        return None
    return tuple(-r[-1] for r in rest)


def vertices(width, rows):
    """The vertices of what meets these rows, by each choice of so many of them."""
    found = (solved(chosen) for chosen in itertools.combinations(rows, width))
    return {v for v in found if v is not None and all(dot(r, v + (ONE,)) >= 0 for r in rows)}


def plane_hull(points):
    """The vertices of a hull in the plane, by turns to the left along its lower and upper end."""
    points = sorted(set(points))
    if len(points) < 3:
        return points
    turn = lambda a, b, c: (b[0] - a[0]) * (c[1] - a[1]) - (b[1] - a[1]) * (c[0] - a[0])
    ends = []
    for way in (points, points[::-1]):
        end = []
        for p in way:
            while len(end) > 1 and turn(end[-2], end[-1], p) <= 0:
                end.pop()
            end.append(p)
        ends += end[:-1]
    return sorted(set(ends))


def eliminated(rows, k):
    """The sides of the projection on the first k entries, by Fourier-Motzkin elimination."""
    rows = {tuple(r) for r in rows}
    while rows and len(next(iter(rows))) > k + 1:
        at = len(next(iter(rows))) - 2
        less = lambda r: r[:at] + r[at + 1:]
        up, down = [r for r in rows if r[at] > 0], [r for r in rows if r[at] < 0]
        made = [plus(tuple(x / r[at] for x in r), tuple(x / -s[at] for x in s)) for r in up for s in down]
        rows = {short(less(r)) for r in made + [r for r in rows if not r[at]]}
    return rows


def box_part(draw, cols):
    rows = draw.randint(0, 2)
    table = [[Fraction(draw.randint(-2, 2)) for _ in range(cols)] for _ in range(rows)]
    o = [[Fraction(draw.randint(-2, 2)) for _ in range(cols)] for _ in range(2)]
    box = lambda low, more: f"d {low} {low + more}"
    col_bounds = {k: box(draw.randint(-2, 2), draw.randint(0, 3)) for k in range(1, cols + 1)}
    return Problem(file_text(table, o, {k: bound(draw) for k in range(1, rows + 1)}, col_bounds))


def bounded_differences(draw):
    """The sets of two polytopes in the plane and of one in space, beside vertices that are tried one by one."""
    a, b, c = box_part(draw, 2), box_part(draw, 2), box_part(draw, 3)
    of = lambda p: vertices(p.cols, list(p.sides()))
    found = {
        "project": (projection(c, 2), [v[:2] for v in of(c)]),
        "meet": (both(a, b), vertices(2, list(a.sides()) + list(b.sides()))),
        "sum": (sums(a, b), [plus(x, y) for x in of(a) for y in of(b)]),
        "map": (objectives(c), [values(c)(x) for x in of(c)]),
    }
    if of(a) and of(b):
        found["join"] = (joined(a, b), list(of(a)) + list(of(b)))
    for name, (made, points) in found.items():
        want = ([], plane_hull(points), []) if points else None
        if made.reduced() != want:
            yield name
    w = [Fraction(draw.randint(0, 3), draw.randint(1, 2)) for _ in range(2)]
    if of(c):
        worth = lambda y: dot(w, y)
        points = plane_hull([values(c)(x) for x in of(c)])
        _, lines = weigh_lines(c, w)
        least = min(map(worth, points))
        listed = {tuple(Fraction(x) for x in l.split()[1:]) for l in lines[4:]}
        if lines[2] != f"value {least}" or not listed <= {p for p in points if worth(p) == least}:
            yield "weigh"


def other_differences(draw):
    """The sets of any two problems, beside elimination and beside the problems that are made for them."""
    cols = draw.randint(1, 2)
    a, b = Problem(random_part(draw, cols, 2)), Problem(random_part(draw, cols, 2))
    c = Problem(random_part(draw, draw.randint(1, 4)))
    k = draw.randint(1, c.cols)
    if projection(c, k).reduced() != hull_of(k, eliminated(c.sides(), k)).reduced():
        yield "elimination"
    if Problem(associated_text(c, k)).objs != k + 1 or list(Problem(associated_text(c, k)).sides()) != list(c.sides()):
        yield "associate"
    image = report(Problem(associated_text(c, k)), [ONE] * (k + 1))
    if [l for l in image if l[0] == "f" and l[:4] != "free" and l[:6] != "facets"] != ["f" + l[1:] for l in set_lines(projection(c, k)) if l[0] == "h"]:
        yield "sides"
    found = {"meet": both(a, b), "sum": sums(a, b), "map": objectives(a)}
    if feasible(a).points and feasible(b).points:
        found["join"] = joined(a, b)
    for name, made in found.items():
        if made.reduced() != projection(Problem(made_text(name, a, b)), made.width).reduced():
            yield "made " + name


def compare_ways(count, seed):
    draw = random.Random(seed)
    differ = 0
    for number in range(count):
        for name in itertools.chain(bounded_differences(draw), other_differences(draw)):
            differ += 1
            print(f"{number}: {name} differs")
    print(f"{differ} differences in {count} rounds")
    return differ


def main():
    program, *words = sys.argv[1:]
    if program == "-":
        command, path, *more = words
        text = open(path).read()
        if command in ("project", "associate"):
            rest = int(more[0])
        elif command == "weigh":
            rest = [Fraction(x) for x in more[0].split(",")]
        else:
            rest = open(more[0]).read() if more else None
        print("\n".join(expected(command, text, rest)[1]))
        return
    count, seed = int(words[0]), int(words[1]) if len(words) > 1 else 1
    sys.exit(1 if (compare_ways(count, seed) if program == "=" else compare(program, count, seed)) else 0)


if __name__ == "__main__":
    main()
