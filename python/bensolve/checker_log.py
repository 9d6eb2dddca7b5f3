"""The rules of the log of a problem, the report of its answer, and its upgrade."""
from collections import Counter
from functools import partial
from typing import Any, Dict, List, Optional, Tuple

from .checker_generators import LogCheck, Pair, leading, places_in, require_rising
from .checker_texts import Number, Problem, Sparse, factors_of, require, sparse_text, vector_text

_ONCE = ("duality", "start", "farkas", "whole")
_BEFORE_DUALITY = ("version", "duality", "farkas", "share", "end")
_AFTER_START = ("add", "addh", "point", "pointof", "ray", "rayof", "facet")
_SHARING = {"cutof": 2, "pointof": 1, "rayof": 1}  # which field names the shared vector


class ProblemCheck(LogCheck):
    """The log of a problem as far as it was checked."""

    def __init__(self, problem: Problem):
        super().__init__()
        self.problem = problem
        self.seen: Dict[str, List[Any]] = {}  # of each kind the last entry
        self.shared: List[Sparse] = []
        self.take_share, self.take_addh = self.shared.append, self.take_add
        self.take_ray = partial(self.take_point, last=0)
        self.cuts: List[Tuple[List[Number], Number, Sparse]] = []  # normal, bound and multipliers
        self.facets: Dict[int, int] = {}  # the number in use of each cut that a `facet` names
        self.facet_sets: set = set()

    def take(self, kind: str, fields: List[Any]) -> None:
        seen = self.seen
        require((kind == "version") == (not seen), "Order")
        require(kind not in ("share", "addh", *_SHARING) or seen["version"] == [2], "Order")
        require(kind not in _ONCE or kind not in seen, "Order")
        require(kind in _BEFORE_DUALITY or "duality" in seen, "Order")
        require(kind not in _AFTER_START or "start" in seen, "Order")
        require(kind != "line" or "start" not in seen, "Order")
        require(kind not in ("add", "addh") or "facet" not in seen, "Order")
        if kind in _SHARING:
            at = _SHARING[kind]
            require(1 <= fields[at] <= len(self.shared), "Index")
            kind, fields = kind[:-2], fields[:at] + [self.shared[fields[at] - 1]] + fields[at + 1:]
        getattr(self, "take_" + kind)(*fields)
        seen[kind] = fields

    def take_version(self, number: int) -> None:
        require(number in (1, 2), "Version")

    def take_duality(self, c: List[Number], weights: List[Number], picks: List[int], inverse: List[Number]) -> None:
        vectors, size, cone = self.problem.vectors, self.problem.objectives, self.problem.cone
        lengths = (len(vectors), size, size * size) if cone == "cone" else (0, 0, 0)
        require(len(c) == size and (len(weights), len(picks), len(inverse)) == lengths, "Length")
        require(c[-1] == 1, "Scaled")
        if self.problem.duality is not None:
            require(self.problem.duality[-1] > 0, "Scaled")
            for given, entry in zip(self.problem.duality, c):
                require(self.step("div", given, self.problem.duality[-1]) == entry, "Scaled")
        elif cone == "orthant":
            require(all(entry == 1 for entry in c), "Scaled")
        if cone == "orthant":
            require(all(entry > 0 for entry in c), "Interior")
        elif cone == "dualcone":
            for row in vectors:
                require(not any(row) or self.product(zip(row, c)) > 0, "Interior")
        else:
            require(all(weight > 0 for weight in weights), "Sign")
            for entry, values in zip(c, zip(*vectors)):
                require(self.product(zip(values, weights)) == entry, "Interior")
            require_rising(picks, 1, len(vectors))
            for row in range(size):
                for own, pick in enumerate(picks):
                    value = self.product(zip(vectors[pick - 1], inverse[row * size:(row + 1) * size]))
                    require(value == (own == row), "Interior")

    def test_cone(self, vector: List[Number], multipliers: Sparse, generated: str) -> None:
        """That a vector is in that of the cone and its dual which the vectors of such a file generate."""
        vectors = self.problem.vectors
        if self.problem.cone == generated:
            self.test_multipliers(multipliers, len(vectors))
            for place, entry in enumerate(vector):
                total = self.product((vectors[number - 1][place], value) for number, value in multipliers)
                require(total == entry, "Cone")
        else:
            require(not multipliers, "Length")
            require(self.problem.cone != "orthant" or all(entry >= 0 for entry in vector), "Cone")
            for row in vectors:
                require(self.product(zip(row, vector)) >= 0, "Cone")

    def test_multipliers(self, multipliers: Sparse, most: int) -> None:
        require(all(place <= most for place, _ in multipliers), "Index")
        require(all(value > 0 for _, value in multipliers), "Sign")

    def bound_of(self, sides: Sparse) -> Number:
        return self.product((self.problem.bounds[place - 1], value) for place, value in sides)

    def take_cut(self, w: List[Number], gamma: Number, sides: Sparse, multipliers: Sparse) -> None:
        objectives = self.problem.objective_columns
        require(len(w) == self.problem.objectives, "Length")
        self.test_multipliers(sides, len(self.problem.bounds))
        sums = factors_of(sides, self.problem.sides)
        for column in sorted(set(sums).union(objectives)):
            total = self.product(sums.get(column, ()))
            image = self.product((entry, w[place - 1]) for place, entry in objectives.get(column, ()))
            require(total == image, "Balance")
        self.test_cone(w, multipliers, "dualcone")
        require(self.product(zip(w, self.seen["duality"][0])) == 1, "Scaled")
        require(self.bound_of(sides) == gamma, "Bound")
        self.cuts.append((w, gamma, sides))

    def take_farkas(self, sides: Sparse) -> None:
        self.test_multipliers(sides, len(self.problem.bounds))
        for _, factors in sorted(factors_of(sides, self.problem.sides).items()):
            require(self.product(factors) == 0, "Balance")
        require(self.bound_of(sides) > 0, "Bound")

    def test_sides(self, x: Sparse, is_point: bool) -> None:
        """That a point is feasible, or a direction one of recession."""
        require(all(place <= self.problem.most["j"][0] for place, _ in x), "Index")
        factors = factors_of(x, self.problem.side_columns)
        for side, bound in enumerate(self.problem.bounds, 1):
            require(self.product(factors.get(side, ())) >= (bound if is_point else 0), "Side")

    def test_preimage(self, y: List[Number], x: Sparse, multipliers: Sparse, is_point: bool = False) -> None:
        """That x is feasible or of recession, and `y - P x` is in the cone."""
        self.test_sides(x, is_point)
        factors = factors_of(x, self.problem.objective_columns)
        rest = [self.step("sub", entry, self.product(factors.get(row, ()))) for row, entry in enumerate(y, 1)]
        self.test_cone(rest, multipliers, "cone")

    def take_whole(self, point: Sparse, direction: Sparse, multipliers: Sparse) -> None:
        self.test_sides(point, True)
        self.test_preimage([-entry for entry in self.seen["duality"][0]], direction, multipliers)

    def take_line(self, d: List[Number], point: Sparse, there: Sparse, multipliers: Sparse, *back: Sparse) -> None:
        place = self.test_line(d, self.problem.objectives)
        self.test_sides(point, True)
        self.test_preimage(d, there, multipliers)
        self.test_preimage([-entry for entry in d], *back)
        self.lines[place] = (d, there, back[0])

    def take_start(self, cuts: List[int], point: List[Number], entries: List[Number]) -> None:
        size, count = self.problem.objectives, len(cuts)
        require(count == size - len(self.lines) and count >= 1, "Length")
        require(len(point) == size and len(entries) == count * size, "Length")
        require_rising(cuts, 1, len(self.cuts))
        directions = [entries[at:at + size] for at in range(0, count * size, size)]
        require(self.is_reduced(point) and all(map(self.is_reduced, directions)), "Corner")
        require(all(abs(leading(vector)) == 1 for vector in directions), "Corner")
        rows = [self.cuts[cut - 1] for cut in cuts]
        for normal, bound, _ in rows:
            require(self.product(zip(normal, point)) == bound, "Corner")
        for own, (normal, _, _) in enumerate(rows):
            for place, vector in enumerate(directions):
                value = self.product(zip(normal, vector))
                require(value > 0 if place == own else value == 0, "Corner")
        self.in_use = {cut: number for number, cut in enumerate(cuts, 1)}
        self.tight = [0] * (count + 1)
        at_all = (2 << count) - 2  # all cuts, and not row 0
        self.make(point + [1], at_all)
        for number, vector in enumerate(directions, 1):
            self.make(vector + [0], at_all ^ 1 << number | 1)

    def take_add(self, cut: int, pairs: List[Pair], hints: Optional[List[int]] = None) -> None:
        require(1 <= cut <= len(self.cuts) and cut not in self.in_use, "Index")
        self.add(*self.cuts[cut - 1][:2], pairs, hints)
        self.in_use[cut] = len(self.in_use) + 1

    def take_point(self, number: int, x: Sparse, multipliers: Sparse, last: int = 1) -> None:
        generator = self.live.get(number)
        require(generator and generator.preimage is None and generator.entries[-1] == last, "Index")
        self.test_preimage(generator.entries[:-1], x, multipliers, last == 1)
        generator.preimage = x

    def tight_at(self, row: int) -> int:
        """The live generators, as bits, at which a row is tight."""
        return self.tight[row] & self.live_bits

    def rows_over(self, row: int) -> int:
        """The rows in use, as bits, that are tight at each of these."""
        found = (1 << len(self.tight)) - 1
        for number in places_in(self.tight_at(row)):
            found &= self.live[number].rows
        return found

    def take_facet(self, cut: int) -> None:
        require(cut in self.in_use and cut not in self.facets, "Index")
        mine, over = self.tight_at(self.in_use[cut]), self.rows_over(self.in_use[cut])
        require(not over & 1 and all(self.tight_at(row) == mine for row in places_in(over)), "Facet")
        require(mine not in self.facet_sets, "Facet")
        self.facets[cut] = self.in_use[cut]
        self.facet_sets.add(mine)

    def take_end(self, answer: str) -> None:
        require({"infeasible": "farkas", "whole": "whole", "solved": "start"}.get(answer) in self.seen, "Missing")
        if answer == "solved":
            require(all(one.preimage is not None for one in self.live.values()), "Missing")
            named = sum(1 << row for row in self.facets.values()) | 1
            require(all(self.rows_over(row) & named for row in self.in_use.values()), "Missing")

    def report(self) -> str:
        """The report of the answer that an accepted log proves."""
        answer = self.seen["end"][0]
        free = [self.problem.most[kind][0] - len(self.problem.given[kind]) for kind in "ij"]
        out = ["report 1", "answer " + answer, "free " + vector_text(free)]
        if answer != "infeasible":
            out.append("c " + vector_text(self.seen["duality"][0]))
        if answer == "solved":
            out += self._solution()
        else:
            marks, vectors = ("xr", self.seen["whole"]) if answer == "whole" else ("u", self.seen["farkas"])
            out += ["witnesses"] + [f"{mark} {sparse_text(one)}" for mark, one in zip(marks, vectors)]
        return "\n".join(out + [""])

    def _solution(self) -> List[str]:
        sign = -1 if self.problem.maximises else 1
        points, rays = (sorted(([sign * entry for entry in one.entries[:-1]], number)
                               for number, one in self.live.items() if one.entries[-1] == last) for last in (1, 0))
        facets = sorted((self.cuts[cut - 1][0] + [sign * self.cuts[cut - 1][1]], cut) for cut in self.facets)
        out = [f"lines {len(self.lines)}"] if self.lines else []
        out += ["l " + vector_text(d) for d, _, _ in self.lines.values()]
        for name, mark, vectors in (("points", "1 ", points), ("directions", "0 ", rays), ("facets", "f ", facets)):
            out += [f"{name} {len(vectors)}"] + [mark + vector_text(vector) for vector, _ in vectors]
        out += [f"dual {len(facets)}"] + ["1 " + vector_text(vector[:-2] + vector[-1:]) for vector, _ in facets]
        out += ["0 " * self.problem.objectives + str(-sign), f"incidence {len(facets)}"]
        order = {number: place for place, (_, number) in enumerate(points + rays, 1)}
        for _, cut in facets:
            on = sorted(order[number] for number in places_in(self.tight_at(self.facets[cut])))
            out.append("n " + vector_text([len(on)] + on))
        out.append("witnesses")
        for _, there, back in self.lines.values():
            out += ["r " + sparse_text(way) for way in (there, back)[::sign]]
        for mark, vectors in (("x ", points), ("r ", rays)):
            out += [mark + sparse_text(self.live[number].preimage) for _, number in vectors]
        return out + ["u " + sparse_text(self.cuts[cut - 1][2]) for _, cut in facets]


class Upgrade:
    """The log of version 2 that says the same, gathered entry by entry."""

    def __init__(self) -> None:
        self.parts: List[Tuple[str, str, str]] = []  # what stands before a vector, it, what stands after
        self.uses: Counter = Counter()

    def put(self, log: ProblemCheck, words: List[str], fields: List[Any]) -> None:
        """Takes an entry that was just checked."""
        start = end = len(words)
        is_first = log.seen["version"] == [1]
        if is_first and words[0] in ("cut", "point", "ray"):
            end -= 1 + 2 * len(fields[-1])
            start = end - 1 - 2 * len(fields[-2]) if fields[-2] else end
        front, vector, rest = (" ".join(part) for part in (words[:start], words[start:end], words[end:]))
        if words[0] == "version":
            front = "version 2"
        elif words[0] == "add" and is_first:
            front = f"addh{front[3:]} {vector_text([len(log.covers)] + log.covers)}"
        self.uses[vector] += 1
        self.parts.append((front, vector, rest))

    def text(self) -> str:
        out: List[str] = []
        numbers: Dict[str, int] = {}
        for front, vector, rest in self.parts:
            if vector and self.uses[vector] > 1:
                out += [] if vector in numbers else ["share " + vector]
                number = numbers.setdefault(vector, len(numbers) + 1)
                front, vector = front.replace(" ", "of ", 1), str(number)
            out.append(" ".join(filter(None, (front, vector, rest))))
        return "\n".join(out + [""])
