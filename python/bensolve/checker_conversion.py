"""The rules of the log of a conversion, and the representation that it gives."""
from typing import Any, List, Optional

from .checker_generators import LogCheck, Pair, leading, require_rising
from .checker_texts import Number, Representation, require, vector_text

_AFTER_LINES, _AFTER_START = ("conv", "line"), ("start", "add")
_BEFORE = {"conv": (None,), "line": _AFTER_LINES, "start": _AFTER_LINES, "add": _AFTER_START, "end": _AFTER_START}
_BEFORE_WITHOUT_ROWS = {"conv": (None,), "end": ("conv",)}


class ConversionCheck(LogCheck):
    """The log of a conversion as far as it was checked."""

    def __init__(self, given: Representation):
        super().__init__()
        self.given, self.size = given, given.entries + 1
        self.last: Optional[str] = None  # the kind of the entry before

    def take(self, kind: str, fields: List[Any]) -> None:
        require(self.last in (_BEFORE if self.given.rows else _BEFORE_WITHOUT_ROWS).get(kind, ()), "Order")
        getattr(self, "take_" + kind)(*fields)
        self.last = kind

    def take_conv(self, number: int) -> None:
        require(number == 1, "Version")

    def take_line(self, line: List[Number]) -> None:
        place = self.test_line(line, self.size)
        for row in self.given.rows:
            require(self.product(zip(row, line)) == 0, "Corner")
        self.lines[place] = (line,)

    def take_start(self, rows: List[int], entries: List[Number]) -> None:
        size, count = self.size, len(rows)
        require(count == size - len(self.lines) and len(entries) == count * size, "Length")
        require_rising(rows, 0, len(self.given.rows) - 1)
        self.tight = [0] * count
        for own in range(count):
            vector = entries[own * size:(own + 1) * size]
            require(self.is_reduced(vector) and abs(vector[-1] or leading(vector)) == 1, "Corner")
            for place, row in enumerate(rows):
                value = self.product(zip(self.given.rows[row], vector))
                require(value > 0 if place == own else value == 0, "Corner")
            self.make(vector, (1 << count) - 1 ^ 1 << own)
        self.in_use = {row: number for number, row in enumerate(rows)}

    def take_add(self, row: int, pairs: List[Pair]) -> None:
        require(row < len(self.given.rows) and row not in self.in_use, "Index")
        self.add(self.given.rows[row], None, pairs, None)
        self.in_use[row] = len(self.in_use)

    def take_end(self) -> None:
        require(len(self.in_use) == len(self.given.rows), "Missing")

    def report(self) -> str:
        """The other representation, which an accepted log gives."""
        is_sides, lines = self.given.is_sides, [line for line, in self.lines.values()]
        vectors = sorted(generator.entries for generator in self.live.values())
        out = [f"{'gens' if is_sides else 'sides'} {self.size - 1}"]
        if not self.given.rows:
            out.append("h " + "0 " * (self.size - 1) + "1")
        elif not is_sides:
            out += ["e " + vector_text(line) for line in lines]
            out += ["h " + vector_text(vector) for vector in vectors if any(vector[:-1])]
        elif any(vector[-1] for vector in vectors):
            out += ["l " + vector_text(line[:-1]) for line in lines]
            for last in (1, 0):
                out += [f"{last} {vector_text(vector[:-1])}" for vector in vectors if vector[-1] == last]
        return "\n".join(out + ["end", ""])
