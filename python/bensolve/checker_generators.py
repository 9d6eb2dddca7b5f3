"""Steps, tests and double description, by which the second checker goes through a log."""
import operator
from fractions import Fraction
from itertools import product
from math import gcd
from typing import Any, Dict, Iterable, Iterator, List, Optional, Sequence, Tuple

from .checker_texts import LIMIT, Fault, Number, is_held, require

RULES = "Version Order Length Index Scaled Interior Sign Balance Cone Bound Side Corner Pairs Facet Missing - Hint".split()
_OPERATIONS = {"add": operator.add, "sub": operator.sub, "mul": operator.mul, "div": Fraction}
Pair = Tuple[int, int]


def require_rising(numbers: Sequence[int], least: int, most: int) -> None:
    """That numbers rise, from the least to the most that there are."""
    for number in numbers:
        require(least <= number <= most, "Index")
        least = number + 1


def places_in(bits: int) -> Iterator[int]:
    """The places of the ones of an int, rising."""
    while bits:
        low = bits & -bits
        yield low.bit_length() - 1
        bits ^= low


def leading(vector: Sequence[Number]) -> Number:
    """The first entry that is not 0; of zeros 0."""
    return next(filter(None, vector), 0)


class Generator:
    """A generator, the rows in use that are tight at it, as bits, and its pre-image."""

    def __init__(self, entries: List[Number], rows: int):
        self.entries, self.rows, self.preimage = entries, rows, None


class LogCheck:
    """A log as far as it was checked: `take_KIND` goes through the tests and steps of an entry of this kind.

    Rows are numbered from 0 as they come into use, generators from 1. `tight` may name some that are no more live.
    """

    def __init__(self) -> None:
        self.entry, self.steps = 0, 0  # the number of the entry, and its steps so far
        self.lines: Dict[int, Any] = {}  # by their places, rising
        self.in_use: Dict[int, int] = {}  # the number in use of each cut, or row of a conversion
        self.live: Dict[int, Generator] = {}
        self.live_bits, self.made = 0, 0
        self.tight: List[int] = []  # of each row in use the generators, as bits
        self.keeps_covers, self.covers = False, []  # the least covers of the last addition without hints

    def step(self, name: str, first: Number, second: Number) -> Number:
        """A sum, difference, product or quotient."""
        result = _OPERATIONS[name](first, second)
        self.steps += 1
        if not is_held(result):
            raise Fault(5, f"step {self.entry} {self.steps} {name} {first} {second}")
        return result

    def product(self, factors: Iterable[Tuple[Number, Number]]) -> Number:
        """The sum of products of these factors; a place with a factor 0 takes no step."""
        factors = [pair for pair in factors if pair[0] and pair[1]]
        parts = [(first.numerator * second.numerator, first.denominator * second.denominator) for first, second in factors]
        bottom = 1
        for _, under in parts:
            bottom = bottom if bottom % under == 0 or bottom >= LIMIT else bottom // gcd(bottom, under) * under
        if bottom < LIMIT and sum(abs(top) * (bottom // under) for top, under in parts) < LIMIT:
            # All steps are held: what each gives is at most such a sum, over this denominator.
            self.steps += 2 * len(parts)
            total = sum(top * (bottom // under) for top, under in parts)
            return total if bottom == 1 else Fraction(total, bottom)
        total = 0
        for first, second in factors:
            total = self.step("add", total, self.step("mul", first, second))
        return total

    def value(self, normal: List[Number], bound: Optional[Number], generator: Generator) -> Number:
        """The value of a row at a generator; without a bound the row has all entries."""
        value = self.product(zip(normal, generator.entries))
        return value if bound is None or not generator.entries[-1] else self.step("sub", value, bound)

    def test_line(self, line: List[Number], length: int) -> int:
        """That a vector is in reduced echelon form with the lines before; the answer is its place."""
        require(len(line) == length, "Length")
        require(leading(line) == 1, "Scaled")
        place = line.index(1)
        require(all(before < place and not self.lines[before][0][place] for before in self.lines), "Scaled")
        return place

    def is_reduced(self, vector: List[Number]) -> bool:
        return not any(vector[place] for place in self.lines)

    def make(self, entries: List[Number], rows: int) -> None:
        """Makes a generator at which these rows are tight."""
        self.made += 1
        self.live[self.made] = Generator(entries, rows)
        self.live_bits |= 1 << self.made
        for row in places_in(rows):
            self.tight[row] |= 1 << self.made

    def common(self, pair: Pair) -> int:
        """The rows in use that are tight at both of a pair."""
        return self.live[pair[0]].rows & self.live[pair[1]].rows

    def least_cover(self, pair: Pair) -> int:
        """The least third live generator that covers a pair, or 0."""
        found = self.live_bits ^ 1 << pair[0] ^ 1 << pair[1]
        for row in places_in(self.common(pair)):
            if not found:
                return 0
            found &= self.tight[row]
        return (found & -found).bit_length() - 1 if found else 0

    def add(self, normal: List[Number], bound: Optional[Number], pairs: List[Pair], hints: Optional[List[int]]) -> None:
        """Brings a row into use, after the tests of the pairs and hints."""
        values = {number: self.value(normal, bound, generator) for number, generator in self.live.items()}
        inside = [number for number, value in values.items() if value > 0]
        outside = [number for number, value in values.items() if value < 0]
        (self._test_pairs if hints is None else self._test_hints)(pairs, hints, inside, outside)
        new = 1 << len(self.tight)
        made = [(self._meet(pair, values, bound is None), self.common(pair) | new) for pair in pairs]
        self.tight.append(0)
        for number, value in values.items():
            if value < 0:
                del self.live[number]
                self.live_bits ^= 1 << number
            elif value == 0:
                self.live[number].rows |= new
                self.tight[-1] |= 1 << number
        for entries, rows in made:
            self.make(entries, rows)

    def _test_pairs(self, pairs: List[Pair], _: None, inside: List[int], outside: List[int]) -> None:
        listed, self.covers = iter(pairs), []
        for pair in product(inside, outside):
            cover = self.least_cover(pair)
            require(cover or next(listed, None) == pair, "Pairs")
            if cover and self.keeps_covers:
                self.covers.append(cover)
        require(next(listed, None) is None, "Pairs")

    def _test_hints(self, pairs: List[Pair], hints: List[int], inside: List[int], outside: List[int]) -> None:
        within, without, listed, last = set(inside), set(outside), set(pairs), (0, 0)
        for pair in pairs:
            is_opposite = last < pair and pair[0] in within and pair[1] in without
            require(is_opposite and not self.least_cover(pair), "Pairs")
            last = pair
        require(len(hints) == len(inside) * len(outside) - len(pairs), "Hint")
        for pair, third in zip((pair for pair in product(inside, outside) if pair not in listed), hints):
            common = self.common(pair)
            require(third in self.live and third not in pair and self.live[third].rows & common == common, "Hint")

    def _meet(self, pair: Pair, values: Dict[int, Number], divides_last: bool) -> List[Number]:
        """The generator of a pair at which the new row is 0."""
        quotient = self.step("div", values[pair[0]], -values[pair[1]])
        met = [self.step("add", first, self.step("mul", quotient, second))
               for first, second in zip(self.live[pair[0]].entries, self.live[pair[1]].entries)]
        norm = abs(met[-1] or leading(met))
        normed = [self.step("div", entry, norm) for entry in (met if divides_last else met[:-1])]
        return normed if divides_last else normed + [1 if met[-1] else 0]
