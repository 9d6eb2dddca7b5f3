"""What all readers of other programs' files share: lines, exact numbers, and refusals by line."""
import re
from fractions import Fraction
from typing import Iterator, List, NoReturn, Optional, Tuple

from ..texts import TextFault

LONGEST_NUMBER = 1000
WIDEST = 1000
DECIMAL = re.compile(r"[+-]?(?P<before>[0-9]*)(?:\.(?P<after>[0-9]*))?(?:[eE](?P<power>[+-]?[0-9]+))?")
FRACTION = re.compile(r"[+-]?(?P<over>[0-9]+)/(?P<under>[0-9]+)")


class NotConverted(ValueError):
    """Why a content cannot be told in the kind of text that is wanted."""


def refuse(line: int, sentence: str) -> NoReturn:
    raise TextFault(line, "BadLine", sentence)


class Source:
    """A text that is read: its lines, whether integrality may be left out, and what the reader has to say beside its answer."""

    def __init__(self, text: str, relax: bool = False) -> None:
        text = text[1:] if text.startswith("\ufeff") else text
        self.text = text.replace("\r\n", "\n")
        self.relax = relax
        self.notes: List[str] = []
        if "\r" in self.text:
            line = self.text.count("\n", 0, self.text.index("\r")) + 1
            refuse(line, "a carriage return stands alone: line ends are a line feed, or both")

    def lines(self) -> Iterator[Tuple[int, str]]:
        """The lines with their numbers."""
        return enumerate(self.text.split("\n"), 1)

    def note(self, line: int, sentence: str) -> None:
        self.notes.append(f"line {line}: {sentence}")


def is_number(word: str) -> bool:
    return _size(word) is not None


def number(line: int, word: str) -> Fraction:
    """The number that a word says: whole, a decimal, or a fraction."""
    size = _size(word)
    if size is None:
        raise TextFault(line, "BadNumber", f"`{shown(word)}` is no number as 12, -4.5, 1e-3 or 2/3")
    if size > LONGEST_NUMBER:
        raise TextFault(line, "NumberWide", f"`{shown(word)}` needs more than {LONGEST_NUMBER:,} digits")
    return Fraction(word)


def _size(word: str) -> Optional[int]:
    """At most how many digits the value of a word needs; nothing where it is no number."""
    fraction = FRACTION.fullmatch(word)
    if fraction and fraction["under"].strip("0"):
        return max(len(fraction["over"]), len(fraction["under"]))
    decimal = DECIMAL.fullmatch(word)
    if not decimal or not (decimal["before"] or decimal["after"]):
        return None
    power = (decimal["power"] or "0").lstrip("+-").lstrip("0")
    digits = len(decimal["before"]) + len(decimal["after"] or "")
    return digits + int(power or 0) if len(power) < 6 else LONGEST_NUMBER + 1


def shown(word: str) -> str:
    """A word as a sentence shows it: its front, where it is long."""
    return word if len(word) <= 40 else word[:37] + ".."


def natural(line: int, word: str, what: str, least: int = 0) -> int:
    """A count, a width or a place."""
    if not re.fullmatch("[0-9]{1,9}", word) or int(word) < least:
        refuse(line, f"`{shown(word)}` stands where {what} is wanted")
    return int(word)


def natural_width(line: int, word: str, what: str, least: int = 1) -> int:
    """How many entries a vector has: so many as a problem has columns, at most."""
    value = natural(line, word, what, least)
    if value > WIDEST:
        refuse(line, f"`{word}` stands where {what} is wanted, which is at most {WIDEST:,}")
    return value
