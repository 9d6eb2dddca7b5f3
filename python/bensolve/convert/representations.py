"""Texts `sides` and `gens` as people write them: with decimals, unreduced fractions, comments, blanks and any line ends."""
from typing import List, Tuple

from ..texts import HELD, Representation, Vector
from .reading import NotConverted, Source, natural_width, number, refuse, shown

MOST_LINES = 10_000
MOST_ENTRIES = 19


def read(source: Source) -> Representation:
    kind, width = "", 0
    rows: List[Tuple[str, Vector]] = []
    ended = False
    at = 1
    for at, text in source.lines():
        words = text.partition("#")[0].split()
        if not words or words[0] == "c" or words[0].startswith("*"):
            continue
        if ended:
            refuse(at, f"`{shown(words[0])}` stands after the line `end`")
        if not kind:
            kind, width = _head(at, words)
        elif words == ["end"]:
            ended = True
        else:
            rows.append(_row(at, words, kind, width))
    if not kind:
        refuse(at, "the text says nothing: its first line is `sides K` or `gens K`")
    if not ended:
        refuse(at, "the line `end` is wanting")
    return Representation(kind, width, tuple(rows))


def _head(line: int, words: List[str]) -> Tuple[str, int]:
    if words[0] not in Representation.WORDS:
        refuse(line, f"`{shown(words[0])}` stands where `sides` or `gens` is wanted")
    if len(words) != 2:
        refuse(line, f"after `{words[0]}` stands the number of entries alone")
    return words[0], natural_width(line, words[1], "the number of entries")


def _row(line: int, words: List[str], kind: str, width: int) -> Tuple[str, Vector]:
    if words[0] not in Representation.WORDS[kind]:
        refuse(line, f"no row of `{kind}` begins with `{shown(words[0])}`: {', '.join(Representation.WORDS[kind])} or end")
    wanted = width + (kind == "sides")
    if len(words) - 1 != wanted:
        refuse(line, f"a row `{words[0]}` has {wanted} numbers here, and not {len(words) - 1}")
    return words[0], tuple(number(line, word) for word in words[1:])


def write(representation: Representation) -> str:
    """The strict text, which the program reads."""
    if representation.width > MOST_ENTRIES:
        raise NotConverted(f"vectors have {representation.width} entries, and the program takes at most {MOST_ENTRIES}")
    if len(representation.rows) + 2 > MOST_LINES:
        raise NotConverted(f"there are {len(representation.rows):,} rows, and the program takes at most {MOST_LINES - 2:,}")
    for place, (_, numbers) in enumerate(representation.rows, 1):
        for value in numbers:
            if abs(value.numerator) >= HELD or value.denominator >= HELD:
                raise NotConverted(f"row {place} has a numerator or a denominator of 2^120 or more, which the program does not take")
    return representation.text()
