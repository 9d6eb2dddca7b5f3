"""Sums of multiples of names, as `2 x + y - 3`, which Normaliz and the LP format write."""
from fractions import Fraction
from typing import Dict, List, NamedTuple, NoReturn, Optional, Tuple

from .reading import number, refuse, shown

SIGNS = ("+", "-")


class Token(NamedTuple):
    """A piece of a line. Its kind is `number`, `name`, or the text itself of any other."""

    line: int
    kind: str
    text: str


class Tokens:
    """Tokens, taken from left to right."""

    def __init__(self, tokens: List[Token], last_line: int) -> None:
        self.tokens = tokens
        self.at = 0
        self.end = Token(last_line, "end", "the end")

    def ahead(self, further: int = 0) -> Token:
        place = self.at + further
        return self.tokens[place] if place < len(self.tokens) else self.end

    def take(self) -> Token:
        token = self.ahead()
        self.at += 1
        return token

    def take_if(self, *kinds: str) -> Optional[Token]:
        return self.take() if self.ahead().kind in kinds else None

    def refuse(self, wanted: str) -> NoReturn:
        token = self.ahead()
        told = "the text ends" if token.kind == "end" else f"`{shown(token.text)}` stands"
        refuse(token.line, f"{told} where {wanted} is wanted")


class Sum(NamedTuple):
    """A sum: the coefficient of each name, in the order of their first use, and the number that stands beside."""

    terms: Dict[str, Fraction]
    constant: Fraction


def take_sign(tokens: Tokens) -> int:
    """The sign that may stand here, as 1 or -1."""
    sign = tokens.take_if(*SIGNS)
    if sign and tokens.ahead().kind in SIGNS:
        tokens.refuse("a number or a name, after one sign,")
    return -1 if sign and sign.kind == "-" else 1


def take_sum(tokens: Tokens) -> Sum:
    """The longest sum that begins here. After its first term each has a sign."""
    terms: Dict[str, Fraction] = {}
    constant = Fraction(0)
    while True:
        sign = take_sign(tokens)
        factor, name = _take_term(tokens)
        if name is None:
            constant += sign * factor
        else:
            terms[name] = terms.get(name, Fraction(0)) + sign * factor
        if tokens.ahead().kind not in SIGNS:
            return Sum(terms, constant)


def _take_term(tokens: Tokens) -> Tuple[Fraction, Optional[str]]:
    token = tokens.take_if("number")
    factor = number(token.line, token.text) if token else Fraction(1)
    times = tokens.take_if("*") if token else None
    is_next_label = tokens.ahead(1).kind == ":"
    name = None if is_next_label else tokens.take_if("name")
    if name is None and (times or token is None):
        tokens.refuse("a name" if times else "a number or a name")
    return factor, name.text if name else None
