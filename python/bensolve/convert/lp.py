"""Linear programs in the LP format, as CPLEX, Gurobi, CBC and glpk write it.

One objective, or several after `multi-objectives`, whose priorities and tolerances are passed over. A sum of one name adds up, and
`<` is `<=`. A right-hand side is one number, and what follows it begins a line. What readers take in different ways is refused: an
upper bound below 0 without a lower one, a bound beside `binary`, a bound of 1e20 or more, a name that may be an exponent. Columns that
are to be whole (`general`, `binary`) are refused, or with --relax need not be whole.
"""
import re
from fractions import Fraction
from typing import Callable, Dict, List, Optional, Tuple

from ..problem import Problem
from .expressions import SIGNS, Sum, Token, Tokens, take_sign, take_sum
from .programs import INFINITE, Column, Program, Row, bound, finite
from .reading import Source, number, refuse, shown

TOKEN = re.compile(
    r"\s*(?:(?P<number>(?:[0-9]+\.?[0-9]*|\.[0-9]+)(?:[eE][+-]?[0-9]+)?)"
    r"|(?P<name>[A-Za-z!\"#$%&,;?@_'`{}|~][A-Za-z0-9!\"#$%&,;?@_'`{}|~.()\[\]/]*)"
    r"|(?P<relation>[<>]=|=[<>]|[<>=])"
    r"|(?P<other>->|[-+:]))"
)
RELATIONS = {"<=": "<=", "=<": "<=", "<": "<=", ">=": ">=", "=>": ">=", ">": ">=", "=": "="}
TURNED = {"<=": ">=", ">=": "<=", "=": "="}
EXPONENT = re.compile(r"[eE](?:[0-9].*)?")
OBJECTIVE = re.compile(r"(minimi[sz]e|minimum|min|maximi[sz]e|maximum|max)(\s+multi-?objectives?)?(?=\s|$)", re.I)
CONSTRAINTS = re.compile(r"(subject\s+to|such\s+that|s\.t\.|st\.?)(?=\s|$)", re.I)
SECTIONS = {
    "bound": "bounds", "bounds": "bounds",
    "general": "general", "generals": "general", "gen": "general", "integer": "general", "integers": "general", "int": "general",
    "binary": "binary", "binaries": "binary", "bin": "binary",
    "end": "end",
}
REFUSED = ("semi-continuous", "semi", "semis", "sos", "sos1", "sos2", "lazy constraints", "user cuts", "pwlobj", "general constraints",
           "general constraint", "gencons", "multi-objectives", "scenario", "scenarios")
ATTRIBUTES = ("priority", "weight", "abstol", "reltol")


class _Reader:
    def __init__(self, source: Source) -> None:
        self.source = source
        self.program = Program(source)
        self.section = ""
        self.is_multiple = False
        self.tokens: List[Token] = []
        self.done: Dict[str, int] = {}
        self.binary: Dict[str, int] = {}

    def read(self) -> Problem:
        line = 1
        for line, text in self.source.lines():
            text = text.partition("\\")[0].strip()
            if self.section == "end":
                if text:
                    refuse(line, f"`{shown(text)}` stands after `end`")
            elif text:
                self._take(line, text)
        if self.section != "end":
            refuse(line, "the line `end` is wanting")
        return self._finish(line)

    def _take(self, line: int, text: str) -> None:
        """Takes a line: the first of a section, or more of the section that is open."""
        word = " ".join(text.lower().split())
        if word in REFUSED:
            refuse(line, f"the section `{text}` is not taken: it is none of a plain linear program")
        if not self.section:
            match = OBJECTIVE.match(text)
            if not match or text[match.end():].lstrip()[:1] == ":":
                refuse(line, f"`{shown(text)}` stands where `minimize` or `maximize` is wanted, with which a file begins")
            self.is_multiple = match.group(2) is not None
            self.program.direction = match.group(1)[:3].lower()
            self._open(line, "objective")
            text = text[match.end():]
        elif self.section == "objective" and CONSTRAINTS.match(text):
            self._open(line, "constraints")
            text = text[CONSTRAINTS.match(text).end():]
        elif word in SECTIONS:
            if self.section == "objective":
                refuse(line, f"`{shown(text)}` stands where `subject to` is wanted")
            self._open(line, SECTIONS[word])
            return
        self._cut(line, text)

    def _open(self, line: int, section: str) -> None:
        if self.section:
            READERS[self.section](self, Tokens(self.tokens, line))
        if section in self.done:
            refuse(line, f"a second section {section}: the first began in line {self.done[section]}")
        self.done[section] = line
        self.section = section
        self.tokens = []

    def _cut(self, line: int, text: str) -> None:
        at = 0
        while at < len(text):
            match = TOKEN.match(text, at)
            if not match:
                rest = text[at:].split()[0]
                why = "a square is no matter of a linear program" if rest[0] in "[^" else "it is no name, number or relation"
                refuse(line, f"`{shown(rest)}` is not taken: {why}")
            kind = match.lastgroup
            word = match[kind]
            if word == "->":
                refuse(line, "`->` is not taken: it belongs to an indicator, which is no row of a linear program")
            if kind == "name" and EXPONENT.fullmatch(word):
                refuse(line, f"the name `{shown(word)}` may be an exponent: rename it")
            self.tokens.append(Token(line, word if kind == "other" else kind, word))
            at = match.end()

    def objectives(self, tokens: Tokens) -> None:
        while True:
            line = tokens.ahead().line
            name = _take_name(tokens)
            row = self.program.add_objective(line, name)
            while self.is_multiple and tokens.ahead().text.lower() in ATTRIBUTES and tokens.ahead(1).text == "=":
                self._take_attribute(tokens)
            if tokens.ahead().kind != "end" and not _is_named(tokens):
                terms = take_sum(tokens)
                row.entries, row.constant = self._entries(line, terms), terms.constant
            if tokens.ahead().kind == "end":
                return
            if not self.is_multiple:
                tokens.refuse("`subject to`, or `multi-objectives` after the direction,")
            if not _is_named(tokens):
                tokens.refuse("the name of an objective with a colon")

    @staticmethod
    def _take_attribute(tokens: Tokens) -> None:
        word = tokens.take().text
        tokens.take()
        sign = take_sign(tokens)
        token = tokens.take_if("number") or tokens.refuse("a number")
        if word.lower() == "weight" and sign * number(token.line, token.text) <= 0:
            refuse(token.line, "a weight of 0 or below turns an objective: turn its signs and give 1")

    def _entries(self, line: int, terms: Sum) -> Dict[int, Fraction]:
        """The coefficients by column. A name that is new is one more column."""
        for name in terms.terms:
            if name.lower() in INFINITE:
                refuse(line, f"`{name}` is no name of a column")
            if name not in self.program.columns:
                self.program.add_column(line, name)
        return {self.program.places[name]: value for name, value in terms.terms.items() if value}

    def constraints(self, tokens: Tokens) -> None:
        while tokens.ahead().kind != "end":
            line = tokens.ahead().line
            row = self.program.add_row(line, _take_name(tokens))
            left = self._number_before(tokens)
            relation = self._take_relation(tokens) if left is not None else None
            terms = take_sum(tokens)
            if not terms.terms:
                refuse(line, "a row has a column at least")
            row.entries = self._entries(line, terms)
            if left is not None:
                _hold(row, line, TURNED[relation], left - terms.constant)
            if left is None or tokens.ahead().kind == "relation":
                second = self._take_relation(tokens)
                if left is not None and (relation != second or relation == "="):
                    refuse(line, "a range has `<=` twice, or `>=` twice")
                _hold(row, line, second, self._take_right(tokens) - terms.constant)

    @staticmethod
    def _number_before(tokens: Tokens) -> Optional[Fraction]:
        """The number with a relation after it that stands here, if one does."""
        signed = tokens.ahead().kind in SIGNS
        if tokens.ahead(signed).kind != "number" or tokens.ahead(signed + 1).kind != "relation":
            return None
        sign = take_sign(tokens)
        token = tokens.take()
        return sign * finite(token.line, token.text, "a side")

    @staticmethod
    def _take_relation(tokens: Tokens) -> str:
        token = tokens.take_if("relation") or tokens.refuse("`<=`, `>=` or `=`")
        return RELATIONS[token.text]

    @staticmethod
    def _take_right(tokens: Tokens) -> Fraction:
        """The number on the right, with which a line ends."""
        sign = take_sign(tokens)
        token = tokens.take_if("number") or tokens.refuse("a number, alone on the right-hand side,")
        if tokens.ahead().kind != "end" and tokens.ahead().line == token.line:
            tokens.refuse("the end of the line, after the right-hand side,")
        return sign * finite(token.line, token.text, "a side")

    def bounds(self, tokens: Tokens) -> None:
        """One statement a line."""
        while tokens.ahead().kind != "end":
            line = tokens.ahead().line
            words = []
            while tokens.ahead().kind != "end" and tokens.ahead().line == line:
                words.append(tokens.take())
            self._take_bound(line, words)

    def _take_bound(self, line: int, words: List[Token]) -> None:
        tokens = Tokens(words, line)
        first = None
        if tokens.ahead().kind in (*SIGNS, "number") or tokens.ahead().text.lower() in INFINITE:
            first = _take_bound_number(tokens)
            relation = self._take_relation(tokens)
        token = tokens.take_if("name") or tokens.refuse("the name of a column")
        column = self.program.column(line, token.text)
        if first is not None:
            _bound(column, line, TURNED[relation], *first)
        elif tokens.ahead().text.lower() == "free" and len(words) == 2:
            column.give(line, "lower", None)
            column.give(line, "upper", None)
            return
        if first is None or tokens.ahead().kind == "relation":
            second = self._take_relation(tokens)
            if first is not None and (relation != second or relation == "="):
                refuse(line, "a bound on both sides has `<=` twice, or `>=` twice")
            _bound(column, line, second, *_take_bound_number(tokens))
        if tokens.ahead().kind != "end":
            tokens.refuse("the end of the line")

    def whole(self, tokens: Tokens) -> None:
        while tokens.ahead().kind != "end":
            token = tokens.take_if("name") or tokens.refuse("the name of a column")
            column = self.program.column(token.line, token.text)
            if column.integer_line is not None:
                refuse(token.line, f"`{shown(token.text)}` was named in line {column.integer_line}")
            self.program.make_integer(token.line, column)
            if self.section == "binary":
                self.binary[token.text] = token.line

    def _finish(self, line: int) -> Problem:
        for name, at in self.binary.items():
            column = self.program.columns[name]
            if column.given:
                bounded = min(column.given.values())
                refuse(at, f"`{shown(name)}` is binary, and line {bounded} bounds it: some programs keep that and some do not")
            column.upper = Fraction(1)
        for column in self.program.columns.values():
            if column.is_below_zero():
                why = "has an upper bound below 0 and no lower one, which some programs read as 0 and some as none: give it"
                refuse(column.given["upper"], f"`{shown(column.name)}` {why}")
        return self.program.problem(line)


def _is_named(tokens: Tokens) -> bool:
    return tokens.ahead().kind == "name" and tokens.ahead(1).kind == ":"


def _take_name(tokens: Tokens) -> Optional[str]:
    if not _is_named(tokens):
        return None
    name = tokens.take().text
    tokens.take()
    return name


def _hold(row: Row, line: int, relation: str, value: Fraction) -> None:
    if relation in (">=", "="):
        row.lower = value
    if relation in ("<=", "="):
        row.upper = value


def _take_bound_number(tokens: Tokens) -> Tuple[int, Optional[Fraction]]:
    sign = tokens.take_if(*SIGNS)
    token = tokens.take()
    if token.kind != "number" and token.text.lower() not in INFINITE:
        tokens.at -= 1
        tokens.refuse("a number or `inf`")
    return bound(token.line, (sign.text if sign else "") + token.text)


def _bound(column: Column, line: int, relation: str, infinite: int, value: Optional[Fraction]) -> None:
    """Takes `column REL value`."""
    if infinite and (relation == "=" or (infinite > 0) != (relation == "<=")):
        refuse(line, f"an infinite bound of `{column.name}` bounds nothing from this side")
    if relation in (">=", "="):
        column.give(line, "lower", value)
    if relation in ("<=", "="):
        column.give(line, "upper", value)


READERS: Dict[str, Callable[[_Reader, Tokens], None]] = {
    "objective": _Reader.objectives,
    "constraints": _Reader.constraints,
    "bounds": _Reader.bounds,
    "general": _Reader.whole,
    "binary": _Reader.whole,
}


def read(source: Source) -> Problem:
    return _Reader(source).read()
