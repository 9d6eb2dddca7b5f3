"""The cases of crates/cases/data as they stand in its lists, with the texts that they name."""
import functools
import os
import re
from pathlib import Path
from typing import Dict, Iterator, List, NamedTuple, Tuple

TOP = Path(__file__).resolve().parents[2]
DATA = TOP / "crates" / "cases" / "data"
EXAMPLES = DATA / "examples"


class Case(NamedTuple):
    """A line of a list: its keys may stand more than once."""

    name: str
    words: List[str]
    keys: Dict[str, List[str]]

    def text(self, key: str) -> str:
        """The text of the problem or the log that is read; without the key an empty one."""
        return text_of(self.keys.get(key, [""])[0]) if key in self.keys else ""

    def texts(self, key: str) -> List[str]:
        """The texts that may be written, without those that are forms with `*`."""
        return [text_of(value) for value in self.keys.get(key, []) if "*" not in value]


def unescaped(line: str) -> str:
    line = line.replace("\\r", "\r").replace("\\t", "\t")
    return re.sub(r"\\([0-9]+)x(.)", lambda found: found.group(2) * int(found.group(1)), line)


def plain(value: str) -> str:
    end = "\n"
    if value.endswith("\\"):
        value, end = value[:-1], ""
    return "\n".join(unescaped(line) for line in value.split(" / ")) + end


def text_of(value: str) -> str:
    if not value.startswith("@"):
        return plain(value)
    path, _, change = value[1:].partition(":")
    text = (DATA / path).read_bytes().decode("utf-8", "surrogateescape")
    if not change:
        return text
    number, blank, lines = change.partition(" ")
    parts = text.splitlines(keepends=True)
    parts[int(number) - 1] = plain(lines) if blank else ""
    return "".join(parts)


@functools.lru_cache(maxsize=None)
def all_cases() -> Tuple[Case, ...]:
    return tuple(_all_cases())


def _all_cases() -> Iterator[Case]:
    for folder in sorted(DATA.iterdir()):
        if folder.is_dir():
            for line in (folder / "cases").read_text().splitlines():
                if line and not line.startswith("#"):
                    name, words, *parts = line.split(" | ")
                    keys: Dict[str, List[str]] = {}
                    for part in parts:
                        key, _, value = part.partition("=")
                        keys.setdefault(key, []).append(value)
                    yield Case(f"{folder.name}/{name}", words.split(), keys)


def built_program():
    """The program of BENSOLVE, or the one that is built in this clone; None where there is none. A launcher would build it."""
    named = os.environ.get("BENSOLVE", "")
    built = TOP / "crates" / "bensolve" / "out" / "bensolve"
    return named or (str(built) if built.is_file() else None)


NO_PROGRAM = "no built program: set BENSOLVE to one"
