"""The command `python3 -m bensolve convert`."""
import os
import sys
from typing import List, Optional, Tuple

from ..texts import TextFault, read_text, write_text
from .kinds import KINDS, convert, kind_of_name, kind_of_text
from .reading import NotConverted, Source

REFUSED = 2


class NotServed(ValueError):
    """Why nothing is converted, where no text is at fault: the words of the command, or a file."""


def usage() -> str:
    lines = [
        "usage: python3 -m bensolve convert [--from KIND] [--relax] FROM-FILE [TO-KIND] [OUT]",
        "",
        "FROM-FILE may be `-`, for standard input. Its kind is that of its ending, or else of its first word; --from names another.",
        "Without TO-KIND the ending of OUT tells it, and else it is sides, gens or vlp, by what is read. Without OUT the text goes to",
        "standard output. --relax leaves out that columns of a linear program are to be whole.",
        "",
    ]
    for name, kind in KINDS.items():
        ways = "both ways" if kind.write else "read"
        lines.append(f"{name:<11}{', '.join(kind.endings):<13}{ways:<11}{kind.about}")
    return "\n".join(lines) + "\n"


def _take_words(words: List[str]) -> Tuple[str, Optional[str], Optional[str], Optional[str], bool]:
    """The file, its kind, the kind that is wanted, where it goes, and whether integrality is left out."""
    source_kind, relax, rest = None, False, []
    at = 0
    while at < len(words):
        word = words[at]
        at += 1
        if word == "--relax":
            relax = True
        elif word == "--from":
            if at == len(words):
                raise NotServed("after --from a kind is wanted")
            source_kind = _kind(words[at])
            at += 1
        elif word.startswith("-") and word != "-":
            raise NotServed(f"`{word}` is no option: --from KIND or --relax")
        else:
            rest.append(word)
    if not 1 <= len(rest) <= 3:
        raise NotServed("a file is wanted, and then maybe a kind and the name of the text that is made")
    path, *others = rest
    if len(others) == 2:
        return path, source_kind, _kind(others[0]), others[1], relax
    if others and others[0] not in KINDS:
        target = kind_of_name(others[0])
        if target is None:
            raise NotServed(f"`{others[0]}` is no kind, and its ending tells none: {', '.join(KINDS)}")
        return path, source_kind, target, others[0], relax
    return path, source_kind, others[0] if others else None, None, relax


def _kind(word: str) -> str:
    if word not in KINDS:
        raise NotServed(f"`{word}` is no kind: {', '.join(KINDS)}")
    return word


def _read(path: str) -> str:
    if path == "-":
        return sys.stdin.buffer.read().decode("utf-8", "surrogateescape")
    try:
        return read_text(path)
    except OSError as why:
        raise NotServed(f"`{path}` cannot be read: {why.strerror}") from None


def _write(out: Optional[str], text: str) -> None:
    if out is None:
        sys.stdout.flush()
        sys.stdout.buffer.write(text.encode("utf-8", "surrogateescape"))
        return
    try:
        write_text(out, text)
    except OSError as why:
        raise NotServed(f"`{out}` cannot be written: {why.strerror}") from None


def _convert_file(path: str, source_kind: Optional[str], target: Optional[str], out: Optional[str], relax: bool) -> None:
    if out is not None and path != "-" and os.path.exists(out) and os.path.samefile(path, out):
        raise NotServed(f"`{out}` is the file that is read: give the text that is made another name")
    source = Source(_read(path), relax)
    kind = source_kind or kind_of_name(path) or kind_of_text(source.text)
    if kind is None:
        raise NotServed(f"neither the ending nor the first word tells the kind of `{path}`: --from KIND names it")
    text = convert(source, kind, target)
    for note in source.notes:
        print(f"bensolve: {path}: {note}", file=sys.stderr)
    _write(out, text)


def main(words: List[str]) -> int:
    """Converts a file. The status is 2 where the words, the file or what it says are refused."""
    if words[:1] in (["--help"], ["-h"]):
        print(usage(), end="")
        return 0
    path = ""
    try:
        path, *others = _take_words(words)
        _convert_file(path, *others)
        return 0
    except TextFault as fault:
        fault.file = path
        why: object = fault
    except NotConverted as reason:
        why = f"{path}: {reason}"
    except NotServed as reason:
        why = reason
    print(f"bensolve: {why}", file=sys.stderr)
    return REFUSED
