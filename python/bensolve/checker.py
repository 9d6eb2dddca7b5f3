"""A second checker of logs, from docs/FORMATS.md alone, apart from the program and the readers of this package.

    python3 -m bensolve check FILE LOG            the report of the answer that LOG proves for FILE
    python3 -m bensolve check --relog FILE LOG    the log of version 2 that says the same as LOG
    python3 -m bensolve check --reconv FILE LOG   the other representation of FILE, which LOG gives

FILE and LOG are two different words. What is printed, fault lines too, and the exit status are those
of `check`, `relog` and `reconv` of the program, as docs/FORMATS.md has them: 0 accepted, 2 other
words, 3 and 16 a fault of FILE, 5 a number that is not held, 6 want of memory, 7 a file that cannot
be read, 8 an output that fails, 9 a log that is refused, 10 a text that is too long.
"""
import io
import sys
from typing import BinaryIO, Callable, List, Optional, Tuple

from .checker_conversion import ConversionCheck
from .checker_generators import RULES
from .checker_log import ProblemCheck, Upgrade
from .checker_texts import CONVERSION_SHAPES, LOG_SHAPES, Fault, Representation, Wrong, entries_of, read_problem

MOST_FILE_BYTES = 16_777_216
MOST_LOG_BYTES = 402_653_184
PIECE_BYTES = 4_096

Opened = Callable[[], BinaryIO]


def read_all(opened: Opened, name: str, most: int) -> BinaryIO:
    """What a source holds, read in pieces up to the one that passes the limit."""
    data = io.BytesIO()
    with opened() as source:
        while data.tell() <= most:
            piece = source.read(PIECE_BYTES)
            if not piece:
                data.seek(0)
                return data
            data.write(piece)
    raise Fault(10, f"{name} {data.tell()}")


def answer_of(command: str, file: Opened, log: Opened) -> str:
    """What `check`, `relog` or `reconv` prints of two sources, where no fault comes."""
    lines, is_problem = read_all(file, "problem", MOST_FILE_BYTES), command != "reconv"
    check = ProblemCheck(read_problem(lines)) if is_problem else ConversionCheck(Representation(lines))
    upgrade = Upgrade() if command == "relog" else None
    check.keeps_covers = upgrade is not None
    failed: Optional[Fault] = None  # a fault of the text comes before those of the entries
    entries = entries_of(read_all(log, "log", MOST_LOG_BYTES), LOG_SHAPES if is_problem else CONVERSION_SHAPES)
    for number, (words, fields) in enumerate(entries, 1):
        if failed is None:
            try:
                check.entry, check.steps = number, 0
                check.take(words[0], fields)
                if upgrade is not None:
                    upgrade.put(check, words, fields)
            except Wrong as wrong:
                failed = Fault(9, f"entry {number} rule {RULES.index(str(wrong)) + 1} {wrong}")
            except Fault as left:
                failed = left
    if failed is not None:
        raise failed
    return check.report() if upgrade is None else upgrade.text()


def run(command: str, file: Opened, log: Opened) -> Tuple[int, str]:
    """The status of a command over two sources, and what it prints."""
    try:
        return 0, answer_of(command, file, log)
    except Fault as fault:
        return fault.args[0], "fault %d %s\n" % fault.args
    except MemoryError:
        return 6, ""
    except OSError:
        return 7, ""


def main(words: List[str]) -> int:
    """Runs the words after `check`; the answer is the exit status."""
    command = "check"
    if words and words[0] in ("--relog", "--reconv"):
        command, words = words[0][2:], words[1:]
    if len(words) != 2 or words[0] == words[1]:
        print(__doc__, end="", file=sys.stderr)
        return 2
    status, text = run(command, *(lambda path=path: open(path, "rb", buffering=0) for path in words))
    data = memoryview(text.encode("ascii"))
    try:
        with open(sys.stdout.fileno(), "wb", buffering=0, closefd=False) as out:
            while data:
                data = data[out.write(data):]
    except OSError:
        return 8
    return status
