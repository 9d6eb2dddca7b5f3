#!/usr/bin/env python3
"""Each measured number in README and docs/*.md (a time, a ratio, memory) says where it comes from.

    numbers_dated.py [--all] [DOCUMENT..]

DOCUMENT is a path from the top, all if none is named; --all lists what is found. A number is
measured where a unit of time or memory, `%` or `times` stands after it, where it has decimals, or
where it is a cell of a table with such a unit in its head; code is left out, and what is DEFINED
below. Its section, from one heading to the next, gives a date (as 2026-12-01) or names a file of
`bench/results` whose first lines give one; or its paragraph, list or table has the command that
makes it again.
"""
import pathlib
import re
import sys

TOP = pathlib.Path(__file__).resolve().parents[1]
RESULTS = TOP / "bench" / "results"

# What was not measured: versions, bounds and targets by definition, arithmetic and examples.
DEFINED = (
    r"(?:GMP|PPL|QSopt_ex|cddlib|lrslib|Normaliz|Python) \d[\d.]*\w*",
    r"\ba second\b",  # one more
    r"one for each 3 GB of free memory",  # what the launcher proves side by side: CHANGING
    r"of the 240 that the gate may take",  # CHANGING
    r"384 MiB",  # the limit of a log: USING
    r"(?:took|takes?|ended|ran) (?:more than |longer than |at )?(?:60|10) s\b",  # the end of a run
    r"four times in a row",  # a bound of the code: DECISIONS
    r"one processor of 2\.5 GHz",  # the machine: USING
    r"1\.3 times 10\^36",  # 2^120: OVERFLOWS
    r"no float as 0\.1|0\.125 is 1/8, and 0\.333333",  # numbers of files: USING
)

WORD = "an?|one|two|three|four|five|six|seven|eight|nine|ten|eleven|twelve|half"
COUNT = rf"(?:\d[\d,]*(?:\.\d+)?|{WORD})"
RANGE = rf"{COUNT}(?:\\?\*)?(?:(?: to | or | and |-){COUNT}(?:\\?\*)?)*"
UNIT = r"(?:%|(?:ns|ms|s|KB|MB|MiB|GB|GiB|seconds?|minutes?|hours?)\b|times(?! \d))"
DECIMAL = r"(?<![\w.,/-])\d+\.\d+(?![\w/]|\.\d)"
MEASURED = re.compile(rf"(?<![\w.,-]){RANGE} {UNIT}|{DECIMAL}", re.I)
BARE = re.compile(r"\d[\d,]*")  # those with decimals are found anyway
HEAD = re.compile(r"\b(?:s|ms|ns|MB|MiB|[Ss]econds?|[Mm]inutes?|[Mm]ean|[Ww]orst|ratio)\b")
DATE = re.compile(r"20\d\d-\d\d-\d\d")
ROWS = re.compile(r"\bresults/(\w+\.tsv)")
RUN = r"make run|rt ci|rt check|rt must-fail|oracle/\w+\.|bench/\w+\.(?:py|sh)"
COMMAND = re.compile(rf"\b(?:{RUN}|(?:users|images|linear)\.py)|\.ci/run")


def documents():
    paths = sorted((TOP / "docs").glob("*.md"))
    return ["README.md"] + [str(path.relative_to(TOP)) for path in paths]


def head_of(path):
    """The first lines of a file of rows, which say what they are."""
    lines = path.read_text().splitlines() if path.is_file() else []
    return "".join(line for line in lines if line.startswith("#"))


def is_dated(text):
    """Whether there is a date, or the name of a file of rows that has one."""
    heads = [head_of(RESULTS / name) for name in ROWS.findall(text)]
    return any(DATE.search(part) for part in [text, *heads])


def prose(line):
    """A line without code, targets of links and what is defined."""
    line = re.sub(r"`[^`]*`", "``", line)
    line = re.sub(r"\]\([^)]*\)", "]", line)
    for pattern in DEFINED:
        line = re.sub(pattern, "", line)
    return DATE.sub("", line)


def sections(lines):
    """Numbered lines, listed from heading to heading; those of fenced blocks are marked."""
    found, is_code = [[]], False
    for number, line in enumerate(lines, 1):
        fence = line.lstrip().startswith("```")
        if line.startswith("#") and not is_code:
            found.append([])
        found[-1].append((number, line, is_code or fence))
        is_code ^= fence
    return found


def blocks(section):
    """The paragraphs, lists, tables and fenced blocks of a section."""
    found = [[]]
    for number, line, is_code in section:
        if not line.strip() and not is_code:
            found.append([])
        else:
            found[-1].append((number, line, is_code))
    return found


def found_in(line, head):
    """The measured numbers of a line; the head of its block names the units of a table."""
    found = [match.group() for match in MEASURED.finditer(line)]
    if not line.startswith("|"):
        return found
    cells = [(cell.strip(), unit) for cell, unit in zip(line.split("|"), head.split("|"))]
    return found + [cell for cell, unit in cells if BARE.fullmatch(cell) and HEAD.search(unit)]


def text_of(lines):
    return "\n".join(line for _, line, _ in lines)


def numbers(name):
    """The measured numbers of a document by their lines, and whether each says its source."""
    for section in sections((TOP / name).read_text().splitlines()):
        has_date = is_dated(text_of(section))
        for block in blocks(section):
            has_source = has_date or bool(COMMAND.search(text_of(block)))
            for number, line, is_code in block:
                for found in [] if is_code else found_in(prose(line), prose(block[0][1])):
                    yield number, found, has_source


def main():
    words = [word for word in sys.argv[1:] if word != "--all"]
    count, missing = 0, 0
    for name in words or documents():
        for line, number, has_source in numbers(name):
            count += 1
            missing += not has_source
            if not has_source:
                print(f"FAILED {name}:{line}: {number}: no date, rows or command")
            elif "--all" in sys.argv:
                print(f"{name}:{line}: {number}")
    print(f"numbers_dated: {count} numbers, {missing} without a date, rows or a command")
    sys.exit(1 if missing or not count else 0)


if __name__ == "__main__":
    main()
