#!/usr/bin/env python3
"""Which files of definitions a claim rests on, by the `use` lines that lead from it.

    reading_list.py                 the sums of the claims in CLAIMS, as a table
    reading_list.py NAME            the files of one of them, or of a file `CRATE/specs/FILE`, each after those that it names
    reading_list.py --into README   puts the table between its two marks in a document
    reading_list.py --check README  ends with 1 where another table stands there

A file of definitions is a `.antt` file in the folder `specs` of a crate; those of the kit's `std` are not followed. The types of
code that they name stand in the `.rt` files that are listed last: of these only the types are to be read, and no function.
"""
import os
import re
import sys

TOP = os.path.join(os.path.dirname(os.path.abspath(__file__)), "..")
CRATES = os.path.join(TOP, "crates")
# A name, what is claimed, and the files or the function where it is said.
CLAIMS = (
    ("right", "what a right answer is", ("log_rules/specs/Right",)),
    ("report", "the same, what a file says and how a report tells it",
     ("log_rules/specs/Report", "log_rules/specs/Right", "vlp_reader/specs/FirstFault")),
    ("overflow", "what a licensed overflow is", ("overflows/specs/Licence",)),
    ("run", "the whole contract of `run`, with texts, overflows and the outside", ("bensolve_main/src/top.rt:run",)),
)
MARKS = ("<!-- reading list -->", "<!-- end of the reading list -->")


def text_of(path):
    with open(os.path.join(CRATES, path)) as lines:
        return lines.read()


def file_of(module):
    """The file of a module's name, as `log_rules.specs.Right`, or of the module that has what is named; none of `std`."""
    crate, *parts = module.split(".")
    if not os.path.isdir(os.path.join(CRATES, crate)) or not parts:
        return None
    if parts[:2] == ["specs", "declared"]:
        parts, folder, end = parts[2:], "src", ".rt"
    else:
        parts, folder, end = parts[1:], parts[0], ".antt"
    first = parts[0] if parts else ""
    while parts:
        path = os.path.join(crate, folder, *parts) + end
        if os.path.isfile(os.path.join(CRATES, path)):
            return path
        parts = parts[:-1]
    return os.path.join(crate, folder, "lib.rt") if folder == "src" else passed_on(crate, first)


def passed_on(crate, name):
    """The file of a lower crate that this one passes on under its own name (`pub use` in its `specs/Lib`); none where it does not."""
    path = os.path.join(crate, "specs", "Lib.antt")
    if not os.path.isfile(os.path.join(CRATES, path)):
        return None
    found = re.search(rf"^pub use Rattle\.([\w.]+\.{re.escape(name)})$", text_of(path), re.M) if name else None
    return file_of(found.group(1)) if found else None


def named_in(text):
    """The modules that the `use` lines of a text name, each with the names that it takes from it."""
    return re.findall(r"use Rattle\.([\w.]+?)(?:\.\{([^}]*)\}| as |;|\s|$)", text)


def used_by(path):
    """The files that a file of definitions names, or the contract of a function, as `FILE:FUNCTION`."""
    path, _, function = path.partition(":")
    text = text_of(path)
    if not function:
        return [file_of(module) for module, _ in named_in(text)]
    contract = re.search(rf"pub fn {function}\b.*?\n\{{", text, re.S).group(0)
    words = set(re.findall(r"\w+", contract))
    return [file_of(module) for module, names in named_in(text) if words & set(re.findall(r"\w+", names))]


def reading_list(roots):
    """The files in an order in which each comes after those that it names: definitions, and the files of types."""
    order, seen = [], set()

    def visit(path):
        seen.add(path)
        for each in used_by(path) if ".rt" not in path or ":" in path else []:
            if each and each not in seen:
                visit(each)
        order.append(path)

    for root in roots:
        path = root if ".rt" in root else root + ".antt"
        if path not in seen:
            visit(path)
    files = [path for path in order if ":" not in path]
    return [path for path in files if path.endswith(".antt")], [path for path in files if path.endswith(".rt")]


def line_count(files):
    return sum(text_of(path).count("\n") for path in files)


def table():
    rows = ["| To know | Begin with | Files of definitions | Lines |", "|---|---|---|---|"]
    for _, what, roots in CLAIMS:
        definitions, _ = reading_list(roots)
        path = roots[0].split(":")[0] if ".rt" in roots[0] else roots[0] + ".antt"
        rows.append(f"| {what} | [{path}](crates/{path}) | {len(definitions)} | {line_count(definitions):,} |")
    return "\n".join(rows)


def text_with_table(text):
    """A document with the table between its two marks."""
    front, rest = text.split(MARKS[0], 1)
    _, back = rest.split(MARKS[1], 1)
    return f"{front}{MARKS[0]}\n{table()}\n{MARKS[1]}{back}"


def compare_or_put(word, path):
    with open(path) as lines:
        text = lines.read()
    wanted = text_with_table(text)
    if word == "--into":
        with open(path, "w") as out:
            out.write(wanted)
    elif text != wanted:
        sys.exit(f"{path} has another reading list than the sources: docs/reading_list.py --into {path} makes it anew")


def main():
    words = sys.argv[1:]
    if not words:
        print(table())
    elif words[0] in ("--into", "--check") and len(words) == 2:
        compare_or_put(*words)
    elif len(words) == 1:
        roots = next((roots for name, _, roots in CLAIMS if name == words[0]), (words[0],))
        definitions, types = reading_list(roots)
        for path in definitions + types:
            print(f"{line_count([path]):6} crates/{path}")
        lines = line_count(definitions)
        print(f"{len(definitions)} files of definitions with {lines:,} lines, and {len(types)} files with types")
    else:
        sys.exit(__doc__)


if __name__ == "__main__":
    main()
