#!/usr/bin/env python3
"""Files of rows in the folder results, of what the commands of this folder print, and their means.

    rows.py keep NAME WHAT COMMAND..      runs the command here, passes on what it prints, and
                                          writes the tables of it to results/NAME.tsv, below a
                                          line with WHAT, the command, date, machine and commit
    rows.py mean NAME COLUMN [COLUMN2]    the geometric mean and the greatest number of a column,
                                          or of COLUMN over COLUMN2

A table is what stands in lines `| .. |`, its second line of dashes; where there are several, each
begins with its heads.
"""
import csv
import datetime
import pathlib
import shlex
import statistics
import subprocess
import sys

from linear import machine

HERE = pathlib.Path(__file__).resolve().parent
RESULTS = HERE / "results"


def commit():
    words = ["git", "describe", "--always", "--dirty"]
    ran = subprocess.run(words, cwd=HERE, capture_output=True, text=True)
    return ran.stdout.strip() or "not known"


def row_of(line):
    """The cells of a line of a table, with tabs; nothing of another line, and of one of dashes."""
    if not line.startswith("|") or not set(line.strip()) - set("|- :"):
        return None
    return "\t".join(cell.strip() for cell in line.strip().strip("|").split("|"))


def keep(name, what, command):
    """The status of the command, whose tables are written where it ends well."""
    date = datetime.datetime.now(datetime.timezone.utc).date()
    said = [what, f"cd bench && {shlex.join(command)}", date, machine(), f"commit {commit()}"]
    kept = ["# " + "; ".join(map(str, said))]
    with subprocess.Popen(command, cwd=HERE, stdout=subprocess.PIPE, text=True) as run:
        for line in run.stdout:
            print(line, end="", flush=True)
            kept += filter(None, [row_of(line)])
    if run.returncode == 0 and len(kept) > 1:
        (RESULTS / f"{name}.tsv").write_text("\n".join(kept) + "\n")
    return run.returncode or len(kept) == 1


def mean(name, column, below=None):
    with open(RESULTS / f"{name}.tsv") as lines:
        kept = [line for line in lines if not line.startswith("#")]
    rows = [row for row in csv.DictReader(kept, delimiter="\t") if row[column]]
    ratios = [float(row[column]) / (float(row[below]) if below else 1) for row in rows]
    print(f"{statistics.geometric_mean(ratios):.2f} {max(ratios):.2f}")


def main(words):
    if words[:1] == ["keep"] and len(words) > 3:
        return keep(words[1], words[2], words[3:])
    if words[:1] == ["mean"] and len(words) in (3, 4):
        return mean(*words[1:])
    print(__doc__, end="", file=sys.stderr)
    return 2


if __name__ == "__main__":
    sys.exit(main(sys.argv[1:]))
