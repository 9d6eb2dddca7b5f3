#!/usr/bin/env python3
"""Times `solve FILE LOG` beside Benson's outer approximation put together from libraries, and compares the answers.

`images.py PROGRAM` takes the path of the built program, and runs it and the two drivers beside this file on each problem,
in turn. With `-` in place of PROGRAM the drivers alone run, and `images.py FOLDER/` writes the problems there.
Times are of the processor and of the whole run. A run that takes more than LIMIT seconds of it is ended.
"""
import collections
import os
import re
import resource
import shutil
import signal
import subprocess
import sys
import tempfile

LIMIT = 60
TRIES = 3
ENOUGH = 2.0
# What is left of a run that was ended for its time: by itself, and as GNU time tells it.
ENDED = [-signal.SIGXCPU, -signal.SIGKILL, 128 + signal.SIGXCPU, 128 + signal.SIGKILL]

File = collections.namedtuple("File", "name constraints columns objectives text")
Run = collections.namedtuple("Run", "status time output")
HERE = os.path.dirname(os.path.abspath(__file__))


class Draws:
    """Numbers of the linear congruence t * 1103515245 + 12345 modulo 2^31, without their low 16 bits."""

    def __init__(self, state):
        self.state = state

    def below(self, bound):
        self.state = (self.state * 1103515245 + 12345) % 2**31
        return self.state // 65536 % bound

    def among(self, low, high):
        return low + self.below(high - low + 1)


def file(name, direction, rows, objectives, row_bounds, column_bounds):
    """The text of a problem of these whole numbers; a bound is its type and what follows."""
    a = [f"a {i} {j} {v}" for i, row in enumerate(rows, 1) for j, v in enumerate(row, 1) if v]
    o = [f"o {i} {j} {v}" for i, row in enumerate(objectives, 1) for j, v in enumerate(row, 1) if v]
    columns = len(objectives[0])
    lines = [f"p vlp {direction} {len(rows)} {columns} {len(a)} {len(objectives)} {len(o)}"] + a + o
    lines += [f"i {i} {bound}" for i, bound in enumerate(row_bounds, 1)]
    lines += [f"j {j} {bound}" for j, bound in enumerate(column_bounds, 1)]
    return File(name, len(rows), columns, len(objectives), "\n".join(lines + ["e", ""]))


def cube(number):
    """Three objectives with entries from -9 to 9 over the unit cube of 8 + number mod 17 columns."""
    columns = 8 + number % 17
    draws = Draws(number)
    objectives = [[draws.among(-9, 9) for _ in range(columns)] for _ in range(3)]
    return file(f"cube-{number}", "min", [], objectives, [], ["d 0 1"] * columns)


def box(count, columns, number):
    """Objectives with entries from -9 to 9 over a box whose sides are from 1 to 9 long."""
    draws = Draws(1000 * count + 10 * columns + number)
    objectives = [[draws.among(-9, 9) for _ in range(columns)] for _ in range(count)]
    sides = [f"d 0 {draws.among(1, 9)}" for _ in range(columns)]
    return file(f"box-{count}-{columns}-{number}", "min", [], objectives, [], sides)


def covering(count, columns, number):
    """Two thirds as many elements as sets, each in about a quarter of them and in one at least; costs from 1 to 9."""
    draws = Draws(1000 * count + 10 * columns + number)
    rows = [[1 if draws.below(4) == 0 else 0 for _ in range(columns)] for _ in range(2 * columns // 3)]
    for row in rows:
        row[draws.below(columns)] = 1
    objectives = [[draws.among(1, 9) for _ in range(columns)] for _ in range(count)]
    name = f"covering-{count}-{columns}-{number}"
    return file(name, "min", rows, objectives, ["l 1"] * len(rows), ["l 0"] * columns)


def packing(count, columns, number):
    """A third as many supplies of 100 as goods, which need 1 to 9 of each; gains from 0 to 9, to be maximised."""
    draws = Draws(1000 * count + 10 * columns + number)
    rows = [[draws.among(1, 9) for _ in range(columns)] for _ in range(columns // 3)]
    objectives = [[draws.among(0, 9) for _ in range(columns)] for _ in range(count)]
    name = f"packing-{count}-{columns}-{number}"
    return file(name, "max", rows, objectives, ["u 100"] * len(rows), ["l 0"] * columns)


# Of each kind the numbers of objectives and columns.
SIZES = (
    (box, ((2, 24), (3, 12), (3, 24), (4, 8), (4, 16), (5, 8), (5, 12), (6, 8), (6, 10), (8, 6))),
    (covering, ((3, 12), (3, 20), (3, 30), (4, 12), (4, 20), (4, 30), (5, 12), (5, 20), (5, 24))),
    (packing, ((3, 12), (3, 24), (4, 12), (4, 24), (5, 9), (5, 15))),
)


def files():
    """Two problems of each size, and of cubes those with the numbers 1 to 17."""
    yield from (cube(number) for number in range(1, 18))
    for make, sizes in SIZES:
        yield from (make(count, columns, number) for count, columns in sizes for number in (1, 2))


def run(words, limit=None):
    """One run, with the seconds of processor time that it and what it started took; None for a status if it was ended."""
    limit = limit or LIMIT
    with tempfile.TemporaryFile() as out:
        set_limit = lambda: resource.setrlimit(resource.RLIMIT_CPU, (limit, limit + 1))
        child = subprocess.Popen(words, stdout=out, stderr=subprocess.DEVNULL, preexec_fn=set_limit)
        _, status, used = os.wait4(child.pid, 0)
        child.returncode = os.waitstatus_to_exitcode(status)
        out.seek(0)
        text = out.read().decode()
    return Run(None if child.returncode in ENDED else child.returncode, used.ru_utime + used.ru_stime, text)


def best_of_turns(commands):
    """The runs of the commands with the least times of some tries, in turn."""
    runs = [run(words) for words in commands]
    for _ in range(TRIES - 1):
        if sum(each.time for each in runs) > ENOUGH:
            break
        runs = [min(each, run(words), key=lambda r: r.time) for each, words in zip(runs, commands)]
    return runs


def answer(output):
    """The sections of an answer, each a set: those of the report that the drivers print too."""
    sections = {}
    for line in output.splitlines():
        word = line.split(" ")[0]
        if word in ("points", "directions", "facets"):
            sections[word] = set()
            last = word
        elif word == "answer":
            sections[word] = line
        elif word in ("dual", "witnesses", "programs"):
            break
        elif word in ("0", "1", "f"):
            sections[last].add(line)
    return sections


def bits(numbers):
    """The size of the longest numerator or denominator."""
    return max((int(part).bit_length() for part in re.findall(r"\d+", numbers)), default=0)


def answer_bits(sections):
    return bits(" ".join(line for name in ("points", "directions", "facets") for line in sections.get(name, ())))


# What stands on the lines of a log that bear numbers: a list of them, of naturals, a sparse vector, a number, a natural.
PARTS = {"duality": "LLIL", "cut": "LNSS", "start": "ILL", "point": "KSS", "ray": "KSS"}


def numbers_of(line):
    """The numbers of a line of a log, without its counts, its places and the naturals that name its entries."""
    words = line.split()
    at = 1
    for part in PARTS.get(words[0], ""):
        if part in "NK":
            count, values = 0, words[at:at + 1]
        else:
            count = int(words[at]) * (2 if part == "S" else 1)
            values = words[at + (2 if part == "S" else 1):at + 1 + count:2 if part == "S" else 1]
        at += 1 + count
        if part not in "IK":
            yield from values


def log_bits(path):
    with open(path) as log:
        return max(bits(" ".join(numbers_of(line))) for line in log)


def status_of(each):
    """The status, and after 5 the kind of place whose step was given up."""
    if each.status is None:
        return ""
    fault = re.match(r"fault 5 (\w+)", each.output)
    return f"5, {fault.group(1)}" if each.status == 5 and fault else str(each.status)


def seconds(each):
    return f"over {LIMIT}" if each.status is None else f"{each.time:.3f}"


def pivots(program, path, log, folder):
    """How many pivots a run of the program takes, as valgrind counts the calls; none where valgrind is not there."""
    counts = os.path.join(folder, "counts")
    words = ["valgrind", "--tool=callgrind", f"--callgrind-out-file={counts}", program, "solve", path, log]
    if not shutil.which(words[0]) or run(words, 100 * LIMIT).status is None:
        return ""
    names, total, called = {}, 0, None
    with open(counts) as lines:
        for line in lines:
            name = re.match(r"c?fn=(\(\d+\))(?: (.*))?", line)
            if name:
                called = names.setdefault(name.group(1), name.group(2))
            elif line.startswith("calls=") and called and called.startswith("lin_rows::tableau::Tableau::pivot::"):
                total += int(line[len("calls="):].split()[0])
    return str(total)


def row(each, program, folder):
    """Prints the line of a problem; returns its status and whether all answers are the same."""
    path, log = os.path.join(folder, each.name + ".vlp"), os.path.join(folder, each.name + ".log")
    with open(path, "w") as out:
        out.write(each.text)
    drivers = [[os.path.join(HERE, "images_ppl"), path], [os.path.join(HERE, "images_qsopt"), path]]
    runs = best_of_turns(([[program, "solve", path, log]] if program else []) + drivers)
    mine, theirs = (runs[0] if program else None), runs[-2:]
    answers = [answer(r.output) for r in theirs if r.status == 0] + ([answer(mine.output)] if mine and mine.status == 0 else [])
    same = all(other == answers[0] for other in answers)
    found = answers[0] if answers else {}
    sizes = " / ".join(str(len(found.get(name, ()))) for name in ("points", "directions", "facets"))
    asked = re.search(r"programs (\d+)", theirs[1].output)
    print(f"| {each.name} | {each.constraints} x {each.columns}, {each.objectives} | {sizes} | {answer_bits(found)} |", end="")
    if mine:
        print(f" {log_bits(log) if mine.status == 0 else ''} | {status_of(mine)} | {seconds(mine)} |", end="")
    else:
        print(" | | |", end="")
    print(f" {seconds(theirs[0])} | {seconds(theirs[1])} | {asked.group(1) if asked else ''} |", end="")
    print(f" {pivots(program, path, log, folder) if mine and mine.status == 0 else ''} |", end="")
    ratios = [f"{mine.time / r.time:.2f}" if mine and mine.status == 0 and r.status == 0 else "" for r in theirs]
    print(f" {ratios[0]} | {ratios[1]} |", end="")
    print("" if same else " DIFFERENT", flush=True)
    return (mine.status if mine else 0), same


def main():
    if len(sys.argv) != 2:
        sys.exit(__doc__)
    word = sys.argv[1]
    if word.endswith("/"):
        for each in files():
            with open(os.path.join(word, each.name + ".vlp"), "w") as out:
                out.write(each.text)
        return 0
    program = None if word == "-" else os.path.abspath(word)
    if program and not os.access(program, os.X_OK):
        sys.exit(f"{program} is not built")
    print("| file | constraints x columns, objectives | points / directions / facets | bits | bits in the log | status | ours, s "
          "| PPL, s | QSopt_ex and PPL, s | programs | pivots | beside PPL | beside QSopt_ex and PPL |")
    print("|" + "---|" * 13)
    statuses, same = [], True
    with tempfile.TemporaryDirectory() as folder:
        for each in files():
            status, agrees = row(each, program, folder)
            statuses.append(status)
            same &= agrees
    if program:
        print(f"\n{statuses.count(0)} of {len(statuses)} ended with status 0, {statuses.count(5)} with status 5, "
              f"{statuses.count(None)} took more than {LIMIT} s.")
    return 0 if same else 1


if __name__ == "__main__":
    sys.exit(main())
