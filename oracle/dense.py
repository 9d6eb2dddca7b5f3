#!/usr/bin/env python3
"""Small dense problems at the edge of the range of numbers, and how programs end on them.

    dense.py write FOLDER
    dense.py run FOLDER PROGRAM..

`write` writes three sets of covering and packing problems with random coefficients: `small`, 120 with two and three objectives, 8 to
60 rows and digits from 1 to 9; `cover`, 60 with three and four objectives and up to 30 rows of such digits; `pack`, 60 with four
objectives, 6 rows of 14 coefficients from 1 to 20, and supplies of 100. `run` tells for each PROGRAM, a path of a built bensolve
with its command after a colon, as `./bensolve:dual`, how many problems of each set it solves, the time of those that it does not, and
whether the programs that solve a problem tell the same image.
"""
import os
import random
import subprocess
import sys
import time

LIMIT = 60


def problem(draws, kind, rows, columns, objectives, most, sides):
    """A problem of the words of a vlp file: `cover` asks for at least the sides, `pack` for at most."""
    lines = [f"a {i} {j} {draws.randint(1, most)}" for i in range(1, rows + 1) for j in range(1, columns + 1)]
    lines += [f"o {k} {j} {draws.randint(1, most)}" for k in range(1, objectives + 1) for j in range(1, columns + 1)]
    lines += [f"i {i} {'l' if kind == 'cover' else 'u'} {draws.randint(*sides)}" for i in range(1, rows + 1)]
    lines += [f"j {j} l 0" for j in range(1, columns + 1)]
    head = f"p vlp {'min' if kind == 'cover' else 'max'} {rows} {columns} {rows * columns} {objectives} {objectives * columns}"
    return "\n".join([head, *lines, "e", ""])


def problems():
    """The names and texts of all problems."""
    for objectives in (2, 3):
        for rows in (8, 16, 24, 40, 60):
            for seed in range(6):
                for kind in ("cover", "pack"):
                    name = f"small-{kind}-{objectives}-{rows}-{seed}"
                    draws = random.Random(name)
                    yield name, problem(draws, kind, rows, 6 + 2 * (seed % 3), objectives, 9, (10, 99))
    for seed in range(60):
        draws = random.Random(f"cover-{seed}")
        yield f"cover-{seed}", problem(draws, "cover", (8, 12, 20, 30)[seed % 4], 8, 3 + seed % 2, 9, (10, 99))
        draws = random.Random(f"pack-{seed}")
        yield f"pack-{seed}", problem(draws, "pack", 6, 14, 4, 20, (100, 100))


def end(program, path):
    """The status, the seconds, and what is told of the image."""
    path_of, _, command = program.partition(":")
    began = time.time()
    try:
        run = subprocess.run([path_of, command or "solve", path], capture_output=True, timeout=LIMIT, check=False)
    except subprocess.TimeoutExpired:
        return None, LIMIT, b""
    return run.returncode, time.time() - began, run.stdout.split(b"witnesses")[0]


def run(folder, programs):
    names = sorted(name[:-4] for name in os.listdir(folder) if name.endswith(".vlp"))
    ends = {program: {name: end(program, f"{folder}/{name}.vlp") for name in names} for program in programs}
    for program in programs:
        for kind in ("small", "cover", "pack"):
            of_kind = [it for name, it in ends[program].items() if name.startswith(kind)]
            others = [seconds for status, seconds, _ in of_kind if status != 0]
            mean = f", the others {sum(others) / len(others):.2f} s each" if others else ""
            print(f"{program}: {len(of_kind) - len(others)} of {len(of_kind)} {kind} solved{mean}")
    differ = [name for name in names if len({ends[it][name][2] for it in programs if ends[it][name][0] == 0}) > 1]
    print("images that differ:", *(differ or ["none"]))


def main():
    words = sys.argv[1:]
    if len(words) == 2 and words[0] == "write":
        os.makedirs(words[1], exist_ok=True)
        for name, text in problems():
            with open(f"{words[1]}/{name}.vlp", "w", encoding="ascii") as out:
                out.write(text)
    elif len(words) > 2 and words[0] == "run":
        run(words[1], words[2:])
    else:
        sys.exit(__doc__)


if __name__ == "__main__":
    main()
