#!/usr/bin/env python3
"""How far the program reaches: of random problems by objectives, size and digits of the data, the share that it solves.

    reach.py PROGRAM DRIVER [--objectives N,..] [--digits N,..] [--sizes N,..] [--seeds N] [--limit SECONDS] [--minutes N]
             [--rows FILE]

PROGRAM is the path of a built bensolve, which is run as `PROGRAM solve FILE`, and DRIVER that of `images_qsopt` or `images_ppl`
beside this file, whose answer has no bound on its numbers. A problem is a covering (at least so much of each row, at least cost)
or a packing (at most so much, at most gain), of as many rows as columns, which is its size; its rows have four entries (sparse)
or no entry that is 0 (dense); the entries, bounds and costs have so many digits. A run of either ends at SECONDS, 20 unless said,
and no problem is begun after so many minutes. `--rows FILE` writes a line for each problem, with tabs between its parts.

The table has a line for each family of problems, by objectives, digits, kind and size: how many there are, how many the program
solved, gave up with status 5, and did not end in time; the bits of the longest number of the exact answers, from the least to
the greatest; and the least bits of an answer that was given up.
"""
import argparse
import collections
import math
import os
import sys
import tempfile
import time

import images
import linear
import users

# The densities: how many entries a row has, if not all.
DENSITIES = {"sparse": 4, "dense": None}
KINDS = {"covering": linear.cover, "packing": linear.pack}

Family = collections.namedtuple("Family", "objectives digits kind density size")
Found = collections.namedtuple("Found", "family status bits")


def families(given):
    for objectives in given.objectives:
        for digits in given.digits:
            for kind in KINDS:
                for density in DENSITIES:
                    for size in given.sizes:
                        yield Family(objectives, digits, kind, density, size)


def problem(family, seed):
    """The problem of a family with this seed."""
    entries = DENSITIES[family.density] or family.size
    name = "-".join(map(str, (*family, seed)))
    place = 201 + 2 * list(KINDS).index(family.kind) + list(DENSITIES).index(family.density)
    numbers = users.draws(place, family.objectives, (family.size, family.digits, seed))
    return linear.text_of(*KINDS[family.kind](name, numbers, family.objectives, family.size, entries, family.digits))


def bits_of(run):
    found = images.answer(run.output) if run.status == 0 else None
    return images.answer_bits(found) if found else None


def span(bits):
    return f"{min(bits)} to {max(bits)}" if bits else ""


def print_table(found):
    """A line for each family of which a problem was tried."""
    print("\n| objectives | digits | problems | size | tried | solved | status 5 | not in time | bits | least bits given up |")
    print("|" + "---|" * 10)
    for family in dict.fromkeys(one.family for one in found):
        group = [one for one in found if one.family == family]
        count = lambda test: sum(test(one) for one in group)
        left = [one.bits for one in group if one.status == 5 and one.bits is not None]
        cells = (family.objectives, family.digits, f"{family.density} {family.kind}", family.size, len(group),
                 count(lambda one: one.status == 0), count(lambda one: one.status == 5), count(lambda one: one.status is None),
                 span([one.bits for one in group if one.bits is not None]), min(left, default=""))
        print("| " + " | ".join(map(str, cells)) + " |")


def run_all(given):
    images.LIMIT, images.TRIES = given.limit, 1
    table = linear.open_rows(given)
    say = lambda parts: (print(*parts, sep="\t", flush=True), table and print(*parts, sep="\t", file=table, flush=True))
    say(("problem", "rows", "columns", "objectives", "bits", "status", "s", "driver's s"))
    end = time.monotonic() + 60 * given.minutes
    programs = [users.program_of(word) for word in (given.program, given.driver)]
    found, agree = [], True
    with tempfile.TemporaryDirectory() as folder:
        path = os.path.join(folder, "file.vlp")
        for family in families(given):
            for seed in range(given.seeds):
                if time.monotonic() > end:
                    break
                each = problem(family, seed)
                with open(path, "w") as out:
                    out.write(each.text)
                runs = images.best_of_turns([program.words + [path] for program in programs])
                agree &= users.agree(programs, runs)
                bits = next((bits_of(run) for run in reversed(runs) if run.status == 0), None)
                say((each.name, each.constraints, each.columns, each.objectives, "" if bits is None else bits,
                     images.status_of(runs[0]), *map(images.seconds, runs)))
                found.append(Found(family, runs[0].status, bits))
    print_table(found)
    if not agree:
        print("NOT THE SAME IMAGE")
    return 0 if agree else 1


def counts_of(text):
    return [int(word) for word in text.split(",")]


def main():
    parser = argparse.ArgumentParser(usage=__doc__)
    parser.add_argument("program")
    parser.add_argument("driver")
    parser.add_argument("--objectives", type=counts_of, default=[2, 3, 4, 5, 6])
    parser.add_argument("--digits", type=counts_of, default=[1, 2, 3, 6])
    parser.add_argument("--sizes", type=counts_of, default=[6, 12, 24, 48])
    parser.add_argument("--seeds", type=int, default=4)
    parser.add_argument("--limit", type=int, default=20)
    parser.add_argument("--minutes", type=float, default=math.inf)
    parser.add_argument("--rows", default="")
    parser.add_argument("--note", default="")
    return run_all(parser.parse_args())


if __name__ == "__main__":
    sys.exit(main())
