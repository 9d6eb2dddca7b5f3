#!/usr/bin/env python3
"""Where conversions are given up at their start: random texts whose answers are short beside the numbers of an elimination.

    starts.py PROGRAM [BEFORE] [--dimensions N,..] [--digits WORD,..] [--seeds N] [--limit SECONDS] [--rows FILE]

PROGRAM is the path of a built bensolve, which is run as `PROGRAM vertices FILE` or `PROGRAM facets FILE`, and BEFORE that of
another, to be told beside it. What is written with status 0 is compared with what `../oracle/reps.py` has, which has no bound on
its numbers. The texts, in so many dimensions, with entries of so many digits or of two digits in tenths:

- points: one point more than dimensions, a simplex (`facets`);
- planes: one inequality more than dimensions around 0, a simplex (`vertices`);
- beyond, far: one point and three points more than that (`facets`);
- lines: one inequality fewer than dimensions, so that the set has a line (`vertices`).

A run ends at SECONDS, 10 unless said. `--rows FILE` writes a line for each text, with tabs between its parts: the status of a run,
the place that the fault line of a status 5 names (`elim` is an elimination, as at the start, `pair` double description), and the
bits of the longest number of the exact answer. The table that is printed has a line for each kind of text and digits: how many
there are, how many of them have answers with no number past 120 bits, how many each program solves, and where the others end.
"""
import argparse
import collections
import os
import random
import sys
import tempfile

import images
import linear

sys.path.insert(0, os.path.join(images.HERE, "..", "oracle"))

from fractions import Fraction

from reps import COMMAND, converted, gens, kernel, sides

# The digits: the greatest entry, and by what all entries are divided.
DIGITS = {"1": (9, 1), "2": (99, 1), "3": (999, 1), "4": (9999, 1), "tenths": (99, 10)}
HELD = 120

Text = collections.namedtuple("Text", "kind dimension digits seed")
Found = collections.namedtuple("Found", "text bits runs")


def vector(draw, size, digits):
    most, under = DIGITS[digits]
    return tuple(Fraction(draw.randint(-most, most), under) for _ in range(size))


def points(draw, count, size, digits):
    return gens([vector(draw, size, digits) for _ in range(count)])


def normals(draw, size, digits):
    """One normal more than dimensions, of which a combination with positive weights alone is 0."""
    while True:
        drawn = [vector(draw, size, digits) for _ in range(size + 1)]
        weights = kernel(list(zip(*drawn)), size + 1)
        if len(weights) == 1 and all(weights[0]):
            return [v if weight > 0 else tuple(-x for x in v) for v, weight in zip(drawn, weights[0])]


def below(draw, digits):
    """A bound below 0."""
    most, under = DIGITS[digits]
    return (Fraction(-draw.randint(1, most), under),)


def planes(draw, size, digits):
    return sides([v + below(draw, digits) for v in normals(draw, size, digits)])


def lined(draw, size, digits):
    return sides([vector(draw, size + 1, digits) for _ in range(size - 1)])


KINDS = {
    "points": lambda draw, size, digits: points(draw, size + 1, size, digits),
    "planes": planes,
    "beyond": lambda draw, size, digits: points(draw, size + 2, size, digits),
    "far": lambda draw, size, digits: points(draw, size + 4, size, digits),
    "lines": lined,
}


def rep_of(text):
    draw = random.Random("-".join(map(str, text)))
    return KINDS[text.kind](draw, text.dimension, text.digits)


def bits_of(rep):
    numbers = [part for _, row in rep.rows for x in row for part in (x.numerator, x.denominator)]
    return max((abs(n).bit_length() for n in numbers), default=0)


def try_all(programs, text, folder):
    """A text by each program, and whether all answers are the exact one."""
    rep = rep_of(text)
    exact = converted(rep)[0]
    path = os.path.join(folder, "file")
    with open(path, "w") as out:
        out.write(rep.text())
    runs = [images.run([program, COMMAND[rep.kind], path]) for program in programs]
    same = all(run.output == exact.text() for run in runs if run.status == 0)
    return Found(text, bits_of(exact), runs), COMMAND[rep.kind], same


def status_and_place(run):
    """The status, and the word of the place where it is 5."""
    status, _, place = images.status_of(run).partition(", ")
    return status or "not in time", place


def places(runs):
    ended = collections.Counter(" ".join(status_and_place(run)).strip() for run in runs if run.status != 0)
    return ", ".join(f"{status}: {count}" for status, count in sorted(ended.items()))


def print_table(found, programs):
    names = ("", " before")[:len(programs)]
    heads = ["text", "digits", "texts", f"answers of at most {HELD} bits"]
    heads += [head + name for name in names for head in ("solved", "not solved")]
    print("\n| " + " | ".join(heads) + " |\n|" + "---|" * len(heads))
    for key in dict.fromkeys((one.text.kind, one.text.digits) for one in found):
        group = [one for one in found if (one.text.kind, one.text.digits) == key]
        cells = [*key, len(group), sum(one.bits <= HELD for one in group)]
        for runs in zip(*(one.runs for one in group)):
            cells += [sum(run.status == 0 for run in runs), places(runs)]
        print("| " + " | ".join(map(str, cells)) + " |")


def texts(given):
    for kind in KINDS:
        for dimension in given.dimensions:
            for digits in given.digits:
                for seed in range(given.seeds):
                    yield Text(kind, dimension, digits, seed)


def run_all(given):
    images.LIMIT = given.limit
    programs = [os.path.abspath(program) for program in (given.program, given.before) if program]
    table = linear.open_rows(given)
    say = lambda parts: (print(*parts, sep="\t", flush=True), table and print(*parts, sep="\t", file=table, flush=True))
    heads = ("status", "place", "before: status", "place")
    say(("name", "word", "dimension", "digits", "bits", *heads[:2 * len(programs)]))
    found, agree = [], True
    with tempfile.TemporaryDirectory() as folder:
        for text in texts(given):
            one, word, same = try_all(programs, text, folder)
            agree &= same
            name = f"{text.kind}-{text.seed}"
            say((name, word, text.dimension, text.digits, one.bits, *(part for run in one.runs for part in status_and_place(run))))
            found.append(one)
    print_table(found, programs)
    if not agree:
        print("NOT THE SAME ANSWER")
    return 0 if agree else 1


def main():
    parser = argparse.ArgumentParser(usage=__doc__)
    parser.add_argument("program")
    parser.add_argument("before", nargs="?")
    parser.add_argument("--dimensions", type=lambda text: list(map(int, text.split(","))), default=[4, 5, 6, 8, 10, 12])
    parser.add_argument("--digits", type=lambda text: text.split(","), default=list(DIGITS))
    parser.add_argument("--seeds", type=int, default=4)
    parser.add_argument("--limit", type=int, default=10)
    parser.add_argument("--rows", default="")
    parser.add_argument("--note", default="")
    return run_all(parser.parse_args())


if __name__ == "__main__":
    sys.exit(main())
