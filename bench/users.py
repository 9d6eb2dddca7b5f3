#!/usr/bin/env python3
"""Files as users have them, and programs timed beside each other on them.

    users.py write FOLDER [KIND..]
    users.py run PROGRAM.. [--kinds KIND,..] [--sizes N]
    users.py run PROGRAM.. --images

`write` writes the files of all kinds, or of these: transport, assignment, grid, plan, knapsack, diet, blend, box. Of each kind
there are four sizes with two objectives and four with three. `run` times the programs on each file in turn, and compares what
they say of the image. A PROGRAM is the path of a built bensolve, which is run as `PROGRAM solve FILE`; of a driver beside this
file, `images_ppl` or `images_qsopt`; or a command in quotes, to whose words that of the file is added. With `--sizes N` the
first N sizes of each kind alone are run; with `--images` the problems of `images.py` in place of all these.

Times are of the processor and of the whole run, the least of some tries. A run that takes more than LIMIT seconds of it is
ended. The peak of memory is by GNU time. The last lines tell for each program how many files it answered, the share of status
5, the mean of the ratios to the first program, and for each kind how its time grows with the columns, as an exponent.
"""
import argparse
import collections
import math
import os
import shlex
import statistics
import sys
import tempfile
from decimal import Decimal

import images
from images import HERE, LIMIT, Draws, answer, answer_bits, best_of_turns, file, seconds, status_of

Program = collections.namedtuple("Program", "name words is_driver")
# Below this time the start of a program counts as much as its work, so it says nothing of a growth.
LEAST = 0.01
# GNU time, which writes the peak of memory in KB into the file that is named next.
TIME = ["time", "-q", "-f", "%M", "-o"]


def draws(kind, objectives, size):
    """The numbers of a file: by the place of its kind in KINDS, its objectives and its size."""
    number = 0
    for part in (kind, objectives, *size):
        number = number * 1009 + part
    return Draws(number % 2**31)


def table(numbers, rows, columns, low, high):
    return [[numbers.among(low, high) for _ in range(columns)] for _ in range(rows)]


def transport(name, numbers, objectives, sources, sinks):
    """Supplies at most and demands at least, with a tenth more in supply; costs of each way from 1 to 50."""
    demand = [numbers.among(10, 40) for _ in range(sinks)]
    supply = [-(-11 * sum(demand) // (10 * sources))] * sources
    rows = [[int(way // sinks == source) for way in range(sources * sinks)] for source in range(sources)]
    rows += [[int(way % sinks == sink) for way in range(sources * sinks)] for sink in range(sinks)]
    costs = table(numbers, objectives, sources * sinks, 1, 50)
    bounds = [f"u {amount}" for amount in supply] + [f"l {amount}" for amount in demand]
    return file(name, "min", rows, costs, bounds, ["l 0"] * (sources * sinks))


def assignment(name, numbers, objectives, people):
    """As many tasks as people, each done by one of them; costs from 1 to 20."""
    columns = people * people
    rows = [[int(pair // people == one) for pair in range(columns)] for one in range(people)]
    rows += [[int(pair % people == task) for pair in range(columns)] for task in range(people)]
    costs = table(numbers, objectives, columns, 1, 20)
    return file(name, "min", rows, costs, ["s 1"] * len(rows), ["l 0"] * columns)


def grid(name, numbers, objectives, width, height):
    """Six units from the first node of a grid to the last, to the right, downwards and across both, through 2 to 6 each."""
    steps = ((0, 1), (1, 0), (1, 1))
    arcs = [((i, j), (i + down, j + right)) for i in range(height) for j in range(width) for down, right in steps
            if i + down < height and j + right < width]
    nodes = [(i, j) for i in range(height) for j in range(width)]
    rows = [[int(arc[0] == node) - int(arc[1] == node) for arc in arcs] for node in nodes]
    sent = {nodes[0]: 6, nodes[-1]: -6}
    costs = table(numbers, objectives, len(arcs), 1, 20)
    bounds = [f"s {sent.get(node, 0)}" for node in nodes]
    return file(name, "min", rows, costs, bounds, [f"d 0 {numbers.among(2, 6)}" for _ in arcs])


def plan(name, numbers, objectives, times, products):
    """What is made, made in overtime and kept of each product at each time; costs, emissions, and what is kept."""
    demand = table(numbers, times, products, 5, 30)
    hours = [numbers.among(1, 4) for _ in range(products)]
    needed = [sum(h * amount for h, amount in zip(hours, each)) for each in demand]
    regular = 4 * sum(needed) // (5 * times)
    columns = 3 * times * products
    made, over, kept = (lambda t, p, part=part: 3 * (t * products + p) + part for part in range(3))
    rows, bounds = [], []
    for t in range(times):
        for p in range(products):
            row = [0] * columns
            row[made(t, p)] = row[over(t, p)] = 1
            row[kept(t, p)] = -1
            if t:
                row[kept(t - 1, p)] = 1
            rows.append(row)
            bounds.append(f"s {demand[t][p]}")
    for part, most in ((made, regular), (over, max(needed) - regular)):
        for t in range(times):
            row = [0] * columns
            for p in range(products):
                row[part(t, p)] = hours[p]
            rows.append(row)
            bounds.append(f"u {most}")
    dues = [(numbers.among(10, 30), numbers.among(5, 15), numbers.among(1, 3)) for _ in range(products)]
    fumes = [(numbers.among(1, 9), numbers.among(1, 9)) for _ in range(products)]
    cells = [cell for _ in range(times) for due, fume in zip(dues, fumes) for cell in
             ((due[0], fume[0], 0), (due[0] + due[1], fume[1], 0), (due[2], 0, 1))]
    return file(name, "min", rows, [[cell[k] for cell in cells] for k in range(objectives)], bounds, ["l 0"] * columns)


def knapsack(name, numbers, objectives, rows, columns):
    """Parts of goods, of which the weights of each row sum to half of all at most; gains from 1 to 50, to be maximised."""
    weights = table(numbers, rows, columns, 1, 50)
    gains = table(numbers, objectives, columns, 1, 50)
    return file(name, "max", weights, gains, [f"u {sum(row) // 2}" for row in weights], ["d 0 1"] * columns)


def diet(name, numbers, objectives, rows, columns):
    """At least so much of each of some nutrients, which seven foods in ten contain; contents and costs from 0.1 to 9.9."""
    tenths = lambda: Decimal(numbers.among(1, 99)) / 10
    content = [[tenths() if numbers.below(10) < 7 else 0 for _ in range(columns)] for _ in range(rows)]
    for row in content:
        row[numbers.below(columns)] = tenths()
    costs = [[tenths() for _ in range(columns)] for _ in range(objectives)]
    return file(name, "min", content, costs, [f"l {numbers.among(10, 99)}" for _ in range(rows)], ["l 0"] * columns)


def blend(name, numbers, objectives, materials, products):
    """Amounts of materials in products, within supplies and limits of two qualities that one plan at least keeps."""
    columns = materials * products
    qualities = table(numbers, 2, materials, 1, 30)
    known = table(numbers, materials, products, 0, 9)
    rows, bounds = [], []
    for p in range(products):
        of_product = [int(cell % products == p) for cell in range(columns)]
        made = sum(row[p] for row in known)
        rows.append(of_product)
        bounds.append(f"s {made}")
        for quality in qualities:
            limit = -(-sum(q * row[p] for q, row in zip(quality, known)) // max(made, 1))
            rows.append([(quality[cell // products] - limit) * part for cell, part in enumerate(of_product)])
            bounds.append("u 0")
    for m in range(materials):
        rows.append([int(cell // products == m) for cell in range(columns)])
        bounds.append(f"u {sum(known[m]) + numbers.among(0, 9)}")
    prices = table(numbers, objectives, materials, 1, 40)
    costs = [[row[cell // products] + numbers.among(0, 5) for cell in range(columns)] for row in prices]
    return file(name, "min", rows, costs, bounds, ["l 0"] * columns)


def box(name, numbers, objectives, columns):
    """No rows; sides from 1 to 9, two objectives from -9 to 9, or three from -1 to 1, which many columns have in common."""
    most = 9 if objectives == 2 else 1
    costs = table(numbers, objectives, columns, -most, most)
    return file(name, "min", [], costs, [], [f"d 0 {numbers.among(1, 9)}" for _ in range(columns)])


# Of each kind the sizes with two objectives, and those with three.
KINDS = (
    (transport, ((6, 8), (10, 12), (15, 20), (20, 30)), ((4, 5), (6, 8), (8, 10), (10, 12))),
    (assignment, ((8,), (12,), (16,), (20,)), ((6,), (8,), (12,), (16,))),
    (grid, ((5, 4), (8, 6), (12, 10), (16, 12)), ((4, 4), (5, 4), (8, 6), (12, 10))),
    (plan, ((6, 3), (6, 6), (12, 6), (12, 12)), ((4, 3), (6, 3), (6, 5), (12, 6))),
    (knapsack, ((1, 30), (2, 50), (3, 100), (5, 200)), ((1, 20), (1, 30), (2, 50), (3, 100))),
    (diet, ((8, 20), (15, 40), (25, 60), (40, 100)), ((5, 12), (8, 20), (15, 40), (25, 60))),
    (blend, ((5, 4), (8, 6), (12, 10), (20, 15)), ((4, 3), (5, 4), (8, 6), (12, 8))),
    (box, ((30,), (100,), (300,), (1000,)), ((30,), (100,), (300,), (1000,))),
)


def files(kinds, most):
    """Pairs of a kind with its number of objectives, and a file; of each such pair the first sizes."""
    for place, (make, *lists) in enumerate(KINDS, 1):
        if kinds and make.__name__ not in kinds:
            continue
        for objectives, sizes in enumerate(lists, 2):
            for size in sizes[:most]:
                name = f"{make.__name__}-{objectives}-{'x'.join(map(str, size))}"
                yield f"{make.__name__}-{objectives}", make(name, draws(place, objectives, size), objectives, *size)


def files_of_images():
    """The same of the problems of images.py."""
    for each in images.files():
        yield each.name.split("-")[0], each


def program_of(word):
    words = shlex.split(word)
    is_driver = os.path.basename(words[0]).startswith("images_")
    here = os.path.join(HERE, words[0])
    path = here if is_driver and not os.path.dirname(words[0]) else os.path.abspath(words[0])
    if not os.access(path, os.X_OK):
        sys.exit(f"{words[0]} is not built")
    further = words[1:] if len(words) > 1 or is_driver else ["solve"]
    return Program(word, [path] + further, is_driver)


def image_part(output):
    """The report before its witnesses, which may be others that are right."""
    return output.split("\nwitnesses\n")[0]


def agree(programs, runs):
    """Whether all answers are the same: reports byte by byte before their witnesses, those of drivers as sets of lines."""
    answered = [(program, each) for program, each in zip(programs, runs) if each.status == 0]
    reports = {image_part(each.output) for program, each in answered if not program.is_driver}
    parts = [answer(each.output) for _, each in answered]
    return len(reports) < 2 and all(part == parts[0] for part in parts)


def peak_in(path):
    """The greatest memory of a run, in MB, as GNU time has written it."""
    with open(path) as lines:
        return int(lines.read().split()[-1]) / 1000


def print_line(each, programs, runs, peaks, same):
    found = next((answer(r.output) for r in runs if r.status == 0), {})
    sizes = " / ".join(str(len(found.get(name, ()))) for name in ("points", "directions", "facets"))
    print(f"| {each.name} | {each.constraints} x {each.columns}, {each.objectives} | {sizes} | {answer_bits(found)} |", end="")
    for one, peak in zip(runs, peaks):
        print(f" {status_of(one)} | {seconds(one)} | {peak:.1f} |", end="")
    for one in runs[1:]:
        both = one.status == 0 and runs[0].status == 0
        print(f" {f'{one.time / runs[0].time:.2f}' if both else ''} |", end="")
    print("" if same else " DIFFERENT", flush=True)


def exponent(pairs):
    """The slope of the line through the logarithms of columns and times, by least squares."""
    long = [(math.log(columns), math.log(time)) for columns, time in pairs if time >= LEAST]
    return f"{statistics.linear_regression(*zip(*long)).slope:.1f}" if len({x for x, _ in long}) > 1 else ""


def print_sums(programs, lines):
    """What all lines say of each program: LINES are pairs of a kind with its objectives, and the file with its runs."""
    names = [program.name for program in programs]
    print("\n| program | status 0 | status 5 | share of status 5 | over the limit | times the first, geometric mean |")
    print("|" + "---|" * 6)
    for k, name in enumerate(names):
        statuses = [runs[k].status for _, _, runs in lines]
        ratios = [runs[k].time / runs[0].time for _, _, runs in lines if runs[k].status == runs[0].status == 0]
        share = statuses.count(5) / len(statuses)
        mean = f"{statistics.geometric_mean(ratios):.2f}" if ratios else ""
        print(f"| {name} | {statuses.count(0)} | {statuses.count(5)} | {share:.0%} | {statuses.count(None)} | {mean} |")
    print("\n| growth in columns, as an exponent | " + " | ".join(names) + " |")
    print("|" + "---|" * (1 + len(names)))
    for kind in dict.fromkeys(kind for kind, _, _ in lines):
        of_kind = [(each.columns, runs) for this, each, runs in lines if this == kind]
        times = [[(columns, runs[k].time) for columns, runs in of_kind if runs[k].status == 0] for k in range(len(names))]
        slopes = [exponent(pairs) for pairs in times]
        print(f"| {kind} | " + " | ".join(slopes) + " |")


def run_all(programs, pairs):
    head = "".join(f" {program.name}: status | s | MB |" for program in programs)
    head += "".join(f" {program.name} beside the first |" for program in programs[1:])
    print(f"| file | constraints x columns, objectives | points / directions / facets | bits |{head}")
    print("|" + "---|" * (3 + 4 * len(programs)))
    lines, all_agree = [], True
    with tempfile.TemporaryDirectory() as folder:
        for kind, each in pairs:
            path = os.path.join(folder, each.name + ".vlp")
            with open(path, "w") as out:
                out.write(each.text)
            sizes = [os.path.join(folder, f"peak-{k}") for k in range(len(programs))]
            runs = best_of_turns([TIME + [size] + program.words + [path] for size, program in zip(sizes, programs)])
            peaks = [peak_in(size) for size in sizes]
            same = agree(programs, runs)
            all_agree &= same
            print_line(each, programs, runs, peaks, same)
            lines.append((kind, each, runs))
    print_sums(programs, lines)
    return 0 if all_agree else 1


def main():
    parser = argparse.ArgumentParser(usage=__doc__)
    parser.add_argument("task", choices=("write", "run"))
    parser.add_argument("words", nargs="+")
    parser.add_argument("--kinds", default="")
    parser.add_argument("--sizes", type=int, choices=range(1, 5), default=4)
    parser.add_argument("--images", action="store_true")
    given = parser.parse_args()
    known = [make.__name__ for make, *_ in KINDS]
    kinds = given.words[1:] if given.task == "write" else [kind for kind in given.kinds.split(",") if kind]
    if any(kind not in known for kind in kinds):
        sys.exit("the kinds are " + ", ".join(known))
    if given.task == "run":
        pairs = files_of_images() if given.images else files(kinds, given.sizes)
        return run_all([program_of(word) for word in given.words], pairs)
    os.makedirs(given.words[0], exist_ok=True)
    for _, each in files(kinds, given.sizes):
        with open(os.path.join(given.words[0], each.name + ".vlp"), "w") as out:
            out.write(each.text)
    return 0


if __name__ == "__main__":
    sys.exit(main())
