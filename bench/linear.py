#!/usr/bin/env python3
"""Linear programs as users have them, with few entries in a row, and programs timed beside each other on them.

    linear.py write FOLDER [KIND..] [OPTION..]
    linear.py run PROGRAM.. [--kinds KIND,..] [OPTION..] [--limit SECONDS] [--minutes N] [--once] [--rows FILE]
                  [--note TEXT]

Kinds with an answer: cover, pack, flow, mixture, staff, cutting, leontief, random, mixed, textbook (those of textbook.txt). Kinds
without one: contrary (two rows against each other), budget (all rows against one), crossed (bounds of columns against a row),
circle (differences), endless (an objective that falls without end). Options say which files of a kind: `--least ROWS` and `--most
ROWS` none with fewer or more rows, `--objectives N,..` these numbers of objectives, `--seeds N` the seeds below N, or from one
number to below another as `3:8`, `--ends E,..` which ends the files of the first nine kinds have: `as` they are drawn, `void` (one
more row, which says the contrary of the sum of three) or `endless` (one more column, along which all objectives improve without
end).

A PROGRAM is what users.py takes; the first is held beside the others. Bits are those of the longest number of the exact answer, by
the last program that found one. Files of few rows come first. A run ends at SECONDS, 60 unless said; with `--once` it is not tried
again; no file is begun after so many minutes. `--rows FILE` writes a line for each file, with tabs between its parts, below one
with the date, the machine and TEXT. The last tables tell by bits how many files the first program answered, why it gave up the
others, and which files miss an aim: in bits, in times beside the last program, and in memory.
"""
import argparse
import collections
import datetime
import math
import os
import platform
import shlex
import sys
import tempfile
import time
from fractions import Fraction

import images
import users
from images import Draws, answer, answer_bits, best_of_turns, seconds, status_of
from images import File

# A problem of rows by their entries that are not 0: dictionaries from the number of a column, from 0, to a number.
Parts = collections.namedtuple("Parts", "name direction columns rows objectives row_bounds column_bounds")


def text_of(*parts):
    """The file of a problem."""
    parts = Parts(*parts)
    a = [f"a {i} {j + 1} {row[j]}" for i, row in enumerate(parts.rows, 1) for j in sorted(row) if row[j]]
    o = [f"o {i} {j + 1} {row[j]}" for i, row in enumerate(parts.objectives, 1) for j in sorted(row) if row[j]]
    counts = f"{len(parts.rows)} {parts.columns} {len(a)} {len(parts.objectives)} {len(o)}"
    lines = [f"p vlp {parts.direction} {counts}"] + a + o
    lines += [f"i {i} {bound}" for i, bound in enumerate(parts.row_bounds, 1)]
    lines += [f"j {j} {bound}" for j, bound in enumerate(parts.column_bounds, 1)]
    return File(parts.name, len(parts.rows), parts.columns, len(parts.objectives), "\n".join(lines + ["e", ""]))


def void_of(parts, numbers):
    """The same with one more row, which lets the sum of three others, each as it asks for, not reach what they ask for."""
    total, least = {}, Fraction(-1)
    for i in some(numbers, 3, len(parts.rows)):
        words = parts.row_bounds[i].split()
        sign = -1 if words[0] == "u" else 1
        least += sign * Fraction(words[1])
        for j, x in parts.rows[i].items():
            total[j] = total.get(j, 0) + sign * Fraction(x)
    scale = math.lcm(least.denominator, *(x.denominator for x in total.values()))
    row = {j: int(x * scale) for j, x in total.items()}
    return parts._replace(rows=parts.rows + [row], row_bounds=parts.row_bounds + [f"u {least * scale}"])


def endless_of(parts, numbers):
    """The same with one more column, which all objectives gain by and no row ends."""
    signs = {"l": 1, "u": -1}
    rows = [{**row, parts.columns: signs.get(bound[0], 0) * numbers.below(3)} for row, bound in zip(parts.rows, parts.row_bounds)]
    gain = -1 if parts.direction == "min" else 1
    objectives = [{**row, parts.columns: gain} for row in parts.objectives]
    return parts._replace(columns=parts.columns + 1, rows=rows, objectives=objectives, column_bounds=parts.column_bounds + ["l 0"])


ENDS = {"as": None, "void": void_of, "endless": endless_of}


def some(numbers, count, of):
    """So many different numbers below a bound."""
    found = []
    while len(found) < min(count, of):
        k = numbers.below(of)
        if k not in found:
            found.append(k)
    return found


def costs_of(numbers, count, columns, low=1, high=9):
    return [{j: numbers.among(low, high) for j in range(columns)} for _ in range(count)]


def sparse_rows(numbers, rows, columns, entries, most):
    """Rows with so many entries from 1 to a bound; each column has one at least."""
    table = [{j: numbers.among(1, most) for j in some(numbers, entries, columns)} for _ in range(rows)]
    met = {j for row in table for j in row}
    for j in range(columns):
        if j not in met:
            table[numbers.below(rows)][j] = numbers.among(1, most)
    return table


def cover(name, numbers, objectives, size, entries, digits):
    """At least so much of each row."""
    most = 10 ** digits - 1
    rows = sparse_rows(numbers, size, size, entries, most)
    bounds = [f"l {numbers.among(1, most)}" for _ in rows]
    return Parts(name, "min", size, rows, costs_of(numbers, objectives, size, 1, most), bounds, ["l 0"] * size)


def pack(name, numbers, objectives, size, entries, digits):
    """At most so much of each row; columns from 0 to 10, gains to be maximised."""
    most = 10 ** digits - 1
    rows = sparse_rows(numbers, size, size, entries, most)
    bounds = [f"u {numbers.among(most, 10 * most)}" for _ in rows]
    return Parts(name, "max", size, rows, costs_of(numbers, objectives, size, 1, most), bounds, ["d 0 10"] * size)


def flow(name, numbers, objectives, side, goods):
    """Goods sent over the arcs of a grid, each from a node to another, with a limit of an arc for all of them together."""
    nodes = [(i, j) for i in range(side) for j in range(side)]
    arcs = [(n, (n[0] + d, n[1] + r)) for n in nodes for d, r in ((0, 1), (1, 0), (0, -1), (-1, 0))
            if 0 <= n[0] + d < side and 0 <= n[1] + r < side]
    columns = len(arcs) * goods
    rows, bounds = [], []
    for g in range(goods):
        start, end = some(numbers, 2, len(nodes))
        amount = numbers.among(1, 5)
        for k, node in enumerate(nodes):
            rows.append({g * len(arcs) + a: int(arc[0] == node) - int(arc[1] == node) for a, arc in enumerate(arcs) if node in arc})
            bounds.append(f"s {amount if k == start else -amount if k == end else 0}")
    for a in range(len(arcs)):
        rows.append({g * len(arcs) + a: 1 for g in range(goods)})
        bounds.append(f"u {numbers.among(3, 9) * goods}")
    return Parts(name, "min", columns, rows, costs_of(numbers, objectives, columns), bounds, ["l 0"] * columns)


def mixture(name, numbers, objectives, materials, products):
    """Materials in products within limits of shares, in hundredths, which one plan at least keeps."""
    known = [[numbers.among(1, 9) for _ in range(products)] for _ in range(materials)]
    cell = lambda m, p: m * products + p
    rows, bounds = [], []
    for p in range(products):
        made = sum(row[p] for row in known)
        rows.append({cell(m, p): 1 for m in range(materials)})
        bounds.append(f"l {made}")
        for m in some(numbers, 3, materials):
            share = -(-100 * known[m][p] // made)
            rows.append({cell(k, p): (100 - share if k == m else -share) for k in range(materials)})
            bounds.append("u 0")
    for m in range(materials):
        rows.append({cell(m, p): 1 for p in range(products)})
        bounds.append(f"u {sum(known[m]) + numbers.among(1, 9)}")
    columns = materials * products
    return Parts(name, "min", columns, rows, costs_of(numbers, objectives, columns), bounds, ["l 0"] * columns)


def staff(name, numbers, objectives, periods, length):
    """People who begin at each period of a circle and stay for some, with breaks; some full time and some half."""
    columns = 2 * periods
    needs = [numbers.among(5, 30) for _ in range(periods)]
    rows = []
    for t in range(periods):
        row = {}
        for begin in range(periods):
            since = (t - begin) % periods
            if since < length and since != length // 2:
                row[begin] = 1
            if since < length // 2:
                row[periods + begin] = 1
        rows.append(row)
    bounds = [f"l {need}" for need in needs]
    total = {j: 1 for j in range(periods)}
    total.update({periods + j: -2 for j in range(periods)})
    rows.append(total)
    bounds.append("l 0")
    return Parts(name, "min", columns, rows, costs_of(numbers, objectives, columns, 5, 20), bounds, ["l 0"] * columns)


def cutting(name, numbers, objectives, widths, patterns):
    """Rolls of 100 cut by patterns into some widths, so many of each at least; rolls and waste."""
    sizes = [numbers.among(11, 60) for _ in range(widths)]
    rows = [{} for _ in sizes]
    waste = {}
    for p in range(patterns):
        left = 100
        for k in [p % widths] + some(numbers, 4, widths):
            count = min(left // sizes[k], numbers.among(1, 3))
            if count:
                rows[k][p] = rows[k].get(p, 0) + count
                left -= count * sizes[k]
        waste[p] = left
    bounds = [f"l {numbers.among(10, 99)}" for _ in sizes]
    costs = [{p: 1 for p in range(patterns)}, waste, {p: numbers.among(1, 5) for p in range(patterns)}][:objectives]
    return Parts(name, "min", patterns, rows, costs, bounds, ["l 0"] * patterns)


def leontief(name, numbers, objectives, sectors, entries):
    """What sectors make, less what they use of each other in hundredths, meets the demand; makings cost and pollute."""
    rows, bounds = [], []
    for i in range(sectors):
        row = {j: f"-0.{numbers.among(1, 19):02}" for j in some(numbers, entries, sectors) if j != i}
        row[i] = 1
        rows.append(row)
        bounds.append(f"l {numbers.among(1, 50)}")
    return Parts(name, "min", sectors, rows, costs_of(numbers, objectives, sectors), bounds, ["l 0"] * sectors)


def random(name, numbers, objectives, size, entries, digits):
    """Rows of all kinds through a point, so that there is an answer; columns between bounds."""
    most = 10 ** digits - 1
    point = [numbers.among(0, 9) for _ in range(size)]
    rows, bounds = [], []
    for _ in range(size):
        row = {j: numbers.among(-most, most) for j in some(numbers, entries, size)}
        value = sum(row[j] * point[j] for j in row)
        rows.append(row)
        bounds.append((f"l {value - numbers.among(0, most)}", f"u {value + numbers.among(0, most)}", f"s {value}",
                       f"d {value - numbers.among(0, most)} {value + numbers.among(1, most)}")[numbers.below(4)])
    return Parts(name, "min", size, rows, costs_of(numbers, objectives, size, -most, most), bounds, ["d 0 9"] * size)


def mixed(name, numbers, objectives, size, entries):
    """Equations, free columns, ranges, rows that repeat others and rows of very different size."""
    point = [numbers.among(-9, 9) for _ in range(size)]
    rows, bounds = [], []
    for i in range(size):
        scale = 10 ** numbers.below(6)
        row = {j: numbers.among(-3, 3) * scale for j in some(numbers, entries, size)}
        if i and numbers.below(5) == 0:
            row = {j: 2 * x for j, x in rows[numbers.below(i)].items()}
        value = sum(row[j] * point[j] for j in row)
        rows.append(row)
        bounds.append((f"s {value}", f"l {value}", f"d {value - scale} {value + scale}")[numbers.below(3)])
    columns = [("f", f"l {x - 5}", f"d {x - 9} {x + 9}")[numbers.below(3)] for x in point]
    # each cost is a sum of rows from below, so that it is bounded
    costs = []
    for _ in range(objectives):
        cost = {}
        for row, bound in zip(rows, bounds):
            if bound[0] == "l" or numbers.below(3) == 0 and bound[0] == "s":
                for j, x in row.items():
                    cost[j] = cost.get(j, 0) + x
        costs.append(cost if any(cost.values()) else {0: 1, **{}})
    if any(column == "f" for column in columns) and any(cost == {0: 1} for cost in costs):
        columns[0] = f"l {point[0]}"
    return Parts(name, "min", size, rows, costs, bounds, columns)


def contrary(name, numbers, objectives, size):
    """A covering with one more row, which says the contrary of another."""
    rows = sparse_rows(numbers, size, size, 4, 9)
    bounds = [f"l {numbers.among(1, 9)}" for _ in rows]
    k = numbers.below(size)
    rows.append(dict(rows[k]))
    bounds.append(f"u {int(bounds[k][2:]) - 1}")
    return Parts(name, "min", size, rows, costs_of(numbers, objectives, size), bounds, ["l 0"] * size)


def budget(name, numbers, objectives, size):
    """A covering whose rows together need more than there is."""
    rows = sparse_rows(numbers, size, size, 4, 9)
    bounds = ["l 9"] * size + ["u 1"]
    rows.append({j: 1 for j in range(size)})
    return Parts(name, "min", size, rows, costs_of(numbers, objectives, size), bounds, ["l 0"] * size)


def crossed(name, numbers, objectives, size):
    """A row that the bounds of its columns do not let be met."""
    rows = sparse_rows(numbers, size, size, 4, 9)
    bounds = ["l 1"] * size
    k = numbers.below(size)
    bounds[k] = f"l {2 * sum(rows[k].values()) + 1}"
    return Parts(name, "min", size, rows, costs_of(numbers, objectives, size), bounds, ["d 0 2"] * size)


def circle(name, numbers, objectives, size):
    """Differences of neighbours round a circle that sum to more than 0."""
    rows = [{i: -1, (i + 1) % size: 1} for i in range(size)]
    bounds = [f"l {numbers.among(-3, 3)}" for _ in rows]
    bounds[0] = f"l {1 - sum(int(b[2:]) for b in bounds[1:])}"
    return Parts(name, "min", size, rows, costs_of(numbers, objectives, size), bounds, ["f"] * size)


def endless(name, numbers, objectives, size):
    """A covering with an objective that a column lets fall without end."""
    rows = sparse_rows(numbers, size, size, 4, 9)
    bounds = [f"l {numbers.among(1, 9)}" for _ in rows]
    costs = costs_of(numbers, objectives, size)
    for cost in costs:
        cost[numbers.below(size)] = -1
    return Parts(name, "min", size, rows, costs, bounds, ["l 0"] * size)


TEXTBOOK = os.path.join(os.path.dirname(os.path.abspath(__file__)), "textbook.txt")


def whole(numbers):
    """Fractions as whole numbers, and by what they are multiplied."""
    scale = math.lcm(*(number.denominator for number in numbers))
    return [int(number * scale) for number in numbers], scale


def textbook_file(block):
    """The problem of a block of lines of textbook.txt, with the value that a book tells, if it does."""
    lines = [line.split() for line in block.splitlines() if not line.startswith("#")]
    name, direction = lines[0]
    costs, scale = whole([Fraction(word) for word in lines[1][1:]])
    rows, bounds, columns, told = [], [], ["l 0"] * len(costs), None
    for words in lines[2:]:
        if words[0] == "x":
            columns[int(words[1]) - 1] = " ".join(words[2:])
        elif words[0] == "=":
            told = Fraction(words[1]) * scale
        else:
            kind = len(costs)
            numbers, _ = whole([Fraction(word) for k, word in enumerate(words) if k != kind])
            rows.append({j: x for j, x in enumerate(numbers[:kind]) if x})
            bounds.append(" ".join([words[kind], *map(str, numbers[kind:])]))
    return text_of(f"textbook-{name}", direction, len(costs), rows, [dict(enumerate(costs))], bounds, columns), told


def textbook_files():
    with open(TEXTBOOK) as text:
        return [textbook_file(block) for block in text.read().split("\n\n") if block.split("\n")[0][:1] not in ("", "#")]


SIZES = (20, 40, 60, 100, 150, 200, 300, 600, 1000)


def sizes_of(*more, sizes=SIZES):
    return tuple((size, *each) for size in sizes for each in more)


# Of each kind its sizes.
KINDS = (
    (cover, sizes_of((3, 1), (4, 1), (8, 1), (3, 2), (4, 2), (3, 3))),
    (pack, sizes_of((3, 1), (4, 1), (8, 1), (3, 2), (4, 2))),
    (flow, ((3, 2), (4, 2), (4, 3), (5, 4), (6, 4), (7, 5), (9, 8))),
    (mixture, ((4, 3), (6, 5), (8, 6), (12, 8), (16, 10), (40, 30))),
    (staff, ((12, 6), (24, 8), (48, 9), (96, 9), (168, 10), (399, 10), (999, 10))),
    (cutting, ((5, 20), (10, 40), (20, 80), (40, 200), (60, 400), (200, 800))),
    (leontief, ((10, 4), (20, 4), (40, 4), (60, 5), (100, 5), (200, 5), (400, 5), (1000, 5))),
    (random, sizes_of((4, 1), (4, 2), (3, 3))),
    (mixed, sizes_of((3,), (5,))),
    (contrary, sizes_of((), sizes=(20, 100, 300, 1000))),
    (budget, sizes_of((), sizes=(20, 100, 300, 1000))),
    (crossed, sizes_of((), sizes=(20, 100, 300, 1000))),
    (circle, sizes_of((), sizes=(20, 100, 300, 1000))),
    (endless, sizes_of((), sizes=(20, 60, 100, 300))),
)


# Kinds whose files are without an answer by themselves.
ENDLESS = (contrary, budget, crossed, circle, endless)


def files(given):
    """Pairs of a kind with its number of objectives, and a file."""
    if 1 in given.objectives and "as" in given.ends and (not given.kinds or "textbook" in given.kinds):
        yield from (("textbook", each) for each, _ in textbook_files() if given.least <= each.constraints <= given.most)
    for end in given.ends:
        for place, (make, sizes) in enumerate(KINDS, 101):
            if given.kinds and make.__name__ not in given.kinds or end != "as" and make in ENDLESS:
                continue
            kind = make.__name__ if end == "as" else f"{make.__name__}-{end}"
            for count in given.objectives:
                yield from ((f"{kind}-{count}", each) for each in files_of(kind, place, make, sizes, count, ENDS[end], given))


def files_of(kind, place, make, sizes, count, change, given):
    for size in sizes:
        for seed in given.seeds:
            numbers = users.draws(place, count, (*size, seed))
            parts = make(f"{kind}-{count}-{'x'.join(map(str, size))}-{seed}", numbers, count, *size)
            if given.least <= len(parts.rows) <= given.most:
                yield text_of(*(change(parts, numbers) if change else parts))


# By which of these limits the bits of answers are counted together.
BANDS = (20, 40, 60, 80, 100, 120)

# What is held for a file: how a program with this many rows at most is beside the last program in time, and its peak of memory.
TIMES = ((400, 5), (1000, 10))
MOST_MB = 200

Line = collections.namedtuple("Line", "kind file bits runs peaks")


def band_of(bits):
    """The column of the share: answers with these bits, or none that a program found, or an answer without numbers."""
    if bits is None:
        return "none known"
    return next((f"up to {limit}" for limit in BANDS if bits <= limit), "more")


def print_share(lines):
    """How many files of each kind, and of each band of bits, the first program answered."""
    columns = [f"up to {limit}" for limit in BANDS] + ["more", "none known"]
    print("\n| kind | " + " | ".join(columns) + " |")
    print("|" + "---|" * (len(columns) + 1))
    kinds = list(dict.fromkeys(line.kind for line in lines))
    groups = [(kind, [line for line in lines if line.kind == kind]) for kind in kinds]
    groups += [(f"all of {n}", [line for line in lines if line.file.objectives == n]) for n in (1, 2, 3)]
    for kind, group in groups + [("all", lines)]:
        cells = []
        for column in columns:
            found = [line.runs[0].status for line in group if band_of(line.bits) == column]
            cells.append(f"{sum(status == 0 for status in found)} of {len(found)}" if found else "")
        if group:
            print(f"| {kind} | " + " | ".join(cells) + " |")


def print_misses(lines):
    """Why files were not answered, and which miss an aim."""
    left = collections.Counter((band_of(line.bits), status_of(line.runs[0]) or "ended for its time") for line in lines
                               if line.runs[0].status != 0)
    print("\nnot answered, by bits: " + "; ".join(f"{band}: {count} {why}" for (band, why), count in sorted(left.items())))
    for title, misses in (("not answered below 80 bits, one objective", lambda line: line.file.objectives == 1 and line.bits < 80),
                          ("not answered, 80 to 120 bits, one objective", lambda line: line.file.objectives == 1 and 80 <= line.bits <= 120),
                          ("not answered to 60 bits, more objectives", lambda line: line.file.objectives > 1 and line.bits <= 60)):
        names = [f"{line.file.name} ({line.bits}; {status_of(line.runs[0]) or 'time'})" for line in lines
                 if line.runs[0].status != 0 and line.bits is not None and misses(line)]
        print(f"{title}: {', '.join(names) or 'none'}")
    slow, large = [], []
    for line in lines:
        times = next((times for rows, times in TIMES if line.file.constraints <= rows), None)
        first, last = line.runs[0], line.runs[-1]
        if times and len(line.runs) > 1 and first.status == last.status == 0 and first.time > times * max(last.time, users.LEAST):
            slow.append(f"{line.file.name} ({first.time / last.time:.1f})")
        if line.peaks[0] > MOST_MB:
            large.append(f"{line.file.name} ({line.peaks[0]:.0f} MB)")
    print(f"times beyond the aim: {', '.join(slow) or 'none'}\nmemory beyond the aim: {', '.join(large) or 'none'}")


def print_told(values):
    """Which values that books tell the first program has otherwise: VALUES are its points by the names of files."""
    wrong = [each.name for each, told in textbook_files() if told is not None and each.name in values and values[each.name] != {f"1 {told}"}]
    if values:
        print(f"\nvalues that books tell: {'all as told' if not wrong else 'NOT ' + ', '.join(wrong)}")
    return not wrong


def machine():
    """The processor, how many there are, and what waits for them."""
    model = ""
    if os.path.exists("/proc/cpuinfo"):
        with open("/proc/cpuinfo") as lines:
            model = next((line.split(":", 1)[1].strip() for line in lines if line.startswith("model name")), "")
    return f"{model or platform.processor()}, {os.cpu_count()} processors, load {os.getloadavg()[0]:.0f}"


def open_rows(given):
    if not given.rows:
        return None
    table = open(given.rows, "w")
    words = " ".join(shlex.quote(os.path.basename(word)) for word in sys.argv if word not in ("--note", given.note))
    date = datetime.datetime.now(datetime.timezone.utc).date()
    print(f"# {date}; {machine()}; {words}{'; ' + given.note if given.note else ''}", file=table)
    return table


def run_all(programs, pairs, given):
    images.LIMIT = given.limit
    images.TRIES = 1 if given.once else images.TRIES
    head = [part for program in programs for part in (f"{os.path.basename(program.name)}: status", "s", "MB")]
    names = ["file", "rows", "columns", "objectives", "bits", *head, "same"]
    table = open_rows(given)
    lines, values, all_agree = [], {}, True
    say = lambda parts: (print("\t".join(parts), flush=True), table and print("\t".join(parts), file=table, flush=True))
    say(names)
    end = time.monotonic() + 60 * given.minutes
    with tempfile.TemporaryDirectory() as folder:
        for kind, each in sorted(pairs, key=lambda pair: pair[1].constraints):
            if time.monotonic() > end:
                break
            path = os.path.join(folder, "file.vlp")
            with open(path, "w") as out:
                out.write(each.text)
            sizes = [os.path.join(folder, f"peak-{k}") for k in range(len(programs))]
            runs = best_of_turns([users.TIME + [size] + program.words + [path] for size, program in zip(sizes, programs)])
            same = users.agree(programs, runs)
            all_agree &= same
            found = next((answer(one.output) for one in reversed(runs) if one.status == 0), None)
            bits = answer_bits(found) if found else None
            peaks = [users.peak_in(size) for size in sizes]
            parts = [part for one, peak in zip(runs, peaks) for part in (status_of(one), seconds(one), f"{peak:.1f}")]
            say([each.name, str(each.constraints), str(each.columns), str(each.objectives), "" if bits is None else str(bits), *parts,
                 "" if same else "DIFFERENT"])
            lines.append(Line(kind, each, bits, runs, peaks))
            if kind == "textbook" and runs[0].status == 0:
                values[each.name] = answer(runs[0].output).get("points")
    print_share(lines)
    print_misses(lines)
    return 0 if print_told(values) and all_agree else 1


def seeds_of(text):
    low, colon, high = text.rpartition(":")
    return range(int(low or 0), int(high))


def main():
    parser = argparse.ArgumentParser(usage=__doc__)
    parser.add_argument("task", choices=("write", "run"))
    parser.add_argument("words", nargs="+")
    parser.add_argument("--kinds", default="")
    parser.add_argument("--least", type=int, default=0)
    parser.add_argument("--most", type=int, default=1000)
    parser.add_argument("--objectives", default="1,2,3")
    parser.add_argument("--seeds", type=seeds_of, default=range(1))
    parser.add_argument("--ends", default="as")
    parser.add_argument("--limit", type=int, default=images.LIMIT)
    parser.add_argument("--minutes", type=float, default=math.inf)
    parser.add_argument("--once", action="store_true")
    parser.add_argument("--rows", default="")
    parser.add_argument("--note", default="")
    given = parser.parse_args()
    known = ["textbook"] + [make.__name__ for make, _ in KINDS]
    given.kinds = given.words[1:] if given.task == "write" else [kind for kind in given.kinds.split(",") if kind]
    given.ends = given.ends.split(",")
    given.objectives = [int(count) for count in given.objectives.split(",")]
    if any(kind not in known for kind in given.kinds) or any(end not in ENDS for end in given.ends):
        sys.exit(f"the kinds are {', '.join(known)}, and the ends {', '.join(ENDS)}")
    if given.task == "run":
        return run_all([users.program_of(word) for word in given.words], files(given), given)
    os.makedirs(given.words[0], exist_ok=True)
    for _, each in files(given):
        with open(os.path.join(given.words[0], each.name + ".vlp"), "w") as out:
            out.write(each.text)
    return 0


if __name__ == "__main__":
    sys.exit(main())
