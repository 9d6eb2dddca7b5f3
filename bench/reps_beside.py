#!/usr/bin/env python3
"""Times `vertices` and `facets` beside lrs, cddlib, the Parma Polyhedra Library and Normaliz, in one run, and compares the answers.

`reps_beside.py PROGRAM [NAME..]` makes texts of the families below, or of those alone whose names begin so; each program runs on
each text in turn. lrs and Normaliz (Debian: lrslib, normaliz) read files in their own form, `reps_cdd` and `reps_ppl` (`make
reps_cdd reps_ppl`) the text itself. Times are of the processor and of the whole run, with its reading and printing; the memory is
the peak that GNU time tells. Of the tries of a program the fastest counts. A run that takes more than LIMIT seconds is ended.
What another prints is brought into the form of this program's texts: lines or equations in reduced echelon form, the others
without entries at their places, scaled and in order. `-` in place of PROGRAM runs the others alone, and compares their answers with
those of `../oracle/reps.py` on texts that are small enough.

`reps_beside.py PROGRAM = COUNT [SEED]` compares the answers of all on COUNT random texts of sets that are not empty.

`reps_beside.py PROGRAM + [TRIES]` times the series of growing sizes below beside the Parma Polyhedra Library alone: milliseconds of the
processor, the least of TRIES (10) in turn, less those that each takes for a text of one row.

`reps_beside.py PROGRAM / [TRIES] [NAME..]` times whole runs on all texts, or on those whose names begin so, beside the Parma Polyhedra
Library alone: milliseconds of the processor, the least of TRIES (12) in turn. Returned is on how many this program takes as long or more.

`reps_beside.py PROGRAM : [TRIES] [SEED..]` does so on random texts of 4 to 10 dimensions, 218 for each seed (2, 3 and 4), and prints those alone
on which this program takes as long or more, the least of six times as many TRIES (3) where so many say so. It compares the answers too.

`reps_beside.py PROGRAM # [NAME..]` counts the instructions of the conversions alone in these series, or in those whose names begin so,
by callgrind (Debian: valgrind): what PPL's `minimize` takes, and of ours the whole run less one that only reads the text. Counts do
not vary as times do. It takes half an hour.
"""
import collections
import math
import os
import random
import re
import resource
import subprocess
import sys
import tempfile
from fractions import Fraction

HERE = os.path.dirname(os.path.abspath(__file__))
sys.path.insert(0, os.path.join(HERE, "..", "oracle"))

import reps
from reps import COMMAND, OTHER, Rep, converted, cross, cube, cyclic, drawn, normed, place_of, read_rep, whole, zero_one
from reports import echelon

LIMIT = 60
TRIES = 3
ENOUGH = 2.0
NAMES = ("lrs", "cddlib", "PPL", "Normaliz")
Run = collections.namedtuple("Run", "status seconds peak output")


# ---- one form for all answers
def plain(rep):
    """A representation without a row too many, in the form of the program's texts."""
    bound = rep.kind == "sides"
    word = "e" if bound else "l"
    lines = echelon(rep.vectors(word))
    places = [(place_of(l), l) for l in lines]

    def rest(v):
        for place, l in places:
            by = v[place]
            v = tuple(x - by * y for x, y in zip(v, l))
        return v

    if bound:
        sides = {normed(v) for v in map(rest, rep.vectors("h")) if any(v[:-1])}
        return Rep("sides", rep.width, [("e", l) for l in lines] + [("h", v) for v in sorted(sides)])
    points = {rest(v) for v in rep.vectors("1")}
    directions = {normed(v + (0,))[:-1] for v in map(rest, rep.vectors("0")) if any(v)}
    rows = [("l", l) for l in lines] + [("1", v) for v in sorted(points)] + [("0", v) for v in sorted(directions)]
    return Rep("gens", rep.width, rows)


# ---- files of the others
def lrs_file(rep):
    """An .ine or .ext file."""
    both = [k for k, (word, _) in enumerate(rep.rows, 1) if word in "el"]
    first = lambda word, v: -v[-1] if rep.kind == "sides" else int(word == "1")
    rows = [" ".join(map(str, (first(word, v),) + v[:rep.width])) for word, v in rep.rows]
    form = "H-representation" if rep.kind == "sides" else "V-representation"
    linearity = [" ".join(map(str, ["linearity", len(both)] + both))] if both else []
    return "\n".join(["text", form] + linearity + ["begin", f"{len(rows)} {rep.width + 1} rational"] + rows + ["end", ""])


def of_lrs(text, width):
    """The representation that an .ine or .ext file has; where lrs starts anew with longer numbers, the last."""
    kind = "gens" if "V-representation" in text else "sides"
    both = set(map(int, next((line.split()[2:] for line in text.splitlines() if line.startswith("linearity")), [])))
    inside = text.split("\nbegin\n")[-1].split("\nend")[0].splitlines()[1:]
    rows = []
    for number, line in enumerate(inside, 1):
        first, *v = map(Fraction, line.split())
        if kind == "sides":
            rows.append(("e" if number in both else "h", tuple(v) + (-first,)))
        else:
            rows.append(("l" if number in both else "1" if first else "0", tuple(x / (first or 1) for x in v)))
    return Rep(kind, width, rows)


def normaliz_file(rep):
    lines = [f"amb_space {rep.width}"]

    def block(name, vectors):
        if vectors:
            lines.extend([f"{name} {len(vectors)}"] + [" ".join(map(str, v)) for v in vectors])

    if rep.kind == "sides":
        side = lambda v: whole(v[:-1] + (-v[-1],))
        # without an inequality it takes the entries to be at least 0
        block("inhom_inequalities", [side(v) for v in rep.vectors("h")] or [(0,) * rep.width + (1,)])
        block("inhom_equations", [side(v) for v in rep.vectors("e")])
    else:
        block("vertices", [whole(v + (1,)) for v in rep.vectors("1")])
        block("cone", [whole(v) for v in rep.vectors("0")])
        block("subspace", [whole(v) for v in rep.vectors("l")])
    return "\n".join(lines + [""])


def of_normaliz(text, kind, width):
    words = {"vertices of polyhedron": "1", "extreme rays of recession cone": "0", "basis elements of maximal subspace": "l",
             "support hyperplanes of polyhedron (homogenized)": "h", "equations": "e"}
    rows, word = [], None
    for line in text.split("*" * 71, 1)[1].splitlines():
        head = re.fullmatch(r"\d+ (.*):", line)
        if head:
            word = words.get(head[1])
        elif line.strip() and word:
            v = tuple(map(Fraction, line.split()))
            if word in "he" and kind == "sides":
                rows.append((word, v[:-1] + (-v[-1],)))
            elif word in "10l" and kind == "gens":
                rows.append((word, tuple(x / (v[-1] or 1) for x in v[:-1])))
    return Rep(kind, width, rows)


# ---- runs
def run(words, folder):
    """One run: its status, none where it was ended; its seconds of the processor; its peak in KiB; what it wrote."""
    limit = lambda: resource.setrlimit(resource.RLIMIT_CPU, (LIMIT, LIMIT + 1))
    peak, wrote = os.path.join(folder, "peak"), os.path.join(folder, "wrote")
    with open(wrote, "w") as out:
        child = subprocess.Popen(["/usr/bin/time", "-q", "-f", "%M", "-o", peak] + words, cwd=folder, stdout=out,
                                 stderr=subprocess.DEVNULL, preexec_fn=limit)
        _, status, used = os.wait4(child.pid, 0)
    child.returncode = os.waitstatus_to_exitcode(status)
    seconds = used.ru_utime + used.ru_stime
    with open(peak) as text, open(wrote) as out:
        return Run(child.returncode if seconds < LIMIT else None, seconds, int(text.read().split()[-1]), out.read())


def commands(program, rep, folder):
    """Writes the files of a text; the words of each program, ours first."""
    paths = {}
    for name, text in (("text.rep", rep.text()), ("text.lrs", lrs_file(rep)), ("text.in", normaliz_file(rep))):
        paths[name] = os.path.join(folder, name)
        with open(paths[name], "w") as out:
            out.write(text)
    goals = ["--VerticesOfPolyhedron", "--ExtremeRays", "--MaximalSubspace"] if rep.kind == "sides" else ["--SupportHyperplanes", "--Equations"]
    others = [["lrs", paths["text.lrs"]], [os.path.join(HERE, "reps_cdd"), paths["text.rep"]],
              [os.path.join(HERE, "reps_ppl"), paths["text.rep"]], ["normaliz", "-x=1"] + goals + [paths["text.in"]]]
    return ([[program, COMMAND[rep.kind], paths["text.rep"]]] if program else []) + others


def answer(name, each, rep, folder):
    """What a run answers; none where it has no answer."""
    if each.status != 0:
        return None
    kind = OTHER[rep.kind]
    if name == "lrs":
        return plain(of_lrs(each.output, rep.width)).text()
    if name == "Normaliz":
        with open(os.path.join(folder, "text.out")) as text:
            return plain(of_normaliz(text.read(), kind, rep.width)).text()
    return each.output if name == "bensolve" else plain(read_rep(each.output)).text()


def fastest(words, folder):
    best = run(words, folder)
    for _ in range(TRIES - 1):
        if best.seconds > ENOUGH or best.status is None:
            break
        best = min(best, run(words, folder), key=lambda r: r.seconds)
    return best


def all_runs(program, rep, folder):
    """The runs by the programs' names, and their answers."""
    names = (("bensolve",) if program else ()) + NAMES
    runs, answers = {}, {}
    for name, words in zip(names, commands(program, rep, folder)):
        runs[name] = fastest(words, folder)
        answers[name] = answer(name, runs[name], rep, folder)
    return runs, answers


# ---- families
def polar(rep):
    """The inequalities whose normals are the points, all with one bound."""
    return reps.sides([v + (-60,) for v in rep.vectors("1")])


def families():
    """Names and texts: by inequalities, or by points."""
    for n in (4, 6, 8, 10):
        yield f"cube {n}", cube(n)
    for n in (4, 6, 8, 9):
        yield f"cube {n}", converted(cube(n))[0]
    for n in (4, 6, 8, 10):
        yield f"cross {n}", cross(n)
    for n in (4, 6, 8):
        yield f"cross {n}", converted(cross(n))[0]
    for count, n in ((20, 4), (40, 4), (80, 4), (20, 5), (40, 5), (16, 6), (24, 6), (14, 8), (20, 8), (14, 10), (18, 10)):
        yield f"cyclic {count} {n}", cyclic(count, n)
    for count, n in ((12, 4), (20, 4), (30, 4), (12, 5), (16, 5), (12, 6), (14, 6), (12, 8)):
        yield f"cyclic {count} {n}", converted(cyclic(count, n))[0]
    for count, n in ((20, 4), (30, 5), (40, 6), (40, 7), (40, 8), (60, 8), (30, 9), (40, 9), (24, 10), (30, 10)):
        yield f"zero_one {count} {n} 1", zero_one(count, n, 1)
    for count, n in ((16, 5), (20, 6), (20, 7)):
        yield f"zero_one {count} {n} 1", converted(zero_one(count, n, 1))[0]
    sizes = ((40, 4), (200, 4), (30, 5), (80, 5), (24, 6), (48, 6), (20, 7), (30, 7), (16, 8), (24, 8), (16, 9), (14, 10), (18, 10))
    for count, n in sizes:
        yield f"drawn {count} {n} 1", drawn(count, n, 1)
    for count, n in sizes:
        yield f"drawn {count} {n} 1", polar(drawn(count, n, 1))
    for count, n in ((200, 5), (80, 6), (48, 7), (36, 8)):
        yield f"drawn {count} {n} 1", drawn(count, n, 1)
    for count, n in ((60, 5), (36, 6)):
        yield f"cyclic {count} {n}", cyclic(count, n)
    for count, n in ((80, 9), (36, 10), (96, 7), (160, 8), (240, 8), (480, 9)):
        yield f"zero_one {count} {n} 1", zero_one(count, n, 1)
    for name, of in (("covering", reps.covering), ("packing", reps.packing), ("upper", reps.upper)):
        for count, n in ((80, 4), (40, 5), (30, 6), (20, 7), (16, 8)):
            yield f"{name} {count} {n} 1", of(count, n, 1)
    for count, n, most in ((20, 4, 99999), (20, 4, 10**7), (16, 5, 9999), (16, 6, 999), (16, 6, 9999), (16, 8, 99), (16, 8, 999), (14, 10, 99), (14, 10, 999)):
        yield f"drawn {count} {n} 1 {most}", drawn(count, n, 1, most)
    for name, rep in (("permutahedron 5", reps.permutahedron(5)), ("cut 5", reps.cut(5)), ("cut 6", reps.cut(6)), ("birkhoff 4", reps.birkhoff(4)),
                      ("metric 5", reps.metric(5)), ("half_cube 7", reps.half_cube(7)), ("cell24", reps.cell24()), ("klee_minty 8", reps.klee_minty(8))):
        yield name, rep


SERIES = (("cyclic", "vertices", 4, (12, 20, 30, 40, 60, 80)), ("cyclic", "vertices", 5, (12, 16, 20, 24)), ("cyclic", "vertices", 6, (10, 12, 14, 16)),
          ("cyclic", "facets", 4, (20, 40, 80, 120)), ("cyclic", "facets", 6, (16, 20, 24, 32)),
          ("zero_one", "facets", 8, (20, 40, 80, 120, 160, 240)), ("zero_one", "vertices", 7, (16, 18, 20, 24)),
          ("drawn", "facets", 5, (20, 40, 80, 160)), ("drawn", "facets", 8, (16, 24, 32, 40)), ("drawn", "vertices", 4, (100, 200, 400, 800)),
          ("drawn", "vertices", 6, (24, 36, 48, 80)), ("covering", "vertices", 5, (80, 160, 320, 640)), ("packing", "vertices", 5, (80, 160, 320, 640)),
          ("upper", "facets", 5, (80, 160, 320, 640)))


def text_of(family, command, n, count):
    """The text of a series at a size."""
    rep = getattr(reps, family)(count, n, *([1] if family != "cyclic" else []))
    if COMMAND[rep.kind] == command:
        return rep
    return polar(rep) if family == "drawn" else converted(rep)[0]


def milliseconds(words):
    """What one run takes of the processor, up to its end. It is started without a copy of this process, whose pages would count."""
    null = [(os.POSIX_SPAWN_OPEN, 1, os.devnull, os.O_WRONLY, 0)]
    _, status, used = os.wait4(os.posix_spawn(words[0], words, os.environ, file_actions=null), 0)
    return 1000 * (used.ru_utime + used.ru_stime) if status == 0 else math.inf


def both_times(program, rep, tries):
    """The least times of this program and of the other for a text."""
    with tempfile.TemporaryDirectory() as folder:
        path = os.path.join(folder, "text")
        with open(path, "w") as out:
            out.write(rep.text())
        runs = [program, COMMAND[rep.kind], path], [os.path.join(HERE, "reps_ppl"), path]
        best = [math.inf, math.inf]
        for _ in range(tries):
            best = [min(time, milliseconds(words)) for time, words in zip(best, runs)]
            if max(best) > 1000 * ENOUGH:
                break
    return best


def told(ratios):
    """Prints what part of the other's time this program takes; returned is on how many texts it takes as long or more."""
    mean = math.exp(sum(map(math.log, ratios)) / max(len(ratios), 1))
    behind = sum(ratio >= 1 for ratio in ratios)
    print(f"{len(ratios)} texts, {mean:.2f} of the time (geometric mean), {max(ratios, default=0):.2f} at most, {behind} behind")
    return behind


def beside(program, tries, wanted):
    """Prints the times of both on each text that this program converts; returned is on how many it takes as long or more."""
    print("| text | bensolve, ms | PPL, ms | of PPL's |")
    print("|---|---|---|---|")
    ratios = []
    for title, rep in families():
        if wanted and not any(title.startswith(name) for name in wanted):
            continue
        ours, other = both_times(program, rep, tries)
        if ours < math.inf:
            ratios.append(ours / other)
            print(f"| {title}, {COMMAND[rep.kind]} | {ours:.1f} | {other:.1f} | {ours / other:.2f} |", flush=True)
    return told(ratios)


def drawn_families(seeds):
    """Names and texts of random points, and of inequalities with such normals."""
    for seed in seeds:
        for n in range(4, 11):
            for count in sorted({n + 3, 2 * n, (2 if n > 7 else 3) * n}):
                for most in (1, 9, 99, 999, 9999):
                    yield f"drawn {count} {n} {seed} {most}", drawn(count, n, seed, most)
            for count in sorted({2 * n, 3 * n, (3 if n > 8 else 6) * n}):
                yield f"zero_one {count} {n} {seed}", zero_one(count, n, seed)


def is_as_by_ppl(program, rep):
    """Whether both answer the same set."""
    with tempfile.TemporaryDirectory() as folder:
        words = dict(zip(("bensolve",) + NAMES, commands(program, rep, folder)))
        ours, other = (answer(name, run(words[name], folder), rep, folder) for name in ("bensolve", "PPL"))
    return ours == other


def drawn_beside(program, tries, seeds):
    """Prints the random texts on which this program takes as long as the other or more, or answers otherwise; returned is how many they are."""
    ratios, left, different = [], 0, 0
    for title, points in drawn_families(seeds):
        for rep in (points, polar(points)):
            ours, other = both_times(program, rep, tries)
            if ours == math.inf:
                left += 1
                continue
            if ours >= other:
                ours, other = both_times(program, rep, 6 * tries)
            if ours >= other:
                print(f"{title}, {COMMAND[rep.kind]}: {ours:.1f} and {other:.1f} ms", flush=True)
            if not is_as_by_ppl(program, rep):
                different += 1
                print(f"{title}, {COMMAND[rep.kind]}: the answers differ", flush=True)
            ratios.append(ours / other)
    print(f"{left} texts are not converted; {different} answers differ")
    return told(ratios) + different


def growth(program, tries):
    """Prints the series; returned is in how many this program grows more than the other from the least size to the greatest."""
    starts = both_times(program, Rep("sides", 1, [("h", (1, 0))]), tries)
    print("a text of one row: {:.1f} and {:.1f} ms".format(*starts))
    more = 0
    for family, command, n, counts in SERIES:
        times = []
        for count in counts:
            times.append([max(time - start, 0.1) for time, start in zip(both_times(program, text_of(family, command, n, count), tries), starts)])
        ours, other = (last / first for first, last in zip(times[0], times[-1]))
        print(f"| {family} N {n}, {command} | " + ", ".join(map(str, counts)) + " | " + ", ".join(f"{time[0]:.1f}" for time in times) + " | "
              + ", ".join(f"{time[1]:.1f}" for time in times) + f" | {ours:.0f} | {other:.0f} |", flush=True)
        more += ours > other
    print(f"{more} of {len(SERIES)} series grow more than beside PPL")
    return more


def instructions(words, folder, function=None):
    """How many instructions a run takes; those inside of a function alone, if one is named."""
    path = os.path.join(folder, "counts")
    call = ["valgrind", "--tool=callgrind", f"--callgrind-out-file={path}"]
    told = subprocess.run(call + words, stdout=subprocess.DEVNULL, stderr=subprocess.PIPE, text=True).stderr
    if function is None:
        return int(re.search(r"Collected : (\d+)", told)[1])
    listed = subprocess.run(["callgrind_annotate", "--inclusive=yes", "--threshold=100", path], capture_output=True, text=True).stdout
    return max(int(line.split()[0].replace(",", "")) for line in listed.splitlines() if function in line)


def conversion_counts(program, rep):
    """Millions of instructions of the conversion alone, of this program and of the other."""
    with tempfile.TemporaryDirectory() as folder:
        path, empty = os.path.join(folder, "text"), os.path.join(folder, "empty")
        with open(path, "w") as out:
            out.write(rep.text())
        open(empty, "w").close()
        ours = instructions([program, COMMAND[rep.kind], path], folder) - instructions([program, "reconv", path, empty], folder)
        other = instructions([os.path.join(HERE, "reps_ppl"), path], folder, "Polyhedron::minimize()")
    return ours / 1e6, other / 1e6


def counted_growth(program, wanted):
    """Prints the series by instructions; returned is in how many this program grows more from the least size to the greatest."""
    more = 0
    for family, command, n, counts in SERIES:
        name = f"{family} N {n}, {command}"
        if wanted and not any(name.startswith(each) for each in wanted):
            continue
        pairs = [conversion_counts(program, text_of(family, command, n, count)) for count in counts]
        ours, other = (last / first for first, last in zip(pairs[0], pairs[-1]))
        print(f"| {name} | " + ", ".join(map(str, counts)) + " | " + ", ".join(f"{pair[0]:.1f}" for pair in pairs) + " | "
              + ", ".join(f"{pair[1]:.1f}" for pair in pairs) + f" | {ours:.1f} | {other:.1f} |", flush=True)
        more += ours > other
    print(f"{more} series grow more than in PPL")
    return more


def shown(each):
    """The seconds, or how the run ended."""
    if each.status is None:
        return f"over {LIMIT}"
    return f"{each.seconds:.3f}" if each.status == 0 else f"status {each.status}"


def bits(text):
    return max((int(part).bit_length() for part in re.findall(r"\d+", text)), default=0)


def table(program, wanted):
    ours = ["bensolve"] if program else []
    names = ours + list(NAMES)
    print("| text | rows | rows of the answer | bits | " + " | ".join(f"{name}, s" for name in names) + " | "
          + " | ".join(f"{name}, MiB" for name in names) + " |")
    print("|" + "---|" * (4 + 2 * len(names)))
    ratios, different, left, count = {name: [] for name in NAMES}, 0, 0, 0
    for title, rep in families():
        if wanted and not any(title.startswith(name) for name in wanted):
            continue
        with tempfile.TemporaryDirectory() as folder:
            runs, answers = all_runs(program, rep, folder)
        found = {text for text in answers.values() if text is not None}
        if not program and len(rep.rows) <= 64:
            found.add(converted(rep)[0].text())
        same = len(found) <= 1
        text = next(iter(found), "")
        size = len(text.splitlines()) - 2 if found else ""
        print(f"| {title}, {COMMAND[rep.kind]} | {len(rep.rows)} | {size} | {bits(text)} | " + " | ".join(shown(runs[n]) for n in names) + " | "
              + " | ".join(f"{runs[n].peak / 1024:.1f}" for n in names) + " |" + ("" if same else " DIFFERENT"), flush=True)
        count, different = count + 1, different + (not same)
        if program:
            left += runs["bensolve"].status == 5
            for name in NAMES:
                if runs["bensolve"].status == 0 and runs[name].status == 0:
                    ratios[name].append(runs["bensolve"].seconds / runs[name].seconds)
    print(f"\n{different} of {count} answers differ")
    if program:
        mean = lambda of: math.exp(sum(map(math.log, of)) / len(of)) if of else math.nan
        print(f"{left} of {count} end with status 5; beside " + ", ".join(f"{name} {mean(ratios[name]):.2f}" for name in NAMES) + " of the time (geometric mean)")
    return different


def compare(program, count, seed):
    draw, differ, tried = random.Random(seed), 0, 0
    while tried < count:
        rep = reps.random_rep(draw)
        there = converted(rep)[0]
        is_empty = not (there if there.kind == "gens" else rep).vectors("1")
        if is_empty or rep.kind == "sides" and not rep.rows:
            continue
        tried += 1
        with tempfile.TemporaryDirectory() as folder:
            names = (("bensolve",) if program else ()) + NAMES
            for name, words in zip(names, commands(program, rep, folder)):
                each = run(words, folder)
                if each.status == 5 and name == "bensolve":
                    continue
                if answer(name, each, rep, folder) != there.text():
                    differ += 1
                    print(f"differs: {name}, status {each.status}", rep.text(), there.text(), answer(name, each, rep, folder), sep="\n")
    print(f"{tried} random texts by {', '.join(names)}: {differ} answers differ")
    return differ


def main():
    program = None if sys.argv[1] == "-" else os.path.abspath(sys.argv[1])
    if sys.argv[2:3] == ["="]:
        return int(compare(program, int(sys.argv[3]), int(sys.argv[4]) if len(sys.argv) > 4 else 1) > 0)
    if sys.argv[2:3] == ["+"]:
        return int(growth(program, int(sys.argv[3]) if len(sys.argv) > 3 else 10) > 0)
    if sys.argv[2:3] == ["/"]:
        tries = sys.argv[3:4] if sys.argv[3:4] and sys.argv[3].isdigit() else []
        return int(beside(program, int(tries[0]) if tries else 12, sys.argv[3 + len(tries):]) > 0)
    if sys.argv[2:3] == [":"]:
        tries, *seeds = map(int, sys.argv[3:] or ["3"])
        return int(drawn_beside(program, tries, seeds or (2, 3, 4)) > 0)
    if sys.argv[2:3] == ["#"]:
        return int(counted_growth(program, sys.argv[3:]) > 0)
    return int(table(program, sys.argv[2:]) > 0)


if __name__ == "__main__":
    sys.exit(main())
