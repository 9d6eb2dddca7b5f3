#!/usr/bin/env python3
"""Sets of this program beside those of the Parma Polyhedra Library, by the driver sets_ppl (`make sets_ppl`): one line for each
file with both times, and then random small files, of which each set is compared.

    sets_beside.py PROGRAM [COUNT]

Zonotopes are sums of segments from 0 to a vector of whole numbers from -9 to 9, as the first columns of a problem; polytopes
have rows with entries from -9 to 9 and a box. The time of this program is by the clock of the whole run, that of the library of
the processor and without reading.
"""
import pathlib, random, subprocess, sys, tempfile, time

HERE = pathlib.Path(__file__).parent


def text(rows, bounds, columns, objectives=()):
    cells = [(i, j, v) for i, row in enumerate(rows, 1) for j, v in enumerate(row, 1) if v]
    values = [(i, j, v) for i, row in enumerate(objectives, 1) for j, v in enumerate(row, 1) if v]
    lines = [f"p vlp min {len(rows)} {len(columns)} {len(cells)} {max(1, len(objectives))} {len(values)}"]
    lines += [f"a {i} {j} {v}" for i, j, v in cells] + [f"o {i} {j} {v}" for i, j, v in values]
    lines += [f"i {i} {b}" for i, b in enumerate(bounds, 1)] + [f"j {j} {b}" for j, b in enumerate(columns, 1)]
    return "\n".join(lines + ["e", ""])


def zonotope(segments, width):
    draws = [[random.randint(-9, 9) for _ in range(segments)] for _ in range(width)]
    rows = [[int(k == i) for k in range(width)] + [-v for v in row] for i, row in enumerate(draws)]
    return text(rows, ["s 0"] * width, ["f"] * width + ["d 0 1"] * segments)


def polytope(width, rows, objectives=0, box="d -10 10"):
    draws = [[random.randint(-9, 9) for _ in range(width)] for _ in range(rows)]
    goals = [[random.randint(-9, 9) for _ in range(width)] for _ in range(objectives)]
    return text(draws, [f"u {random.randint(20, 60)}" for _ in range(rows)], [box] * width, goals)


def beside(program, command, files, words):
    with tempfile.TemporaryDirectory() as folder:
        names = []
        for number, file in enumerate(files):
            names.append(f"{folder}/{number}.vlp")
            pathlib.Path(names[-1]).write_text(file)
        start = time.time()
        ours = subprocess.run([program, command, *names, *words], capture_output=True, text=True)
        seconds = time.time() - start
        if ours.returncode:
            return ours.returncode, seconds, None, {}
        theirs = subprocess.run([HERE / "sets_ppl", command, *names, *words], input=ours.stdout, capture_output=True, text=True)
        if not theirs.stdout.startswith("same"):
            print("differs:", command, *words, *files, ours.stdout, theirs.stdout, sep="\n")
            sys.exit(1)
        counts = dict(line.split()[:2] for line in ours.stdout.splitlines() if line.split()[0] in ("points", "sides"))
        return 0, seconds, float(theirs.stdout.split()[1]) / 1000, counts


def main():
    program, count = sys.argv[1], int(sys.argv[2]) if len(sys.argv) > 2 else 300
    random.seed(1)
    table = [("project", f"zonotope, {n} segments in {d}", [zonotope(n, d)], [str(d)])
             for n, d in ((8, 3), (12, 3), (16, 3), (8, 4), (10, 4), (7, 5))]
    for d, m in ((2, 8), (3, 8), (3, 16), (4, 8)):
        for command in ("meet", "sum", "join"):
            table.append((command, f"polytopes of {m} rows in {d}", [polytope(d, m), polytope(d, m)], []))
    table += [("map", f"{q} objectives of {n} columns", [polytope(n, 4, q, "d 0 1")], []) for n, q in ((8, 2), (8, 3), (12, 3), (8, 4))]
    for command, name, files, words in table:
        status, ours, theirs, counts = beside(program, command, files, words)
        print(f"| `{command}` | {name} | {counts.get('points', '')} | {counts.get('sides', '')} | "
              f"{ours:.2f}{f' (status {status})' if status else ''} | {'' if theirs is None else f'{theirs:.2f}'} |", flush=True)
    tried = 0
    while tried < count:
        d = random.randint(1, 3)
        box = random.choice(("d -10 10", "l -3", "f", "u 4"))
        command = random.choice(("project", "meet", "sum", "join", "map"))
        make = lambda: polytope(d, random.randint(0, 4), random.randint(1, 3), box)
        files = [make(), make()] if command in ("meet", "sum", "join") else [make()]
        status, *_ = beside(program, command, files, [str(random.randint(1, d))] if command == "project" else [])
        tried += status == 0
    print(f"{tried} random files: each set is the same")


main()
