#!/usr/bin/env python3
"""The log of version 2 that says the same as a log of version 1: relog.py < LOG > NEW.

Put together apart from the program: exact fractions of any size, sets as whole numbers, and a search
through all live generators. Each `add` gets its hints, for each opposite pair that it does not list
the least live generator that covers it; each vector that stands in several cuts, points and rays is
shared. A log of version 2 stays as it is. The log is taken to be right: nothing is tested.
"""
import sys
from fractions import Fraction


class Words:
    """The words of a line, taken from the left."""

    def __init__(self, line):
        self.words = line.split(" ")
        self.next = 1

    def word(self):
        self.next += 1
        return self.words[self.next - 1]

    def natural(self):
        return int(self.word())

    def number(self):
        return Fraction(self.word())

    def vector(self):
        return [self.number() for _ in range(self.natural())]

    def naturals(self):
        return [self.natural() for _ in range(self.natural())]

    def pairs(self):
        return [(self.natural(), self.natural()) for _ in range(self.natural())]

    def sparse(self):
        """The words of a sparse vector without their count."""
        return tuple(self.word() for _ in range(2 * self.natural()))


class Generator:
    def __init__(self, number, vector, tight):
        self.number, self.vector, self.tight = number, vector, tight


class Live:
    """The live generators, each with the set of the rows in use that are tight at it."""

    def __init__(self, count, point, directions):
        q = len(point)
        self.rows = count + 1
        every = (1 << self.rows) - 1
        self.list = [Generator(1, point + [Fraction(1)], every & ~1)]
        for j in range(count):
            vector = directions[j * q:(j + 1) * q] + [Fraction(0)]
            self.list.append(Generator(2 + j, vector, every & ~(1 << (j + 1))))
        self.next = count + 2

    def least_cover(self, plus, minus):
        common = plus.tight & minus.tight
        for g in self.list:
            if g is not plus and g is not minus and common & ~g.tight == 0:
                return g.number
        raise ValueError("a pair that is required is not listed")

    def add(self, row, pairs):
        """The hints of the addition."""
        values = {g.number: sum(a * b for a, b in zip(row, g.vector) if a and b) for g in self.list}
        by_number = {g.number: g for g in self.list}
        listed = set(pairs)
        hints = [self.least_cover(p, m)
                 for p in self.list if values[p.number] > 0
                 for m in self.list if values[m.number] < 0
                 if (p.number, m.number) not in listed]
        made = []
        for number, (p, m) in enumerate(pairs, self.next):
            p, m = by_number[p], by_number[m]
            factor = values[p.number] / -values[m.number]
            z = [a + factor * b for a, b in zip(p.vector, m.vector)]
            size = z[-1] or abs(next(x for x in z if x))
            tight = p.tight & m.tight | 1 << self.rows
            made.append(Generator(number, [x / size for x in z], tight))
        kept = [g for g in self.list if values[g.number] >= 0]
        for g in kept:
            if values[g.number] == 0:
                g.tight |= 1 << self.rows
        self.list = kept + made
        self.rows += 1
        self.next += len(pairs)
        return hints


def body(line):
    """The vector of a cut, a point or a ray as words, and where they stand, or None."""
    words = Words(line)
    kind = words.words[0]
    if kind == "cut":
        words.vector()
        words.number()
    elif kind in ("point", "ray"):
        words.natural()
    else:
        return None
    begin = words.next
    return words.sparse(), begin, words.next


def relog(lines):
    if lines[0] == "version 2":
        return lines
    counts = {}
    for line in lines:
        found = body(line)
        if found and found[0]:
            counts[found[0]] = counts.get(found[0], 0) + 1
    out, cuts, live, shares = [], [], None, {}
    for line in lines:
        words = Words(line)
        kind = words.words[0]
        if kind == "version":
            line = "version 2"
        elif kind == "cut":
            w = words.vector()
            cuts.append(w + [-words.number()])
        elif kind == "start":
            live = Live(len(words.naturals()), words.vector(), words.vector())
        elif kind == "add":
            row = cuts[words.natural() - 1]
            hints = live.add(row, words.pairs())
            line = " ".join(["addh"] + words.words[1:] + [str(len(hints))] + [str(k) for k in hints])
        found = body(line)
        if found and counts.get(found[0], 0) > 1:
            vector, begin, end = found
            if vector not in shares:
                shares[vector] = len(shares) + 1
                out.append(" ".join(["share", str(len(vector) // 2)] + list(vector)))
            all_words = line.split(" ")
            all_words[0] += "of"
            line = " ".join(all_words[:begin] + [str(shares[vector])] + all_words[end:])
        out.append(line)
    return out


if __name__ == "__main__":
    sys.stdout.write("".join(line + "\n" for line in relog(sys.stdin.read().split("\n")[:-1])))
