#!/usr/bin/env python3
"""A second planner, written apart from the engine, to compute expected outputs.

It works from the rules alone. How long one station must wait for another is found by going through the draws one by
one, not by a formula; rates are found with fractions; circuits are enumerated. It is slow and meant for small nets.

    peer.py plan   < net.txt      what `plan` should print
    peer.py survey < net.txt      rates and fastest pace
"""
import sys
from fractions import Fraction
from math import gcd


class Refused(Exception):
    def __init__(self, number, place=None):
        self.number, self.place = number, place


class Text:
    def __init__(self, data):
        self.data, self.at = data, 0

    def digit(self, at):
        return at < len(self.data) and 48 <= self.data[at] <= 57

    def literal(self, bytes_):
        for b in bytes_:
            if self.at == len(self.data) or self.data[self.at] != b:
                raise Refused(1, self.at)
            self.at += 1

    def number(self, low, high, floor=None):
        start = self.at
        if not self.digit(start):
            raise Refused(1, start)
        if self.data[start] == 48 and self.digit(start + 1):
            raise Refused(1, start + 1)
        while self.digit(self.at):
            self.at += 1
        value = 0
        for b in self.data[start:self.at]:
            value = value * 10 + (b - 48)
        if not low <= value <= high:
            raise Refused(2, start)
        if floor is not None and value < floor:
            raise Refused(5, start)
        return value

    def capacity(self, stock):
        if self.at < len(self.data) and self.data[self.at] == ord("-"):
            self.at += 1
            return None
        return self.number(0, 10_000, floor=stock)


def read(data):
    t = Text(data)
    t.literal(b"net ")
    n = t.number(1, 64)
    t.literal(b" ")
    m = t.number(0, 128)
    t.literal(b" ")
    a = t.number(1, 1_000_000)
    t.literal(b" ")
    b = t.number(1, 10_000_000_000)
    t.literal(b"\ndur")
    durations = []
    for _ in range(n):
        t.literal(b" ")
        durations.append(t.number(1, 10_000))
    t.literal(b"\nends")
    ends = []
    for _ in range(m):
        t.literal(b" ")
        i = t.number(0, n - 1)
        t.literal(b">")
        ends.append((i, t.number(0, n - 1)))
    t.literal(b"\nterms")
    links = []
    for i, j in ends:
        t.literal(b" ")
        w = t.number(1, 1_000)
        t.literal(b":")
        v = t.number(1, 1_000)
        t.literal(b":")
        u = t.number(0, 10_000)
        t.literal(b":")
        links.append((i, j, w, v, u, t.capacity(u)))
    t.literal(b"\n")
    if t.at != len(data):
        raise Refused(1, t.at)
    return n, a, b, durations, links


def rates(n, links):
    group = list(range(n))

    def root(x):
        while group[x] != x:
            x = group[x]
        return x

    for i, j, *_ in links:
        group[root(i)] = root(j)
    for y in range(n):
        if root(y) != root(0):
            raise Refused(10, y)
    z = {0: Fraction(1)}
    while len(z) < n:
        for i, j, w, v, *_ in links:
            if i in z and j not in z:
                z[j] = z[i] * v / w
            elif j in z and i not in z:
                z[i] = z[j] * w / v
    for i, j, w, v, *_ in links:
        if z[i] * v != z[j] * w:
            raise Refused(11)
    scale = 1
    for x in z.values():
        scale = scale * x.denominator // gcd(scale, x.denominator)
    whole = [int(z[i] * scale) for i in range(n)]
    common = 0
    for x in whole:
        common = gcd(common, x)
    whole = [x // common for x in whole]
    if max(whole) > 10_000:
        raise Refused(11)
    return whole


def wait(on_hand, arrive, every, draw, each):
    """The least time from the first arrival to the first draw, by looking at each draw: draw n takes `draw` parts at
    (first draw) + n * each, and needs so many arrivals, which come `every` apart."""
    latest = None
    for n in range(on_hand // draw + arrive + 2):
        short = draw * (n + 1) - on_hand
        if short <= 0:
            continue
        arrivals = -(-short // arrive)
        first = (arrivals - 1) * every - n * each
        latest = first if latest is None else max(latest, first)
    return latest


def steps(n, durations, z, links):
    """(name, from, to, shares, time) of every step."""
    out = []
    for k, (i, j, w, v, u, c) in enumerate(links):
        out.append((f"f{k}", i, j, wait(u, w, z[i], v, z[j]), durations[i]))
        if c is not None:
            out.append((f"b{k}", j, i, wait(c - u, v, z[j], w, z[i]), durations[j]))
    for i in range(n):
        out.append((f"o{i}", i, i, -z[i], durations[i]))
    return out


def circuits(n, all_steps):
    """All circuits, from their lowest station."""
    leaving = [[s for s in all_steps if s[1] == x] for x in range(n)]

    def extend(first, path, seen):
        for s in leaving[path[-1][2]] if path else leaving[first]:
            if s[2] == first:
                yield path + [s]
            elif s[2] > first and s[2] not in seen:
                yield from extend(first, path + [s], seen | {s[2]})

    for first in range(n):
        yield from extend(first, [], {first})


def plan(data):
    try:
        n, a, b, durations, links = read(data)
        z = rates(n, links)
        all_steps = steps(n, durations, z, links)
        lengths = [(s, b * s[4] + a * s[3]) for s in all_steps]
        starts = [0] * n
        for _ in range(n + 1):
            moved = False
            for s, length in lengths:
                if starts[s[2]] < starts[s[1]] + length:
                    starts[s[2]] = starts[s[1]] + length
                    moved = True
            if not moved:
                break
        if moved:
            length = {id(s): l for s, l in lengths}
            if n > 12:
                raise ValueError("too large to list all circuits")
            above = [c for c in circuits(n, all_steps) if sum(length[id(s)] for s in c) > 0]
            if len(above) != 1:
                raise ValueError(f"{len(above)} circuits are above zero, so which one is told is left open")
            c = above[0]
            return (f"refused 20 {len(c)}\nsteps {' '.join(s[0] for s in c)}\n"
                    f"lengths {' '.join(str(length[id(s)]) for s in c)}\n")
        return (f"timetable {n}\nstarts {' '.join(map(str, starts))}\n"
                f"periods {' '.join(str(a * x) for x in z)}\n")
    except Refused as r:
        return f"refused {r.number}" + ("" if r.place is None else f" {r.place}") + "\n"


def survey(data):
    try:
        n, a, b, durations, links = read(data)
        z = rates(n, links)
        best = Fraction(0)
        for c in circuits(n, steps(n, durations, z, links)):
            shares, time = sum(s[3] for s in c), sum(s[4] for s in c)
            if shares > 0 or (shares == 0 and time > 0):
                raise Refused(21)
            if shares < 0:
                best = max(best, Fraction(time, -shares))
        return f"rates {' '.join(map(str, z))}\nfastest {best.numerator}/{best.denominator}\n"
    except Refused as r:
        return f"refused {r.number}" + ("" if r.place is None else f" {r.place}") + "\n"


if __name__ == "__main__":
    sys.stdout.write({"plan": plan, "survey": survey}[sys.argv[1]](sys.stdin.buffer.read()))
