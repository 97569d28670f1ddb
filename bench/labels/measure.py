#!/usr/bin/env python3
"""Measures how many labels a second the table of partial walks takes in.

usage: measure.py PROGRAM

Two graphs of the project's kind of random models, with 30 and with 100 customers: a depot and customers at random places,
demands 1 to 4, capacity 40, an arc from each to each. Each vertex has the 8 packing sets of its nearest customers near it.
The multiplier of a customer's row is one and a half times what it costs to drive to its second nearest neighbour, by which
some arcs have a reduced cost below 0. Once without cuts, and once with 20 cuts over three neighbours each.
"""

import subprocess
import sys

UNIT = 65536
LIMIT = 4_000_000
CAPACITY = 40


def draws(seed):
    x = seed
    while True:
        x = (75 * x + 74) % 65537
        yield x


def places(seed, size):
    x = draws(seed)
    depot = (next(x) % 100, next(x) % 100)
    customers = [((next(x) % 100, next(x) % 100), 1 + next(x) % 4) for _ in range(size)]
    return depot, customers


def text_of(seed, size, cuts):
    depot, customers = places(seed, size)
    spots = [depot] + [spot for spot, _ in customers] + [depot]
    demands = [0] + [demand for _, demand in customers] + [0]
    far = lambda a, b: abs(spots[a][0] - spots[b][0]) + abs(spots[a][1] - spots[b][1])
    arcs = [(t, h) for t in range(size + 1) for h in range(1, size + 2) if h != t and (t, h) != (0, size + 1)]
    lines = ["vrpmodel 1"]
    lines += [f"var 0 1 {far(t, h)}" for t, h in arcs]
    for customer in range(1, size + 1):
        terms = " ".join(f"{k} 1" for k, (_, h) in enumerate(arcs) if h == customer)
        lines.append(f"row 1 1 {terms}")
    lines.append(f"sets {size}")
    lines.append(f"graph {size + 2} 0 {size + 1} 0 {size} 1 0")
    lines += [f"vertex {v - 1 if 0 < v <= size else '-'} 0 {CAPACITY}" for v in range(size + 2)]
    lines += [f"arc {t} {h} {demands[h]} {k}" for k, (t, h) in enumerate(arcs)]
    lines.append("end")
    neighbours = {c: sorted((d for d in range(1, size + 1) if d != c), key=lambda d: (far(c, d), d)) for c in range(1, size + 1)}
    lines.append("rows " + " ".join(str(UNIT * 3 * far(c, neighbours[c][1]) // 2) for c in range(1, size + 1)))
    for customer in range(1, size + 1):
        near = sorted([customer] + neighbours[customer][:7])
        lines.append(f"near {customer} " + " ".join(str(d - 1) for d in near))
    for k in range(cuts):
        first = 1 + (k * size) // cuts
        three = sorted([first] + neighbours[first][:2])
        sets = " ".join(f"{d - 1} 1" for d in three)
        memory = " ".join(str(d - 1) for d in three)
        lines.append(f"cut 2 {UNIT * 2} 3 {sets} {memory}")
    lines.append(f"limit {LIMIT}")
    return "\n".join(lines) + "\n"


def main():
    program = sys.argv[1]
    for size in (30, 100):
        for cuts in (0, 20):
            done = subprocess.run([program], input=text_of(7, size, cuts), capture_output=True, text=True)
            if done.returncode != 0:
                sys.exit(f"status {done.returncode}: {done.stderr}")
            word, entries, kept, spent = done.stdout.split()
            seconds = int(spent) / 1e9
            rate = int(entries) / seconds if seconds else 0
            print(f"{size} customers, {cuts} cuts: {word}, {entries} entries, {kept} kept, {seconds:.3f} s, {rate:,.0f} entries a second")


main()
