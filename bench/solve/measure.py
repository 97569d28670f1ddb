#!/usr/bin/env python3
"""Measures how long the solver takes on generated routing models, and the check on the certificates that it prints.

usage: measure.py PROGRAM [SIZE..]

The models are the generator's, of the seeds 7, 8 and 9 and of these sizes (10, 15, 20 and 25, if none is given): a depot and
customers at random places of a grid, demands 1 to 4, vehicles that carry 10, an arc from each to each that costs its length in
steps along the grid. Each is solved with --labels 1000000 --nodes 10000 and a limit of 120 seconds of processor time. A line
tells the model, the seconds, the answer, the nodes of the tree, the labels of its greatest list, the lines of the certificate,
the seconds of the check and its answer, and the greatest memory of both in MB.
"""

import os
import resource
import subprocess
import sys
import tempfile

SEEDS = (7, 8, 9)
SIZES = (10, 15, 20, 25)
LIMIT = 120
NODES = {"split", "close", "fix", "list", "csplit", "cclose", "point"}


def draws(seed):
    x = seed
    while True:
        x = (75 * x + 74) % 65537
        yield x


def text_of(seed, size):
    """The text of the generator's model."""
    x = draws(seed)
    spots, demands = [(next(x) % 100, next(x) % 100)], [0]
    for _ in range(size):
        spots.append((next(x) % 100, next(x) % 100))
        demands.append(1 + next(x) % 4)
    spots.append(spots[0])
    demands.append(0)
    arcs = [(t, h) for t in range(size + 1) for h in range(1, size + 2) if h != t and (t, h) != (0, size + 1)]
    lines = ["vrpmodel 1"]
    for t, h in arcs:
        lines.append(f"var 0 1 {abs(spots[t][0] - spots[h][0]) + abs(spots[t][1] - spots[h][1])}")
    for i in range(1, size + 1):
        lines.append("row 1 1 " + " ".join(f"{k} 1" for k, (_, h) in enumerate(arcs) if h == i))
    lines.append(f"sets {size}")
    lines.append(f"graph {size + 2} 0 {size + 1} 0 {size} 1 0")
    lines += [f"vertex {i - 1 if 1 <= i <= size else '-'} 0 10" for i in range(size + 2)]
    lines += [f"arc {t} {h} {demands[h]} {k}" for k, (t, h) in enumerate(arcs)]
    return "\n".join(lines + ["end", ""])


def run(words, text):
    """The status, the output, the seconds of processor time and the greatest memory in MB of a call of the program."""

    def limit():
        resource.setrlimit(resource.RLIMIT_CPU, (LIMIT, LIMIT + 5))

    with tempfile.TemporaryFile() as given, tempfile.TemporaryFile() as told:
        given.write(text.encode())
        given.seek(0)
        process = subprocess.Popen(words, stdin=given, stdout=told, stderr=subprocess.DEVNULL, preexec_fn=limit)
        _, status, used = os.wait4(process.pid, 0)
        told.seek(0)
        return os.waitstatus_to_exitcode(status), told.read().decode(), used.ru_utime + used.ru_stime, used.ru_maxrss / 1024


def counts(certificate):
    """The nodes of a certificate, and the labels of its greatest list."""
    nodes, greatest, last, here = 0, 0, "", 0
    for line in certificate.splitlines():
        word = line.split(" ", 1)[0]
        nodes += word in NODES
        here = here + 1 if word == last and word in ("fore", "back") else 1
        last = word
        if word in ("fore", "back"):
            greatest = max(greatest, here)
    return nodes, greatest


def measure(program, seed, size):
    text = text_of(seed, size)
    status, told, seconds, memory = run([program, "solve", "--labels", "1000000", "--nodes", "10000"], text)
    first = told.split("\n", 1)[0] if told else "-"
    row = f"seed {seed} size {size}: {seconds:.2f} s, status {status}, {first}"
    if status not in (0, 1):
        return f"{row}, {memory:.0f} MB"
    nodes, greatest = counts(told)
    _, verdict, spent, more = run([program, "check"], text + told)
    lines = told.count("\n")
    return f"{row}, {nodes} nodes, {greatest} labels, {lines} lines, check {spent:.2f} s ({verdict.strip()}), {max(memory, more):.0f} MB"


def main():
    program, sizes = sys.argv[1], [int(word) for word in sys.argv[2:]] or SIZES
    for size in sizes:
        for seed in SEEDS:
            print(measure(program, seed, size), flush=True)


main()
