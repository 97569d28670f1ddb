#!/usr/bin/env python3
"""Measures the quality, the time and the turns of solve_master, and tries it on hostile numbers.

usage: measure.py PROGRAM [quality | hostile]

quality: 200 random linear programs against the exact optimum, which glpsol --exact (of glpk-utils) finds; then each
with 20 columns more, from nothing and from the last basis. hostile: 8,000 programs with any numbers in them.
"""

import random
import subprocess
import sys
import tempfile
from fractions import Fraction
from pathlib import Path

UNIT = 65536
ENOUGH = 1_000_000


def as_text(program, pivots=ENOUGH, repeats=0):
    """A linear program as the measured program reads it."""
    sides, columns = program
    lines = [f"lp {pivots} {repeats}"]
    for low, high in sides:
        lines.append(f"side {'-' if low is None else low} {'-' if high is None else high}")
    for cost, entries in columns:
        lines.append(" ".join([f"column {cost}"] + [f"{row}:{value}" for row, value in entries]))
    lines.append("end")
    return "\n".join(lines) + "\n"


def solve_all(path, texts):
    """Multipliers, weights and nanoseconds of each program."""
    done = subprocess.run([path], input="".join(texts), capture_output=True, text=True)
    if done.returncode != 0:
        sys.exit(f"status {done.returncode}: {done.stderr}")
    lines = done.stdout.splitlines()
    answers = []
    for mult, weights, time in zip(lines[0::3], lines[1::3], lines[2::3]):
        answers.append(([int(x) for x in mult.split()[1:]], [int(x) for x in weights.split()[1:]], int(time.split()[1])))
    if len(answers) != len(texts):
        sys.exit(f"{len(answers)} answers to {len(texts)} programs")
    return answers


def random_program(rng):
    """20 to 60 rows, 60 to 600 columns with entries 0, 1, 2, kept by hidden weights; the last 20 columns are new."""
    rows, count = rng.randint(20, 60), rng.randint(60, 600)
    most = rng.randint(2, 8)
    columns = []
    for _ in range(count + 20):
        chosen = sorted(rng.sample(range(rows), rng.randint(1, most)))
        columns.append((rng.randint(1, 1000), [(row, rng.choice((1, 1, 1, 2))) for row in chosen]))
    activity = [0] * rows
    for cost, entries in rng.sample(columns[:count], min(count, rows)):
        for row, value in entries:
            activity[row] += value
    kinds = rng.choice((("equal",), ("equal", "low", "high", "range"), ("low", "equal")))
    sides = []
    for at in activity:
        kind = rng.choice(kinds)
        sides.append({"equal": (at, at), "low": (at, None), "high": (None, at), "range": (at - 1, at + 1)}[kind])
    return sides, columns[:count], columns[count:]


def exact_optimum(program, folder):
    """The optimum by exact arithmetic, as a fraction: glpsol finds a basis, its values are read as doubles."""
    sides, columns = program
    of_row = [[] for _ in sides]
    for number, (cost, entries) in enumerate(columns):
        for row, value in entries:
            of_row[row].append(f"{value} x{number}")
    lines = ["Minimize", " cost: " + "\n  + ".join(f"{cost} x{number}" for number, (cost, _) in enumerate(columns)), "Subject To"]
    for number, ((low, high), terms) in enumerate(zip(sides, of_row)):
        terms = "\n  + ".join(terms or ["0 x0"])
        if low == high:
            lines.append(f" r{number}: {terms} = {low}")
        else:
            if low is not None:
                lines.append(f" l{number}: {terms} >= {low}")
            if high is not None:
                lines.append(f" h{number}: {terms} <= {high}")
    lines.append("End")
    model, answer = folder / "model.lp", folder / "answer.txt"
    model.write_text("\n".join(lines) + "\n")
    done = subprocess.run(["glpsol", "--lp", model, "--exact", "-w", answer], capture_output=True, text=True)
    for line in answer.read_text().splitlines():
        words = line.split()
        if words[0] == "s" and words[1] == "bas":
            if words[4] != "f" or words[5] != "f":
                sys.exit(f"glpsol: {line}\n{done.stdout}")
            return Fraction(words[6])
    sys.exit("glpsol gave no answer")


def gaps(program, answer, optimum):
    """Relative gaps of the cost of the weights and of the value of the multipliers; the greatest violation of a side;
    the least reduced cost."""
    sides, columns = program
    mult, weights, _ = answer
    cost = sum(Fraction(weight * column[0], UNIT) for weight, column in zip(weights, columns))
    value = sum(Fraction(y * (low if y > 0 else high), UNIT) for y, (low, high) in zip(mult, sides) if y != 0)
    activity = [Fraction(0)] * len(sides)
    for weight, (_, entries) in zip(weights, columns):
        for row, coefficient in entries:
            activity[row] += Fraction(weight * coefficient, UNIT)
    violation = max(max(low - at if low is not None else 0, at - high if high is not None else 0, 0) for at, (low, high) in zip(activity, sides))
    reduced = min(Fraction(column[0]) - sum(Fraction(mult[row] * v, UNIT) for row, v in column[1]) for column in columns)
    return abs(cost - optimum) / abs(optimum), abs(value - optimum) / abs(optimum), violation, reduced


def warm_program(program, new, answer):
    """The columns of the last basis, the marker that names the rows with a multiplier, the other columns, new ones."""
    sides, columns = program
    mult, weights, _ = answer
    basis = [column for column, weight in zip(columns, weights) if weight > 0]
    others = [column for column, weight in zip(columns, weights) if weight == 0]
    marker = (0, [(row, 0) for row, y in enumerate(mult) if y != 0])
    return sides, basis + [marker] + others + new


def turns_used(path, programs, answers):
    """For each program the least number of turns from which on the answer is the same."""
    low, high = [0] * len(programs), [20_000] * len(programs)
    while any(a < b for a, b in zip(low, high)):
        middle = [(a + b) // 2 for a, b in zip(low, high)]
        tried = solve_all(path, [as_text(p, m) for p, m in zip(programs, middle)])
        for k, (one, other) in enumerate(zip(tried, answers)):
            if one[:2] == other[:2]:
                high[k] = middle[k]
            else:
                low[k] = min(middle[k] + 1, high[k])
    return low


def spread(numbers):
    """Least, median, mean and greatest."""
    numbers = sorted(numbers)
    return f"least {numbers[0]:.4g}, median {numbers[len(numbers) // 2]:.4g}, mean {sum(numbers) / len(numbers):.4g}, greatest {numbers[-1]:.4g}"


def report(name, path, programs, folder, repeats):
    answers = solve_all(path, [as_text(p, ENOUGH, repeats) for p in programs])
    found = [gaps(p, a, exact_optimum(p, folder)) for p, a in zip(programs, answers)]
    print(name)
    print("  gap of the cost of the weights    ", spread([float(f[0]) for f in found]))
    print("  gap of the value of the multipliers", spread([float(f[1]) for f in found]))
    print("  greatest violation of a side      ", spread([float(f[2]) for f in found]))
    print("  least reduced cost                ", spread([float(f[3]) for f in found]))
    print("  milliseconds of a call            ", spread([a[2] / 1e6 for a in answers]))
    print("  turns                             ", spread(turns_used(path, programs, answers)))
    return answers


def quality(path):
    rng = random.Random(26)
    drawn = [random_program(rng) for _ in range(200)]
    with tempfile.TemporaryDirectory() as folder:
        folder = Path(folder)
        base = [(sides, columns) for sides, columns, _ in drawn]
        answers = report("200 programs from nothing", path, base, folder, 5)
        grown = [(sides, columns + new) for sides, columns, new in drawn]
        report("the same with 20 columns more, from nothing", path, grown, folder, 5)
        warm = [warm_program(p, new, a) for p, (_, _, new), a in zip(base, drawn, answers)]
        report("the same with 20 columns more, from the last basis", path, warm, folder, 5)


def hostile_number(rng):
    ends = (0, 1, -1, 2, 2**63 - 1, -(2**63), 2**62, -(2**62), 2**20, -(2**20), 2**20 + 1, 2**26, -(2**26), 2**26 + 1, 2**39, -(2**39))
    choice = rng.random()
    if choice < 0.35:
        return rng.choice(ends)
    if choice < 0.6:
        return rng.randint(-3, 3)
    if choice < 0.8:
        return rng.randint(-(2**20), 2**20)
    return rng.randint(-(2 ** rng.randint(1, 63)), 2 ** rng.randint(1, 63) - 1)


def hostile_entry_row(rng, rows):
    choice = rng.random()
    if rows and choice < 0.97:
        return rng.randrange(min(rows, rng.choice((1, 3, rows))))
    return rng.choice((rows, 2**32 - 1, rng.randrange(2**32)))


def hostile_program(rng):
    is_large = rng.random() < 0.005
    rows = rng.choice((200, 1_200, 1_500) if is_large else (0, 1, 2, 3, 5, 8, 13, 21, 34))
    count = rng.choice((0, 1, 2, 5, 10, 30, 60))
    calm = rng.random() < 0.5
    number = (lambda: rng.randint(-5, 5)) if calm else (lambda: hostile_number(rng))
    sides = []
    for _ in range(rows):
        low, high = hostile_number(rng), hostile_number(rng)
        if rng.random() < 0.3:
            high = low
        sides.append((None if rng.random() < 0.25 else low, None if rng.random() < 0.25 else high))
    columns = []
    for _ in range(count):
        zero = rng.random() < 0.05
        entries = [(hostile_entry_row(rng, rows), 0 if zero else number()) for _ in range(rng.randint(0, 12))]
        columns.append((hostile_number(rng) if rng.random() < 0.5 else number(), entries))
        if rng.random() < 0.1:
            columns.append(columns[-1])
    return (sides, columns), rng.choice((0, 1, 2, 7) if is_large else (0, 1, 2, 7, 60, 300, 2_000))


def hostile(path):
    rng = random.Random(2026)
    drawn = [hostile_program(rng) for _ in range(8_000)]
    kinds = {"multipliers not 0": 0, "multipliers at the greatest magnitude": 0, "weights above 1": 0, "weights at the greatest": 0}
    for first in range(0, len(drawn), 500):
        part = drawn[first : first + 500]
        answers = solve_all(path, [as_text(program, pivots) for program, pivots in part])
        for ((sides, columns), _), (mult, weights, _) in zip(part, answers):
            assert len(mult) == len(sides) and len(weights) == len(columns)
            for y, (low, high) in zip(mult, sides):
                assert -(2**48) <= y <= 2**48
                assert low is not None or y <= 0
                assert high is not None or y >= 0
            assert all(0 <= weight <= 2**40 for weight in weights)
            kinds["multipliers not 0"] += sum(y != 0 for y in mult)
            kinds["multipliers at the greatest magnitude"] += sum(abs(y) == 2**48 for y in mult)
            kinds["weights above 1"] += sum(weight > 1 for weight in weights)
            kinds["weights at the greatest"] += sum(weight == 2**40 for weight in weights)
        print(f"{first + len(part)} programs: lengths, ranges and signs as promised", flush=True)
    print(kinds)


if __name__ == "__main__":
    wanted = sys.argv[2:] or ["quality", "hostile"]
    for word in wanted:
        {"quality": quality, "hostile": hostile}[word](sys.argv[1])
