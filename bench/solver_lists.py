#!/usr/bin/env python3
"""Makes seeded lists of constraints `x - y <= c`, has the proved solver and a plain Bellman-Ford solve each, compares
their answers, and prints the least time of each and the ratio of the two.

usage: solver_lists.py SOLVER BELLMAN_FORD FOLDER"""
import random
import subprocess
import sys

SIZES = [100, 200, 300, 400, 512]
# Constraints for each variable: 15,360 at 512 variables.
FACTOR = 30


def met_by(values, x, y, slack):
    return (x, y, values[x] - values[y] + slack)


def solvable(random, n):
    """Random bounds that hidden values meet, a third of them tightly."""
    values = [random.randrange(10**9) for _ in range(n)]
    pairs = [random.sample(range(n), 2) for _ in range(FACTOR * n)]
    return [met_by(values, x, y, random.choice([0, random.randrange(10**3), random.randrange(10**8)])) for x, y in pairs]


def chain(random, n):
    """A chain whose last step stands first, so that each round raises one variable more, and bounds that it meets."""
    steps = [(i, i + 1, -1) for i in reversed(range(n - 1))]
    values = list(range(n))
    pairs = [random.sample(range(n), 2) for _ in range(FACTOR * n - len(steps))]
    return steps + [met_by(values, x, y, 1 + random.randrange(7)) for x, y in pairs]


def cyclic(random, n):
    """A solvable list with a cycle of ten bounds whose sum is -1."""
    bounds = solvable(random, n)
    way = random.sample(range(n), 10)
    costs = [random.randrange(-10**6, 10**6) for _ in way[1:]]
    costs.append(-1 - sum(costs))
    bounds += list(zip(way, way[1:] + way[:1], costs))
    random.shuffle(bounds)
    return bounds


def solved(program, path):
    """The answer of a program for the list, and its least time in nanoseconds."""
    lines = subprocess.run([program, path], check=True, capture_output=True, text=True).stdout.splitlines()
    return lines[0], min(int(line.split()[1]) for line in lines if line.startswith("took "))


def main():
    solver, plain, folder = sys.argv[1:]
    print("kind      variables  constraints  solver us  plain us  ratio")
    for kind in [solvable, chain, cyclic]:
        for n in SIZES:
            bounds = kind(random.Random(n), n)
            path = f"{folder}/{kind.__name__}_{n}"
            with open(path, "w") as file:
                file.write(f"{n}\n" + "".join(f"{x} {y} {c}\n" for x, y, c in bounds))
            (own, took), (other, plain_took) = solved(solver, path), solved(plain, path)
            if own != other and not (own.startswith("cycle") and other.startswith("cycle")):
                sys.exit(f"{path}: the answers differ")
            print(f"{kind.__name__:9} {n:9}  {len(bounds):11}  {took / 1000:9.1f}  {plain_took / 1000:8.1f}  {took / plain_took:5.2f}")


main()
