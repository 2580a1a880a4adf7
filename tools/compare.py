#!/usr/bin/env python3
"""Runs crates/dome_trace/out/dome_trace and the independent tracer on random cases, good and damaged, and compares what they print.

Usage: tools/compare.py [CASES [SEED]], after ./run_trace has built the program.
"""
import math
import pathlib
import random
import subprocess
import sys

sys.dont_write_bytecode = True
from trace import trace

PROGRAM = pathlib.Path(__file__).resolve().parent.parent / "crates" / "dome_trace" / "out" / "dome_trace"


def record(rng, edges):
    code = rng.choice([0, 0, 0, 1, 1, 2, 3]) if rng.random() < 0.98 else rng.randrange(256)
    e = rng.randrange(max(edges, 1)) if rng.random() < 0.985 else rng.randrange(256)
    f = 0
    if code == 3:
        f = rng.randrange(max(edges, 1))
        if rng.random() < 0.95:
            e, f = min(e, f), max(e, f)
        if e == f and rng.random() < 0.9:
            f = min(f + 1, 255)
    elif rng.random() < 0.01:
        f = rng.randrange(256)
    return [code, e, f]


def triangulated(rng, n):
    """A random list of n - 3 diagonals that do not cross."""
    diagonals, parts = [], [list(range(n))]
    while parts:
        part = parts.pop()
        if len(part) > 3:
            i = rng.randrange(len(part))
            part = part[i:] + part[:i]
            k = rng.randrange(2, len(part) - 1)
            diagonals.append(sorted((part[0], part[k])))
            parts += [part[:k + 1], part[k:] + part[:1]]
    rng.shuffle(diagonals)
    return diagonals


def surface(rng):
    """The bytes of a surface, and its number of edges."""
    if rng.random() < 0.5:
        m = rng.choice([0, 1, 1, 2, 2, 3, 5, 21, 22])
        return [0, m, 0x54 if rng.random() < 0.95 else rng.randrange(256)], 3 * m
    n = rng.choice([2, 3, 4, 5, 5, 6, 7, 9, 33, 34])
    corners = [c for d in triangulated(rng, n) for c in d] if n > 2 else []
    if corners and rng.random() < 0.2:
        corners[rng.randrange(len(corners))] = rng.randrange(n + 2)
    return [0, n, 0x50] + corners, max(2 * n - 3, 1)


def number(rng, mark):
    if mark == 1:
        return rng.choice([rng.randrange(-9, 9), rng.randrange(-2**40, 2**40 + 1), 2**40, 2**40 + 1]).to_bytes(8, "big", signed=True)
    top, bottom = (rng.choice([rng.randrange(1, 20), rng.randrange(1, 2**31)]) for _ in range(2))
    g = math.gcd(top, bottom) if rng.random() < 0.99 else 1
    return (top // g).to_bytes(4, "big") + (bottom // g).to_bytes(4, "big")


def values(rng, edges):
    """A second walk, rewritings and values, or nothing."""
    if rng.random() < 0.3:
        return b""
    second, rewritings = rng.randrange(3), rng.randrange(3)
    count = edges if rng.random() < 0.95 else rng.randrange(9)
    mark = rng.choice([1, 2, 2]) if rng.random() < 0.97 else rng.randrange(256)
    data = bytes([0, second]) + bytes(3 * second) + bytes([0, rewritings]) + bytes(7 * rewritings) + bytes([0, count, mark])
    return data + b"".join(number(rng, mark) for _ in range(count))


def case(rng):
    opening, edges = surface(rng)
    steps = rng.choice([0, 1, 3, 10, 40, 256, 257, 300]) if rng.random() < 0.3 else rng.randrange(12)
    data = bytes(opening + [steps >> 8, steps & 255])
    data += bytes(b for _ in range(min(steps, 256)) for b in record(rng, edges))
    data += values(rng, edges)
    if rng.random() < 0.1:
        data = data[:rng.randrange(len(data) + 1)]
    if rng.random() < 0.1:
        data += bytes(rng.randrange(256) for _ in range(5))
    return data


def main():
    cases = int(sys.argv[1]) if len(sys.argv) > 1 else 1000
    rng = random.Random(int(sys.argv[2]) if len(sys.argv) > 2 else 7)
    for k in range(cases):
        data = case(rng)
        run = subprocess.run([PROGRAM], input=data, capture_output=True)
        if run.returncode != 0 or run.stdout != trace(data).encode():
            sys.exit("case %d differs: %s" % (k, data.hex()))
    print("%d cases agree" % cases)


main()
