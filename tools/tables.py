#!/usr/bin/env python3
"""Writes the cases of crates/surfaces_tests/src/cases.rt: walks on tori and the tables to which they lead.

The tables come from trace.py's sets of triangles, not from the Rattle code.
"""
import random

from trace import judge, step, torus, triangle_of


def walk(m, length, seed):
    """A legal walk on the torus with m punctures that mixes all four steps, and the triangles to which it leads."""
    rng = random.Random(seed)
    triangles, steps = torus(m), []
    while len(steps) < length:
        code, e, f = rng.randrange(4), rng.randrange(3 * m), 0
        if code == 3:
            e, f = sorted((e, rng.randrange(3 * m)))
        if judge(code, e, f, 3 * m) is not None:
            continue
        after = step(triangles, code, e, f)
        if after is not None:
            triangles = after
            steps.append((code, e, f))
    return steps, triangles


def table(m, triangles):
    return [triangle_of(triangles, d)[1] for d in range(6 * m)]


def rows(values, width, indent):
    lines = [values[k:k + width] for k in range(0, len(values), width)]
    return "".join(" " * indent + ", ".join(map(str, line)) + ",\n" for line in lines)


def const(name, kind, values, width):
    return "pub const %s: [%s; %d] = [\n%s];\n" % (name, kind, len(values), rows(values, width, 4))


def main():
    print("// Written by tools/tables.py, from sets of triangles: walks on tori, and the dart that follows each dart at their ends.")
    for m, length in [(1, 12), (2, 16), (3, 20), (21, 60)]:
        steps, triangles = walk(m, length, 100 + m)
        print()
        print(const("TORUS_%d" % m, "u8", table(m, torus(m)), 16))
        print(const("WALK_%d" % m, "[u8; 3]", ["[%d, %d, %d]" % s for s in steps], 8))
        print(const("END_%d" % m, "u8", table(m, triangles), 16), end="")


main()
