#!/usr/bin/env python3
"""Writes crates/polygons_tests/src/cases.rt: triangulated polygons and the darts of their triangles. Run `rt fmt` after it.

The triangles are found as the triples of corners that are joined pairwise, and the triangulations of the heptagon by joining a side
to each other corner, so that nothing is shared with the crate under test.
"""
import itertools
import pathlib
import random


def triangulations(corners):
    """All sets of diagonals that cut the polygon on this list of corners into triangles."""
    if len(corners) < 3:
        return [set()]
    first, last = corners[0], corners[-1]
    found = []
    for k in range(1, len(corners) - 1):
        apex = corners[k]
        own = set()
        if k > 1:
            own.add((first, apex))
        if k < len(corners) - 2:
            own.add((apex, last))
        for left in triangulations(corners[: k + 1]):
            for right in triangulations(corners[k:]):
                found.append(own | left | right)
    return found


def triangles(n, diagonals):
    """The triangles, counterclockwise, as darts."""
    darts = {}
    for i in range(n):
        darts[i, (i + 1) % n] = 2 * i
    for k, (low, high) in enumerate(diagonals):
        darts[low, high] = 2 * (n + k)
        darts[high, low] = 2 * (n + k) + 1
    joined = {frozenset(pair) for pair in darts}
    found = []
    for a, b, c in itertools.combinations(range(n), 3):
        if {frozenset((a, b)), frozenset((b, c)), frozenset((a, c))} <= joined:
            found.append([darts[a, b], darts[b, c], darts[c, a]])
    assert len(found) == n - 2
    return found


def rows(values, per_row):
    lines = [", ".join(values[i : i + per_row]) for i in range(0, len(values), per_row)]
    return "".join(f"    {line},\n" for line in lines)


def flat(name, values, size):
    text = ["[" + ", ".join(map(str, value)) + "]" for value in values]
    return f"pub const {name}: [[u8; {size}]; {len(values)}] = [\n{rows(text, 10)}];\n"


def nested(name, groups, size):
    text = ["[" + ", ".join("[" + ", ".join(map(str, value)) + "]" for value in group) + "]" for group in groups]
    return f"pub const {name}: [[[u8; {size}]; {len(groups[0])}]; {len(groups)}] = [\n{rows(text, 1)}];\n"


def zigzag(n):
    low, high, found = 0, n - 1, []
    while high - low > 2:
        low += 1
        found.append((low, high))
        if high - low > 2:
            high -= 1
            found.append((low, high))
    return found


def main():
    order = random.Random(7)
    heptagons = []
    for cut in sorted(triangulations(list(range(7))), key=sorted):
        cut = sorted(cut)
        order.shuffle(cut)
        heptagons.append(cut)
    assert len(heptagons) == 42
    fan = [(0, k) for k in range(2, 32)]
    zig = zigzag(33)
    order.shuffle(zig)
    parts = [
        "// Written by tools/polygon_cases.py: diagonals, and the darts of the triangles into which they cut a polygon.\n",
        flat("HEPTAGON_DIAGONALS", [(i, j) for i in range(7) for j in range(i + 2, 7) if (i, j) != (0, 6)], 2),
        nested("HEPTAGONS", heptagons, 2),
        nested("HEPTAGON_TRIANGLES", [triangles(7, cut) for cut in heptagons], 3),
        flat("FAN", fan, 2),
        flat("FAN_TRIANGLES", triangles(33, fan), 3),
        flat("ZIGZAG", zig, 2),
        flat("ZIGZAG_TRIANGLES", triangles(33, zig), 3),
    ]
    here = pathlib.Path(__file__).resolve().parent.parent
    (here / "crates/polygons_tests/src/cases.rt").write_text("\n".join(parts))


main()
