#!/usr/bin/env python3
"""Writes the cases of crates/rewriting_tests/src/certified.rt: long certificates, each a walk, the records of its rewritings and the
walk that they make of it.

It follows docs/RULES.md on trace.py's sets of triangles and shares nothing with the Rattle code.
"""
import random

from trace import judge, polygon, step, torus, triangle_of


def inverse(s):
    code, e, f = s
    return (1 - code, e, f) if code < 2 else s


def there(triangles, walk, place):
    for s in walk[:place]:
        triangles = step(triangles, *s)
    return triangles


def triangles_of(triangles, e):
    return {t for t in triangles if 2 * e in t or 2 * e + 1 in t}


def flippable(triangles, e):
    return step(triangles, 0, e, 0) is not None


def swap_and_turns(triangles, e, f):
    """What five left flips of e and f in turn, e first, amount to, or None where the edges make no pentagon."""
    if e == f or not flippable(triangles, e) or not flippable(triangles, f):
        return None
    shared = triangles_of(triangles, e) & triangles_of(triangles, f)
    if len(shared) != 1:
        return None
    (t,) = shared
    (x,) = [d for d in t if d // 2 == e]
    (y,) = [d for d in t if d // 2 == f]
    mixed = x % 2 != y % 2
    if triangle_of(triangles, y)[1] == x:
        turns = [e, f] if mixed else []
    else:
        turns = [f] if mixed else [e]
    return [(3, min(e, f), max(e, f))] + [(2, k, 0) for k in turns]


def carried(label, passed):
    """The step passed, once the label step has passed it, or None where it may not."""
    if label[0] == 2:
        return passed if passed[0] < 3 else None
    names = {label[1]: label[2], label[2]: label[1]}
    code, e, f = passed
    if code < 3:
        return (code, names.get(e, e), f)
    return (3, *sorted((names.get(e, e), names.get(f, f))))


def replaced(walk, place, old, new):
    if walk[place:place + len(old)] != old:
        return None
    made = walk[:place] + new + walk[place + len(old):]
    return made if len(made) <= 256 else None


def rewritten(start, edges, walk, record):
    """The walk that a record makes of a walk, or None where it is refused."""
    rule, way, place, code, e, f = record
    if place > len(walk):
        return None
    here, at = there(start, walk, place), walk[place:place + 2]
    if rule == 1 and way == 0:
        return replaced(walk, place, [at[0], inverse(at[0])], []) if at else None
    if rule == 1:
        s = (code, e, f)
        if judge(*s, edges) is not None or step(here, *s) is None:
            return None
        return replaced(walk, place, [], [s, inverse(s)])
    if rule == 2 and way == 0:
        return replaced(walk, place, [at[0]] * 2, [(2, at[0][1], 0)]) if at and at[0][0] == 0 else None
    if rule == 2:
        if not at or at[0][0] != 2 or not flippable(here, at[0][1]):
            return None
        return replaced(walk, place, at[:1], [(0, at[0][1], 0)] * 2)
    if rule == 3:
        if len(at) < 2 or at[0][0] > 1 or at[1][0] > 1 or triangles_of(here, at[0][1]) & triangles_of(here, at[1][1]):
            return None
        return replaced(walk, place, at, [at[1], at[0]])
    if rule == 4:
        if len(at) < 2:
            return None
        label, passed = at if way == 0 else (at[1], at[0])
        after = carried(label, passed) if label[0] > 1 else None
        if after is None:
            return None
        return replaced(walk, place, at, [after, label] if way == 0 else [label, after])
    turned = swap_and_turns(here, e, f)
    if turned is None:
        return None
    five = [(0, k, 0) for k in (e, f, e, f, e)]
    return replaced(walk, place, five, turned) if way == 0 else replaced(walk, place, turned, five)


WAYS = [(1, 0), (1, 1), (2, 0), (2, 1), (3, 0), (4, 0), (4, 1), (5, 0), (5, 1)]


def certificate(start, edges, length, seed):
    """A walk, so many records that are granted one after the other, of all rules and ways, and the walk that they make."""
    rng = random.Random(seed)
    walk, here = [], start
    while len(walk) < 40:
        s = (rng.randrange(4), rng.randrange(edges), 0)
        if s[0] == 3:
            s = (3, *sorted((s[1], rng.randrange(edges))))
        after = None if judge(*s, edges) is not None else step(here, *s)
        if after is not None:
            walk, here = walk + [s], after
    first, records, counts = walk, [], {}
    while len(records) < length:
        rule, way = rng.choice(WAYS)
        if rule == 1 and len(walk) > 200 and way == 1 or rule == 1 and len(walk) < 30 and way == 0:
            continue
        made = None
        for _ in range(400):
            place = rng.randrange(len(walk) + 1)
            code = e = f = 0
            if (rule, way) == (1, 1):
                code, e = rng.randrange(4), rng.randrange(edges)
                if code == 3:
                    e, f = sorted((e, rng.randrange(edges)))
            if rule == 5:
                if way == 0 and place + 1 < len(walk):
                    e, f = walk[place][1], walk[place + 1][1]
                elif way == 1 and place < len(walk) and walk[place][0] == 3:
                    e, f = walk[place][1:] if rng.random() < 0.5 else walk[place][:0:-1]
            made = rewritten(start, edges, walk, (rule, way, place, code, e, f))
            if made is not None:
                break
        if made is not None:
            walk = made
            records.append((rule, way, place >> 8, place & 255, code, e, f))
            counts[rule, way] = counts.get((rule, way), 0) + 1
    return first, records, walk, counts


def const(name, width, rows):
    per = 84 // (4 * width)
    lines = [rows[k:k + per] for k in range(0, len(rows), per)]
    text = "\\\n".join("    " + "".join("".join("\\x%02x" % x for x in r) for r in line) for line in lines)
    return 'pub const %s: &[u8] = b"\\\n%s";\n' % (name, text)


def main():
    print("// Written by tools/certificate.py, from sets of triangles. A step has three bytes, a record seven.")
    fan = [(0, k) for k in range(2, 8)]
    for name, start, edges, seed in [("TORUS", torus(3), 9, 11), ("NONAGON", polygon(9, fan), 15, 12)]:
        first, records, last, counts = certificate(start, edges, 400, seed)
        print()
        print("// " + ", ".join("%d of rule %d, way %d" % (counts[w], *w) for w in sorted(counts)))
        print(const(name + "_WALK", 3, first))
        print(const(name + "_RECORDS", 7, records))
        print(const(name + "_END", 3, last), end="")


main()
