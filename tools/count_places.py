#!/usr/bin/env python3
"""Lists the places that docs/DESIGN-PASS.md speaks of, point by point: python3 tools/count_places.py [POINT].

It reads src/ of each crate that has no tests in its name, and proofs/ for point 8. A place is a line, or for points 2 and 5 a pair
of functions, a clause or a group of parameters."""
import difflib
import pathlib
import re
import sys
from collections import defaultdict
from itertools import combinations

ROOT = pathlib.Path(__file__).resolve().parent.parent / "crates"
CRATES = [c for c in sorted(ROOT.iterdir()) if not c.name.endswith("_tests")]
FILES = [f for c in CRATES for f in sorted((c / "src").rglob("*.rt"))]
TOKEN = re.compile(r"\w+|[^\w\s]")


def name(path):
    return str(path.relative_to(ROOT))


def lines(pattern):
    test = re.compile(pattern)
    found = []
    for path in FILES:
        for at, line in enumerate(path.read_text().splitlines(), 1):
            if test.search(line) and not line.lstrip().startswith(("//", "ghost use")):
                found.append(f"{name(path)}:{at}: {line.strip()}")
    return found


def functions():
    """Each function: where, its parameters, its clauses and the tokens of its body."""
    for path in FILES:
        text = path.read_text()
        for start in re.finditer(r"^( *)(?:pub(?:\(crate\))? )?fn (\w+)", text, re.M):
            end = re.compile(rf"^{start[1]}(?:\}}|[^ \n].*;)$", re.M).search(text, start.end())
            whole = text[start.start():end.end()] if end else ""
            clauses = re.findall(r"^ *(?:requires|ensures)\*?(?: \w+)? \{ (.*) \}$", whole, re.M)
            head, _, body = whole.partition("\n" + start[1] + "{\n")
            if not body:
                head, _, body = whole.partition("{\n")
            sign = head.split("requires")[0].split("ensures")[0]
            asked = re.findall(r"(\w+): ([^,()]+(?:\([^()]*\))?[^,()]*)", sign[sign.find("("):])
            needs = [c for c in clauses if f"requires" in whole.split(c)[0].splitlines()[-1]]
            yield f"{name(path)} {start[2]}", asked, needs, TOKEN.findall(body)


def twins():
    found = []
    known = [(w, t) for w, _, _, t in functions() if len(t) >= 18]
    for (a, s), (b, t) in combinations(known, 2):
        if min(len(s), len(t)) / max(len(s), len(t)) < 0.7:
            continue
        ratio = difflib.SequenceMatcher(None, s, t, autojunk=False).ratio()
        if ratio >= 0.8:
            found.append(f"{a} ~ {b} ({ratio:.2f})")
    return found


def repeated():
    by_clause, by_group = defaultdict(list), defaultdict(list)
    for where, asked, needs, _ in functions():
        crate = where.split("/")[0]
        for clause in needs:
            for fact in re.findall(r"[^×()]*[≤<≡][^×()]*(?:\([^()]*\)[^×()]*)*", clause):
                by_clause[crate, fact.strip()].append(where)
        for pair in combinations(sorted(set((n, t.strip()) for n, t in asked)), 2):
            by_group[crate, pair].append(where)
    found = [f"{c}: requires {{ {f} }} in {len(w)}" for (c, f), w in by_clause.items() if len(w) >= 3]
    found += [f"{c}: {', '.join(': '.join(p) for p in g)} in {len(w)}" for (c, g), w in by_group.items() if len(w) >= 3]
    return found


def proofs():
    found = []
    for crate in CRATES:
        answers = list((crate / "proofs").rglob("Answers.antt"))
        lemmas = list((crate / "proofs").glob("*.antt"))
        given = sum(len(re.findall(r"^pub [\w·'-]+ :", f.read_text(), re.M)) for f in answers)
        own = sum(len(re.findall(r"^ *(?:pub )?[a-z][\w'-]* :", f.read_text(), re.M)) for f in lemmas)
        size = sum(len(f.read_text().splitlines()) for f in answers + lemmas)
        found.append(f"{crate.name}: {given} answers, {own} lemmas in proofs/, {size} lines")
    return found


POINTS = {
    "1a a change that answers a flag": lambda: lines(r"fn \w+\(.*&mut .*\) -> bool"),
    "1b arms on Option and Result": lambda: lines(r"^\s*(?:Some\(.*\)|None|Ok\(.*\)|Err\(.*\))(?: if .*)? =>"),
    "1c let or else": lambda: lines(r"^\s*let (?!.*= if ).* else \{$"),
    "1d numbers for kinds": lambda: lines(r"\b(?:mark|rule|way|code): (?:&'a )?u8"),
    "1e numbers for refusals": lambda: lines(r"fn (?:number|layer)\(self\)"),
    "1f theorems that answer a number": lambda: lines(r"fn (?:\w+_stands?|cut_into_triangles)\b.*-> u8") ,
    "2 functions alike": twins,
    "3 loops that count": lambda: lines(r"^\s*(?:while|loop)\b|^\s*for \w+ in [^&(]*\.\."),
    "4 written by hand": lambda: lines(r"fn \w+_(?:text|line)\(|256 \*|\.low == .*\.low|\.high == .*\.high|fn refusal_of|impl From|fn inserted"),
    "5 facts and parameters together": repeated,
    "6 buffers": lambda: lines(r"\[[A-Z]\w*(?:<\w+>)?; (?:\d+|[A-Z_]+)\]|-> \(\["),
    "7 switches": lambda: lines(r"\bdyn\b|&\[fn|match rewriting|match \(self\.rule"),
    "8 proofs": proofs,
}

if __name__ == "__main__":
    for point, places in POINTS.items():
        if len(sys.argv) < 2 or point.startswith(sys.argv[1]):
            found = places()
            print(f"## {point}: {len(found)}")
            print("\n".join("  " + f for f in found))
