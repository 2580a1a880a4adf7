#!/usr/bin/env python3
"""Respells this repository's own definitions and lemmas for today's Rattle: words in snake case, facts in camel case.

usage: python3 tools/respell_names.py        at the top of the repository, once, after the toolchain's own port.py

It touches specs/ and proofs/, the ghost imports and clauses of src/, and names in backticks in the README and docs/. It leaves
functions of src/, strings, comments, inputs and outputs, must-fail edits, and the names that Rattle makes (`c.f-r.result`).
It stops, with nothing written, where two names would fall together.
"""

import os
import re
import sys

# Each of these stands with dashes in the files as the toolchain's script left them. A dash beside `++` stays: it joins two names.
NAMES = """
C-none C-split Certificate-keeps Cut-into-triangles Five-cycle Flip-blocked Flips-row Granted-whenever Is-polygon Judging-stands L-again L-lawful
L-then-L L-then-R Left-flip-of-two Legal-step M-is M-most M-next M-side Names-label Pentagon-fractions Pentagon-walks R-again R-lawful R-then-L
R-then-R Result-held Rewriting-keeps Rows-agree S-lawful Says-surface-refused Step-blocked Step-held Step-refused T-lawful Twice-is Walk-held a-b a-on
a-stands a-stored add-first add-second after-past after-swap agree-back agree-is agree-within ahead-behind ahead-less all-below all-bit all-reached
all-times answered-err answered-ok answers-as answers-same apart-agree apart-under apart-values apex-is apply-step around-stored asked-all at-0 at-3
at-below at-dart at-e at-step b-a b-stands b-stored base-dart before-flip before-turn begins-front begins-with begun-back begun-parts begun-within
behind-ahead behind-less below-0 below-6 below-closed below-moves below-round between-apart between-from between-to between-turn blank-apart both-e
both-f both-held bottom-positive bump-off by-diagonal by-e by-f by-found by-test by-turns by-under c-on c-stands c-stored can-e can-f carried-bump
carried-left carried-right carried-value carry-fault-number carry-values certificate-agree change-listed change-made change-reason changes-agree
checked-is chord-dart clashes-not clear-below closed-listed closes-from closes-to cond-renamed copies-is coprime-decided coprime-divides corner-missed
corner-of corner-tested corners-below corners-text count-in count-refused counts-are counts-fit counts-from cross-equal cross-equal-same
cut-into-triangles cut-length dart-at dart-is dart-other dart-side dart-to denominator-from denominator-to diag-around diag-inner diag-proper
diagonal-dart diagonal-ends diagonal-fault diagonals-judged distrib-left divided-by divided-is double-agree double-joined double-split dropped-listed
dropped-reason e-0 e-at e-at-below e-flips e-here e-less e-stands e-stays e-stored e-there e-to e-to-below edge-bound edge-i edge-j either-ratio end-e
end-else end-f ends-below ends-down ends-inside ends-outside ends-past ends-up eqb-both eqb-named eqb-past err-if err-unless euclid-in euclid-is
euclid-turns even-stays exact-is exch-closed exchange-text exchanged-along exchanged-below exchanged-else exchanged-first exchanged-own
exchanged-second exchanged-sorted exchanged-turned exch₂-closed f-0 f-1 f-at f-at-below f-flips f-here f-less f-there f-to f-to-below factor-pos
fault-before fault-number few-err few-ok fifth-flip first-again first-crossed first-fault first-held first-illegal first-product first-put fits-if
fits-unless fits-when five-cycle five-exchange five-flips five-lead five-values five-w flip-answer flip-closed flip-decides flip-e flip-f flip-in
flip-kept flip-legal flip-no-label flip-parts flip-passes flip-past flip-product flip-refused flip-renamed flip-result flip-step flip-stepped
flip-value flip-value-same flip-view flip-w flippable-edge flippable-past flippable-small flipped-as flipped-by flipped-by-past flipped-edge
flipped-half-turn flipped-past flipped-same flipped-twice flipped-value flips-commute flips-legal flips-result flips-row formed-refusal found-diagonal
fourth-flip fraction-layout fraction-result fractions-bounded fractions-lawful fractions-on-pentagon fractions-on-torus frame-after frame-before
framed-both framed-flip from-corner from-five from-five-turned from-monomials from-none from-six from-six-turned front-written g-stands g-stored
gcd-left gcd-pos gcd-right going-all going-count going-none going-refused granted-by granted-whenever guess-under has-form held-few held-reduced
held-split here-listed here-made here-reason here-refusal high-first high-of illegal-at in-bit in-carry in-flip in-range in-thousandths inner-apex
insert-is insert-refusal inside-tri integers-laws inverse-flip inverse-label is-label is-monomial is-other is-row0 is-row1 is-some-of is-swap is-turn
is-yes joined-listed joined-reason joins-back joins-down joins-only joins-up judge-spelt judged-left judged-right label-decides label-legal
label-record label-stepped lacking-if lawful-below lawful-by-test lawful-from-list lawful-list lawful-test leads-edges leads-lawful leads-more
leads-push leads-there leads-values leads-values-same learn-is left-listed left-pos left-reason left-side left-tight legal-at legal-before-turn
legal-is legal-label legal-more legal-push legal-test legal-yes length-written list-from-lawful listed-as long-division loops-flippable lowest-terms
lt-or-ge made-same made-text mag-small map-replaced mark-at mark-in marked-fault-number matches-under meant-at meant-flip meant-injective meant-label
meant-length meant-renamed meets-none meets-past merge-is mono-divides mono-equal mono-equal-is mono-min mono-minus mono-times mono-times-is mono-unit
mono-var mono-var-is moves-injective names-few naming-past narrow-bit new-same next-closed next-in next-next-y next-open next-outside next-x next-y
no-condition no-form no-guess no-pentagon none-at none-illegal none-next none-past none-some none-stored not-admitted not-and not-here not-legal-there
not-onward not-or not-zero nth-getD-is nth-map nth-meant nth-step nth-taken nth-within numerator-from numerator-to odd-stays of-value off-after
off-side off-six ok-if ok-unless on-board on-diagonal on-side one-after one-before one-parts one-past one-replaced one-within only-apex only-found
onward-is onward-last onward-less open-side opened-listed or-else-past or-none other-before other-legal other-side other-within outer-apex
over-inverse over-meets over-moves over-product over-same over-strips over-sum own-turn-again own-turn-passes pair-agree pair-dropped pair-in
pair-put-in pairs-in parted-listed parted-reason partner-as partner-edge partner-own partner-swap passed-at pentagon-agree pentagon-at pentagon-closed
pentagon-form pentagon-here pentagon-lawful pentagon-missed pentagon-opened pentagon-other-missed pentagon-refusal pentagon-tested pentagon-walks
poly-equal poly-equal-is poly-equal-same poly-plus poly-plus-is poly-times poly-times-is polygon-at polygon-fault polygon-next polygon-read
polygon-sound power-plus product-assoc product-comm product-cross product-flip product-over product-same product-swap product-unit proper-is
punctures-text put-err put-for put-ok puts-all quotient-inverse quotient-over quotient-product quotient-same ratio-equal ratio-is ratio-plus
ratio-plus-is ratio-product ratio-quotient ratio-sum ratio-times ratio-times-is ratio-trans ratio-var ratio-var-is ratios-laws reached-there
read-fault-number read-spelt reduced-flip reduced-is reduced-stands reduced-unique refusal-layer refusal-number refusal-place refused-by refused-from
refused-if refused-text refused-there refused-with relabelled-board relabelled-lawful relabelled-past relabelled-twice renamed-label renamed-named
renamed-none renamed-some renamed-twice replaced-suc rest-is rewrites-agree rewriting-fault-layer rewriting-fault-number rewriting-fault-place
right-listed right-pos right-reason right-tight row-long run-below same-below same-err same-flips same-is same-labels same-ratio same-side same-sym
same-terms same-trans same-triangulation same-under search-tells second-again second-crossed second-flip second-held second-product second-put
seen-after seen-after₂ seen-bounded seen-flip seen-flippable seen-follows seen-inside seen-lawful seen-relabel seen-round seen-step-flip seen-swap
seen-together seen-turn shares-none shares-past short-decimal side-below side-code side-edge side-ends side-first side-of side-outer side-side
signed-from sits-triangle smallest-first some-apex some-none some-not-none some-stays some-triangle sorted-twice split-bit split-listed split-reason
standing-self standing-set stays-off step-answered step-at step-discrete step-lawful step-passes step-record-at step-record-in step-refused step-text
steps-decide stripped-is sum-assoc sum-swap surface-at surface-refusal swap-agree swap-and-turns swap-edge swap-else swap-even swap-flippable
swap-left swap-named swap-odd swap-other swap-own swap-past-swap swap-right swap-side swap-twice swap-σ table-set table-triangle take-of-set then-e
then-f then-following there-lawful third-flip times-left times-right to-base to-corner to-e to-f together-cases together-fresh together-past
together-self top-positive torus-lawful torus-next torus-sound tri-closed tri-disjoint tri-distinct tri-of triangle-in triangle-of triangle-off
triangle-past triangle-text triangles-at triangulation-of turn-e turn-e-σ turn-edge turn-else turn-f turn-f-σ turn-first turn-flippable turn-left
turn-named turn-of turn-other turn-own turn-passes-flip turn-passes-turn turn-passes-values turn-past-swap turn-past-turn turn-right turned-pentagon
turned-value turned-σ turns-back turns-legal turns-values two-agree two-crossed two-listed two-part two-reason two-there unit-product unstored-number
value-at value-record-at value-step value-step-same valued-flip values-head-at values-more walk-count-at was-none weight-layout weight-result
weights-bounded weights-lawful weights-on-torus when-no when-yes where-so whole-pairs with-d with-d-within with-diagonals with-index with-p
with-p-within with-place with-table within-is x-is x-of y-is yes-legal
""".split()

TOKEN = re.compile(r"[^\s(){}\[\],;.:\"`&*]+")
# In an answer these begin a path of names that Rattle makes.
MADE = ("c", "w", "g", "l", "goal")


def respelt(name):
    """A fact, which begins with a capital and goes on in small letters, in camel case; any other name in snake case."""
    if name == "same-ratio":  # a fact, though it began small
        return "SameRatio"
    if re.match(r"[A-Z][a-z]", name):
        return "".join(w[0].upper() + w[1:] for w in name.split("-"))
    return name.replace("-", "_")


NEW = {n: respelt(n) for n in NAMES}


def in_made_path(text, start):
    """Whether the token at start belongs to a path that begins with one of MADE."""
    m = re.search(r"(?:^|[^\w'-])(\w+)(?:\.[^\s(){}\[\],;.:\"`]+)*\.$", text[:start])
    return bool(m) and m.group(1) in MADE


def turned(text, answers):
    def one(m):
        name = m.group(0)
        if name not in NEW or (answers and in_made_path(text, m.start())):
            return name
        return NEW[name]

    return TOKEN.sub(one, text)


def turned_line(line, mark, answers):
    """The line, with what stands before the comment mark turned, and no string of it."""
    at = line.find(mark)
    code, rest = (line, "") if at < 0 else (line[:at], line[at:])
    parts = re.split(r'("(?:[^"\\]|\\.)*")', code)
    return "".join(p if p.startswith('"') else turned(p, answers) for p in parts) + rest


def turned_page(text):
    return re.sub(r"`[^`\n]*`", lambda m: turned(m.group(0), False), text)


def files():
    for folder, dirs, names in os.walk("crates"):
        dirs[:] = sorted(d for d in dirs if d not in ("out", "must-fail"))
        for f in sorted(names):
            if f.endswith((".rt", ".antt")):
                yield os.path.join(folder, f)


def pages():
    return ["README.md"] + [os.path.join("docs", f) for f in sorted(os.listdir("docs")) if f.endswith(".md")]


def words_of(path):
    with open(path, encoding="utf-8") as it:
        for line in it:
            yield from TOKEN.findall(line.split("--" if path.endswith(".antt") else "//")[0])


def main():
    if len(set(NEW.values())) < len(NEW):
        sys.exit("respell_names: two of the names fall together")
    # A definition may have the name of a function of src/: it had before, and no clause can mean the function.
    taken = {w for p in files() if p.endswith(".antt") for w in words_of(p)} & set(NEW.values())
    taken -= {"cut_into_triangles", "dart_to", "first_fault", "pairs_in", "pentagon_at", "pentagon_walks", "triangles_at"}
    if taken:
        sys.exit("respell_names: these stand already: " + " ".join(sorted(taken)))
    changed = 0
    for path in list(files()) + pages():
        with open(path, encoding="utf-8") as it:
            old = it.read()
        if path.endswith(".md"):
            new = turned_page(old)
        else:
            answers = os.path.basename(path) in ("Answers.antt", "Invariants.antt")
            mark = "--" if path.endswith(".antt") else "//"
            new = "".join(turned_line(line, mark, answers) for line in old.splitlines(keepends=True))
        if new != old:
            changed += 1
            with open(path, "w", encoding="utf-8") as it:
                it.write(new)
    print(f"respell_names: {len(NEW)} names, {changed} files changed")


if __name__ == "__main__":
    main()

