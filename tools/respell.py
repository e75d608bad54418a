#!/usr/bin/env python3
"""Respells the repository's own definitions and lemmas as Rattle's style asks: words in snake case, facts in camel case.

usage: python3 tools/respell.py [docs]      at the top of the repository, once, after Rattle's own script

Only whole names change, in clauses, specs, proofs and must-fail edits; with the word docs, between backticks of
docs/*.md and README.md as well. Names of functions, fields and variants of src/ are not among them.
Of a name after a dot only a field of one of the repository's records changes: the other names there are steps of a proof.
"""

import os
import re
import sys

# A dash becomes an underscore.
DASHES = """
abs-product all-bounded all-earlier all-last all-lawful all-pass-push all-prefix all-sampled all-set-push
all-within-bounds among-inside among-last among-past answer-is append-answer append-held append-memory
append-rising append-slots area-is areas-are at-most-fits at-most-more auxiliary-bounds auxiliary-of before-is
before-kept begun-sampled begun-sums between-covered between-out between-push both-ranges boundary-bounded
boundary-if boundary-power bounded-after bounded-from bounded-instant bounded-power bounded-push by-some
certified-area certified-power certified-sum-of climbs-end climbs-next cons-if count-least course-covered
course-stays cover-from cover-parts covered-some covers-by covers-code critical-time crossing-floored day-code
declared-in declared-laws deviation-rounds direct-size down-down down-up downward-near downward-of
downward-size either-in end-code end-down end-out end-up energy-bounds energy-size entry-begun entry-grown
entry-own entry-pieces entry-swap entry-with exact-deviation exact-downward exact-is exact-net exact-upward
factor-bounds factor-number factor-passes factor-refused factor-size few-here few-pieces few-samples
first-minute first-none first-onward first-reaching fits-n flat-equal flat-if flat-lawful flat-widths floor-is
floor-only floor-size floor-times found-has found-onward found-passes found-through from-here from-log
front-earlier full-as gross-areas gross-bound gross-bounds grown-sampled grown-sums half-up-below held-is
idle-near idle-size in-force in-it in-range inner-climbs instructed-size instruction-bounds is-bounded
is-instant is-minute is-period is-recent is-sampled joined-if judged-bounded judged-parts kept-both kept-front
kept-none kept-not kept-nothing kept-rest kept-too kept-within key-at last-push last-small last-through
latest-after lawful-here level-bounds level-size listed-is log-answer log-entries log-slots mean-size
meter-bounds minute-areas minute-bounds minute-code minute-course minute-day minute-flat minute-lawful
minute-laws minute-of minute-outside minute-piece minute-seconds minute-stays minute-swaps minutes-code
minutes-cover mirror-crosses mirror-flat n-is narrow-span-code naturals-code near-in nearest-down nearest-is
nearest-over nearest-rounds nearest-under nearest-up nearest-within net-bounds net-energy net-exact net-of
net-power-bounds net-size net-sum-of next-code next-minute no-downward no-level no-meter no-minute no-net
no-onward no-sample no-through no-upward none-some none-through not-above not-below nth-all nth-front nth-none
of-it of-log of-minute one-after onward-is onward-push onward-some other-sums over-step pair-if parts-of
parts-size parts-sum period-kept period-minutes piece-areas piece-both piece-flat piece-half piece-if
piece-kept piece-none piece-some pieces-flat pieces-from pieces-if pieces-some place-code place-day place-left
place-past point-code points-between power-at-the-start power-code power-is power-of product-code
product-parts product-size quotient-most quotient-small range-bounds range-in range-of range-out range-passed
range-reached ranges-of ranges-passed reaches-later reaches-nowhere recent-after recent-from recent-parts
recorded-after replace-held replace-memory replace-rising replace-slots replace-some rest-fits rise-code
rising-by rising-far rising-front rising-push rising-replace rising-tail rounds-less same-minute sampled-after
sampled-from sampled-parts scaled-size schedule-size scheduled-size set-either share-times signed-near
slots-are some-last span-code span-is square-over start-code stays-between sum-code sums-end sums-full
sums-more taking-is through-end through-is through-past through-push through-some trace-course trace-covers
trace-lawful trace-laws trace-outside trace-stays unit-above unit-below unit-den unit-net unit-num unit-share
up-down up-near upward-near upward-of upward-size walk-between walk-lawful weight-bounds weight-size width-sum
with-taken within-bounds
""".split()

# Aliases of clauses, alike.
ALIASES = """
agrees-of strictly-between areas-of boundary-of certified-of deviation-of flat-piece grown-by mean-of slots-of
nearest-of share-of surplus-of at-or-before
""".split()

OTHERS = {
    "certified-sum": "certified_sum_at",
    "eqZ": "int_eq",
    "eqZ-false": "int_eq-false",
    "eqZ-same": "int_eq-same",
    "eqZ-true": "int_eq-true",
    "le-leZ": "le_int_le",
    "le-ltZ": "le_int_lt",
    "leZ-false": "int_le-false",
    "leZ-true": "int_le-true",
    "lt-leZ": "lt_int_le",
    "lt-ltZ": "lt_int_lt",
    "ltZ-false": "int_lt-false",
    "ltZ-true": "int_lt-true",
    "ne-eqZ": "ne_int_eq",
    "sumZ": "int_sum",
    "sumZ-more": "int_sum_more",
    "sumZ-push": "int_sum_push",
    "sumZ-size": "int_sum_size",
    "two-ranges": "HasTwoRanges",
}

# Of sources alone: elsewhere a module has this name.
IN_SOURCES = {"Nearest": "nearest_of"}

# Fields of records of specs/.
FIELDS = """
among-inside among-last among-past answer-is append-answer append-held append-memory append-rising before-is
before-kept begun-sums between-covered between-push boundary-bounded by-some certified-area certified-power
count-least covers-code crossing-floored direct-size downward-near downward-of downward-size end-code
exact-net factor-number factor-passes factor-refused first-onward fits-n found-onward found-through from-here
grown-sums half-up-below held-is idle-near idle-size in-it instructed-size key-at last-through listed-is
minute-areas n-is narrow-span-code net-energy next-code no-downward no-level no-meter no-net no-onward
no-through no-upward none-some none-through of-it one-after onward-is onward-push onward-some other-sums
period-kept piece-areas piece-both piece-flat piece-half piece-kept piece-none piece-some pieces-flat
pieces-some place-code place-day place-past point-code quotient-most quotient-small range-passed range-reached
ranges-passed reaches-later reaches-nowhere recent-after replace-held replace-memory replace-rising
replace-some rest-fits same-minute sampled-after schedule-size scheduled-size slots-are span-code span-is
start-code stays-between sums-more taking-is through-end through-is through-past through-push through-some
unit-above unit-below upward-near upward-of upward-size walk-between
""".split()

NAME = re.compile(r"(?<![\w'′≡≤<*+-])[A-Za-z][\w'′-]*")


def table():
    names = {n: n.replace("-", "_") for n in DASHES + ALIASES + FIELDS}
    return names | OTHERS


def respelled(text, names, fields):
    def of(m):
        dotted = m.start() > 0 and text[m.start() - 1] == "."
        if dotted and m.group(0) not in fields:
            return m.group(0)
        return names.get(m.group(0), m.group(0))

    return NAME.sub(of, text)


def ghost_only(text, names, fields):
    """A source: a name with a dash stands in its clauses alone."""
    lines = []
    for line in text.split("\n"):
        ghost = re.search(r"\b(ghost|requires|ensures)\b", line)
        lines.append(respelled(line, names | IN_SOURCES, fields) if ghost else line)
    return "\n".join(lines)


def backticked(text, names, fields):
    return re.sub(r"`[^`\n]*`", lambda m: respelled(m.group(0), names, fields), text)


def rewrite(path, how, names, fields):
    with open(path, encoding="utf-8") as f:
        old = f.read()
    new = how(old, names, fields)
    if new != old:
        with open(path, "w", encoding="utf-8") as f:
            f.write(new)


def main():
    names, fields = table(), set(FIELDS)
    for folder, dirs, files in os.walk("crates"):
        dirs[:] = sorted(d for d in dirs if d != "out")
        for name in sorted(files):
            path = os.path.join(folder, name)
            if name.endswith(".antt"):
                rewrite(path, respelled, names, fields)
            elif name.endswith((".rt", ".edit")):
                rewrite(path, ghost_only, names, fields)
    if "docs" in sys.argv[1:]:
        for path in ["README.md"] + sorted("docs/" + f for f in os.listdir("docs") if f.endswith(".md")):
            rewrite(path, backticked, names, fields)


main()
