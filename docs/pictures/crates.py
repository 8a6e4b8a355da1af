#!/usr/bin/env python3
"""Draws docs/pictures/crates.svg from crates.txt: a row for each level, a line to each crate below that no other line implies.

    docs/pictures/crates.py [--check]

With --check it only says whether the picture is the one of crates.txt.
"""
import os
import sys

HERE = os.path.dirname(os.path.abspath(__file__))
ROOT = os.path.dirname(os.path.dirname(HERE))
WIDE, HIGH, STEP, ROW = 124, 34, 142, 86


def crates():
    below = {}
    for line in open(ROOT + "/crates.txt"):
        line = line.split("#")[0].strip()
        if line:
            name, rest = line.split(":")
            below[name.split()[0]] = rest.split()
    return {n: [d for d in ds if d in below] for n, ds in below.items()}


def drawn(below):
    def level(n):
        return 1 + max((level(d) for d in below[n]), default=-1)

    def all_below(n):
        return set(below[n]).union(*(all_below(d) for d in below[n])) if below[n] else set()

    rows = {}
    for n in below:
        rows.setdefault(level(n), []).append(n)
    widest = max(len(r) for r in rows.values())
    width, height = 44 + widest * STEP - (STEP - WIDE), 60 + HIGH + (len(rows) - 1) * ROW
    middle, top = {}, {}
    for at, row in rows.items():
        left = (width - (len(row) * STEP - (STEP - WIDE))) // 2
        for k, n in enumerate(row):
            middle[n], top[n] = left + k * STEP + WIDE // 2, 34 + (len(rows) - 1 - at) * ROW
    out = ['<svg xmlns="http://www.w3.org/2000/svg" viewBox="0 0 %d %d" width="%d" height="%d" font-family="DejaVu Sans, Helvetica, Arial, sans-serif" font-size="13">' % (width, height, width, height)]
    out.append("<title>The crates, each above those it stands on</title>")
    out.append('<rect width="100%" height="100%" fill="#ffffff"/>')
    for n in below:
        implied = set().union(*(all_below(d) for d in below[n])) if below[n] else set()
        for d in below[n]:
            if d not in implied:
                y, z = top[n] + HIGH, top[d]
                m = (y + z) // 2
                out.append('<path d="M%d %d C%d %d %d %d %d %d" fill="none" stroke="#7a8794" stroke-width="1.2"/>' % (middle[n], y, middle[n], m, middle[d], m, middle[d], z))
    for at in sorted(rows):
        for n in rows[at]:
            program = os.path.exists("%s/crates/%s/src/main.rt" % (ROOT, n))
            out.append('<rect x="%d" y="%d" width="%d" height="%d" rx="6" fill="%s" stroke="#34495e"/>' % (middle[n] - WIDE // 2, top[n], WIDE, HIGH, "#fdf1dc" if program else "#e8f0fa"))
            out.append('<text x="%d" y="%d" text-anchor="middle" fill="#1c2833">%s</text>' % (middle[n], top[n] + 22, n))
    out.append('<text x="22" y="18" fill="#1c2833" font-size="12">blue: libraries; yellow: programs; a line goes down to what a crate stands on</text>')
    out.append("</svg>")
    return "\n".join(out) + "\n"


picture = drawn(crates())
if "--check" in sys.argv[1:]:
    sys.exit(0 if open(HERE + "/crates.svg").read() == picture else "docs/pictures/crates.svg is not the picture of crates.txt")
open(HERE + "/crates.svg", "w").write(picture)
