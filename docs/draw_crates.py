#!/usr/bin/env python3
"""Draws the crates of crates.txt as docs/crates.svg: the product, the reviewer's program and the gate apart.

    docs/draw_crates.py            writes the picture anew
    docs/draw_crates.py --check    status 1 if it differs

A line goes down from a crate to each crate that it uses. A line is left out if a longer way shows it already. A crate
stands above all that it stands on.
"""
import os
import sys

TOP = os.path.dirname(os.path.dirname(os.path.realpath(__file__)))
sys.path.insert(0, f"{TOP}/build")
from crates import below, listed

FILE = os.path.join(TOP, "docs", "crates.svg")
# The groups: the programs that each is below, its colour and its name. The product is under the others, which use it.
GROUPS = ((("nms_tool", "nms_serve", "nms_c", "nms_engine"), "#dbe9f6", "the product: nms_tool, nms_serve, and nms_c for other languages"),
          (("nms_review",), "#e3f1dc", "the reviewer's program"),
          (("nms_examples", "nms_tests"), "#f3e6d8", "the gate"))
WIDE, HIGH, GAP, RISE, EDGE = 134, 24, 8, 76, 20


def reduced(on):
    """The crates that each crate uses, without those that another of these uses."""
    return {name: [it for it in its if not any(it in below(on, other) for other in its)] for name, its in on.items()}


def levels(on):
    """How high each crate is: one below the lowest that uses it, so that lines are short."""
    found = {}
    for name in on:
        found[name] = 1 + max((found[it] for it in on[name]), default=-1)
    for name in reversed(on):
        found[name] = min((found[it] - 1 for it in on if name in on[it]), default=found[name])
    return found


def group_of(on):
    """The group of each crate: the first that has it, or a program above it; else the product's."""
    def has(tops, name):
        return any(name == it or name in below(on, it) for it in tops if it in on)
    return {name: next((at for at, (tops, _, _) in enumerate(GROUPS) if has(tops, name)), 0) for name in on}


def placed(on):
    """The middle of each crate's box, and the frame of each group: its left, top, width and height."""
    fewer, level, group = reduced(on), levels(on), group_of(on)
    where, frames, left, top = {}, {}, EDGE, EDGE
    for at in (1, 2, 0):
        mine = [it for it in on if group[it] == at]
        highest, lowest = max(level[it] for it in mine), min(level[it] for it in mine)
        rows = [[it for it in mine if level[it] == height] for height in range(highest, lowest - 1, -1)]
        width, height = max(max(map(len, rows)) * (WIDE + GAP) - GAP, len(GROUPS[at][2]) * 8), len(rows) * RISE + 30
        if at == 0:
            left, top = EDGE, EDGE + max(it[3] for it in frames.values()) + 2 * EDGE
            width = max(width, max(it[0] + it[2] for it in frames.values()) - EDGE)
        frames[at] = (left, top, width, height)
        for depth, row in enumerate(rows):
            def middle(name):
                xs = [where[it][0] for it in on if it in where and name in fewer[it]]
                return sum(xs) / len(xs) if xs else left + width / 2
            row.sort(key=lambda it: (middle(it), it))
            start = left + (width - len(row) * (WIDE + GAP) + GAP) / 2 + WIDE / 2
            for place, name in enumerate(row):
                # Every second box is a little lower, so that lines pass between.
                where[name] = (start + place * (WIDE + GAP), top + 48 + depth * RISE + 26 * (place % 2))
        left += width + 2 * EDGE
    return where, frames


def drawn():
    """The text of the picture."""
    on = listed()
    where, frames = placed(on)
    group, fewer = group_of(on), reduced(on)
    wide = round(max(it[0] + it[2] for it in frames.values()) + EDGE)
    high = round(max(it[1] + it[3] for it in frames.values()) + EDGE)
    text = [f'<svg xmlns="http://www.w3.org/2000/svg" viewBox="0 0 {wide} {high}" font-family="sans-serif" font-size="14">',
            "<title>The crates, each above those that it stands on</title>", f'<rect width="{wide}" height="{high}" fill="#fff"/>']
    for at, (left, top, width, height) in frames.items():
        text.append(f'<rect x="{left - 12:.0f}" y="{top:.0f}" width="{width + 24:.0f}" height="{height:.0f}" rx="8" fill="{GROUPS[at][1]}" opacity="0.45"/>')
        text.append(f'<text x="{left:.0f}" y="{top + 20:.0f}" font-weight="bold">{GROUPS[at][2]}</text>')
    for name, its in fewer.items():
        x, y = where[name]
        for it in its:
            to_x, to_y = where[it]
            text.append(f'<path d="M{x:.0f} {y + HIGH / 2:.0f}L{to_x:.0f} {to_y - HIGH / 2:.0f}" stroke="#667" opacity="0.6"/>')
    for name, (x, y) in where.items():
        text.append(f'<rect x="{x - WIDE / 2:.0f}" y="{y - HIGH / 2:.0f}" width="{WIDE}" height="{HIGH}" rx="4" fill="{GROUPS[group[name]][1]}" stroke="#445"/>')
        text.append(f'<text x="{x:.0f}" y="{y + 5:.0f}" text-anchor="middle">{name}</text>')
    return "\n".join([*text, "</svg>", ""])


def main(words):
    there = ""
    if os.path.exists(FILE):
        with open(FILE, encoding="utf-8") as it:
            there = it.read()
    if words == ["--check"]:
        print("docs/crates.svg is as crates.txt has it" if there == drawn() else "docs/crates.svg differs")
        return 0 if there == drawn() else 1
    with open(FILE, "w", encoding="utf-8") as it:
        it.write(drawn())
    return 0


if __name__ == "__main__":
    sys.exit(main(sys.argv[1:]))
