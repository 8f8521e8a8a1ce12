#!/usr/bin/env python3
"""Compares the versions that `nms_review when` finds with a plain count of times.

    tests/times_judge.py PROGRAM [SEARCHES [SEED]]

SEARCHES is 4,000 if it is not given, in calls of some hundred times each. The files have 0 to 3,000 lines, with and without rows
of the source; ties are frequent, and each third file is sorted by symbol. Prints the seed, and at a difference the least time of
the first call that differs. Ends with status 1 at a difference.
"""
import os
import random
import subprocess
import sys
import tempfile

from drawn import clock

SECOND = 10**9


def made(dice, lines):
    """The times of a file's lines, by symbol: they rise within each, with many ties."""
    symbols = dice.randrange(1, 9) if dice.randrange(3) == 0 else 1
    seconds, nanos = dice.choice([1, 20, 23000]), dice.choice([1, 2, 10 ** 9])
    cuts = sorted(dice.randrange(lines + 1) for _ in range(symbols - 1))
    parts = [0, *cuts, lines]
    times = []
    for first, last in zip(parts, parts[1:]):
        times.append(sorted(clock((34200 + dice.randrange(seconds)) * SECOND + dice.randrange(nanos)) for _ in range(last - first)))
    return times


def asked(dice, times):
    """A time to find: one of the file, one next to it, or any."""
    known = [it for part in times for it in part]
    if known and dice.randrange(3):
        number = int(dice.choice(known)) + dice.choice([-1, 0, 0, 1])
        text = f"{number:015}"
        if int(text[2:4]) < 60 and int(text[4:6]) < 60:
            return text
    text = clock(dice.randrange(86400) * SECOND + dice.randrange(SECOND))
    return text[:dice.choice([6, 9, 15])]


def counted(times, before, first, at):
    """How many of the times are not later, or are earlier, from the first on: it checks all."""
    at = at.ljust(15, "0")
    return first + sum(1 for it in times if (it < at if before else it <= at))


def trial(program, dice, room):
    """A file, some searches in it by one call, and the time of a version by another; how many."""
    lines = dice.choice([0, 1, 2, 3, 50, 3000])
    times = made(dice, lines)
    rows = dice.random() < 0.3
    flat = [it for part in times for it in part]
    path, symbols = os.path.join(room, "a.times"), os.path.join(room, "a.symbols")
    with open(path, "w", encoding="utf-8") as file:
        file.writelines(f"{it},{number * 3 + 2:015}\n" if rows else f"{it}\n" for number, it in enumerate(flat))
    spans, at = [], 0
    for number, part in enumerate(times):
        if part:
            spans.append((f"S{number}", at, part))
        at += len(part)
    with open(symbols, "w", encoding="utf-8") as file:
        file.writelines(f"{name},{first + 1},{first + len(part)}\n" for name, first, part in spans)
    before = dice.randrange(2) == 1
    words = [asked(dice, times) for _ in range(dice.randrange(1, 400))]
    call, first, part = [program, "when", path, *words], 0, flat
    if len(times) > 1 and spans:
        name, first, part = dice.choice(spans)
        call += ["--symbols", symbols, "--symbol", name]
    ran = subprocess.run(call + ["--before"] * before, capture_output=True, check=False, text=True)
    falls = next((n + 2 for n, pair in enumerate(zip(flat, flat[1:])) if pair[1] < pair[0]), None) if part is flat else None
    if falls:
        if ran.returncode != 6 or "H2: " not in ran.stderr or not ran.stderr.endswith(f": line {falls}\n"):
            return f"{flat[:20]}..: status {ran.returncode}, {ran.stderr!r}, and not H2 at line {falls}"
    else:
        wanted = [counted(part, before, first, it) for it in words]
        got = ran.stdout.split()
        if got != [str(it) for it in wanted]:
            wrong = min((it, want, *got[n:n + 1]) for n, (it, want) in enumerate(zip(words, wanted)) if got[n:n + 1] != [str(want)])
            return f"{len(flat)} lines, before={before}: {wrong}, {ran.stderr!r}"
    version = dice.randrange(lines + 2)
    ran = subprocess.run([program, "when", path, "--version", str(version)], capture_output=True, check=False, text=True)
    if version > lines:
        wanted = ""
    elif version == 0:
        wanted = "\n"
    else:
        wanted = flat[version - 1] + (f",{version * 3 - 1}" if rows else "") + "\n"
    if ran.stdout != wanted:
        return f"version {version} of {lines}: {ran.stdout!r}, and not {wanted!r}"
    return len(words) + 1


def main():
    """Runs the program on random files."""
    program = sys.argv[1]
    searches = int(sys.argv[2]) if len(sys.argv) > 2 else 4000
    seed = int(sys.argv[3]) if len(sys.argv) > 3 else random.randrange(1 << 30)
    print(f"seed {seed}, {searches} searches")
    dice, done = random.Random(seed), 0
    with tempfile.TemporaryDirectory() as room:
        while done < searches:
            came = trial(program, dice, room)
            if isinstance(came, str):
                print(came)
                return 1
            done += came
    print(f"equal: {done} searches")
    return 0


if __name__ == "__main__":
    sys.exit(main())
