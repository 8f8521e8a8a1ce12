#!/usr/bin/env python3
"""Makes a day for `trades`: a setup, changes with their times, and executions by version and by time.

    trades_day.py CHANGES EXECUTIONS FOLDER [SEED]

Sixteen participants quote 200 symbols around prices that drift, one quotation in fifty manual. Each execution is at the
best price of then or some cents off it, so about one in four trades through. Writes FOLDER/setup.toml, day.changes,
day.times, day.executions and day.timed. The same words give the same bytes.
"""
import os
import random
import sys

LETTERS = "ABCDEFGHIJKLMNOP"
OPEN, LENGTH = 34200 * 10**9, 23400 * 10**9


def clock(nanos):
    seconds, fraction = divmod(nanos, 10**9)
    return f"{seconds // 3600:02}{seconds // 60 % 60:02}{seconds % 60:02}{fraction:09}"


def price(cents):
    return f"{cents // 100}.{cents % 100:02}"


def setup(parts, syms):
    rows = [f'    {{name = "{it}", feed = "{"AB"[place % 2]}", fee = 3000000, rate = 300}},\n' for place, it in enumerate(parts)]
    names = [f'    {{name = "{it}", lot = 100}},\n' for it in syms]
    head = "tape_limit = 10000000\nqueue = 1024\ndesks = 1\nfeeds = 2\n"
    return f"{head}participant = [\n{''.join(rows)}]\nsymbol = [\n{''.join(names)}]\n"


def main(changes, executions, folder, seed="1"):
    changes, executions, draw = int(changes), int(executions), random.Random(seed)
    os.makedirs(folder, exist_ok=True)
    parts, syms = LETTERS, [f"S{place:03}" for place in range(200)]
    syms = ["S" + "".join(LETTERS[int(digit)] for digit in it[1:]) for it in syms]
    mids = [draw.randint(1_000, 50_000) for _ in syms]
    with open(f"{folder}/setup.toml", "w", encoding="ascii") as file:
        file.write(setup(parts, syms))
    whole, every = draw.random, changes // executions
    with (
        open(f"{folder}/day.changes", "w", encoding="ascii") as day,
        open(f"{folder}/day.times", "w", encoding="ascii") as times,
        open(f"{folder}/day.executions", "w", encoding="ascii") as by_version,
        open(f"{folder}/day.timed", "w", encoding="ascii") as by_time,
    ):
        for number in range(changes):
            sym = int(whole() * whole() * len(syms))
            if whole() < 0.1:
                mids[sym] = max(100, mids[sym] + (1 if whole() < 0.5 else -1))
            mid, half = mids[sym], 1 + int(whole() * 4)
            state = "M" if whole() < 0.02 else "A"
            sizes = 100 * (1 + int(whole() * 9)), 100 * (1 + int(whole() * 9))
            day.write(f"Q,{parts[int(whole() * 16)]},{syms[sym]},{state},{price(mid - half)},{sizes[0]},{price(mid + half)},{sizes[1]}\n")
            nanos = OPEN + LENGTH * number // changes
            times.write(clock(nanos) + "\n")
            if number % every == every - 1:
                at = mid + int(whole() * 9) - 4
                head = f"D,x{number},{syms[sym]},{price(at)}{'5' if whole() < 0.2 else ''},{sizes[0]},{'BS'[number % 2]}"
                part = parts[number % 16]
                by_version.write(f"{head},{number + 1},{part},\n")
                by_time.write(f"{head},@{clock(nanos)},{part},\n")


main(*sys.argv[1:])
