#!/usr/bin/env python3
"""Makes a day for a page: a file of changes under the built-in setup.

    day.py CHANGES FILE [SEED]

Four participants quote ABC, and every fourth change is of PNY. Prices drift. In some eight stretches of the day quotations
are late, and stay where the market was some changes ago, so that it locks and crosses. Now and then a participant
withdraws or quotes by hand. The same number and seed give the same bytes.
"""
import random
import sys

PARTS = ("N", "P", "Y", "Z")


def side(price, draw):
    return f"{price // 100}.{price % 100:02},{draw.randint(1, 9) * 100}"


def day(changes, draw):
    cents, past, slow = 18968, [], 0
    for number in range(changes):
        cents += draw.choice((-1, 0, 0, 0, 1)) if number % 3 == 0 else 0
        past.append(cents)
        part = draw.choice(PARTS)
        if draw.random() < 0.001:
            yield f"X,{part}"
            continue
        if draw.random() < 8 / changes:
            slow = number + changes // 40
        late = draw.randint(20, 80) if number < slow and draw.random() < 0.5 else 0
        at = past[max(0, len(past) - 1 - late)]
        sym, at = ("PNY", at // 8) if number % 4 == 3 else ("ABC", at)
        half = draw.randint(1, 4)
        state = "M" if draw.random() < 0.02 else "A"
        yield f"Q,{part},{sym},{state},{side(at - half, draw)},{side(at + half, draw)}"


def main(changes, path, seed="1"):
    with open(path, "w", encoding="ascii") as file:
        file.writelines(line + "\n" for line in day(int(changes), random.Random(seed)))


main(*sys.argv[1:])
