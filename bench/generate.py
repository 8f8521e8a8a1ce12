#!/usr/bin/env python3
"""Makes a load for the program: a script, or a live run's files, and the setup that it runs under.

    generate.py LOAD RECORDS FOLDER [SEED]

LOAD is one of

    quotes      quotations of 16 participants in 200 symbols, a look for the best bid and offer every 16
                records, a publishing every 64
    wide        the same, of 32 participants in 1,000 symbols
    looks       as quotes, but 15 of 16 records look
    withdraws   as wide, but every other record withdraws a participant from every symbol
    sweeps      quotations of 16 participants in 50 symbols, an order every 8 records, a publishing every 32
    live        for live runs: quotations of 16 participants in 200 symbols, in 1, 2, 4 and 8 feeds, and 1,000
                orders for each of 1, 4 and 16 desks

Writes FOLDER/load.csv and FOLDER/setup.toml; for live runs FOLDER/FEEDS/feed_a.csv and so on, the same quotations in
FEEDS feeds, FOLDER/FEEDS/setup-DESKS.toml for DESKS desks, and FOLDER/orders-DESKS.csv. The same load, number
and seed give the same bytes. Prices drift by a cent, so that sides repeat, improve, lock and cross as in a market.
"""

import random
import sys
from pathlib import Path

# Participants and symbols of each load.
SIZES = {"quotes": (16, 200), "wide": (32, 1000), "looks": (16, 200), "withdraws": (32, 1000), "sweeps": (16, 50), "live": (16, 200)}
# Feeds and desks of live runs, and how many orders each desk has.
FEEDS, DESKS, ORDERS = (1, 2, 4, 8), (1, 4, 16), 1000


def name(place, letters):
    """A name of n capital letters: the place in base 26."""
    return "".join(chr(ord("A") + place // 26**k % 26) for k in reversed(range(letters)))


def feed_of(place, feeds=2):
    return "ABCDEFGH"[place % feeds]


def setup(participants, symbols, desks=4, feeds=2):
    yield f"tape_limit = 10000000\nqueue = 1024\ndesks = {desks}\n"
    if feeds != 2:
        yield f"feeds = {feeds}\n"
    for place in range(participants):
        feed = feed_of(place, feeds)
        fee = (3_000_000, 2_500_000, -2_000_000)[place % 3]
        yield f'\n[[participant]]\nname = "{name(place, 2)}"\nfeed = "{feed}"\nfee = {fee}\nrate = 300\n'
    for place in range(symbols):
        lot = (100, 100, 100, 40, 10)[place % 5]
        yield f'\n[[symbol]]\nname = "{name(place, 3)}"\nlot = {lot}\n'


def side(draw, cents):
    """A price field and a shares field; one side in forty is empty."""
    if draw.random() < 1 / 40:
        return ","
    return f"{cents // 100}.{cents % 100:02},{100 * draw.randint(1, 20) + draw.choice((0, 0, 0, 37))}"


class Script:
    """The records of a load, one after another."""

    def __init__(self, load, seed):
        self.load = load
        self.participants, self.symbols = SIZES[load]
        self.draw = random.Random(f"{load} {seed}")
        self.middle = [self.draw.randint(500, 50_000) for _ in range(self.symbols)]

    def participant(self):
        self.place = self.draw.randrange(self.participants)
        return name(self.place, 2)

    def look(self):
        return f"N,{self.draw.randrange(4)},{name(self.draw.randrange(self.symbols), 3)}\n"

    def quotation(self):
        draw, symbol = self.draw, self.draw.randrange(self.symbols)
        self.middle[symbol] = max(100, self.middle[symbol] + draw.choice((-1, 0, 0, 1)))
        bid = side(draw, self.middle[symbol] - draw.randint(0, 4))
        offer = side(draw, self.middle[symbol] + draw.randint(0, 4))
        return f"Q,{self.participant()},{name(symbol, 3)},{draw.choice('AAAAAAAAAM')},{bid},{offer}\n"

    def order(self, desk=None):
        """An order of a few hundred shares whose limit is some cents through the middle; two in five allow manual."""
        draw, symbol = self.draw, self.draw.randrange(self.symbols)
        side = draw.choice("BS")
        cents = self.middle[symbol] + (1 if side == "B" else -1) * draw.randint(0, 4)
        flag = draw.choice(("", "", "", ",M", ",M"))
        return f"O,{draw.randrange(4) if desk is None else desk},{side},{name(symbol, 3)},{100 * draw.randint(1, 40)},{cents // 100}.{cents % 100:02}{flag}\n"

    def record(self, number):
        if number % (32 if self.load == "sweeps" else 64) == 0:
            return "F\n"
        if self.load == "sweeps":
            return self.order() if number % 8 == 4 else self.quotation()
        looks = number % 16 == 0
        if self.load == "looks":
            looks = number % 16 != 8
        if looks:
            return self.look()
        if self.load == "withdraws" and number % 2 == 0:
            return f"X,{self.participant()}\n"
        return self.quotation()


def write_live(script, records, folder):
    quotations = []
    for _ in range(records):
        quotation = script.quotation()
        quotations.append((script.place, quotation))
    for desks in DESKS:
        orders = [script.order(place % desks) for place in range(desks * ORDERS)]
        (folder / f"orders-{desks}.csv").write_text("".join(orders))
    for feeds in FEEDS:
        of_feeds = folder / str(feeds)
        of_feeds.mkdir(exist_ok=True)
        for letter in "ABCDEFGH"[:feeds]:
            lines = (line for place, line in quotations if feed_of(place, feeds) == letter)
            (of_feeds / f"feed_{letter.lower()}.csv").write_text("".join(lines))
        for desks in DESKS:
            text = "".join(setup(script.participants, script.symbols, desks, feeds))
            (of_feeds / f"setup-{desks}.toml").write_text(text)


def main(words):
    load, records, folder = words[0], int(words[1]), Path(words[2])
    script = Script(load, int(words[3]) if len(words) > 3 else 1)
    folder.mkdir(parents=True, exist_ok=True)
    if load == "live":
        write_live(script, records, folder)
        return
    (folder / "setup.toml").write_text("".join(setup(script.participants, script.symbols)))
    with open(folder / "load.csv", "w") as file:
        file.writelines(script.record(number) for number in range(1, records + 1))


if len(sys.argv) < 4 or sys.argv[1] not in SIZES:
    sys.exit(__doc__)
main(sys.argv[1:])
