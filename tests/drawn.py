#!/usr/bin/env python3
"""Draws cases at random, each with what it must give, as rules.py says it.

    tests/drawn.py KIND [CASES [SEED]]      prints cases of a kind, by default those that check.py runs

- `scripts`: records of most kinds, under the built-in setup; some are refused.
- `orders`: scripts of 25 small boards, one change apart, and an order on each. It must give `planned` of rules.py: the plan of
  the fixed choice, which has to be as good as the best of every way to spread the lots.
- `plans`: audits of plans over a few quotations that never change. They must find `doubt` of rules.py. It stops if a
  certificate passes for a plan that is not the best of every way to spread the lots.
- `live`: live runs. It applies the changes of each feed after the other's, since a participant's changes all come by one feed.
  So what must come is the same whatever the threads do.

It also has what the judges draw and write alike.
"""
import random
import sys

from rules import FEES, LOT, RANGE, Machine, answers, best_way, cost_of, dollars, doubt, plain_records, planned, records_of, tried

# What the judges share.


def clock(nanos):
    """Nanoseconds after a midnight as a time of day of 15 digits."""
    seconds, rest = divmod(nanos, 10**9)
    return f"{seconds // 3600:02}{seconds // 60 % 60:02}{seconds % 60:02}{rest:09}"


def setup_of(parts, lots, tape, queue, desks):
    """A setup's text, of participants with their feeds, fees and rates, and of symbols with their round lots."""
    parts = (f'{{name = "{it}", feed = "{feed}", fee = {fee}, rate = {rate}}}' for it, (feed, fee, rate) in parts.items())
    syms = (f'{{name = "{it}", lot = {lot}}}' for it, lot in lots.items())
    rows = f"participant = [{', '.join(parts)}]\nsymbol = [{', '.join(syms)}]"
    return f"tape_limit = {tape}\nqueue = {queue}\ndesks = {desks}\n{rows}\n"


def quotation(chance, side, part, sym, letter):
    """The record of a quotation whose sides are drawn, and the change that it says."""
    (bid, says_bid), (offer, says_offer) = side(chance), side(chance)
    return f"Q,{part},{sym},{letter},{bid},{offer}", ("Q", part, sym, letter, {"BID": says_bid, "OFFER": says_offer})


def record_of_sides(part, sym, letter, *sides):
    """The record of a quotation of two sides, each with a price and shares."""
    return ",".join([f"Q,{part},{sym},{letter}", *(f"{dollars(price)},{shares}" for price, shares in sides)])


def record_of(order, names=(), desk=0):
    """The record of an order, with its names as they are given."""
    head, flag = f"O,{desk},{order['side']},{order.get('sym', 'ABC')},{order['shares']},{dollars(order['limit'])}", "M" * order["manual"]
    return ",".join([head, flag, "+".join(names)] if names else [head, flag] if flag else [head])


def shown(board, order):
    """What the participants display on the side that an order trades with: whole lots, and nothing of a halted one. A board has
    of each participant its state, its bid and its offer."""
    at, lot, rows = 2 if order["side"] == "B" else 1, order.get("lot", LOT), []
    for part in order.get("fees", FEES):
        if part in board and board[part][0] != "H":
            price, shares = board[part][at]
            rows.append((part, price, shares - shares % lot, board[part][0] == "A"))
    return [row for row in rows if row[2]]


# Scripts.

SYMS = "ABC", "PNY"
QUEUE, TAPE, DESKS = 16, 1000, 2


def drawn_side(chance):
    """A side's two fields, and what they say."""
    if chance.random() < 0.25:
        return ",", None
    cents, shares = chance.randrange(998, 1003), chance.choice([0, 50, 99, 100, 199, 200, 300, 400])
    return f"{cents // 100}.{cents % 100:02},{shares}", (cents * 100, shares) if shares else None


def drawn_record(chance):
    """A record, and what it asks."""
    part, sym, desk = chance.choice(list(FEES)), chance.choice(SYMS), chance.randrange(DESKS)
    letter = chance.choice("AAAAMH")
    kind = chance.choices("QSXFTPLNbad", [50, 4, 2, 8, 6, 3, 3, 20, 1, 1, 1])[0]
    if kind == "Q":
        record, change = quotation(chance, drawn_side, part, sym, letter)
        return record, ("send", change)
    refused = {
        "b": ("B", ("refused", "L1")),
        "a": (f"X,{part},", ("refused", "L2")),
        "d": (f"L,{DESKS}", ("refused", "L10")),
    }
    return {**plain_records(part, sym, letter, desk), **refused}[kind]


def script(chance, number):
    """The lines of a case of a script."""
    machine, records = Machine(QUEUE, TAPE, dict.fromkeys(SYMS, LOT)), [drawn_record(chance) for _ in range(40)]
    lines, refused = answers(machine, records)
    counts = f"{len(records)} read, {refused} refused, {len(machine.tape)} taken, {machine.published} published"
    return [f"== script drawn at random, {number}", *(record for record, _ in records), "-- gives", *lines, counts]


# Orders.


def drawn_order(chance, base, sides="BBBS"):
    return {
        "side": chance.choice(sides),
        "shares": chance.choice([100, 200, 300, 400, 500, 700]),
        "limit": base + chance.choice([-100, 0, 100, 200]),
        "manual": chance.random() < 0.4,
    }


def drawn_sides(chance, base):
    """A price and shares for each side."""
    return [(base + chance.choice([-200, -100, 0, 0, 100, 200]), chance.choice([0, 100, 200, 300])) for _ in "bo"]


def orders(chance, number):
    """The lines of a case of orders."""
    base = chance.choice([100_000, 100_000, 9_999])
    board, records, lines = {}, [], []
    for version in range(1, 26):
        part, letter = chance.choice(list(FEES)), chance.choice("AAAM")
        sides = drawn_sides(chance, base)
        board[part] = (letter, *sides)
        order = drawn_order(chance, base)
        records += [record_of_sides(part, "ABC", letter, *sides), "F", record_of(order)]
        lines += [f"PUB,{version}", *planned(order, shown(board, order), version)]
    counts = "75 read, 0 refused, 25 taken, 25 published"
    return [f"== script orders drawn at random, {number}", *records, "-- gives", *lines, counts]


# Live runs.


def drawn_change(chance, base, parts, board):
    """A change of one of these participants, which the board takes in; a few are of the other symbol."""
    part, kind = chance.choice(parts), chance.choice("QQQQQSXO")
    letter = chance.choice("AAAMH")
    if kind == "O":
        return f"Q,{part},PNY,{letter},{dollars(base)},100,,"
    if kind == "X":
        board.pop(part, None)
        return f"X,{part}"
    if kind == "S":
        if part in board:
            board[part] = (letter, *board[part][1:])
        return f"S,{part},ABC,{letter}"
    sides = drawn_sides(chance, base)
    board[part] = (letter, *sides)
    return record_of_sides(part, "ABC", letter, *sides)


def live(chance, number):
    """The lines of a case of a live run."""
    base, board = chance.choice([100_000, 9_999]), {}
    desks, queue = chance.choice([1, 2, 16]), chance.choice([2, 16])
    feeds = [[drawn_change(chance, base, parts, board) for _ in range(chance.randrange(100))] for parts in ("NP", "YZ")]
    length = sum(map(len, feeds))
    records, lines = [], [f"TAPE,{length}"]
    for place in range(chance.randrange(12)):
        desk, order = chance.randrange(desks), drawn_order(chance, base)
        records.append(record_of(order, desk=desk))
        lines += [f"ANSWER,{desk},{place}", *planned(order, shown(board, order), length)]
    words = [f"== command a live run drawn at random, {number}", "live", "orders", "feed_a", "feed_b", "--setup", "setup.toml"]
    files = ["-- file feed_a", *feeds[0], "-- file feed_b", *feeds[1], "-- file orders", *records, "-- file setup.toml"]
    parts = {part: ("A" if part in "NP" else "B", *fees) for part, fees in FEES.items()}
    setup = setup_of(parts, dict.fromkeys(SYMS, LOT), max(1, length), queue, desks)
    return [*words, *files, setup + "-- gives", "0", *lines, "-- errors"]


# Audits of plans.


def drawn_plan(chance, order, quotes):
    """A plan that may be best, and its cuts."""
    plans, cuts = tried(order, quotes, False)
    legs = min(plans, key=lambda legs: cost_of(order, legs)) if chance.random() < 0.8 else chance.choice(plans)
    return (legs, sum(leg[2] for leg in legs), cost_of(order, legs)), cuts


def spoilt(chance, order, plan, cuts):
    """The plan and the cuts with one thing changed, or none."""
    legs, filled, cost = list(plan[0]), plan[1], plan[2]
    cuts = list(cuts)
    way = chance.choice(["", "", "", "leg", "less", "sum", "cost", "cut", "kind", "marginal", "order", "more"])
    if way in ("leg", "less") and legs:
        at = chance.randrange(len(legs))
        part, price, shares = legs[at]
        legs[at] = (part, price, chance.choice([0, shares + 100, shares - 1, shares - 50, shares]))
        if way == "less":
            filled, cost = sum(leg[2] for leg in legs), cost_of(order, legs)
    elif way == "sum":
        filled += chance.choice([1, 100])
    elif way == "cost":
        cost += chance.choice([-1, 1])
    elif way == "cut" and cuts:
        cuts.pop(chance.randrange(len(cuts)))
    elif way == "more" and cuts:
        cuts.append((chance.choice(cuts)[0] + chance.choice([0, 7]), "TOOMUCH", 0))
    elif way == "order":
        chance.shuffle(cuts)
    elif cuts and way:
        at = chance.randrange(len(cuts))
        price, kind, marginal = cuts[at]
        if way == "kind":
            kind = chance.choice(["TOOMUCH", "TOOLITTLE", "MARGINAL"])
        marginal += chance.choice([-100_000, -1, 1, 100_000, 0, 2 * RANGE]) if kind == "MARGINAL" else 0
        cuts[at] = price, kind, marginal
    return (legs, filled, cost), cuts


def drawn_audit(chance):
    """An order, quotations of the side that it trades with, a plan and cuts."""
    base = chance.choice([100_000, 100_000, 9_999])
    order = drawn_order(chance, base, "BS")
    quotes = [
        (part, base + chance.choice([-100, 0, 0, 100, 200]), chance.choice([100, 200, 300]), chance.random() < 0.75)
        for part in FEES
        if chance.random() < 0.85
    ]
    return order, quotes, *spoilt(chance, order, *drawn_plan(chance, order, quotes))


def changes_of(side, quotes):
    """The records of quotations on the side that an order of that side trades with, one change for each."""
    for part, price, shares, protected in quotes:
        sides = f",,{dollars(price)},{shares}" if side == "B" else f"{dollars(price)},{shares},,"
        yield f"Q,{part},ABC,{'A' if protected else 'M'},{sides}"


def audit(chance, number):
    """The lines of a case of an audit."""
    order, quotes, plan, cuts = drawn_audit(chance)
    (_, filled, cost), found = plan, doubt(order, quotes, plan, cuts)
    if found is None and (-filled, cost) != best_way(order, quotes):
        raise AssertionError(f"case {number}: a certificate passes for a plan that is not the best")
    text = records_of(order, len(quotes), "ABC", plan, cuts)
    return [f"== check drawn at random, {number}", *changes_of(order["side"], quotes), "-- plan", *text, "-- gives", found or "confirmed"]


# Each kind: what draws the lines of a case, and the number of cases that check.py runs, with their seed.
KINDS = {"scripts": (script, 40, 242_600), "orders": (orders, 20, 242_600), "live": (live, 8, 242_600), "plans": (audit, 100, 242_611)}


def cases(kind, count=None, seed=None):
    """The text of a number of cases of a kind."""
    case, due, first = KINDS[kind]
    chance = random.Random(seed or first)
    return "== setup\n" + "".join(f"{it}\n" for number in range(1, (count or due) + 1) for it in case(chance, number))


if __name__ == "__main__":
    if sys.argv[1:2] == [] or sys.argv[1] not in KINDS:
        sys.exit(__doc__)
    sys.stdout.write(cases(sys.argv[1], *map(int, sys.argv[2:])))
