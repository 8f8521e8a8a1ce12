#!/usr/bin/env python3
"""Plans orders on random boards, and compares each plan with every lawful way to trade.

    tests/judge_sweeps.py [PROGRAM [BOARDS [SEED]]]      PROGRAM is nms_tool; 6,000 boards if no number is given

On each board one order names no participant, one declares self-help against one participant, one against two, and one against
all: the quotations of a named participant are neither usable nor binding for it (17 CFR 242.611(b)(1)). Half of the
boards have the built-in setup, half have one whose fees lie whole steps of price apart, so that unit costs tie
across prices, with round lots of 100 and of 1. What is judged of a plan: its record says the order, with the names by
place; its legs are in their one order, lawful and summed rightly; no lawful way to give shares to the quotations, by the
lot, fills more, or as much for less; and each cut says what it has to (`doubt` of rules.py). Of the best plans it has to be
the one of the fixed choice, with its cuts (`chosen` of rules.py). Names that are none are refused by their code.

The best of every lawful way is found here once more: it gives shares to all quotations and asks of each whether it may have
them, while `best_way` of rules.py tries only the usable ones. The trials `both judges, seed N` compare the two. A script
that differs is made as short as it can be. The trials are `seed N`, 25 boards each; odd seeds have the second setup.

Two kinds of trial ask for the plan of the fixed choice and its cuts only, because every way would take too long. Those of
`small boards, N` are together the 1,728 boards on which N, P and Y each show one of twelve quotations, with 24 orders on
each. Those of `eight participants, seed N` are 100 random boards each, with an order on each. Their unit costs tie within a
price and across prices, and each cut has to say what it must.
"""
import itertools
import random
import subprocess
import sys
import tempfile

from drawn import record_of, record_of_sides, setup_of, shown
from rules import FEES, best_way, chosen, dollars, doubt, is_better, is_named, money, names_of, price_of, records_of, unit_cost
from stored import MOST, programs
from trials import Trial, Wrong, least, run

BOARDS_OF_A_SCRIPT = 25
# Boards of a script of eight participants, and how many such scripts there are.
BOARDS_OF_EIGHT, SCRIPTS_OF_EIGHT = 100, 40
# The eighth field of an order that is refused: one of the names is not on the roster.
NO_NAMES = ["", "Q", "+", "N+", "+P", "N++P", "N+Q", "n", "N P", "N+P+"]
# A setup in which a share costs as much with its fee at one participant as a step of price further on at another.
TIED_FEES = {"N": (300_000, 30), "P": (200_000, 20), "Y": (-100_000, -10), "Z": (300_000, 30)}
# The same of eight participants.
EIGHT_FEES = {
    **{"A": (300_000, 30), "B": (200_000, 20), "C": (-100_000, -10), "D": (300_000, 30)},
    **{"E": (0, 0), "F": (-200_000, -20), "G": (100_000, 10), "H": (0, 0)},
}
# The quotations of a small board: their states, prices and shares.
SMALL = list(itertools.product("AM", (9_999, 10_000, 10_001), (100, 200)))


# The setups that are not the built-in one, by the name of their file.
SETUPS = {
    name: setup_of({part: ("A", *it) for part, it in fees.items()}, {"ABC": 100, "PNY": 1}, 999, 9, 1)
    for name, fees in (("tied", TIED_FEES), ("eight", EIGHT_FEES))
}


def is_lawful(order, rows, given):
    """Whether such shares of each quotation keep the order and the rule."""
    if sum(given) > order["shares"]:
        return False
    for row, shares in zip(rows, given):
        if shares and not may_be_given(order, row, shares, list(zip(rows, given))):
            return False
    return True


def may_be_given(order, row, shares, ways):
    """Whether a quotation may be given shares, if each other one is given what it is."""
    if is_named(order, row) or shares > row[2] or is_better(order, order["limit"], row[1]):
        return False
    if not row[3] and not order["manual"]:
        return False
    return not any(
        other[3] and not is_named(order, other) and is_better(order, other[1], row[1]) and taken < other[2]
        for other, taken in ways
    )


def sums(order, rows, given):
    """How many shares are filled, and what they cost with fees."""
    return sum(given), sum(unit_cost(order, row[0], row[1]) * shares for row, shares in zip(rows, given))


def best(order, rows):
    """The most that a lawful way fills, and the least that filling it costs, by every way to give lots."""
    found = 0, 0
    for given in itertools.product(*(range(0, row[2] + 1, order["lot"]) for row in rows)):
        filled, cost = sums(order, rows, given)
        if (-filled, cost) < (-found[0], found[1]) and is_lawful(order, rows, given):
            found = filled, cost
    return found


# What the program writes of an order: its records up to `END`.


def wrong(order, rows, version, records):
    """What is wrong with the records of a plan, or None."""
    filled, cost = best(order, rows)
    flag, names = "M" if order["manual"] else "", names_of(order)
    asked = f"{order['side']},{order['sym']},{order['shares']},{dollars(order['limit'])},{flag}"
    head = f"PLAN,{version},{asked},{filled},{money(cost)}{',' + names if names else ''}"
    if records[0] != head:
        return f"{records[0]!r}, and not {head!r}"
    legs = [it.split(",")[1:] for it in records[1:] if it.startswith("LEG,")]
    legs = [(part, price_of(price), int(shares)) for part, price, shares in legs]
    cuts = [cut_of(it.split(",")[1:]) for it in records[1:] if it.startswith("CUT,")]
    if len(records) != len(legs) + len(cuts) + 2 or records[-1] != "END":
        return "other records than legs, cuts and the end"
    if legs != sorted(legs, key=lambda leg: (leg[1] if order["side"] == "B" else -leg[1], list(FEES).index(leg[0]))):
        return "legs that are not by price and participant"
    given = [sum(leg[2] for leg in legs if leg[0] == row[0]) for row in rows]
    if not is_lawful(order, rows, given) or sums(order, rows, given) != (filled, cost):
        return "legs that are not lawful, or not as good as the best"
    return doubt(order, rows, (legs, filled, cost), cuts) or not_chosen(order, rows, version, records)


def not_chosen(order, rows, version, records):
    """The records of the fixed choice, if those of a plan differ from them; or None."""
    due = [*records_of(order, version, order["sym"], *chosen(order, rows))]
    return None if records == due else f"another plan or certificate than {due}"


def not_chosen_or_doubtful(order, rows, version, records):
    """The same, or what is doubtful of the fixed choice."""
    return not_chosen(order, rows, version, records) or doubt(order, rows, *chosen(order, rows))


def cut_of(fields):
    price, kind, marginal = fields
    return price_of(price), kind, nanodollars(marginal) if marginal else 0


def nanodollars(text):
    whole, decimals = text.removeprefix("-").split(".")
    number = int(whole) * 10**9 + int(decimals)
    return -number if text.startswith("-") else number


# What is drawn.


def drawn_orders(chance, kind, base):
    """Four orders: one names no participant, one names one participant, one two, one all."""
    side = chance.choice("BS")
    for count in (0, 1, 2, 4):
        yield {
            **kind,
            "side": side,
            "shares": chance.choice([1, 2, 3, 4, 5, 7, 12]) * kind["lot"],
            "limit": base + chance.choice([-1, 0, 1, 2]) * kind["step"],
            "manual": chance.random() < 0.4,
            "self_help": chance.sample(list(FEES), count),
        }


def drawn_record(chance, order):
    """The record of an order: its names in any order, one of them twice here and there."""
    names = list(order["self_help"])
    if names and chance.random() < 0.2:
        names.append(chance.choice(names))
    return record_of(order, names)


def drawn_kind(chance, is_tied):
    """The symbol and its lot, how far prices are apart, the fees and their setup, and the price about which all are drawn."""
    if not is_tied:
        return {"sym": "ABC", "lot": 100, "step": 100, "fees": FEES, "setup": ""}, chance.choice([100_000, 100_000, 9_999])
    sym, lot = chance.choice([("ABC", 100), ("PNY", 1)])
    return {"sym": sym, "lot": lot, "step": 1, "fees": TIED_FEES, "setup": "tied"}, chance.choice([100_000, 9_999])


def drawn_side(chance, kind, base):
    """A price, and the shares of up to three lots, with half a lot more here and there, which is not displayed."""
    price = base + chance.choice([-2, -1, 0, 0, 1, 2]) * kind["step"]
    return price, chance.choice([0, 1, 2, 3]) * kind["lot"] + chance.choice([0, 0, kind["lot"] // 2])


def drawn_steps(seed):
    """The symbol with its lot and fees, and the steps of a script: ("quote", participant, state, bid, offer), ("order",
    order, record), or ("refused", record, code)."""
    chance = random.Random(seed)
    kind, base = drawn_kind(chance, seed % 2 == 1)
    steps = []
    for _ in range(BOARDS_OF_A_SCRIPT):
        part, letter = chance.choice(list(FEES)), chance.choice("AAAAMH")
        bid, offer = (drawn_side(chance, kind, base) for _ in "bo")
        steps.append(("quote", part, letter, bid, offer))
        for order in drawn_orders(chance, kind, base):
            if chance.random() < 0.05:
                flag = chance.choice(["", "M", "X"])
                steps.append(("refused", f"O,0,B,ABC,100,10.00,{flag},{chance.choice(NO_NAMES)}", "L3"))
            if chance.random() < 0.02:
                steps.append(("refused", "O,0,B,ABC,100,10.00,X,N", "L5"))
            steps.append(("order", order, drawn_record(chance, order)))
    return kind, steps


def small_steps(number):
    """The same of the small boards on which Y shows the quotation of that number, on both sides: orders of each side and of
    three sizes, for manual quotations or not, that name no participant or P."""
    kind = {"sym": "ABC", "lot": 100, "fees": FEES, "setup": ""}
    steps = []
    for shown_by_others in itertools.product(SMALL, SMALL):
        for part, (letter, *quoted) in zip("NPY", (*shown_by_others, SMALL[number])):
            steps.append(("quote", part, letter, quoted, quoted))
        for side, shares, manual, names in itertools.product("BS", (100, 300, 600), (False, True), ([], ["P"])):
            order = {"side": side, "shares": shares, "limit": 10_001 if side == "B" else 9_999, "manual": manual}
            order.update(kind, self_help=names)
            steps.append(("order", order, record_of(order, names)))
    return kind, steps


def eight_steps(seed):
    """The same of random boards of eight participants, which all quote again: at most three lots at one of five prices, and an
    order of at most 24 lots, one half for manual quotations, one half with names."""
    chance = random.Random(seed)
    sym, lot = [("ABC", 100), ("PNY", 1)][seed % 2]
    kind = {"sym": sym, "lot": lot, "fees": EIGHT_FEES, "setup": "eight"}
    steps = []
    for _ in range(BOARDS_OF_EIGHT):
        base = chance.choice([9_998, 100_000])
        for part in EIGHT_FEES:
            bid, offer = ((base + chance.randrange(5), chance.randrange(4) * lot) for _ in "bo")
            steps.append(("quote", part, chance.choice("AAAAAMMH"), bid, offer))
        names = [it for it in EIGHT_FEES if chance.random() < 0.25] if chance.random() < 0.5 else []
        order = {"side": chance.choice("BS"), "shares": chance.randrange(1, 25) * lot, "limit": base + chance.randrange(5)}
        order.update(kind, manual=chance.random() < 0.5, self_help=names)
        steps.append(("order", order, drawn_record(chance, order)))
    return kind, steps


def scripted(kind, steps):
    """The script of some steps, and how each part of its answer has to be: a line, or an order with the quotations that it
    can trade with and the version."""
    board, script, due, version = {}, [], [], 0
    for what, *words in steps:
        if what == "quote":
            part, letter, *sides = words
            board[part] = letter, *sides
            script += [record_of_sides(part, kind["sym"], letter, *sides), "F"]
            version += 1
            due.append(f"PUB,{version}")
        elif what == "refused":
            script.append(words[0])
            due.append(f"ERR,{len(script)},{words[1]}")
        else:
            script.append(words[1])
            due.append((words[0], shown(board, words[0]), version))
    return "".join(it + "\n" for it in script), due


def judge(words, wrong_of, kind, steps):
    """How many plans are as they must be before the first that is not, and what is wrong with that one."""
    script, due = scripted(kind, steps)
    ran = subprocess.run(words, input=script.encode(), capture_output=True, timeout=MOST, check=False)
    lines, right = iter(ran.stdout.decode(errors="replace").split("\n")), 0
    for it in due:
        line = next(lines, "")
        if isinstance(it, str):
            fault = None if line == it else f"{line!r}, and not {it!r}"
        else:
            records = [line]
            while records[-1] not in ("END", ""):
                records.append(next(lines, ""))
            try:
                fault = wrong_of(*it, records)
            except (ValueError, KeyError, TypeError) as error:
                fault = f"records that are none of a plan: {error}"
            fault = fault and f"{fault}; answered is {records}, asked was {it}"
            right += not fault
        if fault:
            return right, fault
    if (ran.returncode, ran.stderr, list(lines)) != (0, b"", [""]):
        return right, f"status {ran.returncode}, {ran.stderr!r}, or more than was asked for"
    return right, None


def judged(program, room, steps_of, wrong_of, number):
    """How many plans are as they must be; raises what is wrong with the first that is not, on the least script. The setups are
    in a room."""
    kind, steps = steps_of(number)
    words = [program, "script", "--setup", f"{room}/{kind['setup']}"] if kind["setup"] else [program]
    right, fault = judge(words, wrong_of, kind, steps)
    if fault:
        steps = least(steps, lambda steps: judge(words, wrong_of, kind, steps)[1])
        fault = judge(words, wrong_of, kind, steps)[1]
        setup = SETUPS.get(kind["setup"], "the built-in setup\n")
        raise Wrong(fault, f"the least script that shows it:\n{scripted(kind, steps)[0]}under {setup}", right)
    return right


def both(seed):
    """Raises an order of a script for which the two slow programs find another best."""
    kind, steps = drawn_steps(seed)
    asked = [it for it in scripted(kind, steps)[1] if not isinstance(it, str)]
    for order, rows, _ in asked:
        filled, cost = best(order, rows)
        if (-filled, cost) != best_way(order, rows):
            raise Wrong(f"{filled} shares for {cost}, and {best_way(order, rows)}: {order}, {rows}")


def main(program, boards=6000, first=242_611):
    seeds = range(first, first + -(-boards // BOARDS_OF_A_SCRIPT))
    print(f"seeds {seeds[0]} to {seeds[-1]}: {BOARDS_OF_A_SCRIPT} boards each")
    with tempfile.TemporaryDirectory(prefix="nms-") as room:
        for name, text in SETUPS.items():
            with open(f"{room}/{name}", "w", encoding="ascii") as file:
                file.write(text)
        found = [Trial(f"seed {it}", judged, (program, room, drawn_steps, wrong, it)) for it in seeds]
        found += [Trial(f"both judges, seed {it}", both, (it,)) for it in seeds]
        found += [Trial(f"small boards, {it}", judged, (program, room, small_steps, not_chosen, it)) for it in range(len(SMALL))]
        for it in range(first, first + SCRIPTS_OF_EIGHT):
            words = program, room, eight_steps, not_chosen_or_doubtful, it
            found.append(Trial(f"eight participants, seed {it}", judged, words))
        return run("sweeps", found, processes=True)


if __name__ == "__main__":
    sys.exit(main(*programs(sys.argv[1:2], "nms_tool"), *map(int, sys.argv[2:])))
