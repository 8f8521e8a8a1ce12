#!/usr/bin/env python3
"""Runs random scripts in which round lots change, and compares what the program answers with what must come.

    tests/judge_lots.py [PROGRAM [SCRIPTS [SEED]]]      PROGRAM is nms_tool; 2,000 scripts if no number is given

What must come is said by the slow program of rules.py, which keeps no rows, no order and no lot. The records are
quotations, states, withdrawals, round lots by their number and by an average closing price at and around each border,
takings, publishings, looks, trade-through tests, and records that are refused. A script that differs is made as short as
it can be. The trials are `script N`, counted from 0.
"""
import random
import re
import subprocess
import sys
import tempfile

from drawn import quotation, setup_of
from rules import Machine, answers, dollars, lot_by, plain_records, price_of
from stored import MOST, programs
from trials import Trial, Wrong, compare, least, run

PARTS = {"N": ("A", 0, 0), "P": ("A", 0, 0), "Y": ("B", 0, 0), "Z": ("B", 0, 0)}
QUEUE, TAPE, DESKS, RECORDS = 12, 30, 2, 50
# The opening lots of both symbols, one setup for each pair.
LOTS = [(100, 100), (40, 10), (1, 1000), (7, 100)]
# The values of the field of a lot, and of an average, each drawn as often as it is listed here.
NUMBERS = ["1", "0001", "7", "10", "010", "40", "40", "50", "99", "100", "100", "0100", "101", "200", "999", "1000"]
NO_NUMBERS = ["0", "0000", "1001", "9999", "00001", "10000", "", "AVG", "4x", "-1", "1.0"]
PRICES = ["0.0001", "1", "249.9999", "250", "250.0", "250.0000", "250.0001", "250.0050", "999.9999", "1000", "1000.0000"]
PRICES += ["1000.0001", "9999.9999", "10000", "10000.0000", "10000.0001", "9999999.9999"]
NO_PRICES = ["0", "0.0000", "", "250.00001", "10000000", "-250", "250.", ".5", "AVG"]


def read_lot(record):
    """What a record `R` of a script asks: a change, or a refusal with the first of its faults."""
    row = record.split(",")
    if len(row) not in (3, 4):
        return "refused", "L2"
    if row[1] not in ("ABC", "PNY"):
        return "refused", "L4"
    if len(row) == 4 and row[2] != "AVG":
        return "refused", "L5"
    if len(row) == 4:
        price = price_of(row[3])
        return ("send", ("R", row[1], lot_by(price))) if price else ("refused", "L6")
    fits = re.fullmatch(r"[0-9]{1,4}", row[2]) and 1 <= int(row[2]) <= 1000
    return ("send", ("R", row[1], int(row[2]))) if fits else ("refused", "L14")


def drawn_side(chance):
    """A side's two fields, and what they say."""
    if chance.random() < 0.2:
        return ",", None
    price = chance.randrange(99_900, 100_200, 100)
    shares = chance.choice([0, 1, 6, 7, 39, 40, 50, 79, 80, 99, 100, 199, 200, 250, 280, 290, 1000, 2500])
    return f"{dollars(price)},{shares}", (price, shares) if shares else None


def drawn_lot(chance):
    """A record of a lot: mostly one that is taken."""
    sym = chance.choice(["ABC", "ABC", "PNY"])
    form = chance.choices("lawLAWns", [8, 8, 1, 1, 1, 1, 1, 1])[0]
    return {
        "l": f"R,{sym},{chance.choice(NUMBERS)}",
        "a": f"R,{sym},AVG,{chance.choice(PRICES)}",
        "w": f"R,{sym},{chance.choice(['AV', 'avg', '', '40'])},{chance.choice(PRICES + NO_PRICES)}",
        "L": f"R,{sym},{chance.choice(NO_NUMBERS)}",
        "A": f"R,{sym},AVG,{chance.choice(NO_PRICES)}",
        "W": f"R,{sym},AVG,{chance.choice(PRICES)},",
        "n": f"R,{sym}",
        "s": f"R,{chance.choice(['XYZ', '', 'abc'])},{chance.choice(NUMBERS + NO_NUMBERS)}",
    }[form]


def drawn(chance):
    """A record, and what it asks."""
    part, sym, desk = chance.choice(list(PARTS)), chance.choice(["ABC", "ABC", "PNY"]), chance.randrange(DESKS)
    letter = chance.choice("AAAAMH")
    kind = chance.choices("QSXRTFPLNEr", [40, 6, 3, 22, 5, 15, 2, 2, 18, 8, 1])[0]
    if kind == "Q":
        record, change = quotation(chance, drawn_side, part, sym, letter)
        return record, ("send", change)
    if kind == "R":
        record = drawn_lot(chance)
        return record, read_lot(record)
    if kind == "E":
        price = chance.randrange(99_900, 100_200, 100)
        return f"E,{desk},{sym},{dollars(price)}", ("through", desk, sym, price)
    if kind == "r":
        return f"r,{sym},40", ("refused", "L1")
    return plain_records(part, sym, letter, desk)[kind]


def judge(program, path, lots, script):
    """Raises what the program does otherwise on a script under a setup, which is at a path."""
    lines, _ = answers(Machine(QUEUE, TAPE, dict(zip(("ABC", "PNY"), lots))), script)
    given = "".join(f"{record}\n" for record, _ in script).encode()
    ran = subprocess.run([program, "script", "--setup", path], input=given, capture_output=True, timeout=MOST, check=False)
    compare("answers", ran.stdout, "".join(f"{it}\n" for it in lines).encode())
    compare("standard error", ran.stderr, b"")
    compare("status", ran.returncode, 0)


def judged(program, path, lots, script):
    """Raises what the program does otherwise, on the least script that shows it."""

    def fails(script):
        try:
            judge(program, path, lots, script)
        except Wrong as fault:
            return fault
        return None

    if fails(script):
        script = least(script, fails)
        fault = fails(script)
        text = "".join(f"{record}\n" for record, _ in script)
        raise Wrong(fault.line, f"lots of {lots}, the least script that shows it:\n{text}{fault.whole}")


def main(program, count=2000, seed=242_600):
    chance = random.Random(seed)
    scripts = [[drawn(chance) for _ in range(RECORDS)] for _ in range(count)]
    print(f"seed {seed}: {count} scripts")
    with tempfile.TemporaryDirectory(prefix="nms-") as room:
        paths = [f"{room}/{place}.toml" for place in range(len(LOTS))]
        for path, lots in zip(paths, LOTS):
            with open(path, "w", encoding="ascii") as file:
                file.write(setup_of(PARTS, dict(zip(("ABC", "PNY"), lots)), TAPE, QUEUE, DESKS))
        places = [(number, number % len(LOTS), script) for number, script in enumerate(scripts)]
        return run("lots", [Trial(f"script {number}", judged, (program, paths[at], LOTS[at], script)) for number, at, script in places])


if __name__ == "__main__":
    sys.exit(main(*programs(sys.argv[1:2], "nms_tool"), *map(int, sys.argv[2:])))
