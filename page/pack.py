#!/usr/bin/env python3
"""Makes a page of what nms_review prints and of its input files: a slow, plain writer of the data that DATA.md describes.

    page/pack.py PROGRAM OUT CHANGES SYM.. [--plan FILE].. [--trades FILE] [--times FILE] [--symbols FILE] [--window NS]
                 [--before] [--setup FILE] [--data] [--bests]

PROGRAM is nms_review. A FILE of `--plan` may hold several plans, as a script's answers do. With `--data` OUT has the data and
no page; with `--bests` the page has best quotations and no boards. Executions of other symbols than SYM.. are left out.
"""
import argparse
import csv
import json
import math
import os
import re
import subprocess
import sys
import tempfile
import tomllib

import join

DIGITS = "ABCDEFGHIJKLMNOPQRSTUVWXYZabcdefghijklmnopqrstuvwxyz0123456789+/"
KINDS = ("clean", "noquote", "perhaps", "through")
# The first cause counts 1 in the number of an execution's causes, the next one 2, and so on.
CAUSES = ("SELFHELP-CLAIMED NOTREGULAR-CLAIMED AUCTION-CLAIMED CROSSED ISO-CLAIMED SWEPT-CLAIMED BENCHMARK-CLAIMED FLICKER "
          "STOPPED-CLAIMED CONTINGENT-CLAIMED EXEMPT-CLAIMED HOURS-CLAIMED SEQUENCE-CLAIMED").split()
# What a sentence on a plan is about.
PARTS = ("order", "doubt", "certificate")
# Statuses of a call that printed its answer: done, doubted, refused records.
DONE = (0, 4, 6)
# Rows of the plain report.
MOST_PLAIN = 500
COLUMNS = {
    "days": "first last timed",
    "lines": "day version time bid_by bid bid_shares offer_by offer offer_shares",
    "board": "day version time by bid bid_shares bid_age offer offer_shares offer_age manual",
    "lots": "day version time lot",
    "executions": "day time version kind price shares side by record count worst through cause",
    "rows": "execution offer by price shares age worse own flicker",
    "aside": "refused other",
    "plans": "day version time side shares limit filled name verdict",
    "legs": "plan by price shares",
    "quotations": "plan by price shares manual sent over note",
    "said": "plan part text",
}


# The spelling of the data.

def digits_of(number):
    """A number in base 32, lowest digit first; 32 is added to each digit but the last."""
    found = ""
    while number > 31:
        found += DIGITS[number % 32 + 32]
        number //= 32
    return found + DIGITS[number]


SMALL = [digits_of(it) for it in range(4096)]


def column_of(values):
    """A column: a digit for its unit, and the differences."""
    common = math.gcd(*values)
    places = max(it for it in range(10) if common % 10**it == 0)
    unit, last, found = 10**places, 0, [str(places)]
    for value in values:
        step = (value - last) // unit
        number = 2 * step if step >= 0 else 1 - 2 * step
        found.append(SMALL[number] if number < 4096 else digits_of(number))
        last = value
    return "".join(found)


def table_of(name, rows):
    table = {"n": len(rows)}
    for place, column in enumerate(COLUMNS[name].split()):
        values = [it[place] for it in rows]
        if any(values):
            table[column] = column_of(values)
    return table


def data_text(data):
    """The data as JSON in which no byte ends its element."""
    text = json.dumps(data, separators=(",", ":"))
    return re.sub("[<>&]", lambda it: f"\\u{ord(it[0]):04x}", text)


class Names(dict):
    """Texts by their places, in the order in which they came; the first is empty."""

    def __init__(self):
        super().__init__({"": 0})

    def place(self, text):
        return self.setdefault(text or "", len(self))


# What is in the files and in what the program prints.

def nanoseconds(text):
    """A time of six digits and up to nine more."""
    return ((int(text[:2]) * 60 + int(text[2:4])) * 60 + int(text[4:6])) * 10**9 + int(text[6:].ljust(9, "0"))


def fixed(text, places):
    """A decimal text as a whole number of its smallest unit. Nothing is rounded."""
    whole, _, part = (text or "0").partition(".")
    return int(whole + part.ljust(places, "0")[:places])


def records(path):
    with open(path, newline="", encoding="utf-8") as it:
        return [row for row in csv.reader(it) if row]


class Day:
    """The files of a page, and the program that reads them."""

    def __init__(self, given):
        self.given, self.names, self.words = given, Names(), Names()
        self.clock = [nanoseconds(row[0].strip()) for row in records(given.times)] if given.times else None
        self.changes = records(given.changes)
        self.place = {symbol: place for place, symbol in enumerate(given.symbol)}
        self.lot = dict.fromkeys(given.symbol, 100)
        if given.setup:
            with open(given.setup, "rb") as it:
                self.lot.update({row["name"]: row["lot"] for row in tomllib.load(it)["symbol"]})

    def objects(self, *words):
        """What a call prints as JSON."""
        setup = ["--setup", self.given.setup] if self.given.setup else []
        ran = subprocess.run([self.given.program, *words, "--json", *setup], capture_output=True, text=True, check=False)
        if ran.returncode not in DONE or ran.stderr:
            raise SystemExit(f"page/pack.py: {' '.join(words)}: status {ran.returncode}: {ran.stderr}")
        return [json.loads(line) for line in ran.stdout.splitlines()]

    def timing(self):
        given = self.given
        return ["--times", given.times] * bool(given.times) + ["--symbols", given.symbols] * bool(given.symbols)

    def time(self, version):
        return self.clock[version - 1] if self.clock and 0 < version <= len(self.clock) else 0

    # The stream, the boards and the lots.

    def lines(self):
        for symbol, day in self.place.items():
            for it in self.objects("stream", self.given.changes, symbol):
                sides = [(self.names.place(it[f"{side}_participant"]), fixed(it[f"{side}_price"], 4), it[f"{side}_shares"] or 0)
                         for side in ("bid", "offer")]
                yield (day, it["version"], self.time(it["version"]), *sides[0], *sides[1])

    def boards(self):
        """A row for each change of what a participant shows, and each change of a lot."""
        rows, lots = [], []
        for symbol, day in self.place.items():
            board = Board(self.lot[symbol])
            lots.append((day, 0, 0, board.lot))
            for version, change in enumerate(self.changes, 1):
                for part in board.take(change, symbol, version):
                    rows.append((day, version, self.time(version), self.names.place(part), *board.shown(part, version)))
                if board.lot != lots[-1][3]:
                    lots.append((day, version, self.time(version), board.lot))
        return rows, lots

    # Executions.

    def judged(self):
        """The executions of the page's symbols, their ids, the quotations that they traded through, and the records aside."""
        found = [row for row in records(self.given.trades)] if self.given.trades else []
        numbers = [number for number, row in enumerate(found, 1) if row[2:3] and row[2] in self.place]
        if not numbers:
            return [], [], [], [(0, 0)]
        rules = [*self.timing(), *["--before"] * self.given.before, *(["--window", self.given.window] if self.given.window else [])]
        sums = self.objects("trades", self.given.changes, self.given.trades, *rules, "--table")[0]
        with tempfile.NamedTemporaryFile("w", suffix=".executions", newline="") as file:
            csv.writer(file, lineterminator="\n").writerows(found[number - 1] for number in numbers)
            file.flush()
            judged = self.objects("trades", self.given.changes, file.name, *rules)
            return *self.executions(judged, numbers), [(sums["refused"], sums["other"])]

    def executions(self, findings, numbers):
        found, ids, rows = [], [], []
        for it in findings:
            if it["what"] in KINDS:
                ids.append(it["id"])
                found.append(self.execution(it, numbers[it["record"] - 1]))
            elif it["what"] == "row":
                by, since = self.names.place(it["participant"]), found[-1][2] - it["receipt"]
                rows.append((len(found) - 1, int(it["side"] == "OFFER"), by, fixed(it["price"], 4), it["shares"], since,
                             fixed(it["by"], 6), int(it["own"]), int(it["flicker"])))
        return found, ids, rows

    def execution(self, it, number):
        version, side = it["version"], (None, "B", "S").index(it["side"])
        time = nanoseconds(it["time"]) if it["time"] else self.time(version)
        return (self.place[it["symbol"]], time, version, KINDS.index(it["what"]), fixed(it["price"], 6), it["executed"], side,
                self.names.place(it["participant"]), number, it.get("count", 0), fixed(it.get("worst"), 6), it.get("shares", 0),
                sum(2 ** CAUSES.index(cause) for cause in (it.get("cause") or "NONE").split("+") if cause != "NONE"))

    # Plans.

    def plans(self):
        tables = [], [], [], []
        for path in self.given.plan:
            with open(path, encoding="utf-8") as it:
                found = re.findall(r"^PLAN,.*?^END$", it.read(), re.M | re.S)
            for number, text in enumerate(found, 1):
                with tempfile.NamedTemporaryFile("w", suffix=".plan") as file:
                    file.write(text + "\n")
                    file.flush()
                    self.plan(file.name, path if len(found) == 1 else f"{path}, plan {number}", tables)
        return tables

    def plan(self, file, name, tables):
        """Adds a plan to the tables of plans, legs, quotations and sentences."""
        plans, legs, quotations, said = tables
        told = {}
        for row in self.objects("why", self.given.changes, file):
            told.setdefault(row["what"], []).append(row)
        it, number, word = told["plan"][0], len(plans), self.words.place
        if it["symbol"] not in self.place:
            return
        verdict = " ".join(filter(None, (it["verdict"], it["code"], it["breach"])))
        plans.append((self.place[it["symbol"]], it["version"], self.time(it["version"]), ("buy", "sell").index(it["side"]) + 1,
                      it["shares"], fixed(it["limit"], 4), it["filled"], word(name), word(verdict)))
        legs += [(number, self.names.place(row["participant"]), fixed(row["price"], 4), row["shares"]) for row in told.get("leg", [])]
        over = {(row["participant"], row["price"]) for row in told.get("traded_through", [])}
        for row in told.get("quotation", []):
            quotations.append((number, self.names.place(row["participant"]), fixed(row["price"], 4), row["displayed"],
                               int(row["state"] != "protected"), row["sent"], int((row["participant"], row["price"]) in over),
                               word(row["note"])))
        for row in told["said"]:
            said.append((number, PARTS.index(row["about"]), word(row["text"].replace(f"{file}: ", f"{name}: "))))


class Board:
    """What each participant sent on one symbol, and what of it is displayed."""

    def __init__(self, lot):
        self.lot, self.sides, self.states, self.last = lot, {}, {}, {}

    def take(self, change, symbol, version):
        """Takes a change, and gives the participants whose displayed quotations it alters."""
        kind, *fields = change
        if kind == "X":
            touched = [fields[0]] if fields[0] in self.states else []
            self.sides.update({(part, side): (0, 0, version) for part, side in self.sides if part in touched})
        elif kind == "R" and fields[0] == symbol:
            self.lot = lot_by(fixed(fields[2], 4)) if fields[1] == "AVG" else int(fields[1])
            touched = list(self.states)
        elif kind in "QS" and fields[1] == symbol:
            touched = [fields[0]]
            self.states[fields[0]] = fields[2]
            if kind == "Q":
                self.quote(fields[0], fields[3:], version)
        else:
            return []
        return [part for part in touched if self.alters(part)]

    def quote(self, part, fields, version):
        for side in (0, 1):
            price, shares = fixed(fields[2 * side], 4), int(fields[2 * side + 1] or 0)
            sent = (price, shares) if shares else (0, 0)
            if self.sides.get((part, side), (0, 0, 0))[:2] != sent:
                self.sides[part, side] = (*sent, version)

    def displayed(self, part):
        """Of each side price, displayed shares and receipt, and last whether it is manual."""
        found, state = [], self.states[part]
        for side in (0, 1):
            price, shares, receipt = self.sides.get((part, side), (0, 0, 0))
            whole = shares // self.lot * self.lot if state != "H" else 0
            found.append((price, whole, receipt) if whole else (0, 0, 0))
        return (*found, int(state == "M" and any(it[1] for it in found)))

    def alters(self, part):
        was, now = self.last.get(part, ((0, 0, 0), (0, 0, 0), 0)), self.displayed(part)
        self.last[part] = now
        return was != now

    def shown(self, part, version):
        """The columns of a row of the board."""
        *sides, manual = self.displayed(part)
        return (*(it for price, shares, receipt in sides for it in (price, shares, version - receipt if shares else 0)), manual)


def lot_by(price):
    """The lot of an average closing price (17 CFR 242.600, "round lot")."""
    return next((lot for most, lot in ((2_500_000, 100), (10_000_000, 40), (100_000_000, 10)) if price <= most), 1)


# The page.

def about(given):
    """What the page was made of."""
    said = ["changes", given.changes]
    for key, text in (("plan", ", ".join(given.plan)), ("executions", given.trades), ("times", given.times), ("symbols", given.symbols),
                      ("setup", given.setup), ("window (ns)", given.window)):
        said += [key, text] if text else []
    return said + (["before", "yes"] if given.before else [])


def data_of(day):
    given = day.given
    lines, (board, lots) = list(day.lines()), day.boards()
    (executions, ids, rows, aside), plans = day.judged(), day.plans()
    last = len(day.changes)
    tables = {"days": [(0, last, int(bool(day.clock)))] * len(day.place), "lines": lines, "board": [] if given.bests else board, "lots": lots,
              "executions": executions, "rows": rows, "aside": aside,
              **dict(zip(("plans", "legs", "quotations", "said"), plans))}
    texts = {"symbols": list(day.place), "names": list(day.names), "causes": CAUSES, "ids": ids, "words": list(day.words)}
    return {"format": 1, "about": about(given), **texts, **{name: table_of(name, it) for name, it in tables.items()}}, executions


def escaped(text):
    return re.sub("[&<>\"']", lambda it: f"&#{ord(it[0])};", str(text))


def causes_text(number):
    return "+".join(cause for place, cause in enumerate(CAUSES) if number >> place & 1) or "NONE"


def counted(many, word):
    """How many of a thing there are, by the word for one."""
    return f"{many} {word}" if many == 1 else f"{many} {word}s"


def plain_report(data, executions):
    """The summary and the findings as HTML, for a reader without JavaScript."""
    flagged = [(name, it) for name, it in zip(data["ids"], executions) if it[3] > 1]
    pairs = zip(data["about"][::2], data["about"][1::2])
    said = [", ".join(data["symbols"]) + ". " + ", ".join(f"{key} {text}" for key, text in pairs) + ".",
            f"{counted(data['lines']['n'], 'line')} of the stream. {counted(len(executions), 'execution')}, {len(flagged)} flagged."]
    rows = [(name, data["symbols"][it[0]], it[2], f"{it[4] / 1e6:.6f}", it[5], f"{it[10] / 1e6:.6f}", KINDS[it[3]], causes_text(it[12]))
            for name, it in flagged[:MOST_PLAIN]]
    heads = ("id", "symbol", "version", "price", "shares", "worse by at most", "finding", "exception")
    table = "".join("<tr>" + "".join(f"<td>{escaped(it)}" for it in row) for row in rows)
    return "".join(f"<p>{escaped(it)}</p>" for it in said) + (
        "<table><tr>" + "".join(f"<th>{it}" for it in heads) + table + "</table>" if rows else "")


def pieces(given):
    """The pieces of the file: the data, or page text, report, page text, data, page text."""
    data, executions = data_of(Day(given))
    if given.data:
        return [data_text(data)]
    head, middle, tail = join.texts()
    return [head, plain_report(data, executions), middle, data_text(data), tail]


def main(words):
    parser = argparse.ArgumentParser(prog="page/pack.py")
    for name in ("program", "out", "changes"):
        parser.add_argument(name)
    parser.add_argument("symbol", nargs="+")
    for name in ("trades", "times", "symbols", "window", "setup"):
        parser.add_argument(f"--{name}")
    parser.add_argument("--plan", action="append", default=[])
    for name in ("before", "data", "bests"):
        parser.add_argument(f"--{name}", action="store_true")
    given = parser.parse_args(words)
    made = pieces(given)  # before OUT is opened: a call that fails leaves it as it was
    with open(given.out, "w", encoding="utf-8") as out:
        out.writelines(made)


if __name__ == "__main__":
    sys.exit(main(sys.argv[1:]))
