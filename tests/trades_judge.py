#!/usr/bin/env python3
"""Compares `nms_review trades` with a plain slow program, on random executions among random changes.

    tests/trades_judge.py PROGRAM [EXECUTIONS [SEED]]

EXECUTIONS is 20,000 if it is not given. The plain program looks back over all changes at each execution, by the rules that
rules.py has, and compares prices in 1/1,000,000 dollar; with times it does so at each version of a window, and of the second
before. Two files of three have times, with ties; half of those are sorted by symbol, and half of these are a shard that has a
symbol for a part of the day. In one file of four a symbol is quoted late, or never. One record in ten is refused, in each
way that a record can be. The lines, the same as JSON with the best quotations, the table as JSON, the columns, and the sums of
quality as JSON must be those of the plain program, which has the quality as fractions of a dollar. It prints the seed, and at a difference the first execution that differs with the changes up to its version. The last
line is `N passed, M failed`; status 1 at a difference.
"""
import json
import os
import random
import subprocess
import sys
import tempfile
from fractions import Fraction

import judge_lots
import rules
from drawn import clock, quotation

PARTS, SYMS = list(judge_lots.PARTS), ["ABC", "PNY"]
OPENING = {"ABC": 100, "PNY": 100}
CHANGES, EACH = 150, 250
WORDS = {"C": "NOTREGULAR-CLAIMED", "O": "AUCTION-CLAIMED", "I": "ISO-CLAIMED", "J": "SWEPT-CLAIMED", "K": "BENCHMARK-CLAIMED", "P": "STOPPED-CLAIMED",
         "Q": "CONTINGENT-CLAIMED", "E": "EXEMPT-CLAIMED", "T": "HOURS-CLAIMED", "Z": "SEQUENCE-CLAIMED"}
CAUSES = ["SELFHELP-CLAIMED", "NOTREGULAR-CLAIMED", "AUCTION-CLAIMED", "CROSSED", "ISO-CLAIMED", "SWEPT-CLAIMED", "BENCHMARK-CLAIMED", "FLICKER",
          "STOPPED-CLAIMED", "CONTINGENT-CLAIMED", "EXEMPT-CLAIMED", "HOURS-CLAIMED", "SEQUENCE-CLAIMED"]


DAY, SECOND = 86_400 * 10**9, 10**9


def drawn_change(chance):
    """A change as a line, and as the plain program has it."""
    part, sym, letter = chance.choice(PARTS), chance.choice(["ABC", "ABC", "PNY"]), chance.choice("AAAAMH")
    kind = chance.choices("QSXR", [40, 4, 2, 4])[0]
    if kind == "Q":
        return quotation(chance, judge_lots.drawn_side, part, sym, letter)
    if kind == "R":
        lot = chance.choice([1, 10, 40, 100])
        return f"R,{sym},{lot}", ("R", sym, lot)
    record, (_, change) = rules.plain_records(part, sym, letter, 0)[kind]
    return record, change


def fine(millionths):
    return f"{millionths // 1_000_000}.{millionths % 1_000_000:06}"


def drawn_flags(chance):
    """Flags as a text, their words, the participants that self-help names, and whether a flag after those is a name too."""
    letters = chance.choices([[], ["H"], chance.sample(list(WORDS), chance.randrange(1, 4))], [60, 15, 25])[0]
    if chance.random() < 0.1:
        letters = letters + ["H"]
    chance.shuffle(letters)
    texts, named, doubt = [], set(), False
    for letter in letters:
        if letter != "H":
            doubt = doubt or letter in PARTS and "H" in letters[:letters.index(letter)]
            texts.append(letter)
            continue
        names = chance.choices(PARTS, k=chance.randrange(1, 4))
        named |= set(names)
        texts.append("H=" + "/".join(names))
    return "+".join(texts), {WORDS[it] for it in letters if it != "H"}, named, doubt


BAD = [  # the place of the field, its text, the column and the code
    (0, "E", 1, "X1"), (0, "d", 1, "X1"), (1, "", 2, "X3"), (1, "a b", 2, "X3"), (1, "x" * 33, 2, "X3"), (2, "abc", 3, "X4"),
    (2, "", 3, "X4"), (3, "", 4, "X5"), (3, "0.000000", 4, "X5"), (3, "10.1234567", 4, "X5"), (3, "12345678", 4, "X5"),
    (3, "-1", 4, "X5"), (3, "1.", 4, "X5"), (3, ".5", 4, "X5"), (4, "0", 5, "X6"), (4, "", 5, "X6"), (4, "1234567890", 5, "X6"),
    (5, "b", 6, "X7"), (5, "BS", 6, "X7"), (6, "", 7, "X8"), (6, "-1", 7, "X8"), (6, "@1", 7, "X8"), (6, "1234567890", 7, "X8"),
    (6, str(CHANGES + 1), 7, "X9"), (7, "n", 8, "X10"), (7, "NN", 8, "X10"), (8, "X", 9, "X11"), (8, "I+", 9, "X11"),
    (8, "H=", 9, "X11"), (8, "H=N/", 9, "X11"), (8, "H", 9, "X11"), (8, "IJ", 9, "X11"), (6, "@", 7, "X8"), (6, "@09300", 7, "X8"),
    (6, "@240000", 7, "X8"), (6, "@096000", 7, "X8"), (6, "@0930000000000001", 7, "X8"), (6, "@-93000", 7, "X8"), (6, "@@093000", 7, "X8"),
]
UNTIMED = [(6, "@093000", 7, "X12"), (6, "@093000000000000", 7, "X12"), (6, "@235959.", 7, "X8")]


def looked(tape, seen, sym, version):
    """The quotations of a version by rank: the protected ones of each side, and what an object says of the best of all."""
    if (version, sym) not in seen:
        sides, best = [], {}
        for side, sign in (("BID", -1), ("OFFER", 1)):
            found = sorted(rules.rows(tape[:version], sym, side, OPENING), key=lambda it: (sign * it[0], -it[1], it[2]))
            sides.append((side, sign, [it for it in found if it[4] == "A"]))
            best[side.lower()], best[f"{side.lower()}_shares"] = (rules.dollars(found[0][0]), found[0][1]) if found else (None, None)
        seen[version, sym] = sides, best
    return seen[version, sym]


def passed(sides, millionths):
    return [(side, it) for side, sign, found in sides for it in found if sign * it[0] * 100 < sign * millionths]


def is_inferior(sides, on, part, millionths):
    """Whether a participant shows a protected quotation on a side, at a price or inferior to it."""
    return any(it[3] == part and sign * it[0] * 100 >= sign * millionths for side, sign, found in sides if side == on for it in found)


def judged(look, tape, sym, when, millionths, shares, part, words, named):
    """What is found about an execution: its standing, its rows, each with how much it takes and whether it flickered, and the
    causes. The versions are its own, those of its window, and those of the second before, if its time is known. It is clean
    only if its symbol was quoted on each version."""
    version, window, second = when
    sides = look(version)
    through = passed(sides, millionths)
    (bids, offers), left, rows = (it[2] for it in sides), shares, []
    for side, it in through:
        if it[3] not in named:
            takes = min(left, it[1])
            left -= takes
            flickers = any(is_inferior(look(n), side, it[3], millionths) for n in second)
            rows.append((side, it[3], it[0], it[1], it[2], abs(it[0] * 100 - millionths), takes, flickers))
    causes = set(words)
    quoted = any(it[0] == "Q" and it[2] == sym for it in tape[:window[0]])
    if len(rows) < len(through):
        causes.add("SELFHELP-CLAIMED")
    if rows and all(it[7] for it in rows):
        causes.add("FLICKER")
    if bids and offers and bids[0][0] > offers[0][0]:
        causes.add("CROSSED")
    several = {bool(passed(look(n), millionths)) for n in window}
    standing = "PERHAPS" if len(several) == 2 else "THROUGH" if several == {True} else "CLEAN" if quoted else "NOQUOTE"
    return standing, rows, [it for it in CAUSES if it in causes]


class Times:
    """The times of a file of changes: over all of them, or by symbol."""

    def __init__(self, chance, by_symbol=False):
        self.by_symbol, self.all, self.spans, self.cuts = by_symbol, [], {}, {}
        self.before, self.alone = chance.random() < 0.3, by_symbol and chance.random() < 0.15
        self.window = chance.choice([None, None, 0, 1, 5_000_000, 400_000_000, SECOND, 60 * SECOND])

    def sorted(self, pairs):
        """The changes in the order of a file of these times. By symbol no change is of all symbols, and one symbol may have none."""
        if not self.by_symbol:
            return pairs
        own = {sym: [it for it in pairs if it[1][0] != "X" and it[1][1 if it[1][0] == "R" else 2] == sym] for sym in SYMS}
        if self.alone:
            own["PNY"] = []
        self.spans["ABC"] = (0, len(own["ABC"]))
        if own["PNY"]:
            self.spans["PNY"] = (len(own["ABC"]), len(own["ABC"]) + len(own["PNY"]))
        return own["ABC"] + own["PNY"]

    def draw(self, chance, pairs):
        """Draws a time for each change."""
        if not self.by_symbol:
            self.spans = {sym: (0, len(pairs)) for sym in SYMS}
        step = chance.choice([3, 40_000_000, 300_000_000])
        for first, last in sorted(set(self.spans.values())):
            now = 34_200 * SECOND
            for _ in range(first, last):
                now += chance.choice([0, 0, 1, chance.randrange(step), chance.randrange(step)])
                self.all.append(now)
        if self.by_symbol and chance.random() < 0.5:
            for sym in self.spans:
                near = [max(it + chance.choice([0, 0, 1, -1]), 0) for it in sorted(chance.choices(self.all, k=2))]
                self.cuts[sym] = [it if chance.random() < 0.7 else None for it in near]

    def other(self, sym, nanos):
        """Whether another shard judges an execution: the first change after a cut is in force or not."""
        first, last = self.cuts.get(sym, (None, None))
        def past(cut):
            return cut < nanos if self.before else cut <= nanos
        return first is not None and not past(first) or last is not None and past(last)

    def lines(self):
        """The file of symbols."""
        for sym, (first, last) in self.spans.items():
            yield f"{sym},{first + 1},{last}"
            for word, cut in zip(("from", "until"), self.cuts.get(sym, ())):
                if cut is not None:
                    yield f"{sym} {word} {clock(cut)},{first + 1},{last}"

    def version(self, sym, nanos):
        first, last = self.spans[sym]
        return first + sum(it < nanos if self.before else it <= nanos for it in self.all[first:last])

    def when(self, sym, nanos):
        """The version at a time, those of its window, and those of the second before."""
        wide = self.window or 0
        first, last = self.version(sym, max(nanos - wide, 0)), self.version(sym, min(nanos + wide, DAY - 1))
        own, second = self.version(sym, nanos), self.version(sym, max(nanos - SECOND, 0))
        return own, range(first, last + 1), range(second, own + 1)

    def drawn(self, chance):
        """A time near one of a change, and as a text."""
        nanos = chance.choice([*self.all, 34_200 * SECOND]) + chance.choice([0, 0, -1, 1, 1000, 200_000_000, -SECOND, SECOND, SECOND + 1])
        nanos = chance.choices([nanos, chance.choice([0, 1, DAY - 1])], [30, 1])[0]
        text = clock(nanos)
        return nanos, text[:6] + text[6:].rstrip("0") if chance.random() < 0.5 else text


SUMS = ["no_cause", "rows", "shares", "dollars", "worst"]


def count():
    return {"executions": 0, "noquote": 0, "perhaps": 0, "through": 0, **{it: 0 for it in SUMS}, **{f"perhaps_{it}": 0 for it in SUMS}}


def add(to, standing, rows, causes, whole=True):
    if whole:
        to["executions"] += 1
        to["noquote"] += standing == "NOQUOTE"
        to["perhaps"] += standing == "PERHAPS"
        to["through"] += standing == "THROUGH"
    if standing not in ("THROUGH", "PERHAPS"):
        return
    of = "" if standing == "THROUGH" else "perhaps_"
    if whole:
        to[of + "no_cause"] += bool(rows) and not set(causes) - {"SELFHELP-CLAIMED"}
    to[of + "rows"] += len(rows)
    to[of + "shares"] += sum(it[6] for it in rows)
    to[of + "dollars"] += sum(it[5] * it[6] for it in rows)
    to[of + "worst"] = max([to[of + "worst"], *(it[5] for it in rows)])


def day(chance, first):
    """A file of changes, one of executions, the lines and the table that must come; of each answer its record, and the best quotations of
    its version."""
    pairs = [drawn_change(chance) for _ in range(CHANGES)]
    late = chance.choice([None, None, None, ("ABC", 100), ("PNY", CHANGES)])
    if late:
        pairs = [it for at, it in enumerate(pairs) if at >= late[1] or it[1][0] != "Q" or it[1][2] != late[0]]
    times = chance.choice([None, Times(chance), Times(chance, by_symbol=True)])
    if times:
        pairs = times.sorted(pairs)
        times.draw(chance, pairs)
    tape, seen, records, answers, bests = [it[1] for it in pairs], {}, [], [], {}
    tables = {"cause": {}, "executed": {}, "passed": {}, "symbol": {}, "half_hour": {}}
    total, aside = count(), {"refused": 0, "other": 0}
    for number in range(EACH):
        sym, version = chance.choice(["ABC", "ABC", "PNY"]), chance.choice([0, 1, len(pairs), *range(len(pairs))])
        when, text, nanos = (version, range(version, version + 1), ()), str(version), None
        if times and chance.random() < 0.8:
            nanos, digits = times.drawn(chance)
            text, when = "@" + digits, times.when(sym, nanos) if sym in times.spans else None
        millionths = chance.choice([chance.randrange(9_990_000, 10_020_000, 10_000), chance.randrange(9_980_000, 10_030_000),
                                    chance.randrange(9_980_000, 10_030_000, 50), 1, 9_999_999_999_999])
        shares, part = chance.choice([1, 50, 100, 300, 5000, 999_999_999]), chance.choice(["", *PARTS])
        flags, words, named, doubt = drawn_flags(chance)
        price, name = fine(millionths), f"x{first + number}.{chance.choice(['a', 'B-', '_'])}"
        if chance.random() < 0.3 and price.endswith("0"):
            price = price.rstrip("0").rstrip(".")
        fields = ["D", name, sym, price, str(shares), chance.choice(["", "B", "S"]), text, part, flags]
        if chance.random() < 0.1:
            aside["refused"] += 1
            if chance.random() < 0.1:
                records.append(",".join(fields[:8] if chance.random() < 0.5 else fields + [""]))
                answers.append([f"REFUSED,{number + 1},1,X2"])
                continue
            place, bad, column, code = chance.choice(BAD if times else [*BAD, *UNTIMED])
            fields[place] = bad
            if when is None and place > 6:
                column, code = 3, "X13"
            records.append(",".join(fields))
            answers.append([f"REFUSED,{number + 1},{column},{code}"])
            continue
        records.append(",".join(fields))
        if when is None:
            aside["refused"] += 1
            answers.append([f"REFUSED,{number + 1},3,X13"])
            continue
        version = when[0]
        if doubt:
            aside["refused"] += 1
            answers.append([f"REFUSED,{number + 1},9,X11"])
            continue
        if nanos is not None and times.other(sym, nanos):
            aside["other"] += 1
            answers.append([f"OTHER,{name}"])
            continue
        standing, rows, causes = judged(lambda n: looked(tape, seen, sym, n)[0], tape, sym, when, millionths, shares, part, words, named)
        bests[number + 1] = looked(tape, seen, sym, version)[1]
        if nanos is not None:
            half_hour = nanos // (1800 * SECOND)
            add(tables["half_hour"].setdefault(f"{half_hour // 2:02}:{half_hour % 2 * 3}0", count()), standing, rows, causes)
        for table, key in (("executed", part or "(none)"), ("symbol", sym)):
            add(tables[table].setdefault(key, count()), standing, rows, causes)
        add(total, standing, rows, causes)
        if standing in ("CLEAN", "NOQUOTE"):
            answers.append([f"{standing},{name},{version}"])
            continue
        for cause in causes:
            add(tables["cause"].setdefault(cause, count()), standing, rows, causes)
        for row in rows:
            add(tables["passed"].setdefault(row[1], count()), standing, [row], causes, whole=False)
        worst = fine(max((it[5] for it in rows), default=0))
        head = f"{standing},{name},{version},{len(rows)},{worst},{sum(it[6] for it in rows)},{'+'.join(causes) or 'NONE'}"
        answers.append([head] + [
            f"ROW,{side},{who},{rules.dollars(at)},{size},{receipt},{fine(by)},{'+'.join(['OWN'] * (who == part) + ['FLICKER'] * flickers)}"
            for side, who, at, size, receipt, by, _, flickers in rows])
    return pairs, times, records, answers, bests, table_of(total, aside, tables)


def table_of(total, aside, tables):
    """The objects of the table, those of one kind in the program's order."""
    def item(what, name, it):
        money = ("dollars", "worst", "perhaps_dollars", "perhaps_worst")
        return {"what": what, "name": name, **it, **{key: fine(it[key]) + "000" for key in money}}
    executions, through = total["executions"], total["through"]
    kinds = {it: total[it] for it in ("noquote", "perhaps", "through")}
    sums = {of + it: total[of + it] for of in ("", "perhaps_") for it in SUMS if it != "worst"}
    objects = [{"what": "totals", "executions": executions, **aside, "clean": executions - sum(kinds.values()), **kinds, **sums,
                "per_10000": through * 10_000 // executions if executions else None,
                "dollars": fine(total["dollars"]) + "000", "perhaps_dollars": fine(total["perhaps_dollars"]) + "000"}]
    shares = {it: tables["symbol"].get(it, count()) for it in SYMS}
    symbols = sorted(SYMS, key=lambda it: (-shares[it]["shares"], -shares[it]["perhaps_shares"]))
    for what, names in (("cause", CAUSES), ("executed", [*PARTS, "(none)"]), ("passed", PARTS), ("symbol", symbols),
                        ("half_hour", sorted(tables["half_hour"]))):
        objects += [item(what, name, tables[what][name]) for name in names if name in tables[what]]
    return objects


def own_of(number, record):
    """What an object says of an execution's own record."""
    _, _, sym, price, shares, side, when, part, _ = record.split(",")
    whole, _, decimals = price.partition(".")
    return {"record": number, "symbol": sym, "price": f"{int(whole)}.{decimals:0<6}", "executed": int(shares), "side": side or None,
            "participant": part or None, "time": f"{when[1:]:0<15}" if when[0] == "@" else None}


def objects_of(records, answers, bests):
    """The same answers as JSON, with the best quotations of each execution's version."""
    for number, (record, lines) in enumerate(zip(records, answers), 1):
        head = lines[0].split(",")
        if head[0] == "REFUSED":
            yield {"what": "refused", "record": int(head[1]), "column": int(head[2]), "code": head[3]}
        elif head[0] == "OTHER":
            yield {"what": "other", "id": head[1], "record": number}
        elif head[0] in ("CLEAN", "NOQUOTE"):
            yield {"what": head[0].lower(), "id": head[1], "version": int(head[2]), **own_of(number, record), **bests[number]}
        else:
            yield {"what": head[0].lower(), "id": head[1], "version": int(head[2]), "count": int(head[3]), "worst": head[4],
                   "shares": int(head[5]), "cause": head[6], **own_of(number, record), **bests[number]}
        for line in lines[1:]:
            _, side, who, price, size, receipt, by, own = line.split(",")
            yield {"what": "row", "id": head[1], "side": side, "participant": who, "price": price, "shares": int(size),
                   "receipt": int(receipt), "by": by, "own": "OWN" in own, "flicker": "FLICKER" in own}


COLUMNS = ("record,id,time,symbol,side,price,shares,venue,version,finding,cause,rows,worst,worst_venue,passed_shares,best_bid,bid_shares,"
           "best_offer,offer_shares,quoted_spread,effective_spread,quote_place,improvement")
CLASSES = {"1-99": 1, "100-499": 100, "500-1999": 500, "2000-4999": 2000, "5000-9999": 5000, "10000+": 10_000}


def quality(side, price, best):
    """The quoted and the effective spread, the place and the improvement of a price, or nothing if a side has no quotation."""
    if best["bid"] is None or best["offer"] is None:
        return None
    price, bid, offer = Fraction(price), Fraction(best["bid"]), Fraction(best["offer"])
    above = (price - (bid + offer) / 2) * 2
    if not side:
        place = "crossed" if bid > offer else "outside" if not bid <= price <= offer else "at" if bid == offer else \
            {bid: "at_bid", offer: "at_offer"}.get(price, "inside")
        return offer - bid, abs(above), place, None
    better = offer - price if side == "B" else price - bid
    place = "improved" if better > 0 else "outside" if better < 0 else "at"
    return offer - bid, above if side == "B" else -above, place, max(better, Fraction(0))


def money(dollars):
    """Dollars with nine decimals, cut towards zero."""
    nanos = abs(dollars) * 10**9 // 1
    return f"{'-' * (dollars < 0 and nanos > 0)}{nanos // 10**9}.{nanos % 10**9:09}"


def columns_of(records, answers, bests):
    """The same answers as columns."""
    yield COLUMNS
    for number, (record, lines) in enumerate(zip(records, answers), 1):
        head = lines[0].split(",")
        if head[0] == "REFUSED":
            yield ",".join([str(number), *[""] * 8, "refused", head[3], *[""] * 12])
            continue
        own, best = own_of(number, record), bests.get(number)
        time = own["time"] and f"{own['time'][:2]}:{own['time'][2:4]}:{own['time'][4:6]}.{own['time'][6:]}"
        fields = [number, head[1], time, own["symbol"], own["side"], own["price"], own["executed"], own["participant"]]
        if head[0] == "OTHER":
            fields += [None, "other", *[None] * 13]
        else:
            count, worst, shares, cause = head[3:] if len(head) > 3 else ("0", "0.000000", "0", "")
            rows = [line.split(",") for line in lines[1:]]
            farthest = max(rows, key=lambda it: Fraction(it[6]), default=["", "", ""])
            fields += [head[2], head[0].lower(), cause, count, worst, farthest[2], shares, *best.values()]
            found = quality(own["side"], own["price"], best)
            fields += [None] * 4 if found is None else [money(found[0]), money(found[1]), found[2], None if found[3] is None else money(found[3])]
        yield ",".join("" if it is None else str(it) for it in fields)


def sums_of(records, answers, bests):
    """The objects of `--quality`."""
    def none():
        return {"executions": 0, "shares": 0, "measured": 0, "improved": 0, "at": 0, "outside": 0,
                "effective_spread": Fraction(0), "quoted_spread": Fraction(0), "improvement": Fraction(0)}
    groups, aside = {("totals", ""): none()}, {"REFUSED": 0, "OTHER": 0}
    for number, (record, lines) in enumerate(zip(records, answers), 1):
        kind = lines[0].split(",")[0]
        if kind in aside:
            aside[kind] += 1
            continue
        own, best = own_of(number, record), bests[number]
        found, shares = quality(own["side"], own["price"], best), own["executed"]
        size = [name for name, least in CLASSES.items() if shares >= least][-1]
        keys = [("totals", ""), ("executed", own["participant"] or "(none)"), ("symbol", own["symbol"]), ("size", size)]
        if own["time"]:
            keys.append(("half_hour", f"{own['time'][:2]}:{'30' if own['time'][2:4] >= '30' else '00'}"))
        for key in keys:
            to = groups.setdefault(key, none())
            to["executions"] += 1
            to["shares"] += shares
            if found:
                to["measured"] += shares
                for name, those in (("improved", ("improved", "inside")), ("at", ("at", "at_bid", "at_offer")), ("outside", ("outside",))):
                    to[name] += found[2] in those
                for name, amount in (("quoted_spread", found[0]), ("effective_spread", found[1]), ("improvement", found[3] or 0)):
                    to[name] += amount * shares
    def item(what, name, it):
        spreads = {key: money(it[key] / it["measured"]) if it["measured"] else None for key in ("effective_spread", "quoted_spread")}
        more = {"refused": aside["REFUSED"], "other": aside["OTHER"]} if what == "totals" else {"name": name}
        return {"what": what, **more, **it, **spreads, "improvement": money(it["improvement"])}
    symbols = sorted(SYMS, key=lambda it: -groups.get(("symbol", it), none())["shares"])
    order = {"totals": [""], "executed": [*PARTS, "(none)"], "symbol": symbols, "size": list(CLASSES),
             "half_hour": sorted(name for what, name in groups if what == "half_hour")}
    return [item(what, name, groups[what, name]) for what, names in order.items() for name in names if (what, name) in groups]


def ran(program, folder, status, *options):
    done = subprocess.run([program, "trades", "c", "e", *options], cwd=folder, capture_output=True, text=True, timeout=600)
    if done.returncode != status or done.stderr:
        return [f"status {done.returncode}, {done.stderr}"]
    return done.stdout.splitlines()


def difference(program, folder, made):
    """What is wrong of one day, or nothing."""
    pairs, times, records, answers, bests, table = made
    files, options = [("c", [it[0] for it in pairs]), ("e", records)], []
    if times:
        files.append(("t", [clock(it) for it in times.all]))
        options += ["--times", "t"]
        if times.before:
            options.append("--before")
        if times.window is not None:
            options += ["--window", str(times.window)]
        if times.by_symbol:
            files.append(("s", list(times.lines())))
            options += ["--symbols", "s"]
    for name, lines in files:
        with open(os.path.join(folder, name), "w", encoding="utf-8") as file:
            file.write("".join(line + "\n" for line in lines))
    status = 6 if any(it[0].startswith("REFUSED") for it in answers) else 0
    came, wanted = ran(program, folder, status, *options), [line for lines in answers for line in lines]
    if came != wanted:
        at = 0
        for record, lines in zip(records, answers):
            if came[at:at + len(lines)] != lines:
                upto = lines[0].split(",")[2]
                shown = [it[0] for it in pairs][:int(upto) if upto.isdigit() else 0]
                shown = [f"{clock(times.all[at])} {it}" if times else it for at, it in enumerate(shown)]
                return "\n".join([*shown, " ".join(options), record, "came:", *came[at:at + 5], "wanted:", *lines])
            at += len(lines)
        return "more lines came: " + " ".join(came[at:at + 3])
    came, wanted = [json.loads(it) for it in ran(program, folder, status, "--json", *options)], list(objects_of(records, answers, bests))
    if came != wanted:
        return "\n".join(["the objects differ", *(f"{it}\n{own}" for it, own in zip(came, wanted) if it != own)])
    came = [json.loads(it) for it in ran(program, folder, status, "--table", "--json", *options)]
    if came != table:
        return "\n".join(["the table differs", *(f"{it}\n{own}" for it, own in zip(came, table) if it != own)])
    came, wanted = ran(program, folder, status, "--columns", *options), list(columns_of(records, answers, bests))
    if came != wanted:
        return "\n".join(["the columns differ", *(f"{it}\n{own}" for it, own in zip(came, wanted) if it != own)])
    came, wanted = [json.loads(it) for it in ran(program, folder, status, "--quality", "--json", *options)], sums_of(records, answers, bests)
    if came != wanted:
        return "\n".join(["the quality differs", *(f"{it}\n{own}" for it, own in zip(came, wanted) if it != own)])
    return ""


def main():
    program = os.path.realpath(sys.argv[1])
    executions = int(sys.argv[2]) if len(sys.argv) > 2 else 20_000
    seed = int(sys.argv[3]) if len(sys.argv) > 3 else random.randrange(10**9)
    print(f"seed {seed}")
    chance, passed, failed = random.Random(seed), 0, 0
    with tempfile.TemporaryDirectory() as folder:
        for first in range(0, executions, EACH):
            wrong = difference(program, folder, day(chance, first))
            passed, failed = (passed, failed + 1) if wrong else (passed + 1, failed)
            if wrong:
                print(wrong)
                break
    print(f"{passed} passed, {failed} failed")
    sys.exit(1 if failed else 0)


if __name__ == "__main__":
    main()
