#!/usr/bin/env python3
"""Compares the pages of `draw` and of `trades --html` with those of page/pack.py, a plain slow writer of the same data.

    tests/pages_judge.py PROGRAM [DAYS [SEED]]      PROGRAM is nms_review

A page must be the page's own text around a report and data without `<`; its data must be that of page/pack.py
(page_data.py), and so must its report, which has the sentences of a plan too. page/pack.py shows all versions: of a range the
data must be what the whole page has in it. The pages are those of the examples, of names that HTML would read as its own, and
of DAYS random days (6 if it is not given) of 150 changes and 250 executions in two symbols. The last line is
`N passed, M failed`; status 1 at a difference.
"""
import csv
import json
import os
import random
import re
import shutil
import subprocess
import sys
import tempfile

import trades_judge
from page_data import tables
from stored import EXAMPLES, MOST, TOP, UNPROVED
from trials import Trial, Wrong, compare, run

sys.path.insert(0, os.path.join(TOP, "page"))
import join

HEAD, MIDDLE, TAIL = join.texts()
DAY, DESK, TIMED = "day.changes", "desk.changes", ("--times", "desk.times")
PLAN, FILLS, FILLS_TIMED = ("--plan", "day.plan"), ("--trades", "desk.executions"), ("--trades", "desk.timed")
LATE = ("late.changes", "ABC", "--times", "late.times", "--trades", "late.executions")
# The words of a call, and the first and last version of its page, if those are not all; then its first and last time.
CALLS = [
    (("draw", DAY, "ABC"),), (("draw", DAY, "PNY"),), (("draw", DAY, "ABC", *PLAN),), (("draw", DAY, "PNY", *PLAN),),
    (("draw", DAY, "ABC", "--bests"),), (("draw", DAY, "ABC", "--own"),), (("draw", "empty", "ABC"),), (("draw", "empty", "ABC", *PLAN), 0, 0),
    (("draw", DAY, "ABC", *PLAN, "--from", "5"), 5, 10), (("draw", DAY, "ABC", "--from", "2", "--to", "6", "--bests"), 2, 6),
    (("draw", DAY, "ABC", *PLAN, "--to", "6"), 0, 6), (("draw", DESK, "ABC", *FILLS, "--from", "4", "--to", "5"), 4, 5),
    (("draw", DESK, "ABC", *FILLS),), (("draw", DESK, "ABC", *FILLS_TIMED, *TIMED),), (("draw", DESK, "ABC", *FILLS_TIMED, *TIMED, "--own"),),
    (("draw", *LATE),), (("draw", *LATE, "--from", "@110000", "--to", "@130000"), 1, 1, "110000", "130000"),
    (("trades", DESK, "desk.executions"),), (("trades", DESK, "desk.executions", "--bests"),), (("trades", DESK, "empty"),),
    (("trades", DESK, "desk.timed", *TIMED),), (("trades", DESK, "desk.timed", *TIMED, "--window", "1000000"),),
    (("trades", DESK, "desk.timed", *TIMED, "--before"),), (("trades", "never.changes", "never.executions"),),
    (("draw", "</script><!-- & \"'.changes", "ABC", "--trades", "<img src=x>.csv"),), (("trades", "</script><!-- & \"'.changes", "<img src=x>.csv"),),
]
# An execution at 15:59 between changes at 09:30 and 16:00; a symbol that is never quoted; names that HTML would read, and an id
# that it would, which is refused.
FILES = {
    "empty": "",
    "late.changes": "Q,N,ABC,A,9.98,300,10.02,400\nQ,N,ABC,A,9.98,300,10.03,400\n",
    "late.times": "093000000000000\n160000000000000\n",
    "late.executions": "D,noon,ABC,10.05,100,B,@120000,,\nD,late,ABC,10.05,100,B,@155900,,I\nD,first,ABC,10.05,100,B,1,,\n",
    "never.changes": "Q,N,ABC,A,9.98,300,10.02,400\n",
    "never.executions": "D,a,PNY,1,100,B,1,,\nD,b,ABC,10.05,100,B,1,,\n",
    "</script><!-- & \"'.changes": "Q,N,ABC,A,9.98,300,10.02,400\n",
    "<img src=x>.csv": "D,a,ABC,10.05,100,B,1,,\nD,</td>,ABC,10.05,100,B,1,,\n",
}


def must(holds, what):
    if not holds:
        raise Wrong(what)


def called(room, *words):
    """What a call prints, without a fault."""
    ran = subprocess.run(words, cwd=room, stdin=subprocess.DEVNULL, capture_output=True, timeout=MOST, check=False)
    errors = UNPROVED.sub(b"", ran.stderr)
    must(ran.returncode in (0, 4, 6) and not errors, f"{words}: status {ran.returncode}, {errors!r}")
    return ran.stdout.decode()


def parts_of(page):
    """The report and the tables of a page, which is the page's text around them."""
    must(page.startswith(HEAD) and page.endswith(TAIL), "it does not begin and end as the page's text")
    report, found, data = page[len(HEAD) : len(page) - len(TAIL)].partition(MIDDLE)
    must(found and "<" not in data, "the data has a `<`, or is not after the page's text")
    must(not re.search("[<>\"']", re.sub(r"</?(?:p|table|tr|th|td)>", "", report)), "the report has tags of a file")
    return report, tables(data)


def written(program, room, words):
    """The report and the tables of the page of a call."""
    if words[0] == "draw":
        return parts_of(called(room, program, *words))
    called(room, program, *words, "--html", "page.html")
    with open(os.path.join(room, "page.html"), encoding="ascii", newline="") as file:
        return parts_of(file.read())


def packed(program, room, words):
    """The same by page/pack.py, which has the symbols of executions from the answers."""
    kind, changes, other, *rest = words
    given = [changes, other]
    if kind == "trades":
        rules = [it for it in rest if it != "--bests"]
        answers = [json.loads(it) for it in called(room, program, kind, changes, other, *rules, "--json").splitlines()]
        there = {it["symbol"] for it in answers if "id" in it and "symbol" in it} or {"ABC"}
        given = [changes, *(it for it in trades_judge.SYMS if it in there), "--trades", other]
    called(room, sys.executable, f"{TOP}/page/pack.py", program, "packed.html", *given, *without(rest))
    with open(os.path.join(room, "packed.html"), encoding="ascii", newline="") as file:
        return parts_of(file.read())


def without(words):
    """Options that page/pack.py has."""
    words = [it for it in words if it != "--own"]
    for name in ("--from", "--to"):
        if name in words:
            at = words.index(name)
            del words[at : at + 2]
    return words


def nanoseconds(text):
    return trades_judge.SECOND * (int(text[:2]) * 3600 + int(text[2:4]) * 60 + int(text[4:6])) + int(text[6:] or 0)


def time_of(room, words, version, begins):
    """The time of a version; 0 if there is none, as before the first change of a symbol of a file that is sorted by symbol."""
    if "--times" not in words or version in begins:
        return 0
    with open(os.path.join(room, words[words.index("--times") + 1]), encoding="ascii") as file:
        return nanoseconds(file.read().split()[version - 1])


def untimed(room, words, executions, begins):
    """Executions, where one that names a version before its symbol's first change has no time."""
    named = set()
    if "--trades" in words:
        with open(os.path.join(room, words[words.index("--trades") + 1]), newline="", encoding="utf-8") as file:
            named = {number for number, row in enumerate(filter(None, csv.reader(file)), 1) if row[6:] and row[6][:1] != "@"}
    return [{key: value for key, value in it.items() if key != "time"} if it["record"] in named and it.get("version", 0) in begins else it
            for it in executions]


def moved(row, version, time):
    """A row of the board or of the lots as at a later version."""
    ages = {f"{side}_age": row.get(f"{side}_age", 0) + version - row.get("version", 0) for side in ("bid", "offer") if f"{side}_shares" in row}
    return row | ages | {"version": version, "time": time}


def cut(whole, time, first, last, since=None, until=None):
    """What a page of all of one symbol has in a range, whose first version has that time."""
    def in_force(rows, key):
        """The last row of each key up to the first version, if it shows something, and the rows after it."""
        before = {it.get(key): it for it in rows if it.get("version", 0) <= first}
        shown = [it for it in before.values() if {"bid_shares", "offer_shares", "lot"} & set(it)]
        return shown, [it for it in rows if first < it.get("version", 0) <= last]
    (line, lines), (board, boards), (lot, lots) = (in_force(whole[name], key) for name, key in (("lines", "day"), ("board", "by"), ("lots", "day")))
    board = [moved(it, first, time) for it in sorted(board, key=lambda it: it["by"])]
    kept = [at for at, it in enumerate(whole["executions"])
            if first <= it.get("version", 0) <= last and (since is None or nanoseconds(since) <= it["time"] <= nanoseconds(until))]
    plans = [at for at, it in enumerate(whole["plans"]) if first <= it["version"] <= last]
    cut_page = dict(whole, lines=[it | {"version": first, "time": time} for it in line] + lines, board=board + boards, lots=[moved(it, first, time) for it in lot] + lots)
    cut_page |= {name: [it for it in whole[name] if it.get("plan", 0) in plans] for name in ("legs", "quotations", "said")}
    cut_page["rows"] = [dict(it, execution=kept.index(it.get("execution", 0))) for it in whole["rows"] if it.get("execution", 0) in kept]
    cut_page |= {"executions": [whole["executions"][it] for it in kept], "ids": [whole["ids"][it] for it in kept],
                 "plans": [whole["plans"][it] for it in plans], "days": [dict(it, first=first, last=last) for it in whole["days"]]}
    return cut_page


def stripped(page):
    """Tables without the columns that are 0, and without what they are made of that page/pack.py or `draw` does not say."""
    page = {name: [{key: value for key, value in it.items() if value} if isinstance(it, dict) else it for it in rows]
            if isinstance(rows, list) else rows for name, rows in page.items()}
    about = page["about"]
    return page | {"about": [it for pair in zip(about[::2], about[1::2]) if pair[0] not in ("the plan", "symbols") for it in pair]}


def one_page(program, words, *span, room=None, begins=(0,)):
    """A page, against that of page/pack.py."""
    if room is None:
        with tempfile.TemporaryDirectory(prefix="nms-") as room:
            return one_page(program, words, *span, room=filled(room))
    report, page = written(program, room, words)
    made = packed(program, room, words)
    whole = dict(made[1], executions=untimed(room, words, made[1]["executions"], begins))
    wanted = cut(whole, time_of(room, words, span[0], begins), *span) if span else made[1]
    if "--own" in words:
        wanted = dict(wanted, days=[{key: value for key, value in it.items() if key != "timed"} for it in wanted["days"]])
    came, wanted = stripped(page), stripped(wanted)
    for name in sorted(came | wanted):
        compare(f"{words}: {name}", came.get(name), wanted.get(name))
    if not span and "--plan" not in words:
        compare(f"{words}: report", report, made[0])
    for it in page["said"]:
        must(re.sub("[&<>\"']", lambda it: f"&#{ord(it[0])};", it["text"]) in report, f"the report has no {it}")


def filled(room):
    """A folder with the files of all calls."""
    for path in ("review/day.changes", "review/day.plan", "trades/desk.changes", "trades/desk.times", "trades/desk.timed", "trades/desk.executions"):
        shutil.copy(os.path.join(EXAMPLES, path), room)
    for name, text in FILES.items():
        write(room, name, text)
    return room


def write(room, name, text):
    path = os.path.join(room, name)
    os.makedirs(os.path.dirname(path), exist_ok=True)
    with open(path, "w", encoding="ascii") as file:
        file.write(text)


def random_day(program, seed):
    """A page of each symbol of a random day, with its executions, and the page of these."""
    chance = random.Random(seed)
    pairs, times, records, *_ = trades_judge.day(chance, 0)
    with tempfile.TemporaryDirectory(prefix="nms-") as room:
        write(room, "made.changes", "".join(f"{line}\n" for line, _ in pairs))
        write(room, "made.executions", "".join(f"{it}\n" for it in records))
        options, rules = [], []
        if times:
            write(room, "made.times", "".join(f"{trades_judge.clock(it)}\n" for it in times.all))
            options = ["--times", "made.times"]
            if times.by_symbol:
                write(room, "made.symbols", "".join(f"{it}\n" for it in times.lines()))
                options += ["--symbols", "made.symbols"]
            rules = ["--before"] * times.before + (["--window", str(times.window)] if times.window is not None else [])
        for symbol in trades_judge.SYMS:
            begin, end = times.spans.get(symbol, (0, 0)) if times else (0, len(pairs))
            first, last = sorted(chance.choices(range(begin, end + 1), k=2))
            words = ("draw", "made.changes", symbol, "--trades", "made.executions", *options)
            if end:
                one_page(program, words, begin, end, room=room, begins=(begin,))
                one_page(program, (*words, "--from", str(first), "--to", str(last)), first, last, room=room, begins=(begin,))
        one_page(program, ("trades", "made.changes", "made.executions", *options, *rules), room=room)


def main(words):
    if not 1 <= len(words) <= 3:
        print("usage: tests/pages_judge.py PROGRAM [DAYS [SEED]]", file=sys.stderr)
        return 2
    program, days = os.path.realpath(words[0]), int(words[1]) if words[1:] else 6
    seed = int(words[2]) if words[2:] else random.randrange(10**9)
    print(f"seed {seed}")
    trials = [Trial(f"page: {' '.join(words)}", one_page, (program, words, *span)) for words, *span in CALLS]
    trials += [Trial(f"page: day {seed + it}", random_day, (program, seed + it)) for it in range(days)]
    return run("review", trials)


if __name__ == "__main__":
    sys.exit(main(sys.argv[1:]))
