#!/usr/bin/env python3
"""Runs a made day of examples/real_day/, and compares vendors' national bests with it.

    tests/day_judge.py PROGRAM      PROGRAM is nms_review

The day is run by two jobs and by one, its parts are compared with one tape of all of them, a torn file is repaired, and jobs are killed.
Trades are judged on it, whether symbols are cut by time or not. The rows
that `compare` gets are those of `stream`, some of them altered; each alteration must be found, and nothing else. A line
for each difference, and last `N passed, M failed`; status 1 at a difference.
"""
import bisect
import csv
import decimal
import gzip
import json
import os
import random
import re
import subprocess
import sys
import tempfile

from import_judge import TRADE_NAMES
from stored import EXAMPLES, MOST, cases_of, command, read
from trials import Trial, Wrong, compare, run


def called(program, words, **how):
    return subprocess.run([program, *words], stdin=subprocess.DEVNULL, timeout=MOST, **how)


def must(holds, what):
    if not holds:
        raise Wrong(what)


def by_shard(lines):
    """Lines of a day, by the number of the shard and the version."""
    return sorted(lines, key=lambda it: (int(it[1].split(".")[1]), int(it[2])))


def real_day(program):
    """A made day of three letters by examples/real_day/day.sh: two jobs write what one writes, the shards show of each symbol
    what one file of all letters shows, and a call after a failed one does what is left."""
    place = os.path.join(EXAMPLES, "real_day")
    with tempfile.TemporaryDirectory(prefix="nms-") as room:
        def day(out, jobs, status=0, limit="10000000"):
            env = dict(os.environ, NMS_REVIEW=program, LIMIT=limit)
            ran = called("bash", [os.path.join(place, "day.sh"), room, os.path.join(room, out), jobs], capture_output=True, env=env)
            must((ran.returncode == 0) == (status == 0), f"{out}: status {ran.returncode}, {ran.stderr!r}")
            found = []
            for name in ("day.csv", "counts") if status == 0 else ():
                with open(os.path.join(room, out, name), encoding="ascii") as file:
                    found.append(file.read())
            return found
        called(sys.executable, [os.path.join(place, "make_day.py"), room], check=True)
        lines, counts = day("two", "2")
        must([lines, counts] == day("one", "1"), "one job writes another day than two")
        must(counts == "6003 rows = 6000 changes + 0 refused + 3 skipped\n", counts)
        lines = [line.split(",") for line in lines.splitlines()[1:]]
        must(len(lines) > 1000 and [it[0] for it in lines] == sorted(it[0] for it in lines), f"{len(lines)} lines, or not by time")
        must(lines == sorted(lines, key=lambda it: (it[0], it[1], int(it[2]))), "lines of one time are not by letter and version")
        for shard in ("A.1", "B.1", "C.1"):
            with open(os.path.join(room, "two", shard[0], f"{shard}.times"), encoding="ascii") as file:
                times = file.read().split()
            must(all(it[0] == times[int(it[2]) - 1] for it in lines if it[1] == shard), f"{shard}: a line has not its version's time")
        # All letters in one tape, under one setup. A line without its time, its letter and its version.
        out = os.path.join(room, "whole")
        setup, text = f"{out}.toml", ""
        for letter in "ABC":
            with open(os.path.join(room, "two", letter, f"{letter}.1.toml"), encoding="utf-8") as file:
                own = file.read()
            text += own if letter == "A" else own[own.index("[[symbol]]"):]
        with open(setup, "w", encoding="utf-8") as file:
            file.write(text)
        names = [os.path.join(room, f"SPLITS_US_ALL_BBO_{letter}_20240102") for letter in "ABC"]
        for name in names:
            with gzip.open(f"{name}.gz") as packed, open(f"{out}.txt", "ab") as file:
                file.write(b"".join(packed.readlines()[0 if name == names[0] else 1:-1]))
        with open(f"{out}.txt", "ab") as file:
            file.write(b"END|20240102|6000\n")
        words = ["import", os.path.join(EXAMPLES, "import/taq.toml"), f"{out}.txt", "--out", out, "--setup", setup]
        called(program, words, capture_output=True, check=True)
        whole = called(program, ["stream", f"{out}.changes", "--setup", setup], capture_output=True, check=True)
        whole = [line.split(",")[1:] for line in whole.stdout.decode().splitlines()[1:]]
        for symbol in {it[0] for it in whole}:
            must([it for it in whole if it[0] == symbol] == [it[3:] for it in lines if it[3] == symbol], f"{symbol}: a shard shows other rows")
        must(len(whole) == len(lines), f"{len(whole)} lines, and not {len(lines)}")
        # The same day in shards of 200 changes at most: symbols are cut by time, and begin again with opening changes.
        cut, same = day("cut", "2", limit="200")
        must(same == counts, same)
        cut = [line.split(",") for line in cut.splitlines()[1:]]
        must(len({it[1] for it in cut if it[3] == "AAA"}) > 2, "no symbol is cut twice")
        for symbol in {it[0] for it in whole}:
            must([it for it in whole if it[0] == symbol] == [it[3:] for it in by_shard(cut) if it[3] == symbol], f"{symbol}: a cut shows other rows")
        must(len(cut) == len(whole), f"{len(cut)} lines of the cut day, and not {len(whole)}")
        # A file that is no gzip: the others are done, and nothing is merged. Once it is repaired the rest is done.
        path = f"{names[1]}.gz"
        with open(path, "rb") as file:
            right = file.read()
        with open(path, "wb") as file:
            file.write(right[:1000])
        day("torn", "2", 1)
        at = os.path.join(room, "torn")
        must(sorted(os.listdir(at)) == ["A", "C"], f"{sorted(os.listdir(at))}")
        with open(path, "wb") as file:
            file.write(right)
        must(day("torn", "2") == day("two", "2"), "what was left is not what was missing")


# The findings of the first case of day.cases.
FINDINGS = b"""\
shard,record,id,time,symbol,side,price,shares,venue,version,finding,cause,rows,worst,worst_venue,passed_shares,best_bid,bid_shares,best_offer,offer_shares,quoted_spread,effective_spread,quote_place,improvement
A.1,5,e,09:29:59.000000000,ABC,B,10.000000,100,N,0,noquote,,0,0.000000,,0,,,,,,,,
A.2,3,c,09:30:00.000000000,XYZ,B,5.050000,100,P,4,clean,,0,0.000000,,0,5.0000,100,5.0500,100,0.050000000,0.050000000,at,0.000000000
A.1,1,a,09:30:30.000000000,ABC,B,10.000000,100,N,2,clean,,0,0.000000,,0,9.9800,300,10.0100,200,0.030000000,0.010000000,improved,0.010000000
A.2,2,b,09:32:00.000000000,ABC,B,10.020000,100,N,3,through,NONE,1,0.020000,P,100,9.9900,100,10.0000,100,0.010000000,0.050000000,outside,0.000000000
,4,,,,,,,,,refused,X4,,,,,,,,,,,,
"""

# Stands in for the program. At call `at` of a job it kills the job, once.
KILLER = r"""#!/usr/bin/env bash
room=$(dirname "$0")
echo >> "$room/calls"
[ "$(wc -l < "$room/calls")" != "$(cat "$room/at")" ] || kill -9 $PPID
exec "$(cat "$room/program")" "$@"
"""


def jobs_that_die(program):
    """A job is killed at each of its calls of the program, and done again: each time a file is complete or is not there. Two jobs
    do one file at once, and what another mapping made is not taken for this day's."""
    place = os.path.join(EXAMPLES, "real_day")
    with tempfile.TemporaryDirectory(prefix="nms-") as room:
        env = dict(os.environ, NMS_REVIEW=program, LIMIT="500")
        called(sys.executable, [os.path.join(place, "make_day.py"), room, "1200", "A", "3"], check=True)
        file = os.path.join(room, "SPLITS_US_ALL_BBO_A_20240102.gz")

        def job(out, *more, path=file):
            return called("bash", [os.path.join(place, "job.sh"), path, os.path.join(room, out)], capture_output=True, env={**env, **dict(more)})

        def files(out):
            """The letter's files with their bytes, None if the letter is not there; that is all there is."""
            must(sorted(os.listdir(os.path.join(room, out))) in (["A"], []), f"{out}: {sorted(os.listdir(os.path.join(room, out)))}")
            found, at = {}, os.path.join(room, out, "A")
            for name in os.listdir(at) if os.path.exists(at) else ():
                with open(os.path.join(at, name), "rb") as one:
                    found[name] = one.read()
            return found or None
        must(job("right").returncode == 0, "a job")
        right = files("right")
        must(len(right) > 12, f"{sorted(right)}")
        for name, text in (("killer", KILLER), ("program", program)):
            with open(os.path.join(room, name), "w", encoding="utf-8") as one:
                one.write(text)
        os.chmod(os.path.join(room, "killer"), 0o755)
        # The version, the import, and a stream for each shard. The job's checksum is of the version.
        killer, calls = ("NMS_REVIEW", os.path.join(room, "killer")), 2 + sum(it.endswith(".changes") for it in right)
        for at in range(1, calls + 1):
            for name, text in (("at", str(at)), ("calls", "")):
                with open(os.path.join(room, name), "w", encoding="ascii") as one:
                    one.write(text)
            out = f"killed{at}"
            must(job(out, killer).returncode != 0, f"a job that is killed at call {at} ends well")
            must(not os.path.exists(os.path.join(room, out, "A")), f"killed at call {at}: a part of a letter is there")
            must(job(out, killer).returncode == 0 and files(out) == right, f"after call {at} the job makes other files")
        both = [subprocess.Popen(["bash", os.path.join(place, "job.sh"), file, os.path.join(room, "both")], env=env, stderr=subprocess.DEVNULL)
                for _ in range(2)]
        ends = [it.wait(MOST) for it in both]
        must(0 in ends and files("both") == right, f"two jobs of one file: {ends}")
        must(job("right").returncode == 0 and files("right") == right, "a letter that is done is done again")
        other = os.path.join(room, "more", os.path.basename(file))
        os.mkdir(os.path.dirname(other))
        with open(file, "rb") as one, open(other, "wb") as two:
            two.write(one.read() + b" ")
        for more, path in (((("LIMIT", "501"),), file), ((("MAP", os.path.join(EXAMPLES, "import/lobster.toml")),), file), ((), other)):
            ran = job("right", *more, path=path)
            must(ran.returncode == 1 and b"remove it first" in ran.stderr and files("right") == right, f"{more}, {path}: {ran.returncode}, {ran.stderr!r}")


def made_trades(room, dice, each=30):
    """Trades in the symbols of a made day: in each symbol `each` of them at the times of quotes and near them, and some at the cuts of
    one of its folders and before the first quote of all. Returns their file, how many they are, and the names of those in the second after a cut."""
    quotes, trades, near = {}, [], set()

    def seconds(time):
        return time // 10 ** 13 * 3600 + time // 10 ** 11 % 100 * 60 + time // 10 ** 9 % 100 + time % 10 ** 9 / 10 ** 9
    for letter in "ABC":
        with gzip.open(os.path.join(room, f"SPLITS_US_ALL_BBO_{letter}_20240102.gz"), "rt") as file:
            for line in file.readlines()[1:-1]:
                fields = line.split("|")
                quotes.setdefault(fields[2], []).append((int(fields[0]), float(fields[3])))
    cuts = []
    for letter in "ABC":
        for name in sorted(it for it in os.listdir(os.path.join(room, "cut", letter)) if it.endswith(".symbols")):
            with open(os.path.join(room, "cut", letter, name), encoding="ascii") as file:
                cuts += [(symbol, int(cut)) for symbol, cut in re.findall(r"(\w+) (?:from|until) (\d{15}),", file.read())]
    must(len(cuts) > 8, f"{len(cuts)} cuts")
    for symbol, cut in [*cuts, *((it, None) for it in quotes for _ in range(each)), *((it, 93000000000000) for it in quotes)]:
        own = quotes[symbol]
        time = (cut or dice.choice(own)[0]) + dice.choice([0, 0, 0, 1, -1])
        at = bisect.bisect(own, (time,))
        price = own[min(at, len(own) - 1)][1] + dice.choice([-0.02, -0.01, 0, 0.01, 0.02])
        # The digit below 60 before the nanoseconds is kept: a nanosecond before a full minute would be no time.
        time = time if time // 10 ** 9 % 100 < 60 else time + 1
        if any(it == symbol and -0.1 < seconds(time) - seconds(at) < 1.1 for it, at in cuts):
            near.add(str(len(trades)))
        trades.append(f"{time:015}|{dice.choice('ABCDN')}|{symbol}|@   |{dice.randrange(1, 900)}|{max(price, 0.01):.2f}||00|1|{len(trades)}|N||||0\n")
    path = os.path.join(room, "trades.txt")
    with open(path, "w", encoding="ascii") as file:
        file.write("|".join(TRADE_NAMES) + "\n" + "".join(trades) + f"END|20240102|{len(trades)}\n")
    return path, len(trades), near


def judged_by(program, room, out, path, *options):
    """The answers of all shards, by the name of the execution: without the versions and receipts, which are a shard's own."""
    script = os.path.join(EXAMPLES, "real_day", "trades.sh")
    ran = called("bash", [script, path, os.path.join(room, out), *options], capture_output=True, env=dict(os.environ, NMS_REVIEW=program))
    must(ran.returncode == 0, f"{out}: status {ran.returncode}, {ran.stderr!r}")
    answers, name = {}, ""
    with open(os.path.join(room, out, "day.judged"), encoding="ascii") as file:
        for line in file:
            fields = line.rstrip("\n").split(",")[1:]
            if fields[0] == "ROW":
                answers[name].append(fields[:5] + fields[6:])
                continue
            name = fields[1]
            must(name not in answers, f"{out}: {name} is judged twice")
            answers[name] = [fields[:2] + fields[3:]]
    return answers


def linked_outputs(program):
    """A link from an output's name, or its temporary one, to a file of a shard is refused, and the file stays as it was. Without
    the link the findings are these, after a call that failed too."""
    cases = read("review", "day.cases")
    case = next(it for it in cases_of("day.cases", cases) if "a day of two shards" in it.title)
    with tempfile.TemporaryDirectory(prefix="nms-") as room:
        for name, text in command(case).files.items():
            os.makedirs(os.path.dirname(os.path.join(room, name)) or room, exist_ok=True)
            with open(os.path.join(room, name), "wb") as file:
                file.write(text)
        shard = os.path.join(room, "d", "A.2.changes")
        with open(shard, "rb") as file:
            right = file.read()
        for end in ("", ".part"):
            path = os.path.join(room, f"o.findings.csv{end}")
            for link in (os.link, os.symlink):
                link(shard, path)
                ran = called(program, ["day", "d", "--trades", "e.csv", "--out", "o"], capture_output=True, cwd=room)
                with open(shard, "rb") as file:
                    must((ran.returncode, file.read()) == (2, right), f"{path}: {ran.returncode}, {ran.stderr!r}")
                if os.path.lexists(path):
                    os.remove(path)
        ran = called(program, ["day", "d", "--trades", "e.csv", "--out", "o"], capture_output=True, cwd=room)
        with open(os.path.join(room, "o.findings.csv"), "rb") as file:
            compare("findings", file.read(), FINDINGS)
        must(ran.returncode == 6 and sorted(os.listdir(room)) == ["d", "e.csv", "o.findings.csv"], f"{ran.returncode}, {os.listdir(room)}")


def setup_of_all(room, out):
    """A setup with the symbols of all letters of a day that cuts none, in a file."""
    text = ""
    for letter in "ABC":
        with open(os.path.join(room, out, letter, f"{letter}.1.toml"), encoding="utf-8") as file:
            own = file.read()
        text += own if letter == "A" else own[own.index("[[symbol]]"):]
    path = os.path.join(room, "all.toml")
    with open(path, "w", encoding="utf-8") as file:
        file.write(text)
    return path


def by_script(room, out):
    """The findings of trades.sh, by the name of the execution: the shard, the kind and what follows."""
    with open(os.path.join(room, out, "day.judged"), encoding="ascii") as file:
        lines = [line.rstrip("\n").split(",") for line in file]
    return {it[2]: [it[0], it[1], *it[3:]] for it in lines if it[1] != "ROW"}


def in_one_call(program, room, out, executions, *options):
    """The day's findings by `day`, in the same form, and its table. They are by time, one for each record."""
    name = os.path.join(room, f"{out}-day")
    words = ["day", os.path.join(room, out), "--trades", executions, "--out", name, "--json", *options]
    ran = called(program, words, capture_output=True)
    must(ran.returncode == 0, f"{out}: status {ran.returncode}, {ran.stderr!r}")
    with open(f"{name}.findings.csv", encoding="ascii", newline="") as file:
        rows = list(csv.DictReader(file))
    must([it["record"] for it in sorted(rows, key=lambda it: int(it["record"]))] == [str(it + 1) for it in range(len(rows))], "a record has no line, or two")
    must(rows == sorted(rows, key=lambda it: (it["time"], int(it["record"]))), "the lines are not by time")
    more = ("rows", "worst", "passed_shares", "cause")
    found = {it["id"]: [it["shard"], it["finding"].upper(), it["version"], *(it[key] for key in more if it["cause"])] for it in rows}
    return found, [json.loads(line) for line in ran.stdout.splitlines()]


def summed(tables):
    """The sums of some tables, by what a line is about: numbers are added, the worst differences are not."""
    sums = {}
    for line in (it for table in tables for it in table):
        own = sums.setdefault((line["what"], line.get("name")), {})
        for key, value in line.items():
            if "worst" in key and value is not None:
                own[key] = max(own.get(key, decimal.Decimal(0)), decimal.Decimal(value))
            elif key not in ("what", "name", "per_10000", "other") and value is not None:
                own[key] = own.get(key, 0) + decimal.Decimal(value)
    return sums


def tables_of_shards(program, room, out, *options):
    """The table of each shard that trades.sh judged."""
    for name in sorted(os.path.join(at, it) for at, _, files in os.walk(os.path.join(room, out)) for it in files if it.endswith(".executions")):
        shard = name.removesuffix(".executions")
        words = ["trades", f"{shard}.changes", name, "--times", f"{shard}.times", "--symbols", f"{shard}.symbols", "--setup", f"{shard}.toml"]
        ran = called(program, [*words, "--table", "--json", *options], capture_output=True)
        must(ran.returncode == 0, f"{shard}: {ran.returncode}, {ran.stderr!r}")
        yield [json.loads(line) for line in ran.stdout.splitlines()]


def one_call_as_scripts(program, room, executions, *options):
    """A day in one call has the findings of trades.sh, execution by execution, and its table is the sum of the shards' tables."""
    for out in ("whole", "cut"):
        wanted = by_script(room, out)
        found, table = in_one_call(program, room, out, executions, *options)
        must(found == wanted, next((f"{out}: {it}: {found.get(it)}, and not {wanted[it]}" for it in wanted if found.get(it) != wanted[it]), "more"))
        sums, own = summed(tables_of_shards(program, room, out, *options)), summed([table])
        must(own == sums, next((f"{out}: {it}: {own.get(it)}, and not {sums[it]}" for it in sums if own.get(it) != sums[it]), "more sums"))


def judged_day(program):
    """Trades of a made day are judged by the shards as they are by those of a day that cuts no symbol, each once: also at the very
    time of a cut, with --before and without. A shard does not know what flickered before it began. In one call all is the same."""
    def without(answer):
        return [[re.sub(r"\+?FLICKER", "", field) or "NONE" for field in line] for line in answer]
    place = os.path.join(EXAMPLES, "real_day")
    with tempfile.TemporaryDirectory(prefix="nms-") as room:
        called(sys.executable, [os.path.join(place, "make_day.py"), room, "3000", "ABC", "4"], check=True)
        for out, limit in (("whole", "10000000"), ("cut", "90")):
            env = dict(os.environ, NMS_REVIEW=program, LIMIT=limit)
            called("bash", [os.path.join(place, "day.sh"), room, os.path.join(room, out), "2"], capture_output=True, env=env, check=True)
        path, count, near = made_trades(room, random.Random(56))
        words = ["import", os.path.join(EXAMPLES, "import/taq-trades.toml"), path, "--out", os.path.join(room, "all")]
        called(program, [*words, "--setup", setup_of_all(room, "whole")], capture_output=True)
        for options in ((), ("--before",)):
            whole = judged_by(program, room, "whole", path, *options)
            must(len(whole) == count, f"{len(whole)} answers, and not {count}")
            kinds = {it[0][0] for it in whole.values()}
            must(kinds >= {"CLEAN", "NOQUOTE", "THROUGH"}, f"{kinds}")
            cut = judged_by(program, room, "cut", path, *options)
            for name in near:
                whole[name], cut[name] = without(whole[name]), without(cut[name])
            must(cut == whole, next((f"{it}: {cut.get(it)}, and not {whole[it]}" for it in whole if cut.get(it) != whole[it]), "more"))
            one_call_as_scripts(program, room, os.path.join(room, "all.executions"), *options)


def one_tape(program, room):
    """One tape of all letters of a made day, in the order of time. Returns the beginning of the names of its files."""
    rows, out = [], os.path.join(room, "one")
    for letter in "ABC":
        with gzip.open(os.path.join(room, f"SPLITS_US_ALL_BBO_{letter}_20240102.gz"), "rt") as file:
            head, *own, _ = file.readlines()
        rows += own
    rows.sort(key=lambda it: it[:15])
    with open(f"{out}.txt", "w", encoding="ascii") as file:
        file.write("".join([head, *rows, f"END|20240102|{len(rows)}\n"]))
    words = ["import", os.path.join(EXAMPLES, "import/taq.toml"), f"{out}.txt", "--out", out, "--setup", setup_of_all(room, "whole")]
    called(program, words, capture_output=True, check=True)
    return out


def judged_on_one_tape(program):
    """A day that is cut by symbol and by time gives the findings of one tape of all letters, for each of 100,000 executions. A shard
    does not know what flickered before it began."""
    place = os.path.join(EXAMPLES, "real_day")
    with tempfile.TemporaryDirectory(prefix="nms-") as room:
        called(sys.executable, [os.path.join(place, "make_day.py"), room, "12000", "ABC", "4"], check=True)
        for out, limit in (("whole", "10000000"), ("cut", "900")):
            env = dict(os.environ, NMS_REVIEW=program, LIMIT=limit)
            called("bash", [os.path.join(place, "day.sh"), room, os.path.join(room, out), "2"], capture_output=True, env=env, check=True)
        path, count, near = made_trades(room, random.Random(57), 8400)
        must(count > 100_000, f"{count} trades")
        one, setup = one_tape(program, room), setup_of_all(room, "whole")
        words = ["import", os.path.join(EXAMPLES, "import/taq-trades.toml"), path, "--out", one, "--setup", setup]
        ran = called(program, words, capture_output=True)
        must(ran.returncode == 0, f"{ran.returncode}, {ran.stdout!r}, {ran.stderr[-300:]!r}")
        for options in ((), ("--before",)):
            words = ["trades", f"{one}.changes", f"{one}.executions", "--times", f"{one}.times", "--setup", setup, "--columns", *options]
            ran = called(program, words, capture_output=True, check=True)
            words = ["day", os.path.join(room, "cut"), "--trades", f"{one}.executions", "--out", os.path.join(room, "cut-day"), *options]
            called(program, words, capture_output=True, check=True)
            with open(os.path.join(room, "cut-day.findings.csv"), "rb") as file:
                cut = findings_of(file.read(), near)
            wanted = findings_of(ran.stdout, near)
            must(len(wanted) == count and len(set(it["finding"] for it in wanted.values())) > 2, f"{len(wanted)} findings, and not {count}")
            must(cut == wanted, next((f"{it}: {cut.get(it)}, and not {wanted[it]}" for it in wanted if cut.get(it) != wanted[it]), "more"))


def findings_of(text, near):
    """Lines of columns by the name of the execution: without the shard and the version, which is the shard's own, and without
    what flickered for those that are near."""
    found = {}
    for row in csv.DictReader(text.decode().splitlines()):
        row.pop("shard", None)
        row.pop("version")
        must(row["id"] not in found, f"{row['id']} has two lines")
        if row["id"] in near:
            row["cause"] = re.sub(r"\+?FLICKER", "", row["cause"]) or "NONE"
        found[row["id"]] = row
    return found


NATIONAL = ["--map", "nbbo.toml", "--times", "taq.times", "--setup", "../market.toml"]


def compared(program):
    """The vendor's national bests of examples/import/: one file agrees, and one differs in each way."""
    given = os.path.join(EXAMPLES, "import")
    for name, status in (("nbbo", 0), ("nbbo_differs", 4)):
        ran = called(program, ["compare", "taq.changes", f"{name}.txt", *NATIONAL], capture_output=True, cwd=given)
        with open(os.path.join(given, f"{name}.out"), "rb") as file:
            must((ran.returncode, ran.stdout, ran.stderr) == (status, file.read(), b""), f"{name}: {ran.returncode}, {ran.stdout!r}, {ran.stderr!r}")


def compared_day(program):
    """The lines of `stream` of a made letter as a vendor's rows, by symbol and time, some of them altered: each alteration is
    found, with its line, and nothing else."""
    place, dice = os.path.join(EXAMPLES, "real_day"), random.Random(55)
    with tempfile.TemporaryDirectory(prefix="nms-") as room:
        env = dict(os.environ, NMS_REVIEW=program)
        called(sys.executable, [os.path.join(place, "make_day.py"), room, "3000", "A"], check=True)
        called("bash", [os.path.join(place, "day.sh"), room, room, "1"], check=True, env=env, capture_output=True)
        with open(os.path.join(room, "A", "A.day"), encoding="ascii") as file:
            lines = sorted((line.rstrip("\n").split(",") for line in file), key=lambda it: int(it[2]))
        rows, wanted, counts = ["Time|Symbol|" + "|".join(f"Best_{side}_{it}" for side in ("Bid", "Offer") for it in ("Exchange", "Price", "Size"))], [], {}
        for line in lines:
            sides = [line[5:8], line[8:11]]
            what, side = dice.choice(["equal"] * 9 + ["other price", "other size", "other venue", "refused"]), dice.choice(sides)
            if side[0] == "":
                what = "equal"
            if what == "other price":
                side[1] = f"{float(side[1]) + 0.01:.4f}"
            elif what == "other size":
                side[2] = str(int(side[2]) + 100)
            elif what == "other venue":
                side[0] = "A" if side[0] != "A" else "B"
            elif what == "refused":
                side[1] += "1"
            counts[what] = counts.get(what, 0) + 1
            rows.append("|".join([line[0], line[3], *(it for part, price, size in sides for it in (part, price, size and str(int(size) // 100)))]))
            if what != "equal":
                wanted.append(f"day.nbbo:{len(rows)}: " + ("refused" if what == "refused" else f"version {line[2]}: {line[3]}: {what}"))
        with open(os.path.join(room, "day.nbbo"), "w", encoding="ascii") as file:
            file.write("\n".join(rows) + "\n")
        words = ["compare", "A/A.1.changes", "day.nbbo", "--map", os.path.join(EXAMPLES, "import/nbbo.toml"), "--times", "A/A.1.times",
                 "--setup", "A/A.1.toml"]
        ran = called(program, words, capture_output=True, cwd=room)
        came = [re.sub(r"(?:column \d+: )?(refused).*", r"\1", it) for it in ran.stdout.decode().splitlines() if it.startswith("day.nbbo:")]
        must(len(wanted) > 100 and came == wanted[:100], f"{len(wanted)} alterations, {next((it for it in zip(came, wanted) if it[0] != it[1]), len(came))}")
        found = {what: int(count) for count, what in re.findall(r"^(\d+) ([a-z ]+)$", ran.stdout.decode(), re.M) if int(count)}
        must((ran.returncode, found) == (4, {**counts, "rows": len(lines)}), f"{ran.returncode}, {found}, and not {counts}")
        differing = {what: count for what, count in counts.items() if what not in ("equal", "refused")}
        for kind in ("symbol", "hour"):
            sums = {}
            for line in re.findall(rf"^{kind} \S+: (.*)$", ran.stdout.decode(), re.M):
                for count, what in re.findall(r"(\d+) ([a-z ]+)", line):
                    sums[what] = sums.get(what, 0) + int(count)
            sums = {what: count for what, count in sums.items() if count and what != "equal"}
            must(sums == differing, f"by {kind}: {sums}, and not {differing}")
        ran = called(program, [*words, "--refused", "rows.json", "--json"], capture_output=True, cwd=room)
        with open(os.path.join(room, "rows.json"), encoding="ascii") as file:
            told = [json.loads(line) for line in file]
        came = [f"{it['file']}:{it['line']}: " + ("refused" if it["what"] == "refused" else f"version {it['version']}: {it['symbol']}: {it['finding']}") for it in told]
        must(came == wanted, f"--refused: {next((it for it in zip(came, wanted) if it[0] != it[1]), len(came))}")
        last = json.loads(ran.stdout.splitlines()[-1])
        must({what: last[what.replace(" ", "_")] for what in counts} == counts, f"--json: {last}, and not {counts}")


if __name__ == "__main__":
    TRIALS = [("a made day", real_day), ("jobs of a day that die", jobs_that_die), ("a made day's trades", judged_day), ("100,000 executions on shards and on one tape", judged_on_one_tape), ("a day's output that is a link to a shard", linked_outputs), ("stored national bests", compared), ("altered national bests", compared_day)]
    sys.exit(run("review", [Trial(name, trial, (os.path.realpath(sys.argv[1]),)) for name, trial in TRIALS]))
