#!/usr/bin/env python3
"""Runs every case of tests/review/, and every call of the pages PAGES, with the reviewer's program, and compares what it
writes on both streams and its status with what must come.

    tests/check_review.py [PROGRAM [TOOL]]      PROGRAM is nms_review, TOOL is nms_tool

A file `X.cases` has cases of the form of cases/commands.cases, of the kind `command`: the words, the files, the streams,
the status and the texts. The files of examples/review/ are what docs/REVIEW.md names, and each has to be named. In a
page a line of four spaces and `./nms_review WORDS` is a call, or one of `./nms_tool`, which is TOOL; the block
after it is what it writes, with the words `status N` in the text between them if N is not 0. Besides these the program
meets a closed output, one whose reader has gone, records of a million bytes, records whose fields and lists are longer than
any that is right, byte order marks before quotes, each byte of a file once, a setup of many symbols, streams of several
pieces, a symbol that is cut to four shards, rows of one side, what is written beside a shard, lines of all ends, a trade after a refused row, a
terminal and users who want no colours, imports to one name that fail or have fewer shards, an output that is standard output's own file, a script of one record too many,
the imports of examples/import/, and the random files and pages that the judges JUDGES compare with a plain slow program.
"""
import gzip
import os
import pty
import random
import re
import resource
import subprocess
import sys
import tempfile
import time

from stored import EXAMPLES, MOST, TESTS, TOP, cases_of, command, programs, read
from trials import Trial, Wrong, compare, run

ROOM = os.path.join(EXAMPLES, "review")
# The pages whose calls run, the mappings of examples/import/, and the programs that judge random files.
PAGES = ("docs/REVIEW.md", "docs/TRADES.md")
IMPORTS = ("taq", "taq-shares", "databento-mbp1", "databento-client", "lobster", "plain", "plain-sides", "taq-trades", "databento-tbbo", "lobster-trades", "plain-trades")
# The page whose calls are followed one after another.
FOLLOWED = "docs/MINUTES.md"
CLOSED = ("2>&-", "1>&-", "1>&- 2>&-", "0<&-", "0<&- 1>&- 2>&-")
JUDGES = ("import_judge.py", "times_judge.py", "trades_judge.py", "pages_judge.py", "day_judge.py")
# Memory within which a file of two hundred million bytes is explained: it must not grow with the file, but with the longest
# record alone.
LITTLE = 256 << 20
# A call of the page, the text between it and its block, and the block.
CALL = re.compile(r"^    \./(nms_review|nms_tool) (.*)\n((?:(?!    \./nms_|```).*\n)*)```\w*\n([\s\S]*?)```$", re.M)


def stored(program):
    """The cases of the files."""
    for name in sorted(os.listdir(f"{TESTS}/review")):
        for case in cases_of(name, read("review", name)):
            yield Trial(case.name, run_stored, (case, program))


def run_stored(case, program):
    if case.kind != "command" or not case.has_gives:
        raise Wrong("not a command with what it gives")
    command(case).run(program)


def pages(program, tool):
    """The calls of the pages, each with the text of the block after it."""
    for page in PAGES:
        for name, words, between, block in CALL.findall(read(TOP, page).decode()):
            status = re.search(r"status (\d)", between)
            ran = tool if name == "nms_tool" else program
            yield Trial(f"{page}: {words}", shown, (ran, words.split(), int(status[1]) if status else 0, block.encode()))


def followed(program):
    """The calls of a page, one after another in their own folder."""
    with tempfile.TemporaryDirectory(prefix="nms-") as room:
        os.symlink(EXAMPLES, os.path.join(room, "examples"))
        calls = CALL.findall(read(TOP, FOLLOWED).decode())
        must(len(calls) == 3, f"{len(calls)} calls")
        for _, words, _, block in calls:
            shown(program, words.split(), 0, block.encode(), room)


def shown(program, words, status, text, place=TOP):
    """A call at the top of the repository that writes this text, or its beginning if it ends with a line `..`."""
    words, _, _ = parted(words, ">")
    words, _, given = parted(words, "<")
    with open(os.path.join(place, *given) if given else os.devnull, "rb") as file:
        ran = subprocess.run([program, *words], cwd=place, stdin=file, capture_output=True, timeout=MOST, check=False)
    came = ran.stdout or ran.stderr
    if text.endswith(b"\n..\n"):
        text = text[:-3]
        came = came[: len(text)]
    compare("the text", came, text)
    compare("status", ran.returncode, status)


def parted(words, sign):
    """The words before a sign, the sign, and those after it."""
    at = words.index(sign) if sign in words else len(words)
    return words[:at], words[at:at + 1], words[at + 1:]


# What no stored text shows.

def called(program, words, **how):
    return subprocess.run([program, *words], stdin=subprocess.DEVNULL, timeout=MOST, **how)


def in_room(name, make, program):
    """A trial in a folder with a file of changes that `make` writes."""
    with tempfile.TemporaryDirectory(prefix="nms-") as room:
        path = os.path.join(room, "given.changes")
        with open(path, "wb") as file:
            make(file)
        globals()[name](program, path)


def must(holds, what):
    if not holds:
        raise Wrong(what)


def refused(file):
    """Ten thousand records, each refused: the answer is longer than a pipe holds."""
    file.write(b"Q,N,ABC,A,10.00000,100,,\n" * 10_000)


def closed(program, path):
    ran = subprocess.run(["bash", "-c", '"$0" explain changes "$1" >&-', program, path], capture_output=True, timeout=MOST, check=False)
    must((ran.returncode, ran.stderr) == (1, b"nms_review: E2: the output could not be written\n"), f"{ran.returncode}, {ran.stderr!r}")


def reader_gone(program, path):
    read, write = os.pipe()
    os.close(read)
    ran = called(program, ["explain", "changes", path], stdout=write, stderr=subprocess.PIPE)
    os.close(write)
    must((ran.returncode, ran.stderr) == (1, b"nms_review: E2: the output could not be written\n"), f"{ran.returncode}, {ran.stderr!r}")


def long_records(file):
    """A record of a million bytes, one that a stray quote makes of all after it, and good ones between."""
    file.write(b"Q,N,ABC,A,,,10.00,300\nQ,N,ABC," + b"9" * 1_000_000 + b"\nX,N\n" + b'Q,"N,ABC' + b"\nX,N" * 250_000)


def long(program, path):
    ran = called(program, ["explain", "changes", path], capture_output=True)
    must(ran.returncode == 6 and len(ran.stdout) < 5_000, f"{ran.returncode}, {len(ran.stdout)} bytes")


def heads(program, words, path):
    """The status of a call on a file, and the text after the file's name of each line that it writes about the file."""
    ran = called(program, [*words, "given.changes"], capture_output=True, cwd=os.path.dirname(path))
    lines = ran.stdout.decode().splitlines()
    return ran.returncode, [it.removeprefix("given.changes:") for it in lines if it.startswith("given.changes:")], lines


def long_names(file):
    """Orders whose lists of names are longer than all names there are: the last name of one is none, the other is well."""
    order = b"O,0,B,ABC,100,10.01,,"
    file.write(order + b"N+" * 36_900 + b"QQ\n" + order + b'"' + b"N+" * 39_999 + b'N"\n')


def far_name(program, path):
    status, told, lines = heads(program, ["explain", "orders"], path)
    wanted = ["1:73822: L3: record 1, field 8, names", " records: 2; refused: 1"]
    must((status, told) == (6, wanted) and any("found `QQ`" in it for it in lines), f"{status}, {told}")


def long_fields(file):
    """Records with a hundred thousand digits or commas in place of a few, and good ones between."""
    many = b"0" * 100_000
    file.write(b"Q,N,ABC,A," + many + b",100,10.01,100\nF\nQ,N,ABC,A,9.99," + many + b",10.01,100\nF\n")
    file.write(b"N," + many + b",ABC\nF\nQ,N,ABC,A" + b"," * 100_000 + b"\nF\nR,ABC," + many + b"1\n")


def far_fields(program, path):
    status, told, lines = heads(program, ["explain", "script"], path)
    wanted = ["1:11: L6: record 1, field 5, bid", "3:16: L7: record 3, field 6, bidshares", "5:3: L10: record 5, field 2, desk",
              "7:15: L2: record 7, number of fields", "9:7: L14: record 9, field 3, lot", " records: 9; refused: 5"]
    count = "    found 100004; expected 8: Q,part,sym,state,bid,bidshares,offer,offershares"
    must((status, told) == (6, wanted) and count in lines, f"{status}, {told}, {[it for it in lines if 'found 1' in it]}")


def marked(file):
    """A byte order mark before a field in quotes that the first read doesn't end."""
    file.write(b'\xef\xbb\xbf"\n' + b"b" * 8187 + b'",N\nX,QQ\n')


def mark(program, path):
    status, told, lines = heads(program, ["explain", "changes"], path)
    wanted = ["1:1: L1: record 1, field 1, kind", "3:3: L3: record 2, field 2, part", " records: 2; refused: 2"]
    must((status, told) == (6, wanted) and lines[1].startswith('    "\\nbbb'), f"{status}, {told}, {lines[1][:80]}")


def nothing(_):
    """The file is not read."""


def mark_in_parts(program, _):
    ran = subprocess.Popen([program, "explain", "changes", "/dev/stdin"], stdin=subprocess.PIPE, stdout=subprocess.PIPE)
    ran.stdin.write(b'\xef\xbb\xbf"Q\n')
    ran.stdin.flush()
    time.sleep(0.4)
    told, _ = ran.communicate(b'",N\nX,QQ\n', timeout=MOST)
    at = re.findall(rb"^/dev/stdin:(\d+:\d+: L\d+)", told, re.M)
    must((ran.returncode, at) == (6, [b"1:1: L1", b"3:3: L3"]), f"{ran.returncode}, {told!r}")


def each_byte(file):
    file.write(b"".join(b"Q,N," + bytes([it]) + b",A,,,10.00,300\n" for it in range(256) if it not in b'"\r\n'))


def harmless(program, path):
    for words in (["explain", "changes", path], ["explain", "changes", path, "--json"]):
        ran = called(program, words, capture_output=True)
        strange = [it for it in ran.stdout if it not in b"\n" and not 0x20 <= it < 0x7F]
        must(ran.returncode == 6 and not strange, f"{ran.returncode}, bytes {strange[:8]}")


def limited(program, path):
    """A call with little memory."""
    def limit():
        resource.setrlimit(resource.RLIMIT_AS, (LITTLE, LITTLE))
    return called(program, ["explain", "changes", path], capture_output=True, preexec_fn=limit)


def large(file):
    """A hundred million bytes of records, as many of blank lines, and a record that is refused."""
    file.write(b"Q,N,ABC,A,9.99,100,10.01,100\n" * 3_500_000)
    file.write(b"\n" * 100_000_000 + b"Q,N,ABC,A,9.99,100,10.01\n")


def small_memory(program, path):
    ran = limited(program, path)
    must(ran.returncode == 6 and b":103500001:25: L2: record 3500001," in ran.stdout, f"{ran.returncode}, {ran.stdout[:500]!r}")


def larger(file):
    """A record of a thousand million bytes, which are on no disk, after one that is refused."""
    file.write(b"X,QQ\n")
    file.truncate(1_000_000_000)


def no_memory(program, path):
    ran = limited(program, path)
    must(ran.returncode == 5 and b": E4: " in ran.stderr and b"L1: record 2" not in ran.stdout, f"{ran.returncode}, {ran.stderr!r}")


def among(file):
    """A feed of 200,000 records, of which one has a price with five decimals."""
    good = b"Q,N,ABC,A,9.99,100,10.01,200\nQ,P,ABC,A,9.98,100,10.02,200\n" * 61_728
    file.write(good + b"Q,P,ABC,A,9.98,100,10.02500,200\n" + b"X,N\n" * (200_000 - 123_457))


def one_found(program, path):
    words = ["explain", "feed", "given.changes", "--feed", "A"]
    ran = called(program, words, capture_output=True, cwd=os.path.dirname(path))
    head, *_, told = ran.stdout.decode().partition("given.changes: records: ")
    wanted = "given.changes:123457:20: L6: record 123457, field 7, offer\n    Q,P,ABC,A,9.98,100,10.02500,200\n" + " " * 23 + "^^^^^^^^\n"
    must((ran.returncode, told) == (6, "200000; refused: 1\n    L6: 1\n") and head.startswith(wanted), f"{ran.returncode}, {ran.stdout[:500]!r}")


def too_many(file):
    """A script of one record more than the most."""
    file.write(b"F\n" * 10_000_001)


def one_too_many(program, path):
    ran = called(program, ["tape", "given.changes"], capture_output=True, cwd=os.path.dirname(path))
    said = b"nms_review: given.changes: E3: it has more than 10,000,000 records\n"
    must((ran.returncode, ran.stderr) == (6, said), f"{ran.returncode}, {ran.stderr[:500]!r}")


def many_symbols(file):
    """A setup of 100,000 symbols, the last of which has the name of the first."""
    file.write(b'tape_limit = 3\nqueue = 2\ndesks = 1\nparticipant = [{name = "N", feed = "A", fee = 0, rate = 0}]\n')
    file.write(b"".join(b'[[symbol]]\nname = "S%d"\nlot = 100\n' % (it % 99_999) for it in range(100_000)))


def name_found(program, path):
    """Looking at all symbols before each would take 5,000,000,000 looks, for which a call has not the time."""
    ran = called(program, ["explain", "setup", "given.changes"], capture_output=True, cwd=os.path.dirname(path))
    wanted = ("given.changes:5:1: C8: top, key symbol: too many tables\n    [[symbol]]\n    ^^^^^^^^^^\n"
              "    found `100000`; expected 1 to 1000 tables, each after a line [[symbol]]\n    split the symbols over several runs\n"
              "given.changes:300003:8: C4: symbol 100000, S0, key name: a name that stands twice\n    name = \"S0\"\n           ^^^^\n"
              "    found `S0`; expected a name of its own: number 1 has it too\n"
              "    1 to 4 of A to Z and 0 to 9 for a participant, 1 to 8 of these and the point for a symbol; each name once\n"
              "given.changes: faults: 2, refused by C4\n")
    must((ran.returncode, ran.stdout.decode(), ran.stderr) == (3, wanted, b""), f"{ran.returncode}, {ran.stdout[:1500]!r}, {ran.stderr[:500]!r}")


def other_keys(file):
    """A setup with 100 keys that are not allowed there."""
    file.write(b'tape_limit = 3\nqueue = 2\ndesks = 1\n' + b"".join(b"k%d = 1\n" % it for it in range(100)))
    file.write(b'[[participant]]\nname = "N"\nfeed = "A"\nfee = 0\nrate = 0\n[[symbol]]\nname = "ABC"\nlot = 100\n')


def most_faults(program, path):
    """A hundred faults are reported one by one; one more is counted, and the last line says so."""
    for count, last in (100, ""), (101, "the first 100 faults are reported, the others counted\n"):
        ran = called(program, ["explain", "setup", "given.changes"], capture_output=True, cwd=os.path.dirname(path))
        head, _, told = ran.stdout.decode().rpartition("given.changes: faults: ")
        must((ran.returncode, told, head.count(": C3: ")) == (3, f"{count}, refused by C3\n{last}", 100), f"{ran.returncode}, {ran.stdout[-500:]!r}")
        with open(path, "ab") as file:
            file.write(b"other = 1\n")


def long_day(path):
    """The option for a setup whose tape takes more changes than the built-in one's, in the folder of a file."""
    file = os.path.join(os.path.dirname(path), "long.toml")
    with open(file, "wb") as it:
        it.write(b'tape_limit = 10000\nqueue = 2\ndesks = 1\nsymbol = [{name = "ABC", lot = 100}]\n')
        it.write(b"".join(b'[[participant]]\nname = "%s"\nfeed = "A"\nfee = 0\nrate = 0\n' % name for name in (b"N", b"P", b"Z")))
    return ["--setup", file]


def each_other(file):
    """4,000 changes of one quotation, each with other shares than the one before."""
    file.write(b"".join(b"Q,N,ABC,A,9.99,%d,10.01,300\n" % (100 + it % 2 * 100) for it in range(4_000)))


def pieces(program, path):
    """A stream that is written in three pieces of 64 KiB and more, each of more than a thousand lines: no line is lost or doubled."""
    lines = [(it + 1, 100 + it % 2 * 100) for it in range(4_000)]
    head = "version,symbol,market,bid_participant,bid_price,bid_shares,offer_participant,offer_price,offer_shares\n"
    wanted = head + "".join(f"{version},ABC,NORMAL,N,9.9900,{shares},N,10.0100,300\n" for version, shares in lines)
    objects = "".join(f'{{"what":"line","version":{version},"symbol":"ABC","market":"NORMAL","bid_participant":"N","bid_price":"9.9900","bid_shares":{shares}'
                      ',"offer_participant":"N","offer_price":"10.0100","offer_shares":300}\n' for version, shares in lines)
    must(len(wanted) > 2 << 16, f"{len(wanted)} bytes")
    for words, text in ((["stream", path], wanted), (["stream", path, "--json"], objects)):
        ran = called(program, words + long_day(path), capture_output=True)
        came, text = ran.stdout.splitlines(), text.encode().splitlines()
        differs = next((it for it, (one, other) in enumerate(zip(came, text)) if one != other), min(len(came), len(text)))
        must((ran.returncode, came, ran.stderr) == (0, text, b""), f"{words}: {ran.returncode}, {len(came)} lines, line {differs + 1}: {came[differs:differs + 1]}")


MAP = b"""[column]
time = 1
participant = 2
symbol = 3
bid = 4
bid_size = 5
offer = 6
offer_size = 7
[size]
unit = "shares"
[time]
order = "symbol"
"""
SETUP = b"""tape_limit = 66
queue = 2
desks = 1
[[participant]]
name = "N"
feed = "A"
fee = 0
rate = 0
[[participant]]
name = "P"
feed = "A"
fee = 0
rate = 0
[[symbol]]
name = "ABC"
lot = 100
"""


def cut_often(program, path):
    """A symbol of 200 rows on tapes of 66 changes is cut three times: what each further shard begins with is counted."""
    room = os.path.dirname(path)
    rows = b"".join(b"0930%02d,%s,ABC,9.%d,300,10.%d,200\n" % (it // 4, (b"N", b"P")[it % 2], 80 + it % 10, 10 + it % 7) for it in range(200))
    for name, text in (("given.toml", MAP), ("setup.toml", SETUP), ("given.csv", rows)):
        with open(os.path.join(room, name), "wb") as file:
            file.write(text)
    words = ["import", "given.toml", "given.csv", "--out", "out", "--setup", "setup.toml", "--shards"]
    ran = called(program, words, capture_output=True, cwd=room)
    lines = [read(room, f"out.{it}.changes").count(b"\n") for it in range(1, 5)]
    said = b"4 shards, %d opening changes\n200 rows = 200 changes + 0 refused + 0 skipped\n" % (sum(lines) - 200)
    must((ran.returncode, ran.stdout, lines[:3], sum(lines)) == (0, said, [66] * 3, 206), f"{ran.returncode}, {ran.stdout!r}, {lines}, {ran.stderr!r}")


def import_to_out(program, room, texts, words):
    """An import to `out` in a folder, after files were written there. Returns the run, and what the folder has then."""
    for name, text in {"given.toml": MAP, "setup.toml": SETUP, **texts}.items():
        with open(os.path.join(room, name), "wb") as file:
            file.write(text)
    ran = called(program, ["import", "given.toml", *words, "--out", "out", "--setup", "setup.toml"], capture_output=True, cwd=room)
    return ran, {it: read(room, it) for it in sorted(os.listdir(room)) if it.startswith("out")}


# A mapping of rows of one side, and one of the same quotations with both sides in a row. What makes one side manual makes both so.
STATES = b'[state]\nautomated = ["R"]\nmanual = ["M"]\nhalted = ["H"]\nhalf = "manual"\n'
ONE_SIDE = MAP.replace(b"bid = 4\nbid_size = 5\noffer = 6\noffer_size = 7\n", b"side = 4\nprice = 5\nsize = 6\ncondition = 7\n") \
    + b'[file]\nkind = "sides"\n[side]\nbid = ["b", "Bid"]\noffer = ["o"]\n' + STATES
BOTH_SIDES = MAP.replace(b"offer_size = 7\n", b"offer_size = 7\ncondition = 8\n") + STATES


def shown_after(shown, side, content, state):
    """Both sides of a venue after a row of one: each has its content and its state. A halt is of both; after it a side is shown
    again from its own next row on."""
    own, other = (content, state) if content else None, shown[1 - side]
    if other and state == "H":
        other = (other[0], "H")
    elif other and other[1] == "H":
        other = None
    return (own, other) if side == 0 else (other, own)


def sides_are_quotes(program, path):
    """Rows of one side give the files that the same quotations give with both sides in a row: in one file, and in shards, of which
    some begin within a symbol."""
    room, draw, ones, boths = os.path.dirname(path), random.Random(11), [], []
    setup = SETUP + b'[[symbol]]\nname = "XYZ"\nlot = 100\n'
    for symbol in ("ABC", "XYZ"):
        shown = {"N": (None, None), "P": (None, None)}
        for it in range(200):
            venue, side, state = draw.choice("NP"), draw.randrange(2), draw.choice("RRRRRRMMH")
            content = draw.choice(("", f"{9 + side}.{draw.randrange(50):02},{draw.randrange(1, 9)}00", f"{9 + side}.5,200"))
            head = f"09{it // 60:02}{it % 60:02},{venue},{symbol}"
            ones.append(f"{head},{draw.choice(('b', 'Bid')) if side == 0 else 'o'},{content or ','},{state}\n")
            shown[venue] = shown_after(shown[venue], side, content, state)
            states = {one[1] for one in shown[venue] if one} or {state}
            both = "M" if len(states) == 2 else states.pop()
            boths.append(f"{head},{','.join(one[0] if one else ',' for one in shown[venue])},{both}\n")
    for words in (["given.csv"], ["given.csv", "--rows"], ["given.csv", "--shards"]):
        came = []
        for mapping, rows in (ONE_SIDE, ones), (BOTH_SIDES, boths):
            ran, files = import_to_out(program, room, {"given.toml": mapping, "setup.toml": setup, "given.csv": "".join(rows).encode()}, words)
            must(ran.returncode == 0 and ran.stdout.endswith(b"400 rows = 400 changes + 0 refused + 0 skipped\n"), f"{ran.stdout!r}, {ran.stderr[-500:]!r}")
            came.append(files)
        must(set(came[0]) == set(came[1]), f"{sorted(came[0])}, {sorted(came[1])}")
        for name, text in came[1].items():
            compare(name, came[0][name], text)
    must("out.7.changes" in came[1], f"{sorted(came[1])}")


def withdrawn(program, path):
    """A trade after a refused row is not judged by the quotation before that row; with `keep` it is."""
    room = os.path.dirname(path)
    rows = b"093000,N,ABC,9.90,300,10.00,200\n093001,P,ABC,9.90,100,10.05,100\n093002,N,ABC,9.90,300,10.10001,200\n0930,P,ABC,9.90,1,10.05,x\n"
    trade = {"given.csv": rows, "given.executions": b"D,a,ABC,10.05,100,B,@093005000000000,P,\n"}
    words = ["trades", "out.changes", "given.executions", "--times", "out.times", "--setup", "setup.toml"]
    quotes = b"Q,N,ABC,A,9.9000,300,10.0000,200\nQ,P,ABC,A,9.9000,100,10.0500,100\n"
    for more, left, times, said in ((b"", b"Q,N,ABC,A,,,,\nQ,P,ABC,A,,,,\n", b"093002000000000\n093002000000000\n", b"CLEAN,a,4\n"),
                                    (b'[file]\non_refused = "keep"\n', b"", b"", b"THROUGH,a,2,")):
        _, came = import_to_out(program, room, {**trade, "given.toml": MAP + more}, ["given.csv"])
        compare("changes", came["out.changes"], quotes + left)
        compare("times", came["out.times"], b"093000000000000\n093001000000000\n" + times)
        ran = called(program, words, capture_output=True, cwd=room)
        must(ran.stdout.startswith(said), f"{ran.stdout!r}, {ran.stderr!r}")


def lots_of_the_setup(program, path):
    """Sizes that count the setup's lot of each symbol, in one file and in shards."""
    room = os.path.dirname(path)
    lots = SETUP + b'[[symbol]]\nname = "NVR"\nlot = 10\n[[symbol]]\nname = "BRK.A"\nlot = 1\n'
    mapping = MAP.replace(b'unit = "shares"', b'unit = "lots"\nlot = "setup"')
    rows = b"093000,N,ABC,9.90,3,10.00,2\n093000,N,BRK.A,9.90,3,10.00,2\n093000,N,NVR,9.90,3,10.00,2\n"
    wanted = b"".join(b"Q,N,%s,A,9.9000,%d,10.0000,%d\n" % (name, 3 * lot, 2 * lot) for name, lot in ((b"ABC", 100), (b"BRK.A", 1), (b"NVR", 10)))
    for words, name in (["given.csv"], "out.changes"), (["given.csv", "--shards"], "out.1.changes"):
        ran, came = import_to_out(program, room, {"given.csv": rows, "given.toml": mapping, "setup.toml": lots}, words)
        must(ran.returncode == 0, f"{ran.returncode}, {ran.stderr!r}")
        compare(name, came[name], wanted)


def out_of_one_import(program, path):
    """The files of a name are of one import: after a failure of the earlier one, with no temporary file left; then of the new one,
    without a shard of the earlier one."""
    room = os.path.dirname(path)
    rows = b"".join(b"0930%02d,%s,ABC,9.%d,300,10.%d,200\n" % (it // 4, (b"N", b"P")[it % 2], 80 + it % 10, 10 + it % 7) for it in range(200))
    for words in (["given.csv"], ["given.csv", "--shards"]):
        ran, first = import_to_out(program, room, {"given.csv": rows}, words)
        must(ran.returncode == 0, f"{ran.returncode}, {ran.stderr!r}")
        ran, after = import_to_out(program, room, {"given.csv": rows[:4000]}, [*words, "no.csv"])
        must((ran.returncode, after) == (1, first), f"{ran.returncode}, {ran.stderr!r}, {[it for it in after if after[it] != first.get(it)]}")
    ran, last = import_to_out(program, room, {"given.csv": rows[:4000]}, ["given.csv", "--shards"])
    ends = ("changes", "symbols", "times", "toml")
    names = {f"out.{it}.{end}" for it in (1, 2) for end in ends} | {f"out.{end}" for end in ends[:3]}
    must((ran.returncode, set(last)) == (0, names), f"{ran.returncode}, {ran.stderr!r}, {sorted(last)}")


def rows_of_one_import(program, path):
    """The file of refused rows gets its name with the other files of an import, and no temporary file is left. A pipe is written
    itself. After a failure it is as it was."""
    room = os.path.dirname(path)
    rows = b"0930,N,ABC,9.90,300,10.00,200\n093001,N,ABC,9.90,300,10.00,200\n"
    cause = b'"cause":"no time of day as HHMMSS with up to nine digits after it","text":"0930"}\n'
    told = b'{"what":"refused","file":"given.csv","line":1,"column":1,' + cause
    for more, status in ([], 0), (["no.csv"], 1), (["--shards"], 0), (["--shards", "no.csv"], 1):
        ran, came = import_to_out(program, room, {"given.csv": rows, "out.rows": b"earlier\n"}, ["given.csv", *more, "--refused", "out.rows"])
        wanted = (status, b"earlier\n" if status else told, [])
        must((ran.returncode, came["out.rows"], [it for it in came if it.endswith(".part")]) == wanted, f"{more}: {ran.returncode}, {ran.stderr!r}, {came}")
    os.mkfifo(os.path.join(room, "pipe"))
    with subprocess.Popen(["cat", "pipe"], cwd=room, stdout=subprocess.PIPE) as reader:
        import_to_out(program, room, {}, ["given.csv", "--refused", "pipe"])
        compare("the pipe", reader.communicate(timeout=MOST)[0], told)


def own_output(program, path):
    """A file of --out that is standard output's own, by its name or by the temporary one, is refused and not removed."""
    room = os.path.dirname(path)
    rows = b"093000,N,ABC,9.90,300,10.00,200\n"
    for name in ("out.changes", "out.times.part", "out.symbols"):
        with open(os.path.join(room, name), "wb") as file:
            words = ["import", "given.toml", "given.csv", "--out", "out", "--setup", "setup.toml"]
            for other, text in {"given.toml": MAP, "setup.toml": SETUP, "given.csv": rows}.items():
                with open(os.path.join(room, other), "wb") as it:
                    it.write(text)
            ran = called(program, words, stdout=file, stderr=subprocess.PIPE, cwd=room)
        said = f"nms_review: {name.removesuffix('.part')}: usage: another file than that of standard output or standard error\n".encode()
        must((ran.returncode, ran.stderr, read(room, name)) == (2, said, b""), f"{name}: {ran.returncode}, {ran.stderr!r}")


def inputs_named_as_shards(program, path):
    """A vendor's file with the name of a shard's file is refused if that shard is made, and is never removed."""
    rows = b"".join(b"0930%02d,N,ABC,9.%d,300,10.%d,200\n" % (it // 4, 80 + it % 10, 10 + it % 7) for it in range(100))
    for name, status in (("out.2.changes", 2), ("out.3.changes", 0)):
        ran, came = import_to_out(program, os.path.dirname(path), {name: rows}, [name, "--shards"])
        must((ran.returncode, came.get(name)) == (status, rows), f"{name}: {ran.returncode}, {ran.stderr!r}, {sorted(came)}")


SHARD = b"""# opening changes: 0
tape_limit = 66
queue = 2
desks = 1
feeds = 3
caps = 2024

[[participant]]
name = "N"
feed = "C"
fee = 1000000
rate = 100

[[participant]]
name = "P"
feed = "A"
fee = -5
rate = -7

[[symbol]]
name = "XYZ"
lot = 100

[[symbol]]
name = "ABC"
lot = 40
"""


def shard_of(program, path):
    """What is written next to the changes of a shard: the setup with its caps, feeds, fees and lots, and the symbols in the order of the rows."""
    room = os.path.dirname(path)
    tables = SHARD.split(b"\n\n")
    setup = b"\n\n".join([tables[0].partition(b"\n")[2], *tables[1:3], tables[4]])
    rows = b"093000,N,XYZ,9.99,100,10.01,200\n093001,P,XYZ,9.99,100,10.01,200\n093000,P,ABC,9.99,100,10.01,200\n"
    strange = b"093000,N,ABCD.PRAW,9.99,100,10.01,200\n093000,N,abc,9.99,100,10.01,200\n"
    for name, text in (("given.toml", MAP), ("setup.toml", setup), ("given.csv", rows + strange)):
        with open(os.path.join(room, name), "wb") as file:
            file.write(text)
    words = ["import", "given.toml", "given.csv", "--out", "out", "--setup", "setup.toml", "--shards"]
    ran = called(program, words, capture_output=True, cwd=room)
    compare("out.1.toml", read(room, "out.1.toml"), SHARD)
    compare("out.1.symbols", read(room, "out.1.symbols"), b"XYZ,1,2\nABC,3,3\n")
    form = b"refused: a symbol that is not 1 to 8 capital letters, digits and points"
    told = b"given.csv:4: column 3: %s: `ABCD.PRAW`\ngiven.csv:5: column 3: %s: `abc`\n" % (form, form)
    told += b"nms_review: participants and symbols are those of the setup setup.toml\n"
    must((ran.returncode, ran.stderr) == (0, told), f"{ran.returncode}, {ran.stderr!r}")


def editor_lines(program, path):
    """The lines of rows that are refused, with each kind of line end, in files of several pieces with blank lines and line ends in quotes."""
    draw = random.Random(7)
    for end in ("\n", "\r\n", "\r"):
        text, line, wanted = "\ufeff" * (end == "\n") + end, 2, []
        for it in range(1_200):
            blank = draw.choice((0, 0, 0, 0, 1, 3))
            symbol = '"A' + end * draw.choice((1, 2)) + "B" * draw.choice((1, 9_000)) + '"' if it % 80 == 7 else "ABC"
            text, line = text + end * blank, line + blank
            if it % 20 == 7:
                wanted.append(line)
            row = f"093000,{'Q' if it % 20 == 7 else 'N'},{symbol},9.99,300,10.01,200{end}"
            text, line = text + row, line + row.count(end)
        for name, given in (("given.toml", MAP + b"[file]\nquotes = true\n"), ("given.csv", text.encode())):
            with open(os.path.join(os.path.dirname(path), name), "wb") as file:
                file.write(given)
        for words, how in (["given.csv"], {"stdin": subprocess.DEVNULL}), (["/dev/stdin"], {"input": text.encode()}):
            ran = subprocess.run([program, "import", "given.toml", *words, "--out", "out"], capture_output=True, timeout=MOST, cwd=os.path.dirname(path), check=False, **how)
            told = [int(it) for it in re.findall(rb"^" + words[0].encode() + rb":(\d+): column 2: ", ran.stderr, re.M)]
            differs = next((it for it, (one, other) in enumerate(zip(told, wanted)) if one != other), None)
            must((ran.returncode, told) == (0, wanted), f"{end!r}: {ran.returncode}, {len(told)} rows, the first that differs: {differs}")


def unknown_kind(file):
    """One record, of no kind: the answer is no longer than a terminal holds."""
    file.write(b"Z,0\n")


def colours(program, path):
    """A refused record on a terminal: its field is bold, but not if the user or the terminal wants no colours."""
    for name, value, wanted in (("TERM", "xterm", True), ("TERM", "dumb", False), ("NO_COLOR", "1", False), ("NO_COLOR", "", True)):
        here, there = pty.openpty()
        environment = {"PATH": os.environ["PATH"], "TERM": "xterm", name: value}
        ran = called(program, ["explain", "changes", path], stdout=there, stderr=subprocess.PIPE, env=environment)
        os.close(there)
        shown = os.read(here, 1 << 16)
        os.close(here)
        must((ran.returncode, b"\x1b[1m" in shown) == (6, wanted), f"{name}={value}: status {ran.returncode}, {shown!r}")


TRIALS = [
    ("closed", refused), ("reader_gone", refused), ("long", long_records), ("far_name", long_names), ("far_fields", long_fields),
    ("mark", marked), ("mark_in_parts", nothing), ("harmless", each_byte), ("small_memory", large), ("no_memory", larger),
    ("one_found", among), ("one_too_many", too_many), ("name_found", many_symbols), ("most_faults", other_keys), ("pieces", each_other), ("cut_often", nothing),
    ("sides_are_quotes", nothing), ("withdrawn", nothing), ("lots_of_the_setup", nothing), ("out_of_one_import", nothing), ("rows_of_one_import", nothing), ("own_output", nothing), ("inputs_named_as_shards", nothing),
    ("shard_of", nothing), ("editor_lines", nothing), ("colours", unknown_kind),
]


def imported(program, mapping):
    """The files, the counts and the refused rows that an import of the rows next to a mapping makes."""
    given = os.path.join(EXAMPLES, "import")
    with tempfile.TemporaryDirectory(prefix="nms-") as room:
        out = os.path.join(room, "day")
        words = ["import", f"{mapping}.toml", f"{mapping}.txt", "--out", out, "--setup", "../market.toml"]
        ran = called(program, words, capture_output=True, cwd=given)
        must(ran.returncode == 0, f"status {ran.returncode}, {ran.stderr!r}")
        came = {"counts": ran.stdout, "errors": ran.stderr}
        came |= {name.partition(".")[2]: read(room, name) for name in os.listdir(room)}
    stored_there = {it.partition(".")[2] for it in os.listdir(given) if it.startswith(f"{mapping}.")}
    must(stored_there - {"toml", "txt"} == set(came), f"it writes {sorted(came)}")
    for name, text in came.items():
        compare(f"{mapping}.{name}", text, read(given, f"{mapping}.{name}"))


def imported_closed(program, closed):
    """The files of an import with standard streams closed have nothing else in them. Counts that can't be printed are a fault."""
    given = os.path.join(EXAMPLES, "import")
    with tempfile.TemporaryDirectory(prefix="nms-") as room:
        words = ["import", "taq.toml", "taq.txt", "--out", os.path.join(room, "day"), "--setup", "../market.toml"]
        ran = called("sh", ["-c", f'exec "$@" {closed}', "sh", program, *words], capture_output=True, cwd=given)
        must(ran.returncode == ("1>&-" in closed), f"status {ran.returncode}, {ran.stderr!r}")
        came = {name.partition(".")[2]: read(room, name) for name in os.listdir(room)}
    must("changes" in came, f"it writes {sorted(came)}")
    for name, text in came.items():
        compare(f"taq.{name}", text, read(given, f"taq.{name}"))


# What the shipped mappings of TAQ say of each condition of a quote, and of each letter and each correction code of a trade. A
# quote is automated, manual, halted, none, or refused; a trade has flags, is skipped, or is refused.
QUOTES = {"A": "CR CO NR NY NO", "M": "CH CU CW C4 NH NF N4", "H": "CD CI CJ CK CM CP CS CV NI NX", "": "CC CL CN NL NN NU NZ", "refused": "CA CB CE CF NA NB"}
TRADES = {"": "@ A D E H I K S V X Y 8", "C": "C N R", "O": "O 5 6", "I": "F", "K": "4 B W", "P": "1", "Q": "7", "T": "T", "T+Z": "U", "Z": "G L P Z", "skipped": "M Q 9"}
CODES = {"": "00 01", "skipped": "07 08 10 11 12", "refused": "02 13 -"}


def shipped(program):
    """The mappings of TAQ next to the examples, on a row of each condition, letter and code."""
    with tempfile.TemporaryDirectory(prefix="nms-") as room:
        quotes = [(kind, it) for kind, those in QUOTES.items() for it in those.split()]
        head = read(EXAMPLES, "import", "taq.txt").partition(b"\n")[0].decode()
        rows = [f"093000|Q|AAPL|190|1|191|1|{it[1]}|1|0||||{it[0]}|||||||||" for _, it in quotes]
        ran, lines = imported_rows(program, room, "taq", head, rows, "changes")
        sides = {"": ",,,,", "A": ",190.0000,100,191.0000,100", "M": ",190.0000,100,191.0000,100", "H": ",190.0000,100,191.0000,100"}
        wanted = [f"Q,Q,AAPL,{kind or 'A'}{sides[kind]}" for kind, _ in quotes if kind != "refused"]
        must((ran.returncode, lines[:len(wanted)]) == (0, wanted), f"{ran.returncode}, {ran.stderr.decode()}{lines}")
        must(b"\n%d rows = %d changes + 6 refused + 1 skipped\n" % (len(quotes) + 1, len(wanted)) in ran.stdout, f"{ran.stdout!r}")
        trades = [(kind, it, "00") for kind, those in TRADES.items() for it in those.split()]
        trades += [(kind, "@", it.strip("-")) for kind, those in CODES.items() for it in those.split()]
        head = read(EXAMPLES, "import", "taq-trades.txt").partition(b"\n")[0].decode()
        rows = [f"093000|Q|AAPL|{letter}|100|190.01||{code}|1|x{at}|N||||0" for at, (_, letter, code) in enumerate(trades)]
        ran, lines = imported_rows(program, room, "taq-trades", head, rows, "executions")
        wanted = [f"D,x{at},AAPL,190.010000,100,,@093000000000000,Q,{kind}" for at, (kind, _, _) in enumerate(trades) if kind not in ("skipped", "refused")]
        must((ran.returncode, lines) == (0, wanted), f"{ran.returncode}, {ran.stderr.decode()}{lines}")
        must(ran.stdout.splitlines()[-1] == b"%d rows = %d executions + 3 refused + 9 skipped" % (len(trades) + 1, len(wanted)), f"{ran.stdout!r}")


def imported_rows(program, room, mapping, head, rows, made):
    """An import of rows under a head and before a last line by a mapping of the examples, and the lines of the file that it makes."""
    with open(os.path.join(room, "given.txt"), "w", encoding="ascii") as file:
        file.write("".join(f"{it}\n" for it in (head, *rows, f"END|20240102|{len(rows)}")))
    given = os.path.join(EXAMPLES, "import", f"{mapping}.toml")
    ran = called(program, ["import", given, "given.txt", "--out", "out", "--setup", os.path.join(EXAMPLES, "market.toml")], capture_output=True, cwd=room)
    return ran, read(room, f"out.{made}").decode().splitlines()


def judged(program, judge):
    """Random files, against the plain slow program of a judge, which prints its seed and what differs. All its trials run."""
    env = {name: text for name, text in os.environ.items() if name != "NMS_ONLY"}
    ran = called(sys.executable, [os.path.join(TESTS, judge), program], capture_output=True, env=env)
    must(ran.returncode == 0, f"{ran.stdout.decode()}{ran.stderr.decode()}"[-2000:])


def named_by_the_page(name):
    must(f"examples/review/{name}" in read(TOP, "docs/REVIEW.md").decode(), "docs/REVIEW.md does not name it")


def trials(program, tool):
    yield from stored(program)
    yield from pages(program, tool)
    yield from (Trial(f"trial: {name}", in_room, (name, make, program)) for name, make in TRIALS)
    yield from (Trial(f"trial: imported {it}", imported, (program, it)) for it in IMPORTS)
    yield from (Trial(f"trial: imported with {it}", imported_closed, (program, it)) for it in CLOSED)
    yield Trial(f"trial: {FOLLOWED}", followed, (program,))
    yield Trial("trial: conditions, letters and codes of the mappings of TAQ", shipped, (program,))
    yield from (Trial(f"trial: judged by {it}", judged, (program, it)) for it in JUDGES)
    yield from (Trial(f"examples/review/{it}", named_by_the_page, (it,)) for it in sorted(os.listdir(ROOM)))


if __name__ == "__main__":
    sys.exit(run("review", trials(*programs(sys.argv[1:], "nms_review", "nms_tool"))))
