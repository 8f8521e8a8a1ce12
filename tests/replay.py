#!/usr/bin/env python3
"""Tests the serving program on streams, as a part of the gate: runs drawn at random over FIFOs, each replayed as the one
script that it was; and each way in which a stream fails.

    tests/replay.py PROGRAM TOOL [RUNS [SEED]]          PROGRAM is nms_serve, TOOL is nms_tool
    tests/replay.py --check TOOL SETUP TAPE IN,OUT ..   replays one run that is over, from its files

A run is right if the tape is a merge of the feeds' accepted records, each answer's version was published, no client's
versions fall, and the answers are byte for byte what TOOL answers to the script that is built of the tape, the published
lengths and the requests. Each run that is not is printed with its seed. The last line is `N passed, M failed`.
"""
import calendar
import contextlib
import os
import random
import re
import resource
import select
import shutil
import signal
import subprocess
import sys
import tempfile
import threading
import time
import tomllib

import rules

# The most bytes of a line, and the most changes of a batch.
MOST_LINE, MOST_BATCH = 4096, 64
# Seconds that a run may take.
MOST = 120
LETTERS = "ABCDEFGH"


class Count:
    passed = failed = silences = 0


def check(what, holds, shown=""):
    """Counts a test, and prints what differs."""
    if holds:
        Count.passed += 1
    else:
        Count.failed += 1
        print(f"DIFFERS: {what}: {shown}"[:1500], flush=True)
    return holds


# ---- the replay

def records(text):
    """The records of a stream of complete lines: each line that is not passed on is `?`."""
    lines = text.split(b"\n")
    last = lines.pop()
    found = []
    for line in lines:
        bare = line.removesuffix(b"\r")
        if len(line) > MOST_LINE or b'"' in line or b"\r" in bare:
            found.append(b"?")
        elif bare:
            found.append(bare)
    return found + [b"?"] * bool(last)


def blocks(text):
    """The answers of a stream, each with all its lines, and with the epoch that it is of: `EPOCH,k` goes over to a later one."""
    lines = text.split(b"\n")
    if lines.pop():
        raise ValueError("the answers end within a line")
    found, place, epoch = [], 0, 0
    while place < len(lines):
        kind, *fields = lines[place].split(b",")
        if kind == b"EPOCH":
            if int(fields[0]) <= epoch or lines[place + 1 : place + 2] in ([], [b"EPOCH"]):
                raise ValueError(f"{lines[place]} in epoch {epoch}")
            epoch, place = int(fields[0]), place + 1
            kind, *fields = lines[place].split(b",")
        end = place + 1
        if kind == b"THRU":
            end += int(fields[-1])
        elif kind == b"PLAN":
            end = lines.index(b"END", place) + 1
        elif kind not in (b"BEST", b"ERR"):
            raise ValueError(f"{lines[place]} begins no answer")
        if end > len(lines):
            raise ValueError("the last answer is cut")
        found.append((epoch, b"".join(line + b"\n" for line in lines[place:end])))
        place = end
    return found


def read_epochs(tape):
    """The epochs of a run: of each the changes of its tape, and the lengths that were published."""
    epochs = []
    while os.path.exists(path := f"{tape}.{len(epochs)}" if epochs else tape):
        with open(path, "rb") as file, open(f"{path}.published", encoding="ascii") as lengths:
            epochs.append((file.read().split(b"\n"), [int(line) for line in lengths.read().split()]))
    return epochs


def said_in(line):
    """A change of a tape, as the plain slow program of the rules has it."""
    kind, *fields = line.decode().split(",")
    if kind == "R":
        return kind, fields[0], int(fields[1])
    if kind != "Q":
        return (kind, *fields)
    sides = {side: (rules.price_of(price), int(shares)) if price else None for side, price, shares in (("BID", *fields[3:5]), ("OFFER", *fields[5:7]))}
    return kind, *fields[:3], sides


def line_of(part, sym, state, sides):
    """A quote as it is on the tape."""
    texts = (f"{rules.dollars(it[0])},{it[1]}" if it else "," for it in sides)
    return f"Q,{part},{sym},{state},{','.join(texts)}".encode()


def opening_of(lines, parts, lots):
    """The opening changes of a tape's board, from all that it says: of each symbol its lot, if it is not the setup's, and then
    the quoted sides in order of receipt, each with those of its participant that came before."""
    tape, found = [said_in(line) for line in lines], []
    for sym, opened in lots.items():
        now = rules.lot(tape, sym, lots)
        if now != opened:
            found.append(f"R,{sym},{now}".encode())
        held = {part: [rules.content(tape, part, sym, side) for side in ("BID", "OFFER")] for part in parts}
        for since, part in sorted({(it[2], part) for part, sides in held.items() for it in sides if it}):
            sides = [it and (it[:2] if it[2] <= since else None) for it in held[part]]
            found.append(line_of(part, sym, rules.state(tape, part, sym), sides))
    return found


def version_of(block):
    """The version that an answer names; None of a refusal."""
    kind, *fields = block.split(b"\n")[0].split(b",")
    places = {b"BEST": 2, b"THRU": 2, b"PLAN": 0}
    return int(fields[places[kind]]) if kind in places else None


def script_of(changes, published, asked, queue):
    """The script of a run: its changes, a publishing if one was, or if the queue is full, and each request where its
    version is published."""
    lines, done, waiting = [], 0, sorted(asked)
    points = sorted({*published, *(version for version, *_ in waiting)})
    place = 0
    for version in points:
        while done < version:
            more = changes[done : min(version, done + queue)]
            lines += [*more, b"F"]
            done += len(more)
        while place < len(waiting) and waiting[place][0] == version:
            lines.append(waiting[place][-1])
            place += 1
    return waiting, b"".join(line + b"\n" for line in lines)


def expected(tool, setup, epochs, clients):
    """What TOOL answers, for each epoch a script: for each client a list of answers, from its own epochs and versions."""
    with open(setup, "rb") as file:
        queue = tomllib.load(file)["queue"]
    asked, wanted = [[] for _ in epochs], [[None] * len(asks) for asks, _ in clients]
    for client, (asks, answers) in enumerate(clients):
        version, last = 0, 0
        for place, (ask, (epoch, answer)) in enumerate(zip(asks, answers)):
            version = version_of(answer) if version_of(answer) is not None else version if epoch == last else 0
            last = epoch
            if ask.split(b",")[0] in (b"N", b"E", b"O"):
                asked[epoch].append((version, client, place, ask))
            else:
                wanted[client][place] = b"ERR,%d,L1\n" % (place + 1)
    for (changes, published), asks in zip(epochs, asked):
        order, script = script_of(changes, published, asks, queue)
        words = [tool, "script", "--setup", setup]
        ran = subprocess.run(words, input=script, stdout=subprocess.PIPE, check=False, timeout=3600)
        if ran.returncode != 0:
            raise ValueError(f"{tool} ended with {ran.returncode}")
        text = b"".join(line + b"\n" for line in ran.stdout.split(b"\n")[:-1] if not line.startswith(b"PUB,"))
        for (_, client, place, _), (_, block) in zip(order, blocks(text), strict=True):
            wanted[client][place] = re.sub(rb"^ERR,\d+", b"ERR,%d" % (place + 1), block)
    return wanted


def check_epochs(what, setup, epochs, resumed=False):
    """Whether each epoch's tape is complete and published in batches, and begins with the opening changes of the one before; and
    how many opening changes each has. If a run was resumed, an epoch may begin before the tape is full."""
    with open(setup, "rb") as file:
        told = tomllib.load(file)
    limit, lots = told["tape_limit"], {it["name"]: it["lot"] for it in told["symbol"]}
    parts, before, good, counts = [it["name"] for it in told["participant"]], None, True, []
    for number, (changes, published) in enumerate(epochs):
        name, begun = f"{what}: epoch {number}", 0
        good &= check(f"{name}: the tape ends with a line", changes.pop() == b"")
        if before is not None:
            opened = opening_of(before, parts, lots)
            good &= check(f"{name}: its opening changes", changes[: len(opened)] == opened, (changes[:9], opened[:9]))
            good &= check(f"{name}: they are published at once", not opened or published[:1] == [len(opened)], published[:9])
            good &= check(f"{name}: the tape before it was full", resumed or len(before) == limit and len(changes) > len(opened), len(before))
            begun = len(opened)
        rest = published[begun > 0 :]
        rising = all(low < high <= low + MOST_BATCH for low, high in zip([begun, *rest], rest))
        good &= check(f"{name}: the published lengths rise by 1 to {MOST_BATCH}", rising, published[:50])
        good &= check(f"{name}: the whole tape was published", (published or [0])[-1] == len(changes) <= limit, (published[-3:], len(changes)))
        before = changes
        counts.append(begun)
    return good, counts


def taken_in(epochs, begun):
    """The changes of feeds in all epochs, in order: those of the tapes without the opening changes."""
    return [line for (changes, _), count in zip(epochs, begun) for line in changes[count:]]


def replay(what, tool, setup, tape, streams, resumed=False):
    """Checks a run that is over: its tape's files, and each client's requests and answers as bytes."""
    epochs = read_epochs(tape)
    good, begun = check_epochs(what, setup, epochs, resumed)
    try:
        clients = [(records(asks), blocks(answers)) for asks, answers in streams]
    except ValueError as error:
        return check(f"{what}: the answers are whole", False, error)
    for number, (asks, answers) in enumerate(clients, 1):
        good &= check(f"{what}: client {number} has an answer to each request", len(asks) == len(answers), (len(asks), len(answers)))
        versions = [(epoch, version_of(it)) for epoch, it in answers if version_of(it) is not None]
        good &= check(f"{what}: the epochs and versions of client {number} do not fall", versions == sorted(versions))
        known = {(epoch, version) for epoch, (_, published) in enumerate(epochs) for version in published}
        known |= {(epoch, 0) for epoch, count in enumerate(begun) if not count}
        stray = set(versions) - known
        good &= check(f"{what}: each version of client {number} was published", not stray, sorted(stray)[:9])
    if not good:
        return False
    try:
        wanted = expected(tool, setup, epochs, clients)
    except ValueError as error:
        return check(f"{what}: it is a script", False, error)
    for number, ((asks, answers), want) in enumerate(zip(clients, wanted), 1):
        wrong = next(((ask, got, it) for ask, (_, got), it in zip(asks, answers, want) if got != it), None)
        good &= check(f"{what}: the answers of client {number} are the script's", wrong is None, wrong)
    return good


# ---- runs drawn at random

class Drawn:
    """A setup with its feeds' texts, what they say, and the clients' requests."""

    def __init__(self, chance, is_short):
        self.chance = chance
        self.feeds = chance.choice([1, 2, 2, 3, 4, 8])
        self.desks, self.queue = chance.choice([1, 2, 4, 16]), chance.choice([2, 16, 64, 1024])
        self.parts = {f"P{letter}{place}": letter for letter in LETTERS[: self.feeds] for place in range(chance.choice([1, 2, 4]))}
        self.syms = ["ABC", "BRK.A", "PNY", "XYZ"][: chance.choice([1, 2, 4])]
        self.base = chance.choice([100_000, 9_999, 1_234_500])
        self.limit = 2 * len(self.syms) * (2 * len(self.parts) + 1) + chance.choice([0, 0, 1, 30, 300]) if is_short else 1_000_000
        self.texts, self.said, self.read, self.refused = {}, {}, {}, {}
        for letter in LETTERS[: self.feeds]:
            self.draw_feed(letter, chance.choice([0, 20, 400, 3000]) + 5 * self.limit * (is_short and letter == "A"))
        self.clients = [self.draw_requests(chance.choice([0, 5, 200, 800])) for _ in range(min(self.desks, chance.choice([1, 1, 2, 3])))]

    def setup(self):
        fee = 'fee = {fee}, rate = {rate}'
        rows = [f'{{name = "{name}", feed = "{feed}", {fee.format(fee=3_000_000 - 100_000 * i, rate=300 - i)}}}' for i, (name, feed) in enumerate(self.parts.items())]
        syms = [f'{{name = "{name}", lot = 100}}' for name in self.syms]
        head = f"tape_limit = {self.limit}\nqueue = {self.queue}\ndesks = {self.desks}\nfeeds = {self.feeds}\n"
        return f"{head}participant = [{', '.join(rows)}]\nsymbol = [{', '.join(syms)}]\n"

    def price(self):
        return self.base + self.chance.randrange(-8, 9) * 100

    def draw_change(self, letter):
        """A change of a feed: as it is sent, and as it is on the tape."""
        chance = self.chance
        part = chance.choice([name for name, feed in self.parts.items() if feed == letter])
        sym, state = chance.choice(self.syms), chance.choice("AAAAMH")
        kind = chance.choice("QQQQQQQSXR" if letter == "A" else "QQQQQQQSX")
        if kind == "S":
            return (f"S,{part},{sym},{state}",) * 2
        if kind == "X":
            return (f"X,{part}",) * 2
        if kind == "R":
            return (f"R,{sym},{(lot := chance.choice([1, 10, 40, 100]))}",) * 2
        sent, stands = [], []
        for price in (self.price(), self.price()):
            shares = chance.choice([0, 1, 99, 100, 250, 1000, 999_999_999])
            whole = f"{price // 10_000}.{price % 10_000:04}"
            sent += [whole.rstrip("0").rstrip(".") if chance.random() < 0.5 else whole, str(shares)] if chance.random() < 0.9 else ["", ""]
            stands += [whole, str(shares)] if sent[-1] not in ("", "0") else ["", ""]
        head = f"Q,{part},{sym},{state},"
        return head + ",".join(sent), head + ",".join(stands)

    def draw_refused(self, letter):
        """A line that is refused."""
        part = next(name for name, feed in self.parts.items() if feed == letter)
        other = next((name for name, feed in self.parts.items() if feed != letter), "NONE")
        lines = ["Q,NONE,ABC,A,1,1,1,1", f"X,{other}", f'Q,{part},"ABC,A,1,1,1,1', f'"', f"S,{part},NONE,A", "F", f"Q,{part},ABC,A,1,,,"]
        return self.chance.choice([*lines, "Q," + "9" * 5000, f"X,{part}\rX,{part}", f"X,{part},"])

    def draw_feed(self, letter, count):
        chance, lines, said, refused = self.chance, [], [], 0
        for _ in range(count):
            if chance.random() < 0.03:
                lines.append(self.draw_refused(letter))
                refused += 1
            else:
                sent, stands = self.draw_change(letter)
                lines.append(sent + "\r" * (chance.random() < 0.05))
                said.append(stands.encode())
        text = "".join(f"{line}\n" for line in lines)
        torn = chance.random() < 0.3
        if torn:
            text += self.draw_change(letter)[0]
        self.texts[letter] = text.encode()
        self.said[letter], self.read[letter], self.refused[letter] = said, len(lines) + torn, refused + torn

    def draw_requests(self, count):
        """The lines of a client."""
        chance, lines = self.chance, []
        for _ in range(count):
            desk, sym = chance.randrange(self.desks), chance.choice(self.syms)
            price = f"{self.price() / 10_000:.4f}"
            order = f"O,{desk},{chance.choice('BS')},{sym},{chance.choice([1, 100, 700, 999_999_999])},{price}"
            names = "+".join(chance.sample(list(self.parts), min(2, len(self.parts))))
            odd = ["N,99,ABC", f"N,{desk},NONE", "?", "F", f"O,{desk},B,{sym},0,{price}", f'N,{desk},"{sym}', f"E,{desk},{sym},", f"X,{next(iter(self.parts))}"]
            lines.append(chance.choice([f"N,{desk},{sym}"] * 6 + [f"E,{desk},{sym},{price}"] * 4 + [order] * 4 + [f"{order},M", f"{order},,{names}", chance.choice(odd)]))
        return [f"{line}\n".encode() for line in lines]


def send(chance, path, text, pace):
    """Sends a text through a FIFO, in pieces of random sizes."""
    with open(path, "wb", buffering=0) as file:
        while text:
            size = chance.choice([1, 7, 300, 4096, 65536])
            file.write(text[:size])
            text = text[size:]
            time.sleep(chance.random() * pace)


class Caller(threading.Thread):
    """A client: it sends its lines, some of them only once the answer before is there, and keeps its answers."""

    def __init__(self, seed, paths, lines, pace):
        super().__init__(daemon=True)
        self.chance, self.paths, self.lines, self.pace = random.Random(seed), paths, lines, pace
        self.answers = b""
        self.start()

    def run(self):
        if self.chance.random() < 0.5:
            output, asks = open(self.paths[1], "rb", buffering=0), open(self.paths[0], "wb", buffering=0)
        else:
            asks, output = open(self.paths[0], "wb", buffering=0), open(self.paths[1], "rb", buffering=0)
        reading = threading.Thread(target=self.read, args=[output], daemon=True)
        reading.start()
        for line in self.lines:
            asks.write(line)
            if self.pace and self.chance.random() < 0.5:
                time.sleep(self.chance.random() * self.pace)
        asks.close()
        reading.join()

    def read(self, output):
        while more := output.read(65536):
            self.answers += more


class Room:
    """A folder with the FIFOs of a run."""

    def __init__(self, program, tool):
        self.program, self.tool, self.folder = program, tool, tempfile.mkdtemp(prefix="nms_serve-")

    def path(self, name):
        return f"{self.folder}/{name}"

    def write(self, name, text):
        with open(self.path(name), "wb") as file:
            file.write(text.encode() if isinstance(text, str) else text)
        return self.path(name)

    def fifo(self, name):
        os.mkfifo(self.path(name))
        return self.path(name)

    def start(self, *words, stdin=subprocess.DEVNULL, stdout=subprocess.PIPE, stderr=subprocess.PIPE, **how):
        return subprocess.Popen([self.program, *words], stdin=stdin, stdout=stdout, stderr=stderr, **how)

    def drop(self):
        shutil.rmtree(self.folder)


def end_of(what, started, most=MOST):
    """The status and the two streams of a run, which has to end by itself."""
    try:
        output, errors = started.communicate(timeout=most)
        return started.returncode, output, errors.decode()
    except subprocess.TimeoutExpired:
        started.kill()
        check(f"{what}: it ends", False, f"not done after {most} seconds")
        output, errors = started.communicate()
        return None, output, errors.decode()


def is_merge(tape, said, feed_of):
    """Whether the tape is a merge of what the feeds said."""
    parts = {letter: [line for line in tape if feed_of(line) == letter] for letter in said}
    return parts == said


def run_at_random(seed, program, tool, is_short=False):
    """A run over FIFOs, and its replay; with a short tape over at least five epochs."""
    chance, what = random.Random(seed), f"run {seed}"
    drawn, room = Drawn(chance, is_short), Room(program, tool)
    setup, tape = room.write("setup.toml", drawn.setup()), room.path("tape")
    words, threads, pace = ["--setup", setup, "--tape", tape], [], chance.choice([0, 0.0005, 0.003])
    for letter, text in drawn.texts.items():
        words += ["--feed", f"{letter}={room.fifo(letter)}"]
        threads.append(threading.Thread(target=send, args=(random.Random(chance.random()), room.path(letter), text, pace), daemon=True))
    callers = []
    for number, lines in enumerate(drawn.clients):
        paths = room.fifo(f"in{number}"), room.fifo(f"out{number}")
        words += ["--client", ",".join(paths)]
        callers.append(Caller(chance.random(), paths, lines, pace))
    started = room.start(*words)
    for thread in threads:
        thread.start()
    status, _, errors = end_of(what, started)
    refused = sum(drawn.refused.values())
    good = check(f"{what}: its status", status == (6 if refused else 0), (status, errors))
    for caller in callers:
        caller.join(10)
    epochs = read_epochs(tape)
    counts = check_epochs(what, setup, epochs)[1]
    changes = taken_in(epochs, counts)
    good &= check(f"{what}: its epochs", len(epochs) > 4 if is_short else len(epochs) == 1, len(epochs))
    kinds = {name.encode(): letter for name, letter in drawn.parts.items()}
    good &= check(f"{what}: the tape is a merge of the feeds", is_merge(changes, drawn.said, lambda line: "A" if line.startswith(b"R") else kinds[line.split(b",")[1]]))
    for letter in drawn.texts:
        line = f"nms_serve: feed {letter}: ended: {drawn.read[letter]} records, {drawn.refused[letter]} refused\n"
        good &= check(f"{what}: the summary of feed {letter}", line in errors, (line, errors[-600:]))
    good &= replay(what, tool, setup, tape, [(b"".join(caller.lines), caller.answers) for caller in callers])
    if good:
        room.drop()
    else:
        print(f"{what}: its files are left in {room.folder}", flush=True)


# ---- streams that fail

SETUP = """tape_limit = 1000000
queue = 16
desks = 2
participant = [{name = "N", feed = "A", fee = 0, rate = 0}, {name = "Y", feed = "B", fee = 0, rate = 0}]
symbol = [{name = "ABC", lot = 100}]
"""
# Why a path could not be opened or written.
NO_FILE, DISK_FULL = "No such file or directory (os error 2)", "No space left on device (os error 28)"
GOOD = b"Q,N,ABC,A,9.99,100,10.01,100\n"
OTHER = b"Q,N,ABC,A,9.98,100,10.02,200\n"


class Failing:
    """A room with the small setup, two feeds and a client."""

    def __init__(self, program, tool, what, setup=SETUP):
        self.room, self.what = Room(program, tool), what
        self.setup, self.tape = self.room.write("setup.toml", setup), self.room.path("tape")

    def __enter__(self):
        return self

    def __exit__(self, *_):
        self.room.drop()

    def words(self, feed_a, feed_b="/dev/null", *more):
        return ["--setup", self.setup, "--tape", self.tape, "--feed", f"A={feed_a}", "--feed", f"B={feed_b}", *more]

    def ends(self, started, status, said, most=MOST):
        """Whether a run ends with this status, and its only fault on standard error is as it has to be."""
        got, _, errors = end_of(self.what, started, most)
        faults = [line for line in errors.split("\n") if re.match(r"nms_serve: ([A-Z]\d|usage)\b", line)]
        return check(self.what, (got, faults) == (status, [f"nms_serve: {said}"]), (got, errors[-400:]))

    def refuses(self, words, status, said, **how):
        """A call is refused like this, by --check as by the run itself, and no file is made or altered."""
        def files():
            return {name: os.path.isfile(self.room.path(name)) and bytes_of(self.room.path(name)) for name in os.listdir(self.room.folder)}
        before = files()
        for more in (["--check"], []):
            self.ends(self.room.start(*words, *more, **how), status, said)
            check(f"{self.what} {more}: nothing is made or altered", files() == before, sorted(files()))

    def tape_is(self, wanted):
        with open(self.tape, "rb") as file:
            text = file.read()
        check(f"{self.what}: the tape", text == wanted, text[-300:])


def shown_help(program, _tool):
    """The help, which no clause speaks of, byte for byte."""
    ran = subprocess.run([program, "--help"], stdout=subprocess.PIPE, stderr=subprocess.PIPE, timeout=MOST, check=False)
    with open(os.path.join(os.path.dirname(os.path.abspath(__file__)), "serve_help.txt"), "rb") as file:
        check("the help", (ran.returncode, ran.stdout, ran.stderr) == (0, file.read(), b""), (ran.returncode, ran.stdout, ran.stderr))


def refused_words(program, tool):
    """Words that are refused."""
    usages = (
        ("a feed of no letter", ["--feed", "K=/dev/null"], "--feed takes LETTER=PATH, with a letter from A to H"),
        ("a feed twice", ["--feed", "A=/dev/null", "--feed", "A=/dev/zero"], "--feed names a feed twice"),
        ("a feed without a path", ["--feed", "A="], "--feed takes LETTER=PATH, with a letter from A to H"),
        ("a feed of the setup left out", ["--feed", "A=/dev/null"], "--feed has to name each feed of the setup, and no other"),
        ("a feed that the setup has not", ["--feed", "A=/dev/null", "--feed", "C=/dev/null"], "--feed has to name each feed of the setup, and no other"),
        ("two clients on one output", ["--feed", "A=a", "--feed", "B=b", "--client", "i,o", "--client", "j,o"], "a path is given to two clients, or to a client and --tape"),
        ("two clients on one input", ["--feed", "A=a", "--feed", "B=b", "--client", "i,o", "--client", "i,p"], "a path is given to two clients, or to a client and --tape"),
        ("answers to the tape", ["--feed", "A=a", "--feed", "B=b", "--client", "i,t"], "a path is given to two clients, or to a client and --tape"),
        ("a client with one path", ["--feed", "A=a", "--feed", "B=b", "--client", "i"], "--client takes IN,OUT: two paths, with no comma in them"),
        *((f"silence for {word or 'nothing'}", ["--feed", "A=a", "--feed", "B=b", f"--stale={word}"], "--stale takes whole seconds, from 1 to 86400") for word in ("", "0", "86401", "-1", "+5", "1.5", "5s", "9" * 30)),
        ("more clients than desks", ["--feed", "A=a", "--feed", "B=b", *(it for n in "123" for it in ("--client", f"i{n},o{n}"))], "more clients than the setup has desks"),
    )
    for what, words, said in usages:
        with Failing(program, tool, what) as it:
            it.refuses(["--setup", it.setup, "--tape", "t", *words], 2, f"usage: {said}", cwd=it.room.folder)
    with Failing(program, tool, "a tape with something in it") as it:
        it.room.write("tape", "Q\n")
        it.refuses(it.words("/dev/null"), 2, f"usage: a file of the tape is there already: {it.tape}")
    with Failing(program, tool, "no setup") as it:
        none = it.room.path("none")
        it.refuses(["--setup", none, "--tape", it.tape, "--feed", "A=a"], 1, f"E1: the setup could not be read: {none}: {NO_FILE}")


def failing_paths(program, tool):
    """Paths that can't be opened, read or written, while other threads wait for the other ends of FIFOs."""
    with Failing(program, tool, "a feed that is not there") as it:
        fifos = [it.room.fifo(name) for name in ("b", "in", "out")]
        more = ["--client", ",".join(fifos[1:])]
        none = it.room.path("none")
        it.ends(it.room.start(*it.words(none, fifos[0], *more)), 1, f"E1: feed A could not be opened: {none}: {NO_FILE}")
    with Failing(program, tool, "a feed that is a folder") as it:
        it.ends(it.room.start(*it.words(it.room.folder, it.room.fifo("b")), stdin=subprocess.PIPE), 1, f"E1: feed A could not be read: {it.room.folder}: Is a directory (os error 21)")
    with Failing(program, tool, "a folder of answers that is not there") as it:
        more = ["--client", f"{it.room.fifo('in')},{(out := it.room.path('none/out'))}"]
        said = f"E1: the answers to client 1 could not be opened: {out}: {NO_FILE}"
        it.ends(it.room.start(*it.words(it.room.fifo("a"), it.room.fifo("b"), *more)), 1, said)
    with Failing(program, tool, "a full disk for the tape") as it:
        os.symlink("/dev/full", it.tape)
        said = f"E2: the tape could not be written: {it.tape}: {DISK_FULL}"
        it.ends(it.room.start(*it.words(it.room.write("a", GOOD), it.room.fifo("b")), stdin=subprocess.PIPE), 1, said)
    with Failing(program, tool, "a full disk for the lengths") as it:
        os.symlink("/dev/full", f"{it.tape}.published")
        said = f"E2: the file of published lengths could not be written: {it.tape}.published: {DISK_FULL}"
        it.ends(it.room.start(*it.words(it.room.write("a", GOOD), it.room.fifo("b")), stdin=subprocess.PIPE), 1, said)
        it.tape_is(GOOD.replace(b"9.99", b"9.9900").replace(b"10.01", b"10.0100"))
    with Failing(program, tool, "a full disk for the answers") as it:
        more = ["--client", f"{it.room.write('in', 'N,0,ABC' + chr(10))},/dev/full"]
        said = f"E2: the answers to client 1 could not be written: /dev/full: {DISK_FULL}"
        it.ends(it.room.start(*it.words(it.room.fifo("a"), it.room.fifo("b"), *more)), 1, said)
    with Failing(program, tool, "a reader of answers that left") as it:
        reader, writer = os.pipe()
        started = it.room.start(*it.words(it.room.fifo("a"), it.room.fifo("b")), stdin=subprocess.PIPE, stdout=writer)
        os.close(writer)
        os.close(reader)
        started.stdin.write(b"N,0,ABC\n")
        started.stdin.flush()
        it.ends(started, 1, "E2: the answers to client 1 could not be written: standard output: Broken pipe (os error 32)")
    with Failing(program, tool, "a reader that reads no answers, and a fault elsewhere") as it:
        reader, writer = os.pipe()
        started = it.room.start(*it.words(fifo := it.room.fifo("a"), it.room.fifo("b"), "--strict"), stdin=subprocess.PIPE, stdout=writer)
        os.close(writer)
        started.stdin.write(b"N,0,ABC\n" * 4000)
        started.stdin.flush()
        with open(fifo, "wb", buffering=0) as feed:
            feed.write(GOOD + b"F\n")
            it.ends(started, 6, "E5: A:2: L1")
        os.close(reader)


SHORT = SETUP.replace("1000000", "10")


def bytes_of(path):
    with open(path, "rb") as file:
        return file.read()


def full_tape(program, tool):
    """A tape that is full: the next epoch goes on in its own files, which have to be empty."""
    with Failing(program, tool, "a tape without room for epochs", SETUP.replace("1000000", "9")) as it:
        said = "E6: tape_limit has to be 10 at least: twice the most opening changes, 2 a participant and 1, for each symbol"
        it.ends(it.room.start(*it.words("/dev/null")), 3, said)
        check(f"{it.what}: no file is made", not os.path.exists(it.tape))
    for name in ("tape", "tape.published", "tape.1", "tape.1.published", "tape.2", "tape.7.published", "tape.4294967295"):
        for text in ("Q\n", ""):
            with Failing(program, tool, f"{name} that is there, with {len(text)} bytes", SHORT) as it:
                there = it.room.write(name, text)
                it.ends(it.room.start(*it.words("/dev/null")), 2, f"usage: a file of the tape is there already: {there}")
                check(f"{it.what}: no file is made", sorted(os.listdir(it.room.folder)) == sorted(["setup.toml", name]))
                words = it.words("/dev/null")
                words[3] = "tape"
                it.ends(it.room.start(*words, cwd=it.room.folder), 2, f"usage: a file of the tape is there already: {name}")
    with Failing(program, tool, "files that are none of the tape's", SHORT) as it:
        for name in ("tape.", "tape..published", "tape.1.publishe", "tape.1x", "tape.-1", "tapes", "tap", "1.tape", "tape.published.1", b"tape.\xff"):
            it.room.write(name, "Q\n") if isinstance(name, str) else open(os.path.join(it.room.folder.encode(), name), "wb").close()
        Heard(it.room.start(*it.words("/dev/null"))).ends(it.what, 0)
    for count, last in ((10, 0), (11, 1), (18, 1), (19, 2)):
        with Failing(program, tool, f"{count} changes on tapes of 10", SHORT) as it:
            # Two sides of one participant are quoted with two receipts: the second epoch begins with two opening changes.
            feed = it.room.write("a", GOOD + b"".join(GOOD.replace(b"10.01", b"10.%02d" % (place + 2)) for place in range(count - 1)))
            status, _, errors = end_of(it.what, it.room.start(*it.words(feed)))
            told = f", up to epoch {last}\n" if last else " times\n"
            check(it.what, status == 0 and f"nms_serve: {count} changes, published " in errors and errors.endswith(told), (status, errors))
            check(f"{it.what}: its files", len(read_epochs(it.tape)) == last + 1)
            replay(it.what, tool, it.setup, it.tape, [])
    for name, said in (
        ("tape.2", "E2: there is something in the tape of the next epoch already"),
        ("tape.2.published", "E2: there is something in the file of published lengths of the next epoch already"),
    ):
        with Failing(program, tool, f"{name} that comes while the run goes on", SHORT) as it:
            started = it.room.start(*it.words(fifo := it.room.fifo("a"), it.room.fifo("b")), stdin=subprocess.PIPE)
            with open(fifo, "wb", buffering=0) as feed:
                feed.write(GOOD)
                check(f"{it.what}: it serves", seen(started, 1))
                there = it.room.write(name, "")
                feed.write((OTHER + GOOD) * 20)
                it.ends(started, 1, f"{said}: {there}")
            counts = [text.count(b"\n") for text in map(bytes_of, (it.tape, f"{it.tape}.1"))]
            check(f"{it.what}: the tapes before it are whole", counts == [10, 10], counts)
    for name, said in (("tape.1", "the tape"), ("tape.1.published", "the file of published lengths")):
        with Failing(program, tool, f"a full disk for {name}", SHORT) as it:
            os.symlink("/dev/full", it.room.path(name))
            feed = it.room.write("a", (GOOD + OTHER) * 20)
            said = f"E2: {said} could not be written: {it.room.path(name)}: {DISK_FULL}"
            it.ends(it.room.start(*it.words(feed, it.room.fifo("b")), stdin=subprocess.PIPE), 1, said)


def epoch_borders(program, tool):
    """A client that asks before and after each change goes over at each border, and is shown the same quotations there."""
    with Failing(program, tool, "a client at each border", SHORT) as it:
        fifo, asks, answers = it.room.fifo("a"), [], []
        started, epoch, version = it.room.start(*it.words(fifo), stdin=subprocess.PIPE), 0, 0

        def asked(line):
            """The answer to a request, with the epoch's line before it."""
            asks.append(line)
            answers.append(first := ask(started, line))
            if first.startswith(b"EPOCH,"):
                answers.append(ask(started, b""))
            return b"".join(answers[-2:] if first.startswith(b"EPOCH,") else answers[-1:])

        with open(fifo, "wb", buffering=0) as feed:
            shown = None
            for turn in range(60):
                feed.write(GOOD)
                border = version == 10
                epoch, version = (epoch + 1, 2) if border else (epoch, version + 1)
                # Both sides are quoted with one receipt: one opening change, then this change.
                lines, until = b"", time.monotonic() + 20
                while time.monotonic() < until:
                    answer = asked(b"N,0,ABC\n")
                    lines += answer
                    if b",ABC,%d," % version in answer:
                        break
                wanted = [b"EPOCH,%d" % epoch] * border
                if not check(f"{it.what}: turn {turn}", [line for line in lines.split(b"\n") if line.startswith(b"EPOCH")] == wanted, lines[-300:]):
                    break
                rows = re.sub(rb",\d+(?=,N,|\n)", b"", answer.split(b"\n")[-2] + b"\n").split(b",")[4:]
                check(f"{it.what}: turn {turn} shows the same", shown in (None, rows), (shown, rows))
                shown = rows
        check(f"{it.what}: its epochs", epoch > 5, epoch)
        started.stdin.close()
        Heard(started).ends(it.what, 0)
        replay(it.what, tool, it.setup, it.tape, [(b"".join(asks), b"".join(answers))])
    with Failing(program, tool, "a client that asks nothing for some epochs", SHORT) as it:
        fifo = it.room.fifo("a")
        started = it.room.start(*it.words(fifo), stdin=subprocess.PIPE)
        heard = Heard(started)
        with open(fifo, "wb", buffering=0) as feed:
            feed.write((GOOD + OTHER) * 25)
            for _ in range(1000):
                first = ask(started, b"N,0,ABC\n")
                if first.startswith(b"EPOCH,"):
                    break
                time.sleep(0.01)
            check(f"{it.what}: it is in the latest", first in (b"EPOCH,%d\n" % epoch for epoch in range(1, 8)), first)
        started.stdin.close()
        heard.ends(it.what, 0)


# ---- runs that go on after the end of an earlier one

def name_of(tape, epoch):
    """The path of an epoch's tape."""
    return f"{tape}.{epoch}" if epoch else tape


def texts_of(tape):
    """The bytes of all files of a tape, by their names."""
    folder, base = os.path.split(tape)
    return {name: bytes_of(f"{folder}/{name}") for name in sorted(os.listdir(folder)) if name.startswith(base)}


def unresumed(program, tool):
    """What no run has left is refused by its path, and nothing is altered. With nothing there, --resume begins a tape."""
    ten = GOOD.replace(b"9.99", b"9.9900").replace(b"10.01", b"10.0100")
    whole = {"tape": ten * 3, "tape.published": b"1\n3\n"}
    empty = {"tape.1": b"", "tape.1.published": b""}
    refusals = (
        ("a tape of no setup", {**whole, "tape.setup": None}, "the setup of the tape is missing", "tape.setup"),
        ("a tape of another setup", {**whole, "tape.setup": SETUP.encode() + b"\n"}, "the tape is of another setup", "tape.setup"),
        ("a tape without its lengths", {**whole, "tape.published": None}, "a file of the tape is missing", "tape.published"),
        ("lengths without their tape", {**whole, "tape": None}, "a file of the tape is missing", "tape"),
        ("lengths beyond the tape", {**whole, "tape.published": b"1\n4\n"}, "the tape can't be resumed: it has fewer changes than its lengths say", "tape"),
        ("lengths that fall", {**whole, "tape.published": b"3\n3\n"}, "the tape can't be resumed: a line of its lengths is none that a run writes", "tape.published"),
        ("a length that is none", {**whole, "tape.published": b"1\n+3\n"}, "the tape can't be resumed: a line of its lengths is none that a run writes", "tape.published"),
        ("more than a batch after the last length", {**whole, "tape": ten * 68}, "the tape can't be resumed: more changes are after its last length than a run leaves", "tape"),
        ("more than a batch with nothing published", {"tape": ten * 65, "tape.published": b""}, "the tape can't be resumed: more changes are after its last length than a run leaves", "tape"),
        ("a record that the setup refuses", {**whole, "tape": ten + b"Q,Z,ABC,A,,,,\n" + ten}, "the tape can't be resumed: this setup refuses a record of it: L3: unknown participant", "tape"),
        ("a blank line", {**whole, "tape": ten + b"\n" + ten}, "the tape can't be resumed: its records are not one a line", "tape"),
        ("an epoch that is missing", {**whole, "tape.2": b"", "tape.2.published": b""}, "a file of the tape is missing", "tape.1"),
        ("an epoch with one file", {**whole, "tape.1.published": b""}, "a file of the tape is missing", "tape.1"),
        ("a number of no epoch", {**whole, "tape.01": b""}, "this is no file of a tape", "tape.01"),
        ("a number beyond all epochs", {**whole, "tape.4294967297": b""}, "this is no file of a tape", "tape.4294967297"),
        ("an epoch that published nothing, and a later one", {"tape": b"", "tape.published": b"", **empty}, "an epoch published nothing, and is not the last", "tape.published"),
    )
    for what, files, said, path in refusals:
        with Failing(program, tool, f"resume: {what}") as it:
            for name, text in {"tape.setup": SETUP.encode(), **files}.items():
                if text is not None:
                    it.room.write(name, text)
            it.refuses([*it.words("/dev/null"), "--resume"], 2, f"usage: {said}: {it.room.path(path)}")
    left = (
        ("nothing", {}, [], 0, {}),
        ("the setup's file alone, cut", {"tape.setup": SETUP.encode()[:9]}, [], 0, {}),
        ("a tape that has its first file only", {"tape": b""}, ["resumed {tape}: 0 changes were cut, epoch 0 begins again"], 0, {}),
        ("a tape of which nothing was published", {"tape": ten + ten[:7], "tape.published": b"1"}, ["resumed {tape}: 2 changes were cut, epoch 0 begins again"], 0, {}),
        ("a tape that is whole", whole, ["resumed {tape}: 0 changes were cut, epoch 1 begins with 1 opening changes"], 1, whole),
        ("half a change and half a length", {"tape": ten * 64 + ten[:9], "tape.published": b"1\n3\n6"}, ["resumed {tape}: 62 changes were cut, epoch 1 begins with 1 opening changes"], 1, whole),
        ("an epoch that has its first file only", {**whole, "tape.1": b""}, ["resumed {tape}: 0 changes were cut, and 0 of epoch 1, which begins again with 1 opening changes"], 1, whole),
        ("an epoch of which nothing was published", {**whole, "tape.1": ten[:5], "tape.1.published": b""}, ["resumed {tape}: 0 changes were cut, and 1 of epoch 1, which begins again with 1 opening changes"], 1, whole),
    )
    for what, files, told, epoch, cut in left:
        with Failing(program, tool, f"resume: {what}") as it:
            for name, text in ({"tape.setup": SETUP.encode(), **files} if files else {}).items():
                it.room.write(name, text)
            before = texts_of(it.tape)
            checked = end_of(it.what, it.room.start(*it.words(it.room.write("a", GOOD)), "--resume", "--check"))
            check(f"{it.what}: it may be gone on with, and is as before", checked[0] == 0 and texts_of(it.tape) == before, checked)
            heard = Heard(it.room.start(*it.words(it.room.path("a")), "--resume"))
            heard.ends(it.what, 0)
            lines = [line for line in heard.lines if line.startswith("resumed ")]
            check(f"{it.what}: it reports that", lines == [line.format(tape=it.tape) for line in told], heard.lines)
            wanted = {**cut, "tape.setup": SETUP.encode(), **({"tape.1": ten * 2, "tape.1.published": b"1\n2\n"} if epoch else {"tape": ten, "tape.published": b"1\n"})}
            check(f"{it.what}: its files", texts_of(it.tape) == wanted, texts_of(it.tape))
    with Failing(program, tool, "resume: a tape that another run has") as it:
        started = it.room.start(*it.words(it.room.fifo("a"), "/dev/null", "--resume"), stdin=subprocess.PIPE)
        with open(it.room.path("a"), "wb"):
            check(f"{it.what}: the first serves", seen(started, 0))
            it.refuses([*it.words("/dev/null"), "--resume"], 2, f"usage: another run has the tape: {it.tape}.setup")
        started.stdin.close()
        Heard(started).ends(it.what, 0)


def refused_records(program, tool):
    """Refused records: passed over and counted, at most ten a second reported; with --strict the first ends the run."""
    with Failing(program, tool, "many refused records") as it:
        feed = it.room.write("a", (b"Q,NONE,ABC,A,1,1,1,1\n" + b'"\n' + GOOD) * 20_000)
        started, began = it.room.start(*it.words(feed)), time.monotonic()
        status, _, errors = end_of(it.what, started)
        seconds, lines = time.monotonic() - began, errors.split("\n")
        reports = [line for line in lines if re.fullmatch(r"nms_serve: A:\d+: (L3: Q,NONE,ABC,A,1,1,1,1|L1: \?)", line)]
        check(it.what, status == 6 and "nms_serve: feed A: ended: 60000 records, 40000 refused" in lines, (status, errors[-300:]))
        check(f"{it.what}: the first is reported", reports[:1] == ["nms_serve: A:1: L3: Q,NONE,ABC,A,1,1,1,1"], reports[:3])
        check(f"{it.what}: at most 10 a second", len(reports) <= 10 * (seconds + 2), (len(reports), seconds))
    with Failing(program, tool, "a million refused records") as it:
        status, _, errors = end_of(it.what, it.room.start(*it.words(it.room.write("a", b"?\n" * 1_000_000))))
        check(it.what, status == 6 and "nms_serve: feed A: ended: 1000000 records, 1000000 refused\n" in errors, (status, errors[-300:]))
    with Failing(program, tool, "a refused record of a strict run") as it:
        feed = it.room.write("a", GOOD + b"Q,Y,ABC,A,1,1,1,1\n" + OTHER)
        it.ends(it.room.start(*it.words(feed, it.room.fifo("b"), "--strict"), stdin=subprocess.PIPE), 6, "E5: A:2: L9")
    shown = ((b"?", "L1: ?"), (b"S,N,ABC,\x1b[2J", "L5: S,N,ABC,\\x1b[2J"), (b"X,N," + b"9" * 300, "L2: X,N," + "9" * 196 + ".."), (b"X,N," + b"9" * 196, "L2: X,N," + "9" * 196))
    with Failing(program, tool, "the lines of refused records") as it:
        heard = Heard(it.room.start(*it.words(it.room.write("a", b"".join(line + b"\n" for line, _ in shown)))))
        heard.ends(it.what, 6)
        told = [line for line in heard.lines if line.startswith("A:")]
        check(it.what, told == [f"A:{number}: {said}" for number, (_, said) in enumerate(shown, 1)], told)
    with Failing(program, tool, "two faults of one record") as it:
        feed = it.room.write("a", GOOD + b"Q,Y,ABC,A,1.00001,1,1,1\n")
        it.ends(it.room.start(*it.words(feed, it.room.fifo("b"), "--strict"), stdin=subprocess.PIPE), 6, "E5: A:2: L6")


# Requests to a version that has only GOOD, and the answer that each must have.
ASKED = (
    (b"N,0,ABC", b"BEST,0,ABC,1,NORMAL,N,9.9900,100,1,N,10.0100,100,1\n"),
    (b"?", b"ERR,2,L1\n"),
    (b"E,1,ABC,10.02", b"THRU,1,ABC,1,10.0200,1\nROW,OFFER,N,10.0100,100\n"),
    (b"O,0,B,ABC,100,10.02,,N", b"PLAN,1,B,ABC,100,10.0200,,0,0.000000000,N\nEND\n"),
    (b'N,0,"ABC', b"ERR,5,L1\n"),
    (b"F", b"ERR,6,L1\n"),
    (b"N,0,ABC", b"BEST,0,ABC,1,NORMAL,N,9.9900,100,1,N,10.0100,100,1\n"),
)


def fixed_requests(program, tool):
    """Requests of each kind to one version, in one epoch, and lines that are none."""
    with Failing(program, tool, "requests to one version") as it:
        asks, out = it.room.write("in", b"".join(asked + b"\n" for asked, _ in ASKED)), it.room.write("out", b"")
        started = it.room.start(*it.words(it.room.write("a", GOOD), "/dev/null", "--wait", "--client", f"{asks},{out}"))
        Heard(started).ends(it.what, 0)
        lines = bytes_of(out).splitlines(keepends=True)
        check(f"{it.what}: no other epoch", not any(line.startswith(b"EPOCH") for line in lines), lines[:9])
        came = [answer for _, answer in blocks(b"".join(line for line in lines if not line.startswith(b"EPOCH")))]
        check(f"{it.what}: an answer to each", len(came) == len(ASKED), len(came))
        for (asked, answer), got in zip(ASKED, came):
            check(f"{it.what}: {asked.decode()}", got == answer, got)
    with Failing(program, tool, "states without quotations") as it:
        lines = b"S,N,ABC,M\nS,N,ABC,H\nS,N,ABC,A\n"
        Heard(it.room.start(*it.words(it.room.write("a", lines)))).ends(it.what, 0)
        it.tape_is(lines)


def ask(started, line):
    started.stdin.write(line)
    started.stdin.flush()
    return started.stdout.readline()


def seen(started, version, most=60):
    """Whether a client sees a version in time."""
    end = time.monotonic() + most
    while time.monotonic() < end:
        if ask(started, b"N,0,ABC\n").startswith(b"BEST,0,ABC,%d," % version):
            return True
    return False


class Heard(threading.Thread):
    """The lines of a run on standard error, as they come."""

    def __init__(self, started):
        super().__init__(daemon=True)
        self.started, self.lines = started, []
        self.start()

    def run(self):
        for line in self.started.stderr:
            self.lines.append(line.decode().removeprefix("nms_serve: ").rstrip("\n"))

    def has(self, line, times=1, most=60):
        """Whether a line came this number of times, in time."""
        end = time.monotonic() + most
        while self.lines.count(line) < times and time.monotonic() < end:
            time.sleep(0.005)
        return self.lines.count(line) == times

    def ends(self, what, status, most=MOST):
        """Whether the run ends with this status."""
        try:
            got = self.started.wait(most)
        except subprocess.TimeoutExpired:
            self.started.kill()
            got = "not done"
        self.join(10)
        return check(f"{what}: it ends", got == status, (got, self.lines[-9:]))


def answer_in(started, seconds):
    """The next answer of a run, if it comes in time."""
    ready, _, _ = select.select([started.stdout], [], [], seconds)
    return started.stdout.readline() if ready else None


FROM_B = GOOD.replace(b"N", b"Y", 1)


def held_requests(program, tool):
    """With --wait requests are held until each feed has sent a change or ended; the first answer has these changes."""
    for strict in ([], ["--strict"]):
        with Failing(program, tool, f"held requests {strict}") as it:
            fifos = it.room.fifo("a"), it.room.fifo("b")
            started = it.room.start(*it.words(*fifos, "--wait", *strict), stdin=subprocess.PIPE, bufsize=0)
            started.stdin.write(b"N,0,ABC\n")
            with open(fifos[0], "wb", buffering=0) as feed:
                feed.write(GOOD + OTHER)
                check(f"{it.what}: one feed is not all", answer_in(started, 0.3) is None)
                with open(fifos[1], "wb", buffering=0) as other:
                    other.write(FROM_B[:-1])
                    check(f"{it.what}: half a line is no change", answer_in(started, 0.1) is None)
                    other.write(b"\n")
                    answer = answer_in(started, 10)
                    check(f"{it.what}: all have sent", (answer or b"").startswith(b"BEST,0,ABC,3,"), answer)
            started.stdin.close()
            Heard(started).ends(it.what, 0)
    with Failing(program, tool, "held requests, and a feed that ends") as it:
        fifos = it.room.fifo("a"), it.room.fifo("b")
        started = it.room.start(*it.words(*fifos, "--wait"), stdin=subprocess.PIPE, bufsize=0)
        started.stdin.write(b"N,0,ABC\n")
        started.stdin.close()
        with open(fifos[0], "wb", buffering=0) as feed:
            feed.write(GOOD)
            with open(fifos[1], "wb", buffering=0) as other:
                other.write(b"?\n")
                check(f"{it.what}: a refused record is no change", answer_in(started, 0.2) is None)
            answer = answer_in(started, 10)
            check(it.what, (answer or b"").startswith(b"BEST,0,ABC,1,"), answer)
        Heard(started).ends(it.what, 6)
    with Failing(program, tool, "held requests, and feeds without changes") as it:
        asks = it.room.write("in", b"N,0,ABC\n")
        started = it.room.start(*it.words("/dev/null", "/dev/null", "--wait", "--client", f"{asks},{it.room.write('out', b'')}"))
        Heard(started).ends(it.what, 0)
        with open(it.room.path("out"), "rb") as file:
            answer = file.read()
        check(it.what, answer.startswith(b"BEST,0,ABC,0,"), answer)
    for turn in range(5):
        with Failing(program, tool, f"held requests, and a feed at full speed, turn {turn}") as it:
            feed, asks = it.room.write("a", (GOOD + OTHER) * 40_000), it.room.write("in", b"N,0,ABC\n")
            fifo, out = it.room.fifo("b"), it.room.write("out", b"")
            started = it.room.start(*it.words(feed, fifo, "--wait", "--client", f"{asks},{out}"))
            time.sleep(0.01 * turn)
            with open(fifo, "wb", buffering=0) as other:
                other.write(FROM_B)
            Heard(started).ends(it.what, 0)
            with open(it.tape, "rb") as tape, open(out, "rb") as file:
                place, version = [line[:3] for line in tape].index(b"Q,Y"), version_of(file.read())
            check(f"{it.what}: its version has the other feed's change", version is not None and version > place, (version, place))
    with Failing(program, tool, "held requests, and a fault") as it:
        feed = it.room.write("a", GOOD + b"?\n")
        # The run may end before anything could be written to it, so the request is in the pipe before it starts.
        reader, writer = os.pipe()
        os.write(writer, b"N,0,ABC\n")
        started = it.room.start(*it.words(feed, it.room.fifo("b"), "--wait", "--strict"), stdin=reader)
        os.close(reader)
        it.ends(started, 6, "E5: A:2: L1")
        os.close(writer)


def silent_feeds(program, tool):
    """With --stale a silent feed is reported once a silence, and again when it sends; an idle run takes no time."""
    with Failing(program, tool, "silent feeds") as it:
        fifos = it.room.fifo("a"), it.room.fifo("b")
        started = it.room.start(*it.words(*fifos, "--stale", "1"), stdin=subprocess.PIPE)
        heard, began = Heard(started), time.monotonic()
        with open(fifos[0], "wb", buffering=0) as feed:
            feed.write(GOOD)
            check(f"{it.what}: one that nothing opens", heard.has("feed B: silent for 1 s"), heard.lines)
            check(f"{it.what}: one that says no more", heard.has("feed A: silent for 1 s"), heard.lines)
            check(f"{it.what}: in time", 0.9 < time.monotonic() - began < 6, time.monotonic() - began)
            time.sleep(1.3)
            check(f"{it.what}: once", sorted(heard.lines) == ["feed A: silent for 1 s", "feed B: silent for 1 s", "serving"], heard.lines)
            feed.write(b"?\n")
            check(f"{it.what}: a refused record breaks a silence", heard.has("feed A: speaks again"), heard.lines)
            check(f"{it.what}: the next silence", heard.has("feed A: silent for 1 s", 2), heard.lines)
            feed.write(GOOD)
            check(f"{it.what}: a change breaks it", heard.has("feed A: speaks again", 2), heard.lines)
        time.sleep(1.3)
        check(f"{it.what}: a feed that ended is not silent", heard.lines.count("feed A: silent for 1 s") == 2, heard.lines)
        open(fifos[1], "wb").close()
        started.stdin.close()
        heard.ends(it.what, 6)
        check(f"{it.what}: the other feed was silent once", heard.lines.count("feed B: silent for 1 s") == 1 and "feed B: speaks again" not in heard.lines, heard.lines)
    with Failing(program, tool, "silent feeds, and a fault") as it:
        started = it.room.start(*it.words(it.room.write("a", b"?\n"), it.room.fifo("b"), "--stale", "86400", "--strict"), stdin=subprocess.PIPE)
        it.ends(started, 6, "E5: A:1: L1")
    with Failing(program, tool, "an idle run") as it:
        fifos = it.room.fifo("a"), it.room.fifo("b")
        started = it.room.start(*it.words(*fifos, "--stale", "1", "--keep", "--wait"), stdin=subprocess.PIPE)
        for fifo in fifos:
            with open(fifo, "wb", buffering=0) as feed:
                feed.write(GOOD if fifo == fifos[0] else FROM_B)
        before, began = time_of(started.pid), time.monotonic()
        time.sleep(1.5)
        share = (time_of(started.pid) - before) / (time.monotonic() - began)
        check(f"{it.what}: its share of a processor", share < 0.02, share)
        started.stdin.close()
        Heard(started).ends(it.what, 0)
    Count.silences += 1


def time_of(pid):
    """The seconds of processor that a process took, to 0.01."""
    with open(f"/proc/{pid}/stat", encoding="ascii") as file:
        fields = file.read().rsplit(")", 1)[1].split()
    return (int(fields[11]) + int(fields[12])) / os.sysconf("SC_CLK_TCK")


def opened(fifo, most=60):
    """Opens a FIFO to write to it, once the run reads it; None if the run does not in time."""
    end = time.monotonic() + most
    while time.monotonic() < end:
        # Opening fails as long as nothing reads it.
        with contextlib.suppress(OSError):
            return open(os.open(fifo, os.O_WRONLY | os.O_NONBLOCK), "wb", buffering=0)
        time.sleep(0.002)
    return None


def closed_streams(program, tool):
    """With a standard stream closed, no message and no answer goes into the tape or into the lengths. Answers that can't be
    written end the run; it may be before the record is on the tape."""
    line = b"Q,N,ABC,A,9.9900,100,10.0100,100\n"
    for closed in ("2>&-", "1>&-", "1>&- 2>&-", "0<&-", "0<&- 1>&- 2>&-"):
        for more in ([], ["--stale", "1"]):
            with Failing(program, tool, f"a run with {closed} {more}") as it:
                words = it.words(it.room.write("a", b"bad\n" + GOOD), it.room.write("b", b""), *more)
                asks = it.room.write("asks", b"N,0,ABC\n" * 9)
                with open(asks, "rb") as stdin:
                    started = subprocess.Popen(["sh", "-c", f'exec "$@" {closed}', "sh", program, *words], stdin=stdin, stdout=subprocess.PIPE, stderr=subprocess.PIPE)
                    status, _, errors = end_of(it.what, started)
                is_lost = "1>&-" in closed and "0<&-" not in closed
                check(f"{it.what}: its status", status == (1 if is_lost else 6), (status, errors))
                files = bytes_of(it.tape), bytes_of(f"{it.tape}.published")
                check(f"{it.what}: the tape", files == (line, b"1\n") or is_lost and files in ((b"", b""), (line, b"")), files)


def shared_tapes(program, tool):
    """No two runs have one tape."""
    with Failing(program, tool, "a second run on the tape of the first") as it:
        fifo = it.room.fifo("a")
        started = it.room.start(*it.words(fifo), stdin=subprocess.PIPE)
        heard = Heard(started)
        check(f"{it.what}: the first serves", heard.has("serving"), heard.lines)
        status, _, errors = end_of(it.what, it.room.start(*it.words(it.room.write("c", OTHER))))
        check(f"{it.what}: it names a file", status == 2 and f"nms_serve: usage: a file of the tape is there already: {it.tape}" in errors, (status, errors))
        with open(fifo, "wb", buffering=0) as feed:
            feed.write(GOOD)
        started.stdin.close()
        heard.ends(it.what, 0)
        it.tape_is(stood(GOOD))
    for turn in range(10):
        with Failing(program, tool, f"two runs that begin at once, turn {turn}") as it:
            runs = [it.room.start(*it.words(it.room.write(name, line * 50))) for name, line in (("a", GOOD), ("c", OTHER))]
            ends = [end_of(it.what, run) for run in runs]
            statuses = [status for status, _, _ in ends]
            check(f"{it.what}: one is refused", sorted(statuses) == [0, 2], ends)
            check(f"{it.what}: it names the file", any(f"usage: a file of the tape is there already: {it.tape}" in errors for _, _, errors in ends), ends)
            it.tape_is(stood((GOOD, OTHER)[statuses.index(0)]) * 50 if 0 in statuses else b"")


def one_file(program, tool):
    """Two words of a call never name one file, however it is spelled; a device may be named twice. Answers make no file."""
    def refused(what, first, second, *words, make=()):
        with Failing(program, tool, what) as it:
            for name, how in make:
                how(it, name)
            it.refuses(["--setup", it.setup, *words], 2, f"usage: two paths name one file: {first}: {second}", cwd=it.room.folder)

    file, fifo = lambda it, name: it.room.write(name, GOOD), lambda it, name: it.room.fifo(name)
    link = lambda it, name: os.link(it.room.path("a"), it.room.path(name))
    soft = lambda it, name: os.symlink("a", it.room.path(name))
    feeds = ["--tape", "t", "--feed", "A=a", "--feed", "B=/dev/null"]
    refused("answers into a feed's file", "a", "./a", *feeds, "--client", "i,./a", make=[("a", file), ("i", file)])
    refused("answers into the file of the requests", "i", "./i", *feeds, "--client", "i,./i", make=[("a", file), ("i", file)])
    refused("answers into a hard link of a feed's file", "a", "o", *feeds, "--client", "i,o", make=[("a", file), ("i", file), ("o", link)])
    refused("requests from a link to a feed", "a", "i", *feeds, "--client", "i,/dev/null", make=[("a", fifo), ("i", soft)])
    refused("two feeds on one FIFO", "a", "./a", *feeds[:4], "--feed", "B=./a", make=[("a", fifo)])
    refused("a tape into a feed's FIFO", "a", "./a", "--tape", "./a", *feeds[2:], make=[("a", fifo)])
    refused("a tape into the FIFO of the answers", "o", "t", *feeds, "--client", "i,o", make=[("a", file), ("i", file), ("o", fifo), ("t", lambda it, name: os.symlink("o", it.room.path(name)))])
    for name in ("t", "./t", "t.published", "answres"):
        with Failing(program, tool, f"answers to {name}, which is not there") as it:
            it.room.write("i", b"N,0,ABC\n")
            words = ["--setup", it.setup, "--tape", "t" if name != "t" else "./t", "--feed", f"A={it.room.write('a', GOOD)}", "--feed", "B=/dev/null", "--client", f"i,{name}"]
            it.ends(it.room.start(*words, cwd=it.room.folder), 1, f"E1: the answers to client 1 could not be opened: {name}: {NO_FILE}")
            check(f"{it.what}: no file is made", sorted(os.listdir(it.room.folder)) == ["a", "i", "setup.toml"])
    with Failing(program, tool, "a feed's file that is the tape") as it:
        feed = it.room.write("a", b"")
        it.ends(it.room.start("--setup", it.setup, "--tape", feed, "--feed", f"A={feed}", "--feed", "B=/dev/null"), 2, f"usage: a file of the tape is there already: {feed}")
        check(f"{it.what}: it stays", bytes_of(feed) == b"")
    with Failing(program, tool, "devices that are named twice") as it:
        Heard(it.room.start(*it.words("/dev/null", "/dev/null", "--client", "/dev/null,/dev/null"))).ends(it.what, 0)


def only_checked(program, tool):
    """--check reports what it finds and begins nothing: no file is made, and no FIFO is opened."""
    with Failing(program, tool, "a check") as it:
        fifos = [it.room.fifo(name) for name in ("a", "b", "in", "out")]
        words = [*it.words(*fifos[:2], "--client", ",".join(fifos[2:])), "--keep", "--resume"]
        writers = [threading.Thread(target=lambda path=path: open(path, "wb").close(), daemon=True) for path in fifos[:3]]
        for writer in writers:
            writer.start()
        before = sorted(os.listdir(it.room.folder))
        for turn in range(2):
            status, output, errors = end_of(it.what, it.room.start(*words, "--check"))
            lines = [line.removeprefix("nms_serve: ") for line in errors.split("\n") if "UNPROVED" not in line]
            wanted = ["setup: 2 feeds, 2 desks, 2 participants, 1 symbols, tape_limit 1000000", f"feed A: {fifos[0]}: FIFO", f"feed B: {fifos[1]}: FIFO",
                      f"client 1, requests: {fifos[2]}: FIFO", f"client 1, answers: {fifos[3]}: FIFO", f"tape: {it.tape}: new", "checked: a run would serve", ""]
            check(f"{it.what}: what it prints, turn {turn}", (status, output, lines) == (0, b"", wanted), (status, output, lines))
        check(f"{it.what}: nothing is made", sorted(os.listdir(it.room.folder)) == before)
        check(f"{it.what}: no writer was let through", all(writer.is_alive() for writer in writers))
        for path, writer in zip(fifos, writers):
            with open(os.open(path, os.O_RDONLY | os.O_NONBLOCK), "rb"):
                writer.join(10)
    with Failing(program, tool, "a check of what is left") as it:
        for name, text in (("tape.setup", SETUP.encode()), ("tape", stood(GOOD) * 5), ("tape.published", b"1\n3\n")):
            it.room.write(name, text)
        status, _, errors = end_of(it.what, it.room.start(*it.words("/dev/null"), "--resume", "--check"))
        check(it.what, status == 0 and f"nms_serve: tape: {it.tape}: 2 changes to cut, epoch 1 begins\n" in errors, (status, errors))
    as_other = {"user": 65534, "group": 65534, "extra_groups": []} if os.geteuid() == 0 else {}
    denied = "Permission denied (os error 13)"
    for what, name, mode, said in (
        ("a feed that can't be read", "a", 0o222, "feed A could not be opened"),
        ("requests that can't be read", "in", 0o222, "the requests of client 1 could not be opened"),
        ("requests that can't be written, with --keep", "in", 0o444, "the requests of client 1 could not be opened"),
        ("answers that can't be written", "out", 0o444, "the answers to client 1 could not be opened"),
        ("answers that can't be read, with --keep", "out", 0o222, "the answers to client 1 could not be opened"),
    ):
        with Failing(program, tool, f"rights: {what}") as it:
            os.chmod(it.room.folder, 0o777)
            for fifo in ("a", "in", "out"):
                os.chmod(it.room.fifo(fifo), 0o666)
            os.chmod(it.room.path(name), mode)
            more = ["--client", f"{it.room.path('in')},{it.room.path('out')}", *(["--keep"] if "--keep" in what else [])]
            said = f"E1: {said}: {it.room.path(name)}: {denied}"
            it.ends(it.room.start(*it.words(it.room.path("a"), "/dev/null", *more), "--check", **as_other), 1, said)
    with Failing(program, tool, "rights: a folder in which nothing can be made") as it:
        os.chmod(it.room.folder, 0o555)
        it.ends(it.room.start(*it.words("/dev/null"), "--check", **as_other), 1, f"E1: the tape could not be opened: {it.room.folder}/: {denied}")
        it.ends(it.room.start(*it.words("/dev/null"), **as_other), 1, f"E1: the tape could not be opened: {it.tape}.setup: {denied}")
        os.chmod(it.room.folder, 0o777)
    for what, path, said in (
        ("a folder for a feed", "", "E1: feed A could not be read: {}: Is a directory (os error 21)"),
        ("a missing feed", "none", "E1: feed A could not be opened: {}: " + NO_FILE),
    ):
        with Failing(program, tool, f"a check: {what}") as it:
            path = it.room.path(path) if path else it.room.folder
            it.ends(it.room.start(*it.words(path), "--check"), 1, said.format(path))


def unread_errors(program, tool):
    """A standard error that no process reads stops no feed, no client and no end."""
    for what, text, more, status in (("bad records", b"?\n" + GOOD, [], 6), ("silences", GOOD, ["--stale", "1"], 0), ("a fault", GOOD, ["--strict"], 6)):
        with Failing(program, tool, f"unread errors, and {what}") as it:
            reader, writer = os.pipe()
            os.set_blocking(writer, False)
            with contextlib.suppress(BlockingIOError):
                while os.write(writer, b"." * 4096):
                    pass
            os.set_blocking(writer, True)
            fifos = it.room.fifo("a"), it.room.fifo("b")
            started = it.room.start(*it.words(*fifos, *more), stdin=subprocess.PIPE, stderr=writer)
            os.close(writer)
            with open(fifos[0], "wb", buffering=0) as feed, open(fifos[1], "wb", buffering=0) as other:
                feed.write(text)
                check(f"{it.what}: the feed goes on", seen(started, 1))
                if more == ["--stale", "1"]:
                    time.sleep(1.5)
                feed.write(b"?\n" * 2000 if status else OTHER)
                other.write(FROM_B)
                if "--strict" not in more:
                    check(f"{it.what}: the other feed goes on", seen(started, 2 if status else 3))
                    started.stdin.close()
                if "--strict" in more:
                    check(f"{it.what}: it ends", ended(started) == status, started.returncode)
            if "--strict" not in more:
                check(f"{it.what}: it ends", ended(started) == status, started.returncode)
            os.close(reader)


def ended(started):
    """The status of a run that ends by itself; None if it does not."""
    try:
        return started.wait(MOST)
    except subprocess.TimeoutExpired:
        started.kill()
        return None


def told_at_once(program, tool):
    """A feed's end and a fault are reported when they happen; after a fault the process ends, whatever can't be woken."""
    with Failing(program, tool, "a feed that ends while the run goes on") as it:
        fifo = it.room.fifo("a")
        started = it.room.start(*it.words(fifo, it.room.fifo("b")), stdin=subprocess.PIPE)
        heard = Heard(started)
        check(f"{it.what}: that it serves", heard.has("serving"), heard.lines)
        with open(fifo, "wb", buffering=0) as feed:
            feed.write(GOOD)
        check(it.what, heard.has("feed A: ended: 1 records, 0 refused"), heard.lines)
        check(f"{it.what}: the run goes on", started.poll() is None and seen(started, 1))
        open(it.room.path("b"), "wb").close()
        started.stdin.close()
        heard.ends(it.what, 0)
    for how in ("removed", "made again"):
        with Failing(program, tool, f"a FIFO that is {how} while its writer is idle, and a fault elsewhere") as it:
            fifos = it.room.fifo("a"), it.room.fifo("b")
            started = it.room.start(*it.words(*fifos, "--strict"), stdin=subprocess.PIPE)
            heard = Heard(started)
            with open(fifos[0], "wb", buffering=0) as idle, open(fifos[1], "wb", buffering=0) as other:
                idle.write(GOOD)
                check(f"{it.what}: it is read", seen(started, 1))
                os.remove(fifos[0])
                if how == "made again":
                    it.room.fifo("a")
                other.write(b"?\n")
                check(f"{it.what}: the fault is reported", heard.has("E5: B:1: L1"), heard.lines)
                check(f"{it.what}: it ends", ended(started) == 6, started.returncode)
    with Failing(program, tool, "a FIFO that is removed before its first writer, and a fault elsewhere") as it:
        fifos = it.room.fifo("a"), it.room.fifo("b")
        started = it.room.start(*it.words(*fifos, "--strict"), stdin=subprocess.PIPE)
        heard = Heard(started)
        check(f"{it.what}: it serves", heard.has("serving"), heard.lines)
        time.sleep(0.2)
        os.remove(fifos[0])
        with open(fifos[1], "wb", buffering=0) as other:
            other.write(b"?\n")
        check(f"{it.what}: it ends", ended(started) == 6, started.returncode)
    for most in range(6, 16):
        with Failing(program, tool, f"{most} descriptors") as it:
            words = it.words(it.room.fifo("a"), it.room.fifo("b"), *(more for number in "12" for more in ("--client", f"{it.room.fifo('in' + number)},{it.room.fifo('out' + number)}")))
            limit = lambda: resource.setrlimit(resource.RLIMIT_NOFILE, (most, most))
            started = it.room.start(*words, preexec_fn=limit)
            heard = Heard(started)
            until = time.monotonic() + 5
            while started.poll() is None and "serving" not in heard.lines and time.monotonic() < until:
                time.sleep(0.01)
            time.sleep(0.3)
            if started.poll() is None and not any(line.startswith("E1: ") for line in heard.lines):
                # All paths are open or wait, with no descriptor left to wake them.
                with open(it.room.path("a"), "wb", buffering=0):
                    started.terminate()
                    started.wait(MOST)
                continue
            check(f"{it.what}: it ends", ended(started) == 1, started.returncode)
            heard.join(10)
            faults = [line for line in heard.lines if line.startswith("E")]
            check(f"{it.what}: its fault", len(faults) == 1 and faults[0].startswith("E1: ") and faults[0].endswith("Too many open files (os error 24)"), heard.lines)


def kept_feeds(program, tool):
    """With --keep a FIFO waits for its next writer, until its writer has left and all clients have ended."""
    with Failing(program, tool, "a kept feed") as it:
        fifo = it.room.fifo("a")
        started = it.room.start(*it.words(fifo, "/dev/null", "--keep"), stdin=subprocess.PIPE)
        heard = Heard(started)
        with open(fifo, "wb", buffering=0) as feed:
            feed.write(GOOD + OTHER[:-9])
        check(f"{it.what}: a half line is refused as its writer leaves", heard.has("A:2: L1: ?"), heard.lines)
        check(f"{it.what}: it is reported that it left", heard.has("feed A: its writer has left: 2 records, 1 refused"), heard.lines)
        with open(fifo, "wb", buffering=0) as feed:
            feed.write(OTHER)
            check(f"{it.what}: the next writer's first line", seen(started, 2))
        for _ in range(200):
            with open(fifo, "wb", buffering=0) as feed:
                feed.write(GOOD)
        check(f"{it.what}: writers that come and go", seen(started, 202))
        started.stdin.close()
        heard.ends(it.what, 6)
        check(f"{it.what}: its summary", "feed A: ended: 203 records, 1 refused" in heard.lines, heard.lines)
        it.tape_is(b"".join(stood(line) for line in [GOOD, OTHER] + [GOOD] * 200))
    with Failing(program, tool, "a kept feed that is removed and made again") as it:
        fifo = it.room.fifo("a")
        started = it.room.start(*it.words(fifo, "/dev/null", "--keep"), stdin=subprocess.PIPE)
        heard, sent = Heard(started), 0
        for turn in range(20):
            feed = opened(fifo)
            if not check(f"{it.what}: turn {turn} is opened", feed is not None, heard.lines):
                break
            with feed:
                feed.write(GOOD + OTHER * (turn % 3))
                sent += 1 + turn % 3
                if turn % 4:
                    check(f"{it.what}: turn {turn} is read", seen(started, sent))
            # If this is not waited for, the former FIFO still has what was sent.
            os.remove(fifo)
            time.sleep(0.02 * (turn % 2))
            it.room.fifo("a")
        check(f"{it.what}: all is read", seen(started, sent))
        time.sleep(0.1)
        check(f"{it.what}: the last is waited for", started.poll() is None)
        started.stdin.close()
        heard.ends(it.what, 0)
        check(f"{it.what}: its summary", f"feed A: ended: {sent} records, 0 refused" in heard.lines, heard.lines)
    for turn in range(20):
        with Failing(program, tool, f"a kept feed that is removed as it is opened, turn {turn}") as it:
            fifo = it.room.fifo("a")
            started = it.room.start(*it.words(fifo, "/dev/null", "--keep"), stdin=subprocess.PIPE)
            heard = Heard(started)
            with open(fifo, "wb", buffering=0) as feed:
                os.remove(fifo)
                feed.write(GOOD)
            it.room.fifo("a")
            if check(f"{it.what}: the next one is opened", feed := opened(fifo), heard.lines):
                with feed:
                    feed.write(OTHER)
                    check(f"{it.what}: it is read", seen(started, 2))
            started.stdin.close()
            heard.ends(it.what, 0)
    with Failing(program, tool, "a kept feed with a writer, when the clients end") as it:
        fifo = it.room.fifo("a")
        started = it.room.start(*it.words(fifo, "/dev/null", "--keep"), stdin=subprocess.PIPE)
        heard = Heard(started)
        with open(fifo, "wb", buffering=0) as feed:
            feed.write(GOOD)
            check(f"{it.what}: it is read", seen(started, 1))
            started.stdin.close()
            time.sleep(0.2)
            check(f"{it.what}: the run goes on", started.poll() is None)
            feed.write(OTHER)
        heard.ends(it.what, 0)
        it.tape_is(stood(GOOD) + stood(OTHER))
    with Failing(program, tool, "a kept feed that is a file") as it:
        started = it.room.start(*it.words(it.room.write("a", GOOD), "/dev/null", "--keep", "--wait"), stdin=subprocess.PIPE)
        check(f"{it.what}: it is read once", seen(started, 1) and not seen(started, 2, 0.2))
        started.stdin.close()
        Heard(started).ends(it.what, 0)
    for what, text, status, said in (
        ("a half line of a kept feed, strict", GOOD + OTHER[:-9], 6, "E5: A:2: L1"),
        ("a kept feed that waits, and a next tape that is full", (GOOD + OTHER) * 20, 1, f"E2: the tape could not be written: tape.2: {DISK_FULL}"),
    ):
        with Failing(program, tool, what, SHORT) as it:
            os.symlink("/dev/full", it.room.path("tape.2"))
            fifos = it.room.fifo("a"), it.room.fifo("b")
            words = it.words(*fifos, "--keep", "--strict", "--stale", "9", "--wait")
            words[3] = "tape"
            started = it.room.start(*words, stdin=subprocess.PIPE, cwd=it.room.folder)
            for fifo, line in ((fifos[1], b""), (fifos[0], text)):
                with open(fifo, "wb", buffering=0) as feed:
                    feed.write(line)
            it.ends(started, status, said)


# A run that can be asked to end: the program looks for these signals if they are blocked when it starts.
BLOCKED = ["env", "--block-signal=TERM,INT"]
# Sixteen desks, and a queue that a burst fills.
MANY = SETUP.replace("desks = 2", "desks = 16")


class Router(threading.Thread):
    """A router of a client: it opens its two FIFOs in any order, sends its requests, and reads its answers to their end."""

    def __init__(self, seed, paths, lines, pace=0):
        super().__init__(daemon=True)
        self.chance, self.paths, self.lines, self.pace = random.Random(seed), paths, lines, pace
        self.answers, self.is_late = b"", False
        self.start()

    def run(self):
        modes = [(self.paths[0], "wb"), (self.paths[1], "rb")]
        if self.chance.random() < 0.5:
            modes.reverse()
        ends = {mode: open(path, mode, buffering=0) for path, mode in modes}
        # A run that ends leaves the requests without a reader.
        with contextlib.suppress(BrokenPipeError):
            for line in self.lines:
                ends["wb"].write(line)
                self.answers += self.answer(ends["rb"])
                if self.pace:
                    time.sleep(self.chance.random() * self.pace)
        ends["wb"].close()
        while more := ends["rb"].read(65536):
            self.answers += more
        ends["rb"].close()

    def answer(self, output):
        """What is there of the answers, at least one, with all its lines."""
        text = b""
        while True:
            more = output.read(65536)
            if not more:
                return text
            text += more
            with contextlib.suppress(ValueError, IndexError):
                blocks(text)
                return text


def kept_clients(program, tool):
    """With --keep a client's FIFOs wait for its next router; no other router gets what a router left."""
    def begun(it, *more, setup=()):
        words = it.words(it.room.fifo("a"), "/dev/null", "--keep", *more)
        for number in "12":
            words += ["--client", f"{it.room.fifo('in' + number)},{it.room.fifo('out' + number)}"]
        started = subprocess.Popen([*BLOCKED, program, *words], stdin=subprocess.DEVNULL, stdout=subprocess.PIPE, stderr=subprocess.PIPE)
        return started, Heard(started)

    def stopped(it, started, heard, *said):
        started.send_signal(signal.SIGTERM)
        heard.ends(it.what, 0)
        for line in said:
            check(f"{it.what}: {line}", line in heard.lines, heard.lines[-12:])

    with Failing(program, tool, "routers that come and go") as it:
        started, heard = begun(it)
        paths = it.room.path("in1"), it.room.path("out1")
        for turn in range(20):
            router = Router(turn, paths, [b"N,0,ABC\n", b"?\n"])
            router.join(20)
            lines = router.answers.split(b"\n")
            check(f"{it.what}: turn {turn}", lines[0].startswith(b"BEST,0,ABC,0,") and lines[1:] == [b"ERR,2,L1", b""], lines)
        check(f"{it.what}: each is reported", heard.has("client 1: its router has left: 2 requests, 1 refused", 20), heard.lines)
        stopped(it, started, heard, "client 1: ended: 40 requests, 20 refused", "client 2: ended: 0 requests, 0 refused")
    with Failing(program, tool, "answers that a router left behind") as it:
        started, heard = begun(it)
        paths = it.room.path("in1"), it.room.path("out1")
        asks, output = os.open(paths[0], os.O_WRONLY), os.open(paths[1], os.O_RDONLY)
        os.write(asks, b"N,0,ABC\n" * 100)
        time.sleep(0.3)
        os.close(asks)
        os.close(output)
        check(f"{it.what}: it has left", heard.has("client 1: its router has left: 100 requests, 0 refused"), heard.lines)
        router = Router(1, paths, [b"X\n"])
        router.join(20)
        check(f"{it.what}: the next one finds its own", router.answers == b"ERR,1,L1\n", router.answers)
        stopped(it, started, heard, "client 1: ended: 101 requests, 1 refused")
    with Failing(program, tool, "answers that are closed while a request is under way") as it:
        started, heard = begun(it)
        paths = it.room.path("in1"), it.room.path("out1")
        asks, output = os.open(paths[0], os.O_WRONLY), os.open(paths[1], os.O_RDONLY)
        os.write(asks, b"N,0,ABC\n")
        os.read(output, 100)
        os.close(output)
        os.write(asks, b"N,0,ABC\n" * 50)
        path = paths[1]
        check(f"{it.what}: its fault", heard.has(f"client 1: E2: the answers to client 1 could not be written: {path}: Broken pipe (os error 32)"), heard.lines)
        other = Router(1, (it.room.path("in2"), it.room.path("out2")), [b"N,1,ABC\n"] * 9)
        other.join(20)
        check(f"{it.what}: the other is served", other.answers.count(b"BEST,1,ABC,") == 9, other.answers)
        os.close(asks)
        check(f"{it.what}: it has left", heard.has("client 1: its router has left: 1 requests, 0 refused"), heard.lines)
        router = Router(1, paths, [b"N,0,ABC\n"])
        router.join(20)
        check(f"{it.what}: the next one is served", router.answers.count(b"BEST,0,ABC,") == 1, router.answers)
        stopped(it, started, heard, "client 1: ended: 2 requests, 0 refused")
    with Failing(program, tool, "a client's FIFOs that are removed and made again") as it:
        started, heard = begun(it)
        paths = it.room.path("in1"), it.room.path("out1")
        for turn in range(20):
            router = Router(turn, paths, [b"N,0,ABC\n"])
            router.join(20)
            check(f"{it.what}: turn {turn}", router.answers.count(b"BEST,0,ABC,") == 1, (router.answers, heard.lines[-5:]))
            for path in paths:
                os.remove(path)
            time.sleep(0.05 * (turn % 2))
            for path in paths:
                os.mkfifo(path)
        stopped(it, started, heard, "client 1: ended: 20 requests, 0 refused")
    with Failing(program, tool, "kept clients without a router, idle") as it:
        started, heard = begun(it)
        check(f"{it.what}: it serves", heard.has("serving"), heard.lines)
        before = time_of(started.pid)
        time.sleep(3)
        took = time_of(started.pid) - before
        check(f"{it.what}: it takes little of a processor", took < 0.3, took)
        stopped(it, started, heard)
    with Failing(program, tool, "a client's fault without --keep") as it:
        words = [*it.words(it.room.fifo("a"), "/dev/null"), "--client", f"{it.room.fifo('in')},{it.room.fifo('out')}"]
        started = it.room.start(*words)
        asks, output = os.open(it.room.path("in"), os.O_WRONLY), os.open(it.room.path("out"), os.O_RDONLY)
        os.close(output)
        os.write(asks, b"N,0,ABC\n")
        it.ends(started, 1, f"E2: the answers to client 1 could not be written: {it.room.path('out')}: Broken pipe (os error 32)")
        os.close(asks)


def asked_to_end(program, tool):
    """TERM or INT, blocked when the program starts, ends a run cleanly at any moment: all that is counted is on the tape, and all that
    is on the tape was published."""
    for turn in range(60):
        number, chance = (signal.SIGTERM, signal.SIGINT)[turn % 2], random.Random(turn)
        with Failing(program, tool, f"{number.name}, blocked, turn {turn}", MANY) as it:
            is_kept, is_bad = chance.random() < 0.5, chance.random() < 0.3
            fifos, pair = (it.room.fifo("a"), it.room.fifo("b")), (it.room.fifo("in"), it.room.fifo("out"))
            words = [*it.words(*fifos, *["--keep"] * is_kept), "--client", ",".join(pair), "--client", f"{it.room.fifo('in2')},{it.room.fifo('out2')}"]
            started = subprocess.Popen([*BLOCKED, program, *words], stdin=subprocess.DEVNULL, stdout=subprocess.PIPE, stderr=subprocess.PIPE)
            heard = Heard(started)
            if turn % 5:
                texts = [line * 3000 for line in (GOOD, FROM_B)]
                if is_bad:
                    texts[0] = b"?\n" + texts[0]
                for path, text in zip(fifos, texts):
                    threading.Thread(target=pushed, args=(path, text), daemon=True).start()
                router = Router(turn, pair, [b"N,0,ABC\n", b"O,0,B,ABC,300,10.02\n"] * 200)
            check(f"{it.what}: it serves", heard.has("serving"), heard.lines)
            time.sleep(chance.choice([0, 0.01, 0.05, 0.2, 0.5]))
            begun = time.monotonic()
            started.send_signal(number)
            if turn % 3 == 0:
                time.sleep(0.05)
                started.send_signal(number)
            with contextlib.suppress(subprocess.TimeoutExpired):
                started.wait(30)
            took = time.monotonic() - begun
            counts = [re.fullmatch(r"feed ([AB]): ended: (\d+) records, (\d+) refused", line) for line in heard_all(started, heard)]
            counts = {found[1]: (int(found[2]), int(found[3])) for found in counts if found}
            refused = sum(count for _, count in counts.values())
            check(f"{it.what}: its status", started.returncode == (6 if refused else 0), (started.returncode, heard.lines[-9:]))
            check(f"{it.what}: it ends in time", took < 5, took)
            changes, published = bytes_of(it.tape).splitlines(keepends=True), bytes_of(f"{it.tape}.published").split()
            check(f"{it.what}: all that is on the tape was published", int((published or [b"0"])[-1]) == len(changes), (published[-3:], len(changes)))
            check(f"{it.what}: the counts of the feeds", set(counts) == set("AB"), heard.lines[-9:])
            for letter, line in (("A", stood(GOOD)), ("B", stood(FROM_B))):
                taken, bad = counts.get(letter, (0, 0))
                check(f"{it.what}: all that feed {letter} sent and was counted is on the tape", changes.count(line) == taken - bad and bad <= is_bad, (counts, changes.count(line)))
            last = f"{len(changes)} changes, published {len(published)} times"
            check(f"{it.what}: the last line", heard.lines[-1:] == [last], heard.lines[-3:])
            if turn % 5:
                router.join(20)
                check(f"{it.what}: its answers are whole", not router.is_alive() and is_whole(router.answers), router.answers[-200:])
    with Failing(program, tool, "TERM, and a router that reads nothing") as it:
        pair = it.room.fifo("in"), it.room.fifo("out")
        started = subprocess.Popen([*BLOCKED, program, *it.words(it.room.fifo("a")), "--client", ",".join(pair)], stdin=subprocess.DEVNULL, stdout=subprocess.PIPE, stderr=subprocess.PIPE)
        heard = Heard(started)
        asks, output = os.open(pair[0], os.O_WRONLY), os.open(pair[1], os.O_RDONLY)
        os.write(asks, b"O,0,B,ABC,300,10.02\n" * 3000)
        time.sleep(0.5)
        begun = time.monotonic()
        started.send_signal(signal.SIGTERM)
        heard.ends(it.what, 0)
        check(f"{it.what}: it ends in time", time.monotonic() - begun < 3)
        check(f"{it.what}: the counts are printed", "feed A: ended: 0 records, 0 refused" in heard.lines, heard.lines)
        os.close(asks)
        os.close(output)
    for more, count in (([], 1), (["--keep"], 1), (["--wait"], 0), (["--keep", "--wait"], 0)):
        with Failing(program, tool, f"TERM, and a router that waits {more}") as it:
            pair = it.room.fifo("in"), it.room.fifo("out")
            words = [*it.words(it.room.fifo("a"), "/dev/null", *more), "--client", ",".join(pair)]
            started = subprocess.Popen([*BLOCKED, program, *words], stdin=subprocess.DEVNULL, stdout=subprocess.PIPE, stderr=subprocess.PIPE)
            heard = Heard(started)
            asks, output = os.open(pair[0], os.O_WRONLY), os.open(pair[1], os.O_RDONLY)
            os.write(asks, b"N,0,ABC\n" + GOOD[:9])
            check(f"{it.what}: its answer", bool(select.select([output], [], [], 20 if count else 0.3)[0]) == bool(count))
            started.send_signal(signal.SIGTERM)
            heard.ends(it.what, 0)
            check(f"{it.what}: its counts", heard.lines[-1:] == ["0 changes, published 0 times"] and f"client 1: ended: {count} requests, 0 refused" in heard.lines, heard.lines)
            check(f"{it.what}: what it is told", os.read(output, 1000).count(b"\n") == count)
            os.close(asks)
            os.close(output)
    with Failing(program, tool, "TERM, not blocked") as it:
        started = it.room.start(*it.words(it.room.fifo("a")), stdin=subprocess.PIPE)
        heard = Heard(started)
        check(f"{it.what}: it serves", heard.has("serving"), heard.lines)
        started.send_signal(signal.SIGTERM)
        heard.ends(it.what, -signal.SIGTERM)


def state_has(path, *lines, most=60):
    """Whether the state of a run has these lines at once, in time. Each is a pattern."""
    end = time.monotonic() + most
    while time.monotonic() < end:
        with contextlib.suppress(OSError):
            text = bytes_of(path).decode()
            if all(re.search(f"^{line}$", text, re.M) for line in lines):
                return True
        time.sleep(0.02)
    return False


def shown_state(program, tool):
    """--status is rewritten completely once a second, and --ready is there while the run serves."""
    with Failing(program, tool, "the state of a run") as it:
        status, ready, fifos = it.room.path("status"), it.room.write("ready", b"RUN,SERVING,7\n"), [it.room.fifo(name) for name in ("a", "b", "in", "out")]
        it.room.write("status", b"RUN,ENDED,9\n")
        words = [*it.words(*fifos[:2], "--client", ",".join(fifos[2:]), "--keep", "--status", status, "--ready", ready)]
        started = subprocess.Popen([*BLOCKED, program, *words], stdin=subprocess.DEVNULL, stdout=subprocess.PIPE, stderr=subprocess.PIPE)
        heard, is_over, torn = Heard(started), threading.Event(), []

        def watch():
            """Reads the state again and again; a reader never finds a part of it."""
            while not is_over.is_set():
                text = bytes_of(status).decode()
                if not re.fullmatch(r"RUN,(SERVING|ENDED),\d+\n(BOARD,\d+,\d+,\d+\n(FEED,[AB],\d+,\d+,\d*,[A-Z]+\n){2}CLIENT,1,[A-Z]+,\d+,\d+\n)?", text):
                    torn.append(text)
                time.sleep(0.001)

        watching = threading.Thread(target=watch, daemon=True)
        watching.start()
        check(f"{it.what}: nothing has come", state_has(status, r"RUN,SERVING,\d+", "BOARD,0,0,0", "FEED,A,0,0,,NONE", "FEED,B,0,0,,NONE", "CLIENT,1,NONE,0,0"), bytes_of(status))
        check(f"{it.what}: it is ready", state_has(ready, "RUN,SERVING,0"))
        with open(fifos[0], "wb", buffering=0) as feed, open(fifos[1], "wb", buffering=0):
            feed.write(GOOD + b"?\n" + OTHER)
            check(f"{it.what}: a feed and its writer", state_has(status, "BOARD,0,2,0", r"FEED,A,3,1,\d,WRITER", "FEED,B,0,0,,WRITER"), bytes_of(status))
            with open(fifos[2], "wb", buffering=0) as asks, open(fifos[3], "rb", buffering=0) as answers:
                asks.write(b"N,0,ABC\nX\n")
                answers.read(9)
                check(f"{it.what}: a router", state_has(status, "CLIENT,1,ROUTER,2,1"), bytes_of(status))
            check(f"{it.what}: a router that left", state_has(status, "CLIENT,1,NONE,2,1"), bytes_of(status))
            check(f"{it.what}: silent for some seconds", state_has(status, r"FEED,A,3,1,[2-9],WRITER"), bytes_of(status))
        check(f"{it.what}: a writer that left", state_has(status, r"FEED,A,3,1,\d+,LEFT", "FEED,B,0,0,,LEFT"), bytes_of(status))
        with open(fifos[1], "wb", buffering=0) as other:
            check(f"{it.what}: a writer that has come", state_has(status, "FEED,B,0,0,,WRITER"), bytes_of(status))
            other.write(FROM_B)
            check(f"{it.what}: it sends", state_has(status, "BOARD,0,3,0", r"FEED,B,1,0,\d,WRITER"), bytes_of(status))
        started.send_signal(signal.SIGTERM)
        heard.ends(it.what, 6)
        is_over.set()
        watching.join(10)
        check(f"{it.what}: its end", state_has(status, r"RUN,ENDED,\d+", "BOARD,0,3,0", r"FEED,A,3,1,\d+,ENDED", r"FEED,B,1,0,\d+,ENDED", "CLIENT,1,ENDED,2,1", most=1), bytes_of(status))
        check(f"{it.what}: it is ready no more", not os.path.exists(ready) and not torn, torn[:2])
        check(f"{it.what}: no more files", sorted(os.listdir(it.room.folder)) == ["a", "b", "in", "out", "setup.toml", "status", "tape", "tape.published", "tape.setup"], os.listdir(it.room.folder))
    with Failing(program, tool, "the state of a run that ends by a fault", SHORT) as it:
        ready, status = it.room.path("ready"), it.room.path("status")
        started = it.room.start(*it.words(fifo := it.room.fifo("a"), "/dev/null", "--strict", "--ready", ready, "--status", status), stdin=subprocess.PIPE)
        with open(fifo, "wb", buffering=0) as feed:
            feed.write((GOOD + OTHER) * 8)
            check(f"{it.what}: it is in an epoch", state_has(status, r"BOARD,[1-9],\d+,0", r"FEED,A,16,0,\d+,WRITER", "FEED,B,0,0,,ENDED"), bytes_of(status))
            check(f"{it.what}: it is ready", os.path.exists(ready))
            feed.write(b"?\n")
            Heard(started).ends(it.what, 6)
        check(f"{it.what}: it is ready no more", not os.path.exists(ready))
        check(f"{it.what}: its end", state_has(status, r"RUN,ENDED,\d+", r"FEED,A,17,1,\d+,ENDED", most=1), bytes_of(status))
    with Failing(program, tool, "a state that can't be written") as it:
        os.mkdir(it.room.path("state"))
        status = it.room.path("state/status")
        started = it.room.start(*it.words(fifo := it.room.fifo("a"), "/dev/null", "--status", status), stdin=subprocess.PIPE)
        heard = Heard(started)
        with open(fifo, "wb", buffering=0) as feed:
            check(f"{it.what}: at first it is", state_has(status, r"RUN,SERVING,\d+"))
            for turn in (1, 2):
                shutil.rmtree(it.room.path("state"))
                check(f"{it.what}: that is reported", heard.has(f"a file of the run's state could not be written: {status}: {NO_FILE}", turn), heard.lines)
                time.sleep(2.5)
                check(f"{it.what}: it is reported once", heard.lines.count(f"a file of the run's state could not be written: {status}: {NO_FILE}") == turn, heard.lines)
                os.mkdir(it.room.path("state"))
                check(f"{it.what}: it is again", state_has(status, r"RUN,SERVING,\d+"))
            feed.write(GOOD)
            check(f"{it.what}: the run goes on", seen(started, 1))
        started.stdin.close()
        heard.ends(it.what, 0)
    one, there = "usage: two paths name one file: {}: {}", "usage: there is something else than the state of a run: {}"
    for what, words, said, paths in (
        ("the tape", ["--status", "{}/tape"], one, ["tape", "tape"]),
        ("a later tape", ["--status", "{}/./tape.3"], one, ["tape", "./tape.3"]),
        ("lengths of the tape", ["--ready", "{}/tape.published"], one, ["tape", "tape.published"]),
        ("times of the tape", ["--status", "{}/tape.1.times"], one, ["tape", "tape.1.times"]),
        ("the setup of the tape", ["--ready", "{}/tape.setup"], one, ["tape", "tape.setup"]),
        ("each other", ["--status", "{}/x", "--ready", "{}/./x"], one, ["x", "./x"]),
        ("the path that another is written by", ["--status", "{}/x", "--ready", "{}/x.new"], one, ["x.new", "x.new"]),
        ("the record", ["--status", "{}/x", "--record", "{}/x.new"], one, ["x.new", "x.new"]),
        ("the setup", ["--status", "{}/setup.toml"], there, ["setup.toml"]),
        ("a folder", ["--status", "{}/folder"], there, ["folder"]),
        ("a FIFO", ["--ready", "{}/fifo"], there, ["fifo"]),
        ("another file", ["--ready", "{}/other"], there, ["other"]),
        ("a file whose new one is another", ["--ready", "{}/more"], there, ["more.new"]),
        ("answers", ["--ready", "{}/out", "--client", "{}/in,{}/out"], one, ["out", "out"]),
        ("a file in no folder", ["--status", "{}/none/x"], "E1: a file of the run could not be made: {}: " + NO_FILE, ["none/x"]),
    ):
        with Failing(program, tool, f"the state of a run is {what}") as it:
            os.mkdir(it.room.path("folder"))
            it.room.fifo("fifo")
            for name, text in (("other", b"RUM,\n"), ("more.new", b"R,"), ("in", b""), ("out", b"")):
                it.room.write(name, text)
            full = [word.replace("{}", it.room.folder) for word in words]
            it.refuses([*it.words("/dev/null"), *full], 1 if said.startswith("E1") else 2, said.format(*(it.room.path(path) for path in paths)))


def timed_lines(program, tool):
    """With --log-time each line on standard error begins with its time."""
    with Failing(program, tool, "lines with their times") as it:
        begun = time.time()
        status, _, errors = end_of(it.what, it.room.start(*it.words(it.room.write("a", b"?\n" + GOOD), "/dev/null", "--log-time")))
        form = re.compile(r"(\d{4}-\d\d-\d\dT\d\d:\d\d:\d\d)\.(\d{3})Z nms_serve: (.*)")
        found = [form.fullmatch(line) for line in errors.split("\n")[:-1] if "UNPROVED" not in line]
        check(it.what, status == 6 and len(found) == 6 and all(found), errors)
        times = [calendar.timegm(time.strptime(each[1], "%Y-%m-%dT%H:%M:%S")) + int(each[2]) / 1000 for each in found if each]
        check(f"{it.what}: they are now", all(begun - 0.01 <= at <= time.time() for at in times), (begun, times))
        check(f"{it.what}: what they say", [each[3] for each in found if each and "A:1" in each[3]] == ["A:1: L1: ?"], errors)
    with Failing(program, tool, "a fault with its time") as it:
        _, _, errors = end_of(it.what, it.room.start(*it.words(it.room.path("none")), "--log-time"))
        check(it.what, re.search(r"^[0-9T:.-]+Z nms_serve: E1: feed A could not be opened: ", errors, re.M) is not None, errors)


def clock_of(line, day):
    """The seconds since 1970 of a line of times, on the day that is nearest to a time, by UTC."""
    at = int(line[:2]) * 3600 + int(line[2:4]) * 60 + int(line[4:6]) + int(line[6:15]) / 1e9
    return min((day // 86400 * 86400 + at + shift for shift in (-86400, 0, 86400)), key=lambda found: abs(found - day))


def kept_times(program, tool):
    """--times has a line for each change of each epoch, none before an earlier one, in the zone that was named."""
    for zone, ahead in (("+0000", 0), ("-0500", -5 * 3600), ("+0530", 19800), ("-2359", -86340)):
        with Failing(program, tool, f"times in {zone}", SHORT) as it:
            begun = time.time()
            feed = it.room.write("a", (GOOD + b"?\n" + OTHER) * 70)
            Heard(it.room.start(*it.words(feed, "/dev/null", f"--times={zone}"))).ends(it.what, 6)
            last, all_times = begun, []
            for epoch in range(len(read_epochs(it.tape))):
                changes, times = bytes_of(name_of(it.tape, epoch)), bytes_of(f"{name_of(it.tape, epoch)}.times")
                check(f"{it.what}: a line for each change of epoch {epoch}", re.fullmatch(rb"(\d{15}\n)*", times) and len(times) == 16 * changes.count(b"\n"), times[-60:])
                all_times += [clock_of(line, begun + ahead) - ahead for line in times.split()]
            check(f"{it.what}: they are now, and none falls", begun - 0.01 <= all_times[0] and all_times[-1] <= time.time() and all_times == sorted(all_times), all_times[::50])
    for zone in ("", "0500", "-500", "-05000", "-2400", "-0560", "UTC", "+05:0", "−0500"):
        with Failing(program, tool, f"times in a zone that is none: {zone}") as it:
            it.refuses([*it.words("/dev/null"), f"--times={zone}"], 2, "usage: --times takes a sign and HHMM, as --times=-0500")
    for name in ("tape.times", "tape.4.times"):
        with Failing(program, tool, f"{name} that is there") as it:
            it.refuses(it.words("/dev/null"), 2, f"usage: a file of the tape is there already: {it.room.write(name, b'')}")
    for name in ("tape.times", "tape.1.times"):
        with Failing(program, tool, f"a full disk for {name}", SHORT) as it:
            os.symlink("/dev/full", it.room.path(name))
            said = f"E2: the file of times could not be written: {it.room.path(name)}: {DISK_FULL}"
            it.ends(it.room.start(*it.words(it.room.write("a", (GOOD + OTHER) * 20), "/dev/null", "--times=+0000")), 1, said)
            tape = bytes_of(name_of(it.tape, int("1" in name)))
            check(f"{it.what}: no change is on the tape without its time", tape == b"", tape)


def kept_record(program, tool):
    """--record has each request with its answer, before the client has it; a run that goes on appends to it."""
    form = re.compile(rb"ASKED,(\d+),(\d+),\d{4}-\d\d-\d\dT\d\d:\d\d:\d\d\.\d{3}Z(?:,(.*))?")

    def read(path):
        """What a record has of each client: its requests, its answers, and the epochs."""
        found = {}
        for line in bytes_of(path).splitlines(keepends=True):
            head = form.fullmatch(line.rstrip(b"\n"))
            if head:
                client = found.setdefault(int(head[1]), ([], [], []))
                client[0].append((head[3] or b"") + b"\n")
                client[2].append(int(head[2]))
            else:
                client[1].append(line)
        return {number: (b"".join(asks), b"".join(answers), epochs) for number, (asks, answers, epochs) in found.items()}

    with Failing(program, tool, "a record", SHORT) as it:
        asks = [b"N,0,ABC\nX,1\n\"\nO,0,B,ABC,300,10.02\n" * 50, b"E,1,ABC,10\nN,1,ABC\n" * 60]
        words = [*it.words(it.room.write("a", (GOOD + OTHER) * 30), "/dev/null"), "--record", it.room.path("record")]
        for number, text in enumerate(asks):
            words += ["--client", f"{it.room.write(f'in{number}', text)},{it.room.write(f'out{number}', b'')}"]
        Heard(it.room.start(*words)).ends(it.what, 0)
        found = read(it.room.path("record"))
        for number, text in enumerate(asks):
            check(f"{it.what}: the requests of client {number + 1}", found[number + 1][0] == text.replace(b'"\n', b"?\n"), found[number + 1][0][:200])
            check(f"{it.what}: the answers to client {number + 1}", found[number + 1][1] == bytes_of(it.room.path(f"out{number}")), found[number + 1][1][:200])
            check(f"{it.what}: the epochs of client {number + 1}", found[number + 1][2] == sorted(found[number + 1][2]), found[number + 1][2])
        before = bytes_of(it.room.path("record"))
        Heard(it.room.start(*words, "--resume")).ends(it.what, 0)
        after = bytes_of(it.room.path("record"))
        check(f"{it.what}: a run that goes on appends to it", after.startswith(before) and after.count(b"ASKED") == 2 * before.count(b"ASKED"), len(after))
    with Failing(program, tool, "a record that is there") as it:
        it.refuses([*it.words("/dev/null"), "--record", it.room.write("record", b"x\n")], 2, f"usage: the record is there already: {it.room.path('record')}")
    with Failing(program, tool, "a record that is the tape") as it:
        it.refuses([*it.words("/dev/null"), "--record", it.room.path("tape.2")], 2, f"usage: two paths name one file: {it.tape}: {it.room.path('tape.2')}")
    with Failing(program, tool, "a full disk for the record") as it:
        os.symlink("/dev/full", it.room.path("record"))
        out = it.room.write("out", b"")
        said = f"E2: the record of answers could not be written: {it.room.path('record')}: {DISK_FULL}"
        it.ends(it.room.start(*it.words(it.room.fifo("a"), "/dev/null", "--record", it.room.path("record"), "--client", f"{it.room.write('in', b'N,0,ABC' + bytes([10]))},{out}")), 1, said)
        check(f"{it.what}: no answer without its record", bytes_of(out) == b"", bytes_of(out))


def synced_tapes(program, tool):
    """--sync alters no file; if the disk fails, the run ends and no client sees what the disk did not keep."""
    for when in ("publish", "second", "none"):
        with Failing(program, tool, f"a run with --sync {when}", SHORT) as it:
            feed = it.room.write("a", (GOOD + OTHER) * 30)
            Heard(it.room.start(*it.words(feed, "/dev/null", "--sync", when))).ends(it.what, 0)
            replay(it.what, tool, it.setup, it.tape, [])
        with Failing(program, tool, f"--sync {when} on devices") as it:
            for name in ("tape", "tape.published"):
                os.symlink("/dev/null", it.room.path(name))
            Heard(it.room.start(*it.words(it.room.write("a", GOOD), "/dev/null", "--sync", when))).ends(it.what, 0)
    for when in ("", "always", "Publish", "second "):
        with Failing(program, tool, f"--sync {when!r}") as it:
            it.refuses([*it.words("/dev/null"), f"--sync={when}"], 2, "usage: --sync takes publish, second or none")
    if shutil.which("strace") is None:
        return
    for when in ("publish", "second"):
        with Failing(program, tool, f"a disk that fails, with --sync {when}") as it:
            asks, out = it.room.write("in", b"N,0,ABC\n" * 2000), it.room.write("out", b"")
            words = [*it.words(it.room.fifo("a"), "/dev/null"), "--sync", when, "--client", f"{asks},{out}", "--wait"]
            hooks = ["strace", "-f", "-qq", "-o", "/dev/null", "-e", "trace=fdatasync", "-e", "inject=fdatasync:error=EIO"]
            started = subprocess.Popen([*hooks, program, *words], stdin=subprocess.DEVNULL, stdout=subprocess.PIPE, stderr=subprocess.PIPE)
            with open(it.room.path("a"), "wb", buffering=0) as feed:
                feed.write(GOOD)
                it.ends(started, 1, f"E2: the tape could not be written: {it.tape}: Input/output error (os error 5)")
            check(f"{it.what}: no client saw it", when == "second" or bytes_of(out) == b"", bytes_of(out)[:100])


def pushed(path, text):
    """Sends a text to a feed, as far as it is read."""
    with contextlib.suppress(BrokenPipeError), open(path, "wb", buffering=0) as feed:
        place = 0
        while place < len(text):
            place += feed.write(text[place : place + 5000])


def heard_all(started, heard):
    """All lines of a run that has ended."""
    if started.poll() is None:
        started.kill()
    heard.join(10)
    return heard.lines


def is_whole(answers):
    """Whether answers are complete."""
    with contextlib.suppress(ValueError, IndexError):
        blocks(answers)
        return True
    return False


def stood(line):
    """A change of these tests as it is on the tape."""
    return re.sub(rb"(\.\d\d),", rb"\g<1>00,", line)


def written_first(program, tool):
    """A batch is seen by no client before it is in the tape's file: while the tape can't be written, no version rises."""
    for blocked in ("tape", "tape.published"):
        with Failing(program, tool, f"a batch that can't be written to {blocked}") as it:
            fifo, end = it.room.fifo("a"), os.open(it.room.fifo(blocked), os.O_RDWR)
            started = it.room.start(*it.words(fifo), stdin=subprocess.PIPE)
            with open(fifo, "wb", buffering=0) as feed:
                feed.write(GOOD)
                check(f"{it.what}: one that can", seen(started, 1))
                os.set_blocking(end, False)
                try:
                    while os.write(end, b"." * 4096):
                        pass
                except BlockingIOError:
                    pass
                feed.write(OTHER)
                check(f"{it.what}: it is not published", not seen(started, 2, 0.3))
                until = time.monotonic() + 20
                while not (published := seen(started, 2, 0.05)) and time.monotonic() < until:
                    with contextlib.suppress(BlockingIOError):
                        os.read(end, 1 << 20)
                check(f"{it.what}: it is published once it can be written", published)
            started.stdin.close()
            Heard(started).ends(it.what, 0)
            os.close(end)


def torn_feeds(program, tool):
    """A half line is no record; a stray quote and a line without an end silence no feed."""
    with Failing(program, tool, "a feed that comes slowly") as it:
        fifo = it.room.fifo("a")
        started = it.room.start(*it.words(fifo), stdin=subprocess.PIPE)
        with open(fifo, "wb", buffering=0) as feed:
            feed.write(GOOD[:-1])
            time.sleep(0.2)
            check(f"{it.what}: a line without its line feed", ask(started, b"N,0,ABC\n").startswith(b"BEST,0,ABC,0,"))
            feed.write(b"\n")
            check(f"{it.what}: its line feed", seen(started, 1))
            feed.write(b'Q,N,"ABC,A,9.99,100,10.01,100\n' + OTHER)
            check(f"{it.what}: a line after a stray quote", seen(started, 2))
            feed.write(b"Q" * 100_000 + b"\n" + GOOD)
            check(f"{it.what}: a line after one too long", seen(started, 3))
            feed.write(b"Q,N,ABC,A,9.99,3")
        started.stdin.close()
        got = started.wait(MOST), started.stderr.read().decode()
        wanted = [f"nms_serve: A:{number}: L1: ?" for number in (2, 4, 6)] + ["nms_serve: feed A: ended: 6 records, 3 refused"]
        told = [line for line in got[1].split("\n") if line.startswith(("nms_serve: A:", "nms_serve: feed A:"))]
        check(it.what, got[0] == 6 and told == wanted, got)
    with Failing(program, tool, "/dev/zero as a feed") as it:
        started = it.room.start(*it.words("/dev/zero", fifo := it.room.fifo("b")), stdin=subprocess.PIPE)
        with open(fifo, "wb", buffering=0) as feed:
            feed.write(GOOD.replace(b"N", b"Y", 1))
            check(f"{it.what}: the other feed is served", seen(started, 1))
            time.sleep(0.5)
            with open(f"/proc/{started.pid}/status", encoding="ascii") as file:
                resident = int(re.search(r"VmRSS:\s+(\d+) kB", file.read())[1])
            check(f"{it.what}: memory is bounded", resident < 60_000, resident)
        started.kill()
        started.communicate()


def signals(program, tool):
    """A signal at full speed leaves complete lines; a run that is stopped goes on."""
    with Failing(program, tool, "STOP and CONT") as it:
        feed = it.room.write("a", (GOOD + OTHER) * 50_000)
        started = it.room.start(*it.words(feed))
        for _ in range(5):
            started.send_signal(signal.SIGSTOP)
            time.sleep(0.02)
            started.send_signal(signal.SIGCONT)
            time.sleep(0.01)
        status, _, errors = end_of(it.what, started)
        check(it.what, status == 0 and "nms_serve: feed A: ended: 100000 records, 0 refused\n" in errors, (status, errors))
    with Failing(program, tool, "signals") as texts:
        feed, asks = texts.room.write("a", (GOOD + OTHER) * 400_000), texts.room.write("in", b"N,0,ABC\nO,0,B,ABC,300,10.02\n" * 100_000)
        for number in (signal.SIGTERM, signal.SIGINT, signal.SIGKILL):
            for turn in range(20):
                with Failing(program, tool, f"{number.name} at full speed, turn {turn}") as it:
                    started = it.room.start(*it.words(feed, "/dev/null", "--client", f"{asks},{it.room.write('out', b'')}"))
                    time.sleep(0.02 + 0.005 * turn)
                    started.send_signal(number)
                    started.communicate()
                    ended = {0, -number}
                    check(f"{it.what}: its status", started.returncode in ended, started.returncode)
                    for name in ("tape", "tape.published", "out"):
                        if os.path.exists(it.room.path(name)):
                            with open(it.room.path(name), "rb") as file:
                                text = file.read()
                            # The kernel may cut a write to a file by a signal where a page ends.
                            whole = not text or text.endswith(b"\n") or len(text) % 4096 == 0
                            check(f"{it.what}: {name} has whole lines", whole, (len(text), text[-200:]))


def little_memory(program, tool):
    """With less and less memory a run ends with an out-of-memory code, or as ever; it never hangs."""
    statuses = set()
    for megabytes in (4, 6, 8, 10, 12, 16, 20, 24, 32, 48, 64, 96, 128, 256):
        with Failing(program, tool, f"a run within {megabytes} MB") as it:
            feed = it.room.write("a", (GOOD + OTHER) * 20_000)
            limit = lambda: resource.setrlimit(resource.RLIMIT_AS, (megabytes << 20, megabytes << 20))
            started = it.room.start(*it.words(feed, it.room.write("b", b"X,Y\n")), stdin=subprocess.PIPE, preexec_fn=limit)
            status, _, errors = end_of(it.what, started)
            named = re.search(r"^nms_serve: (G2|C9|E4|E6|E7)\b", errors, re.M) and status in (3, 5, 7)
            check(it.what, status in (0, 127, -11) or named, (status, errors[-300:]))
            statuses.add(status)
    check("a run with little memory is refused, and one with enough is not", 0 in statuses and len(statuses) > 1, statuses)


def main():
    if sys.argv[1] == "--check":
        _, _, tool, setup, tape, *streams = sys.argv
        texts = []
        for pair in streams:
            asks, answers = pair.split(",")
            with open(asks, "rb") as one, open(answers, "rb") as other:
                texts.append((one.read(), other.read()))
        replay(tape, tool, setup, tape, texts, resumed=True)
    else:
        # A shell starts what it runs in the background with INT ignored, and the programs would inherit that.
        signal.signal(signal.SIGINT, signal.default_int_handler)
        program, tool = map(os.path.abspath, sys.argv[1:3])
        runs, seed = int((sys.argv[3:] or [20])[0]), int((sys.argv[4:] or [611])[0])
        waiting = threading.Thread(target=silent_feeds, args=(program, tool))
        waiting.start()
        for part in (shown_help, refused_words, failing_paths, closed_streams, shared_tapes, one_file, only_checked, unread_errors, told_at_once, full_tape, epoch_borders, unresumed, refused_records, fixed_requests, torn_feeds, held_requests, kept_feeds, kept_clients, written_first, signals, asked_to_end, shown_state, timed_lines, kept_times, kept_record, synced_tapes, little_memory):
            part(program, tool)
        for number in range(runs):
            run_at_random(seed + number, program, tool)
            run_at_random(seed + 1000 + number, program, tool, is_short=True)
        waiting.join()
        check("silent feeds were tested to their end", Count.silences == 1)
    print(f"{Count.passed} passed, {Count.failed} failed")
    return 1 if Count.failed else 0


if __name__ == "__main__":
    sys.exit(main())
