#!/usr/bin/env python3
"""Tests what the serving program survives, as a part of the gate: ends at random moments, routers that die, and a machine that
runs out of streams, disk, descriptors or threads.

    tests/survive.py PROGRAM TOOL [PART [COUNT]]        PROGRAM is nms_serve, TOOL is nms_tool

    ends      a hundred ends by KILL, TERM and INT at random moments, each resumed
    deaths    a thousand routers of one client that die in the middle of a request, while fifteen others ask
    lacks     closed streams, full disks, no descriptors, no threads, FIFOs that are removed
    files     the files beside a tape, each where it can't be, and two runs on one file

With a PART only this is run; COUNT is how many ends, or deaths. Each part ends with a line of its own, which has how long its
slowest run took from what ended it to its end. That is not judged: a run has to end, within MOST_END seconds. The last line is
`N passed, M failed`, or `N passed, M failed, K skipped`.
"""
import contextlib
import os
import random
import re
import resource
import select
import shutil
import signal
import subprocess
import sys
import threading
import time
import tomllib

import replay
from replay import BLOCKED, DISK_FULL, FROM_B, GOOD, MANY, NO_FILE, OTHER, SETUP, SHORT
from replay import Count, Drawn, Failing, Heard, Room, Router, blocks, bytes_of, check, check_epochs, name_of, opening_of, read_epochs
from replay import records, state_has, stood, version_of

# Seconds within which a run ends, whatever ended it. It promises two; this machine may be busy.
MOST_END = 60
# Seconds within which a run under a tracer ends.
MOST = replay.MOST
# How many ends at random moments there are, how many of them in one day, and how many routers die.
ENDS, ENDS_OF_DAY, DEATHS = 100, 10, 1000
# A user that has no other process.
NOBODY = 54_321


class Slowest:
    """The run that took longest to end, of a part."""

    seconds, what = 0.0, "none"

    @classmethod
    def note(cls, seconds, what):
        if seconds > cls.seconds:
            cls.seconds, cls.what = seconds, what


class Skipped:
    count = 0

    @classmethod
    def note(cls, what, why):
        if os.environ.get("CI") == "true":
            Count.failed += 1
        else:
            cls.count += 1
        print(f"SKIPPED: {what}: {why}", flush=True)


def blocked():
    """Blocks what asks a run to end, from before the program is there."""
    signal.pthread_sigmask(signal.SIG_BLOCK, {signal.SIGTERM, signal.SIGINT})


def started_of(program, words, **how):
    """A run that can be asked to end."""
    how = {"stdin": subprocess.DEVNULL, "stdout": subprocess.PIPE, "stderr": subprocess.PIPE, **how}
    return subprocess.Popen([*BLOCKED, program, *words], **how)


def has_blocked(process):
    """Whether a process has blocked TERM, or has ended."""
    try:
        with open(f"/proc/{process}/status", encoding="ascii") as file:
            found = re.search(r"^SigBlk:\s+(\w+)", file.read(), re.M)
    except FileNotFoundError:
        return True
    return found is None or int(found[1], 16) >> (signal.SIGTERM - 1) & 1 == 1


def faults_of(lines):
    """The lines of faults."""
    return [line for line in lines if re.match(r"([A-Z]\d|usage)\b", line)]


def ends(what, heard, status, since, said=None, late=None):
    """Whether a run ends by itself, with this status and this fault alone, if any; its seconds since then are noted. A late one, a
    status and the form of a fault, is as good."""
    try:
        got = heard.started.wait(MOST_END)
    except subprocess.TimeoutExpired:
        heard.started.kill()
        got = "not done"
    Slowest.note(time.monotonic() - since, what)
    heard.join(10)
    faults = faults_of(heard.lines)
    is_late = late is not None and late[1] is not None and got == late[0] and len(faults) == 1 and re.fullmatch(late[1], faults[0]) is not None
    return check(what, is_late or (got, faults) == (status, [] if said is None else [said]), (got, faults, heard.lines[-9:]))


@contextlib.contextmanager
def at_both_ends(*paths):
    """Holds FIFOs open at both ends, so that no thread waits at them."""
    held = [os.open(path, os.O_RDWR | os.O_NONBLOCK) for path in paths]
    try:
        yield
    finally:
        for end in held:
            os.close(end)


def let_go(threads, paths):
    """Ends threads that may wait at FIFOs of a run that is over."""
    until = time.monotonic() + 20
    while any(thread.is_alive() for thread in threads) and time.monotonic() < until:
        with at_both_ends(*paths):
            time.sleep(0.005)
        for thread in threads:
            thread.join(0.01)
    return not any(thread.is_alive() for thread in threads)


# ---- ends at random moments

def left_by(tape):
    """What a killed run has left, by a plain reckoning: the last epoch of which something was published and its changes, the epoch
    that begins next, how many changes are cut, and how many of a begun epoch."""
    last = 0
    while os.path.exists(name_of(tape, last + 1)):
        last += 1

    def read(epoch):
        path = name_of(tape, epoch)
        whole = bytes_of(f"{path}.published").split(b"\n")[:-1] if os.path.exists(f"{path}.published") else []
        lines, count = bytes_of(path).split(b"\n"), int(whole[-1]) if whole else 0
        return lines[:count], len(lines) - count - (lines[-1] == b"")

    published, cut = read(last)
    if published or not last:
        return last, published, last + bool(published), cut, None
    before, nothing = read(last - 1)
    return last - 1, before, last, nothing, cut


def ranks_of(tool, setup, path, syms):
    """The ranks of each symbol on a tape, without versions and receipts."""
    said = {}
    for sym in syms:
        ran = subprocess.run([tool, "report", "--setup", setup, path, sym], stdout=subprocess.PIPE, check=False, timeout=MOST)
        head, *rows = ran.stdout.split(b"\n")[:-1]
        said[sym] = ran.returncode, head.split()[2:], [row.split()[:4] + row.split()[5:] for row in rows]
    return said


def has_times(what, tape, is_over):
    """Whether each epoch has a time for each of its changes. A run that was killed may have more times than changes in its last one."""
    good, epoch = True, 0
    while os.path.exists(f"{name_of(tape, epoch)}.times"):
        path = name_of(tape, epoch)
        times, changes = len(bytes_of(f"{path}.times")), bytes_of(path).count(b"\n")
        epoch += 1
        is_last = not os.path.exists(name_of(tape, epoch))
        good &= check(f"{what}: a time for each change of {path}", times == 16 * changes or not is_over and is_last and times > 16 * changes, (times, changes))
    return good


class Feeder(threading.Thread):
    """A feed that sends its text again and again, in pieces of random sizes, until the run is over."""

    def __init__(self, seed, path, text):
        super().__init__(daemon=True)
        self.chance, self.path, self.text, self.is_over = random.Random(seed), path, text, threading.Event()
        self.start()

    def run(self):
        place = 0
        with contextlib.suppress(BrokenPipeError), open(self.path, "wb", buffering=0) as file:
            while self.text and not self.is_over.is_set():
                size = self.chance.choice([1, 7, 100, 400, 2000])
                place = (place + file.write(self.text[place : place + size])) % len(self.text)
                self.is_over.wait(self.chance.random() * 0.01)
            self.is_over.wait()


class asked_again:
    """A client's lines again and again, until the run is over; and those that were sent."""

    def __init__(self, lines):
        self.lines, self.is_over, self.said = lines, threading.Event(), []

    def __iter__(self):
        while not self.is_over.is_set():
            self.said.append(self.lines[len(self.said) % len(self.lines)])
            yield self.said[-1]


class Day:
    """A tape that one run after another goes on with, each of which ends at a random moment."""

    def __init__(self, seed, program, tool):
        self.chance, self.what = random.Random(seed), f"ended and resumed, seed {seed}"
        self.program, self.tool, self.room = program, tool, Room(program, tool)
        self.drawn = Drawn(self.chance, True)
        # A plain reckoning of a tape takes long with many participants.
        while len(self.drawn.parts) > 8:
            self.drawn = Drawn(self.chance, True)
        # The last line may be one without its end.
        self.texts = {letter: text[: text.rfind(b"\n") + 1] for letter, text in self.drawn.texts.items()}
        self.setup, self.tape = self.room.write("setup.toml", self.drawn.setup()), self.room.path("tape")
        with open(self.setup, "rb") as file:
            self.lots = {it["name"]: it["lot"] for it in tomllib.load(file)["symbol"]}
        self.streams, self.runs, self.killed, self.cut = [], [], 0, {}

    def words(self, number):
        """The words of a run, with threads that feed and ask, and what ends them."""
        chance, room = self.chance, self.room
        words = ["--setup", self.setup, "--tape", self.tape, "--resume", "--times=+0000", "--status", room.path("status"), "--ready", room.path("ready")]
        words += ["--record", room.path("record"), "--sync", chance.choice(["none", "none", "second", "publish"])]
        words += [word for word in ("--keep", "--wait", "--log-time") if chance.random() < 0.4]
        fifos, threads, asking = [], [], []
        for letter, text in self.texts.items():
            if letter != "A" and chance.random() < 0.3:
                path = room.write(f"feed_{letter}.{number}", text)
            else:
                path = room.fifo(f"feed_{letter}.{number}")
                fifos.append(path)
                threads.append(Feeder(chance.random(), path, text))
            words += ["--feed", f"{letter}={path}"]
        for client, lines in enumerate(self.drawn.clients):
            lines = [*lines, *(f"N,0,{sym}\n".encode() for sym in self.drawn.syms)]
            chance.shuffle(lines)
            names = [f"{name}{client}.{number}" for name in ("asks", "answers")]
            if chance.random() < 0.4:
                paths = room.write(names[0], b"".join(lines * 20)), room.write(names[1], b"")
                asking.append((paths, None))
            else:
                paths = room.fifo(names[0]), room.fifo(names[1])
                fifos += paths
                threads.append(Router(chance.random(), paths, asked_again(lines), chance.choice([0.001, 0.01])))
                asking.append((paths, threads[-1]))
            words += ["--client", ",".join(paths)]
        return words, fifos, threads, asking

    def moment(self, started, heard, begun):
        """Waits for the moment of an end: soon, a while after the run serves, or as an epoch begins."""
        chance = self.chance
        kind = chance.choice(["soon", "serving", "serving", "epoch", "epoch"])
        if kind == "soon":
            time.sleep(chance.choice([0.02, 0.2]) * chance.random())
            return
        heard.has_one(r"serving")
        if kind == "serving":
            time.sleep(chance.choice([0.01, 0.1, 0.4]) * chance.random())
            return
        epoch, until = begun + chance.choice([0, 1, 1, 2, 4]), time.monotonic() + 3
        while not os.path.exists(name_of(self.tape, epoch)) and started.poll() is None and time.monotonic() < until:
            time.sleep(0.0002)
        time.sleep(chance.choice([0, 0, 0.001]))

    def run(self, number):
        """A run that ends at a random moment, by a signal that it sees or that it does not."""
        chance, what = self.chance, f"{self.what}, run {number}"
        left = self.found()
        words, fifos, threads, asking = self.words(number)
        begun = next_epoch(self.tape)
        how = chance.choice([signal.SIGKILL] * 3 + [signal.SIGTERM, signal.SIGINT])
        started = subprocess.Popen([self.program, *words], stdin=subprocess.DEVNULL, stdout=subprocess.PIPE, stderr=subprocess.PIPE, preexec_fn=blocked)
        heard = Lines(started)
        self.moment(started, heard, begun)
        is_alive, since = started.poll() is None, time.monotonic()
        started.send_signal(how)
        try:
            status = started.wait(MOST_END)
        except subprocess.TimeoutExpired:
            started.kill()
            status = "not done"
        if how != signal.SIGKILL:
            Slowest.note(time.monotonic() - since, what)
        heard.join(10)
        for it in threads:
            (it if isinstance(it, Feeder) else it.lines).is_over.set()
        check(f"{what}: its threads end", let_go(threads, fifos))
        check(f"{what}: it served until then", is_alive, heard.lines[-9:])
        self.killed += how == signal.SIGKILL
        counts = dict(found.groups() for line in heard.lines if (found := re.fullmatch(r"feed (.): ended: (\d+ records, \d+) refused", line)))
        counts = {letter: tuple(map(int, count.split(" records, "))) for letter, count in counts.items()}
        is_clean = how != signal.SIGKILL and re.fullmatch(r"\d+ changes, published \d+ times(, up to epoch \d+)?", (heard.lines or [""])[-1]) is not None
        wanted = -how if how == signal.SIGKILL else 6 if any(refused for _, refused in counts.values()) else 0
        good = check(f"{what}: its status", status == wanted or not is_clean and how != signal.SIGKILL and status in (0, 6), (how, status, heard.lines[-9:]))
        good &= check(f"{what}: it has no fault", faults_of(heard.lines) == [], heard.lines[-9:])
        good &= self.files_are_whole(what, is_clean)
        for paths, router in asking:
            answers = bytes_of(paths[1]) if router is None else router.answers
            asks = bytes_of(paths[0]) if router is None else b"".join(router.lines.said)
            if router is not None:
                good &= check(f"{what}: answers in a FIFO have whole lines", answers == b"" or answers.endswith(b"\n"), answers[-99:])
            good &= is_published(what, self.tape, answers)
            self.streams.append(whole_part(asks, answers))
        self.runs.append((begun, counts if is_clean else None))
        return good & self.was_found(what, left, heard, is_clean)

    def found(self):
        """What is left of the tape, and the ranks of its symbols."""
        if not os.path.exists(self.tape):
            return None
        left = left_by(self.tape)
        path = self.room.write("before", b"".join(line + b"\n" for line in left[1]))
        return left, ranks_of(self.tool, self.setup, path, self.drawn.syms)

    def files_are_whole(self, what, is_clean):
        """Whether each file has whole lines. The kernel may cut a write to a file by KILL where a page ends."""
        good = True
        for name in sorted(os.listdir(self.room.folder)):
            if not re.fullmatch(r"tape(\.\d+)?(\.times|\.published)?|record|answers\d+\.\d+", name) or not os.path.isfile(self.room.path(name)):
                continue
            text = bytes_of(self.room.path(name))
            is_whole = text == b"" or text.endswith(b"\n")
            if not is_whole and not is_clean and len(text) % 4096 == 0:
                self.cut[name] = len(text)
            # What KILL has cut of a router's answers stays so in all later runs.
            is_whole |= self.cut.get(name) == len(text) and (not is_clean or name.startswith("answers"))
            good &= check(f"{what}: {name} has whole lines", is_whole, (len(text), text[-99:]))
        good &= has_times(what, self.tape, is_clean)
        for name in ("status", "ready"):
            text = bytes_of(self.room.path(name)) if os.path.exists(self.room.path(name)) else b""
            states = b"ENDED" if is_clean and name == "status" else b"SERVING|ENDED"
            good &= check(f"{what}: {name} is whole", text == b"" or re.match(rb"RUN,(%s),\d+\n(.*\n)*\Z" % states, text) is not None, text)
        if is_clean:
            good &= check(f"{what}: it is ready no more", not os.path.exists(self.room.path("ready")))
        return good

    def was_found(self, what, left, heard, is_clean):
        """Whether the run went on with what was left, each symbol with the same ranks."""
        told = [line for line in heard.lines if line.startswith("resumed ")]
        if left is None:
            return check(f"{what}: nothing was left", not told, told)
        (last, published, epoch, cut, again), before = left
        if epoch:
            head = f"resumed {name_of(self.tape, last)}: {cut} changes were cut, "
            head += f"epoch {epoch} begins with " if again is None else f"and {again} of epoch {epoch}, which begins again with "
        else:
            head = f"resumed {self.tape}: {cut} changes were cut, epoch 0 begins again"
        if not told and not is_clean:
            return True
        good = check(f"{what}: it reports what was left", len(told) == 1 and told[0].startswith(head), (told, head))
        if self.runs[-2:-1] and self.runs[-2][1] is not None:
            good &= check(f"{what}: a run that was asked to end left nothing to cut", not cut and not again, told)
        if not epoch or not told:
            return good
        text = bytes_of(name_of(self.tape, last))
        good &= check(f"{what}: the tape is cut", text.count(b"\n") == len(published) and text[-1:] in (b"", b"\n"), len(published))
        opened = opening_of(published, list(self.drawn.parts), self.lots)
        now = bytes_of(name_of(self.tape, epoch)).split(b"\n")[: len(opened)]
        good &= check(f"{what}: the opening changes", now == opened and told[0] == f"{head}{len(opened)} opening changes", (now[:5], opened[:5], told))
        path = self.room.write("after", b"".join(line + b"\n" for line in now))
        after = ranks_of(self.tool, self.setup, path, self.drawn.syms)
        return good & check(f"{what}: the ranks are the same", before == after, (before, after))

    def last(self):
        """A last run without feeds, and the replay of all runs: each epoch is one script, for all clients of all runs."""
        words = ["--setup", self.setup, "--tape", self.tape, "--resume", "--times=+0000"]
        for letter in self.texts:
            words += ["--feed", f"{letter}=/dev/null"]
        asks, answers = self.room.write("asks", "".join(f"N,0,{sym}\n" for sym in self.drawn.syms)), self.room.write("answers", b"")
        left, what = self.found(), f"{self.what}, the last run"
        self.runs.append((next_epoch(self.tape), {}))
        heard = Lines(started_of(self.program, [*words, "--client", f"{asks},{answers}"]))
        good = ends(what, heard, 0, time.monotonic())
        good &= self.was_found(what, left, heard, True)
        self.streams.append((bytes_of(asks), bytes_of(answers)))
        good &= replay.replay(self.what, self.tool, self.setup, self.tape, self.streams, resumed=True)
        good &= self.took_in_order()
        if good:
            self.room.drop()
        else:
            print(f"{self.what}: its files are left in {self.room.folder}", flush=True)

    def took_in_order(self):
        """Whether each run took of each feed what it said first, and all that it counted if it was asked to end."""
        epochs, good = read_epochs(self.tape), True
        kinds = {name.encode(): letter for name, letter in self.drawn.parts.items()}
        feed_of = lambda line: "A" if line.startswith(b"R") else kinds[line.split(b",")[1]]
        taken, before = [], None
        for changes, _ in epochs:
            del changes[-1:]
            taken.append(changes[len(opening_of(before, list(self.drawn.parts), self.lots)) if before is not None else 0 :])
            before = changes
        for number, (begun, counts) in enumerate(self.runs[:-1]):
            lines = [line for each in taken[begun : self.runs[number + 1][0]] for line in each]
            for letter, said in self.drawn.said.items():
                own = [line for line in lines if feed_of(line) == letter]
                first = [said[place % len(said)] for place in range(len(own))] if said else []
                good &= check(f"{self.what}, run {number}: feed {letter} was taken in order", own == first, (len(own), own[:3], first[:3]))
                if counts is not None:
                    sent, refused = counts.get(letter, (0, 0))
                    good &= check(f"{self.what}, run {number}: feed {letter}: what was counted is on the tape", sent - refused == len(own), (counts, len(own)))
        return good


class Lines(Heard):
    """The lines of a run without their times."""

    def run(self):
        for line in self.started.stderr or ():
            self.lines.append(re.sub(r"^(\d[0-9T:.-]+Z )?nms_serve: ", "", line.decode("utf-8", "replace").rstrip("\n")))

    def has_one(self, pattern, most=30):
        """Whether a line of this form comes in time."""
        until = time.monotonic() + most
        while time.monotonic() < until:
            if any(re.fullmatch(pattern, line) for line in list(self.lines)):
                return True
            if self.started.poll() is not None:
                self.join(10)
                return any(re.fullmatch(pattern, line) for line in self.lines)
            time.sleep(0.002)
        return False


def next_epoch(tape):
    """The epoch with which the next run on a tape begins."""
    return left_by(tape)[2] if os.path.exists(tape) else 0


def is_published(what, tape, answers):
    """Whether each version that a client of a run saw was published before its end, and is whole in the tape."""
    epoch, stray, known = 0, [], {}
    for line in answers.split(b"\n")[:-1]:
        kind, *fields = line.split(b",")
        epoch = int(fields[0]) if kind == b"EPOCH" else epoch
        if kind not in (b"BEST", b"PLAN", b"THRU"):
            continue
        if epoch not in known:
            path = name_of(tape, epoch)
            known[epoch] = {0, *map(int, bytes_of(f"{path}.published").split(b"\n")[:-1])}, bytes_of(path).count(b"\n")
        version = version_of(line)
        if version not in known[epoch][0] or version > known[epoch][1]:
            stray.append((epoch, version))
    return check(f"{what}: each version that was seen is published", not stray, stray[:9])


def many_ends(program, tool, count):
    """A board that ends at random moments and is resumed: no torn file, no answer on a version that is not on the disk, the same
    ranks after as before, and each epoch replayed byte for byte."""
    killed = 0
    for place in range(0, count, ENDS_OF_DAY):
        day = Day(7300 + place, program, tool)
        for number in range(min(ENDS_OF_DAY, count - place)):
            day.run(number)
        day.last()
        killed += day.killed
    print(f"survive: {killed} ends by KILL, {count - killed} by TERM or INT", flush=True)


# The calls that alter a file, each of which a process may die before.
CALLS = ("openat", "write", "ftruncate", "rename", "unlink", "fdatasync", "fsync")


def each_call(program, tool):
    """A run that dies before its Nth call of a kind, for each N that it comes to: the next one goes on."""
    if shutil.which("strace") is None:
        Skipped.note("a run that dies before each of its calls", "there is no strace")
        return
    said = [stood(line).rstrip(b"\n") for line in (GOOD, OTHER)] * 10
    for call in CALLS:
        for number in range(1, 60):
            with Failing(program, tool, f"dies before {call} {number}", SHORT) as it:
                feed, asks, out = it.room.write("a", (GOOD + OTHER) * 10), it.room.write("asks", b"N,0,ABC\nO,0,B,ABC,300,10.02\n" * 4), it.room.write("out", b"")
                more = ["--times=+0000", "--status", it.room.path("status"), "--ready", it.room.path("ready"), "--record", it.room.path("record"), "--sync", "publish", "--resume"]
                words = [*it.words(feed), *more, "--client", f"{asks},{out}"]
                hooks = ["strace", "-f", "-qq", "-o", "/dev/null", "-e", f"trace={call}", "-e", f"inject={call}:signal=KILL:when={number}"]
                ran = subprocess.run([*hooks, program, *words], stdin=subprocess.DEVNULL, stdout=subprocess.DEVNULL, stderr=subprocess.PIPE, check=False, timeout=MOST)
                if ran.returncode == 0:
                    break
                check(f"{it.what}: it is killed", ran.returncode in (-9, 137), (ran.returncode, ran.stderr[-300:]))
                for name in os.listdir(it.room.folder):
                    text = bytes_of(it.room.path(name))
                    check(f"{it.what}: {name} has whole lines", text == b"" or text.endswith(b"\n"), text[-99:])
                is_there = os.path.exists(it.tape)
                good = not is_there or is_published(it.what, it.tape, bytes_of(out))
                last, published, epoch, _, _ = left_by(it.tape) if is_there else (0, [], 0, 0, None)
                # A run that read the feed to its end leaves its last changes.
                heard = Lines(started_of(program, [*it.words("/dev/null"), *more, "--client", f"{asks},{it.room.write('told', b'')}"]))
                good &= ends(f"{it.what}: it is resumed", heard, 0, time.monotonic())
                told = [line for line in heard.lines if line.startswith("resumed ")]
                good &= check(f"{it.what}: it says so", len(told) == is_there, told)
                epochs = read_epochs(it.tape)
                whole, begun = check_epochs(it.what, it.setup, epochs, True)
                good &= whole and has_times(it.what, it.tape, True)
                own = replay.taken_in(epochs, begun)
                good &= check(f"{it.what}: what was published stands", own == said[: len(own)] and epochs[last][0][: len(published)] == published, (own[-2:], published[-2:]))
                good &= check(f"{it.what}: its epochs", len(epochs) == epoch + 1, (len(epochs), epoch))
                forms = rb"ASKED,1,\d+,[^,]*Z,.*|BEST,.*|PLAN,.*|LEG,.*|CUT,.*|EPOCH,\d+|END"
                good &= check(f"{it.what}: the record has whole lines", all(re.fullmatch(forms, line) for line in bytes_of(it.room.path("record")).split(b"\n")[:-1]))
                if not good:
                    shutil.copytree(it.room.folder, f"{it.room.folder}-kept")
                    print(f"{it.what}: its files are left in {it.room.folder}-kept", flush=True)


# ---- routers that die

# A request of each kind, good and refused: all that a router sends.
KINDS = (b"N,0,ABC\n", b"E,3,ABC,10.0100\n", b"O,1,B,ABC,300,10.02\n", b"O,15,S,ABC,700,9.98,M\n", b"O,2,B,ABC,100,10.02,,N+Y\n", b"N,99,ABC\n", b"?\n")
# What a router is in the middle of as it dies.
ASKED = {"N": b"N,0,ABC\n", "E": b"E,3,ABC,10.0100\n", "O": b"O,1,B,ABC,300,10.02\n", "a refused one": b"N,99,ABC\n", "half a line": b"O,15,S,ABC,7"}
WAYS = ("answers first", "requests first", "killed")
# A process that sends its requests, says so, and reads its answers until it is killed. It opens either end first.
READER = 'printf %s "$3" >&3 && printf . && exec cat <&4 >"$4"'
OPENED = ('exec 3>"$1" 4<"$2" && ', 'exec 4<"$2" 3>"$1" && ')


def renew(paths):
    """Makes a client's FIFOs again, that of its requests first."""
    for path in paths:
        os.mkfifo(f"{path}.new")
    for path in paths:
        os.rename(f"{path}.new", path)


def whole_part(sent, got):
    """The requests that a router had whole answers to, and these answers."""
    lines = got.split(b"\n")
    while lines:
        text = b"".join(line + b"\n" for line in lines[:-1])
        lines.pop()
        with contextlib.suppress(ValueError, IndexError):
            count = len(blocks(text))
            return b"".join(line + b"\n" for line in records(sent)[:count]), text
    return b"", b""


class steady:
    """Good requests without an end, until the test is over; and those that were sent."""

    def __init__(self, seed, is_over):
        self.chance, self.is_over, self.said = random.Random(seed), is_over, []

    def __iter__(self):
        while not self.is_over.is_set():
            self.said.append(self.chance.choice(KINDS[:5]))
            yield self.said[-1]


def quote(path, part, is_over):
    """A feed that sends quotations until the test is over."""
    chance = random.Random(part)
    with open(path, "wb", buffering=0) as feed:
        while not is_over.is_set():
            bid = 99_000 + 100 * chance.randrange(10)
            feed.write(b"Q,%c,ABC,A,%d.%04d,100,10.01,%d\n" % (part, bid // 10_000, bid % 10_000, chance.choice([100, 200])))
            time.sleep(chance.random() * 0.004)


def dies(chance, it, paths, kind, way):
    """A router that dies in the middle of a request. Returns what it sent, and what it read."""
    before = b"".join(chance.choice(KINDS) for _ in range(chance.choice([0, 0, 1, 7, 40])))
    sent = before + ASKED[kind]
    if way == "killed":
        return sent, killed(chance, it, paths, sent)
    modes = [(paths[0], os.O_WRONLY), (paths[1], os.O_RDONLY)]
    if chance.random() < 0.5:
        modes.reverse()
    held = {mode: os.open(path, mode) for path, mode in modes}
    asks, output, got = held[os.O_WRONLY], held[os.O_RDONLY], b""
    os.write(asks, sent)
    how = chance.choice(["at once", "soon", "answered", "read in part"])
    if how == "soon":
        time.sleep(chance.choice([0.0005, 0.005, 0.03]))
    elif how != "at once" and (before or kind != "half a line") and select.select([output], [], [], MOST_END)[0] and how == "read in part":
        got = os.read(output, chance.choice([1, 30, 300, 65536]))
    for end in (output, asks) if way == "answers first" else (asks, output):
        os.close(end)
        time.sleep(chance.choice([0, 0, 0.001]))
    return sent, got


def killed(chance, it, paths, sent):
    """As `dies`, of a process that is killed."""
    got = it.room.path("got")
    # It may be killed before it has begun to write, and then an earlier one's answers are not its own.
    with contextlib.suppress(FileNotFoundError):
        os.remove(got)
    process = subprocess.Popen(["sh", "-c", chance.choice(OPENED) + READER, "sh", *paths, sent, got], stdout=subprocess.PIPE)
    check(f"{it.what}: a process sends its requests", bool(select.select([process.stdout], [], [], MOST_END)[0]))
    time.sleep(chance.choice([0, 0, 0.001, 0.005, 0.03]))
    process.kill()
    process.communicate()
    return bytes_of(got) if os.path.exists(got) else b""


class Timed(Router):
    """A router that notes how long it waited for each answer."""

    def __init__(self, *words):
        self.waits = []
        super().__init__(*words)

    def answer(self, output):
        since = time.monotonic()
        text = super().answer(output)
        self.waits.append(time.monotonic() - since)
        return text


def recorded(path):
    """What a record has of each client: its requests, and its answers, as of one connection."""
    found = {}
    for line in bytes_of(path).splitlines(keepends=True):
        if line.startswith(b"ASKED,"):
            client, _, _, *request = line.rstrip(b"\n").split(b",")[1:]
            asks, answers = found.setdefault(int(client), ([], []))
            asks.append(b",".join(request) + b"\n")
        else:
            answers.append(re.sub(rb"^ERR,\d+", b"ERR,%d" % len(asks), line))
    return {client: (b"".join(asks), b"".join(answers)) for client, (asks, answers) in found.items()}


def many_deaths(program, tool, count):
    """With --keep one client of sixteen dies in the middle of each kind of request, in each way, a thousand times. The others see no
    difference: each of their answers is the script's, no version falls, and none waits."""
    deaths = [(kind, way) for kind in ASKED for way in WAYS]
    for is_anew in (False, True):
        own = count // 5 if not is_anew else count - count // 5
        routers_that_die(program, tool, is_anew, [deaths[place % len(deaths)] for place in range(own)])


def routers_that_die(program, tool, is_anew, deaths):
    """As `many_deaths`: with FIFOs that each router makes again, and a record of all answers; or with the same FIFOs for all, where the
    next router comes once the end of the one before was found."""
    with Failing(program, tool, f"routers that die, {'FIFOs made again' if is_anew else 'FIFOs kept'}", MANY) as it:
        chance, fifos = random.Random(4711 + is_anew), (it.room.fifo("a"), it.room.fifo("b"))
        paths = [(it.room.fifo(f"in{number}"), it.room.fifo(f"out{number}")) for number in range(16)]
        words = it.words(*fifos, "--keep", *(["--record", it.room.path("record")] if is_anew else []))
        for pair in paths:
            words += ["--client", ",".join(pair)]
        heard = Lines(started_of(program, words))
        check(f"{it.what}: it serves", heard.has_one("serving"), heard.lines)
        is_over, streams = threading.Event(), []
        others = [Timed(chance.random(), pair, steady(chance.random(), is_over), 0.05) for pair in paths[1:]]
        feeds = [threading.Thread(target=quote, args=(path, part, is_over), daemon=True) for path, part in zip(fifos, b"NY")]
        for feed in feeds:
            feed.start()
        left = r"client 1: its router has left: \d+ requests, \d+ refused"
        has_left = lambda: sum(re.fullmatch(left, line) is not None for line in list(heard.lines))
        for turn, (kind, way) in enumerate(deaths, 1):
            if is_anew:
                renew(paths[0])
            sent, got = dies(chance, it, paths[0], kind, way)
            streams.append(whole_part(sent, got))
            until = time.monotonic() + MOST_END
            while not is_anew and has_left() < turn and time.monotonic() < until:
                time.sleep(0.005)
        if is_anew:
            renew(paths[0])
        last = Router(1, paths[0], list(KINDS))
        last.join(MOST_END)
        check(f"{it.what}: the next router is answered", last.answers.count(b"\n") > len(KINDS), (last.answers, heard.lines[-9:]))
        streams.append((b"".join(last.lines), last.answers))
        broken = rf"client 1: E2: the answers to client 1 could not be written: {re.escape(paths[0][1])}: Broken pipe \(os error 32\)"
        stray = [line for line in list(heard.lines) if not re.fullmatch(f"UNPROVED: .*|serving|{left}|{broken}", line)]
        check(f"{it.what}: no line is of another client or of a feed", not stray, stray[:5])
        is_over.set()
        until = time.monotonic() + 5
        for thread in [*feeds, *others]:
            thread.join(max(until - time.monotonic(), 0))
        check(f"{it.what}: the run goes on", heard.started.poll() is None, heard.lines[-9:])
        since = time.monotonic()
        heard.started.send_signal(signal.SIGTERM)
        ends(it.what, heard, 0, since)
        # A router that reads late may find the end of its answers only as the run ends.
        for other in others:
            other.join(MOST_END)
        check(f"{it.what}: the others are answered to their end", not any(other.is_alive() for other in others))
        known = has_left()
        check(f"{it.what}: routers that left", 0 < known <= len(deaths) + 1 if is_anew else known == len(deaths) + 1, (known, heard.lines[-9:]))
        versions = [version for _, answers in streams for _, block in blocks(answers) if (version := version_of(block)) is not None]
        check(f"{it.what}: the versions of its routers do not fall", versions != [] and versions == sorted(versions), versions[-30:])
        check(f"{it.what}: the counts of the others", all(f"client {number}: ended: {len(blocks(other.answers))} requests, 0 refused" in heard.lines for number, other in enumerate(others, 2)), heard.lines[-20:])
        told = [(b"".join(other.lines.said), other.answers) for other in others]
        if is_anew:
            found = recorded(it.room.path("record"))
            check(f"{it.what}: the record has what the others sent and got", [found.get(number) for number in range(2, 17)] == told)
            check(f"{it.what}: the record has half a line as no record", b"?\n" in found[1][0])
            streams.append(found[1])
        replay.replay(it.what, tool, it.setup, it.tape, streams + told)
        waits = sorted(wait for other in others for wait in other.waits)
        print(f"survive: {len(deaths)} deaths; the others had {len(waits)} answers, 99 of 100 in {1000 * waits[len(waits) * 99 // 100]:.1f} ms, the last in {1000 * waits[-1]:.1f} ms", flush=True)


# ---- what gives out

class Served:
    """A run with FIFOs for two feeds and a client, of which all are open, and what is beside its tape."""

    def __init__(self, it, *more, ways=("--keep",), client=True, around=(), setup=(), **how):
        self.it, room = it, it.room
        self.fifos = [room.fifo(name) for name in ("a", "b", "in", "out")]
        words = it.words(*self.fifos[:2], *ways, *more)
        if client:
            words += ["--client", ",".join(self.fifos[2:])]
        self.since, self.is_direct = time.monotonic(), around == ()
        started = subprocess.Popen([*around, *BLOCKED, it.room.program, *words], **{"stdin": subprocess.DEVNULL, "stdout": subprocess.PIPE, "stderr": subprocess.PIPE, **how})
        self.heard, self.held = Lines(started), {}

    def open(self, *names):
        """Opens the other ends, of FIFOs that are open or that it opens."""
        for name in names:
            mode = os.O_RDONLY if name == "out" else os.O_WRONLY
            self.held[name] = os.open(self.it.room.path(name), mode)
        return self

    def send(self, name, text):
        os.write(self.held[name], text)

    def answer(self, request):
        """The answer to a request."""
        self.send("in", request)
        return os.read(self.held["out"], 65536) if select.select([self.held["out"]], [], [], MOST_END)[0] else b""

    def is_seen(self, version):
        """Whether its client sees a version in time."""
        until = time.monotonic() + MOST_END
        while time.monotonic() < until:
            if b"BEST,0,ABC,%d," % version in self.answer(b"N,0,ABC\n"):
                return True
            time.sleep(0.01)
        return False

    def close(self, *names):
        for name in names or list(self.held):
            os.close(self.held.pop(name))

    def ask_to_end(self):
        """Asks it to end, as soon as it has blocked the signal."""
        until = time.monotonic() + MOST_END
        while self.is_direct and time.monotonic() < until and not has_blocked(self.heard.started.pid):
            time.sleep(0.01)
        self.since = time.monotonic()
        self.heard.started.send_signal(signal.SIGTERM)
        return self

    def ends(self, status, said=None, late=None):
        good = ends(self.it.what, self.heard, status, self.since, said, late)
        self.close()
        return good


def closed_streams(program, tool):
    """Each way to close standard streams, and each way to end: the status, what is on the tape, and the fault's line where it can be
    printed."""
    for closed in ("0<&-", "1>&-", "2>&-", "0<&- 1>&-", "0<&- 2>&-", "1>&- 2>&-", "0<&- 1>&- 2>&-"):
        for how, status, said in (
            ("TERM", 0, None),
            ("a refused record", 6, "E5: A:2: L1"),
            ("a full disk", 1, f"E2: the tape could not be written: {{}}: {DISK_FULL}"),
            ("a missing path", 1, f"E1: feed A could not be opened: {{}}: {NO_FILE}"),
        ):
            with Failing(program, tool, f"{closed}, and {how}") as it:
                around = ["sh", "-c", f'exec "$@" {closed}', "sh"]
                if how == "a missing path":
                    since = time.monotonic()
                    words = [*around, program, *it.words(it.room.path("none"), "/dev/null", "--client", f"{it.room.fifo('in')},{it.room.fifo('out')}")]
                    heard = Lines(subprocess.Popen(words, stdin=subprocess.PIPE, stdout=subprocess.PIPE, stderr=subprocess.PIPE))
                    ends(it.what, heard, status, since, None if "2>" in closed else said.format(it.room.path("none")))
                    continue
                if how == "a full disk":
                    os.symlink("/dev/full", it.tape)
                run = Served(it, "--strict", "--times=+0000", "--stale", "1", "--status", it.room.path("status"), "--record", it.room.path("record"), around=around, stdin=subprocess.PIPE).open("a", "b", "in", "out")
                if how != "a full disk":
                    run.send("a", GOOD)
                    check(f"{it.what}: it serves", run.is_seen(1))
                run.since = time.monotonic()
                if how == "TERM":
                    run.ask_to_end()
                else:
                    run.send("a", b"?\n" if how == "a refused record" else GOOD)
                run.ends(status, None if "2>" in closed or said is None else said.format(it.tape))
                if how != "a full disk":
                    files = bytes_of(it.tape), bytes_of(f"{it.tape}.published"), len(bytes_of(f"{it.tape}.times"))
                    check(f"{it.what}: its files", files == (stood(GOOD), b"1\n", 16), files)
                    check(f"{it.what}: the record has nothing else", re.fullmatch(rb"(ASKED,1,0,[^,]*,N,0,ABC\nBEST,0,ABC,[01],.*\n)+", bytes_of(it.room.path("record"))) is not None)
                    check(f"{it.what}: the state has nothing else", re.fullmatch(rb"RUN,ENDED,.*\nBOARD,0,1,0\n(FEED,.*\n){2}CLIENT,.*\n", bytes_of(it.room.path("status"))) is not None, bytes_of(it.room.path("status")))


def unread_errors(program, tool):
    """A standard error that nobody reads, and is full: a run ends all the same."""
    for how, status in (("TERM", 0), ("a refused record", 6)):
        with Failing(program, tool, f"an unread standard error, and {how}") as it:
            reader, writer = os.pipe()
            os.set_blocking(writer, False)
            with contextlib.suppress(BlockingIOError):
                while os.write(writer, b"." * 4096):
                    pass
            os.set_blocking(writer, True)
            run = Served(it, "--strict", stderr=writer).open("a", "b", "in", "out")
            os.close(writer)
            run.send("a", GOOD)
            check(f"{it.what}: it serves", run.is_seen(1))
            run.since = time.monotonic()
            if how == "TERM":
                run.ask_to_end()
            else:
                run.send("a", b"?\n")
            run.ends(status)
            os.close(reader)
            files = bytes_of(it.tape), bytes_of(f"{it.tape}.published")
            check(f"{it.what}: its files", files == (stood(GOOD), b"1\n"), files)


# Paths that stand on a full disk, how the run ends, and what it says.
FULL = (
    ("the setup of the tape", "tape.setup", "usage: a file of the tape is there already: {}", 2),
    ("the tape", "tape", f"E2: the tape could not be written: {{}}: {DISK_FULL}", 1),
    ("the lengths", "tape.published", f"E2: the file of published lengths could not be written: {{}}: {DISK_FULL}", 1),
    ("the times", "tape.times", f"E2: the file of times could not be written: {{}}: {DISK_FULL}", 1),
    ("the record", "record", f"E2: the record of answers could not be written: {{}}: {DISK_FULL}", 1),
)


def full_devices(program, tool):
    """Each file on a full device, and standard streams."""
    for what, name, said, status in FULL:
        for when in ("none", "second", "publish"):
            with Failing(program, tool, f"a full disk for {what}, with --sync {when}") as it:
                os.symlink("/dev/full", it.room.path(name))
                run = Served(it, "--times=+0000", "--record", it.room.path("record"), "--sync", when)
                if status == 1:
                    run.open("a", "b", "in", "out")
                    run.since = time.monotonic()
                    run.send("in" if name == "record" else "a", b"N,0,ABC\n" if name == "record" else GOOD)
                run.ends(status, said.format(it.room.path(name)))
    with Failing(program, tool, "standard error on a full disk") as it:
        with open("/dev/full", "wb") as full:
            run = Served(it, "--stale", "1", stderr=full)
        run.open("a", "b", "in", "out")
        run.send("a", b"?\n" * 100 + GOOD)
        check(f"{it.what}: it serves", run.is_seen(1))
        run.ask_to_end().ends(6)
    with Failing(program, tool, "standard output on a full disk") as it:
        with open("/dev/full", "wb") as full:
            run = Served(it, ways=(), client=False, stdin=subprocess.PIPE, stdout=full).open("a", "b")
        run.since = time.monotonic()
        run.heard.started.stdin.write(b"N,0,ABC\n")
        run.heard.started.stdin.close()
        run.ends(1, f"E2: the answers to client 1 could not be written: standard output: {DISK_FULL}")


def resumed_whole(it, tool, more, answers):
    """Whether a run that had no room left can be gone on with, once there is room: what was published stands, and what a client saw."""
    good = is_published(it.what, it.tape, answers)
    heard = Lines(started_of(it.room.program, [*it.words("/dev/null"), *more, "--resume", "--client", f"{it.room.write('again', b'N,0,ABC' + bytes([10]))},{it.room.write('told', b'')}"]))
    good &= ends(f"{it.what}: it is gone on with", heard, 0, time.monotonic())
    epochs = read_epochs(it.tape)
    good &= check_epochs(it.what, it.setup, epochs, True)[0]
    good &= has_times(it.what, it.tape, True)
    taken = [line for changes, _ in read_epochs(it.tape)[:1] for line in changes[:-1]]
    said = [stood(line).rstrip(b"\n") for line in (GOOD, OTHER)] * 400
    return good & check(f"{it.what}: the tape has the first changes", taken == said[: len(taken)], taken[:3])


def limited_files(program, tool):
    """No file may become longer than a number of bytes: each write may be cut anywhere. What was published stands, and is gone on with."""
    chance, codes = random.Random(86), set()
    limits = [0, 1, len(SETUP) - 1, len(SETUP), *sorted(chance.randrange(len(SETUP), 9000) for _ in range(26))]
    for most in limits:
        with Failing(program, tool, f"files of at most {most} bytes") as it:
            feed, asks, out = it.room.write("a", (GOOD + OTHER) * 150), it.room.write("asks", b"N,0,ABC\nO,0,B,ABC,300,10.02\n" * 20), it.room.write("answers", b"")

            def limit():
                # Without this the first write beyond the limit kills the program.
                signal.signal(signal.SIGXFSZ, signal.SIG_IGN)
                resource.setrlimit(resource.RLIMIT_FSIZE, (most, most))

            more, since = ["--times=+0000", "--record", it.room.path("record")], time.monotonic()
            heard = Lines(subprocess.Popen([program, *it.words(feed), *more, "--client", f"{asks},{out}"], stdin=subprocess.DEVNULL, stdout=subprocess.PIPE, stderr=subprocess.PIPE, restore_signals=False, preexec_fn=limit))
            try:
                status = heard.started.wait(MOST_END)
            except subprocess.TimeoutExpired:
                heard.started.kill()
                status = "not done"
            Slowest.note(time.monotonic() - since, it.what)
            heard.join(10)
            faults = faults_of(heard.lines)
            good = (status, faults) == (0, []) or status == 1 and len(faults) == 1 and re.fullmatch(r"E2: (.*) could not be written: \S+: File too large \(os error 27\)", faults[0])
            check(it.what, good, (status, faults))
            codes |= {fault.split(" could")[0] for fault in faults}
            if most >= len(SETUP):
                resumed_whole(it, tool, more[:1], bytes_of(out))
    check("the files that had no room", {"E2: the tape", "E2: the record of answers"} <= codes, codes)


@contextlib.contextmanager
def small_disk(kilobytes):
    """A folder on a disk of that size; None if this process may mount none."""
    folder = replay.tempfile.mkdtemp(prefix="nms_disk-")
    ran = subprocess.run(["mount", "-t", "tmpfs", "-o", f"size={kilobytes}k", "nms_disk", folder], stdout=subprocess.DEVNULL, stderr=subprocess.DEVNULL, check=False) if os.geteuid() == 0 and shutil.which("mount") else None
    is_mounted = ran is not None and ran.returncode == 0
    try:
        yield folder if is_mounted else None
    finally:
        if is_mounted:
            subprocess.run(["umount", folder], check=False)
        os.rmdir(folder)


def small_disks(program, tool):
    """A disk that gets full: the run ends, and goes on once there is room. If only its state is there, that is reported, and it goes on."""
    with small_disk(64) as disk:
        if disk is None:
            Skipped.note("a small disk", "this process may mount none")
            return
        for turn in range(6):
            with Failing(program, tool, f"a disk that gets full, turn {turn}") as it:
                it.tape = f"{disk}/tape"
                with open(f"{disk}/other", "wb") as other:
                    other.write(b"." * (1024 * (turn * 5 + 4)))
                more = ["--times=+0000", "--record", f"{disk}/record", "--status", f"{disk}/status"]
                run = Served(it, *more).open("a", "b", "in", "out")
                run.send("in", b"N,0,ABC\n" * 20 * (turn % 3))
                run.since = time.monotonic()
                with contextlib.suppress(BrokenPipeError):
                    for _ in range(2000):
                        run.send("a", GOOD + OTHER)
                answers = b""
                while select.select([run.held["out"]], [], [], MOST_END)[0] and (some := os.read(run.held["out"], 65536)):
                    answers += some
                run.heard.has_one(r"\d+ changes, published .*", MOST_END)
                found = [re.fullmatch(rf"E2: (the tape|the file of published lengths|the file of times|the record of answers) could not be written: {disk}/\S+: {re.escape(DISK_FULL)}", line) for line in faults_of(run.heard.lines)]
                check(f"{it.what}: its fault", len(found) == 1 and all(found), run.heard.lines)
                run.ends(1, faults_of(run.heard.lines)[0] if found else "")
                os.remove(f"{disk}/other")
                if turn > 1:
                    resumed_whole(it, tool, ["--times=+0000"], answers)
                for name in os.listdir(disk):
                    os.remove(f"{disk}/{name}")
        with Failing(program, tool, "a disk of the state that gets full") as it:
            status, ready = f"{disk}/status", f"{disk}/ready"
            run = Served(it, "--status", status, "--ready", ready).open("a", "b", "in", "out")
            check(f"{it.what}: at first it has room", state_has(status, r"RUN,SERVING,\d+", "FEED,A,0,0,,WRITER"))
            with contextlib.suppress(OSError), open(f"{disk}/other", "wb", buffering=0) as other:
                while True:
                    other.write(b"." * 4096)
            said = f"a file of the run's state could not be written: {status}: {DISK_FULL}"
            check(f"{it.what}: that is reported", run.heard.has(said), run.heard.lines)
            run.send("a", GOOD)
            check(f"{it.what}: it goes on", run.is_seen(1))
            check(f"{it.what}: a reader finds the state whole", re.fullmatch(rb"RUN,SERVING,\d+\nBOARD,0,0,0\n(FEED,.*\n){2}CLIENT,.*\n", bytes_of(status)) is not None, bytes_of(status))
            os.remove(f"{disk}/other")
            check(f"{it.what}: it is written again", state_has(status, "BOARD,0,1,0"))
            run.ask_to_end().ends(0)
            check(f"{it.what}: its end", state_has(status, r"RUN,ENDED,\d+", most=1) and not os.path.exists(ready), bytes_of(status))


def served_or_ends(it, run, status, said, late=None):
    """A run that has too little either serves, and can be asked to end, or ends by itself with this status and this fault. As it ends
    it may have the late one."""
    until = time.monotonic() + MOST_END
    while time.monotonic() < until and run.heard.started.poll() is None and not faults_of(list(run.heard.lines)) and "serving" not in run.heard.lines:
        time.sleep(0.01)
    # A thread that finds nothing left does that soon after.
    time.sleep(0.4)
    if run.heard.started.poll() is None and not faults_of(list(run.heard.lines)):
        run.ask_to_end().ends(0, late=(status, late))
        return True
    try:
        got = run.heard.started.wait(MOST_END)
    except subprocess.TimeoutExpired:
        run.heard.started.kill()
        got = "not done"
    Slowest.note(time.monotonic() - run.since, it.what)
    run.heard.join(10)
    faults = faults_of(run.heard.lines)
    check(it.what, got == status and len(faults) == 1 and re.fullmatch(said, faults[0]), (got, run.heard.lines[-5:]))
    return False


# A run with two feeds, a client and all its files always serves with 16 descriptors or more: SERVING.md counts 15, and 1 at its end.
ENOUGH = 16


def few_descriptors(program, tool):
    """With fewer and fewer descriptors a run serves, or ends by a fault that says so."""
    for keep in ((), ("--keep",)):
        served = set()
        # What waits for the disk opens the tape once more, and what wakes a thread opens its FIFO.
        late = r"E2: the tape could not be written: .*: Too many open files \(os error 24\)"
        for most in range(4, 20):
            with Failing(program, tool, f"{most} descriptors {keep}") as it:
                more = ["--times=+0000", "--record", it.room.path("record"), "--status", it.room.path("status"), "--sync", "second"]
                run = Served(it, *more, ways=keep, preexec_fn=lambda: resource.setrlimit(resource.RLIMIT_NOFILE, (most, most)))
                if served_or_ends(it, run, 1, rf"E1: .*: Too many open files \(os error 24\)|{late}", late):
                    served.add(most)
        # With a few less it may serve too, if it never needs all of them at once.
        check(f"a run serves with enough descriptors {keep}", served >= set(range(ENOUGH, 20)), served)


def none_left(program, tool):
    """A run that has all it needs, until no further descriptor is given: it goes on, or says why it ends."""
    def lowered(run):
        """Takes from a run what it does not have yet."""
        count = len(os.listdir(f"/proc/{run.heard.started.pid}/fd"))
        resource.prlimit(run.heard.started.pid, resource.RLIMIT_NOFILE, (count, 4096))
        run.since = time.monotonic()

    with Failing(program, tool, "no descriptor for the next epoch", SHORT) as it:
        run = Served(it).open("a", "b", "in", "out")
        run.send("a", GOOD)
        check(f"{it.what}: it serves", run.is_seen(1))
        lowered(run)
        run.send("a", (GOOD + OTHER) * 8)
        # A descriptor that was open for a moment as they were counted is enough for the tape.
        late = r"E1: the file of published lengths could not be opened: .*\.1\.published: Too many open files \(os error 24\)"
        run.ends(1, f"E1: the tape could not be opened: {it.tape}.1: Too many open files (os error 24)", (1, late))
    with Failing(program, tool, "no descriptor for a feed that is made again") as it:
        run = Served(it).open("a", "b", "in", "out")
        run.send("a", GOOD)
        check(f"{it.what}: it serves", run.is_seen(1))
        lowered(run)
        os.remove(it.room.path("a"))
        it.room.fifo("a")
        run.close("a")
        run.ends(1, f"E1: feed A could not be opened: {it.room.path('a')}: Too many open files (os error 24)")
    with Failing(program, tool, "no descriptor for a router that makes its FIFOs again") as it:
        run = Served(it).open("a", "b", "in", "out")
        run.send("a", GOOD)
        check(f"{it.what}: it serves", run.is_seen(1))
        lowered(run)
        run.close("in", "out")
        renew(run.fifos[2:])
        time.sleep(0.5)
        check(f"{it.what}: the run goes on", run.heard.started.poll() is None and not faults_of(run.heard.lines), run.heard.lines)
        resource.prlimit(run.heard.started.pid, resource.RLIMIT_NOFILE, (4096, 4096))
        run.open("in", "out")
        check(f"{it.what}: it is served once there is one", run.is_seen(1))
        run.ask_to_end().ends(0)
    with Failing(program, tool, "no descriptor for the state") as it:
        status = it.room.path("status")
        run = Served(it, "--status", status).open("a", "b", "in", "out")
        run.send("a", GOOD)
        check(f"{it.what}: it serves", run.is_seen(1) and state_has(status, "BOARD,0,1,0"))
        resource.prlimit(run.heard.started.pid, resource.RLIMIT_NOFILE, (3, 4096))
        check(f"{it.what}: that is reported", run.heard.has(f"a file of the run's state could not be written: {status}: Too many open files (os error 24)"), run.heard.lines)
        run.send("a", OTHER)
        check(f"{it.what}: it goes on", run.is_seen(2))
        resource.prlimit(run.heard.started.pid, resource.RLIMIT_NOFILE, (4096, 4096))
        check(f"{it.what}: it is written again", state_has(status, "BOARD,0,2,0"))
        run.ask_to_end().ends(0)


@contextlib.contextmanager
def opened_to_all():
    """Files that are made meanwhile may be read and written by each user."""
    was = os.umask(0)
    try:
        yield
    finally:
        os.umask(was)


def few_threads(program, tool):
    """With fewer and fewer threads a run serves, or ends by a fault that says so."""
    if os.geteuid() != 0 or shutil.which("prlimit") is None:
        Skipped.note("few threads", "this needs prlimit, and a user who may start a program as another")
        return
    as_other = {"user": NOBODY, "group": NOBODY, "extra_groups": []}
    with Failing(program, tool, "another user") as it:
        os.chmod(it.room.folder, 0o755)
        if subprocess.run([program, "--version"], stdout=subprocess.DEVNULL, stderr=subprocess.DEVNULL, check=False, **as_other).returncode != 0:
            Skipped.note("few threads", "another user may not start the program")
            return
    served = set()
    for most in range(1, 16):
        with Failing(program, tool, f"{most} threads") as it:
            os.chmod(it.room.folder, 0o777)
            limit = lambda: resource.setrlimit(resource.RLIMIT_NPROC, (most, most))
            with opened_to_all():
                run = Served(it, "--stale", "1", ways=(), preexec_fn=limit, **as_other)
            if served_or_ends(it, run, 7, r"E6: the board could not begin: a thread could not be started"):
                served.add(most)
    check("a run serves with enough threads", served and served == set(range(min(served), 16)), served)
    with Failing(program, tool, "no thread to wake those that wait") as it:
        os.chmod(it.room.folder, 0o777)
        with opened_to_all():
            run = Served(it, "--strict", ways=(), **as_other)
        check(f"{it.what}: it serves", run.heard.has_one("serving"), run.heard.lines)
        # Only that user may, or one with all rights.
        subprocess.run(["prlimit", f"--pid={run.heard.started.pid}", "--nproc=1:1"], check=True, **as_other)
        run.open("a")
        run.since = time.monotonic()
        run.send("a", b"?\n")
        run.ends(6, "E5: A:1: L1")


def removed_fifos(program, tool):
    """FIFOs that are removed, before their other ends come or while these are idle: a run that ends waits for none of them."""
    for ways in (("--strict",), ("--strict", "--keep")):
        for names in (("a",), ("in",), ("out",), ("in", "out"), ("a", "b", "in", "out")):
            for is_open in (False, True):
                for how in ("TERM", "a fault"):
                    with Failing(program, tool, f"{'+'.join(names)} removed {'while open' if is_open else 'before its other end comes'} {ways}, and {how}") as it:
                        run = Served(it, ways=ways)
                        # A fault needs a feed that is there.
                        if is_open:
                            run.open("a", "b", "in", "out")
                        elif how == "a fault":
                            run.open("b")
                        check(f"{it.what}: it serves", run.heard.has_one("serving"), run.heard.lines)
                        if is_open:
                            run.send("b", FROM_B)
                            check(f"{it.what}: it is seen", run.is_seen(1))
                        else:
                            time.sleep(0.1)
                        for name in names:
                            os.remove(it.room.path(name))
                        time.sleep(0.05)
                        run.since = time.monotonic()
                        if how == "TERM":
                            run.ask_to_end().ends(0)
                        else:
                            run.send("b", b"?\n")
                            run.ends(6, f"E5: B:{1 + is_open}: L1")


# ---- the files beside a tape

RUNNING = r"RUN,SERVING,\d+"


def own_files(program, tool):
    """The files of --status, --ready and --record where they can't be, or where something stands already."""
    there, one, folder = "usage: there is something else than the state of a run: {}", "usage: two paths name one file: {}: {}", "E1: a file of the run could not be made: {}: "
    for words, status, said, names in (
        (["--ready", "{}/folder"], 2, there, ["folder"]),
        (["--status", "{}/kept"], 2, there, ["kept.new"]),
        (["--status", "{}/tape"], 2, one, ["tape", "tape"]),
        (["--ready", "{}/tape.2.times"], 2, one, ["tape", "tape.2.times"]),
        (["--record", "{}/tape"], 2, one, ["tape", "tape"]),
        (["--record", "{}/tape.setup"], 2, one, ["tape", "tape.setup"]),
        (["--record", "{}/x", "--ready", "{}/x"], 2, one, ["x", "x"]),
        (["--record", "{}/setup.toml"], 2, "usage: the record is there already: {}", ["setup.toml"]),
        (["--record", "{}/none/x"], 1, folder + NO_FILE, ["none/x"]),
        (["--ready", "{}/none/x"], 1, folder + NO_FILE, ["none/x"]),
        (["--status", "{}/soft"], 2, there, ["soft"]),
        (["--record", "{}/soft"], 2, "usage: the record is there already: {}", ["soft"]),
        (["--record", "{}/lost/x"], 1, folder + "Not a directory (os error 20)", ["lost/x"]),
        (["--status", "{}/a\nb/x"], 1, folder + NO_FILE, ["a\\nb/x"]),
        # The link leads to a tape that is not there yet: the state would overwrite it.
        (["--status", "{}/led"], 2, there, ["led.new"]),
        (["--record", "{}/folder"], 2, "usage: the record is there already: {}", ["folder"]),
    ):
        with Failing(program, tool, f"words {words}") as it:
            os.mkdir(it.room.path("folder"))
            os.mkdir(it.room.path("kept.new"))
            it.room.write("lost", b"RUN,")
            os.symlink(it.room.write("other", b"other\n"), it.room.path("soft"))
            os.symlink("tape", it.room.path("led.new"))
            it.refuses([*it.words("/dev/null"), *(word.replace("{}", it.room.folder) for word in words)], status, said.format(*(it.room.path(name) for name in names)))
    denied = "Permission denied (os error 13)"
    as_other = {"user": NOBODY, "group": NOBODY, "extra_groups": []} if os.geteuid() == 0 else {}
    for word in ("--status", "--ready", "--record"):
        with Failing(program, tool, f"{word} in a folder in which nothing can be made") as it:
            os.chmod(it.room.folder, 0o777)
            os.mkdir(path := it.room.path("shut"))
            os.chmod(path, 0o555)
            it.ends(it.room.start(*it.words("/dev/null"), word, f"{path}/x", "--check", **as_other), 1, f"E1: a file of the run could not be made: {path}/x: {denied}")


def left_states(program, tool):
    """Files of a run's state as the end of a process leaves them, and links: the next run goes on, and a reader finds whole files."""
    def goes_on(it, *more):
        status, ready = it.room.path("status"), it.room.path("ready")
        run = Served(it, "--status", status, "--ready", ready, *more)
        check(f"{it.what}: it serves", run.heard.has_one("serving") and state_has(status, RUNNING, "CLIENT,1,NONE,0,0") and state_has(ready, "RUN,SERVING,0"), run.heard.lines)
        run.ask_to_end().ends(0)
        check(f"{it.what}: its end", state_has(status, r"RUN,ENDED,\d+", most=1) and not os.path.exists(ready), bytes_of(status))
        check(f"{it.what}: nothing else is left", not [name for name in os.listdir(it.room.folder) if name.endswith(".new")], os.listdir(it.room.folder))
        return run

    for name in ("status", "ready"):
        for text in (b"", b"R", b"RUN,", b"RUN,SERVING,3\nBOARD,0,1"):
            with Failing(program, tool, f"{name}.new left with {text}") as it:
                it.room.write(f"{name}.new", text)
                goes_on(it)
        with Failing(program, tool, f"{name} is a link to another run's") as it:
            other = it.room.write("other", b"RUN,ENDED,3\n")
            os.symlink(other, it.room.path(name))
            goes_on(it)
            check(f"{it.what}: the other is as before", bytes_of(other) == b"RUN,ENDED,3\n")
        with Failing(program, tool, f"{name} is a link to nothing") as it:
            os.symlink(it.room.path("nothing"), it.room.path(name))
            goes_on(it)
            check(f"{it.what}: nothing is made there", not os.path.exists(it.room.path("nothing")))
    if shutil.which("strace") is None:
        Skipped.note("a run that is killed between FILE.new and FILE", "there is no strace")
    else:
        for number in (1, 2, 3):
            with Failing(program, tool, f"killed before its state gets its name, time {number}") as it:
                hooks = ["strace", "-f", "-qq", "-o", "/dev/null", "-e", "trace=/^rename", "-e", f"inject=/^rename:signal=KILL:when={number}"]
                words = [*it.words(it.room.fifo("x")), "--status", it.room.path("status"), "--ready", it.room.path("ready")]
                ran = subprocess.run([*hooks, program, *words], stdin=subprocess.DEVNULL, stdout=subprocess.DEVNULL, stderr=subprocess.DEVNULL, check=False, timeout=MOST)
                check(f"{it.what}: it is killed", ran.returncode in (-9, 137), ran.returncode)
                names = [name for name in os.listdir(it.room.folder) if name.endswith(".new")]
                check(f"{it.what}: one has no name yet", len(names) == 1, os.listdir(it.room.folder))
                goes_on(it, "--resume")


def shared_state(program, tool):
    """Two runs with one file of their state: each page says that each has its own. Neither run ends for that."""
    with Failing(program, tool, "two runs on one state") as it:
        status, ready = it.room.path("status"), it.room.path("ready")
        run = Served(it, "--status", status, "--ready", ready)
        words = ["--setup", it.setup, "--tape", it.room.path("second"), "--feed", f"A={it.room.fifo('a2')}", "--feed", "B=/dev/null", "--status", status, "--ready", ready]
        second = Lines(started_of(program, words))
        check(f"{it.what}: both serve", run.heard.has_one("serving") and second.has_one("serving"), (run.heard.lines, second.lines))
        time.sleep(2.5)
        run.open("a", "b", "in", "out").send("a", GOOD)
        check(f"{it.what}: the first goes on", run.is_seen(1))
        since = time.monotonic()
        second.started.send_signal(signal.SIGTERM)
        ends(f"{it.what}: the second", second, 0, since)
        run.ask_to_end().ends(0)
        check(f"{it.what}: the state is whole", state_has(status, r"RUN,ENDED,\d+", "BOARD,0,1,0", most=1), bytes_of(status))
    with Failing(program, tool, "a second run with the words of the first") as it:
        more = ["--status", it.room.path("status"), "--ready", it.room.path("ready"), "--record", it.room.path("record"), "--times=+0000", "--resume"]
        run = Served(it, *more)
        check(f"{it.what}: the first serves", run.heard.has_one("serving") and state_has(it.room.path("ready"), RUNNING), run.heard.lines)
        words = [*it.words(*run.fifos[:2]), "--keep", *more, "--client", ",".join(run.fifos[2:])]
        for words in (words, [*words, "--check"]):
            since = time.monotonic()
            ends(f"{it.what}: it is refused", Lines(started_of(program, words)), 2, since, f"usage: another run has the tape: {it.tape}.setup")
        check(f"{it.what}: the first is still ready", os.path.exists(it.room.path("ready")))
        run.open("a", "b", "in", "out").send("a", GOOD)
        check(f"{it.what}: the first goes on", run.is_seen(1))
        run.ask_to_end().ends(0)


def strange_paths(program, tool):
    """Paths with a line feed, an escape and a colon: files are made by them, and no message breaks its line."""
    odd = "a\nb\x1b[2J: c"
    shown = "a\\nb\\x1b[2J: c"
    with Failing(program, tool, "paths with a line feed") as it:
        os.mkdir(folder := it.room.path(odd))
        it.tape = f"{folder}/tape"
        more = ["--status", f"{folder}/status", "--ready", f"{folder}/ready", "--record", f"{folder}/record", "--times=+0000", "--log-time"]
        for turn in range(2):
            for name in ("a", "b", "in", "out"):
                with contextlib.suppress(FileNotFoundError):
                    os.remove(it.room.path(name))
            run = Served(it, *more, *(["--resume"] if turn else [])).open("a", "b", "in", "out")
            run.send("a", GOOD)
            check(f"{it.what}: it serves, turn {turn}", run.is_seen(1 + turn) and state_has(f"{folder}/status", f"BOARD,{turn},{1 + turn},0"))
            run.ask_to_end().ends(0)
        told = [line for line in run.heard.lines if line.startswith("resumed ")]
        check(f"{it.what}: what it says", told == [f"resumed {it.room.folder}/{shown}/tape: 0 changes were cut, epoch 1 begins with 1 opening changes"], told)
        check(f"{it.what}: its files", sorted(os.listdir(folder)) == sorted(["record", "status", *(f"tape{end}" for end in ("", ".published", ".times", ".setup", ".1", ".1.published", ".1.times"))]), os.listdir(folder))
    room, none = "{}", f"{odd}/x"
    for words, status, said in (
        (["--feed", f"A={room}/{none}"], 1, f"E1: feed A could not be opened: {room}/{shown}/x: {NO_FILE}"),
        (["--client", f"{room}/{none},{room}/setup.toml"], 1, f"E1: the requests of client 1 could not be opened: {room}/{shown}/x: {NO_FILE}"),
        (["--status", f"{room}/{none}"], 1, f"E1: a file of the run could not be made: {room}/{shown}/x: {NO_FILE}"),
        (["--record", f"{room}/{none}"], 1, f"E1: a file of the run could not be made: {room}/{shown}/x: {NO_FILE}"),
    ):
        with Failing(program, tool, f"a missing path with a line feed: {words[0]}") as it:
            rest = [] if words[0] == "--feed" else ["--feed", "A=/dev/null"]
            full = [word.replace("{}", it.room.folder) for word in words]
            for more in ([], ["--check"]):
                since = time.monotonic()
                heard = Lines(started_of(program, ["--setup", it.setup, "--tape", it.tape, "--feed", "B=/dev/null", *rest, *full, *more]))
                ends(it.what, heard, status, since, said.replace("{}", it.room.folder))
    with Failing(program, tool, "a tape with a line feed that is there") as it:
        it.tape = it.room.write(odd, b"")
        it.refuses(it.words("/dev/null"), 2, f"usage: a file of the tape is there already: {it.room.folder}/{shown}")


def records_elsewhere(program, tool):
    """A record that is a FIFO, a folder, or a file that may not be written."""
    with Failing(program, tool, "a record whose reader leaves") as it:
        path = it.room.fifo("record")
        reader = os.open(path, os.O_RDONLY | os.O_NONBLOCK)
        run = Served(it, "--record", path).open("a", "b", "in", "out")
        check(f"{it.what}: it is answered", run.is_seen(0))
        os.close(reader)
        run.since = time.monotonic()
        run.send("in", b"N,0,ABC\n")
        run.ends(1, f"E2: the record of answers could not be written: {path}: Broken pipe (os error 32)")
    with Failing(program, tool, "a record that nobody reads, and TERM") as it:
        run = Served(it, "--record", it.room.fifo("record"))
        time.sleep(0.5)
        run.ask_to_end().ends(0)
    with Failing(program, tool, "a record of a run without answers") as it:
        path = it.room.path("record")
        Served(it, "--record", path).ask_to_end().ends(0)
        check(f"{it.what}: it is empty, or not there", not os.path.exists(path) or bytes_of(path) == b"")


def cut_records(program, tool):
    """A record whose last line a full disk has cut: the run that goes on ends that line first."""
    for kept in (b"", b"ASKED,1,0,,N,0,ABC\n", b"ASKED,1,0,,N,0,ABC\nBEST,0,AB"):
        with Failing(program, tool, f"a record that ends by {kept[-9:]}") as it:
            for name, text in {"tape": stood(GOOD), "tape.published": b"1\n", "tape.setup": SETUP.encode(), "record": kept}.items():
                it.room.write(name, text)
            asks, out = it.room.write("asks", b"N,0,ABC\n"), it.room.write("out", b"")
            Heard(it.room.start(*it.words("/dev/null"), "--resume", "--record", it.room.path("record"), "--client", f"{asks},{out}")).ends(it.what, 0)
            found = bytes_of(it.room.path("record"))
            begun = kept if not kept or kept.endswith(b"\n") else kept + b"\n"
            more = found[len(begun):].split(b"\n")
            good = found.startswith(begun) and more[0].startswith(b"ASKED,1,1,") and b"\n".join(more[1:]) == bytes_of(out)
            check(it.what, good, found)


def checked_again(program, tool):
    """--check with --resume: what is left, whole or not, and what a run would refuse; nothing is altered."""
    whole = {"tape": stood(GOOD) * 3, "tape.published": b"1\n3\n", "tape.setup": SETUP.encode()}
    for what, files, more, status, said in (
        ("a whole tape", whole, [], 0, "tape: {}/tape: 0 changes to cut, epoch 1 begins"),
        ("a tape to cut", {**whole, "tape": stood(GOOD) * 3 + stood(GOOD)[:7]}, [], 0, "tape: {}/tape: 1 changes to cut, epoch 1 begins"),
        ("another setup", {**whole, "tape.setup": b"x"}, [], 2, "usage: the tape is of another setup: {}/tape.setup"),
        ("no lengths", {name: text for name, text in whole.items() if name != "tape.published"}, [], 2, "usage: a file of the tape is missing: {}/tape.published"),
        ("a record that is there", {**whole, "record": b"ASKED\n"}, ["--record", "{}/record"], 0, "tape: {}/tape: 0 changes to cut, epoch 1 begins"),
        ("a state that is none", {**whole, "status": b"x"}, ["--status", "{}/status"], 2, "usage: there is something else than the state of a run: {}/status"),
        ("a word of --sync", whole, ["--sync", "now"], 2, "usage: --sync takes publish, second or none"),
        ("a zone", whole, ["--times=0"], 2, "usage: --times takes a sign and HHMM, as --times=-0500"),
    ):
        with Failing(program, tool, f"--check --resume of {what}") as it:
            for name, text in files.items():
                it.room.write(name, text)
            before = {name: bytes_of(it.room.path(name)) for name in os.listdir(it.room.folder)}
            heard = Lines(started_of(program, [*it.words("/dev/null"), "--resume", "--check", *(word.replace("{}", it.room.folder) for word in more)]))
            heard.started.wait(MOST_END)
            heard.join(10)
            line = said.replace("{}", it.room.folder)
            check(it.what, heard.started.returncode == status and line in heard.lines and ("checked: a run would serve" in heard.lines) == (status == 0), heard.lines)
            check(f"{it.what}: nothing is altered", before == {name: bytes_of(it.room.path(name)) for name in os.listdir(it.room.folder)})


def part(name, functions, *words):
    """Runs a part, and prints what it counted."""
    since, passed, failed = time.monotonic(), Count.passed, Count.failed
    Slowest.seconds, Slowest.what = 0.0, "none"
    for function in functions:
        begun = time.monotonic()
        function(*words)
        print(f"survive: {function.__name__}: {time.monotonic() - begun:.0f} s", flush=True)
    counts = f"{Count.passed - passed} passed, {Count.failed - failed} failed"
    print(f"survive: {name}: {counts}, {time.monotonic() - since:.0f} s; the slowest end took {Slowest.seconds:.2f} s: {Slowest.what}", flush=True)


PARTS = {
    "ends": (many_ends, each_call),
    "deaths": (many_deaths,),
    "lacks": (closed_streams, unread_errors, full_devices, limited_files, small_disks, few_descriptors, none_left, few_threads, removed_fifos),
    "files": (own_files, left_states, shared_state, strange_paths, records_elsewhere, cut_records, checked_again),
}


def main(words):
    program, tool, *more = words
    program, tool = os.path.abspath(program), os.path.abspath(tool)
    # A shell starts what it runs in the background with INT ignored, and the programs would inherit that.
    signal.signal(signal.SIGINT, signal.default_int_handler)
    names = [name for name in PARTS if not more or name == more[0]]
    if not names:
        sys.exit(__doc__)
    for name in names:
        functions = PARTS[name]
        if name in ("ends", "deaths"):
            count = int(more[1]) if len(more) > 1 else {"ends": ENDS, "deaths": DEATHS}[name]
            part(name, functions[:1], program, tool, count)
            functions = functions[1:]
        if functions:
            part(name, functions, program, tool)
    skipped = f", {Skipped.count} skipped" if Skipped.count else ""
    print(f"{Count.passed} passed, {Count.failed} failed{skipped}")
    return 1 if Count.failed else 0


if __name__ == "__main__":
    if len(sys.argv) < 3:
        sys.exit(__doc__)
    sys.exit(main(sys.argv[1:]))
