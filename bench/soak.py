#!/usr/bin/env python3
"""Runs the serving program for hours at the pace of a quiet day, with bursts, and checks all of the run afterwards. It is no part
of the gate.

    bench/soak.py HOURS FOLDER [PROGRAM TOOL]       nms_serve and nms_tool as they were built, if they are not given

Eight feeds and sixteen clients speak over FIFOs, with all that the program can be asked for: --keep, --resume, --stale, --sync
second, and the files of its state, its times and its record. The routers of the last client die again and again. The tape is
short, so the run goes over several epochs. FOLDER takes the tape, each client's requests and answers, and `soak.log`: a line a
minute with the program's memory, descriptors and processor time. At the end a TERM ends the run, and tests/replay.py replays it;
the last line is `N passed, M failed`.
"""
import contextlib
import os
import random
import re
import signal
import subprocess
import sys
import threading
import time

TOP = os.path.dirname(os.path.dirname(os.path.realpath(__file__)))
sys.dont_write_bytecode = True
sys.path.insert(0, f"{TOP}/tests")
import replay
import survive

LETTERS = replay.LETTERS
# Changes a second of each feed, and requests a second of each client, on average; a burst is sent at once.
CHANGES, REQUESTS, BURST = 40, 4, 5000
LIMIT = 300_000


class Day(replay.Drawn):
    """A setup of eight feeds and sixteen desks whose feeds and clients are drawn as they are sent."""

    def __init__(self, chance):
        self.chance, self.feeds, self.desks, self.queue, self.limit = chance, 8, 16, 64, LIMIT
        self.parts = {f"P{letter}{place}": letter for letter in LETTERS for place in range(4)}
        self.syms, self.base = ["ABC", "BRK.A", "PNY", "XYZ"], 100_000


class Feed(threading.Thread):
    """Sends changes, a few at a time and now and then a burst, until the end."""

    def __init__(self, day, letter, path, until):
        super().__init__(daemon=True)
        self.day, self.letter, self.path, self.until, self.sent = day, letter, path, until, 0
        self.start()

    def lines(self, count):
        chance = self.day.chance
        for _ in range(count):
            refused = chance.random() < 0.002
            yield self.day.draw_refused(self.letter) if refused else self.day.draw_change(self.letter)[0]

    def run(self):
        chance = self.day.chance
        with open(self.path, "wb", buffering=0) as file:
            while time.monotonic() < self.until:
                pause = 2 * chance.random()
                count = BURST if chance.random() < 0.0005 else round(CHANGES * pause)
                file.write("".join(f"{line}\n" for line in self.lines(count)).encode())
                self.sent += count
                time.sleep(pause)


class Client(threading.Thread):
    """Sends requests until the end, and keeps them and the answers in files."""

    def __init__(self, day, paths, kept, until):
        super().__init__(daemon=True)
        self.day, self.paths, self.kept, self.until, self.sent = day, paths, kept, until, 0
        self.start()

    def run(self):
        chance = self.day.chance
        with open(self.paths[0], "wb", buffering=0) as asks, open(self.paths[1], "rb", buffering=0) as output:
            reading = threading.Thread(target=self.read, args=[output], daemon=True)
            reading.start()
            with open(self.kept[0], "wb") as file:
                while time.monotonic() < self.until:
                    pause = 2 * chance.random()
                    lines = self.day.draw_requests(round(REQUESTS * pause))
                    file.writelines(lines)
                    asks.write(b"".join(lines))
                    self.sent += len(lines)
                    time.sleep(pause)
            asks.close()
            reading.join()

    def read(self, output):
        with open(self.kept[1], "wb") as file:
            while more := output.read(65536):
                file.write(more)


class Dying(threading.Thread):
    """Routers of a client that come one after another. Each sends some requests, some of them in part, and leaves without a look at
    all answers."""

    def __init__(self, day, paths, until):
        super().__init__(daemon=True)
        self.day, self.paths, self.until, self.sent, self.count = day, paths, until, 0, 0
        self.start()

    def run(self):
        chance = self.day.chance
        while time.monotonic() < self.until:
            if chance.random() < 0.5:
                survive.renew(self.paths)
            ends = [os.open(self.paths[0], os.O_WRONLY), os.open(self.paths[1], os.O_RDONLY)]
            text = b"".join(self.day.draw_requests(chance.choice([1, 2, 7, 40])))
            os.write(ends[0], text[: chance.randrange(1, len(text) + 1)])
            time.sleep(chance.choice([0, 0.001, 0.1, 1]))
            for end in chance.sample(ends, 2):
                os.close(end)
            self.sent += text.count(b"\n")
            self.count += 1
            time.sleep(chance.choice([0, 0.2, 1, 5]))


def recorded(path):
    """What a record has of each client: its requests, and its answers."""
    found = {}
    for line in replay.bytes_of(path).splitlines(keepends=True):
        if head := re.fullmatch(rb"ASKED,(\d+),\d+,[^,]*(?:,(.*))?\n", line):
            asks, answers = found.setdefault(int(head[1]), ([], []))
            asks.append((head[2] or b"") + b"\n")
        else:
            answers.append(line)
    return {number: (b"".join(asks), b"".join(answers)) for number, (asks, answers) in found.items()}


def accepted(asks, answers):
    """The requests that were not refused, and their answers: the numbers of the others begin again with each router."""
    kept, last = ([], []), 0
    for ask, (epoch, answer) in zip(replay.records(asks), replay.blocks(answers)):
        if not answer.startswith(b"ERR"):
            kept[0].append(ask + b"\n")
            kept[1].append((b"EPOCH,%d\n" % epoch if epoch > last else b"") + answer)
            last = epoch
    return b"".join(kept[0]), b"".join(kept[1])


def use_of(pid):
    """The memory, its peak, the descriptors and the processor seconds of a process."""
    with open(f"/proc/{pid}/status", encoding="ascii") as file:
        told = dict(line.split(":", 1) for line in file)
    with open(f"/proc/{pid}/stat", encoding="ascii") as file:
        ticks = sum(map(int, file.read().rpartition(")")[2].split()[11:13]))
    memory = f"{told['VmRSS'].split()[0]} kB, peak {told['VmHWM'].split()[0]} kB, {len(os.listdir(f'/proc/{pid}/fd'))} descriptors"
    return f"{memory}, {ticks / os.sysconf('SC_CLK_TCK'):.1f} s"


def main(words):
    hours, folder = float(words[0]), words[1]
    program, tool = words[2:] or (f"{TOP}/crates/{name}/out/{name}" for name in ("nms_serve", "nms_tool"))
    os.makedirs(folder)
    seed = random.randrange(1 << 32)
    chances = random.Random(seed)
    day, began = Day(random.Random(seed)), time.monotonic()
    until, tape, setup = began + 3600 * hours, f"{folder}/tape", f"{folder}/setup.toml"
    with open(setup, "w", encoding="ascii") as file:
        file.write(day.setup())
    call, kept, threads = [*replay.BLOCKED, program, "--setup", setup, "--tape", tape, *"--keep --resume --stale 5 --log-time --sync second".split()], [], []
    call += ["--times=+0000", "--status", f"{folder}/status", "--ready", f"{folder}/ready", "--record", f"{folder}/record"]
    for letter in LETTERS:
        os.mkfifo(path := f"{folder}/feed_{letter}")
        call += ["--feed", f"{letter}={path}"]
        threads.append(Feed(Day(random.Random(chances.random())), letter, path, until))
    for number in range(16):
        paths = [f"{folder}/{name}{number}" for name in ("in", "out")]
        for path in paths:
            os.mkfifo(path)
        call += ["--client", ",".join(paths)]
        own = Day(random.Random(chances.random()))
        if number == 15:
            threads.append(Dying(own, paths, until))
            break
        kept.append((f"{folder}/asks{number}", f"{folder}/answers{number}"))
        threads.append(Client(own, paths, kept[-1], until))
    with open(f"{folder}/soak.log", "w", encoding="ascii", buffering=1) as log, open(f"{folder}/errors", "wb") as errors:
        print(f"seed {seed}", file=log)
        started = subprocess.Popen(call, stdin=subprocess.DEVNULL, stdout=subprocess.DEVNULL, stderr=errors)
        while started.poll() is None:
            sent = [sum(it.sent for it in threads if isinstance(it, kind)) for kind in (Feed, (Client, Dying))]
            print(f"{(time.monotonic() - began) / 60:.0f} minutes: {sent[0]} changes, {sent[1]} requests, {use_of(started.pid)}", file=log)
            for _ in range(60):
                if started.poll() is None and not (time.monotonic() > until and all(it.sent and not it.is_alive() for it in threads)):
                    time.sleep(1)
            if time.monotonic() > until + 30:
                started.send_signal(signal.SIGTERM)
                with contextlib.suppress(subprocess.TimeoutExpired):
                    started.wait(30)
        print(f"status {started.returncode}", file=log)
    for thread in threads:
        thread.join(60)
    streams = [tuple(replay.bytes_of(path) for path in paths) for paths in kept]
    found = recorded(f"{folder}/record")
    for number, (asks, answers) in enumerate(streams, 1):
        good = found[number] == (b"".join(it + b"\n" for it in replay.records(asks)), answers)
        replay.check(f"the record has the requests and the answers of client {number}", good)
    replay.check("the status", started.returncode == 6, started.returncode)
    replay.replay("the run", tool, setup, tape, [*streams, accepted(*found[16])])
    survive.has_times("the run", tape, True)
    replay.check("its state says that it has ended", replay.bytes_of(f"{folder}/status").startswith(b"RUN,ENDED,"))
    replay.check("it is no longer ready", not os.path.exists(f"{folder}/ready"))
    epochs = len(replay.read_epochs(tape))
    replay.check("at least five epochs", epochs >= 5, epochs)
    print(f"{sum(it.count for it in threads if isinstance(it, Dying))} routers of the last client died")
    print(f"{epochs} epochs; files in {folder}")
    print(f"{replay.Count.passed} passed, {replay.Count.failed} failed")
    return min(replay.Count.failed, 1)


if __name__ == "__main__":
    if len(sys.argv) not in (3, 5):
        sys.exit(__doc__)
    sys.exit(main(sys.argv[1:]))
