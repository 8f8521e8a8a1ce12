#!/usr/bin/env python3
"""Measures a board that runs, next to what was asked of it. It is no part of the gate; run it on a machine that does nothing else.

    bench/serving.py [PART..]       orders, looks, pipes, resume: all, if none is named

    orders    from an order to the last byte of its answer, while a feed sends 50,000 changes a second
    looks     from a change to the last byte of a look that shows it, with that feed and without it
    pipes     changes a second from eight pipes, from the first to the end of the run
    resume    seconds from the start of a run to `serving`, over a tape of 10,000,000 changes

The program is NMS_SERVE, or the one that ./nms_serve built. RUNS runs are made of each (3 if it is not set), and all are printed: the
best one counts. SHARE makes all counts smaller for a trial, as SHARE=0.01. Needs a C compiler.
"""
import os
import random
import re
import resource
import signal
import subprocess
import sys
import tempfile
import time

BENCH = os.path.dirname(os.path.realpath(__file__))
PROGRAM = os.path.realpath(os.environ.get("NMS_SERVE", f"{BENCH}/../crates/nms_serve/out/nms_serve"))
RUNS, SHARE = int(os.environ.get("RUNS", 3)), float(os.environ.get("SHARE", 1))
PACE, CHANGES = 50_000, 10_000_000
# What was asked: microseconds, changes a second, seconds.
ORDER, LOOK, PIPES, RESUME = 30, 60, 1_000_000, 5
LETTERS = "ABCDEFGH"
SYMBOLS = [chr(65 + place // 26 % 26) + chr(65 + place % 26) + "A" for place in range(200)]


def setup_of(feeds, limit=CHANGES):
    """A setup of sixteen participants, and one more in feed B for the changes whose looks are timed."""
    parts = [(f"P{chr(65 + place)}", LETTERS[place % max(feeds - (feeds == 2), 1)]) for place in range(16)]
    parts += [("ZZ", "B")] if feeds == 2 else []
    rows = "".join(f'[[participant]]\nname = "{name}"\nfeed = "{feed}"\nfee = 3000000\nrate = 300\n' for name, feed in parts)
    syms = "".join(f'[[symbol]]\nname = "{name}"\nlot = 100\n' for name in [*SYMBOLS, "ZZZ"])
    return f"tape_limit = {limit}\nqueue = 1024\ndesks = 4\nfeeds = {feeds}\n{rows}{syms}", parts


def changes_of(chance, names, count):
    """Quotations of some participants, whose prices drift by a cent."""
    middle, lines = {sym: chance.randint(1000, 50_000) for sym in SYMBOLS}, []
    for _ in range(count):
        sym = chance.choice(SYMBOLS)
        middle[sym] = max(100, middle[sym] + chance.choice((-1, 0, 0, 1)))
        bid, offer = middle[sym] - chance.randint(0, 4), middle[sym] + chance.randint(0, 4)
        lines.append(f"Q,{chance.choice(names)},{sym},A,{bid // 100}.{bid % 100:02},{100 * chance.randint(1, 20)},{offer // 100}.{offer % 100:02},{100 * chance.randint(1, 20)}\n")
    return lines, middle


def orders_of(chance, middle, count):
    for _ in range(count):
        sym, side = chance.choice(SYMBOLS), chance.choice("BS")
        cents = middle[sym] + (4 if side == "B" else -4)
        yield f"O,0,{side},{sym},{100 * chance.randint(1, 40)},{cents // 100}.{cents % 100:02}\n"


def cleared():
    """Removes the tape and its FIFOs."""
    for name in os.listdir("."):
        if name.startswith("tape") or name.startswith("fifo_"):
            os.remove(name)


def started(*words):
    """A run, once it serves. How long that took is `seconds`."""
    since = time.monotonic()
    process = subprocess.Popen(["env", "--block-signal=TERM,INT", PROGRAM, *words], stdin=subprocess.DEVNULL, stdout=subprocess.DEVNULL, stderr=subprocess.PIPE)
    told = []
    for line in process.stderr:
        told.append(line)
        if line == b"nms_serve: serving\n":
            process.seconds = time.monotonic() - since
            return process
    sys.exit(f"the program did not serve: {b''.join(told[-3:])}")


def fifos(*names):
    for name in names:
        os.mkfifo(f"fifo_{name}")
    return [f"fifo_{name}" for name in names]


def report(what, found, unit, most=None, least=None):
    """Prints the figures of all runs, the best of them, and whether that is what was asked."""
    best = min(found) if least is None else max(found)
    good = best <= most if most is not None else best >= least if least is not None else None
    asked = "" if good is None else f"   asked: {'at most' if least is None else 'at least'} {most or least:,}: {'reached' if good else 'NOT REACHED'}"
    print(f"{what:<52} {best:>14,.1f} {unit}   of {', '.join(f'{it:,.1f}' for it in found)}{asked}", flush=True)


def timed(load, mode, pace, count, rest, *more):
    """The times of orders, or of changes, in microseconds: the middle, the 99th of 100, the 999th of 1,000, the longest; and the pace that
    was kept."""
    cleared()
    feed, changed, asks, answers = fifos("a", "b", "asks", "answers")
    process = started("--setup", "setup.toml", "--tape", "tape", "--feed", f"A={feed}", "--feed", f"B={changed}", "--client", f"{asks},{answers}", *more)
    last = "orders" if mode == "orders" else changed
    held = os.open(changed, os.O_RDWR) if mode == "orders" else None
    ran = subprocess.run(["./load", mode, feed, load, str(pace), asks, answers, last, str(count), str(rest)], stdout=subprocess.PIPE, check=True)
    if held is not None:
        os.close(held)
    process.communicate(timeout=60)
    *times, kept = map(float, ran.stdout.split())
    if kept < 0.98 * pace:
        sys.exit(f"the feed sent {kept:.0f} changes a second, and not {pace}")
    return [it / 1000 for it in times]


def measure_times(which):
    """Orders, or looks."""
    text, parts = setup_of(2)
    chance = random.Random(86)
    lines, middle = changes_of(chance, [name for name, feed in parts if feed == "A"], 100_000)
    for name, written in (("setup.toml", [text]), ("changes", lines), ("orders", orders_of(chance, middle, 5000))):
        with open(name, "w", encoding="ascii") as file:
            file.writelines(written)
    count = max(int(60_000 * SHARE), 100)
    if which == "orders":
        ways = (("orders", PACE, 0, "order to answer, one after another", ORDER), ("orders", PACE, 300, "order to answer, 300 us between two", None))
    else:
        ways = (("changes", PACE, 300, f"change to a look, {PACE:,} changes a second", LOOK), ("changes", 0, 300, "change to a look, no other changes", None))
    for mode, pace, rest, what, most in ways:
        found = [timed("changes", mode, pace, count, rest) for _ in range(RUNS)]
        for place, name in enumerate(("50%", "99%", "99.9%", "longest")):
            report(f"{what}: {name}", [times[place] for times in found], "us", most if name == "99%" else None)


def measure_pipes():
    """Changes a second from eight pipes, with the most memory that the program had."""
    text, parts = setup_of(8)
    chance, count, found, memory = random.Random(8), max(int(4_000_000 * SHARE), 8000), [], 0
    with open("setup.toml", "w", encoding="ascii") as file:
        file.write(text)
    for letter in LETTERS:
        lines, _ = changes_of(chance, [name for name, feed in parts if feed == letter], min(count // 8, 50_000))
        with open(f"feed_{letter}", "w", encoding="ascii") as file:
            for place in range(0, count // 8, len(lines)):
                file.writelines(lines[: count // 8 - place])
    for _ in range(RUNS):
        cleared()
        words, senders = [], []
        for letter in LETTERS:
            words += ["--feed", f"{letter}={fifos(letter)[0]}"]
        process = started("--setup", "setup.toml", "--tape", "tape", *words)
        since = time.monotonic()
        for letter in LETTERS:
            senders.append(subprocess.Popen(["sh", "-c", f"exec cat feed_{letter} > fifo_{letter}"]))
        errors = process.stderr.read().decode()
        _, status, used = os.wait4(process.pid, 0)
        process.returncode = status
        took, memory = time.monotonic() - since, max(memory, used.ru_maxrss)
        for sender in senders:
            sender.wait()
        if status or f"nms_serve: {count // 8 * 8} changes, " not in errors:
            sys.exit(f"the run is not whole: {errors[-300:]}")
        found.append(count / took)
    report("changes a second from eight pipes", found, "/s", least=PIPES)
    print(f"{'':<52} {memory:>14,} kB at most", flush=True)


def measure_resume():
    """A run over a tape of 10,000,000 changes that was killed, up to `serving`."""
    text, parts = setup_of(1)
    count = max(int(CHANGES * SHARE), 10_000)
    with open("setup.toml", "w", encoding="ascii") as file:
        file.write(text)
    lines, _ = changes_of(random.Random(10), [name for name, _ in parts], min(count, 100_000))
    text = "".join(lines).encode()
    cleared()
    (feed,) = fifos("a")
    process = started("--setup", "setup.toml", "--tape", "tape", "--feed", f"A={feed}")
    with open(feed, "wb", buffering=0) as file:
        for _ in range(count // len(lines)):
            rest = memoryview(text)
            while rest:
                rest = rest[file.write(rest) :]
        whole = b"%d\n" % (count // len(lines) * len(lines))
        while not read_end("tape.published").endswith(b"\n" + whole):
            time.sleep(0.05)
        process.send_signal(signal.SIGKILL)
        process.wait()
    found = []
    for _ in range(RUNS):
        for name in os.listdir("."):
            if name.startswith("tape.1"):
                os.remove(name)
        process = started("--setup", "setup.toml", "--tape", "tape", "--feed", "A=/dev/null", "--resume")
        found.append(process.seconds)
        process.send_signal(signal.SIGTERM)
        process.communicate(timeout=60)
    report(f"seconds until a run goes on after {count:,} changes", found, "s", most=RESUME)
    peak = resource.getrusage(resource.RUSAGE_CHILDREN).ru_maxrss
    print(f"{'':<52} {peak:>14,} kB at most", flush=True)


def read_end(path):
    """The last bytes of a file."""
    with open(path, "rb") as file:
        file.seek(max(os.path.getsize(path) - 100, 0))
        return file.read()


def main(parts):
    measures = {"orders": lambda: measure_times("orders"), "looks": lambda: measure_times("looks"), "pipes": measure_pipes, "resume": measure_resume}
    if set(parts) - set(measures):
        sys.exit(__doc__)
    with open("/proc/loadavg", encoding="ascii") as file:
        load = file.read().split()[0]
    print(f"{PROGRAM}: {subprocess.run([PROGRAM, '--version'], stdout=subprocess.PIPE, check=True).stdout.decode().strip()}; {os.cpu_count()} processors, load {load} before", flush=True)
    with tempfile.TemporaryDirectory(prefix="nms_serving-") as room:
        subprocess.run([os.environ.get("CC", "cc"), "-O2", "-pthread", "-o", f"{room}/load", f"{BENCH}/serving.c"], check=True)
        os.chdir(room)
        for name in parts or measures:
            measures[name]()
        os.chdir("/")


if __name__ == "__main__":
    if not re.fullmatch(r"0*[1-9]\d*", str(RUNS)):
        sys.exit(__doc__)
    main(sys.argv[1:])
