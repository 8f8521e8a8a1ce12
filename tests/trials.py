"""Runs named trials, counts them, and ends with `N passed, M failed`, or `N passed, M failed, K skipped`.

A program of this folder lists its trials and hands them to `run`. NMS_ONLY in the environment, which `./gate PART NAME`
sets, selects the trial of that name, or those with that text in their names; a number selects the trial of that number or
seed. What differs is printed in one line that begins with `DIFFERS:`, and says how to see the whole difference. Alone, a
trial prints it, and a random one is made as small as it can be. A trial that this machine can't make raises `Lacking`, and
is skipped by its name; with CI=true it has failed. NMS_JOBS says how many trials run at once: one for each processor if it
is not there.
"""
import difflib
import os
import re
import shlex
from concurrent.futures import ProcessPoolExecutor, ThreadPoolExecutor
from typing import Callable, NamedTuple

# Differences that are printed, and bytes of one if more than one trial is asked for.
MOST_SHOWN, MOST_BYTES = 50, 2000
# Tries at making a failing case smaller.
MOST_TRIES = 400


class Wrong(Exception):
    """What a trial found otherwise than it must be, in a line; the complete difference; how many other points were right."""

    def __init__(self, line, whole="", passed=0):
        super().__init__(line)
        self.line, self.whole, self.passed = line, whole, passed

    def __reduce__(self):
        return Wrong, (self.line, self.whole, self.passed)


class Several(Exception):
    """Several things that a trial found, each a `Wrong`, and how many points were right."""

    def __init__(self, found, passed=0):
        super().__init__(found, passed)
        self.found, self.passed = found, passed


class Lacking(Exception):
    """What this machine does not have for a trial."""


class Trial(NamedTuple):
    """A function with its arguments. It gives how many points it found right, which are 1 if it gives None."""

    name: str
    function: Callable
    words: tuple = ()

    def has(self, only):
        """Whether a text selects the trial: a number does by itself, other texts as a part of the name."""
        if only.isdecimal():
            return only in re.findall(r"\d+", self.name)
        return only in self.name


def outcome(trial):
    """How many points of a trial were right, what was found, and what this machine does not have."""
    try:
        points = trial.function(*trial.words)
        return 1 if points is None else points, [], None
    except Several as it:
        return it.passed, it.found, None
    except Wrong as it:
        return it.passed, [it], None
    except Lacking as it:
        return 0, [], str(it)
    except Exception as it:  # a trial that broke has failed, whatever broke it
        return 0, [Wrong(f"{type(it).__name__}: {it}")], None


def jobs():
    """How many trials run at once."""
    return int(os.environ.get("NMS_JOBS") or os.cpu_count())


def run(part, trials, processes=False, alone=False, may_lack=False):
    """Runs the trials of a part of the gate, several at once if they don't run `alone`, and gives the status. Trials that
    compute take `processes`; their functions and words have to be known by name. With CI=true a trial that lacks something has
    failed, unless trials `may_lack` it."""
    only = os.environ.get("NMS_ONLY")
    trials = list(trials)
    if only:
        trials = [it for it in trials if it.name == only] or [it for it in trials if it.has(only)]
    if not trials:
        print(f"DIFFERS: {part}: no trial has `{only}` in its name\n0 passed, 1 failed")
        return 1
    kind = ProcessPoolExecutor if processes else ThreadPoolExecutor
    if alone:
        outcomes = list(map(outcome, trials))
    else:
        with kind(min(len(trials), jobs())) as pool:
            outcomes = list(pool.map(outcome, trials))
    passed, failed, skipped = 0, 0, 0
    for trial, (points, found, lacks) in zip(trials, outcomes):
        if lacks and not may_lack and os.environ.get("CI") == "true":
            found = [Wrong(lacks)]
        elif lacks:
            print(f"skipped: {trial.name}: {lacks}")
            skipped += 1
        for it in found[: max(0, MOST_SHOWN - failed)]:
            show(part, trial, it, only)
        passed, failed = passed + points, failed + len(found)
    if failed > MOST_SHOWN:
        print(f"and {failed - MOST_SHOWN} more that differ")
    print(f"{passed} passed, {failed} failed" + (f", {skipped} skipped" if skipped else ""))
    return 1 if failed else 0


def show(part, trial, wrong, only):
    """Prints what differs: a line if a part was run, all of it if one trial was."""
    if only:
        print("\n".join(filter(None, [f"DIFFERS: {trial.name}: {wrong.line}", wrong.whole])), flush=True)
    else:
        line = wrong.line.split("\n")[0]
        print(f"DIFFERS: {trial.name}: {line}"[:MOST_BYTES], flush=True)
        print(f"    the whole difference: ./gate {part} {shlex.quote(trial.name)}", flush=True)


def compare(what, came, wanted):
    """Raises `Wrong` if two values differ: of texts the first lines that do, and all that do as a difference."""
    if came == wanted:
        return
    if not isinstance(came, bytes):
        raise Wrong(f"{what}: {came!r}, and not {wanted!r}")
    came, wanted = came.split(b"\n"), wanted.split(b"\n")
    at = next((it for it, (one, other) in enumerate(zip(came, wanted)) if one != other), min(len(came), len(wanted)))
    ours, due = (repr(it[at].decode(errors="backslashreplace")) if it[at:] else "no line" for it in (came, wanted))
    parts = ([it.decode(errors="backslashreplace") for it in lines[max(0, at - 2) : at + 60]] for lines in (wanted, came))
    whole = "\n".join(difflib.unified_diff(*parts, f"wanted, from line {max(1, at - 1)}", "came", lineterm=""))
    raise Wrong(f"{what}, line {at + 1}: {ours}, and not {due}", whole)


def least(items, fails, tries=MOST_TRIES):
    """The items of a failing case without those that it fails without: first halves are left out, then smaller parts. Of a
    trial that is not the only one asked for it is all items, because many may fail at once."""
    items, size = list(items), max(1, len(items) // 2)
    if not os.environ.get("NMS_ONLY"):
        return items
    while tries and items:
        place = 0
        was = len(items)
        while place < len(items) and tries:
            tries -= 1
            fewer = items[:place] + items[place + size :]
            if fails(fewer):
                items = fewer
            else:
                place += size
        if size == 1 and len(items) == was:
            break
        size = max(1, size // 2)
    return items
