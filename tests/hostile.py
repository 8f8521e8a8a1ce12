#!/usr/bin/env python3
"""Runs calls of the program on a machine that fails once, at each point in turn.

    tests/hostile.py [PROGRAM]      PROGRAM is nms_tool

Each request for memory is refused, from the first one until none is: the call has to end with its answer, or with an
out-of-memory code of its own, and of the answer at most a beginning. Each read and each write fails: the call has to end
with E1 or E2, and what it wrote has to be the answers to the records that it had read, or to those that it had answered,
byte for byte. And all streams move single bytes: nothing may change. It counts points. A machine that lets no process trace
another one is skipped; `tests/refuse.py` does a part of it there.
"""
import os
import sys
import tempfile
from concurrent.futures import ProcessPoolExecutor

import traced
from refuse import ALWAYS, OFFERS, PLAN, STATUS, setup
from stored import TOP, program_of, programs
from trials import Lacking, Several, Trial, Wrong, jobs, run

SCRIPT = "Q,N,ABC,A,9.99,300,10.01,200\nQ,P,ABC,A,9.99,500,10.02,100\nT\nP\nS,P,ABC,H\nF\nN,0,ABC\nL,0\nE,0,ABC,10.02\n" \
    "X,P\nF\nO,0,B,ABC,200,10.01\nZ\nQ,Q,ABC,A,9.98,100,,\n"
SETUP = {"setup.toml": setup(1)}
UNDER = ["--setup", "setup.toml"]
ORDERS = "O,0,B,ABC,600,10.01\nO,1,S,ABC,600,10.01\n"
FEEDS = {"feed_a": OFFERS.replace("Q,Y", "Q,N"), "feed_b": "Q,Y,ABC,A,,,10.01,200\n", "orders": ORDERS}


class Call:
    """A call: the out-of-memory codes that have to be seen of it, and further ones that may be."""

    def __init__(self, name, words, must, may="", files=None, given="", unwritten="E2"):
        self.name, self.words, self.files, self.given, self.unwritten = name, words, files or {}, given, unwritten
        self.over, self.points = 0, 1
        self.must, self.may = set(must.split()), {*must.split(), *may.split(), *ALWAYS}

    def run(self, program, room, plan=traced.Plan(), given=None):
        return traced.run(program, self.words, room, (self.given if given is None else given).encode(), plan)

    def judged(self, program):
        """How many points were right; raises those that were not."""
        if not traced.is_allowed():
            raise Lacking("this machine lets no process trace another one")
        with ProcessPoolExecutor(jobs()) as pool:
            found = self.faults(program, pool)
        right = max(0, self.points - len(found))
        if found:
            raise Several([Wrong(it) for it in found], right)
        return right

    def faults(self, program, pool):
        """What was not as it must be."""
        with tempfile.TemporaryDirectory(prefix="nms-") as room:
            for name, text in self.files.items():
                with open(os.path.join(room, name), "w", encoding="utf-8") as file:
                    file.write(text)
            ample = self.run(program, room)
            single = self.run(program, room, traced.Plan(single=True))
            if ample.status or ample.errors or not ample.out:
                return [f"with nothing failed: {ample}"[:500]]
            found = [] if single[:3] == ample[:3] else [f"with single bytes: {single}"[:500]]
            plans = list(self.plans(ample, single))
            rans = list(pool.map(self.run, *zip(*((program, room, it) for it in plans)), chunksize=8))
            answers = self.answers(program, room)
            found += [f"{plan}: {ran}"[:400] for plan, ran in zip(plans, rans) if not self.is_right(plan, ran, ample, answers)]
            over = sum(ran[:3] == ample[:3] for ran in rans)
            found += [f"got over {over} refusals, and not {self.over}"] if over < self.over else []
            seen = {code_of(ran) for plan, ran in zip(plans, rans) if plan.memory}
            print(f"{self.name}: {ample.memory} requests for memory, {ample.reads} reads, {ample.writes} writes")
            self.points = 1 + len(plans)
            return found + [f"no refusal gave {it}" for it in sorted(self.must - seen)]

    def plans(self, ample, single):
        """What fails: each request for memory, each read and each write. Each byte of a script is a read."""
        reads = single.reads if self.given else ample.reads
        yield from (traced.Plan(memory=it + 1) for it in range(ample.memory))
        yield from (traced.Plan(read=it + 1, single=bool(self.given)) for it in range(reads))
        yield from (traced.Plan(write=it + 1) for it in range(ample.writes))

    def answers(self, program, room):
        """What a script's first records are answered, by how many there are."""
        lines = self.given.splitlines(keepends=True)
        return [self.run(program, room, given="".join(lines[:it])).out for it in range(len(lines) + 1)]

    def is_right(self, plan, ran, ample, answers):
        code = code_of(ran)
        is_part = ran.out in answers if self.given else ample.out.startswith(ran.out)
        if plan.memory:
            return ran[:3] == ample[:3] or ran.status == STATUS.get(code, 5) and code in self.may and is_part
        if plan.write:
            return (ran.status, code) == (1, self.unwritten) and is_part
        # The answers to the complete records before the byte that could not be read; for files, nothing.
        whole = answers[self.given[:plan.read - 1].count("\n")] if self.given else b""
        return (ran.status, code, ran.out) == (1, "E1", whole)


class Caller(Call):
    """A run of another program of this repository, which makes calls of the crates: with memory refused it gives its
    answers, or a prefix of them and status 1. With `over` refusals at least it gives all its answers."""

    def __init__(self, crate, name, given, over=0):
        super().__init__(f"{crate}: {name}", [], "", given=given)
        self.program, self.over = program_of(crate), over

    def run(self, program, room, plan=traced.Plan(), given=None):
        return super().run(self.program, room, plan, given)

    def plans(self, ample, single):
        return (traced.Plan(memory=it + 1) for it in range(ample.memory))

    def answers(self, program, room):
        return []

    def is_right(self, plan, ran, ample, answers):
        return ran[:3] == ample[:3] or (ran.status, ran.errors) == (1, "") and ample.out.startswith(ran.out)


def code_of(ran):
    return ran.errors.removeprefix("nms_tool: ").removesuffix("\n")


def calls():
    changes = {**SETUP, "given.changes": OFFERS}
    plan = [*"plan given.changes B ABC 600 10.01".split(), *UNDER]
    check = [*"check given.changes given.plan".split(), *UNDER]
    live = [*"live orders feed_a feed_b".split(), *UNDER]
    yield Call("a script", [], "G2 C9 E4", given=SCRIPT)
    yield Call("a report", ["report", "given.changes", "ABC", *UNDER], "E4 B1", files=changes)
    yield Call("a plan", plan, "E4 B1 L12", files=changes, unwritten="L13")
    yield Call("a check", check, "E4 A3 L12", files={**SETUP, "given.changes": OFFERS, "given.plan": PLAN})
    yield Caller("nms_examples", "changes appended again", "again 0 700\n", over=10)
    yield Call("a live run", live, "E4 E6", "E7 E10 L12", files={**SETUP, **FEEDS}, unwritten="L13")


def trials(program):
    return [Trial(call.name, call.judged, (program,)) for call in calls()]


if __name__ == "__main__":
    # Each call runs several points at once.
    sys.exit(run("failures", trials(*programs(sys.argv[1:], "nms_tool")), alone=True))
