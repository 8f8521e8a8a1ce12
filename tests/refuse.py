#!/usr/bin/env python3
"""Runs calls of the program with less and less memory, and looks at what each ends with.

    tests/refuse.py [PROGRAM]      PROGRAM is nms_tool

With ample memory a call must give its answer, and with less the same answer, or status 5 (7 if a thread can't be started)
with one out-of-memory code, and of the answer at most a beginning. Each such code of a call has to be seen. What refuses
memory is a limit on the address space, and the C library takes no more of the system than it is asked for.
"""
import os
import resource
import subprocess
import sys
import tempfile
from concurrent.futures import ThreadPoolExecutor

from stored import MOST, programs
from trials import Trial, Wrong, jobs, run

PAGE = 4096
STACK = 256 * 1024
# Limits tried of each call at first.
STEPS = 160
# The C library asks the system for each piece of memory by itself; or only for pieces that are not small.
EACH = "glibc.malloc.mmap_threshold=1:glibc.malloc.mmap_max=1000000000:glibc.malloc.tcache_count=0"
LARGE = "glibc.malloc.mmap_threshold=65536:glibc.malloc.top_pad=0:glibc.malloc.trim_threshold=4096"
# The out-of-memory codes that any call may end with; a live run that can't begin, or can't append, ends with 7.
ALWAYS = {"G2", "C9", "E4"}
STATUS = {"E6": 7, "E7": 7}

HEAD = "tape_limit = 10000000\nqueue = 1024\ndesks = 2\nparticipant = [{name = \"N\", feed = \"A\", fee = 3000000, rate = 300}, " \
    "{name = \"P\", feed = \"A\", fee = 0, rate = 0}, {name = \"Y\", feed = \"B\", fee = 0, rate = 0}]\nsymbol = [%s]\n"


def setup(symbols):
    """A setup of that number of symbols. The more there are, the more a board takes."""
    return HEAD % ", ".join('{name = "%s", lot = 100}' % name for name in ["ABC", *(f"S.{it}" for it in range(symbols - 1))])


OFFERS = "Q,N,ABC,A,,,10.00,300\nQ,P,ABC,A,,,10.00,500\nQ,Y,ABC,A,,,10.01,200\n"
PLAN = "PLAN,3,B,ABC,600,10.0100,,600,6000.300000000\nLEG,N,10.0000,100\nLEG,P,10.0000,500\n" \
    "CUT,10.0000,MARGINAL,10.003000000\nCUT,10.0100,TOOMUCH,\nEND\n"


def prices(count, participant):
    """A number of offers of a participant, each at its own price."""
    return [f"Q,{participant},ABC,A,,,{1 + it // 10000}.{it % 10000:04},100\n" for it in range(count)]


class Call:
    """A call, the out-of-memory codes that have to be seen of it, and further ones that may be."""

    def __init__(self, name, words, must, may="", files=None, given="", pieces=LARGE):
        self.name, self.words, self.files, self.given, self.pieces = name, words, files or {}, given, pieces
        self.must, self.may = set(must.split()), {*must.split(), *may.split(), *ALWAYS}

    def run(self, program, room, most):
        def limit():
            resource.setrlimit(resource.RLIMIT_CORE, (0, 0))
            resource.setrlimit(resource.RLIMIT_STACK, (STACK, STACK))
            resource.setrlimit(resource.RLIMIT_AS, (most, most))
        how = {"env": {**os.environ, "GLIBC_TUNABLES": self.pieces}, "preexec_fn": limit, "timeout": MOST}
        ran = subprocess.run([program, *self.words], cwd=room, input=self.given.encode(), capture_output=True, **how)
        return ran.returncode, ran.stdout, ran.stderr.decode(errors="replace")

    def least(self, program, room, low, good):
        """The least limit, to a page, from which on what a run ends with is good."""
        high = 1 << 36
        while high - low > PAGE:
            middle = (low + high) // 2 // PAGE * PAGE
            low, high = (low, middle) if good(self.run(program, room, middle)) else (middle, high)
        return high

    def judged(self, program, start):
        """Raises what was not as it must be: one failure, however many limits show it."""
        found = self.faults(program, start)
        if found:
            raise Wrong(found[0], "\n".join(found))

    def faults(self, program, start):
        """What was not as it must be."""
        with tempfile.TemporaryDirectory(prefix="nms-") as room:
            for name, text in self.files.items():
                with open(os.path.join(room, name), "w", encoding="utf-8") as file:
                    file.write(text)
            ample = self.run(program, room, 1 << 36)
            if ample[0] or ample[2] or not ample[1]:
                return [f"with ample memory: {ample}"[:500]]
            most = self.least(program, room, start, lambda ran: ran == ample)
            wide = max(PAGE, (most - start) // STEPS // PAGE * PAGE)
            limits = {*range(start, most, wide), *range(max(start, most - STEPS // 4 * PAGE), most, PAGE)}
            rans = {}
            while limits:
                rans |= self.runs(program, room, sorted(limits))
                limits = self.between(rans) if self.unseen(rans) else ()
            return self.judge(ample, sorted(rans.items()))

    def runs(self, program, room, limits):
        """What the call ends with under each of some limits."""
        with ThreadPoolExecutor(jobs()) as pool:
            return dict(zip(limits, pool.map(lambda it: self.run(program, room, it), limits)))

    @staticmethod
    def between(rans):
        """The limits halfway between neighbours that end otherwise: it shows what is seen only under a few limits."""
        limits = sorted(rans)
        pairs = [(low, high) for low, high in zip(limits, limits[1:]) if code_of(rans[low][2]) != code_of(rans[high][2])]
        return {(low + high) // 2 // PAGE * PAGE for low, high in pairs} - rans.keys()

    def unseen(self, rans):
        """Those of the codes that have to be seen that no run ended with."""
        return self.must - {code_of(errors) for _, _, errors in rans.values()}

    def judge(self, ample, rans):
        found = []
        for most, (status, answers, errors) in rans:
            code = code_of(errors)
            is_right = status == STATUS.get(code, 5) and code in self.may and ample[1].startswith(answers)
            if not is_right and (status, answers, errors) != ample:
                found.append(f"with {most // 1024} kB: status {status}, {errors[:200]!r}, {answers[:200]!r}")
        return found[:5] + [f"no limit gave {it}" for it in sorted(self.unseen(dict(rans)))]


def code_of(errors):
    """The code that standard error names."""
    return errors.removeprefix("nms_tool: ").removesuffix("\n")


def start_of(program):
    """The least limit under which a program starts at all: it answers, or says that memory is out."""
    version = Call("", ["--version"], "")
    return version.least(program, "/", 0, lambda ran: ran[0] == 0 or ran == (5, b"", "nms_tool: G2\n"))


def calls():
    records = prices(20000, "N")
    many = "".join(records) + OFFERS
    script = "".join(it + "F\n" * (place % 1000 == 0) for place, it in enumerate(records)) + "F\nN,0,ABC\n"
    long, wide, under = {"setup.toml": setup(1)}, {"setup.toml": setup(1000)}, ["--setup", "setup.toml"]
    plan = [*"plan given.changes B ABC 600 10.01".split(), *under]
    check = [*"check given.changes given.plan".split(), *under]
    late = PLAN.replace("PLAN,3", "PLAN,20003")
    live = [*"live orders feed_a feed_b".split(), *under]
    feeds = {"feed_a": many.replace("Q,Y", "Q,N"), "feed_b": "Q,Y,ABC,A,,,10.01,200\n", "orders": "O,0,B,ABC,600,10.01\n"}
    short = {**feeds, "feed_a": OFFERS.replace("Q,Y", "Q,N")}
    orders = {**short, "orders": "O,0,B,ABC,600,10.01\n" * 4000}
    yield Call("a script", [], "G2 C9", given="Q,N,ABC,A,9.99,300,10.01,200\nF\nN,0,ABC\n", pieces=EACH)
    yield Call("a long script", ["script", *under], "E4", files=long, given=script)
    yield Call("a script on a wide board", ["script", *under], "C9 E4", files=wide, given=OFFERS + "F\nN,0,ABC\n")
    yield Call("a script of one long record", ["script", *under], "E4", files=long, given="Q,N,ABC," + "A" * 2000000 + "\n")
    yield Call("a long report", ["report", "given.changes", "ABC", *under], "E4", "B1", {**long, "given.changes": many})
    yield Call("a report of a wide board", ["report", "given.changes", "ABC", *under], "B1", "", {**wide, "given.changes": OFFERS})
    yield Call("a long plan", plan, "E4", "B1 L12", {**long, "given.changes": many})
    yield Call("a plan on a wide board", plan, "B1", "L12", {**wide, "given.changes": OFFERS})
    yield Call("a long check", check, "E4", "A3 L12", {**long, "given.changes": many, "given.plan": late})
    yield Call("a check on a wide board", check, "A3", "L12", {**wide, "given.changes": OFFERS, "given.plan": PLAN})
    yield Call("a long live run", live, "E4", "E6 E7 E10 L12", {**long, **feeds})
    yield Call("a live run on a wide board", live, "E6", "E7 E10 L12", {**wide, **short})
    yield Call("a live run of many orders", live, "E4", "E6 E7 E10 L12", {**long, **orders})


def trials(program):
    start = start_of(program)
    return [Trial(call.name, call.judged, (program, start)) for call in calls()]


if __name__ == "__main__":
    # Each call runs several limits at once.
    sys.exit(run("memory", trials(*programs(sys.argv[1:], "nms_tool")), alone=True))
