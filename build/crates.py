#!/usr/bin/env python3
"""Proves and builds a program, or the library for other languages, by the toolchain's `rt ci`, and reports on standard error how
far it is.

    build/crates.py NAME             builds nms_tool, nms_review, nms_serve, nms_examples or nms_c
    build/crates.py --expect NAME    prints what a build takes, and builds nothing
    build/crates.py --note LOG       notes what `rt ci` proved in this repository and left there. LOG is what it printed, and
                                     standard input what build/sums printed before

`rt ci` runs in a folder of its own, on copies of the crates of which NAME is built. So each crate is held to the verdict that
the gate holds it to. What was proved is kept on this machine, by the checksums of all that it rests on. So of a build and a
gate, in any clones, the second takes from there what the first has proved, and an interrupt loses only what was under way.

Of `nms_c` it makes `libnms.a`: the proved archive with the toolchain's object through which it calls the C library's malloc,
realloc and free. Of that archive it links `libnms.so`, by the toolchain's own linker. `rt ci` keeps no archive, so it is
proved and built again by each build and each gate.

`build/times` has each crate's processor seconds, as measured on one machine, and the megabytes of its library.
"""
import contextlib
import ctypes
import functools
import importlib.machinery
import importlib.util
import inspect
import os
import queue
import re
import shutil
import signal
import subprocess
import sys
import tempfile
import threading
import time

sys.dont_write_bytecode = True

TOP = os.path.dirname(os.path.dirname(os.path.realpath(__file__)))
# Memory that a check of the largest crate takes, with some room.
LANE_BYTES = 4_000_000_000
# The crate that is built as a static library. crates.txt has it as an ordinary one, since its proof in `rt ci` costs half then.
ARCHIVE = "nms_c"
# What `rt ci` adds to the seconds of build/times: it looks for contracts that no call can meet.
EMPTY_CONTRACTS = 1.2
# The longest silence, in seconds.
SILENCE = 30
# The verdicts of proofs in this clone: for each the sum of the crates below it, that of the toolchain, the crate and the line.
VERDICTS = f"{TOP}/build/out/verdicts"
# The call by which a process asks for a signal when its parent ends (prctl).
PR_SET_PDEATHSIG = 1
# The programs, without the library.
PROGRAMS = ("nms_examples", "nms_review", "nms_serve", "nms_tool")


def lines_of_crates():
    """The line of each crate in crates.txt."""
    with open(f"{TOP}/crates.txt", encoding="utf-8") as file:
        return {re.match(r"\w+", it)[0]: it for it in file if re.match(r"\w", it)}


def listed():
    """The crates of this repository that each crate of crates.txt names, lowest first."""
    lines = lines_of_crates()
    return {name: [it for it in line.partition(":")[2].split() if it in lines] for name, line in lines.items()}


def below(crates, name):
    """The crates below one, each after those that it names."""
    found = set(crates[name])
    for it in reversed(crates):
        found.update(crates[it] if it in found else ())
    return [it for it in crates if it in found]


def processors():
    return len(os.sched_getaffinity(0))


def lanes():
    """How many crates are proved at once: three for each four processors, as far as memory goes. One for each took as long by
    the clock, since the longest chain decides, and no less of processor (docs/GATE.md)."""
    with open("/proc/meminfo", encoding="ascii") as file:
        free = 1024 * int(re.search(r"MemAvailable:\s+(\d+)", file.read())[1])
    return max(1, min((3 * processors() + 3) // 4, int(free // LANE_BYTES)))


def sums(*names):
    """The two checksums of each crate by build/sums: its own, and that of all crates below it."""
    ran = subprocess.run([f"{TOP}/build/sums", *names], stdout=subprocess.PIPE, check=True, text=True)
    return {name: (own, whole) for name, own, whole in map(str.split, ran.stdout.splitlines())}


def wholes_of(names):
    return {name: whole for name, (_, whole) in sums(*names).items()}


def toolchain_sum():
    """The checksum of the toolchain's command, as the launchers note it."""
    words = ["bash", "-c", '. "$1"; toolchain_sum', "sums", f"{TOP}/build/sums"]
    return subprocess.run(words, stdout=subprocess.PIPE, check=True, text=True).stdout.strip()


class Plan:
    """What is built, and what it takes by build/times if nothing of it is kept."""

    def __init__(self, program):
        self.program, self.crates = program, listed()
        self.all = [*below(self.crates, program), program]
        with open(f"{TOP}/build/times", encoding="utf-8") as file:
            rows = [line.split() for line in file if re.match(r"\w", line)]
        self.times = {name: (float(seconds), int(size)) for name, seconds, size in rows}

    def seconds(self, name):
        return EMPTY_CONTRACTS * self.times.get(name, (60.0, 100))[0]

    def gigabytes(self):
        return sum(self.times.get(name, (60.0, 100))[1] for name in self.all) / 1000

    def processor(self):
        """Seconds of processor for everything."""
        return sum(map(self.seconds, self.all))

    @functools.cache
    def chain(self, name):
        """The seconds of the longest chain of crates from the lowest to this one."""
        return self.seconds(name) + max(map(self.chain, self.crates[name]), default=0)

    def expects(self, at_once):
        """What a build takes, in words."""
        many = "one processor" if processors() == 1 else f"{processors()} processors"
        minutes = max(self.chain(self.program), self.processor() / at_once) / 60
        return f"about {minutes:.0f} minutes on {many} ({self.processor() / 60:.0f} minutes of processor)"


def furnish(room, names):
    """Puts some crates into a folder that is a repository, with all that `rt ci` reads of them but the edits: it finds a proof
    without them."""
    os.makedirs(f"{room}/.git", exist_ok=True)
    shutil.copy(f"{TOP}/HANDLES", room)
    with open(f"{room}/crates.txt", "a", encoding="utf-8") as file:
        file.writelines(line for name, line in lines_of_crates().items() if name in names)
    for name in names:
        folder = f"{TOP}/crates/{name}"
        unread = lambda at, _, folder=folder: {"out", "must-fail", "wrong"} if at == folder else ()
        shutil.copytree(folder, f"{room}/crates/{name}", ignore=unread)


def furnished(room, names, wanted):
    """Furnishes a folder with crates, and gives the sum of the crates below each wanted one, as copied."""
    wholes = wholes_of(wanted)
    furnish(room, names)
    if wholes_of(wanted) != wholes:
        sys.exit("a source changed while the crates were copied: start it again")
    return wholes


def ci(room, hear=lambda line: None, wait=lambda: None):
    """Runs `rt ci` in a folder, and gives its status and what it printed. Each line is heard, and each long silence. It ends when
    this process does, however that ends."""
    how = {"preexec_fn": lambda: ctypes.CDLL(None).prctl(PR_SET_PDEATHSIG, signal.SIGTERM)}
    how |= {"stdin": subprocess.DEVNULL, "stdout": subprocess.PIPE, "stderr": subprocess.STDOUT, "text": True, "errors": "replace"}
    environment = {**os.environ, "RT_JOBS": os.environ.get("RT_JOBS") or str(lanes())}
    lines, said = queue.Queue(), []
    with subprocess.Popen(["rt", "ci"], cwd=room, env=environment, **how) as ran:
        threading.Thread(target=lambda: [*map(lines.put, ran.stdout), lines.put(None)], daemon=True).start()
        try:
            while True:
                try:
                    line = lines.get(timeout=SILENCE)
                except queue.Empty:
                    wait()
                    continue
                if line is None:
                    break
                said.append(line)
                hear(line)
        finally:
            ran.terminate()
    return ran.returncode, "".join(said)


def verdicts(said):
    """The verdict of each crate that `rt ci` proved, by what it printed: the last line of the prover's report."""
    found = {}
    for name, report in re.findall(r"^== (\w+)\n((?:(?!== ).*\n)*?)rt: \1 proved$", said, re.M):
        lines = re.findall(r"^logic=proved .*$", report, re.M)
        if lines:
            found[name] = lines[-1]
    return found


def note(found, wholes):
    """Notes verdicts, each with the sum of the crates below its crate. Each line is one write, so that two builds mix none."""
    os.makedirs(os.path.dirname(VERDICTS), exist_ok=True)
    kit = toolchain_sum()
    with open(VERDICTS, "a", encoding="utf-8") as file:
        file.write("".join(f"{wholes[name]} {kit} {name} {line}\n" for name, line in found.items()))


def note_built(file, whole):
    """Notes next to a file of what it was built, and by which toolchain: the launchers run it while both are the same."""
    with open(f"{file}.built_of", "w", encoding="ascii") as to:
        to.write(f"{whole} {toolchain_sum()}\n")


def loaded(path):
    """A module of the toolchain that has no ending."""
    name = os.path.basename(path)
    spec = importlib.util.spec_from_loader(name, importlib.machinery.SourceFileLoader(name, path))
    module = importlib.util.module_from_spec(spec)
    spec.loader.exec_module(module)
    return module


class Toolchain:
    """The toolchain that `rt` belongs to, with its command `rt` as a module."""

    def __init__(self):
        page = subprocess.run(["rt", "doc"], stdout=subprocess.PIPE, check=True, text=True).stdout.split()[0]
        self.folder = os.path.dirname(page)
        self.rt = loaded(f"{self.folder}/bin/rt")
        self.rtlib = self.rt.rtlib
        self.known = {}

    def crate(self, name):
        folder = f"{TOP}/crates/{name}"
        if folder not in self.known:
            self.known[folder] = self.rtlib.Crate(folder, TOP, self.known)
        return self.known[folder]

    def crates_in(self, room):
        """The crates of a folder as `rt ci` has them. The command of some toolchains would set aside what was built there, so they
        are only listed then."""
        if len(inspect.signature(self.rt.crates_of).parameters) == 1:
            return self.rt.crates_of(room)
        self.rtlib.Crate = self.rt.Crate
        return self.rtlib.crates_below(room)

    def prove_archive(self, room, to):
        """Proves the library's crate over the libraries of a folder, held to the verdict that `rt ci` holds a crate to, and
        builds its archive. Gives whether it is proved, and the report."""
        # (its first call is for the main thread)
        self.rtlib.guarded()
        self.rt.Crate.allowed = self.rt.handles_of(room)
        crate = next(it for it in self.crates_in(room) if it.name == ARCHIVE)
        crate.is_static = True
        words = [*crate.words(["--jobs", "1"], keeps=False), "--toolchain", f"{self.folder}/toolchain", "--backend", "llvm", "-o", to]
        with tempfile.TemporaryFile("w+", errors="replace") as crate.out:
            status = crate.prove(["build", *words])
            crate.out.seek(0)
            return status == 0, crate.out.read()

    def join(self, made, out):
        """Makes `libnms.a` of an archive that was built, and `libnms.so` of that. Returns whether there is a `libnms.so`."""
        tools, archive, shared = f"{self.folder}/toolchain/bin", f"{out}/libnms.a", f"{out}/libnms.so"
        room = os.path.dirname(made)
        subprocess.run([f"{tools}/llvm-ar", "x", f"{self.folder}/c/liblibc_c.a"], cwd=room, check=True)
        objects = sorted(it for it in os.listdir(room) if it.endswith(".o"))
        subprocess.run([f"{tools}/llvm-ar", "rcs", made, *objects], cwd=room, check=True)
        # It gives its callers the functions of nms.h, and needs only the C library when it is loaded.
        with open(f"{room}/exports", "w", encoding="ascii") as file:
            file.write("{ global: nms_*; local: *; };\n")
        words = ["-shared", "-soname", soname(), "-z", "defs", "--version-script", "exports", "--whole-archive", made]
        # A division of 128 bits is in the compiler's own library, which every linker of C adds by itself.
        words += ["--no-whole-archive", *(f"{self.folder}/toolchain/lib/{it}" for it in ("libgcc.a", "libc.so.6")), "-o", "libnms.so"]
        with contextlib.suppress(FileNotFoundError):
            os.remove(shared)
        try:
            linked = subprocess.run([f"{tools}/ld.lld", *words], cwd=room, check=False).returncode == 0
        except OSError:
            linked = False
        if linked:
            place(f"{room}/libnms.so", shared)
        place(made, archive)
        return linked


def soname():
    """The name by which a program finds the shared object: its number is that of the layout, so none loads another layout."""
    with open(f"{TOP}/include/nms.h", encoding="utf-8") as file:
        return "libnms.so." + re.search(r"^#define NMS_ABI (\d+)", file.read(), re.M)[1]


def place(made, to):
    """Brings a file that was built to its place in one step: one that runs there goes on. What was noted of the earlier one goes first."""
    with contextlib.suppress(FileNotFoundError):
        os.remove(f"{to}.built_of")
    shutil.copy(made, f"{to}.new")
    os.replace(f"{to}.new", to)


class Build:
    def __init__(self, plan):
        self.plan, self.out, self.done, self.report = plan, f"{TOP}/crates/{plan.program}/out", [], []
        self.began = time.monotonic()

    def tell(self, text):
        print(f"{self.plan.program}: {text}", file=sys.stderr, flush=True)

    def share(self):
        return f"{100 * sum(map(self.plan.seconds, self.done)) / self.plan.processor():.0f} of 100 done"

    def wait(self):
        left = len(self.plan.all) - len(self.done)
        self.tell(f"{self.share()} after {(time.monotonic() - self.began) / 60:.1f} minutes; {left} crates are left")

    def hear(self, line):
        """Takes a line of `rt ci`, and passes on what it says of a crate; of one that is not proved also its report."""
        found = re.fullmatch(r"rt: (\w+) (proved|is kept)\b.*\n?", line)
        if line.startswith("== "):
            self.report = []
        elif found:
            self.done.append(found[1])
            self.tell(f"{found[1]} {found[2]}: {self.share()}")
        elif line.startswith("rt: "):
            if "NOT PROVED" in line:
                sys.stderr.write("".join(self.report))
                self.report = []
            if not re.match(r"rt: (ok;|\w+ ran)", line):
                self.tell(line[4:].rstrip("\n"))
        else:
            self.report.append(line)

    def run(self, room):
        """Proves and builds in a folder, and returns whether all was proved."""
        name, wanted = self.plan.program, self.plan.all
        wholes = furnished(room, [it for it in wanted if it != ARCHIVE], wanted)
        self.tell(
            f"proving and building {len(wanted)} crates, those that are not kept on this machine: all of them take"
            f" {self.plan.gigabytes():.1f} GB of disk, and on the machine of docs/GATE.md {self.plan.expects(lanes())}"
        )
        status, said = ci(room, self.hear, self.wait)
        note(verdicts(said), wholes)
        if status == 0 and name == ARCHIVE:
            return self.archive(room, wholes)
        if status == 0:
            place(f"{room}/crates/{name}/out/{name}", f"{self.out}/{name}")
            note_built(f"{self.out}/{name}", wholes[name])
        return status == 0

    def archive(self, room, wholes):
        """Proves and builds the library in a folder that has those below it, and returns whether it was proved."""
        furnish(room, [ARCHIVE])
        if wholes_of(wholes) != wholes:
            self.tell("a source changed meanwhile: start it again; what is proved is kept")
            return False
        tools = Toolchain()
        with tempfile.TemporaryDirectory(prefix="archive-", dir=f"{room}/.git") as folder:
            is_proved, report = tools.prove_archive(room, f"{folder}/libnms.a")
            if not is_proved:
                sys.stderr.write(report)
                self.tell(f"{ARCHIVE} NOT PROVED")
                return False
            self.hear(f"rt: {ARCHIVE} proved\n")
            if not tools.join(f"{folder}/libnms.a", self.out):
                self.tell("libnms.so was not made: the toolchain has no linker that could make it")
        note({"libnms.a": re.findall(r"^logic=proved .*$", report, re.M)[-1]}, {"libnms.a": wholes[ARCHIVE]})
        note_built(f"{self.out}/libnms.a", wholes[ARCHIVE])
        return True


def note_gate(log, before):
    """Notes what `rt ci` proved in this repository, and next to each program of what it was built, as a first build does. `before` are the
    sums before it ran: a crate whose sources changed meanwhile is left out."""
    found = sums()
    same = {name: whole for name, (own, whole) in found.items() if f"{name} {own} {whole}" in before.splitlines()}
    with open(log, encoding="utf-8", errors="replace") as file:
        note({name: line for name, line in verdicts(file.read()).items() if name in same}, same)
    for name in PROGRAMS:
        program = f"{TOP}/crates/{name}/out/{name}"
        if name in same and os.path.isfile(program):
            note_built(program, same[name])


def sweep():
    """Removes the folders of builds that were killed."""
    for room in os.listdir(tempfile.gettempdir()):
        of = re.fullmatch(r"nms-build-(\d+)-\w+", room)
        if of and not os.path.exists(f"/proc/{of[1]}"):
            shutil.rmtree(f"{tempfile.gettempdir()}/{room}", ignore_errors=True)


def main(words):
    if len(words) == 2 and words[0] == "--note":
        note_gate(words[1], sys.stdin.read())
        return 0
    if not words or words[-1] not in listed() or words[:-1] not in ([], ["--expect"]):
        sys.exit(__doc__)
    plan = Plan(words[-1])
    if words[:-1]:
        print(f"{len(plan.all)} crates, {plan.expects(lanes())}, {plan.gigabytes():.1f} GB of disk; seconds if this machine keeps their proofs")
        return 0
    os.makedirs(f"{TOP}/crates/{plan.program}/out", exist_ok=True)
    signal.signal(signal.SIGTERM, lambda *_: sys.exit(1))
    sweep()
    build = Build(plan)
    try:
        with tempfile.TemporaryDirectory(prefix=f"nms-build-{os.getpid()}-") as room:
            return 0 if build.run(room) else 1
    except KeyboardInterrupt:
        build.tell("interrupted; what is proved is kept")
        return 1


if __name__ == "__main__":
    sys.exit(main(sys.argv[1:]))
