#!/usr/bin/env python3
"""Gives stored wrong bodies to the prover, which has to refuse each: the edits of crates/*/wrong/.

    tests/edits.py [CRATE..]

An edit is a text. A line `# ..` says what is wrong, and `fn: ..` names the function that must not be proved with it. Then, as
in must-fail/, come `file: ..` and pairs of lines `old: ..`, a text that the file has once, and `new: ..`.

Only the functions that the edits name are checked, over the libraries that `rt ci` kept on this machine. Libraries that are
missing are proved first. A first check has to prove the functions as they are, and the others begin with its work. Edits of
different functions of a crate are made at once; one that changes a definition is made by itself.

An edit passes if its function has a goal that is open, and the goal is named. For a changed definition the lemmas are named
whose proofs fail: the prover then does not say whether the lemma is false. An edit fails if the function is proved, if it is
refused only since a proof names what the edit took away, and if the edit does not fit its source or does not compile. The last
line is `N passed, M failed`.
"""
import concurrent.futures
import dataclasses
import glob
import os
import re
import resource
import shutil
import subprocess
import sys
import tempfile

sys.dont_write_bytecode = True
TOP = os.path.dirname(os.path.dirname(os.path.realpath(__file__)))
sys.path.insert(0, f"{TOP}/build")
import crates

# What the prover reports of a proof that names what is gone, and of what rests on such a proof.
GONE = re.compile(r"has no field|is not in scope|has no `|is no name|was not admitted|has no such goal")
# What it reports where it gave up.
LIMIT = re.compile(r"may hold|ran out of|at (?:its|the) limit|stopped at")


class Unfit(Exception):
    """An edit that can't be made."""


@dataclasses.dataclass
class Edit:
    name: str
    says: str = ""
    function: str = ""
    # For each pair the file, the old text and the new one.
    changes: list = dataclasses.field(default_factory=list)

    def is_of_code(self):
        return all(file.startswith("src/") for file, _, _ in self.changes)

    def make(self, folder):
        """Makes the edit in a copy of its crate."""
        for file, text in self.texts(folder).items():
            with open(f"{folder}/{file}", "w", encoding="utf-8") as to:
                to.write(text)

    def texts(self, folder):
        """The texts that it changes in a crate, by file. It is `Unfit` if an old text is not there once."""
        found = {}
        for file, old, new in self.changes:
            if file not in found:
                with open(f"{folder}/{file}", encoding="utf-8") as of:
                    found[file] = of.read()
            if found[file].count(old) != 1:
                raise Unfit(f"{file} has its old text {found[file].count(old)} times, and not once: {old.strip()}")
            found[file] = found[file].replace(old, new)
        return found


def read_edit(path):
    """The edit of a file of wrong/ or must-fail/."""
    edit, file, old = Edit(os.path.basename(path).removesuffix(".edit")), "", ""
    with open(path, encoding="utf-8") as lines:
        for line in (it.rstrip("\n") for it in lines):
            head, _, rest = line.partition(": ")
            if line.startswith("# "):
                edit.says = line[2:]
            elif head == "fn":
                edit.function = rest
            elif head == "file":
                file = rest
            elif head == "old":
                old = rest
            elif head == "new" or line == "new:":
                edit.changes.append((file, old, rest))
    return edit


def edits_of(crate, folder="wrong"):
    """The edits of a crate, by name."""
    return [read_edit(it) for it in sorted(glob.glob(f"{TOP}/crates/{crate}/{folder}/*.edit"))]


def rounds(edits):
    """The edits in lists, each for one check: no two are of one function, and one of a definition is by itself."""
    found = []
    for edit in edits:
        for it in found:
            if edit.is_of_code() and it[0].is_of_code() and edit.function not in [one.function for one in it]:
                it.append(edit)
                break
        else:
            found.append([edit])
    return found


def state_of(said, crate, function):
    """What a check reports of a function: `proved`, `not proved` or `no proof`, and more. Nothing if it did not get there."""
    return "".join(re.findall(rf"^fn {crate}::{function}: (.*)", said, re.M)[:1])


def is_proved(state):
    return state.split(",")[0] == "proved"


def open_goals(said, crate, edit):
    """The goals of an edit's function that a check left open, each once; of a changed definition also the lemmas whose proofs
    fail. What only names something that is gone is no goal."""
    function = edit.function
    proofs, found = "proofs/" + (re.escape(f"{function.replace('::', '/')}/") if edit.is_of_code() else ""), []
    for goal, why in re.findall(rf"^(?:\./)?{proofs}\S+: error: `([^`]+)`: (.*)", said, re.M):
        if not GONE.search(why):
            found.append(goal + " (the search gave up)" * bool(LIMIT.search(why)))
    for names in re.findall(rf"^fn {crate}::{function}: no proof: .* did not prove ([^;\n]*)", said, re.M):
        found += re.findall(r"`([^`]+)`", names)
    return list(dict.fromkeys(found))


def linked(one, other):
    """Copies a file of kept work, or links what was proved: a check replaces such a file, and writes into none."""
    return os.link(one, other) if one.endswith(".oantt") else shutil.copy2(one, other)


class Prover:
    """Checks functions of crates over the libraries of a folder."""

    def __init__(self, room, names):
        self.room, tools, listed = room, crates.Toolchain(), crates.listed()
        self.rtlib, self.crates = tools.rtlib, {name: tools.crate(name) for name in names}
        for it in tools.known.values():
            it.rlib = f"{room}/crates/{it.name}/out/rlib/{it.name}.rlib"
        self.libraries(list(dict.fromkeys(low for name in names for low in crates.below(listed, name))))

    def libraries(self, names):
        """Has `rt ci` give the folder these libraries: what it kept, or else what it proves now."""
        if not names:
            return
        crates.furnish(self.room, names)
        print(f"the {len(names)} libraries below, by rt ci: some seconds, or minutes if they are not proved yet", flush=True)
        status, said = crates.ci(self.room)
        if status:
            sys.exit(f"{said}the libraries are not proved, so no edit was tried\n0 passed, 1 failed")

    def copy(self, name, to):
        """Copies the sources, definitions and proofs of a crate."""
        for part in self.rtlib.PARTS:
            if os.path.isdir(f"{TOP}/crates/{name}/{part}"):
                shutil.copytree(f"{TOP}/crates/{name}/{part}", f"{to}/{part}")

    def check(self, name, functions, edits=(), begin=None, keep=None):
        """What a check of functions of a crate reports, with edits made. It begins with the work of one folder and keeps its own
        in another."""
        with tempfile.TemporaryDirectory(prefix="edits-", dir=self.room) as copy:
            self.copy(name, copy)
            for edit in edits:
                edit.make(copy)
            work = keep or f"{copy}/work"
            if begin:
                shutil.copytree(begin, work, copy_function=linked)
            words = [*self.crates[name].words(["--jobs", "1"], keeps=False), "--incremental", work]
            words += [word for it in dict.fromkeys(functions) for word in ("--only", f"{name}::{it}")]
            how = {"cwd": copy, "stdin": subprocess.DEVNULL, "stdout": subprocess.PIPE, "stderr": subprocess.STDOUT}
            ran = subprocess.run([self.rtlib.RATTLE, "check", *words], text=True, errors="replace", check=False, **how)
        return ran.stdout


def judge(said, crate, edit):
    """Why an edit fails, or None, and what the prover reports."""
    state = state_of(said, crate, edit.function)
    if not state:
        return True, "it was not checked: " + "; ".join(re.findall(r"^error.*$", said, re.M) or said.strip().split("\n")[-1:])[:300]
    if is_proved(state):
        return True, "NOT REFUSED: its function is proved"
    goals = open_goals(said, crate, edit)
    return not goals, ", ".join(goals) or f"refused, but no goal is open, as if a proof names what is gone: {state[:120]}"


def lanes():
    """How many checks run at once."""
    return int(os.environ.get("RT_JOBS") or crates.lanes())


def tried(prover, name):
    """Tries the edits of a crate: for each its name, what it says, whether it fails, and why."""
    edits, found, ready = edits_of(name), {}, []
    for edit in edits:
        try:
            edit.texts(f"{TOP}/crates/{name}")
            ready.append(edit)
        except (Unfit, OSError) as error:
            found[edit.name] = True, f"it does not fit: {error}"
    with tempfile.TemporaryDirectory(prefix="work-", dir=prover.room) as seed:
        control = prover.check(name, [it.function for it in ready], keep=seed)
        for edit in [*ready]:
            if not is_proved(state_of(control, name, edit.function)):
                found[edit.name] = True, f"its function is not proved as it is: {judge(control, name, edit)[1]}"
                ready.remove(edit)
        for many in rounds(ready):
            said = prover.check(name, [it.function for it in many], many, seed)
            for edit in many:
                found[edit.name] = judge(said, name, edit)
                if found[edit.name][0] and len(many) > 1:
                    # Another one may stand in its way.
                    found[edit.name] = judge(prover.check(name, [edit.function], [edit], seed), name, edit)
    return [(it, *found[it.name]) for it in edits]


def main(words):
    have = sorted(it.split("/")[-2] for it in glob.glob(f"{TOP}/crates/*/wrong"))
    names = words or have
    for name in words:
        if name not in have:
            sys.exit(f"no crate {name} with edits; there are {', '.join(have)}")
    passed = failed = 0
    with tempfile.TemporaryDirectory(prefix="nms-edits-") as room:
        prover = Prover(room, names)
        with concurrent.futures.ThreadPoolExecutor(lanes()) as pool:
            for name, results in zip(names, pool.map(lambda it: tried(prover, it), names)):
                for edit, is_failed, why in results:
                    print(f"{'FAILED' if is_failed else 'refused'} {name}/{edit.name} ({edit.says}) {edit.function}: {why}", flush=True)
                    passed, failed = passed + (not is_failed), failed + is_failed
    used = resource.getrusage(resource.RUSAGE_CHILDREN)
    print(f"{(used.ru_utime + used.ru_stime) / 60:.1f} minutes of processor")
    print(f"{passed} passed, {failed} failed")
    return 1 if failed else 0


if __name__ == "__main__":
    sys.exit(main(sys.argv[1:]))
