#!/usr/bin/env python3
"""Tests the library for other languages, as a part of the gate: its header against its archive, its four callers, its wrappers,
looks that run together, views as values, changes without end, a hostile caller, and its answers beside the program's.

    tests/library.py PROGRAM        PROGRAM is nms_tool, which the gate has built
    NMS_OUT=FOLDER tests/library.py PROGRAM      takes libnms.a and libnms.so from there, and builds nothing

It builds the library as `./nms_lib --build` does. What needs a compiler or a tool that this machine lacks is skipped,
and named in a line; with CI=true a skip is a failure. It writes a line for each difference, and last `N passed, M failed`, or
`N passed, M failed, K skipped`.
"""
import os
import re
import shutil
import subprocess
import sys
import tempfile

TOP = os.path.dirname(os.path.dirname(os.path.realpath(__file__)))
# Bytes that the shared object may have.
MOST_BYTES = 300_000
# Seconds that a program may take.
MOST = 3600
# The functions that count requests for memory come before the C library's own, and that of another layout before the library's.
WRAP = "-Wl," + ",".join(f"--wrap={it}" for it in ("malloc", "realloc", "calloc", "free", "nms_abi"))
WARNINGS = ["-Wall", "-Wextra", "-Werror"]


class Count:
    passed = failed = skipped = 0


def check(what, holds, shown=""):
    """Counts a test, and prints what differs."""
    if holds:
        Count.passed += 1
    else:
        Count.failed += 1
        print(f"DIFFERS: {what}: {shown}"[:2000])
    return holds


def skip(what, lacks):
    """Counts a test that this machine can't make."""
    if os.environ.get("CI") == "true":
        check(what, False, f"this machine has no {lacks}")
    else:
        Count.skipped += 1
        print(f"skipped: {what}: this machine has no {lacks}")


def run(words, **how):
    """Runs a command, and gives its status and what it wrote, the error stream last."""
    try:
        ran = subprocess.run(words, stdout=subprocess.PIPE, stderr=subprocess.STDOUT, timeout=MOST, check=False, **how)
    except subprocess.TimeoutExpired:
        return 1, f"not done after {MOST} seconds"
    return ran.returncode, ran.stdout.decode(errors="replace")


def built(what, words):
    """Whether a command that builds something did, without a warning."""
    status, said = run(words)
    return check(what, status == 0 and not said, said or f"status {status}")


def counted(what, words, **how):
    """Runs a program that counts its own tests in its last line, and takes them over."""
    status, said = run(words, **how)
    *lines, last = said.rstrip("\n").split("\n")
    found = re.fullmatch(r"(\d+) passed, (\d+) failed", last)
    if not found:
        check(what, False, f"status {status}: {said[-1500:]}")
        return
    for line in lines:
        print(line if line.startswith("DIFFERS") else f"{what}: {line}")
    Count.passed += int(found[1])
    Count.failed += int(found[2])
    check(f"{what}: its status", status == int(found[2] != "0"), status)


def prints(what, words, wanted, given=None, environment=None):
    """Runs a caller, and compares what it prints with the file next to it."""
    with open(f"{TOP}/{given}" if given else os.devnull, "rb") as stdin:
        how = {"stdin": stdin, "stdout": subprocess.PIPE, "stderr": subprocess.PIPE, "timeout": MOST, "cwd": TOP}
        try:
            ran = subprocess.run(words, check=False, env={**os.environ, **(environment or {})}, **how)
            came = (ran.returncode, ran.stdout, ran.stderr)
        except subprocess.TimeoutExpired:
            came = f"not done after {MOST} seconds"
    with open(f"{TOP}/{wanted}", "rb") as file:
        text = file.read()
    check(f"{what} prints {wanted}", came == (0, text, b""), came)


def tool(*names):
    """The first of some commands that this machine has."""
    return next((it for it in map(shutil.which, names) if it), None)


class Library:
    def __init__(self, room):
        self.room, self.out = room, os.environ.get("NMS_OUT", f"{TOP}/crates/nms_c/out")
        self.archive, self.shared = f"{self.out}/libnms.a", f"{self.out}/libnms.so"
        self.cc, self.cxx = tool(os.environ.get("CC", "cc"), "gcc", "clang"), tool(os.environ.get("CXX", "c++"), "g++", "clang++")

    def make(self):
        """Builds the archive and the shared object, unless they are given."""
        if "NMS_OUT" not in os.environ:
            status, said = run([f"{TOP}/nms_lib", "--build"])
            if not check("the library is built", status == 0, said[-1500:]):
                return False
        there = [os.path.exists(it) for it in (self.archive, self.shared)]
        return check("the archive and the shared object are there", all(there), there)

    def python(self):
        """What a Python has to know to find the package and the library."""
        return {"NMS_LIBRARY": self.shared, "PYTHONPATH": f"{TOP}/python", "PYTHONDONTWRITEBYTECODE": "1"}

    def long_setup(self):
        """The built-in setup with room for as many changes as there may be."""
        setup = f"{self.room}/long.toml"
        with open(f"{TOP}/examples/builtin.toml", encoding="utf-8") as builtin, open(setup, "w", encoding="utf-8") as to:
            to.write(re.sub(r"^tape_limit = .*$", "tape_limit = 10000000", builtin.read(), flags=re.M))
        return setup

    def c(self, name, to, *more):
        """The command that builds a program of C with the library."""
        return [self.cc, "-std=c11", *WARNINGS, "-I", f"{TOP}/include", *more, f"{TOP}/{name}", self.archive, "-o", f"{self.room}/{to}"]

    def link(self):
        """What the archive gives and needs."""
        size = os.path.getsize(self.shared) if os.path.exists(self.shared) else 0
        check(f"the shared object has less than {MOST_BYTES} bytes", 0 < size < MOST_BYTES, size)
        with open(f"{TOP}/include/nms.h", encoding="utf-8") as file:
            header = file.read()
        declared = set(re.findall(r"^uint32_t (nms_\w+)\(", header, re.M))
        if tool("readelf"):
            soname = "libnms.so." + re.search(r"^#define NMS_ABI (\d+)", header, re.M)[1]
            _, said = run([tool("readelf"), "-d", self.shared])
            check("the shared object's own name has the number of the layout", f"soname: [{soname}]" in said, said)
        else:
            skip("the shared object's own name", "readelf")
        nm = tool("nm", "llvm-nm")
        if not nm:
            skip("the names of the library", "nm")
            return
        for file, flags in ((self.archive, ["-g"]), (self.shared, ["-D"])):
            status, said = run([nm, *flags, file])
            has = {it for kind, it in re.findall(r"\b([A-Z]) (\w+)", said) if kind == "T"}
            needs = {it for kind, it in re.findall(r"\b([A-Z]) (\w+)", said) if kind == "U"} - has
            # Those through which the toolchain asks for memory, which a shared object does not show.
            more = {"rattle_alloc", "rattle_realloc", "rattle_dealloc"} if file == self.archive else set()
            wanted = declared | more
            check(f"{os.path.basename(file)} has the functions of nms.h, and no others", has == wanted, sorted(has ^ wanted))
            wanted = {"malloc", "realloc", "free", "memcpy", "memmove", "memset", "memcmp", "bcmp"}
            # A division of 128 bits, which every linker of C has from its compiler.
            wanted |= {"__udivti3"} if file == self.archive else set()
            check(f"{os.path.basename(file)} needs the C library alone", needs <= wanted, sorted(needs - wanted))
        if self.cc:
            words = [self.cc, "-shared", "-Wl,-z,defs", "-Wl,--whole-archive", self.archive, "-Wl,--no-whole-archive"]
            built("the archive goes into a shared object", [*words, "-o", f"{self.room}/plugin.so"])

    def header(self):
        """The header's own assertions in C and in C++, its structs compared with what the library reads and writes, and the locks."""
        with open(f"{TOP}/include/nms.h", encoding="utf-8") as file:
            calls = re.findall(r"/\*((?:(?!\*/).)*)\*/\nstatic inline uint32_t (nms_\w+)\(([^)]*)\)", file.read(), re.S)
        for comment, name, arguments in calls:
            stores = re.search(r"(?<!const )nms_board \*", arguments)
            check(f"{name} says which lock it needs", bool(stores) == ("exclusive lock" in comment), comment)
            stores = re.search(r"(?<!const )nms_terms \*", arguments)
            check(f"{name} says that it stores into terms", bool(stores) == ("No other call may run" in comment), comment)
            free = re.search(r"const nms_(?:terms|view) \*", arguments)
            check(f"{name} says that calls may run at once", bool(free) == ("may call at once" in comment), comment)
        for wrapper, form in (("include/nms.hpp", r"\b{}\("), ("rust/nms/src/lib.rs", r"sys::{}\(")):
            with open(f"{TOP}/{wrapper}", encoding="utf-8") as file:
                text = file.read()
            names = [name if wrapper.endswith("hpp") else name.replace("nms_", "nms_raw_", 1) for _, name, _ in calls]
            lacks = [name for name in names if not re.search(form.format(name), text)]
            check(f"{wrapper} has each call", not lacks, lacks)
        looks = [name for _, name, arguments in calls if "const nms_board *" in arguments]
        check("nms.h has 38 calls, and 16 are looks", (len(calls), len(looks)) == (38, 16), looks)
        if not self.cc:
            skip("the header in C", "C compiler")
            return
        if built("tests/sizes.c is built", self.c("tests/sizes.c", "sizes", "-O1", "-pedantic")):
            counted("the header beside the library", [f"{self.room}/sizes", f"{TOP}/examples/builtin.toml"])
        if not self.cxx:
            skip("the header in C++", "C++ compiler")
            return
        with open(f"{self.room}/header.cpp", "w", encoding="ascii") as file:
            file.write("#include <nms.h>\nint main() { return nms_abi() != NMS_ABI; }\n")
        for standard in ("c++11", "c++20"):
            words = [self.cxx, f"-std={standard}", *WARNINGS, "-pedantic", "-I", f"{TOP}/include", f"{self.room}/header.cpp", self.archive]
            if built(f"the header is taken as {standard}", [*words, "-o", f"{self.room}/header"]):
                check("a program of C++ is of the library's layout", run([f"{self.room}/header"])[0] == 0)

    def stacks(self):
        """The stack of each call compared with what the header says, in KiB."""
        if not self.cc:
            skip("the stack of each call", "C compiler")
            return
        with open(f"{TOP}/include/nms.h", encoding="utf-8") as file:
            header = file.read()
        calls = {f"nms_{it}" for it in re.findall(r"^uint32_t nms_raw_(\w+)\(", header, re.M)}
        table = re.search(r"^ \*   Stack that a call needs, in KiB.*\n((?: \*     .*\n)+)", header, re.M)
        said = {name: 1024 * int(size) for name, size in re.findall(r"(nms_\w+|any other call) (\d+)", table[1] if table else "")}
        least = 1024 * int((re.findall(r"take (\d+) for a text that is a setup", header) or [0])[0])
        if not built("tests/stack.c is built", self.c("tests/stack.c", "stack", "-O1", "-pedantic")):
            return
        status, came = run([f"{self.room}/stack", f"{TOP}/examples/builtin.toml"])
        rows = re.findall(r"^(nms_\w+) (\d+)$", came, re.M)
        setups = {f"{name}_of_a_setup" for name in ("nms_open", "nms_setup_place", "nms_terms_open")}
        check("the stack of each call is measured", status == 0 and {name for name, _ in rows} == calls | setups, came[-500:])
        for name, size in rows:
            most = least if name in setups else said.get(name, said.get("any other call", 0))
            check(f"the stack of {name}", int(size) <= most, f"{size} bytes, and not {most} at most")

    def readers(self):
        """Looks by four threads while another writes."""
        setup = f"{TOP}/examples/builtin.toml"
        if not self.cc:
            skip("looks that run together", "C compiler")
        elif built("tests/readers.c is built", self.c("tests/readers.c", "readers", "-O1", "-pedantic", "-pthread")):
            counted("looks that run together", [f"{self.room}/readers", setup])
            if tool("valgrind"):
                words = ["valgrind", "-q", "--tool=helgrind", "--error-exitcode=99"]
                counted("looks that run together, under helgrind", [*words, f"{self.room}/readers", setup, "60"])
            else:
                skip("looks that run together, under helgrind", "valgrind")

    def views(self):
        """Calls on views compared with those on boards, views that no look shows, and eight threads."""
        setup = self.long_setup()
        if not self.cc:
            skip("calls on views", "C compiler")
            return
        if built("tests/views.c is built", self.c("tests/views.c", "views", "-O1", "-pedantic", "-pthread")):
            counted("calls on views", [f"{self.room}/views", setup])
        # The library itself is not instrumented: its stores are seen by helgrind, those of the header and the caller here.
        status, said = run(self.c("tests/views.c", "views-tsan", "-O1", "-g", "-fsanitize=thread", "-pthread"))
        if status != 0 and re.search("tsan|sanitize", said):
            skip("calls on views, under the thread sanitizer", "thread sanitizer")
        elif check("tests/views.c is built for the thread sanitizer", status == 0, said):
            environment = {**os.environ, "TSAN_OPTIONS": "exitcode=99"}
            counted("calls on views, under the thread sanitizer", [f"{self.room}/views-tsan", setup, "200"], env=environment)
        if tool("valgrind"):
            words = ["valgrind", "-q", "--tool=helgrind", "--error-exitcode=99"]
            counted("calls on views, under helgrind", [*words, f"{self.room}/views", setup, "20"])
        else:
            skip("calls on views, under helgrind", "valgrind")

    def between_threads(self):
        """Views that one thread publishes and three read, judged afterwards by the changes applied again."""
        if not self.cc:
            skip("views between threads", "C compiler")
            return
        setup = self.long_setup()
        if built("tests/shared.c is built", self.c("tests/shared.c", "shared", "-O1", "-pedantic", "-pthread")):
            counted("views between threads", [f"{self.room}/shared", setup])
        status, said = run(self.c("tests/shared.c", "shared-tsan", "-O1", "-g", "-fsanitize=thread", "-pthread"))
        if status != 0 and re.search("tsan|sanitize", said):
            skip("views between threads, under the thread sanitizer", "thread sanitizer")
        elif check("tests/shared.c is built for the thread sanitizer", status == 0, said):
            environment = {**os.environ, "TSAN_OPTIONS": "exitcode=99"}
            counted("views between threads, under the thread sanitizer", [f"{self.room}/shared-tsan", setup, "2000"], env=environment)

    def rolling(self):
        """More changes than one board counts, compared with a plain model: 30,000,000 in 300 symbols."""
        if not self.cc:
            skip("changes without end", "C compiler")
            return
        setup = f"{self.room}/rolling.toml"
        with open(setup, "w", encoding="ascii") as to:
            to.write("tape_limit = 3\nqueue = 2\ndesks = 1\n")
            for part in "NPYZABCD":
                to.write(f'[[participant]]\nname = "{part}"\nfeed = "A"\nfee = {ord(part)}000\nrate = {ord(part)}\n')
            for sym in range(300):
                to.write(f'[[symbol]]\nname = "S{sym}"\nlot = 100\n')
        if built("tests/rolling.c is built", self.c("tests/rolling.c", "rolling", "-O2", "-pedantic")):
            counted("changes without end", [f"{self.room}/rolling", setup])

    def wrappers(self):
        """The wrappers' own tests: wrong arguments, and what an error names."""
        setup = f"{TOP}/examples/builtin.toml"
        if not self.cxx:
            skip("the class in C++", "C++ compiler")
        else:
            words = [self.cxx, "-std=c++17", *WARNINGS, "-pedantic", "-I", f"{TOP}/include", f"{TOP}/tests/owner.cpp", self.archive]
            if built("tests/owner.cpp is built", [*words, "-Wl,--wrap=nms_abi", "-o", f"{self.room}/owner"]):
                counted("the class in C++", [f"{self.room}/owner", setup])
        counted("the package in Python", [sys.executable, f"{TOP}/tests/wrapper.py", setup, f"{TOP}/include/nms.h"], env={**os.environ, **self.python()})

    def callers(self, program):
        """Each caller, with what it must print."""
        setup = "examples/builtin.toml"
        if not self.cc:
            skip("the caller in C", "C compiler")
        elif built("examples/c/board.c is built", self.c("examples/c/board.c", "board", "-pedantic")):
            prints("the caller in C", [f"{self.room}/board", setup], "examples/c/board.out")
            if built("examples/c/view.c is built", self.c("examples/c/view.c", "view", "-pedantic")):
                prints("the caller with a view", [f"{self.room}/view", setup], "examples/c/view.out")
        if not self.cxx:
            skip("the caller in C++", "C++ compiler")
        else:
            words = [self.cxx, "-std=c++17", *WARNINGS, "-pedantic", "-I", f"{TOP}/include", f"{TOP}/examples/cpp/router.cpp", self.archive]
            if built("examples/cpp/router.cpp is built", [*words, "-o", f"{self.room}/router"]):
                prints("the caller in C++", [f"{self.room}/router", setup], "examples/cpp/router.out", "examples/cpp/day.feed")
            words = [it.replace("router.cpp", "threads.cpp") for it in words]
            if built("examples/cpp/threads.cpp is built", [*words, "-pthread", "-o", f"{self.room}/desks"]):
                prints("the caller with threads", [f"{self.room}/desks", setup], "examples/cpp/threads.out")
        self.rust(setup)
        prints("the caller in Python", [sys.executable, "examples/python/worked.py", setup], "examples/python/worked.out", None, self.python())
        prints("a child process", [sys.executable, "examples/python/child.py", program], "examples/python/child.out")

    def rust(self, setup):
        if not (tool("cargo") and tool("rustc") and self.cc):
            skip("the caller in Rust", "cargo or rustc")
            return
        # Built from a copy, so that cargo writes nothing into the repository.
        folder = f"{self.room}/rust"
        shutil.copytree(f"{TOP}/rust", folder, ignore=shutil.ignore_patterns("target"))
        words = ["--offline", "--quiet", "--locked", "--features", "static", "--manifest-path", f"{folder}/Cargo.toml", "--target-dir", f"{folder}/made"]
        environment = {**os.environ, "NMS_LIB_DIR": os.path.realpath(self.out), "RUSTFLAGS": "-D warnings"}
        status, said = run(["cargo", "build", *words, "--example", "trade"], env=environment)
        if check("rust/nms is built", status == 0 and not said, said):
            prints("the caller in Rust", [f"{folder}/made/debug/examples/trade", setup], "rust/nms/examples/trade.out")
        for what, tests, many in (("the example on the first page", ["--doc"], 1), ("each call", ["--test", "calls"], 6)):
            status, said = run(["cargo", "test", *words, *tests], env=environment)
            check(f"{what} of rust/nms", status == 0 and f"{many} passed" in said, said)

    def page(self, program):
        """Follows docs/CALLING.md word for word in a copy of what it names: each part's commands, and what the last must give."""
        clone = f"{self.room}/clone"
        os.makedirs(f"{clone}/crates/nms_c")
        for folder in ("include", "examples", "python", "rust"):
            shutil.copytree(f"{TOP}/{folder}", f"{clone}/{folder}", ignore=shutil.ignore_patterns("target", "__pycache__"))
        os.symlink(os.path.realpath(self.out), f"{clone}/crates/nms_c/out")
        os.symlink(program, f"{clone}/nms_tool")
        # The library is there already.
        with open(f"{clone}/nms_lib", "w", encoding="ascii") as file:
            file.write("#!/bin/sh\n")
        os.chmod(f"{clone}/nms_lib", 0o755)
        with open(f"{TOP}/docs/CALLING.md", encoding="utf-8") as file:
            parts = re.findall(r"^## (.*)\n\n((?:    .*\n)+)\nmust give `([^`]*)`", file.read(), re.M)
        check("docs/CALLING.md has a part for each language", len(parts) == 5, [it[0] for it in parts])
        for name, commands, wanted in parts:
            needs = {"gcc", "g++", "cargo", "python3"} & set(commands.split())
            lacks = [it for it in sorted(needs) if not tool(it)]
            if lacks:
                skip(f"docs/CALLING.md, {name}", " and no ".join(lacks))
                continue
            for line in commands.splitlines():
                ran = subprocess.run(["bash", "-c", line], cwd=clone, stdout=subprocess.PIPE, stderr=subprocess.PIPE, timeout=MOST, check=False)
                if not check(f"docs/CALLING.md, {name}: {line.strip()}", ran.returncode == 0, ran.stderr):
                    break
            with open(f"{TOP}/{wanted}", "rb") as file:
                check(f"docs/CALLING.md, {name}: it gives {wanted}", ran.stdout == file.read(), ran.stdout)

    def hostile(self):
        """The hostile caller: plain, under the sanitizers, and under valgrind."""
        setup = f"{TOP}/examples/builtin.toml"
        if not self.cc:
            skip("the hostile caller", "C compiler")
            return
        if built("tests/hostile.c is built", self.c("tests/hostile.c", "hostile", "-g", "-O1", WRAP)):
            counted("a hostile caller", [f"{self.room}/hostile", setup, "100000"])
            if tool("valgrind"):
                words = ["valgrind", "-q", "--error-exitcode=99", "--leak-check=full", "--errors-for-leak-kinds=all"]
                counted("a hostile caller under valgrind", [*words, f"{self.room}/hostile", setup, "200"])
            else:
                skip("the hostile caller under valgrind", "valgrind")
        sanitizers = ["-fsanitize=address,undefined", "-fno-sanitize-recover=all"]
        with open(f"{self.room}/empty.c", "w", encoding="ascii") as file:
            file.write("int main(void) { return 0; }\n")
        status, _ = run([self.cc, *sanitizers, f"{self.room}/empty.c", "-o", f"{self.room}/empty"])
        if status or run([f"{self.room}/empty"])[0]:
            skip("the hostile caller under the sanitizers", "address and undefined-behaviour sanitizers")
        elif built("tests/hostile.c is built with sanitizers", self.c("tests/hostile.c", "sane", "-g", "-O1", WRAP, *sanitizers)):
            counted("a hostile caller under the sanitizers", [f"{self.room}/sane", setup, "50000"])

    def parity(self, program):
        if not self.cc:
            skip("the library's answers beside the program's", "C compiler")
            return
        counted("the library beside the program", [sys.executable, f"{TOP}/tests/parity.py", program], env={**os.environ, "CC": self.cc})


def main(program):
    with tempfile.TemporaryDirectory(prefix="nms-library-") as room:
        library = Library(room)
        if library.make():
            library.link()
            library.header()
            library.stacks()
            library.readers()
            library.views()
            library.between_threads()
            library.rolling()
            library.wrappers()
            library.callers(program)
            library.page(program)
            library.hostile()
            library.parity(program)
    skipped = f", {Count.skipped} skipped" if Count.skipped else ""
    print(f"{Count.passed} passed, {Count.failed} failed{skipped}")
    return 1 if Count.failed else 0


if __name__ == "__main__":
    if len(sys.argv) != 2:
        sys.exit(__doc__)
    sys.exit(main(os.path.realpath(sys.argv[1])))
