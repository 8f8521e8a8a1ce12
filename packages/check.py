#!/usr/bin/env python3
"""The gate's part `packages`: makes each package twice, installs it in a bare root, and uses it there as a stranger would.

    packages/check.py           packages of what this repository built, as crates/*/out has it, or the folder NMS_PROGRAMS
    packages/check.py FOLDER    packages of released files

The roots are made of this machine's Debian packages, and what runs in them sees neither this repository nor a network. A test
that this machine can't make is named and counted, with CI=true too. It writes a line for each difference, and last `N passed, M
failed`, or `N passed, M failed, K skipped`.
"""
import contextlib
import os
import re
import shlex
import shutil
import subprocess
import sys
import tarfile
import tempfile

sys.dont_write_bytecode = True
HERE = os.path.dirname(os.path.realpath(__file__))
TOP = os.path.dirname(HERE)
sys.path[:0] = [HERE, f"{TOP}/tests"]
import helps
import pages
from library import Count, check, run, tool
from root import Packages, Root, allowed
from tree import RELEASED, Release
from tried import Bare, Full, digest, skip

# The Debian packages of a system with the usual commands. Then those that a developer may have besides.
BARE = ("dash", "coreutils", "sed", "grep", "diffutils", "findutils", "tar", "gzip", "libc-bin", "dpkg")
MORE = ("gcc", "g++", "libc6-dev", "pkg-config", "cmake", "make", "python3", "python3-venv", "python3-numpy")
# Instructions of processors after those with SSE4.1. `rep bsf`, which any processor takes, is shown as tzcnt.
LATER = re.compile(r"v[a-z]{2,}\w*|popcnt|crc32[a-z]?|pcmp[ei]str[im]|pcmpgtq|lzcnt|andn|bextr|bls(?:i|r|msk)|bzhi|pdep|pext|mulx|rorx"
                   r"|s[ahl][lr]x|movbe|aes\w+|pclmul\w*|sha(?:1|256)\w+|ad[co]x")
# The tool that reads each kind of file, the folder of that kind, and the tool's words.
READERS = {
    "mandoc": ("man/man1", ["-T", "lint", "-W", "warning"]),
    "bash": ("bash-completion/completions", ["-n"]),
    "zsh": ("zsh/site-functions", ["-n"]),
    "fish": ("fish/vendor_completions.d", ["-n"]),
}
# What a shell has to offer after some words.
OFFERS = {"nms_tool pl": "plan", "nms_tool plan --se": "--setup", "nms_review expl": "explain", "nms_serve --ta": "--tape"}
# A help, and changes of it that give no help.
HELP = "Does a thing\n\nUsage: it [OPTIONS] <FILE>\n\nArguments:\n  <FILE>  A file\n\nOptions:\n  -h, --help  Print help\n"
NO_HELPS = (("  -h, --help  Print", "  -h; --help  Print"), ("  <FILE>  A", "  FILE  A"), ("Usage: ", "Usage "), ("Options:", "Options"),
            ("Arguments:\n", "Arguments:\nmore\n"), ("\n\nOptions", "\n\n  a line of no list\n\nOptions"), ("Does a thing\n", ""))


def built():
    """Where each file is that is released: in the folder NMS_PROGRAMS, or where a build leaves it."""
    folder = os.environ.get("NMS_PROGRAMS")
    crate = {name: "nms_c" if name.startswith("lib") else name for name in RELEASED}
    return {name: f"{folder}/{name}" if folder else f"{TOP}/crates/{crate[name]}/out/{name}" for name in RELEASED}


def gathered(folder):
    """What this repository built, as a folder of released files."""
    lacking = [path for path in built().values() if not os.path.exists(path)]
    if not check("each program and the library is built", not lacking, ", ".join(lacking)):
        return False
    for name, path in built().items():
        shutil.copy(path, f"{folder}/{name}")
    with open(f"{folder}/PROVED", "w", encoding="ascii") as file:
        file.write("Made by packages/check.py to try packages: nothing is released by this file.\n")
    with open(f"{folder}/SHA256SUMS", "w", encoding="ascii") as file:
        file.writelines(f"{digest(f'{folder}/{it}')}  {it}\n" for it in (*RELEASED, "PROVED"))
    return True


class Made:
    """The packages, made of a folder of released files."""

    def __init__(self, room, folder):
        self.room, self.folder, self.out = room, folder, f"{room}/made"

    def make(self):
        """Makes each package, and tests that another clone makes the same."""
        status, said = run([f"{HERE}/make", self.folder, self.out])
        if not check("the packages are made", status == 0, said):
            return False
        self.release = Release(self.folder)
        self.version = self.release.version
        self.tar, self.deb = f"{self.out}/nms-{self.version}-x86_64-linux.tar.gz", f"{self.out}/nms_{self.version}_amd64.deb"
        (self.wheel,) = (f"{self.out}/{it}" for it in os.listdir(self.out) if it.endswith(".whl"))
        sums = "".join(f"{digest(f'{self.out}/{line[66:]}')}  {line[66:]}\n" for line in said.splitlines())
        check("what is printed is what is made", said == sums and said.count("\n") == len(os.listdir(self.out)), said)
        self.again(said)
        return True

    def again(self, wanted):
        """Makes them by a copy of this repository in another folder, under another umask, zone and language."""
        copy = f"{self.room}/a copy"
        files = subprocess.run(["git", "ls-files", "-z"], cwd=TOP, stdout=subprocess.PIPE, check=True, text=True).stdout.split("\0")
        for name in filter(None, files):
            os.makedirs(os.path.dirname(f"{copy}/{name}"), exist_ok=True)
            shutil.copy(f"{TOP}/{name}", f"{copy}/{name}")
        script = f"umask 077; git init -q . && git add -A && packages/make {shlex.quote(self.folder)} out"
        other = {"SOURCE_DATE_EPOCH": str(self.release.time), "TZ": "Asia/Kathmandu", "LC_ALL": "C", "PYTHONHASHSEED": "1"}
        status, said = run(["sh", "-c", script], cwd=copy, env={**os.environ, **other})
        check("another clone makes the same bytes", status == 0 and said == wanted, said)

    def refuses(self):
        """What is not released as its sums say is not packed."""
        for name in (*RELEASED, "PROVED"):
            with self.altered(name) as folder:
                status, said = run([f"{HERE}/make", folder, f"{self.room}/no"])
                check(f"no package of an altered {name}", status == 1 and name in said and not os.path.exists(f"{self.room}/no"), said)

    @contextlib.contextmanager
    def altered(self, name):
        folder = f"{self.room}/altered"
        shutil.copytree(self.folder, folder)
        with open(f"{folder}/{name}", "ab") as file:
            file.write(b"x")
        yield folder
        shutil.rmtree(folder)

    def systems(self):
        """That each file runs where docs/INSTALL.md says: its instructions, and the glibc of its symbols."""
        with open(f"{TOP}/docs/INSTALL.md", encoding="utf-8") as file:
            said = dict(re.findall(r"\bThe (programs|library) (?:and the wheel )?need glibc (\d+\.\d+)\b", file.read()))
        programs, library = (tuple(map(int, said.get(it, "0.0").split("."))) for it in ("programs", "library"))
        needs = {name: it.glibc for name, it in self.release.elves.items()}
        check("the glibc of the programs", programs == max(needs[it] for it in helps.PROGRAMS), needs)
        check("the glibc of the library", library >= needs["libnms.so"], needs)
        for name in RELEASED:
            status, text = run(["objdump", "-d", "--no-show-raw-insn", f"{self.folder}/{name}"])
            words = set(re.findall(r"^ +[0-9a-f]+:\t(?:(?:rep[nz]*|lock|data16) )*(\w+)", text, re.M))
            later = sorted(filter(LATER.fullmatch, words))
            check(f"{name} has no instruction later than SSE4.1", status == 0 and len(words) > 20 and not later, later)


def helped(made):
    """Manual pages and completions, each by its own tool."""
    with tarfile.open(made.tar) as archive:
        archive.extractall(f"{made.room}/tar", filter="data")
    share = f"{made.room}/tar/nms-{made.version}-x86_64-linux/share"
    for name, (kind, words) in READERS.items():
        files = sorted(os.listdir(f"{share}/{kind}"))
        check(f"each program has a file in {kind}", len(files) == len(helps.PROGRAMS), files)
        for file in files:
            if tool(name):
                status, said = run([name, *words, f"{share}/{kind}/{file}"])
                check(f"{kind}/{file} by {name}", status == 0 and not said, said)
            else:
                skip(f"{kind}/{file}", name)
    for words, wanted in OFFERS.items():
        completed(share, words, wanted)
    for old, new in NO_HELPS:
        try:
            came = helps.read_help("it", "", HELP.replace(old, new, 1))
        except helps.Unknown as error:
            came = error
        check(f"--help with {new!r} for {old!r} is refused", isinstance(came, helps.Unknown), came)
    check("--help without a change is read", helps.read_help("it", "", HELP).arguments[0].is_file())


def completed(share, words, wanted):
    """What bash and fish offer after some words."""
    name = words.split()[0]
    ask = f"COMP_WORDS=({words}); COMP_CWORD={len(words.split()) - 1}; _{name}; echo \"${{COMPREPLY[*]}}\""
    said = run(["bash", "--norc", "-c", f". {share}/bash-completion/completions/{name}; {ask}"])[1]
    check(f"bash offers {wanted} after {words!r}", wanted in said.split(), said)
    if tool("fish"):
        said = run(["fish", "--no-config", "-c", f"source {share}/fish/vendor_completions.d/{name}.fish; complete -C '{words}'"])[1]
        check(f"fish offers {wanted} after {words!r}", wanted in re.findall(r"^(\S+)", said, re.M), said)
    else:
        skip(f"what fish offers after {words!r}", "fish")


def paged(made):
    """The installed pages: each link leads to a file, and each path that INSTALL.md names is there."""
    with tarfile.open(made.tar) as archive:
        there = {it.name.partition("/")[2] for it in archive.getmembers()}
    for page in pages.PAGES:
        text = pages.installed(page)
        for target in re.findall(r"\]\(([^)#\s]+)[^)]*\)", text):
            path = os.path.normpath(os.path.join("share/doc/nms", os.path.dirname(page), target))
            path = path.replace("share/doc/nms/examples/", "share/nms/examples/")
            check(f"{page} leads to {target}", path in there)
    for path in re.findall(r"`((?:bin|lib|include|share)/[\w./-]*)`", pages.installed("docs/INSTALL.md")):
        check(f"docs/INSTALL.md: {path}", path.rstrip("/") in there, path)


def tried(made):
    """Each package in a root without this repository."""
    lacks = allowed()
    packages = Packages() if not lacks else None
    absent = [it for it in BARE if packages and not packages.has(it)]
    if lacks or absent:
        skip("each package in a bare root", lacks or f"Debian package {', '.join(absent)}")
        return
    mount = ["mount"] * packages.has("mount")
    Bare(made, Root(f"{made.room}/bare", packages, [*BARE, *mount]), f"{TOP}/tests").all()
    root = Root(f"{made.room}/full", packages, [*BARE, *filter(packages.has, MORE)])
    status, sysroot = run(["rustc", "--print", "sysroot"]) if tool("rustc") and tool("cargo") else (1, "")
    root.rust = sysroot.strip() if status == 0 else ""
    Full(made, root, f"{TOP}/tests").all({it for it in MORE if not packages.has(it)} | ({"cargo"} if not root.rust else set()))


def all_of(words):
    """Makes and tries the packages of what is built, or of a folder."""
    with tempfile.TemporaryDirectory(prefix="nms-packages-") as room:
        folder = os.path.realpath(words[0]) if words else f"{room}/files"
        if not words:
            os.mkdir(folder)
        made = Made(room, folder)
        if (words or gathered(folder)) and made.make():
            made.refuses()
            made.systems()
            helped(made)
            paged(made)
            tried(made)


def main(words):
    if len(words) > 1 or words[:1] == ["--help"]:
        sys.exit(__doc__)
    status, said = run([f"{HERE}/nms_sys.py", "--compare"])
    check("rust/nms-sys is what nms.h says", status == 0, said)
    lacks = [it for it in ("git", "objdump") if not tool(it)]
    if not lacks and run(["git", "-C", TOP, "rev-parse", "HEAD"])[0] != 0:
        lacks = ["commit of this repository"]
    if lacks:
        skip("each package", " and no ".join(lacks))
    else:
        all_of(words)
    print(f"{Count.passed} passed, {Count.failed} failed" + (f", {Count.skipped} skipped" if Count.skipped else ""))
    return 1 if Count.failed else 0


if __name__ == "__main__":
    sys.exit(main(sys.argv[1:]))
