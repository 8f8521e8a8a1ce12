"""What an installation holds: a tree of files, made of a folder of released files and of this repository."""
import os
import re
import subprocess
import sys
import time
from dataclasses import dataclass

import helps
import pages
from archive import Entry, Tree, sha256

TOP = pages.TOP
FILES = f"{TOP}/packages/files"
RELEASED = ("nms_tool", "nms_review", "nms_serve", "libnms.a", "libnms.so")
# What an own setup begins from.
SETUPS = ("builtin", "market", "lots", "caps_of_2024")


def read(path):
    try:
        with open(path, "rb") as file:
            return file.read()
    except OSError as error:
        sys.exit(f"packages: {path}: {error.strerror}")


def output(*words):
    try:
        return subprocess.run(words, stdout=subprocess.PIPE, check=True, text=True, cwd=TOP).stdout
    except (OSError, subprocess.CalledProcessError) as error:
        sys.exit(f"packages: {words[0]}: {error}")


@dataclass(frozen=True)
class Elf:
    """What a file asks of a system: the libraries, and the latest version of glibc's symbols. Its own name if it is a library."""
    soname: str
    needed: tuple
    glibc: tuple

    @staticmethod
    def of(path):
        said = output("objdump", "-p", path)
        versions = [tuple(map(int, it.split("."))) for it in re.findall(r"\bGLIBC_(\d+(?:\.\d+)+)", said)]
        named = re.search(r"^ +SONAME +(\S+)", said, re.M)
        return Elf(named[1] if named else "", tuple(re.findall(r"^ +NEEDED +(\S+)", said, re.M)), max(versions, default=(2, 0))[:2])


class Release:
    """A folder of released files, which are as their sums say, and what packages of them say of themselves."""

    def __init__(self, folder):
        self.folder = folder
        said = re.findall(r"^([0-9a-f]{64})  (\S+)$", read(f"{folder}/SHA256SUMS").decode("ascii", "replace"), re.M)
        for name in (*RELEASED, "PROVED"):
            if (sha256(read(f"{folder}/{name}")), name) not in said:
                sys.exit(f"packages: {folder}/{name} is not what SHA256SUMS says")
        self.version = found(r"^## (\d+\.\d+\.\d+)", f"{TOP}/CHANGELOG.md")
        self.abi = found(r"^#define NMS_ABI (\d+)$", f"{TOP}/include/nms.h")
        self.elves = {name: Elf.of(f"{folder}/{name}") for name in RELEASED if name != "libnms.a"}
        if self.soname != f"libnms.so.{self.abi}":
            sys.exit(f"packages: libnms.so says that it is {self.soname!r}, and NMS_ABI of nms.h is {self.abi}")
        # Every file of every package has the time of the commit.
        seconds = os.environ.get("SOURCE_DATE_EPOCH") or output("git", "log", "-1", "--format=%ct").strip()
        if not re.fullmatch(r"\d{1,10}", seconds):
            sys.exit(f"packages: SOURCE_DATE_EPOCH is {seconds!r}, and no number of seconds")
        self.time = int(seconds)
        self.date = time.strftime("%Y-%m-%d", time.gmtime(self.time))

    @property
    def soname(self):
        return self.elves["libnms.so"].soname

    def data(self, name):
        return read(f"{self.folder}/{name}")

    def glibc(self, *names):
        """The glibc that files need, as `2.34`."""
        return ".".join(map(str, max(self.elves[it].glibc for it in names)))


def found(pattern, path):
    """What a file says once."""
    (it,) = re.findall(pattern, read(path).decode(), re.M)[:1] or sys.exit(f"packages: {path} has nothing of the form {pattern}")
    return it


def filled(name, release):
    """A file of packages/files with the facts of a release in it."""
    words = {"VERSION": release.version, "SONAME": release.soname, "PROGRAMS_GLIBC": release.glibc(*helps.PROGRAMS), "LIBRARY_GLIBC": release.glibc("libnms.so")}
    return re.sub(r"@(\w+)@", lambda it: words[it[1]], read(f"{FILES}/{name}").decode()).encode()


def tracked(*paths):
    """The files of the repository below some paths, with their modes."""
    for line in output("git", "ls-files", "--stage", "-z", "--", *paths).split("\0"):
        if line:
            mode, _, path = line.partition(" ")[0], *line.partition("\t")[1:]
            yield path, Entry(read(f"{TOP}/{path}"), 0o755 if mode == "100755" else 0o644)


def below(folder, to):
    """The files of a folder of the repository, at another place."""
    return {f"{to}{path.removeprefix(folder)}": it for path, it in tracked(folder)}


def runs():
    """The rows of examples/README.md for nms_selftest, as `status|input|answer|words`."""
    sys.path.insert(0, f"{TOP}/tests")
    import check

    for row in check.table():
        call, _ = check.example(row)
        outputs, status, _ = check.given_of(row[1])
        given = re.search(r"< ?(\S+)`", row[0])
        yield f"{status}|{given[1] if given else ''}|{'examples/' + outputs[0] if outputs else ''}|{' '.join(call.words)}\n"


def library(release) -> Tree:
    """The library for C and C++."""
    return {
        f"lib/{release.soname}": Entry(release.data("libnms.so"), 0o755),
        "lib/libnms.so": Entry(link=release.soname),
        "lib/libnms.a": Entry(release.data("libnms.a")),
        "lib/pkgconfig/nms.pc": Entry(filled("nms.pc", release)),
        "lib/cmake/nms/nmsConfig.cmake": Entry(filled("nmsConfig.cmake", release)),
        "lib/cmake/nms/nmsConfigVersion.cmake": Entry(filled("nmsConfigVersion.cmake", release)),
        "include/nms.h": Entry(read(f"{TOP}/include/nms.h")),
        "include/nms.hpp": Entry(read(f"{TOP}/include/nms.hpp")),
        "include/nms_shared.h": Entry(read(f"{TOP}/include/nms_shared.h")),
    }


def helped(release) -> Tree:
    """Manual pages and completions."""
    places = {"man1": "share/man/man1", "bash": "share/bash-completion/completions", "zsh": "share/zsh/site-functions", "fish": "share/fish/vendor_completions.d"}
    made = helps.made(release.folder, release.version, release.date)
    return {f"{places[path.partition('/')[0]]}/{os.path.basename(path)}": Entry(text.encode()) for path, text in made.items()}


def documents() -> Tree:
    """Pages and their pictures. They name examples/ as it is in the repository."""
    tree = {f"share/doc/nms/{it}": Entry(pages.installed(it).encode()) for it in pages.PAGES if it != "examples/README.md"}
    tree |= {f"share/doc/nms/{it}": Entry(read(f"{TOP}/{it}")) for it in pages.PICTURES}
    return tree | {"share/doc/nms/examples": Entry(link="../../nms/examples")}


def shared() -> Tree:
    """Examples, and what stands there under a name of its own: setups and mappings, the packages for Python and Rust."""
    tree = below("examples", "share/nms/examples") | below("python", "share/nms/python") | below("rust", "share/nms/rust")
    tree["share/nms/examples/README.md"] = Entry(pages.installed("examples/README.md").encode())
    tree |= {f"share/nms/setups/{it}.toml": Entry(link=f"../examples/{it}.toml") for it in SETUPS}
    mappings = [it for it in tree if re.fullmatch(r"share/nms/examples/import/[\w-]+\.toml", it)]
    return tree | {f"share/nms/mappings/{os.path.basename(it)}": Entry(link=f"../examples/import/{os.path.basename(it)}") for it in mappings}


def summed(tree: Tree) -> Tree:
    """The tree with the sums of its files, by which nms_selftest compares them."""
    lines = [f"{sha256(it.data)}  {path}\n" for path, it in sorted(tree.items()) if not it.link]
    return tree | {"share/nms/SHA256SUMS": Entry("".join(lines).encode())}


def installation(release) -> Tree:
    """All that is installed below a prefix."""
    tree = {f"bin/{it}": Entry(release.data(it), 0o755) for it in helps.PROGRAMS}
    tree["bin/nms_selftest"] = Entry(filled("nms_selftest", release), 0o755)
    tree["share/nms/selftest.runs"] = Entry("".join(runs()).encode())
    tree["share/nms/PROVED"] = Entry(release.data("PROVED"))
    return tree | library(release) | helped(release) | documents() | shared()
