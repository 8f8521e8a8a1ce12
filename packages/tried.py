"""The packages in a root: each is installed, used as a stranger would, and removed."""
import hashlib
import json
import os
import re
import shlex
import shutil

from helps import PROGRAMS
from library import Count, check

# What nms_selftest builds callers by, and skips if it is not there.
CALLERS = {"gcc", "g++", "pkg-config", "python3", "cargo"}
# Stand-ins for another processor, an older C library, and a processor without SSE4.1.
FAKES = r"""
mkdir -p /fake/arm /fake/old
printf '#!/bin/sh\necho Linux aarch64\n' >/fake/arm/uname
printf '#!/bin/sh\necho glibc 2.31\n' >/fake/old/getconf
chmod 755 /fake/*/*
printf 'flags\t\t: fpu sse sse2 sse3\n' >/fake/cpuinfo
"""
# What is on a disk, but for what the system itself writes.
LISTED = "find / -xdev -path /proc -prune -o ! -type d -print | grep -v '^/var/\\|^/tmp/\\|^/etc/ld.so.cache' | LC_ALL=C sort"


def skip(what, lacks):
    """Counts a test that this machine can't make."""
    Count.skipped += 1
    print(f"skipped: {what}: this machine has no {lacks}")


def digest(path):
    with open(path, "rb") as file:
        return hashlib.sha256(file.read()).hexdigest()


def ended(said):
    """The counts of a last line `N passed, M failed[, K skipped]`; a failure if there is none."""
    found = re.search(r"^(\d+) passed, (\d+) failed(?:, (\d+) skipped)?\Z", said.rstrip("\n"), re.M)
    return tuple(int(it or 0) for it in found.groups()) if found else (0, 1, 0)


def passes(status, said):
    return status == 0


def says(status, text):
    """Whether a script ends with a status, and its output has a text."""
    return lambda came, said: came == status and text in said


class Tried:
    """A root with the packages in its folder /root."""

    def __init__(self, made, root, tests):
        self.made, self.root, self.name = made, root, f"nms-{made.version}-x86_64-linux"
        for path in (*(f"{made.out}/{it}" for it in os.listdir(made.out)), f"{tests}/wrapper.py"):
            shutil.copy(path, f"{root.folder}/root/")

    def does(self, what, script, holds=passes, user=""):
        """Runs a script in /root, tests how it ended, and gives what it wrote."""
        status, said = self.root.run(f"set -e\ncd /root\n{script}", user)
        check(what, holds(status, said), f"status {status}: {said[-1200:]}")
        return said

    def selftest(self, what, command, skips):
        """nms_selftest passes; `skips` is the number of tests that it skips."""
        said = self.does(what, command, lambda status, said: status == 0 and ended(said)[0] > 30 and ended(said)[1] == 0)
        skipped = [line for line in said.splitlines() if line.startswith("skipped: ")]
        check(f"{what}: it skips {skips}", len(skipped) == skips == ended(said)[2], skipped)
        print(f"{what}: {said.rstrip().splitlines()[-1]}")

    def install(self, prefix):
        self.does("the tar unpacks", f"tar -xzf {self.name}.tar.gz")
        self.does(f"install.sh installs below {prefix}", f"{self.name}/install.sh --prefix '{prefix}'", says(0, f"{prefix}/bin/nms_selftest"))


class Bare(Tried):
    """A system with nothing but the usual commands."""

    def all(self):
        self.install("/opt/a place")
        self.selftest("nms_selftest in a bare root", "'/opt/a place/bin/nms_selftest'", 4)
        self.refused()
        self.removed()
        self.by_a_user()
        self.other_systems()
        if self.root.run("command -v mount")[0] == 0:
            self.on_a_full_disk()

    def refused(self):
        """What install.sh refuses, it does not begin."""
        for words, status, text in (("--prefix", 1, "needs a folder"), ("--prefix --uninstall", 1, "needs a folder"), ("--unknown", 2, "install.sh"),
                                    ("--uninstall --prefix /nowhere", 1, "installed nothing")):
            self.does(f"install.sh {words}", f"{self.name}/install.sh {words}", says(status, text))
        damage = f"cp -r {self.name} hurt\nprintf x >>hurt/lib/libnms.a\nhurt/install.sh --prefix /opt/hurt"
        self.does("a release that was altered", damage, says(1, "libnms.a"))
        self.does("it installed nothing", "[ ! -e /opt/hurt ] && rm -r hurt")
        altered = "cp -r '/opt/a place' /opt/b\nprintf x >>/opt/b/include/nms.h\nstatus=0\n/opt/b/bin/nms_selftest || status=$?\nrm -r /opt/b\nexit $status"
        self.does("nms_selftest finds an altered file", altered, lambda status, said: status == 1 and "include/nms.h" in said and ended(said)[1] == 1)

    def removed(self):
        """A second install takes the place of the first, and --uninstall leaves what is another's."""
        old = "cp -r %s old\necho old >old/share/nms/old\n(cd old && sha256sum share/nms/old >>share/nms/SHA256SUMS)\nold/install.sh --prefix /opt/twice\n" % self.name
        self.does("two versions in one place", f"{old}[ -e /opt/twice/share/nms/old ]\n{self.name}/install.sh --prefix /opt/twice\nrm -r old")
        self.does("what only the first had is gone", "[ ! -e /opt/twice/share/nms/old ] && /opt/twice/bin/nms_tool --version")
        staged = f"{self.name}/install.sh --destdir /opt/staged --prefix /usr\n[ -x /opt/staged/usr/bin/nms_tool ]\n[ ! -e /usr/bin/nms_tool ]"
        self.does("a release is staged for a package", staged)
        for place, words in (("/opt/a place", ""), ("/opt/twice", ""), ("/opt/staged/usr", "--destdir /opt/staged --prefix /usr")):
            script = f"echo mine >'{place}/lib/mine'\n'{place}/share/nms/install.sh' --uninstall {words}\nfind '{place}' -mindepth 1"
            left = f"removed from {place}\n{place}/lib\n{place}/lib/mine\n"
            self.does(f"--uninstall below {place}", script, lambda status, said, left=left: (status, said) == (0, left))

    def by_a_user(self):
        if os.geteuid() != 0:
            skip("an install by a user", "right to run as another user")
            return
        user = "1000:1000"
        self.does("a file for a user", f"cp {self.name}.tar.gz /home && chmod 644 /home/{self.name}.tar.gz")
        script = f"umask 077\ncd /home\ntar -xzf {self.name}.tar.gz\n{self.name}/install.sh --prefix .local\n.local/bin/nms_selftest"
        self.does("a user installs below a home", script, lambda status, said: status == 0 and ended(said)[1] == 0, user)
        self.does("others can read what a user installs", '[ -z "$(find /home/.local ! -type l ! -perm -a+r)" ]')
        self.does("a user can't install below /usr", f"cd /home\n{self.name}/install.sh --prefix /usr", says(1, "ermission"), user)
        self.does("nothing of it is there", "[ ! -e /usr/share/nms ] && rm -rf /home/.local /home/nms*")

    def other_systems(self):
        """Another processor or C library is named in plain words, before a program starts."""
        self.does("an install for other systems", f"{FAKES}{self.name}/install.sh --prefix /opt/other")
        arm, old = "export PATH=/fake/arm:$PATH", "export PATH=/fake/old:$PATH"
        self.does("another processor", f"{arm}\n/opt/other/bin/nms_selftest", lambda status, said: status == 1 and "aarch64" in said and ended(said) == (0, 1, 0))
        self.does("no install on it", f"{arm}\n{self.name}/install.sh --prefix /opt/no", says(1, "aarch64"))
        self.does("an older C library", f"{old}\n/opt/other/bin/nms_selftest", says(1, f"need glibc {self.made.release.glibc(*PROGRAMS)}"))
        if self.root.run("command -v mount")[0] == 0:
            sse = "mount --bind /fake/cpuinfo /proc/cpuinfo"
            self.does("a processor without SSE4.1", f"{sse}\n/opt/other/bin/nms_selftest",
                      lambda status, said: status == 1 and "no SSE4.1" in said and ended(said) == (1, 1, 0))
            self.does("no install on one", f"{sse}\n{self.name}/install.sh --prefix /opt/no", says(1, "no SSE4.1"))
        self.does("nothing was installed", f"[ ! -e /opt/no ]\n{self.name}/install.sh --uninstall --prefix /opt/other\nrm -rf /fake")

    def on_a_full_disk(self):
        """An install that a full disk ends says so, and --uninstall then leaves nothing of it."""
        script = f"mkdir /opt/small\nmount -t tmpfs -o size=500k none /opt/small\n{self.name}/install.sh --prefix /opt/small || echo status $?\n"
        script += f"{self.name}/install.sh --uninstall --prefix /opt/small\nfind /opt/small -mindepth 1"
        holds = lambda status, said: status == 0 and "o space left" in said and "\nstatus 1\n" in said and said.endswith("removed from /opt/small\n")
        self.does("an install on a full disk", script, holds)


class Full(Tried):
    """A developer's system, in which some commands lack."""

    def all(self, lacks):
        self.lacks, self.place = lacks, "/opt/nms"
        self.install(self.place)
        self.selftest("nms_selftest with compilers", f"{self.place}/bin/nms_selftest", len(CALLERS & lacks))
        listed = f"cd {self.place} && find . ! -type d ! -name INSTALLED | sed 's:^./::' | LC_ALL=C sort | cmp - share/nms/INSTALLED"
        self.does("what is there is what is listed", listed)
        for part in (self.cmake, self.page, self.wheel, self.crates, self.debian):
            part()

    def lacking(self, what, *names):
        """Whether a test needs a command that is not there: it is then skipped."""
        found = [it for it in names if it in self.lacks]
        if found:
            skip(what, " and no ".join(found))
        return bool(found)

    def cmake(self):
        if self.lacking("find_package(nms)", "cmake", "make", "gcc"):
            return
        major, minor, _ = self.made.version.split(".")
        targets = "".join(f"add_executable(by_{it} board.c)\ntarget_link_libraries(by_{it} nms::{it})\n" for it in ("nms", "static"))

        def project(version):
            text = shlex.quote(f"cmake_minimum_required(VERSION 3.16)\nproject(t C)\nfind_package(nms {version} REQUIRED)\n{targets}")
            return f"rm -rf /tmp/cm && mkdir /tmp/cm && cd /tmp/cm\ncp {self.place}/share/nms/examples/c/board.c .\nprintf %s {text} >CMakeLists.txt\n" \
                f"cmake -S . -B b -DCMAKE_PREFIX_PATH={self.place}\ncmake --build b"

        self.does("find_package of a later version is refused", project(f"{major}.{int(minor) + 1}"), says(1, self.made.version))
        self.does("find_package of this version", project(f"{major}.{minor}"))
        for it in ("nms", "static"):
            self.does(f"a caller by nms::{it}", f"cd {self.place}/share/nms && /tmp/cm/b/by_{it} examples/builtin.toml | cmp - examples/c/board.out")

    def page(self):
        """Follows the installed CALLING.md word for word, in a folder with copies of the examples and the crates."""
        with open(f"{self.root.folder}{self.place}/share/doc/nms/docs/CALLING.md", encoding="utf-8") as file:
            parts = re.findall(r"^## (.*)\n\n((?:    .*\n)+)\nmust give `([^`]*)`", file.read(), re.M)
        check("the installed CALLING.md has a part for each language", len(parts) == 5, [it[0] for it in parts])
        share = f"{self.place}/share/nms"
        paths = f"PATH={self.place}/bin:$PATH PKG_CONFIG_PATH={self.place}/lib/pkgconfig LD_LIBRARY_PATH={self.place}/lib"
        for name, commands, wanted in parts:
            what = f"the installed CALLING.md, {name}"
            if self.lacking(what, *sorted(CALLERS & set(re.findall(r"[\w+-]+", commands)))):
                continue
            *first, last = (line.strip() for line in commands.splitlines())
            begin = f"export {paths} PYTHONPATH={share}/python CARGO_TARGET_DIR=/tmp/target\nrm -rf /tmp/mine\nmkdir /tmp/mine\n"
            self.does(what, begin + "\n".join([f"cp -r {share}/examples {share}/rust /tmp/mine", "cd /tmp/mine", *first, f"{last} >/tmp/came", f"cmp /tmp/came {wanted}"]))

    def wheel(self):
        if self.lacking("the wheel", "python3"):
            return
        examples, wheel = f"{self.place}/share/nms/examples", os.path.basename(self.made.wheel)
        use = f"cp {examples}/python/worked.py /tmp\ncd /tmp\n$PYTHON worked.py {examples}/builtin.toml | cmp - {examples}/python/worked.out"
        self.does("the wheel, unpacked by Python", f"python3 -m zipfile -e {wheel} /tmp/site\nPYTHON='env PYTHONPATH=/tmp/site python3'\n{use}")
        said = self.does("the tests of the package in Python, on the wheel", f"cd /tmp\nPYTHONPATH=/tmp/site python3 /root/wrapper.py {examples}/builtin.toml",
                         lambda status, said: status == 0 and ended(said)[0] > 90 and ended(said)[1] == 0)
        if not self.lacking("nms.arrays", "python3-numpy"):
            check("they have those of nms.arrays", ended(said)[0] > 110, said)
        if not self.lacking("the wheel, installed by pip", "python3-venv"):
            self.does("pip installs the wheel", f"python3 -m venv /tmp/v\n/tmp/v/bin/pip install -q --no-index {wheel}\nPYTHON=/tmp/v/bin/python\n{use}")
            self.does("pip removes it", "/tmp/v/bin/pip uninstall -qy nms\n[ -z \"$(find /tmp/v -path '*site-packages/nms*')\" ]")

    def crates(self):
        """A program of a stranger: by the installed folder, and by the files .crate as a registry of one's own has them."""
        if self.lacking("a program with the crates", "cargo", "gcc"):
            return
        rust, lib = f"{self.place}/share/nms/rust", f"{self.place}/lib"

        def depends(on):
            text = shlex.quote(f'[package]\nname = "own"\nversion = "0.1.0"\nedition = "2021"\n[dependencies]\nnms = {{ {on} }}\n')
            return f"cd /tmp/own\nrm -f Cargo.lock\nprintf %s {text} >Cargo.toml\n"

        use = f"cargo run -q --offline -- {self.place}/share/nms/examples/builtin.toml | cmp - {rust}/nms/examples/trade.out"
        self.does("a program", f"mkdir -p /tmp/own/src /tmp/own/vendor /tmp/own/.cargo\ncp {rust}/nms/examples/trade.rs /tmp/own/src/main.rs")
        self.does("a program by the installed crate", depends(f'path = "{rust}/nms"') + f"export NMS_LIB_DIR={lib} LD_LIBRARY_PATH={lib}\n{use}")
        self.does("a program that finds no library", "cd /tmp/own\ncargo clean -q\ncargo build -q --offline", says(101, "NMS_LIB_DIR"))
        for name in ("nms-sys", "nms"):
            crate = f"/root/{name}-{self.made.version}.crate"
            note = shlex.quote(json.dumps({"files": {}, "package": digest(self.root.folder + crate)}))
            self.does(f"{name} is unpacked", f"cd /tmp/own/vendor\ntar -xzf {crate}\nprintf %s {note} >{name}-{self.made.version}/.cargo-checksum.json")
        source = shlex.quote('[source.crates-io]\nreplace-with = "own"\n[source.own]\ndirectory = "vendor"\n')
        by_version = depends(f'version = "{self.made.version}", features = ["static"]')
        self.does("a program by the files .crate", f"{by_version}printf %s {source} >.cargo/config.toml\nexport NMS_LIB_DIR={lib}\n{use}")

    def debian(self):
        deb = os.path.basename(self.made.deb)
        self.does("--uninstall before the package", f"{self.place}/share/nms/install.sh --uninstall\nfind {self.place} -mindepth 1",
                  lambda status, said: (status, said) == (0, f"removed from {self.place}\n"))
        self.does("dpkg installs the package", f"{LISTED} >/tmp/before\ndpkg -i {deb}\ndpkg -s nms", says(0, "No licence is granted"))
        self.selftest("nms_selftest of the package", "nms_selftest", len(CALLERS & self.lacks))
        if not self.lacking("a caller by the system's folders", "gcc", "pkg-config"):
            build = "gcc examples/c/board.c $(pkg-config --cflags --libs nms) -o /tmp/board"
            self.does("a caller by the system's folders", f"cd /usr/share/nms\n{build}\n/tmp/board examples/builtin.toml | cmp - examples/c/board.out")
        if not self.lacking("Python by the system's folders", "python3"):
            self.does("Python by the system's folders", "cd /usr/share/nms\npython3 examples/python/worked.py examples/builtin.toml | cmp - examples/python/worked.out")
        self.does("dpkg removes the package whole", f"dpkg -r nms\n{LISTED} >/tmp/after\ncmp /tmp/before /tmp/after")
