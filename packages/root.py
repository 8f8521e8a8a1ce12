"""A bare root: a folder with nothing but the files of some of this machine's Debian packages, and of those that they need. What
runs in it has no network, and sees neither this repository nor anything else of the machine."""
import os
import re
import shutil
import subprocess

# Files of a package that nothing here runs by.
LEFT_OUT = re.compile(r"/usr/share/(?:doc|man|locale|info|i18n|lintian)/.")
# What is mounted and started there: $1 is the root, $2 a toolchain of Rust or nothing, $3 who it runs as, $4 the script.
ENTER = """set -e
mount -t proc proc "$1/proc"
for it in null zero urandom; do : >>"$1/dev/$it" && mount --bind "/dev/$it" "$1/dev/$it"; done
[ -z "$2" ] || { mkdir -p "$1/opt/rust" && mount --bind "$2" "$1/opt/rust"; }
exec chroot ${3:+"--userspec=$3"} "$1" /usr/bin/env -i PATH=/usr/local/bin:/usr/sbin:/usr/bin:/sbin:/bin:/opt/rust/bin HOME=/home LC_ALL=C.UTF-8 /bin/sh -c "$4"
"""


def allowed():
    """Why this machine can't have such a root; empty if it can."""
    for name in ("dpkg-query", "unshare", "chroot", "mount"):
        if not shutil.which(name):
            return name
    return "" if subprocess.run([*unshare(), "true"], stderr=subprocess.DEVNULL, check=False).returncode == 0 else "namespaces that are allowed"


def unshare():
    """The command that starts another in namespaces of its own."""
    return ["unshare", *(["--map-root-user"] if os.geteuid() else []), "--mount", "--net", "--pid", "--fork", "--kill-child"]


def query(form, *names):
    said = subprocess.run(["dpkg-query", "--show", f"--showformat={form}", *names], stdout=subprocess.PIPE, stderr=subprocess.DEVNULL, check=False, text=True)
    return said.stdout


class Packages:
    """The Debian packages of this machine, each with those that it needs."""

    def __init__(self):
        self.needs, self.named = {}, {}
        for line in query("${Package}\t${db:Status-Status}\t${Pre-Depends}, ${Depends}\t${Provides}\n").splitlines():
            name, status, needs, provides = line.split("\t")
            if status == "installed":
                self.needs[name] = [re.findall(r"(?:^|\|)\s*([a-z0-9.+-]+)", it) for it in needs.split(",") if it.strip()]
                for each in (name, *re.findall(r"(?:^|,)\s*([a-z0-9.+-]+)", provides)):
                    self.named.setdefault(each, name)

    def has(self, name):
        return name in self.named

    def closure(self, names):
        """Some packages and all that they need."""
        found, left = set(), [self.named[it] for it in names]
        while left:
            name = left.pop()
            if name not in found:
                found.add(name)
                left += [self.named[it] for one_of in self.needs[name] for it in [next(filter(self.has, one_of), "")] if it]
        return sorted(found)


class Root:
    def __init__(self, folder, packages, names):
        self.folder, self.names = folder, packages.closure(names)
        self.rust = ""
        for it in ("bin", "sbin", "lib", "lib64"):
            if os.path.islink(f"/{it}"):
                os.makedirs(f"{folder}/usr/{it}", exist_ok=True)
                os.symlink(os.readlink(f"/{it}"), f"{folder}/{it}")
        for it in ("proc", "dev", "tmp", "home", "etc", "root", "var/log", *(f"var/lib/dpkg/{it}" for it in ("info", "updates", "triggers"))):
            os.makedirs(f"{folder}/{it}", exist_ok=True)
        for it in ("tmp", "home"):
            os.chmod(f"{folder}/{it}", 0o1777)
        for path in subprocess.run(["dpkg-query", "--listfiles", *self.names], stdout=subprocess.PIPE, check=True, text=True).stdout.split("\n"):
            if path.startswith("/") and not LEFT_OUT.match(path):
                self.copy(path)
        # Names that packages give their files when they are installed, as cc for gcc: each file names one in its second line.
        for name in os.listdir("/var/lib/dpkg/alternatives"):
            with open(f"/var/lib/dpkg/alternatives/{name}", encoding="utf-8") as file:
                link = file.read().split("\n")[1]
            if os.path.lexists(self.folder + os.path.realpath(link)):
                self.copy(link)
                self.copy(f"/etc/alternatives/{name}")
        self.know()

    def copy(self, path):
        """Brings one file of this machine there. A folder that is a link is the folder that it leads to."""
        at = os.path.join(os.path.realpath(os.path.dirname(path)), os.path.basename(path))
        to = self.folder + at
        if os.path.isdir(at) and not os.path.islink(at):
            os.makedirs(to, exist_ok=True)
        elif os.path.lexists(at) and not os.path.lexists(to):
            os.makedirs(os.path.dirname(to), exist_ok=True)
            shutil.copy2(at, to, follow_symlinks=False)

    def know(self):
        """Has dpkg know there what is installed there."""
        with open("/var/lib/dpkg/status", encoding="utf-8") as file:
            stanzas = [it for it in file.read().split("\n\n") if it.partition("\n")[0].removeprefix("Package: ") in self.names]
        with open(f"{self.folder}/var/lib/dpkg/status", "w", encoding="utf-8") as file:
            file.write("\n\n".join([*stanzas, ""]))
        for file in os.listdir("/var/lib/dpkg/info"):
            if file.rpartition(".")[0].partition(":")[0] in self.names:
                shutil.copy2(f"/var/lib/dpkg/info/{file}", f"{self.folder}/var/lib/dpkg/info/{file}")

    def run(self, script, user=""):
        """Runs a script of sh there, and gives its status and what it wrote, the error stream last."""
        words = [*unshare(), "sh", "-c", ENTER, "sh", self.folder, self.rust, user, script]
        ran = subprocess.run(words, stdin=subprocess.DEVNULL, stdout=subprocess.PIPE, stderr=subprocess.STDOUT, check=False)
        return ran.returncode, ran.stdout.decode(errors="replace")
