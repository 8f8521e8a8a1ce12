"""The form of the files of cases, and a call of a program with what it must come to (README.md of this folder)."""
import os
import re
import subprocess
import sys
import tempfile

from trials import Wrong, compare

TESTS = os.path.dirname(os.path.realpath(__file__))
TOP = os.path.dirname(TESTS)
EXAMPLES = os.path.join(TOP, "examples")
# Seconds that a call may take.
MOST = 60
# What a program without proofs says of itself at each run (build/unproved.py).
UNPROVED = re.compile(rb"\Anms_\w+: UNPROVED: [^\n]*\n")


def read(*path):
    """The bytes of a file of this folder, or of that which a path from here leads to."""
    with open(os.path.join(TESTS, *path), "rb") as it:
        return it.read()


def bytes_of(text):
    """A backslash with two hexadecimal digits is one byte, and one at the end of a line leaves that end out."""
    parts = re.split(rb"\\(\n|[0-9A-Fa-f]{2})", text)
    parts[1::2] = [b"" if it == b"\n" else bytes.fromhex(it.decode()) for it in parts[1::2]]
    if b"\\" in b"".join(parts[0::2]):
        raise Wrong("a backslash with neither two digits nor a line's end after it")
    return b"".join(parts)


class Call:
    """A call of the program in its own folder, and what it must come to."""

    def __init__(self, words, status, answers, errors, files=(), given=b"", answers_to=None, errors_to=None):
        self.words, self.wanted = words, (status, answers, errors)
        self.files, self.given, self.answers_to, self.errors_to = dict(files), given, answers_to, errors_to

    def run(self, program):
        came = self.came(program)
        for what, one, other in zip(("standard output", "standard error", "status"), (*came[1:], came[0]), (*self.wanted[1:], self.wanted[0])):
            compare(what, one, other)

    def came(self, program):
        """The status, standard output and standard error of a run, which alters no file that it was given."""
        with tempfile.TemporaryDirectory(prefix="nms-") as room:
            for name, text in self.files.items():
                os.makedirs(os.path.dirname(os.path.join(room, name)), exist_ok=True)
                with open(os.path.join(room, name), "wb") as file:
                    # A number n means n bytes 0, which take no room on the disk.
                    file.truncate(text) if isinstance(text, int) else file.write(text)
            given, answers, errors = (os.path.join(room, f".{it}") for it in ("given", "answers", "errors"))
            with open(given, "wb") as file:
                file.write(self.given if isinstance(self.given, bytes) else b"")
            given = given if isinstance(self.given, bytes) else self.given
            answers, errors = self.answers_to or answers, self.errors_to or errors
            # A case may give a folder, which only os.open opens.
            input = os.open(given, os.O_RDONLY)
            try:
                with open(answers, "wb") as out, open(errors, "wb") as err:
                    how = {"cwd": room, "stdin": input, "stdout": out, "stderr": err, "timeout": MOST}
                    ran = subprocess.run([program, *self.words], check=False, **how)
            finally:
                os.close(input)
            came = [ran.returncode]
            for path, to in ((answers, self.answers_to), (errors, self.errors_to)):
                came.append(b"" if to else open_bytes(path))
            came[2] = UNPROVED.sub(b"", came[2])
            for name, text in self.files.items():
                if isinstance(text, bytes):
                    compare(name, open_bytes(os.path.join(room, name)), text)
        return came


class Told(Call):
    """A call of which only what a function finds in its answers is compared. It may end with one of some statuses."""

    def __init__(self, words, find, wanted, files=(), given=b"", statuses=(0,)):
        super().__init__(words, 0, b"", b"", files, given)
        self.find, self.found, self.statuses = find, wanted, statuses

    def run(self, program):
        status, answers, errors = self.came(program)
        compare("standard error", errors, b"")
        if status not in self.statuses:
            raise Wrong(f"status: {status} came, and not one of {self.statuses}")
        compare("what it shows", self.find(answers), self.found)


def open_bytes(path):
    with open(path, "rb") as file:
        return file.read()


class Case:
    """A case of a file: its title, the setup before it, what it gives to a program, and what that has to give."""

    def __init__(self, file, title, body, setup):
        self.file, self.title, self.setup, self.text = file, title, setup, (setup, title, body)
        self.kind = title.split(" ")[0]
        self.body, _, self.gives = body.partition(b"-- gives\n")
        self.has_gives = b"-- gives\n" in body
        self.name = f"{file}: {title}"

    def parts(self):
        """The words of a call, and each part after them with its name."""
        first, *parts = re.split(rb"^-- ([^\n]*)\n", self.body, flags=re.M)
        return first, list(zip((it.decode() for it in parts[0::2]), parts[1::2]))


def cases_of(file, text):
    """The cases of a text, each with the setup before it."""
    setup, found = None, []
    for piece in re.split(rb"^== ", text, flags=re.M)[1:]:
        title, _, body = piece.partition(b"\n")
        title = title.decode()
        if title.split(" ")[0] == "setup":
            setup = body
        else:
            found.append(Case(file, title, body, setup))
    return found


def command(case):
    """The call of a case of the kind `command` or `stream`."""
    words, parts = case.parts()
    answers, found, errors = case.gives.partition(b"-- errors\n")
    status, ended, answers = answers.partition(b"\n")
    if not found or not ended or not re.fullmatch(rb"\d+", status):
        raise Wrong("no status, or no line `-- errors`")
    given = {"files": {}, "given": b""}
    for name, text in parts:
        kind, _, which = name.partition(" ")
        if kind == "file":
            given["files"][which] = bytes_of(text)
        elif kind == "input":
            given["given"] = which or bytes_of(text)
        elif kind in ("answers", "errors") and which == "/dev/full":
            given[f"{kind}_to"] = which
        else:
            raise Wrong(f"an unknown part `{name}`")
    return Call([bytes_of(it) for it in words.splitlines()], int(status), answers, errors, **given)


def program_of(name):
    """The path of a program: in the folder that `./gate quick` names, or where the gate has built it."""
    folder = os.environ.get("NMS_PROGRAMS")
    return f"{folder}/{name}" if folder else f"{TOP}/crates/{name}/out/{name}"


def programs(given, *names):
    """The programs that the words of a call name, and for each that they leave out the one of its name."""
    if len(given) > len(names) or any(it.startswith("-") for it in given):
        sys.exit(f"usage: {sys.argv[0]} [{' ['.join(names)}{']' * len(names)}")
    found = [*map(os.path.realpath, given), *map(program_of, names[len(given) :])]
    for path in found:
        if not os.path.isfile(path):
            sys.exit(f"{path} is not there: it has to be built first")
    return found
