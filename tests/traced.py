"""Runs a program and has one of its calls of the system fail, as on a machine that has no memory or a broken stream.

The calls are counted and turned by ptrace(2). The C library is set to ask the system for each piece of memory by
itself, so that each request of the program is a call. What asks for memory right after a refusal, with no other call in
between, is the library trying again, and is refused too. What the loader does before the program starts is no call of it.
"""
import ctypes
import errno
import os
import platform
import resource
import signal
import struct
import tempfile
from typing import NamedTuple

TRACEME, GETREGS, SETREGS, GO_ON, SETOPTIONS, CALL_INFO = 0, 12, 13, 24, 0x4200, 0x420E
# Calls are distinguished from signals, threads are followed, a new program is reported, and nothing outlives this process.
OPTIONS = 0x1 | 0x8 | 0x10 | 0x100000
ENTRY, EXIT, EXEC = 1, 2, 4
READ, WRITE, MMAP, BRK, MREMAP = 0, 1, 9, 12, 25
ANONYMOUS, WALL = 0x20, 0x40000000
# The places of registers in the result of GETREGS, and how many there are.
ANSWER, LENGTH, NUMBER, REGISTERS = 10, 12, 15, 27
EACH = "glibc.malloc.mmap_threshold=1:glibc.malloc.mmap_max=1000000000:glibc.malloc.tcache_count=0:glibc.malloc.arena_max=1"
# Seconds that a run may take.
MOST = 60
LIBC = ctypes.CDLL(None, use_errno=True)
LIBC.ptrace.argtypes = [ctypes.c_long, ctypes.c_int, ctypes.c_void_p, ctypes.c_void_p]
LIBC.ptrace.restype = ctypes.c_long


class Plan(NamedTuple):
    """Which request for memory, read or write fails, counted from 1 (none for 0), and whether streams move single bytes."""

    memory: int = 0
    read: int = 0
    write: int = 0
    single: bool = False


class Ran(NamedTuple):
    """What a run ended with, and how many requests for memory, reads and writes it made."""

    status: int
    out: bytes
    errors: str
    memory: int
    reads: int
    writes: int


class Traced:
    """One run of a program."""

    def __init__(self, plan):
        self.plan = plan
        self.count = {MMAP: 0, READ: 0, WRITE: 0}
        self.registers = ctypes.create_string_buffer(8 * REGISTERS)
        self.info = ctypes.create_string_buffer(88)
        # By thread, what is to be done when the call under way ends, and whether memory was refused just before.
        self.ends, self.refused = {}, set()
        self.loader, self.at_break = range(0), 0

    def follow(self, child):
        """Goes on until the program ends, and gives its status."""
        os.waitpid(child, 0)
        ask(SETOPTIONS, child, 0, OPTIONS)
        ask(GO_ON, child, 0, 0)
        while True:
            thread, status = os.waitpid(-1, WALL)
            if os.WIFSTOPPED(status):
                ask(GO_ON, thread, 0, self.stopped(thread, status))
            elif thread == child:
                return os.waitstatus_to_exitcode(status)

    def stopped(self, thread, status):
        """Sees to a thread that stopped, and gives the signal to pass on."""
        word, event = os.WSTOPSIG(status), status >> 16
        if event == EXEC:
            self.loader = loader_of(thread)
        if word == signal.SIGTRAP | 0x80:
            ask(CALL_INFO, thread, len(self.info), ctypes.addressof(self.info))
            kind, place, number, *words = struct.unpack_from("B7xQ8xQ6Q", self.info.raw)
            if kind == ENTRY and place not in self.loader:
                self.enter(thread, number, words)
            elif kind == EXIT and thread in self.ends:
                self.leave(thread, number)
            return 0
        return 0 if event or word in (signal.SIGSTOP, signal.SIGTRAP) else word

    def enter(self, thread, number, words):
        again = thread in self.refused
        self.refused.discard(thread)
        if number in (READ, WRITE):
            self.count[number] += 1
            if self.count[number] == (self.plan.read if number == READ else self.plan.write):
                self.fail(thread, errno.EIO)
            elif self.plan.single and words[2] > 1:
                self.set(thread, LENGTH, 1)
                self.ends[thread] = (LENGTH, words[2])
        elif number == MREMAP or number == MMAP and words[3] & ANONYMOUS:
            self.count[MMAP] += not again
            if again or self.count[MMAP] == self.plan.memory:
                self.fail(thread, errno.ENOMEM)
                self.refused.add(thread)
        elif number == BRK and again:
            self.set(thread, NUMBER, 2**64 - 1)
            self.ends[thread] = (ANSWER, self.at_break)
            self.refused.add(thread)
        elif number == BRK:
            self.ends[thread] = (BRK, 0)

    def fail(self, thread, code):
        """Has a call fail: it is made as one that the system does not know, and answered by the code."""
        self.set(thread, NUMBER, 2**64 - 1)
        self.ends[thread] = (ANSWER, 2**64 - code)

    def leave(self, thread, answer):
        register, value = self.ends.pop(thread)
        if register == BRK:
            self.at_break = answer
        else:
            self.set(thread, register, value)

    def set(self, thread, register, value):
        ask(GETREGS, thread, 0, ctypes.addressof(self.registers))
        struct.pack_into("Q", self.registers, 8 * register, value)
        ask(SETREGS, thread, 0, ctypes.addressof(self.registers))


def ask(request, thread, place, data):
    """One call of ptrace. A thread that ended meanwhile is passed over."""
    if LIBC.ptrace(request, thread, place, data) == -1 and ctypes.get_errno() not in (0, errno.ESRCH):
        raise OSError(ctypes.get_errno(), f"ptrace {request}")


def loader_of(process):
    """Where the loader's code is."""
    with open(f"/proc/{process}/maps", encoding="utf-8") as maps:
        bounds = [it.split()[0].split("-") for it in maps if "/ld-" in it]
    return range(int(bounds[0][0], 16), int(bounds[-1][1], 16)) if bounds else range(0)


def begin(program, words, folder, streams):
    """Becomes the program, once it gets the word to go on."""
    try:
        os.chdir(folder)
        for place, file in enumerate(streams):
            os.dup2(file, place)
        resource.setrlimit(resource.RLIMIT_CORE, (0, 0))
        LIBC.ptrace(TRACEME, 0, 0, 0)
        os.kill(os.getpid(), signal.SIGSTOP)
        os.execve(program, [program, *words], {**os.environ, "GLIBC_TUNABLES": EACH})
    finally:
        os._exit(126)


def run(program, words, folder, given, plan=Plan()):
    """Runs a program in a folder on what it is given. One that takes too long is an error."""
    with tempfile.TemporaryFile() as source, tempfile.TemporaryFile() as out, tempfile.TemporaryFile() as errors:
        source.write(given)
        source.seek(0)
        child = os.fork()
        if child == 0:
            begin(program, words, folder, [it.fileno() for it in (source, out, errors)])
        traced = Traced(plan)
        signal.signal(signal.SIGALRM, lambda *_: os.kill(child, signal.SIGKILL))
        signal.alarm(MOST)
        status = traced.follow(child)
        signal.alarm(0)
        out.seek(0)
        errors.seek(0)
        counts = [traced.count[it] for it in (MMAP, READ, WRITE)]
        return Ran(status, out.read(), errors.read().decode(errors="replace"), *counts)


def is_allowed():
    """Whether this machine lets a process trace another one, and has the registers that are named here."""
    try:
        return platform.machine() == "x86_64" and run("/bin/true", [], "/", b"").status == 0
    except OSError:
        return False
