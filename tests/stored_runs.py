#!/usr/bin/env python3
"""Runs each program on its stored input, as `rt ci` does after the proofs: `./gate quick` has no `rt`.

    tests/stored_runs.py

A program's crate may have the files stdin, args (a word a line), stdout, status, and a folder data, in which it runs.
"""
import os
import shutil
import subprocess
import sys
import tempfile

from stored import TOP, program_of
from trials import Trial, compare, run

# Seconds that a program may take.
MOST = 120


def stored(name, file, otherwise=b""):
    """The bytes of a file next to the sources of a crate."""
    try:
        with open(f"{TOP}/crates/{name}/{file}", "rb") as it:
            return it.read()
    except FileNotFoundError:
        return otherwise


def stored_run(name):
    with tempfile.TemporaryDirectory(prefix="nms-") as room:
        if os.path.isdir(f"{TOP}/crates/{name}/data"):
            shutil.copytree(f"{TOP}/crates/{name}/data", room, dirs_exist_ok=True)
        words = [program_of(name), *stored(name, "args").decode().splitlines()]
        ran = subprocess.run(words, cwd=room, input=stored(name, "stdin"), capture_output=True, timeout=MOST, check=False)
    compare("standard output", ran.stdout, stored(name, "stdout"))
    compare("status", ran.returncode, int(stored(name, "status", b"0")))


if __name__ == "__main__":
    names = sorted(it for it in os.listdir(f"{TOP}/crates") if stored(it, "stdout"))
    sys.exit(run("stored", [Trial(it, stored_run, (it,)) for it in names]))
