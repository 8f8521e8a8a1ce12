#!/usr/bin/env python3
"""Compares the answers of the library with those of nms_tool, byte for byte, on three loads of bench/generate.py.

    tests/parity.py PROGRAM [RECORDS]     PROGRAM is nms_tool; 30,000 records by default. 1000000 takes some minutes

The loads get what bench/generate.py leaves out: orders under self-help, trade-through tests, states and new round lots. Each
load goes through the library twice, its changes as numbers and as records (tests/parity.c). It prints a line for each
comparison, and last `N passed, M failed`. The library is crates/nms_c/out/libnms.a, or that in the folder NMS_OUT.
"""
import os
import random
import re
import subprocess
import sys
import tempfile

TOP = os.path.dirname(os.path.dirname(os.path.realpath(__file__)))
LOADS = ("quotes", "sweeps", "wide")


def names_of(setup):
    """The participants and the symbols of a setup."""
    participants, _, symbols = setup.partition("[[symbol]]")
    return re.findall(r'name = "(\w+)"', participants), re.findall(r'name = "(\w+)"', symbols)


def richer(lines, setup, draw):
    """A load with the records that bench/generate.py does not make."""
    parts, syms = names_of(setup)
    for number, line in enumerate(lines):
        fields = line.rstrip("\n").split(",")
        if fields[0] == "O" and number % 3 == 0:
            flag = fields[6] if len(fields) > 6 else ""
            names = "+".join(draw.sample(parts, draw.randint(1, 3)))
            yield ",".join([*fields[:6], flag, names]) + "\n"
        else:
            yield line
        if fields[0] == "Q" and number % 41 == 0 and fields[4]:
            yield f"E,{draw.randrange(4)},{fields[2]},{fields[4]}{draw.choice(('', '0', '01', '5'))}\n"
        if number % 97 == 0:
            yield f"S,{draw.choice(parts)},{draw.choice(syms)},{draw.choice('AAMH')}\n"
        if number % 499 == 0:
            yield f"R,{draw.choice(syms)},{draw.choice((1, 10, 40, 100, 1000))}\n"


def answers(words, script):
    """What a program writes on a script, and its status."""
    with open(script, "rb") as given:
        ran = subprocess.run(words, stdin=given, stdout=subprocess.PIPE, check=False)
    return ran.stdout, ran.returncode


def differ(one, other):
    """Where two texts differ first."""
    ours, theirs = one.split(b"\n"), other.split(b"\n")
    at = next((it for it, pair in enumerate(zip(ours, theirs)) if pair[0] != pair[1]), min(len(ours), len(theirs)))
    shown = [it[at].decode(errors="replace") if at < len(it) else "no line" for it in (ours, theirs)]
    return f"answer {at + 1}: the library {shown[0]!r}, the program {shown[1]!r}"


def main(program, records):
    failed = passed = 0
    out = os.environ.get("NMS_OUT", f"{TOP}/crates/nms_c/out")
    with tempfile.TemporaryDirectory(prefix="nms-parity-") as room:
        driver = f"{room}/parity"
        flags = ["-std=c11", "-O2", "-Wall", "-Wextra", "-Werror", "-I", f"{TOP}/include"]
        subprocess.run([os.environ.get("CC", "cc"), *flags, f"{TOP}/tests/parity.c", f"{out}/libnms.a", "-o", driver], check=True)
        for load in LOADS:
            subprocess.run([sys.executable, f"{TOP}/bench/generate.py", load, str(records), f"{room}/{load}"], check=True)
            setup, script = f"{room}/{load}/setup.toml", f"{room}/{load}/richer.csv"
            with open(setup, encoding="ascii") as file, open(f"{room}/{load}/load.csv", encoding="ascii") as lines, \
                    open(script, "w", encoding="ascii") as to:
                to.writelines(richer(lines, file.read(), random.Random(load)))
            wanted, status = answers([program, "script", "--setup", setup], script)
            for kind in ("numbers", "text"):
                came = answers([driver, setup, kind], script)
                if came == (wanted, 0) and status == 0 and wanted.count(b"\n") > records / 80 and b"ERR" not in wanted:
                    passed += 1
                    print(f"{load}, changes as {kind}: {wanted.count(10)} lines of answers are the same")
                else:
                    failed += 1
                    print(f"DIFFERS: {load}, changes as {kind}: status {came[1]} and {status}; {differ(came[0], wanted)}")
    print(f"{passed} passed, {failed} failed")
    return 1 if failed else 0


if __name__ == "__main__":
    if not 2 <= len(sys.argv) <= 3:
        sys.exit(__doc__)
    sys.exit(main(os.path.realpath(sys.argv[1]), int(sys.argv[2]) if len(sys.argv) > 2 else 30_000))
