#!/usr/bin/env python3
"""Runs every example of examples/ and every case, and compares what comes on both streams and the status with what must come.

    tests/check.py [PROGRAM [REVIEW [FILE]]]      PROGRAM is nms_tool, REVIEW is nms_review; only the cases of FILE, if it is given

kinds.py has the runs that show a case. Given by itself, PROGRAM runs only its own. No file is left out by forgetting: the runs
are the rows of the table in examples/README.md, and each file of examples/ has to be named by one. The cases are all of cases/,
of streams.cases, of made.py and of drawn.py. A kind of case that is not known fails. Both compilers run the stored input of
nms_tool, so it has to have each kind of record.
"""
import os
import re
import sys

import drawn
import made
import refuse
from kinds import KINDS, REVIEW, TOOL, counted
from stored import EXAMPLES, TESTS, Call, cases_of, programs, read
from trials import Trial, Wrong, compare, run

STORED, RECORDS = "nms_tool/stdin", set("QSXRTFPLNEO")
# Codes that end no run: a wrong feed in a file that has none, a desk without a reading, a gate that stays closed. Trials of nms_examples
# have their statuses.
NEVER = {"L9", "E8", "E9"}


# The examples that have their own files.


def example_file(name):
    return read(EXAMPLES, name)


def table():
    """The rows of the first table of examples/README.md: the run, what it must give, and what it shows."""
    rows = [line.split("|")[1:-1] for line in example_file("README.md").decode().split("\n") if line.startswith("| `./nms_tool")]
    return [[cell.strip() for cell in row] for row in rows]


def given_of(cell):
    """The files that a cell names, the status and the line on standard error: `X`, or `nothing`, and after it what else."""
    names = re.findall(r"`([^`]+)`", cell)
    status = re.search(r"status (\d+)", cell)
    lines = [it for it in names if it.startswith("nms_tool: ")]
    outputs = [it for it in names if not it.startswith("nms_tool: ")]
    return outputs, int(status[1]) if status else 0, b"".join(it.encode() + b"\n" for it in lines)


def example(row):
    """The call of a row, and the files of examples/ that it names."""
    ran = re.fullmatch(r"`\./nms_tool ?(.*?)(?: ?< ?(\S+))?`", row[0])
    outputs, status, errors = given_of(row[1])
    if not ran or len(outputs) > 1 or not (outputs or row[1].startswith("nothing")):
        raise Wrong("not a row of the table's form")
    words = ran[1].split()
    named = [it for it in [*words, ran[2] or ""] if it.startswith("examples/")]
    files = {it: example_file(os.path.basename(it)) for it in named}
    given = files.get(ran[2], b"")
    answers = example_file(outputs[0]) if outputs else b""
    return Call(words, status, answers, errors, files, given), {os.path.basename(it) for it in named} | set(outputs)


def with_counts(call):
    """An example's script with its counts: all that it takes is published. None if the call runs no script."""
    status, answers, _ = call.wanted
    if call.words[:1] not in ([], ["script"]) or status:
        return None
    published = int(re.findall(rb"^PUB,(\d+)$", answers, re.M)[-1])
    refused, read_records = answers.count(b"ERR,"), len(call.given.splitlines())
    return counted(call.words[1:], call.files, call.given, answers, read_records, refused, published, published)


# The cases.


def all_cases():
    """The cases of all files, and those that are made and drawn."""
    texts = {name: read("cases", name) for name in sorted(os.listdir(f"{TESTS}/cases"))}
    texts |= {"streams.cases": read("streams.cases"), "made.py": made.cases().encode()}
    texts |= {f"drawn.py, {kind}": drawn.cases(kind).encode() for kind in drawn.KINDS}
    return [case for name, text in texts.items() for case in cases_of(name, text)]


def exits():
    """The exit status of each line by which a code ends the program."""
    (table,) = [it for it in cases_of("texts.cases", read("cases", "texts.cases")) if it.title == "text exits"]
    rows = (row.split(" ") for row in table.gives.decode().splitlines())
    return {f"nms_tool: {code}\n".encode(): int(status) for code, status in rows}


def each_exit(statuses, calls):
    """Raises if a call has to end with a code and another status than the table says. If no call ends with a code, memory
    was refused: refuse.py and hostile.py look at those runs."""
    unseen = dict(statuses)
    for status, _, errors in (it.wanted for it in calls):
        if errors in statuses:
            compare(errors.decode(), status, statuses[errors])
            unseen.pop(errors, None)
    for line, status in unseen.items():
        code = line.decode().split()[1]
        if code not in NEVER:
            compare(code, status, refuse.STATUS.get(code, 5))


def has_each_record():
    """Raises if the stored input of nms_tool lacks a kind of record."""
    records = {line[:1].decode() for line in read("../crates", STORED).splitlines()}
    compare("kinds of record that are lacking", RECORDS - records, set())


def holds_builtin(program):
    """The program's own setup is examples/builtin.toml, letter for letter."""
    with open(program, "rb") as file:
        if example_file("builtin.toml") not in file.read():
            raise Wrong("the program does not hold this text")


def longest():
    """The longest script, with empty lines after it, one of a record more, a feed of a byte more than it may have, and one of
    as many as it may, which is not read as records: orders that are refused end the call after the feeds are read."""
    records, answers = b"F\n" * 10_000_000, b"PUB,0\n" * 10_000_000
    yield "ten million records", Call(["script"], 0, answers, b"", given=records + b"\r\n\n")
    yield "ten million records and one", Call(["script"], 6, answers, b"nms_tool: E3\n", given=records + b"F\n")
    files = {"orders": b"", "a": 1_000_000_001, "b": b""}
    yield "a feed of a byte too many", Call(["live", "orders", "a", "b"], 6, b"", b"nms_tool: E3\n", files)
    files = {"orders": b"?\n", "a": 1_000_000_000, "b": b""}
    yield "a feed of as many bytes as it may have", Call(["live", "orders", "a", "b"], 6, b"", b"nms_tool: L1\n", files)


def differs(text):
    """A trial that has failed before it ran."""
    raise Wrong(text)


def trials(program, review=None, file=None):
    """Each example, each case, and a failed one for each file that none of them names."""
    path, statuses = {TOOL: program, REVIEW: review}, exits()
    found, named, calls = [], {"README.md", "builtin.toml"}, []

    def take(name, make):
        try:
            for by, call in make():
                calls.append(call)
                if path[by]:
                    found.append((name if by == TOOL else f"{name}, by {by}", call.run, (path[by],)))
        except (Wrong, OSError, ValueError, LookupError) as fault:
            found.append((name, differs, (str(fault),)))

    def of_row(row):
        call, files = example(row)
        named.update(files)
        yield TOOL, call
        if whole := with_counts(call):
            yield TOOL, whole

    def of_case(case):
        if case.kind not in KINDS:
            raise Wrong("a kind of case that is not known")
        if not case.has_gives:
            raise Wrong("no line `-- gives`")
        yield from KINDS[case.kind](case, statuses)

    if file:
        with open(file, "rb") as it:
            for case in cases_of(file, it.read()):
                take(case.name, lambda case=case: of_case(case))
        return [Trial(*it) for it in found]
    for name, call in longest():
        take(name, lambda call=call: [(TOOL, call)])
    for row in table():
        take(row[0], lambda row=row: of_row(row))
    for case in all_cases():
        if case.title != "text exits":
            take(case.name, lambda case=case: of_case(case))
    found.append(("texts.cases: each exit", each_exit, (statuses, calls)))
    found.append((f"{STORED}: each kind of record", has_each_record, ()))
    found.append(("examples/builtin.toml", holds_builtin, (program,)))
    files = [it for it in sorted(os.listdir(EXAMPLES)) if os.path.isfile(os.path.join(EXAMPLES, it))]
    found += [(f"examples/{it}", differs, ("no example runs it or compares with it",)) for it in files if it not in named]
    strays = [it for it in os.listdir(f"{TESTS}/cases") if not it.endswith(".cases")]
    return [Trial(*it) for it in found + [(f"tests/cases/{it}", differs, ("no file of cases",)) for it in strays]]


if __name__ == "__main__":
    NAMES, FILE = (TOOL, REVIEW)[: 1 if len(sys.argv) == 2 else 2], sys.argv[3] if len(sys.argv) == 4 else None
    sys.exit(run("examples", trials(*programs(sys.argv[1:3], *NAMES), file=FILE)))
