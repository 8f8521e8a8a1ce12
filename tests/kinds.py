"""The kinds of cases, and the runs of the programs that show one. What `nms_tool` does not print completely is shown by a second run: of
a script its counts, by three records more; of a doubt its cut, of a file every refused record, of a plan's text what was read,
by the JSON of `nms_review`; of a setup its numbers, by what fits into them."""
import json
import re
import tomllib

from stored import Call, Told, bytes_of, command
from trials import Wrong, compare

TOOL, REVIEW = "nms_tool", "nms_review"
# The last version that a plan of a case with cuts may have.
MOST_VERSION = 9


def under(case):
    """The words and the file by which a call has the setup of a case."""
    if case.setup is None:
        raise Wrong("no setup stands before it")
    return under_text(case.setup)


def under_text(setup):
    return (["--setup", "setup.toml"], {"setup.toml": setup}) if setup else ([], {})


def ends(text, statuses):
    """The status, the answers and the line of a fault of what a script or a report must give."""
    *lines, last = text.splitlines(keepends=True) or [b""]
    return (statuses[last], b"".join(lines), last) if last in statuses else (0, text, b"")


def objects(answers):
    """The objects that `nms_review` prints."""
    return [json.loads(it) for it in answers.splitlines()]


# Scripts and reports.


def script(case, statuses):
    """A script, and the same with its counts. These are in the last line of what it gives, if no fault ends it."""
    option, files = under(case)
    status, answers, errors = ends(case.gives, statuses)
    if status:
        yield TOOL, Call(["script", *option], status, answers, errors, files, bytes_of(case.body))
        return
    *lines, last = case.gives.splitlines(keepends=True) or [b""]
    counts = re.fullmatch(rb"(\d+) read, (\d+) refused, (\d+) taken, (\d+) published\n", last)
    if not counts:
        raise Wrong("no line with its counts")
    yield TOOL, Call(["script", *option], 0, b"".join(lines), b"", files, bytes_of(case.body))
    yield TOOL, counted(option, files, bytes_of(case.body), b"".join(lines), *map(int, counts.groups()))


def counted(option, files, given, answers, read, refused, taken, published):
    """A script with three records more: a refused one says how many were read before it, and the others what was published and
    taken. A quote that the script leaves open is closed first."""
    compare("refused records", len(re.findall(rb"^ERR,", answers, re.M)), refused)
    close = b'"' * (given.count(b'"') % 2)
    more = f"ERR,{read + 1},L1\nTOLD,0,{published}\nPUB,{taken}\n".encode()
    return Call(["script", *option], 0, answers + more, b"", files, given + close + b"\n?\nL,0\nP\n")


def report(case, statuses):
    option, files = under(case)
    files["given.changes"] = bytes_of(case.body)
    yield TOOL, Call(["report", "given.changes", case.title.split(" ")[1], *option], *ends(case.gives, statuses), files)


# Plans.


def check(case, _):
    """An audit: what `nms_tool` answers, and the doubt with its cut."""
    option, files = under(case)
    changes, found, plan = bytes_of(case.body).partition(b"-- plan\n")
    if not found:
        raise Wrong("no line `-- plan`")
    files.update({"given.changes": changes, "given.plan": plan})
    status, answer = answer_to(case.gives.decode().split())
    yield TOOL, Call(["check", "given.changes", "given.plan", *option], status, answer.encode(), b"", files)
    yield REVIEW, Told(["check", "given.changes", "given.plan", "--json", *option], verdicts, case.gives.decode(), files, statuses=(status,))


def answer_to(finding):
    """The status and the answer of an audit with this finding: the cut is no part of it."""
    if finding == ["confirmed"]:
        return 0, "CONFIRMED\n"
    return 4, ",".join(["DOUBT", *finding[: 2 if finding[0] == "K1" else 1]]) + "\n"


def verdicts(answers):
    """The verdicts on plans, a line each, in the order of the plans."""
    found = sorted((it for it in objects(answers) if it["what"] == "plan"), key=lambda it: it["plan"])
    return "".join(f"{verdict(it)}\n" for it in found)


def verdict(said):
    """`confirmed`, or the code of a doubt: of a breach also that of the breach, of a bound that fails also the cut, from 0."""
    if said["verdict"] == "CONFIRMED":
        return "confirmed"
    of_cut = said["cut"] - 1 if said["code"] == "K7" else None
    return " ".join(str(it) for it in (said["code"], said.get("breach"), of_cut) if it is not None)


def plan(case, _):
    """A plan's text: it is refused, or what is read of it, after the changes that its version needs."""
    option, files = under(case)
    part = tomllib.loads(case.setup.decode())["participant"][0]["name"] if case.setup else "N"
    files.update({"given.changes": f"X,{part}\n".encode() * MOST_VERSION, "given.plan": bytes_of(case.body)})
    words = ["given.changes", "given.plan", *option]
    if case.gives == b"L11\n":
        yield TOOL, Call(["check", *words], 6, b"", b"nms_tool: L11\n", files)
    else:
        yield TOOL, Told(["check", *words], lambda answers: answers[:6] in (b"CONFIR", b"DOUBT,"), True, files, statuses=(0, 4))
        yield REVIEW, Told(["why", *words, "--json"], read_of_plan, case.gives.decode(), files, statuses=(0, 4))


def read_of_plan(answers):
    """The text of the plan that `why` speaks of."""
    lines = []
    for it in objects(answers):
        if it["what"] == "plan":
            flag, names = "M" if it["manual"] else "", f",{it['self_help']}" if it["self_help"] else ""
            order = f"{it['side'][0].upper()},{it['symbol']},{it['shares']},{it['limit']},{flag}"
            lines.append(f"PLAN,{it['version']},{order},{it['filled']},{it['cost']}{names}")
        elif it["what"] == "leg":
            lines.append(f"LEG,{it['participant']},{it['price']},{it['shares']}")
        elif it["what"] == "cut":
            lines.append(f"CUT,{it['price']},{it['kind']},{it['marginal'] or ''}")
    return "".join(f"{it}\n" for it in [*lines, "END"])


# Files of records.

PLACES = {"changes": ["changes"], "orders": ["orders"], "feed": ["feed", "--feed", "A"], "feed_b": ["feed", "--feed", "B"]}


def explain(case, _):
    """A file of records: the number and the code of each one that is refused."""
    option, files = under(case)
    kind, *feed = PLACES[case.title.split(" ")[1]]
    files["given"] = bytes_of(case.body)
    yield REVIEW, Told(["explain", kind, "given", *feed, "--json", *option], refused_records, case.gives.decode(), files, statuses=(6 if case.gives else 0,))


def refused_records(answers):
    return "".join(f"{it['record']} {it['code']}\n" for it in objects(answers) if it["what"] == "refusal")


# Setups.


def settings(case, statuses):
    """A setup, or each setup that a change makes of it: its code, or its numbers; or what a share costs."""
    text, _, costs = case.body.decode().partition("-- costs\n")
    text, _, changes = text.partition("-- changes\n")
    gives = case.gives.decode().splitlines()
    if costs:
        for question, cost in zip(costs.splitlines(), gives, strict=True):
            yield TOOL, cost_of(text, question, cost)
        return
    texts = [changed(text, it) for it in changes.splitlines()] or [text]
    for text, given in zip(texts, gives, strict=True):
        if re.fullmatch(r"C\d", given):
            line = f"nms_tool: {given}\n".encode()
            option, files = under_text(text.encode())
            yield TOOL, Call(["script", *option], statuses[line], b"", line, files)
        else:
            yield from numbers(text, *map(int, given.split(" ")))


def changed(text, change):
    """A text with the first such piece of it replaced."""
    piece, _, other = change.partition(" => ")
    if piece not in text:
        raise Wrong(f"nothing to change: {piece}")
    return text.replace(piece, other, 1)


def numbers(text, tape, queue, desks, participants, symbols):
    """What shows the numbers of a setup: the first desk that is none, the first change without room in the queue and on the tape,
    the table of all symbols, and the participants that a round lot concerns."""
    option, files = under_text(text.encode())
    part, sym = (tomllib.loads(text)[it][0]["name"] for it in ("participant", "symbol"))
    change = f"X,{part}\n".encode()

    def on(changes):
        return {**files, "given.changes": changes}

    records = f"L,{desks - 1}\nL,{desks}\n".encode() + change * (queue + 1)
    yield TOOL, Call(["script", *option], 0, f"TOLD,{desks - 1},0\nERR,2,L10\nERR,{queue + 3},F2\n".encode(), b"", files, records)
    words = ["report", "given.changes", sym, *option]
    yield TOOL, Told(words, lambda answers: int(answers.split()[1]), tape, on(change * tape))
    yield TOOL, Call(words, 6, b"", b"nms_tool: F4\n", on(change * (tape + 1)))
    yield REVIEW, Told(["at", "0", "given.changes", "--json", *option], lambda answers: len(objects(answers)), symbols, on(b""))
    words = ["stream", "given.changes", "--json", "--boards", *option]
    yield REVIEW, Told(words, lambda answers: len(objects(answers)), participants, on(f"R,{sym},1\n".encode()))


def cost_of(text, question, cost):
    """What a plan of one share costs, where only that participant quotes."""
    place, side, price = question.split(" ")
    option, files = under_text(text.encode())
    part, sym = (tomllib.loads(text)[it][at]["name"] for it, at in (("participant", int(place)), ("symbol", 0)))
    sides = f",,{price},1" if side == "buy" else f"{price},1,,"
    given = f"R,{sym},1\nQ,{part},{sym},A,{sides}\nF\nO,0,{side[0].upper()},{sym},1,{price}\n"
    return Told(["script", *option], lambda answers: re.search(r"^PLAN,.*,1,([^,]+)$", answers.decode(), re.M)[1], cost, files, given.encode())


# Calls.


def call(case, _):
    yield TOOL, command(case)


KINDS = {"script": script, "report": report, "check": check, "plan": plan, "explain": explain, "settings": settings, "command": call, "stream": call}
