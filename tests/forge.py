#!/usr/bin/env python3
"""Forges plans: takes some that are confirmed, changes one field at a time, and compares what an audit finds.

    tests/forge.py [REVIEW [PROGRAM]]      REVIEW is nms_review, PROGRAM is nms_tool

What must be found is `doubt` of rules.py: the least that holds; or none, if the forged plan is itself one than which no way
to spread the shares is better. REVIEW judges the forged fields of a plan in one run, with the cut of a doubt. PROGRAM is called
with each of these plans, and of some also with texts that say no plan: records that are gone, doubled, added, in another order,
or too many. A forged plan that differs is made as small as it can be. The trials are `plan N`, `audits of plan N` and `texts of plan N`,
counted from 0; they count what they forge.
"""
import random
import subprocess
import sys
import tempfile

from drawn import changes_of, drawn_audit, drawn_plan
from kinds import answer_to, verdicts
from rules import FEES, RANGE, best_way, cost_of, doubt, records_of, usable
from stored import MOST, programs
from trials import Several, Trial, Wrong, least, run

SEED, PLANS, TEXTS = 242_611, 240, 25
KINDS = "TOOMUCH", "TOOLITTLE", "MARGINAL"


class Forged:
    """A plan as its text says it, with the present quotations, one change for each."""

    def __init__(self, rows, side, order, plan, cuts):
        self.rows, self.side = rows, side
        self.order, self.symbol, self.version = dict(order), "ABC", len(rows)
        (legs, self.filled, self.cost), self.cuts = plan, [tuple(it) for it in cuts]
        self.legs = [tuple(it) for it in legs]

    def copy(self):
        plan = (self.legs, self.filled, self.cost)
        it = Forged(self.rows, self.side, self.order, plan, self.cuts)
        it.symbol, it.version = self.symbol, self.version
        return it

    def finding(self):
        """The least doubt that holds, or `confirmed`."""
        if self.version > len(self.rows):
            return "A1"
        there = self.symbol == "ABC" and self.order["side"] == self.side
        rows = self.rows[: self.version] if there else []
        found = doubt(self.order, rows, (self.legs, self.filled, self.cost), self.cuts)
        if found is None and (-self.filled, self.cost) != best_way(self.order, rows):
            raise Wrong("a certificate passes for a plan that is not the best", self.text())
        return found or "confirmed"

    def changes(self):
        return "".join(f"{it}\n" for it in changes_of(self.side, self.rows))

    def records(self):
        plan = self.legs, self.filled, self.cost
        return [f"{it}\n" for it in records_of(self.order, self.version, self.symbol, plan, self.cuts)]

    def text(self):
        return "".join(self.records())

    def parts(self):
        """What it is made of: quotations, legs and cuts."""
        return [*(("row", it) for it in self.rows), *(("leg", it) for it in self.legs), *(("cut", it) for it in self.cuts)]

    def of_parts(self, parts):
        """This plan with only some of its parts, which is the least version that has them."""
        it = self.copy()
        it.rows, it.legs, it.cuts = ([part for kind, part in parts if kind == wanted] for wanted in ("row", "leg", "cut"))
        it.version = self.version - len(self.rows) + len(it.rows)
        return it


def near(number, least, most, steps):
    return [it for it in (number + step for step in steps) if least <= it <= most and it != number]


def forged_fields(plan):
    """The plan with one field changed, in each way."""
    def turned(change):
        it = plan.copy()
        change(it)
        return it

    for version in near(plan.version, 0, 99_999_999, (-2, -1, 1, 99_999_000)):
        yield turned(lambda it: setattr(it, "version", version))
    yield turned(lambda it: it.order.update(side="S" if it.side == "B" else "B"))
    yield turned(lambda it: setattr(it, "symbol", "PNY"))
    yield turned(lambda it: it.order.update(manual=not it.order["manual"]))
    for part in FEES:
        yield turned(lambda it: it.order.update(self_help=it.order["self_help"] ^ {part}))
    for shares in near(plan.order["shares"], 1, 999_999_999, (-100, -1, 1, 100, 200, 999_999_000)):
        yield turned(lambda it: it.order.update(shares=shares))
    for limit in near(plan.order["limit"], 1, 99_999_999_999, (-200, -100, -1, 1, 100, 90_000_000)):
        yield turned(lambda it: it.order.update(limit=limit))
    for filled in near(plan.filled, 0, 999_999_999, (-100, -1, 1, 100)):
        yield turned(lambda it: setattr(it, "filled", filled))
    for cost in near(plan.cost, -(10**28), 10**28, (-(10**20), -100_000, -1, 1, 100_000, 10**20)):
        yield turned(lambda it: setattr(it, "cost", cost))
    for at, leg in enumerate(plan.legs):
        yield from (turned(lambda it: it.legs.__setitem__(at, new)) for new in forged_leg(leg))
        yield turned(lambda it: it.legs.pop(at))
        yield turned(lambda it: it.legs.append(leg))
    for at, cut in enumerate(plan.cuts):
        yield from (turned(lambda it: it.cuts.__setitem__(at, new)) for new in forged_cut(cut))
        yield turned(lambda it: it.cuts.pop(at))
        yield turned(lambda it: it.cuts.insert(at, cut))
        yield turned(lambda it: it.cuts.insert(at, (cut[0] + 7, *cut[1:])))
    for part in FEES:
        yield turned(lambda it: it.legs.append((part, it.order["limit"], 100)))
    yield turned(lambda it: it.legs.reverse())
    yield turned(lambda it: it.cuts.reverse())


def forged_leg(leg):
    part, price, shares = leg
    yield from ((other, price, shares) for other in FEES if other != part)
    yield from ((part, it, shares) for it in near(price, 1, 99_999_999_999, (-100, -1, 1, 100)))
    yield from ((part, price, it) for it in near(shares, 0, 999_999_999, (-shares, -100, -1, 1, 100, 10_000)))


def forged_cut(cut):
    price, kind, marginal = cut
    yield from ((it, kind, marginal) for it in near(price, 1, 99_999_999_999, (-100, -1, 1, 100)))
    yield from ((price, other, marginal) for other in KINDS if other != kind)
    if kind == "MARGINAL":
        steps = (-(10**9), -100_000, -1, 1, 100_000, 10**9, 2 * RANGE, -2 * RANGE)
        yield from ((price, kind, marginal + it) for it in steps)
        yield from ((price, kind, it) for it in (RANGE, RANGE + 1, -RANGE, -RANGE - 1) if it != marginal)


def lawful_plans(chance, count):
    """Plans of random orders that are confirmed, and fill something. Half of the orders declare self-help."""
    naming = random.Random(611)
    while count:
        order, rows, _, _ = drawn_audit(chance)
        order["self_help"] = frozenset(naming.sample(list(FEES), naming.choice([0, 0, 1, 2])))
        (legs, filled, cost), cuts = drawn_plan(chance, order, rows)
        it = Forged(rows, order["side"], order, (legs, filled, cost), cuts)
        if legs and usable(order, rows) and cost == cost_of(order, legs) and it.finding() == "confirmed":
            count -= 1
            yield it


def ran_on(program, words, changes, plan):
    """A run of a program on a file of changes and on a text of plans."""
    with tempfile.TemporaryDirectory(prefix="nms-") as room:
        for name, it in (("changes", changes), ("plan", plan)):
            with open(f"{room}/{name}", "w", encoding="utf-8") as file:
                file.write(it)
        return subprocess.run([program, "check", "changes", "plan", *words], cwd=room, capture_output=True, timeout=MOST, check=False)


def found_by(review, plans):
    """What `nms_review` finds of each of some plans on the same changes, in one run."""
    ran = ran_on(review, ["--json"], plans[0].changes(), "".join(it.text() for it in plans))
    found = verdicts(ran.stdout).splitlines()
    if len(found) != len(plans) or ran.stderr or ran.returncode != (4 if {*found} != {"confirmed"} else 0):
        return [f"status {ran.returncode}, {len(found)} verdicts on {len(plans)} plans, {ran.stderr!r}"] * len(plans)
    return found


def is_found(review, plan):
    return found_by(review, [plan]) == [plan.finding()]


def judged(review, plan):
    """How many forged fields of a plan are judged as they must be; raises the others, the first on its least parts."""
    plans = list(forged_fields(plan))
    found = found_by(review, plans)
    wrong = [(it, said) for it, said in zip(plans, found) if said != it.finding()]
    if not wrong:
        return len(plans)
    first, said = wrong[0]
    small = first.of_parts(least(first.parts(), lambda parts: not is_found(review, first.of_parts(parts)), 100))
    (small, said) = (small, found_by(review, [small])[0]) if not is_found(review, small) else (first, said)
    shown = f"{small.changes()}-- plan\n{small.text()}-- gives\n{small.finding()}\n"
    faults = [Wrong(f"{small.finding()} is to be found, and it said: {said}", f"the least that shows it:\n{shown}")]
    faults += [Wrong(f"{it.finding()} is to be found, and it said: {said}", f"{it.changes()}{it.text()}") for it, said in wrong[1:]]
    raise Several(faults, len(plans) - len(wrong))


def audited(program, plan):
    """How many forged fields of a plan are answered as they must be; raises the others."""
    return each(list(forged_fields(plan)), lambda it: is_answered(program, it))


def is_answered(program, plan):
    """Raises if an audit is not answered by its finding."""
    status, answer = answer_to(plan.finding().split())
    ran = ran_on(program, [], plan.changes(), plan.text())
    if (ran.returncode, ran.stdout, ran.stderr) != (status, answer.encode(), b""):
        raise Wrong(f"status {ran.returncode}, {ran.stdout!r}, {ran.stderr!r}, and not {answer!r}", plan.changes() + plan.text())


def each(forged, look):
    """How many forged things are as they must be; raises the others."""
    found = []
    for it in forged:
        try:
            look(it)
        except Wrong as fault:
            found.append(fault)
    if found:
        raise Several(found, len(forged) - len(found))
    return len(forged)


def forged_texts(plan):
    """Texts that say no plan: records gone, doubled, in another order, too many, or after the end."""
    records = list(plan.records())
    head, body = records[0], records[1:-1]
    yield from ("".join(records[:it]) for it in range(len(records)))
    yield "".join(records[1:])
    yield head + "".join(records)
    yield "".join(records) + "END\n"
    yield "".join(records) + body[0]
    yield head + "LEG,N,10.0000,100\n" * 33 + "END\n"
    yield head + "CUT,10.0000,TOOMUCH,\n" * 33 + "END\n"
    if plan.cuts and plan.legs:
        cut = body.pop()
        yield "".join([head, cut, *body, "END\n"])
    yield "".join(records[:1] + ["END\n"] + body + ["END\n"])
    if not plan.order["self_help"]:
        for names in ("Q", "N+", "+N", "N++P", "+", "n", "N P", "N,P"):
            yield head[:-1] + f",{names}\n" + "".join(records[1:])
    for record in records:
        yield "".join(records).replace(record, record[:-1] + ",\n")
        yield "".join(records).replace(record, record.replace(",", ";") if "," in record else "end\n")


def is_refused(program, plan, text):
    """Raises if a text is not refused as no plan."""
    ran = ran_on(program, [], plan.changes(), text)
    if (ran.returncode, ran.stdout, ran.stderr) != (6, b"", b"nms_tool: L11\n"):
        raise Wrong(f"status {ran.returncode}, {ran.stdout!r}, {ran.stderr!r}, and not L11", text)


def all_refused(program, plan):
    """How many forged texts of a plan are refused; raises the others."""
    return each(list(forged_texts(plan)), lambda text: is_refused(program, plan, text))


def trials(review, program):
    plans = list(enumerate(lawful_plans(random.Random(SEED), PLANS)))
    yield from (Trial(f"plan {number}", judged, (review, plan)) for number, plan in plans)
    yield from (Trial(f"audits of plan {number}", audited, (program, plan)) for number, plan in plans)
    yield from (Trial(f"texts of plan {number}", all_refused, (program, plan)) for number, plan in plans[:TEXTS])


if __name__ == "__main__":
    print(f"seed {SEED}: {PLANS} plans")
    sys.exit(run("forged", trials(*programs(sys.argv[1:], "nms_review", "nms_tool")), processes=True))
