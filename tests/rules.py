"""A plain slow program of the rules, said once, for all judges of this folder.

It looks back over all changes at each question, and tries every way to spread shares. It has no rows that it keeps, no
order of filling but the one of the fixed choice, and nothing of the program that it judges. Prices are in 1/10,000 dollar,
money in nanodollars. A change is a tuple: ("Q", part, sym, state, {side: (price, shares) or None}), ("S", part, sym,
state), ("X", part) or ("R", sym, lot), where a side is "BID" or "OFFER". A tape is a list of changes, and version n its
first n.
"""
import itertools
import re

# The participants of the built-in setup by their places: the fee of a share, and the rate below one dollar.
FEES = {"N": (3_000_000, 300), "P": (2_800_000, 300), "Y": (-200_000, 0), "Z": (3_000_000, 300)}
LOT = 100
# The most that a marginal may be from zero.
RANGE = 10**18

# Texts.


def dollars(price):
    return f"{price // 10_000}.{price % 10_000:04}"


def money(nanodollars):
    sign, number = "-" if nanodollars < 0 else "", abs(nanodollars)
    return f"{sign}{number // 10**9}.{number % 10**9:09}"


def price_of(text):
    """The price that a text is; None if it is none, or zero."""
    parts = re.fullmatch(r"([0-9]{1,7})(?:\.([0-9]{1,4}))?", text)
    return (int(parts[1]) * 10_000 + int((parts[2] or "0").ljust(4, "0")) or None) if parts else None


# What a tape says.


def content(tape, part, sym, side):
    """A participant's side after the changes: its price, its shares, and since which version both stay; or None."""
    now, since = None, 0
    for version, change in enumerate(tape, 1):
        if change == ("X", part):
            now, since = None, version
        elif change[0] == "Q" and change[1:3] == (part, sym) and change[4][side] != now:
            now, since = change[4][side], version
    return now and (*now, since)


def state(tape, part, sym):
    return next((it[3] for it in reversed(tape) if it[0] in "QS" and it[1:3] == (part, sym)), None)


def lot(tape, sym, opening):
    """The symbol's lot: that of its last change of lot, else the setup's."""
    return next((it[2] for it in reversed(tape) if it[0] == "R" and it[1] == sym), opening[sym])


def lot_by(price):
    """The lot of an average closing price (17 CFR 242.600, "round lot")."""
    borders = (2_500_000, 100), (10_000_000, 40), (100_000_000, 10)
    return next((shares for most, shares in borders if price <= most), 1)


def rows(tape, sym, side, opening):
    """The quotations of a side: price, displayed size, receipt, participant and state."""
    now, found = lot(tape, sym, opening), []
    for part in FEES:
        stands = content(tape, part, sym, side)
        if stands and stands[1] // now and state(tape, part, sym) != "H":
            price, shares, since = stands
            found.append((price, shares // now * now, since, part, state(tape, part, sym)))
    return found


def best(tape, sym, side, opening):
    """The row of the best price, then of the largest size, then of the earliest receipt."""
    sign = -1 if side == "BID" else 1
    return min(rows(tape, sym, side, opening), key=lambda it: (sign * it[0], -it[1], it[2]), default=None)


def market(bid, offer):
    if bid is None or offer is None:
        return "EMPTY" if bid is offer else "ONESIDED"
    return "NORMAL" if bid[0] < offer[0] else "LOCKED" if bid[0] == offer[0] else "CROSSED"


def look(tape, desk, sym, opening):
    """The answer to a desk that asks for the best quotes."""
    bid, offer = (best(tape, sym, side, opening) for side in ("BID", "OFFER"))
    shown = (f"{it[3]},{dollars(it[0])},{it[1]},{it[2]}" if it else ",,," for it in (bid, offer))
    return ",".join([f"BEST,{desk},{sym},{len(tape)},{market(bid, offer)}", *shown])


def through(tape, desk, sym, price, opening):
    """The protected bids above the price and the protected offers below it, bids first, each by participant."""
    found = []
    for side, sign in (("BID", 1), ("OFFER", -1)):
        for row in rows(tape, sym, side, opening):
            if row[4] == "A" and sign * row[0] > sign * price:
                found.append(f"ROW,{side},{row[3]},{dollars(row[0])},{row[1]}")
    return "\n".join([f"THRU,{desk},{sym},{len(tape)},{dollars(price)},{len(found)}", *found])


class Machine:
    """What was sent and is not taken, what was taken, and how much of it is published. A refusal is its code."""

    def __init__(self, queue, tape, opening):
        self.most_sent, self.most_taken, self.opening = queue, tape, opening
        self.queue, self.tape, self.published = [], [], 0

    def send(self, change):
        if len(self.queue) == self.most_sent:
            return "F2"
        self.queue.append(change)
        return ""

    def take(self):
        if not self.queue or len(self.tape) == self.most_taken:
            return "F4" if self.queue else "F3"
        self.tape.append(self.queue.pop(0))
        return ""

    def publish(self):
        self.published = len(self.tape)
        return f"PUB,{self.published}"

    def take_all(self):
        while not (refusal := self.take()):
            pass
        return refusal if refusal == "F4" else self.publish()

    def seen(self):
        return self.tape[: self.published]

    def answer(self, asked):
        """What is answered to a record: empty for nothing, a code for a refusal. A record is ("send", change), ("take",),
        ("all",), ("publish",), ("tell", desk), ("look", desk, sym), ("through", desk, sym, price) or ("refused", code)."""
        kind, *words = asked
        if kind == "send":
            return self.send(*words)
        if kind == "take":
            return self.take() or f"TAKEN,{len(self.tape)}"
        if kind == "all":
            return self.take_all()
        if kind == "publish":
            return self.publish()
        if kind == "tell":
            return f"TOLD,{words[0]},{self.published}"
        if kind == "look":
            return look(self.seen(), *words, self.opening)
        if kind == "through":
            return through(self.seen(), *words, self.opening)
        return words[0]


def plain_records(part, sym, letter, desk):
    """The records that every random script has, by their kinds, and what each asks."""
    return {
        "S": (f"S,{part},{sym},{letter}", ("send", ("S", part, sym, letter))),
        "X": (f"X,{part}", ("send", ("X", part))),
        "T": ("T", ("take",)),
        "F": ("F", ("all",)),
        "P": ("P", ("publish",)),
        "L": (f"L,{desk}", ("tell", desk)),
        "N": (f"N,{desk},{sym}", ("look", desk, sym)),
    }


def answers(machine, script):
    """The lines that answer a script, whose records are texts with what they ask, and how many records are refused."""
    lines, refused = [], 0
    for number, (_, asked) in enumerate(script, 1):
        answer = machine.answer(asked)
        is_refused = answer[:1] in ("L", "F")
        refused += is_refused
        if answer:
            lines.append(f"ERR,{number},{answer}" if is_refused else answer)
    return lines, refused


# Orders. A quotation is (participant, price, size, protected), and those of a list are by place.


def unit_cost(order, part, price):
    """What a share costs with its fee."""
    fee, rate = order.get("fees", FEES)[part]
    fee = fee if price >= 10_000 else rate * price
    return fee + (price if order["side"] == "B" else -price) * 100_000


def is_better(order, price, other):
    return price < other if order["side"] == "B" else price > other


def rank(order, row):
    return row[1] if order["side"] == "B" else -row[1]


def is_named(order, row):
    """Whether the order declares self-help against the participant of a quotation (17 CFR 242.611(b)(1))."""
    return row[0] in order.get("self_help", ())


def names_of(order):
    """The participants that the order names, by place, joined as a record has them."""
    return "+".join(part for part in order.get("fees", FEES) if part in order.get("self_help", ()))


def may_trade(order, row):
    return not is_named(order, row) and (row[3] or order["manual"])


def usable(order, quotes):
    """The quotations that the order may trade with."""
    return [row for row in quotes if may_trade(order, row) and not is_better(order, order["limit"], row[1])]


def is_lawful(order, quotes, shares):
    """Whether such shares of each usable quotation keep the rule: each better protected one is swept in full."""
    if sum(shares) > order["shares"]:
        return False
    return not any(
        given and row[3] and is_better(order, row[1], other[1]) and taken < row[2]
        for other, given in zip(quotes, shares)
        for row, taken in zip(quotes, shares)
    )


def best_way(order, quotes):
    """The most that any lawful plan fills, negated, and the least that it costs, over every way to spread the lots."""
    quotes = usable(order, quotes)
    ways = itertools.product(*(range(0, row[2] + 1, order.get("lot", LOT)) for row in quotes))
    lawful = (shares for shares in ways if is_lawful(order, quotes, shares))
    return min(
        (-sum(shares), sum(unit_cost(order, row[0], row[1]) * given for row, given in zip(quotes, shares)))
        for shares in lawful
    )


# Plans and certificates. A leg is (participant, price, shares), a cut (price, kind, marginal).


def size(quotes):
    return sum(row[2] for row in quotes)


def cost_of(order, legs):
    return sum(unit_cost(order, part, price) * shares for part, price, shares in legs)


def breach(order, quotes, legs, filled, cost):
    """The first breach of a plan of the order's own version."""
    found = {row[0]: row for row in quotes if may_trade(order, row)}
    given = {}
    for part, _, shares in legs:
        given[part] = given.get(part, 0) + shares
    tests = (
        ("P3", any(leg[0] not in found for leg in legs)),
        ("P4", any(leg[0] in found and leg[1] != found[leg[0]][1] for leg in legs)),
        ("P5", any(leg[2] == 0 for leg in legs)),
        ("P6", any(leg[0] in found and leg[2] > found[leg[0]][2] for leg in legs)),
        ("P7", len(given) < len(legs)),
        ("P8", any(is_better(order, order["limit"], leg[1]) for leg in legs)),
        ("P9", sum(leg[2] for leg in legs) > order["shares"]),
        (
            "P10",
            any(
                row[3] and given.get(row[0], 0) < row[2] and is_better(order, row[1], leg[1])
                for row in quotes
                if not is_named(order, row)
                for leg in legs
            ),
        ),
        ("P11", filled != sum(leg[2] for leg in legs)),
        ("P12", cost != cost_of(order, legs)),
    )
    return next((code for code, holds in tests if holds), None)


def parts_at(order, quotes, price):
    """What a plan whose worst price is this one must sweep, and the pool that it chooses from."""
    swept = [row for row in quotes if row[3] and is_better(order, row[1], price)]
    return swept, [row for row in quotes if row not in swept and not is_better(order, price, row[1])]


def bound(order, quotes, most, price, marginal):
    """The least that filling so much can cost at this price, by the marginal."""
    swept, pool = parts_at(order, quotes, price)
    saved = sum(max(0, marginal - unit_cost(order, row[0], row[1])) * row[2] for row in pool)
    paid = sum(unit_cost(order, row[0], row[1]) * row[2] for row in swept)
    return paid + marginal * (most - size(swept)) - saved


def doubt(order, quotes, plan, cuts):
    """What is doubtful of a plan and its cuts, or None."""
    legs, filled, cost = plan
    broken = breach(order, quotes, legs, filled, cost)
    if broken:
        return "K1 " + broken
    quotes = usable(order, quotes)
    most = min(order["shares"], size(quotes))
    if filled != most:
        return "K2"
    prices = {row[1] for row in quotes}
    if prices - {price for price, _, _ in cuts}:
        return "K3"
    ordered = all(is_better(order, one[0], two[0]) for one, two in zip(cuts, cuts[1:]))
    if {price for price, _, _ in cuts} - prices or not ordered:
        return "K4"
    for price, kind, _ in cuts:
        swept, pool = (size(part) for part in parts_at(order, quotes, price))
        fits = {"TOOMUCH": swept > most, "TOOLITTLE": swept + pool < most, "MARGINAL": swept <= most}
        if not fits[kind]:
            return "K5"
    marginals = [(at, price, marginal) for at, (price, kind, marginal) in enumerate(cuts) if kind == "MARGINAL"]
    if any(abs(marginal) > RANGE for _, _, marginal in marginals):
        return "K6"
    for at, price, marginal in marginals:
        if bound(order, quotes, most, price, marginal) < cost:
            return f"K7 {at}"
    return None


def filled_at(order, quotes, most, price, is_fixed):
    """The legs that sweep what must be swept at this price and fill up from the pool, the cheapest first; None if that
    is too much or too little; and the price's cut. The fixed choice takes the better price of two equal costs, and has the
    cheapest of the pool as its marginal if nothing is left to fill. Without it participants go by place, and the
    marginal is then the least that there is, which is as right."""
    swept, pool = parts_at(order, quotes, price)
    if size(swept) > most:
        return None, (price, "TOOMUCH", 0)
    if size(swept) + size(pool) < most:
        return None, (price, "TOOLITTLE", 0)
    left, legs = most - size(swept), [row[:3] for row in swept]
    pool = sorted(pool, key=lambda row: (unit_cost(order, row[0], row[1]), rank(order, row) if is_fixed else 0))
    marginal = unit_cost(order, *pool[0][:2]) if is_fixed else -RANGE
    for row in pool:
        if left:
            marginal = unit_cost(order, row[0], row[1])
            legs.append((row[0], row[1], min(left, row[2])))
            left -= legs[-1][2]
    return legs, (price, "MARGINAL", marginal)


def tried(order, quotes, is_fixed):
    """The legs at each price that are a plan, and each price's cut, the best price first."""
    quotes = usable(order, quotes)
    most = min(order["shares"], size(quotes))
    prices = sorted({row[1] for row in quotes}, reverse=order["side"] == "S")
    found = [filled_at(order, quotes, most, price, is_fixed) for price in prices]
    return [legs for legs, _ in found if legs is not None] or [[]], [cut for _, cut in found]


def records_of(order, version, symbol, plan, cuts):
    """The records of a plan's text."""
    legs, filled, cost = plan
    names = names_of(order)
    flag, self_help = "M" if order["manual"] else "", f",{names}" if names else ""
    asked = f"{order['side']},{symbol},{order['shares']},{dollars(order['limit'])},{flag}"
    yield f"PLAN,{version},{asked},{filled},{money(cost)}{self_help}"
    for part, price, shares in legs:
        yield f"LEG,{part},{dollars(price)},{shares}"
    for price, kind, marginal in cuts:
        yield f"CUT,{dollars(price)},{kind},{money(marginal) if kind == 'MARGINAL' else ''}"
    yield "END"


def chosen(order, quotes):
    """The plan of the fixed choice and its cuts: of the prices of least cost it takes the best, of quotations whose shares
    cost the same the better price, then the lower place. Its legs are by price and place."""
    plans, cuts = tried(order, quotes, True)
    legs = min(plans, key=lambda it: cost_of(order, it))
    legs.sort(key=lambda leg: (rank(order, leg), list(order.get("fees", FEES)).index(leg[0])))
    return (legs, sum(leg[2] for leg in legs), cost_of(order, legs)), cuts


def planned(order, quotes, version):
    """The records of the plan of the fixed choice, under the built-in setup. It has to be as good as the best way."""
    plan, cuts = chosen(order, quotes)
    legs, filled, cost = plan
    if (-filled, cost) != best_way(order, quotes):
        raise AssertionError(f"a lawful plan is better: {order}, {quotes}, {legs}")
    return [*records_of(order, version, "ABC", plan, cuts)]
