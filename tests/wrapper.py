#!/usr/bin/env python3
"""Tests the package in python/nms: each wrong argument is refused and named, and threads may share a board.

    NMS_LIBRARY=libnms.so PYTHONPATH=python tests/wrapper.py SETUP [HEADER]        the built-in setup

It tests nms.arrays too if there is numpy, and with HEADER also that each function of that nms.h was called.

Prints a line for each difference, and last `N passed, M failed`.
"""
import re
import sys
import threading

import nms

try:
    import numpy
except ImportError:
    numpy = None

BUY, SELL = nms.OrderSide.BUY, nms.OrderSide.SELL
THREADS, LOOKS = 8, 2000


class Count:
    passed = failed = 0


def check(what, holds, shown=""):
    if holds:
        Count.passed += 1
    else:
        Count.failed += 1
        print(f"DIFFERS: {what}: {shown}"[:500])


def refused(what, code, field, call):
    """The call raises an error of that code, which names the field."""
    try:
        came = call()
    except nms.NmsError as error:
        check(what, (error.code, error.field) == (code, field) and field in str(error), (error.code, error.field, str(error)))
    except Exception as error:
        check(what, False, repr(error))
    else:
        check(what, False, came)


def order(**fields):
    """An order that is right except for these fields."""
    return nms.Order(**{"side": BUY, "sym": "ABC", "shares": 100, "limit": 100_100, **fields})


def arguments(board):
    """Each argument of each method: out of its range, of a wrong type, and not on the roster."""
    wrong = {
        "side": [2, 256, -1, 2**64, "B", None, 0.5],
        "manual": [2, 256, 257, -1, "M", None],
        "shares": [0, -1, 1_000_000_000, 2**32 + 100, 2**64 + 100, "100", 100.0, None, True],
        "limit": [0, -1, 100_000_000_000, 2**64 + 100_100, "10.01", 10.01, None, True],
        "self_help": ["N", "NP", b"N", 1, None, {"N": 1}, (1,), (None,), ([],)],
        "sym": [0, b"ABC", None, ["ABC"]],
    }
    for field, values in wrong.items():
        for value in values:
            refused(f"an order whose {field} is {value!r}", 10, field, lambda: board.plan(order(**{field: value})))
    refused("self-help against a stranger", 11, "self_help", lambda: board.plan(order(self_help=("N", "NYSE"))))
    refused("an order of a strange symbol", 12, "sym", lambda: board.plan(order(sym="XYZ")))
    # Ranges come before names, as in the library.
    refused("no shares, and a stranger", 10, "shares", lambda: board.plan(order(shares=0, sym="XYZ", self_help=("NYSE",))))
    for value in (256, -1, 2**64, "N", None, 0.0):
        refused(f"the name of participant {value!r}", 10, "part", lambda: board.part_name(value))
    refused("the name of participant 200", 11, "part", lambda: board.part_name(200))
    for value in (0, None, b"N", ["N"]):
        refused(f"the participant {value!r}", 10, "part", lambda: board.part(value))
        refused(f"the symbol {value!r}", 10, "sym", lambda: board.best(value))
    refused("half a character as a name", 11, "part", lambda: board.part("\udc80"))
    refused("no name", 12, "sym", lambda: board.sym(""))
    for value in (b"X,N", None, 7):
        refused(f"the record {value!r}", 10, "record", lambda: board.apply_text(value))
        refused(f"the text {value!r}", 10, "text", lambda: board.read(value))
    refused("half a character as a record", 101, "", lambda: board.apply_text("\udc80"))
    for value in ("X,N", None, 7, bytearray(b"X,N")):
        refused(f"the lines {value!r}", 10, "text", lambda: board.apply_lines(value))
    for value in (None, order(), ("PLAN",)):
        refused("a plan that is none", 10, "plan", lambda: board.confirm(value))
        refused("a plan that is none", 10, "plan", lambda: board.text(value))
    for value in (None, (BUY, "ABC", 100, 100_100)):
        refused("an order that is none", 10, "order", lambda: board.plan(value))
    for value in ("tape_limit = 1", None, 7):
        refused(f"the setup {value!r}", 10, "setup", lambda: nms.Board(value))
        refused(f"the setup {value!r}", 10, "setup", lambda: nms.setup_place(value))
    check("no refused call applied a change", board.applied() == 3, board.applied())


def right(board):
    """What is right is taken, in each form."""
    plans = [board.plan(it) for it in (order(), order(side=0), order(manual=0), order(self_help=[]), order(self_help={"Z"}))]
    check("an order in five forms", len({board.text(it).replace(",Z\n", ",\n") for it in plans[:4]}) == 1, [it.legs for it in plans])
    read = board.read(board.text(plans[0]))
    check("a plan read from its text", (read.legs, read.cost, board.confirm(read)) == (plans[0].legs, plans[0].cost, None), read.legs)
    check("the place of a setup's fault", nms.setup_place(b"").spot == "tape_limit")
    check("self-help by a set", [it.part for it in plans[4].legs] == ["P"], plans[4].legs)
    check("a name twice", [it.part for it in board.plan(order(self_help=("P", "P"))).legs] == ["N"])
    check("a manual order", board.plan(order(side=SELL, limit=100_000, manual=True)).filled == 100)
    check("the most shares at the highest limit", board.plan(order(shares=999_999_999, limit=99_999_999_999)).filled == 800)


def every_look(board):
    """Each look gives what `best` and the records say, and refuses each wrong argument."""
    bid, offer = nms.Side.BID, nms.Side.OFFER
    best = board.best("ABC")
    rows = board.rows("ABC", offer)
    check("the rows of a side", [it.price for it in rows] == [100_000, 100_000] and rows[0] == best.offer, rows)
    check("the rows by place", [board.ranked("ABC", offer, it) for it in range(3)] == [*rows, None])
    check("a side with no row", board.rows("PNY", bid) == [] and board.ranked("PNY", bid, 0) is None)
    through = board.through("ABC", 100_100 * 100)
    check("what a price trades through", (len(through.bids), len(through.offers)) == (0, 2), through)
    check("nothing is traded through", board.through("ABC", 100_000 * 100)[1:] == ([], []))
    costs = [board.unit_cost("N", it, 100_000) for it in (BUY, SELL)]
    check("what a share costs with its fee", costs[0] == -costs[1] + 2 * (costs[0] - 10**10) and costs[0] > 10**10 > -costs[1], costs)
    check("names and numbers of symbols", [board.sym(board.sym_name(it)) for it in (0, 1)] == [0, 1])
    check("the version", nms.version().count(".") == 2, nms.version())
    for value in (2, -1, 256, None, "B"):
        refused(f"the side {value!r}", 10, "side", lambda: board.rows("ABC", value))
        refused(f"the side {value!r}", 10, "side", lambda: board.ranked("ABC", value, 0))
        refused(f"the side {value!r}", 10, "side", lambda: board.unit_cost("N", value, 1))
    for value in (-1, 256, None, 0.0):
        refused(f"the place {value!r}", 10, "place", lambda: board.ranked("ABC", bid, value))
    for value in (0, -1, 10**13, 2**64 + 1, None, 1.5, True):
        refused(f"the price {value!r}", 10, "millionths", lambda: board.through("ABC", value))
    for value in (0, -1, 10**11, 2**64 + 1, None, 1.5, True):
        refused(f"the price {value!r}", 10, "price", lambda: board.unit_cost("N", BUY, value))
    for value in (-1, 2**16, "ABC", None):
        refused(f"the name of symbol {value!r}", 10, "sym", lambda: board.sym_name(value))
    refused("the name of symbol 60000", 12, "sym", lambda: board.sym_name(60_000))
    for call in (board.opening, lambda it: board.rows(it, bid), lambda it: board.ranked(it, bid, 0), lambda it: board.through(it, 1)):
        refused("a strange symbol", 12, "sym", lambda: call("XYZ"))
    refused("a strange participant", 11, "part", lambda: board.unit_cost("NYSE", BUY, 1))


def changes(setup, board):
    """Changes by numbers do what their records do, an opening brings a new board to the same rows, and wrong fields are named."""
    quote = nms.Change(nms.Kind.QUOTE, "N", "ABC", nms.State.AUTOMATED, (99_900, 200), (100_000, 300))
    with nms.Board(setup) as other, nms.Board(setup) as single:
        for change, record in ((quote, "Q,N,ABC,A,9.99,200,10.00,300"), (quote._replace(part="P", offer=None), "Q,P,ABC,A,9.99,200,,"),
                               (nms.Change(nms.Kind.STATE, "P", "ABC", nms.State.MANUAL), "S,P,ABC,M"),
                               (nms.Change(nms.Kind.LOT, sym="ABC", lot=50), "R,ABC,50"), (nms.Change(nms.Kind.WITHDRAW, "N"), "X,N"),
                               (quote._replace(state=nms.State.HALTED), "Q,N,ABC,H,9.99,200,10.00,300")):
            other.apply(change)
            single.apply_text(record)
            check(f"{record} by numbers", bytes(other.view("ABC")) == bytes(single.view("ABC")), other.rows("ABC", nms.Side.BID))
        check("changes at once", other.apply_all([quote, quote._replace(part="P")]) == 2 and other.applied() == 8, other.applied())
        check("no changes", other.apply_all([]) == 0 and other.apply_best([]) == [] and other.best_all([]) == [] and other.plan_all([]) == [])
        followed = other.apply_best([quote, nms.Change(nms.Kind.WITHDRAW, "P", "ABC")])
        check("the best after each change", [it.version for it in followed] == [9, 10] and followed[1] == other.best("ABC"), followed)
        check("the best of many symbols", other.best_all(["PNY", "ABC"]) == [other.best("PNY"), other.best("ABC")])
        check("plans of many orders", [it.legs for it in other.plan_all([order(), order(shares=200)])] == [other.plan(order()).legs, other.plan(order(shares=200)).legs])
        refused("a withdrawal that names no symbol", 12, "sym", lambda: other.apply_best([nms.Change(nms.Kind.WITHDRAW, "P")]))
        refused("a strange symbol of many", 12, "sym", lambda: other.best_all(["ABC", "XYZ"]))
        refused("a wrong order of many", 10, "shares", lambda: other.plan_all([order(), order(shares=0)]))
        refused("a wrong one of some", 12, "sym", lambda: other.apply_all([quote, quote._replace(sym="XYZ")]))
        check("none of them was applied", other.applied() == 10, other.applied())
        with nms.Board(setup) as lines, nms.Board(setup) as each:
            text = b"Q,N,ABC,A,9.99,200,10.00,300\r\nQ,P,ABC,A,9.99,200,,\nX,NYSE\nX,P"
            refused_at("a line in the middle", 103, 2, lambda: lines.apply_lines(text), 51)
            for record in text.decode().splitlines()[:2]:
                each.apply_text(record)
            check("the lines before it stay", bytes(lines.view("ABC")) == bytes(each.view("ABC")), lines.rows("ABC", nms.Side.BID))
            check("lines at once", (lines.apply_lines(text[58:]), lines.apply_lines(b""), lines.apply_lines(b"X,P\nX,N\n"), lines.applied()) == (1, 0, 2, 5))
        with nms.Board(setup) as later:
            check("an opening", later.apply_all(other.opening("ABC")) > 0)
            check("it shows the same rows", all([it._replace(receipt=0) for it in later.rows("ABC", side)] == [it._replace(receipt=0) for it in other.rows("ABC", side)]
                                                for side in nms.Side))
    wrong = {
        "kind": [4, -1, 256, None, "Q"],
        "state": [3, -1, 256, None, "A"],
        "bid": [(0, 100), (1, 0), (10**11, 1), (1, 10**9), (1,), 1, "19", (1, None), (True, 1), [1, 1]],
        "offer": [(0, 100), (1, 0), (2**64 + 1, 1), (1, 2**32 + 1)],
        "part": [None, 0, b"N"],
        "sym": [None, 0, b"ABC"],
    }
    for field, values in wrong.items():
        for value in values:
            refused(f"a change whose {field} is {value!r}", 10, field, lambda: board.apply(quote._replace(**{field: value})))
    for value in (0, 1_001, -1, 2**16 + 1, None, True):
        refused(f"the round lot {value!r}", 10, "lot", lambda: board.apply(nms.Change(nms.Kind.LOT, sym="ABC", lot=value)))
    refused("a change of a stranger", 11, "part", lambda: board.apply(quote._replace(part="NYSE")))
    refused("a change of a strange symbol", 12, "sym", lambda: board.apply(quote._replace(sym="XYZ")))
    for value in (None, "Q,N,ABC,A,,,,", (0, "N")):
        refused("a change that is none", 10, "change", lambda: board.apply(value))
    check("no refused change was applied", board.applied() == 3, board.applied())


class Counting:
    """The library, and which of its functions were called."""

    def __init__(self, library):
        self.library, self.called = library, set()

    def __getattr__(self, name):
        self.called.add(name)
        return getattr(self.library, name)


def called(library, header):
    """Each function of the header was called."""
    with open(header, encoding="utf-8") as file:
        declared = set(re.findall(r"^uint32_t (nms_\w+)\(", file.read(), re.M)) - {"nms_abi"}
    check("each function of nms.h is called from Python", library.called >= declared, sorted(declared - library.called))


def names(setup):
    """Names are kept, and a closed board forgets them."""
    board = nms.Board(setup)
    check("names", [board.part_name(it) for it in (0, 1, 0, 1)] == ["N", "P", "N", "P"] and board.part("P") == 1 and board.sym("PNY") == 1)
    board.close()
    refused("a name of a closed board", 15, "", lambda: board.part_name(0))
    refused("a participant of a closed board", 15, "", lambda: board.part("P"))
    refused("a symbol of a closed board", 15, "", lambda: board.sym("PNY"))


def views(setup, board):
    """A view is planned on by terms, also after the board has changed, and a torn one is refused."""
    with nms.Terms(setup) as terms:
        view, plan = board.view("ABC"), board.plan(order())
        same = terms.plan(nms.View.of(bytes(view)), order())
        check("a plan on a view", (same.legs, same.cost, same.version) == (plan.legs, plan.cost, view.version), same.legs)
        check("it is confirmed there", terms.confirm(view, same) is None and board.confirm(same) is None)
        check("names by terms", (terms.part("P"), terms.sym("PNY"), terms.part_name(1), terms.sym_name(1)) == (1, 1, "P", "PNY"))
        check("what a price trades through on a view", terms.through(view, 10_010_000) == board.through("ABC", 10_010_000))
        left = terms.reduced(view, nms.Side.OFFER, {"N": 40, "P": 0})
        fewer = terms.plan(left, order())
        check("a plan on what is left", [(it.part, it.shares) for it in fewer.legs] == [("N", 40)] and terms.confirm(left, fewer) is None, fewer.legs)
        check("nothing is taken", bytes(terms.reduced(view, nms.Side.BID, {})) == bytes(view))
        refused("too many shares", 10, "most", lambda: terms.reduced(view, nms.Side.BID, {"N": 2**32}))
        refused("fewer shares than none", 10, "most", lambda: terms.reduced(view, nms.Side.BID, {"N": -1}))
        refused("shares of a stranger", 11, "most", lambda: terms.reduced(view, nms.Side.BID, {"NONE": 1}))
        refused("shares of nobody", 10, "most", lambda: terms.reduced(view, nms.Side.BID, [1]))
        refused("a side that is none", 10, "side", lambda: terms.reduced(view, 2, {}))
        refused("what is no view", 10, "view", lambda: terms.reduced(bytes(view), nms.Side.BID, {}))
        refused("a price of none", 10, "millionths", lambda: terms.through(view, 0))
        refused("what is no view", 10, "view", lambda: terms.through(bytes(view), 1))
        torn = bytearray(bytes(view))
        torn[0] ^= 255
        torn[16] ^= 1
        refused("a torn view", 21, "", lambda: terms.plan(nms.View.of(bytes(torn)), order()))
        refused("fewer shares of a torn view", 21, "", lambda: terms.reduced(nms.View.of(bytes(torn)), nms.Side.BID, {}))
        refused("half a view", 10, "data", lambda: nms.View.of(bytes(view)[:-1]))
        refused("no view", 10, "view", lambda: terms.plan(None, order()))
        refused("an order of another symbol", 12, "", lambda: terms.plan(view, order(sym="PNY")))
        refused("a plan that is none", 10, "plan", lambda: terms.confirm(view, None))
    refused("closed terms", 15, "", lambda: terms.plan(view, order()))


def threads(board):
    """Threads look at one board and plan on it, without a lock: each has every answer of a single thread."""
    wanted, wrong = (board.best("ABC"), board.plan(order()).legs), []

    def look():
        for _ in range(LOOKS):
            try:
                came = board.best("ABC"), board.plan(order()).legs
            except nms.NmsError as error:
                came = str(error)
            if came != wanted:
                wrong.append(came)

    started = [threading.Thread(target=look) for _ in range(THREADS)]
    for it in started:
        it.start()
    for it in started:
        it.join()
    check(f"{THREADS} threads at one board", not wrong, f"{len(wrong)} of {THREADS * LOOKS} answers, as {wrong[:1]}")


def processors():
    """A processor that the library does not run on is refused before it is loaded."""
    for machine, flags, fits in (("x86_64", " fpu sse4_1 avx", True), ("x86_64", " fpu sse2", False), ("x86_64", "", True), ("aarch64", "", False)):
        check(f"the processor {machine} with {flags!r}", nms._fits(machine, flags) is fits)


def arrays(setup):
    """Arrays of changes, looks and plans give what single calls give; the first element that is refused is named."""
    import nms.arrays as many

    with nms.Board(setup) as board, nms.Board(setup) as single:
        changes = numpy.zeros(3, many.CHANGE)
        for place, (part, bid, offer, record) in enumerate((("N", 99_900, 100_000, "Q,N,ABC,A,9.99,200,10.00,200"),
                                                            ("P", 99_800, 100_000, "Q,P,ABC,A,9.98,200,10.00,200"),
                                                            ("Z", 99_900, 100_100, "Q,Z,ABC,A,9.99,200,10.01,200"))):
            changes[place] = (bid, offer, 200, 200, board.sym("ABC"), 0, board.part(part), 0, 0, 0)
            single.apply_text(record)
        check("changes by an array", many.apply_all(board, changes) == 3 and board.best("ABC") == single.best("ABC"), board.best("ABC"))
        best = many.best_all(board)
        row = board.best("ABC").offer
        found = best[board.sym("ABC")]["offer"]
        check("looks by an array", row and (found["price"], found["size"], found["part"]) == (row.price, row.size, board.part(row.part)), found)
        check("looks at some symbols", many.best_all(board, numpy.array([1, 0], numpy.uint16)).tolist() == [best[1].tolist(), best[0].tolist()])
        orders = numpy.zeros(2, many.ORDER)
        orders[0], orders[1] = (100_100, 300, 0, 0, 0, 0, 0), (99_800, 300, 1, 0, 1, 0, 0)
        wanted = [single.plan(order(shares=300)), single.plan(order(side=SELL, shares=300, limit=99_800, self_help=("N",)))]
        check("plans by an array", [int(it["filled"]) for it in many.plan_all(board, orders)] == [it.filled for it in wanted])
        refused_at("a change in the middle", 11, 1, lambda: many.apply_all(board, numpy.array([changes[0], (1, 2, 3, 4, 0, 0, 200, 0, 0, 0), changes[1]], many.CHANGE)))
        check("the change before it stays", board.applied() == 4, board.applied())
        refused_at("a symbol", 12, 1, lambda: many.best_all(board, numpy.array([0, 999], numpy.uint16)))
        refused_at("an order", 10, 0, lambda: many.plan_all(board, numpy.zeros(1, many.ORDER)))
        for wrong in ([1], numpy.zeros(2), numpy.zeros((2, 2), many.CHANGE), numpy.zeros(1, many.ORDER)):
            try:
                check(f"an array that is none of changes: {wrong!r:.40}", False, many.apply_all(board, wrong))
            except TypeError:
                check("an array of another type", True)
        check("no changes", many.apply_all(board, changes[:0]) == 0 and board.applied() == 4 and len(many.apply_best(board, changes[:0])) == 0)
        after = many.apply_best(single, changes)
        check("the best after each change by an array", after["version"].tolist() == [4, 5, 6] and after[2].tolist() == many.best_all(single)[0].tolist(), after)
        refused_at("a change in the middle, with the best", 11, 1, lambda: many.apply_best(single, numpy.array([changes[0], (1, 2, 3, 4, 0, 0, 200, 0, 0, 0)], many.CHANGE)))
        check("each second change", many.apply_all(board, changes[::2]) == 2 and board.applied() == 6)


def refused_at(what, code, place, call, at=None):
    """The call raises an error of that code at that place, and of lines at that byte."""
    try:
        check(what, False, call())
    except nms.RefusedAt as error:
        check(what, (error.code, error.place, error.at) == (code, place, at), (error.code, error.place, error.at))


def main(path, *headers):
    with open(path, "rb") as file:
        setup = file.read()
    library = nms._LIBRARY = Counting(nms._LIBRARY)
    processors()
    if numpy:
        arrays(setup)
    with nms.Board(setup) as board:
        for record in ("Q,N,ABC,A,9.99,200,10.00,300", "Q,P,ABC,A,9.98,700,10.00,500", "Q,Y,ABC,M,10.00,100,,"):
            board.apply_text(record)
        arguments(board)
        right(board)
        names(setup)
        every_look(board)
        changes(setup, board)
        views(setup, board)
        threads(board)
    for header in headers:
        called(library, header)
    print(f"{Count.passed} passed, {Count.failed} failed")
    return 1 if Count.failed else 0


if __name__ == "__main__":
    if len(sys.argv) not in (2, 3):
        sys.exit(__doc__)
    sys.exit(main(*sys.argv[1:]))
