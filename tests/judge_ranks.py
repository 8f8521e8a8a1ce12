#!/usr/bin/env python3
"""Applies random changes by the library, and compares all rows of a symbol with what the changes say.

    tests/judge_ranks.py [LIBRARY]      LIBRARY is libnms.so of crates/nms_c/out, or of the folder NMS_OUT

- `rank order`: 20,000 changes by 32 participants in four symbols, new round lots among them. After each change the rows of its
  symbol have to be those that a plain model has, sorted by price, then by size, then by receipt. Half of them come in calm
  times, in which none withdraws and all sides fill; in the others sides shrink.
- `opening changes, seed N`: a board of 2 to 32 participants and one to four symbols, with halts, sizes below a lot, new lots,
  withdrawals, and ties. A new board that takes its opening changes has to show the same but for receipts and versions, at
  once and after each of 50 more changes that both take.

A failing board is shown with the least number of its changes after which it fails. The library has to be built: by
`tests/library.py` or `./nms_lib`.
"""
import ctypes
import os
import random
import sys
from ctypes import POINTER, Structure, byref, c_char, c_size_t, c_uint8, c_uint16, c_uint32, c_uint64, c_void_p

from drawn import setup_of
from trials import Trial, Wrong, run

TOP = os.path.dirname(os.path.dirname(os.path.realpath(__file__)))
MOST_PARTS, MOST_OPENING = 32, 65
LOTS = (1, 10, 40, 100)
CHANGES, BOARDS, LATER = 20_000, 5_000, 50
# The kinds of a change, and the states, as nms.h numbers them.
QUOTE, STATE, WITHDRAW, LOT = range(4)
AUTOMATED, MANUAL, HALTED = range(3)


class Board(Structure):
    _fields_ = [("mark", c_uint64), ("at", c_void_p)]


class Change(Structure):
    _fields_ = [("bid_price", c_uint64), ("offer_price", c_uint64), ("bid_shares", c_uint32), ("offer_shares", c_uint32),
                ("sym", c_uint16), ("lot", c_uint16), ("part", c_uint8), ("kind", c_uint8), ("state", c_uint8), ("spare", c_uint8)]


class Rows(Structure):
    _fields_ = [("total", c_uint64), ("price", c_uint64 * MOST_PARTS), ("receipt", c_uint64 * MOST_PARTS), ("size", c_uint32 * MOST_PARTS),
                ("part", c_uint8 * MOST_PARTS), ("is_protected", c_uint8 * MOST_PARTS), ("count", c_uint32), ("spare", c_uint32)]


class View(Structure):
    _fields_ = [("version", c_uint64), ("market", c_uint32), ("spare", c_uint32), ("bid", Rows), ("offer", Rows)]


class Opening(Structure):
    _fields_ = [("count", c_uint32), ("spare", c_uint32), ("change", Change * MOST_OPENING)]


CALLS = {
    "nms_raw_open": [POINTER(c_char), c_size_t, POINTER(Board)],
    "nms_raw_close": [POINTER(Board)],
    "nms_raw_apply": [POINTER(Board), POINTER(Change)],
    "nms_raw_view_of": [POINTER(Board), c_uint16, POINTER(View)],
    "nms_raw_opening_of": [POINTER(Board), c_uint16, POINTER(Opening)],
}


def loaded(path):
    """The library, with the types of its functions."""
    library = ctypes.CDLL(path)
    for name, arguments in CALLS.items():
        function = getattr(library, name)
        function.argtypes, function.restype = arguments, c_uint32
    return library


def setup(parts, syms):
    """A setup with a number of participants and of symbols."""
    names = "ABCDEFGHIJKLMNOPQRSTUVWXYZ012345"[:parts]
    return setup_of(dict.fromkeys(names, ("A", 0, 0)), dict(zip("ABCD"[:syms], LOTS)), 100_000, 2, 1)


class Opened:
    """A board of the library that is open as long as it is used."""

    def __init__(self, library, parts, syms):
        self.library, self.board, text = library, Board(), setup(parts, syms).encode()
        code = library.nms_raw_open(text, len(text), byref(self.board))
        if code:
            raise Wrong(f"the board is not opened: code {code}")

    def __enter__(self):
        return self

    def __exit__(self, *_):
        self.library.nms_raw_close(byref(self.board))

    def apply(self, change):
        code = self.library.nms_raw_apply(byref(self.board), byref(change))
        if code:
            raise Wrong(f"a change is refused: code {code}")

    def view(self, sym):
        found = View()
        code = self.library.nms_raw_view_of(byref(self.board), sym, byref(found))
        if code:
            raise Wrong(f"a look is refused: code {code}")
        return found

    def opening(self, sym):
        found = Opening()
        code = self.library.nms_raw_opening_of(byref(self.board), sym, byref(found))
        if code:
            raise Wrong(f"the opening changes are refused: code {code}")
        return found.change[: found.count]


class Plain:
    """What the changes say: each side with the number of the change since which it is quoted, each state, each round lot."""

    def __init__(self):
        self.sides, self.states, self.lots, self.version = {}, {}, dict(enumerate(LOTS)), 0

    def apply(self, change):
        self.version += 1
        if change.kind == LOT:
            self.lots[change.sym] = change.lot
        if change.kind in (QUOTE, STATE):
            self.states[change.sym, change.part] = change.state
        if change.kind == QUOTE:
            self.quote((change.sym, change.part, "bid"), change.bid_price, change.bid_shares)
            self.quote((change.sym, change.part, "offer"), change.offer_price, change.offer_shares)
        if change.kind == WITHDRAW:
            self.sides = {place: side for place, side in self.sides.items() if place[1] != change.part}

    def quote(self, place, price, shares):
        if not shares:
            self.sides.pop(place, None)
        elif self.sides.get(place, ())[:2] != (price, shares):
            self.sides[place] = price, shares, self.version

    def rows(self, sym, side):
        """The rows of a side in rank order: price, receipt, size, participant, and whether they are protected."""
        lot, found = self.lots[sym], []
        for part in range(MOST_PARTS):
            price, shares, receipt = self.sides.get((sym, part, side), (0, 0, 0))
            state = self.states.get((sym, part))
            if shares >= lot and state != HALTED:
                found.append((price, receipt, shares // lot * lot, part, int(state == AUTOMATED)))
        sign = -1 if side == "bid" else 1
        return sorted(found, key=lambda row: (sign * row[0], -row[2], row[1]))


def rows_of(rows):
    """The rows that the library shows."""
    columns = (rows.price, rows.receipt, rows.size, rows.part, rows.is_protected)
    return list(zip(*(it[: rows.count] for it in columns)))


# What is drawn.


def drawn_state(chance, calm):
    return chance.choice([AUTOMATED] * 4 + [MANUAL] * 3 + [MANUAL if calm else HALTED])


def drawn_side(chance, base, lot, calm):
    """One of three prices and of three sizes, so that many tie, with half a lot more or not; in calm times at least a lot."""
    shares = max(chance.randrange(4), int(calm)) * lot + chance.randrange(2) * (lot // 2)
    return (base + chance.randrange(3), shares) if shares else (0, 0)


def drawn(chance, parts, sym, calm):
    """A change of one of the participants: most are quotations, of bids and offers that overlap."""
    part, lot, kind = chance.randrange(parts), LOTS[sym], chance.randrange(64)
    if kind == 0 and not calm:
        return Change(kind=WITHDRAW, part=part)
    if 1 <= kind <= 10:
        return Change(kind=STATE, part=part, sym=sym, state=drawn_state(chance, calm))
    if 11 <= kind <= 14:
        shares = chance.choice([1, 10, 40, 100, lot + lot // 2, lot + lot // 2])
        return Change(kind=LOT, sym=sym, lot=min(shares, lot) if calm else shares)
    (bid, bid_shares), (offer, offer_shares) = drawn_side(chance, 100_000, lot, calm), drawn_side(chance, 100_001, lot, calm)
    return Change(bid, offer, bid_shares, offer_shares, sym, 0, part, QUOTE, drawn_state(chance, calm))


# What is judged.


def compare(opened, plain, sym):
    """Raises what the library shows otherwise than the model."""
    view = opened.view(sym)
    if view.version != plain.version:
        raise Wrong(f"version {view.version}, and not {plain.version}")
    for side in ("bid", "offer"):
        rows, due = getattr(view, side), plain.rows(sym, side)
        if rows_of(rows) != due or rows.total != sum(row[2] for row in due):
            raise Wrong(f"version {view.version}, symbol {sym}, {side}: {rows_of(rows)} of {rows.total}, and not {due}")
    return view.bid.count, view.offer.count


def ranks(path):
    """How many looks are as they must be."""
    chance, plain, most = random.Random(242_600), Plain(), 0
    with Opened(loaded(path), MOST_PARTS, len(LOTS)) as opened:
        for number in range(1, CHANGES + 1):
            sym = chance.randrange(len(LOTS))
            change = drawn(chance, MOST_PARTS, sym, number % 2_000 < 1_000)
            opened.apply(change)
            plain.apply(change)
            most = max(most, *compare(opened, plain, sym))
    if most != MOST_PARTS:
        raise Wrong(f"no side had {MOST_PARTS} rows, but at most {most}")
    return CHANGES


def shown(view):
    """What a view shows except its version and its receipts."""
    return [(bytes(it.price), bytes(it.size), bytes(it.part), bytes(it.is_protected), it.count, it.total) for it in (view.bid, view.offer)]


def opens(library, seed, count):
    """Whether a board after a number of its changes opens another one that shows the same."""
    chance = random.Random(seed)
    parts, syms, calm = chance.randrange(2, MOST_PARTS + 1), chance.randrange(1, len(LOTS) + 1), seed % 4 == 0
    with Opened(library, parts, syms) as board, Opened(library, parts, syms) as again:
        for _ in range(count):
            board.apply(drawn(chance, parts, chance.randrange(syms), calm))
        for sym in range(syms):
            for change in board.opening(sym):
                again.apply(change)
        same = all(shown(board.view(sym)) == shown(again.view(sym)) for sym in range(syms))
        for _ in range(LATER if same else 0):
            sym = chance.randrange(syms)
            change = drawn(chance, parts, sym, calm)
            board.apply(change)
            again.apply(change)
            same = same and shown(board.view(sym)) == shown(again.view(sym))
        return same


def opening(path, seed):
    """Raises a board that is shown otherwise once it is opened again."""
    library = loaded(path)
    if not opens(library, seed, seed % 240):
        least = next(count for count in range(241) if not opens(library, seed, count))
        raise Wrong(f"seed {seed}, after {least} changes: the board that takes the opening changes shows otherwise")


def openings(path, first):
    """The boards of a hundred seeds."""
    for seed in range(first, first + 100):
        opening(path, seed)
    return 100


def main(path):
    found = [Trial("rank order", ranks, (path,))]
    found += [Trial(f"opening changes, seeds {it} to {it + 99}", openings, (path, it)) for it in range(1, BOARDS, 100)]
    return run("ranks", found, processes=True)


if __name__ == "__main__":
    built = os.environ.get("NMS_OUT", f"{TOP}/crates/nms_c/out")
    sys.exit(main(os.path.realpath(sys.argv[1] if len(sys.argv) > 1 else f"{built}/libnms.so")))
