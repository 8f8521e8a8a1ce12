#!/usr/bin/env python3
"""Compares `nms_review import` with a plain converter written here, on random rows of vendors' quotes and trades.

    tests/import_judge.py PROGRAM [ROWS [SEED]]

ROWS is 100,000 if it is not given, shared by the layouts of LAYOUTS: those of examples/import/, and some of them with another
form of times or another word for rows of which one side alone is manual; layouts of which each row has one side; and the
layouts of trades TRADES. The rows stand in
two files, with a share of them wrong in each way that a row can be. The files that are written, and the counts, must be those
of the converter: also with --rows, with --refused, with --add-symbols, and with --shards for rows by symbol, some of which come
too late. Prints the seed, and at a difference the layout and the line. Ends with status 1 at a difference.
"""
import json
import os
import random
import re
import subprocess
import sys
import tempfile
import tomllib
from dataclasses import dataclass, field, replace
from datetime import date, datetime, timedelta, timezone
from zoneinfo import ZoneInfo

from drawn import clock

HERE = os.path.dirname(os.path.realpath(__file__))
MAPS = os.path.join(HERE, "../examples/import")
SETUP = os.path.join(HERE, "../examples/market.toml")
TAQ = ("Time|Exchange|Symbol|Bid_Price|Bid_Size|Offer_Price|Offer_Size|Quote_Condition|Sequence_Number|National_BBO_Ind|"
       "FINRA_BBO_Indicator|FINRA_ADF_MPID_Indicator|Quote_Cancel_Correction|Source_Of_Quote").split("|")
DATABENTO = ("ts_recv,ts_event,rtype,publisher_id,instrument_id,action,side,depth,price,size,flags,ts_in_delta,sequence,bid_px_00,"
             "ask_px_00,bid_sz_00,ask_sz_00,bid_ct_00,ask_ct_00,symbol").split(",")
STATES = {"A": "CR CO NR NY NO", "M": "CH CU CW C4 NF NH N4", "H": "CD CI CJ CK CM CP CS CV NI NX", "": "CC CL CN NL NN NU NZ", "half": "CA CB CE CF NA NB"}
STATE = {word: state for state, words in STATES.items() for word in words.split()}
LAST = "END|20240102|"


@dataclass
class Layout:
    """A layout: its mapping, with what is replaced in it, and what the converter has to know of it."""
    name: str
    mapping: str
    share: int
    names: list
    # The column of each thing that is read; fixed values are in `fixed`.
    columns: dict
    header: bool = True
    delimiter: str = "|"
    edits: list = field(default_factory=list)
    fixed: dict = field(default_factory=dict)
    form: str = "HHMMSSn"
    # The seconds that times are moved on, None if they are moved to New York's time, UNSAID if the mapping says no zone.
    zone: int | None = -1
    # Whether bits of the column `flags` say which rows are skipped, and which are no quotations that are read.
    bits: bool = False
    unit: str = "dollars"
    none: tuple = ("", "0", "0.00")
    # The shares of a unit of size, None if it is the setup's lot of each symbol.
    lot: int | None = 1
    names_of: dict = field(default_factory=dict)
    same: bool = True
    half: str = "refuse"
    # The day since 1970 on which most rows are, if dates are compared.
    day: int | None = None
    # Whether a refused row withdraws what its participant showed.
    withdraws: bool = True
    states: bool = True
    # The state of each condition, if it has others than TAQ.
    words: dict | None = None
    # The words for the bid, 0, and for the offer, 1, if each row has one side.
    sides: dict | None = None
    end: str = ""


TAQ_COLUMNS = {"time": 0, "participant": 1, "symbol": 2, "bid": 3, "bid_size": 4, "offer": 5, "offer_size": 6, "condition": 7, "skip": 12,
               "source": 13}


def taq(name, share, edits=(), **more):
    """The layout of NYSE Daily TAQ, with edits of its mapping."""
    return Layout(name, "taq.toml", share, TAQ, TAQ_COLUMNS, edits=list(edits), lot=None, names_of={"T": "Q"}, end="END", **more)


LAYOUTS = [
    taq("taq", 30),
    taq("taq, both sides manual", 8, [('half = "refuse"', 'half = "manual"')], half="manual"),
    taq("taq, both sides automated", 8, [('half = "refuse"', 'half = "automated"'), ('end = "END"', 'on_refused = "keep"\nend = "END"')],
        half="automated", withdraws=False),
    taq("taq, iso", 14, [('form = "HHMMSSn"', 'form = "iso"\nzone_offset = "+0530"')], form="iso", zone=19800),
    taq("taq, iso without a zone", 6, [('form = "HHMMSSn"', 'form = "iso"')], form="iso"),
    taq("taq, iso, New York", 12, [('form = "HHMMSSn"', 'form = "iso"\nzone = "America/New_York"')], form="iso", zone=None),
    taq("taq, with colons and asks", 6, [('form = "HHMMSSn"', 'form = "HH:MM:SS"'), ('offer = "Offer_Price"', 'ask = "Offer_Price"'),
        ('offer_size = "Offer_Size"', 'ask_size = "Offer_Size"')], form="HH:MM:SS"),
    taq("taq, microseconds", 6, [('form = "HHMMSSn"', 'form = "unix_us"\nzone_offset = "-0400"')], form="unix_us", zone=72000),
    taq("taq, milliseconds", 6, [('form = "HHMMSSn"', 'form = "unix_ms"\nzone_offset = "-0500"')], form="unix_ms", zone=68400),
    Layout("databento", "databento-mbp1.toml", 20, DATABENTO, {"time": 0, "participant": 3, "symbol": 19, "bid": 13, "bid_size": 15, "offer": 14,
           "offer_size": 16}, delimiter=",", edits=[('zone = "America/New_York"', 'zone_offset = "-0500"')], form="unix_ns", zone=68400, unit="1e-9",
           none=("", "9223372036854775807"),
           names_of={"2": "Q"}, same=False, states=False),
    Layout("databento, New York, by bits", "databento-mbp1.toml", 12, DATABENTO, {"time": 0, "participant": 3, "symbol": 19, "bid": 13, "bid_size": 15,
           "offer": 14, "offer_size": 16, "flags": 10}, edits=[('bid = "bid_px_00"', 'bid = "bid_px_00"\nskip = { column = "flags", bits = 128 }\ncondition = { column = 11, bits = 12 }'),
           ('[symbol]', '[skip]\nwords = ["0"]\n[state]\nautomated = ["0"]\n[symbol]')], delimiter=",", form="unix_ns", zone=None, unit="1e-9",
           none=("", "9223372036854775807"), names_of={"2": "Q"}, same=False, bits=True),
    Layout("lobster", "lobster.toml", 14, ["field"] * 10, {"time": 0, "bid": 8, "bid_size": 9, "offer": 6, "offer_size": 7}, header=False, delimiter=",",
           fixed={"participant": "Q", "symbol": "AAPL"}, form="seconds", unit="1e-4", none=("", "9999999999", "-9999999999"),
           same=True, states=False),
]


SIDE_NAMES = "time,venue,symbol,side,price,size,state".split(",")


def sides(name, share, half, edits=(), **more):
    """The layout of everyday quotes whose rows have one side each. What makes only one side manual is never refused, so that a row is
    refused for its own texts alone."""
    edits = [('half = "refuse"', f'half = "{half}"'), ('halted = ["halt"]', 'halted = ["halt"]\nnone = ["off"]'),
             ('[symbol]', '[symbol]\nunknown = "skip"'), *edits]
    return Layout(name, "plain-sides.toml", share, SIDE_NAMES, {"time": 0, "participant": 1, "symbol": 2, "side": 3, "price": 4, "size": 5, "condition": 6},
                  edits=edits, delimiter=",", form="iso", names_of={"NASDAQ": "Q", "NYSE": "N", "ARCA": "P"}, half=half,
                  words={"": "A", "slow": "M", "halt": "H", "off": ""}, sides={"B": 0, "bid": 0, "A": 1, "ask": 1}, **more)


LAYOUTS += [
    sides("sides, both manual", 12, "manual"),
    sides("sides, both automated", 8, "automated", [("quotes = true", 'quotes = true\non_refused = "keep"')], withdraws=False),
]


# The setup, and the round lot of each of its symbols.
with open(SETUP, "rb") as market:
    MARKET = tomllib.load(market)
LOTS = {it["name"]: it["lot"] for it in MARKET["symbol"]}


def roster():
    """The participants and the symbols of the setup, in order."""
    return [it["name"] for it in MARKET["participant"]], list(LOTS)


def price_of(layout, text):
    """A price in 1/10,000 dollar, None for none; ValueError if it is none of the unit."""
    if text in (*layout.none, "nan", "NaN"):
        return None
    forms = {"dollars": r"[0-9]{1,7}(\.[0-9]{1,4}0*)?", "1e-4": "[0-9]{1,11}", "1e-9": "[0-9]{1,19}"}
    if not re.fullmatch(forms[layout.unit], text):
        raise ValueError
    if layout.unit == "dollars":
        whole, _, after = text.partition(".")
        number = int(whole) * 10000 + int((after + "0000")[:4])
    elif layout.unit == "1e-4":
        number = int(text)
    else:
        number, rest = divmod(int(text), 100000)
        if rest:
            raise ValueError
    if number > 99999999999:
        raise ValueError
    return number or None


def whole_of(text):
    """A number of at most nine digits, with only zeros after a point; None if it is none."""
    found = re.fullmatch(r"([0-9]{1,9})(\.0+)?", text)
    return int(found[1]) if found else None


def side_of(layout, price, size, lot):
    """The two fields of a side, or the cause why there are none."""
    try:
        price = price_of(layout, price)
    except ValueError:
        return "bad price"
    whole = whole_of(size)
    if size in ("", "nan", "NaN"):
        shares = 0
    elif whole is not None and whole * lot <= 999999999:
        shares = whole * lot
    else:
        return "bad size"
    if shares == 0:
        return (",",)
    if price is None:
        return "shares without a price"
    return (f"{price // 10000}.{price % 10000:04},{shares}",)


def zoned(layout, nanos):
    """Nanoseconds since 1970, or after a midnight, as a time of day of 15 digits in the layout's zone; None if it has none."""
    if layout.zone is not None:
        return clock((nanos + max(0, layout.zone) * 10 ** 9) % (86400 * 10 ** 9))
    second, nano = divmod(nanos, 10 ** 9)
    if not COVERED[0] <= second < COVERED[1]:
        return None
    return datetime.fromtimestamp(second, NEW_YORK).strftime("%H%M%S") + f"{nano:09}"


UNSAID = -1
NEW_YORK = ZoneInfo("America/New_York")
# The seconds since 1970 whose time in New York is read: those of 2007 to 2099.
COVERED = [int(datetime(year, 1, 1, tzinfo=timezone.utc).timestamp()) for year in (2007, 2100)]


def midnight_of(text):
    """The nanoseconds from 1970 to a date's midnight of UTC; None if it is no date of those years. No month is too short."""
    found = re.fullmatch("([0-9]{4})-([0-9]{2})-([0-9]{2})", text)
    if not found or not (2007 <= int(found[1]) <= 2099 and 1 <= int(found[2]) <= 12 and 1 <= int(found[3]) <= 31):
        return None
    first = date(int(found[1]), int(found[2]), 1)
    return ((first - date(1970, 1, 1)).days + int(found[3]) - 1) * 86400 * 10 ** 9


# How many digits times since 1970 have at most, and the nanoseconds of one.
SINCE_1970 = {"unix_ns": (19, 1), "unix_us": (16, 1000), "unix_ms": (13, 1000000)}


def time_of(layout, text):
    """A time of 15 digits, or None."""
    if layout.form == "HHMMSSn":
        if not re.fullmatch("[0-9]{6,15}", text):
            return None
        text = text.ljust(15, "0")
        return text if int(text[:2]) < 24 and int(text[2:4]) < 60 and int(text[4:6]) < 60 else None
    if layout.form in SINCE_1970:
        most, unit = SINCE_1970[layout.form]
        return zoned(layout, int(text) * unit) if layout.zone != UNSAID and re.fullmatch("[0-9]{1,%d}" % most, text) else None
    if layout.form == "seconds":
        found = re.fullmatch(r"([0-9]{1,5})(?:\.([0-9]{1,9}))?", text)
        if not found or int(found[1]) >= 86400:
            return None
        return zoned(layout, int(found[1]) * 10 ** 9 + int((found[2] or "").ljust(9, "0")))
    day, zone = ("", "") if layout.form == "HH:MM:SS" else (".{10}[T ]", r"(?:Z|([+-])([0-9]{2}):?([0-9]{2}))?")
    found = re.fullmatch(day + r"([0-9]{2}):([0-9]{2}):([0-9]{2})(?:\.([0-9]{1,9}))?" + zone, text)
    if not found or int(found[1]) > 23 or int(found[2]) > 59 or int(found[3]) > 59:
        return None
    if zone and layout.zone == UNSAID and (found[5] or text.endswith("Z")):
        return None
    second = int(found[1]) * 3600 + int(found[2]) * 60 + int(found[3])
    if zone and found[5]:
        if int(found[6]) > 23 or int(found[7]) > 59:
            return None
        second -= int(found[5] + "1") * (int(found[6]) * 3600 + int(found[7]) * 60)
    midnight = midnight_of(text[:10]) if day else 0
    return None if midnight is None else zoned(layout, midnight + second * 10 ** 9 + int((found[4] or "").ljust(9, "0")))


def day_of(layout, text):
    """The date of a time that is read, in the layout's zone; None if it has none of the years 2007 to 2099."""
    if layout.form in SINCE_1970:
        second = int(text) * SINCE_1970[layout.form][1] // 10 ** 9
    else:
        midnight = midnight_of(text[:10]) if layout.form == "iso" else None
        if midnight is None:
            return None
        clock, sign, offset = re.fullmatch(r".{11}(.{8})[0-9.]*(?:Z|([+-])(.+))?", text).groups()
        hours, minutes = (offset[:2], offset[-2:]) if sign else (0, 0)
        local = sum(int(part) * unit for part, unit in zip(clock.split(":"), (3600, 60, 1)))
        second = midnight // 10 ** 9 + local - (1 if sign == "+" else -1) * (int(hours) * 3600 + int(minutes) * 60)
    if layout.zone is None:
        return datetime.fromtimestamp(second, NEW_YORK).date()
    return (second + (0 if layout.zone == UNSAID else layout.zone)) // 86400


def has_bits(text, bits):
    """Whether a number has any of some bits, as `1` or `0`; another text as it is."""
    return str(int(int(text) & bits != 0)) if re.fullmatch("[0-9]{1,9}", text) else text


def state_of(layout, it):
    """The state, empty for no quotation, and whether only one side is manual; or the cause why there is none."""
    if layout.bits:
        return ("A", False) if has_bits(it["flags"], 12) == "0" else "unknown condition"
    if not layout.states:
        return "A", False
    state = layout.words.get(it["condition"]) if layout.words else STATE.get(it["source"] + it["condition"])
    if state is None:
        return "unknown condition"
    if state != "half":
        return state, False
    return "one side manual" if layout.half == "refuse" else (layout.half[0].upper(), True)


def names_in(layout, it, parts, syms):
    """The participant and the symbol of a row on the roster, None for one that is not."""
    part = layout.names_of.get(it["participant"], it["participant"] if layout.same else None)
    sym = it["symbol"].replace(" ", ".")
    return part if part in parts else None, sym if sym in syms else None


def withdrawal(layout, row, parts, syms, last):
    """What a refused row leaves, as `outcome` answers it: its participant shows nothing of its symbol. None if it leaves nothing."""
    it = {**layout.fixed, **{what: row[place] if place < len(row) else "" for what, place in layout.columns.items()}}
    part, sym = names_in(layout, it, parts, syms)
    if not layout.withdraws or part is None or sym is None:
        return None
    return (f"Q,{part},{sym},A,,,,", time_of(layout, it["time"]) or last, sym, False)


def one_side(layout, it, part, sym, state, lot, shown):
    """The record of a row of one side, and whether only one side is manual; or the cause why it makes none. `shown` has both sides of
    each participant and symbol, each with its state. A halt is of both; after it a side is shown again from its own next row on."""
    side = layout.sides.get(it["side"])
    if side is None:
        return "unknown side"
    own = side_of(layout, it["price"], it["size"], lot) if state else (",",)
    if isinstance(own, str):
        return own
    state = state or "A"
    other = shown.get((part, sym), (None, None))[1 - side]
    if other and state == "H":
        other = (other[0], "H")
    elif other and other[1] == "H":
        other = None
    both = [None, None]
    both[side], both[1 - side] = (own[0], state) if own[0] != "," else None, other
    shown[part, sym] = tuple(both)
    states = {it[1] for it in both if it} or {state}
    half = len(states) == 2
    return f"Q,{part},{sym},{layout.half[0].upper() if half else states.pop()},{','.join(it[0] if it else ',' for it in both)}", half


def outcome(layout, row, parts, syms, shown=None):
    """(record, time, symbol, only one side is manual) of a row, or the cause why it makes none. `shown` is what rows of one side showed."""
    if layout.end and row[0] == layout.end:
        return "last line of a file"
    if len(row) <= max(layout.columns.values()):
        return "too few columns"
    it = {**layout.fixed, **{what: row[place] for what, place in layout.columns.items()}}
    if it.get("skip") == "B" or layout.bits and has_bits(it["flags"], 128) == "0":
        return "word to skip"
    time = time_of(layout, it["time"])
    if time is None:
        return "bad time"
    part, sym = names_in(layout, it, parts, syms)
    if part is None:
        return "unknown participant"
    if sym is None:
        return "other symbol"
    state = state_of(layout, it)
    if isinstance(state, str):
        return state
    lot = layout.lot or LOTS.get(sym, 100)
    if layout.sides:
        made = one_side(layout, it, part, sym, state[0], lot, {} if shown is None else shown)
        return made if isinstance(made, str) else (made[0], time, sym, made[1])
    if state[0] == "":
        return (f"Q,{part},{sym},A,,,,", time, sym, False)
    bid = side_of(layout, it["bid"], it["bid_size"], lot)
    if isinstance(bid, str):
        return bid
    offer = side_of(layout, it["offer"], it["offer_size"], lot)
    if isinstance(offer, str):
        return offer
    return (f"Q,{part},{sym},{state[0]},{bid[0]},{offer[0]}", time, sym, state[1])


def random_time(layout, dice):
    """A time of the layout's form, and wrong ones."""
    second, nano = dice.randrange(86400), f"{dice.randrange(10 ** 9):09}"
    parts = f"{second // 3600:02}", f"{second // 60 % 60:02}", f"{second % 60:02}"
    if layout.form == "HHMMSSn":
        return "".join(parts) + nano[:dice.choice([9, 9, 9, 0, 3, 6])], \
            ["", "12345", "240000000000000", "126000000", "120060", "1200001234567890", "12:00:00", "09300a000"]
    if layout.form in SINCE_1970:
        digits = SINCE_1970[layout.form][0]
        return f"{random_day(layout, dice) * 86400 + second}{nano[:digits - 10]}", \
            ["", "0", "9" * digits, "1" + "0" * digits, "18446744073709551615", "-1", "1.5", "2024-01-02"]
    point = dice.choice(["", "." + nano[:dice.randrange(1, 10)]])
    if layout.form == "seconds":
        return f"{second}{point}", ["", "86400", "86399.999999999", "86400.000000000", "1.", ".5", "1.0000000000", "100000", "000001", "-1", "1.5.5"]
    if layout.form == "HH:MM:SS":
        return f"{':'.join(parts)}{point}", \
            ["", "9:30:00", "24:00:00", "12:60:00", "12:00:60", "12:00", "12:00:00.", "12:00:00.1234567890", "12:00:00Z", "12:00:00 ", "12-00-00",
             "120000", "2024-01-02 12:00:00", "12:00:00-05:00", "23:59:59.999999999"]
    day = f"{date(1970, 1, 1) + timedelta(random_day(layout, dice))}{dice.choice('T ')}"
    zone = dice.choice(["", "Z", "+00:00", "-05:00", "-0500", "+05:30", "-23:59", "+2359"])
    if layout.zone == UNSAID and dice.randrange(4):
        zone = ""
    return f"{day}{':'.join(parts)}{point}{zone}", \
        ["", day + "24:00:00", day + "12:60:00", day + "12:00:60Z", day + "12:00", day + "12:00:00.", day + "12:00:00.Z", day + "1a:00:00",
         day + "12:00:00.1234567890", day + "12:00:00ZZ", day + "12:00:00+24:00", day + "12:00:00-00:60", day + "12:00:00+00", day + "12:00:00+00:0",
         day + "12:00:00+000000", day + "12:00:00-05-00",
         day + "12:00:00.+00:00", day + "12:00:00.5-00:00Z", day + "12:00:00 -05:00", day + "12-00:00",
         day + "12:00-00", "2024-01-02_12:00:00", day + "23:59:59.999999999Z",
         *(it + " 12:00:00.5-05:00" for it in ("2024-13-01", "2024-00-10", "2024-02-31", "2024-04-31", "2024-05-00", "2024-05-32", "2006-12-31", "2100-01-01",
                                               "2024/05/01", "05/01/2024", "2024-05/01", "20240-1-01", "2024-1-011", "+024-01-01", "          ")),
         "2007-01-01 00:00:00+00:01", "2007-01-01 00:00:00Z", "2099-12-31 23:59:59.9-00:01", "2099-12-31 23:59:59.9-00:00"]


def random_day(layout, dice):
    """A day since 1970: mostly that of the layout, if it has one, or the next. Of dates, and for New York, mostly one of those that are
    read, and often one near a change of the clock."""
    if layout.day is not None and dice.randrange(50):
        return layout.day + dice.randrange(2)
    if (layout.form != "iso" and layout.zone is not None) or dice.randrange(20) == 0:
        return dice.randrange(20000)
    if dice.randrange(2):
        return COVERED[0] // 86400 + dice.randrange((COVERED[1] - COVERED[0]) // 86400)
    month, first = dice.choice([(3, 8), (11, 1)])
    day = date(dice.randrange(2007, 2100), month, first)
    return (day - date(1970, 1, 1)).days + (6 - day.weekday()) % 7


def random_price(layout, dice, number):
    """A price of the layout's unit."""
    if layout.unit == "1e-4":
        return str(number)
    if layout.unit == "1e-9":
        return str(number * 100000)
    text = f"{number // 10000}.{number % 10000:04}"
    return dice.choice([text, text.rstrip("0").rstrip("."), text, text + "00", text + "0" * 30])


def random_row(layout, dice, parts, syms):
    """A row, now and then a wrong one."""
    def maybe(right, wrong, one_in=60):
        return dice.choice(wrong) if dice.randrange(one_in) == 0 else right
    middle = dice.randrange(1, 4000000)
    lots = [1, 2, 5, 40] if layout.lot is None else [1, 100, 250, 4000]
    it = {
        "time": maybe(*random_time(layout, dice)),
        "participant": maybe(dice.choice(parts + ["T"]) if layout.same else "2", ["", "?", "W", "QQ", "Q", "39"]),
        "symbol": maybe(dice.choice(syms).replace(".", " " if layout.lot is None else "."), ["", "MSFT", "ZVZZT", "BRK B PR", "ABCDEFGHI", "aapl"], 20),
        "bid": maybe(random_price(layout, dice, middle), ["", "0", "0.00", "0.0000", "1.23456", "12345678", "-1", "1e3", ".5", "1.", *layout.none,
                                                          "9999900001", "9999999999999900000", "10000000000000000", "123456789012"]),
        "bid_size": maybe(str(dice.choice([0, *lots])), ["", "00", "1234567890", "9999999", "10000000", "1.0", " 1", "300.00", "1.", "1.01", ".0", "nan", "NaN", "nan.0"]),
        "offer": maybe(random_price(layout, dice, middle + dice.randrange(1, 500)), ["", "0", "9999999.9999", "10.00005", "10.000050", "10.0000000",
                                                                                    "1.2345000001", "nan", "NaN", "NAN", "x", *layout.none]),
        "offer_size": maybe(str(dice.choice([0, *lots])), ["", "10000000", "-1"]),
        "condition": maybe("R", list("OWHDICLNAEFYZBU4X") + [""], 8) if layout.words is None else maybe("", ["slow", "slow", "halt", "off", "R"], 4),
        "side": maybe(dice.choice(list(layout.sides or "B")), ["", "b", "BA", "bid "]),
        "source": maybe(dice.choice("CN"), ["", "X"], 200),
        "skip": maybe("", ["A", "B", "C"], 50),
        "flags": maybe(str(128 | dice.choice([0, 2, 64, 66])), ["", "0", "127", "136", "132", "4", "-1", "1.0", "x", "0000000128", "000000128", "999999999", "65535"], 10),
    }
    which = dice.choice(("bid", "offer"))
    it |= {"price": it[which], "size": it[f"{which}_size"]}
    fields = [""] * len(layout.names)
    for what, place in layout.columns.items():
        fields[place] = it[what]
    fields += dice.choice([[], [], ["more"]])
    if dice.randrange(300) == 0:
        fields = fields[:dice.randrange(1, len(fields))]
        # One empty field is a blank line, which is no row.
        if fields == [""]:
            fields = ["x"]
    return fields


def files_of(layout, dice, rows, room):
    """The rows in two files, and the rows of both with their last lines."""
    half = len(rows) // 2
    parts = [part + ([f"{LAST}{len(part)}".split("|")] if layout.end else []) for part in (rows[:half], rows[half:])]
    paths = [os.path.join(room, name) for name in ("one.txt", "two.txt")]
    for path, part in zip(paths, parts):
        end = dice.choice(["\n", "\r\n"])
        with open(path, "w", encoding="utf-8", newline="") as file:
            file.write(end.join(layout.delimiter.join(row) for row in ([layout.names] if layout.header else []) + part) + end)
    return paths, parts[0] + parts[1]


def wanted_of(layout, rows, parts, syms, numbers):
    """What the converter writes, by the end of the file's name."""
    changes, times, counts, spans, halves, withdrawn, time, shown = [], [], {}, {}, 0, 0, NO_TIME, {}
    for number, row in enumerate(rows, 1):
        made_of = outcome(layout, row, parts, syms, shown)
        if isinstance(made_of, str):
            counts[made_of] = counts.get(made_of, 0) + 1
            made_of = None if made_of in SKIPS else withdrawal(layout, row, parts, syms, time)
            if made_of is None:
                continue
            withdrawn += 1
            shown.pop(tuple(made_of[0].split(",")[1:3]), None)
        record, time, sym, half = made_of
        changes.append(record)
        times.append(f"{time},{number:015}" if numbers else time)
        halves += half
        spans[sym] = (spans.get(sym, (len(changes),))[0], len(changes))
    return {"changes": changes, "times": times, "counts": counted(layout, counts, halves, withdrawn, len(rows), len(changes) - withdrawn),
            "symbols": [f"{sym},{spans[sym][0]},{spans[sym][1]}" for sym in syms if sym in spans]}


NO_TIME = "0" * 15
SKIPS = ("last line of a file", "word to skip", "other symbol")
CAUSES = ("too few columns", "bad time", "unknown participant", "unknown symbol", "unknown condition", "one side manual", "unknown side",
          "bad price", "bad size", "shares without a price", "symbol after its end", *SKIPS)


def opening_of(sides, states, symbol):
    """The opening changes of a symbol: (participant, side): (content, receipt), and each participant's state."""
    events = sorted({(receipt, part) for (part, _), (content, receipt) in sides.items() if content != ","})
    def until(part, side, last):
        content, receipt = sides.get((part, side), (",", 0))
        return content if receipt <= last else ","
    return [f"Q,{part},{symbol},{states[part]},{until(part, 0, last)},{until(part, 1, last)}" for last, part in events]


def cut_of(layout, rows, parts, limit, numbers):
    """The shards of rows, each by the ends of its files' names, and the counts."""
    def stamp(time, number):
        return f"{time},{number:015}" if numbers else time
    def shard():
        return {"changes": [], "times": [], "symbols": [], "opened": 0}
    shards, counts, begun, now, halves, changes, withdrawn, last, shown = [shard()], {}, set(), None, 0, 0, 0, (NO_TIME, 0), {}
    for number, row in enumerate(rows, 1):
        place = layout.columns["symbol"]
        name = (row[place] if place < len(row) else "").replace(" ", ".")
        own = {name} if re.fullmatch("[A-Z0-9.]{1,8}", name) else set()
        made_of, ended = outcome(layout, row, parts, own, shown), name != now and name in begun
        if not isinstance(made_of, str) and ended:
            made_of = "symbol after its end"
        refused = isinstance(made_of, str)
        if refused:
            counts[made_of] = counts.get(made_of, 0) + 1
            made_of = None if made_of in SKIPS or ended else withdrawal(layout, row, parts, own, last[0])
            if made_of is None:
                continue
            withdrawn += 1
            shown.pop(tuple(made_of[0].split(",")[1:3]), None)
        record, time, _, half = made_of
        it = shards[-1]
        if name != now:
            if len(it["symbols"]) == 1000 or len(it["changes"]) >= limit // 2:
                shards.append(shard())
            it = shards[-1]
            it["symbols"].append([name, len(it["changes"]) + 1, 0, "", ""])
            now, sides, states, applied = name, {}, {}, 0
            begun.add(name)
        elif len(it["changes"]) == limit:
            it["symbols"][-1][4] = time
            it = shard()
            it["changes"] = opening_of(sides, states, name)
            it["opened"] = len(it["changes"])
            it["times"] = [stamp(*last)] * it["opened"]
            it["symbols"] = [[name, 1, 0, time, ""]]
            shards.append(it)
        it["changes"].append(record)
        it["times"].append(stamp(time, number))
        it["symbols"][-1][2] = len(it["changes"])
        applied, last, halves, changes = applied + 1, (time, number), halves + half, changes + (not refused)
        fields = record.split(",")
        states[fields[1]] = fields[3]
        for side, content in enumerate((",".join(fields[4:6]), ",".join(fields[6:8]))):
            if sides.get((fields[1], side), (",", 0))[0] != content:
                sides[fields[1], side] = (content, applied)
    opened = sum(it["opened"] for it in shards)
    said = [f"{len(shards)} shard{'s' * (len(shards) != 1)}, {opened} opening changes"]
    return shards, said + counted(layout, counts, halves, withdrawn, len(rows), changes)


def counted(layout, counts, halves, withdrawn, rows, changes):
    """The lines of the counts."""
    said = [f"{counts[why]} {'skipped' if why in SKIPS else 'refused'}: {why}" for why in CAUSES if why in counts]
    if halves:
        said.append(f"{halves} changes: one side manual, both made {layout.half}")
    skipped = sum(counts.get(why, 0) for why in SKIPS)
    refused = sum(counts.values()) - skipped
    if withdrawn:
        said.append(f"{withdrawn} of the refused: the venue shows nothing until its next row that is read")
    if refused > withdrawn:
        said.append(f"{refused - withdrawn} of the refused: " + ("venue or symbol not known, so an earlier quotation may still be shown"
                    if layout.withdraws else "an earlier quotation is still shown"))
    return said + [f"{rows} rows = {changes} changes + {refused} refused + {skipped} skipped"]


def setup_of(text, symbols, opened):
    """What the setup of a shard says: the lent one, with other symbols."""
    lent = tomllib.loads(text)
    lots = {it["name"]: it["lot"] for it in lent["symbol"]}
    return {"caps": 2005, "feeds": 2, **lent, "symbol": [{"name": it, "lot": lots.get(it, 100)} for it in symbols]}, [f"# opening changes: {opened}"]


def judge_shards(program, layout, dice, rows, limit, symbols, numbers):
    """The same with --shards, a tape of few changes and a number of symbols."""
    parts, _ = roster()
    names = sorted({"".join(dice.choice("ABCDEFGH.") for _ in range(dice.randrange(1, 9))) for _ in range(symbols)} | {"BRK.B", "ABC"})
    made = sorted((random_row(layout, dice, parts, names) for _ in range(rows)), key=lambda row: row[2:3])
    for _ in range(3):
        made.insert(dice.randrange(len(made)), made.pop(dice.randrange(len(made))))
    name = f"{layout.name}, shards of {limit}"
    with tempfile.TemporaryDirectory() as room, open(SETUP, encoding="utf-8") as file:
        text = re.sub("(?m)^tape_limit = .*", f"tape_limit = {limit}", file.read())
        setup = os.path.join(room, "setup.toml")
        with open(setup, "w", encoding="utf-8") as file:
            file.write(text)
        paths, given = files_of(layout, dice, made, room)
        out = os.path.join(room, "out")
        words = [program, "import", mapping_in(layout, room), *paths, "--out", out, "--shards", "--setup", setup, *["--rows"] * numbers]
        ran = subprocess.run(words, capture_output=True, check=False)
        shards, counts = cut_of(layout, given, parts, limit, numbers)
        if differs(f"{name}: counts", counts, ran.stdout.decode().splitlines(), ran):
            return False
        for place, it in enumerate(shards, 1):
            names = [it[0] for it in it["symbols"]]
            it["symbols"] = [f"{symbol}{word and f' {word} {cut}'},{first},{last}" for symbol, first, last, *cuts in it["symbols"]
                             for word, cut in (("", ""), ("from", cuts[0]), ("until", cuts[1])) if cut or not word]
            for end in ("changes", "times", "symbols"):
                if differs(f"{name}: {place}.{end}", it[end], lines_of(f"{out}.{place}.{end}"), ran):
                    return False
            own = lines_of(f"{out}.{place}.toml")
            wanted = setup_of(text, names, it["opened"])
            if (tomllib.loads("\n".join(own)), own[:1]) != wanted:
                print(f"{name}: {place}.toml: wanted {wanted}, got {own}"[:2000])
                return False
        if os.path.exists(f"{out}.{len(shards) + 1}.changes"):
            print(f"{name}: a shard too many")
            return False
    print(f"{name}: equal: {counts[0]}; {counts[-1]}; status {ran.returncode}")
    return True


def lines_of(path):
    """The lines of a file, or that there is none."""
    try:
        with open(path, encoding="utf-8") as file:
            return file.read().splitlines()
    except OSError:
        return ["no file"]


def differs(name, wanted, got, ran):
    """Tells the first line that is another one."""
    if wanted == got:
        return False
    at = next((i for i, pair in enumerate(zip(wanted, got)) if pair[0] != pair[1]), min(len(wanted), len(got)))
    print(f"{name}: line {at + 1}: wanted {wanted[at:at + 1]}, got {got[at:at + 1]}")
    print(ran.stderr.decode()[-2000:])
    return True


def refused_in(layout, paths, told):
    """The file and the line of each row that is refused, for `told` says of a row the cause why it makes nothing."""
    refused = []
    for path in paths:
        with open(path, encoding="utf-8") as file:
            for line, text in enumerate(file.read().splitlines(), 1):
                why = None if layout.header and line == 1 else told(text.split(layout.delimiter))
                if isinstance(why, str) and why not in (*SKIPS, "no trade"):
                    refused.append((path, line))
    return refused


def shown_in(layout, path):
    """The file and the line of each row that `--refused` wrote, whose text must stand in its column."""
    shown = []
    for line in lines_of(path):
        it = json.loads(line)
        if it["what"] == "refused":
            shown.append((it["file"], it["line"]))
            with open(it["file"], encoding="utf-8") as file:
                row = file.read().splitlines()[it["line"] - 1].split(layout.delimiter)
            text = row[it["column"] - 1] if it["column"] else ""
            # A text that is not plain is shown by escapes.
            if it["text"] != text and re.fullmatch("[ -~]*", text):
                shown.append((it["file"], it["line"], it["text"], text))
    return shown


def judge_refused(program, layout, dice, rows):
    """Runs the program with --refused. Returns whether the file has every row that is refused, and standard error none."""
    parts, syms = roster()
    is_trade = "shares" in layout.columns
    made = [(random_trade if is_trade else random_row)(layout, dice, parts, syms) for _ in range(rows)]
    told = (lambda row: trade_outcome(layout, 1, row, parts, syms)) if is_trade else lambda row: outcome(layout, row, parts, syms)
    with tempfile.TemporaryDirectory() as room:
        paths, _ = files_of(layout, dice, made, room)
        file = os.path.join(room, "refused.json")
        ran, _ = run_import(program, layout, paths, room, (), ["--refused", file])
        wanted, shown = refused_in(layout, paths, told), shown_in(layout, file)
    if differs(f"{layout.name}: --refused", wanted, shown, ran) or b": refused: " in ran.stderr:
        return False
    print(f"{layout.name}: --refused: equal: {len(shown)} rows; status {ran.returncode}")
    return True


def judge_added(program, layout, dice, rows):
    """Runs the program with --add-symbols. Returns whether it wrote what the converter writes under the
    setup with all symbols, and that setup."""
    parts, _ = roster()
    names = sorted({"".join(dice.choice("ABCDEFGH.") for _ in range(dice.randrange(1, 9))) for _ in range(60)} | {"ABC", "BRK.B"})
    made = [random_row(layout, dice, parts, names) for _ in range(rows)]
    with tempfile.TemporaryDirectory() as room:
        paths, given = files_of(layout, dice, made, room)
        ran, got = run_import(program, layout, paths, room, ("changes", "times", "symbols", "toml"), ["--add-symbols"])
        symbols = list(LOTS)
        for row in given:
            it = outcome(layout, row, parts, symbols)
            place = layout.columns["symbol"]
            name = (row[place] if place < len(row) else "").replace(" ", ".")
            if it == "other symbol" and re.fullmatch("[A-Z0-9.]{1,8}", name):
                symbols.append(name)
        wanted = wanted_of(layout, given, parts, symbols, False)
        added = tomllib.loads("\n".join(got.pop("toml")))
    if [(it["name"], it["lot"]) for it in added["symbol"]] != [(it, LOTS.get(it, 100)) for it in symbols]:
        print(f"{layout.name}: --add-symbols: wanted {symbols}, got {added['symbol']}"[:2000])
        return False
    return are_same(layout, wanted, got, ran)


def judge(program, layout, dice, rows, numbers=False):
    """Runs the program on random rows of a layout. Returns whether it wrote what the converter writes."""
    parts, syms = roster()
    made = [random_row(layout, dice, parts, syms) for _ in range(rows)]
    with tempfile.TemporaryDirectory() as room:
        paths, given = files_of(layout, dice, made, room)
        ran, got = run_import(program, layout, paths, room, ("changes", "times", "symbols"), ["--rows"] * numbers)
    return are_same(layout, wanted_of(layout, given, parts, syms, numbers), got, ran)


# ---- trades

TRADE_NAMES = ("Time|Exchange|Symbol|Sale Condition|Trade Volume|Trade Price|Trade Stop Stock Indicator|Trade Correction Indicator|Sequence Number|"
               "Trade Id|Source of Trade|Trade Reporting Facility|Participant Timestamp|Trade Reporting Facility TRF Timestamp|"
               "Trade Through Exempt Indicator").split("|")
TRADE_COLUMNS = {"time": 0, "participant": 1, "symbol": 2, "condition": 3, "shares": 4, "price": 5, "skip": 7, "id": 9, "exempt": 14}
# The letters of the flags, in the order in which they are written, and those that are reasons for an exemption.
FLAGS = {"C": "CNR", "O": "O56", "I": "F", "J": "", "K": "4BW", "P": "1", "Q": "7", "E": "", "T": "TU", "Z": "GLPUZ"}
REASONS = "COIJKPQ"
NOTHING, NO_TRADE = "@ ADEHIKSVXY8", "MQ9"
TRADE_CAUSES = ("too few columns", "bad name", "bad time", "unknown participant", "unknown symbol", "bad price", "bad shares", "unknown side",
                "unknown condition", "unknown mark", "unknown word", "another day", "last line of a file", "word to skip", "no trade",
                "other symbol")
TRADES = [
    Layout("trades", "taq-trades.toml", 40, TRADE_NAMES, TRADE_COLUMNS, none=(), names_of={"T": "Q", "D": ""}, end="END"),
    Layout("trades by row, in 1e-9 dollar, with sides", "taq-trades.toml", 30, TRADE_NAMES,
           {**{what: place for what, place in TRADE_COLUMNS.items() if what not in ("id", "exempt")}, "side": 6},
           edits=[('id = "Trade Id"', 'side = "Trade Stop Stock Indicator"'), ('exempt = "Trade Through Exempt Indicator"\n', ""),
                  ('unit = "dollars"', 'unit = "1e-9"'), ('unknown = "skip"', 'unknown = "refuse"\n[side]\nbought = ["B"]\nsold = ["A"]\nneither = ["N"]')],
           unit="1e-9", none=(), names_of={"T": "Q", "D": ""}, end="END", half="refuse"),
    Layout("trades in 1e-4 dollar, iso", "taq-trades.toml", 30, TRADE_NAMES, TRADE_COLUMNS,
           edits=[('unit = "dollars"', 'unit = "1e-4"'), ('form = "HHMMSSn"', 'form = "iso"\nzone_offset = "-0400"'), ('"*" = "same" ', '#')],
           unit="1e-4", none=(), names_of={"T": "Q", "D": ""}, same=False, form="iso", zone=72000, end="END"),
    Layout("trades, milliseconds, New York", "taq-trades.toml", 15, TRADE_NAMES, TRADE_COLUMNS,
           edits=[('form = "HHMMSSn"', 'form = "unix_ms"\nzone = "America/New_York"')],
           none=(), names_of={"T": "Q", "D": ""}, form="unix_ms", zone=None, end="END"),
]


def millionths_of(layout, text):
    """A price in 1/1,000,000 dollar, None if it is none of the unit."""
    forms = {"dollars": r"[0-9]{1,7}(\.[0-9]{1,6}0*)?", "1e-4": "[0-9]{1,11}", "1e-9": "[0-9]{1,19}"}
    if not re.fullmatch(forms[layout.unit], text):
        return None
    if layout.unit == "dollars":
        whole, _, after = text.partition(".")
        number, rest = int(whole) * 1000000 + int(after.ljust(6, "0")[:6]), 0
    elif layout.unit == "1e-4":
        number, rest = int(text) * 100, 0
    else:
        number, rest = divmod(int(text), 1000)
    return None if rest or not 0 < number <= 9999999999999 else number


def flags_of(condition, marked):
    """The flags that the letters of a condition claim, and E for a mark that no letter explains."""
    claimed = [flag for flag, letters in FLAGS.items() if set(letters) & set(condition)]
    if marked and not set(claimed) & set(REASONS):
        claimed = [flag for flag in FLAGS if flag in claimed or flag == "E"]
    return "+".join(claimed)


def trade_outcome(layout, number, row, parts, syms):
    """The record of a row that has a number, in a list, or the cause why it makes none."""
    if row[0] == layout.end:
        return "last line of a file"
    if len(row) <= max(layout.columns.values()):
        return "too few columns"
    it = {"id": str(number), "side": "", "exempt": "", **{what: row[place] for what, place in layout.columns.items()}}
    if it["skip"] in ("07", "08", "10", "11", "12"):
        return "word to skip"
    if it["skip"] not in ("00", "01"):
        return "unknown word"
    if set(it["condition"]) & set(NO_TRADE):
        return "no trade"
    if not re.fullmatch("[A-Za-z0-9._-]{1,32}", it["id"]):
        return "bad name"
    time = time_of(layout, it["time"])
    if time is None:
        return "bad time"
    part = layout.names_of.get(it["participant"], it["participant"] if layout.same else None)
    if part is None or part and part not in parts:
        return "unknown participant"
    sym = it["symbol"].replace(" ", ".")
    if sym not in syms:
        return "unknown symbol" if "side" in layout.columns else "other symbol"
    price = millionths_of(layout, it["price"])
    if price is None:
        return "bad price"
    shares = whole_of(it["shares"])
    if not shares:
        return "bad shares"
    if it["side"] not in ("", "N", "B", "A"):
        return "unknown side"
    if set(it["condition"]) - set(NOTHING + "".join(FLAGS.values())):
        return "unknown condition"
    if it["exempt"] not in ("", "0", " ", "1", "X"):
        return "unknown mark"
    side, flags = {"B": "B", "A": "S"}.get(it["side"], ""), flags_of(it["condition"], it["exempt"] in ("1", "X"))
    return [f"D,{it['id']},{sym},{price // 1000000}.{price % 1000000:06},{shares},{side},@{time},{part},{flags}"]


def random_trade(layout, dice, parts, syms):
    """A row of a trade, now and then a wrong one."""
    def maybe(right, wrong, one_in=60):
        return dice.choice(wrong) if dice.randrange(one_in) == 0 else right
    millionths, digits = dice.randrange(1, 400000000), dice.randrange(7)
    text = f"{millionths // 1000000}.{millionths % 1000000:06}"
    right = {"dollars": text[:len(text) - 6 + digits].rstrip("."), "1e-4": str(millionths // 100), "1e-9": str(millionths * 1000)}[layout.unit]
    condition = "".join(dice.choice(it) for it in ("@@@CNR", " F4O567", "  TULZ", " IXWV19B"))
    it = {
        "id": maybe(str(dice.randrange(1, 10 ** dice.choice([1, 5, 20]))), ["", "a" * 32, "a" * 33, "1 2", "a,b", "A.b-c_9", "\u00e9"]),
        "time": maybe(*random_time(layout, dice)),
        "participant": maybe(dice.choice([*parts, "T", "D"]) if layout.same else dice.choice("TD"), ["", "?", "W", "QQ", "N"]),
        "symbol": maybe(dice.choice(syms).replace(".", " "), ["", "MSFT", "ZVZZT", "BRK B PR", "ABCDEFGHI", "aapl"], 20),
        "price": maybe(right, ["", "0", "0.0", "0.000000", "0.000001", "1.1234567", "1.1234560", "1.12345600000001", "12345678",
                               "9999999.999999", "-1", ".5", "1.", "1e3", "99999999999",
                               "100000000000", "9999999999999000", "10000000000000000", "9999999999999999999", "10000000000000000000", "1001", "1000"], 20),
        "shares": maybe(str(dice.choice([1, 7, 100, 25000, 999999999])), ["", "0", "00", "007", "1000000000", "1.0", "-1", "100.000", "1.5", "0.0", "nan"]),
        "side": maybe(dice.choice(["A", "B", "N", ""]), ["S", "BB", "a"]),
        "condition": maybe(condition, ["", "?", "@?", "F", "@F 4", "FTZ", "    ", "2", "\u00e9"], 20),
        "exempt": maybe(dice.choice("01X "), ["", "2", "Y", "11"], 40),
        "skip": maybe("00", ["01", "07", "08", "10", "11", "12", "02", "13", ""], 30),
    }
    fields = [""] * len(layout.names)
    for what, place in layout.columns.items():
        fields[place] = it[what]
    if dice.randrange(300) == 0:
        fields = fields[:dice.randrange(2, len(fields))]
    return fields


def judge_trades(program, layout, dice, rows):
    """Runs the program on random trades of a layout. Returns whether it wrote what the converter writes, and `trades` reads it."""
    parts, syms = roster()
    layout, first = replace(layout, day=dice.randrange(COVERED[0], COVERED[1]) // 86400), None
    made = [random_trade(layout, dice, parts, syms) for _ in range(rows)]
    records, counts = [], {}
    with tempfile.TemporaryDirectory() as room:
        paths, given = files_of(layout, dice, made, room)
        ran, got = run_import(program, layout, paths, room, ("executions",))
        for number, row in enumerate(given, 1):
            it = trade_outcome(layout, number, row, parts, syms)
            day = None if isinstance(it, str) else day_of(layout, row[layout.columns["time"]])
            first = day if first is None else first
            it = "another day" if None not in (day, first) and day != first else it
            if isinstance(it, str):
                counts[it] = counts.get(it, 0) + 1
            else:
                records += it
        read = read_back(program, room, got["executions"])
    skips = TRADE_CAUSES[-4:]
    said = [f"{counts[why]} {'skipped' if why in skips else 'refused'}: {why}" for why in TRADE_CAUSES if why in counts]
    skipped = sum(counts.get(why, 0) for why in skips)
    said.append(f"{len(given)} rows = {len(records)} executions + {sum(counts.values()) - skipped} refused + {skipped} skipped")
    unquoted = [f"NOQUOTE,{record.split(',')[1]},0" for record in records]
    return are_same(layout, {"executions": records, "read": unquoted, "counts": said}, {**got, "read": read}, ran)


def read_back(program, room, records):
    """What `trades` says of the records on the version of no change, which replaces their times."""
    paths = [os.path.join(room, name) for name in ("no.changes", "read.executions")]
    for path, text in zip(paths, ("", "".join(re.sub(",@[0-9]{15},", ",0,", record) + "\n" for record in records))):
        with open(path, "w", encoding="utf-8") as file:
            file.write(text)
    ran = subprocess.run([program, "trades", *paths, "--setup", SETUP], capture_output=True, check=False)
    return ran.stdout.decode().splitlines()


def mapping_in(layout, room):
    """A layout's mapping with its edits, in a file of a folder."""
    with open(os.path.join(MAPS, layout.mapping), encoding="utf-8") as file:
        text = file.read()
    for old, new in layout.edits:
        assert text.count(old) == 1, (layout.name, old)
        text = text.replace(old, new)
    mapping = os.path.join(room, "map.toml")
    with open(mapping, "w", encoding="utf-8") as file:
        file.write(text)
    return mapping


def run_import(program, layout, paths, room, names, words=()):
    """Runs an import by a layout's mapping with its edits. Returns the run, and the lines of what it wrote."""
    mapping, out = mapping_in(layout, room), os.path.join(room, "out")
    ran = subprocess.run([program, "import", mapping, *paths, "--out", out, "--setup", SETUP, *words], capture_output=True, check=False)
    got = {"counts": ran.stdout.decode().splitlines()}
    got.update((name, lines_of(f"{out}.{name}")) for name in names)
    return ran, got


def are_same(layout, wanted, got, ran):
    """Whether the program wrote what the converter writes. Prints the first difference, or the counts."""
    for name, lines in wanted.items():
        if differs(f"{layout.name}: {name}", lines, got[name], ran):
            return False
    print(f"{layout.name}: equal: {wanted['counts'][-1]}; status {ran.returncode}")
    return True


def main(program, rows="100000", seed=None):
    """Runs the program on random rows of each layout."""
    seed = int(seed) if seed else random.randrange(1 << 30)
    print(f"seed {seed}, {rows} rows")
    dice = random.Random(seed)
    whole = sum(layout.share for layout in LAYOUTS + TRADES)
    good = [judge(program, layout, dice, int(rows) * layout.share // whole) for layout in LAYOUTS]
    good.append(judge(program, LAYOUTS[0], dice, 2000, numbers=True))
    good += [judge_refused(program, layout, dice, 2000) for layout in (LAYOUTS[0], LAYOUTS[-1], TRADES[0])]
    good.append(judge_added(program, LAYOUTS[0], dice, 3000))
    good += [judge_trades(program, layout, dice, int(rows) * layout.share // whole) for layout in TRADES]
    # A symbol that is cut, many symbols on one tape, and more symbols than a roster has.
    good += [judge_shards(program, LAYOUTS[0], dice, count, limit, symbols, numbers) for count, limit, symbols, numbers in
             ((2000, 66, 5, False), (2000, 67, 30, True), (4000, 500, 40, False), (6000, 20000, 2300, True))]
    by_symbol = replace(LAYOUTS[-2], edits=[*LAYOUTS[-2].edits, ('order = "given"', 'order = "symbol"')])
    good += [judge_shards(program, by_symbol, dice, count, limit, symbols, numbers) for count, limit, symbols, numbers in
             ((2000, 66, 5, False), (3000, 500, 40, True))]
    return 0 if all(good) else 1


if __name__ == "__main__":
    sys.exit(main(*sys.argv[1:]))
