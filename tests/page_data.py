"""Reads the data of a page to plain values, only by page/DATA.md: a place in a list of texts becomes the text.

Two data texts say the same if `tables` of both are equal, in whatever order their lists of texts are.
"""
import json
import re

DIGITS = {it: at for at, it in enumerate("ABCDEFGHIJKLMNOPQRSTUVWXYZabcdefghijklmnopqrstuvwxyz0123456789+/")}
LISTS = {"day": "symbols", "by": "names", "bid_by": "names", "offer_by": "names", "name": "words",
         "verdict": "words", "note": "words", "text": "words", "dollars": "words"}


def data_text(page):
    """The data in the text of a page."""
    return re.search(r'<script type="application/json" id="data">([^<]*)</script>', page)[1]


def column(text, count):
    """The values of a column."""
    unit, value, found, number, scale = 10 ** int(text[0]), 0, [], 0, 1
    for digit in (DIGITS[it] for it in text[1:]):
        number += digit % 32 * scale
        scale *= 32
        if digit < 32:
            value += -(number // 2) if number % 2 else number // 2
            found.append(value * unit)
            number, scale = 0, 1
    if len(found) != count or scale != 1 or min(found, default=0) < 0:
        raise ValueError(f"{len(found)} values, and not {count}, or one below 0")
    return found


def table(data, name):
    """The rows of a table, each with the columns that are not 0; places are texts."""
    given, rows = data[name], [{} for _ in range(data[name]["n"])]
    for key, text in given.items():
        if key != "n":
            for row, value in zip(rows, column(text, given["n"]), strict=True):
                if value:
                    row[key] = data[LISTS[key]][value] if key in LISTS else value
    return rows


def altered(rows, keys):
    """The rows that alter something: each whose values differ from those of the row before it that has the same keys."""
    last, found = {}, []
    for row in rows:
        key, version = tuple(row.get(it) for it in keys), row.get("version", 0)
        # An age counts versions, so what it means is the receipt.
        shown = {it: version - value if it.endswith("_age") else value for it, value in row.items()
                 if it not in ("day", "by", "version", "time")}
        shown |= {f"{side}_age": version for side in ("bid", "offer") if row.get(f"{side}_shares") and f"{side}_age" not in row}
        if last.get(key, {}) != shown:
            found.append(row)
        last[key] = shown
    return sorted(found, key=lambda it: (it["day"] if "day" in it else "", it.get("version", 0), it.get("by", "")))


def tables(text):
    """All of a data text: its tables, and the texts that no table has places in."""
    data = json.loads(text)
    found = {name: table(data, name) for name, it in data.items() if isinstance(it, dict)}
    found |= {"board": altered(found["board"], ("day", "by")), "lots": altered(found["lots"], ("day",))}
    return found | {name: data[name] for name in ("format", "about", "symbols", "ids")}
