#!/usr/bin/env python3
"""Opens pages of page/pack.py in a headless browser, and compares what they show with what nms_review prints.

    tests/page.py PROGRAM       PROGRAM is nms_review; NMS_PAGE is a folder to take in place of page/

Scales are read from the labels that a reader reads, and places by getBoundingClientRect, not by the page's own functions.
Without a browser the trials are skipped, also with CI=true. For each page that is opened, the console must have no error, and no request may
leave the file.
"""
import base64
import contextlib
import functools
import json
import os
import re
import shutil
import subprocess
import sys
import tempfile
import time
import xml.etree.ElementTree

from browser import Browser
from page_data import data_text, tables
from stored import EXAMPLES, TOP
from trials import Trial, Wrong, compare, run

PAGE = os.environ.get("NMS_PAGE") or os.path.join(TOP, "page")
REVIEW, TRADES = os.path.join(EXAMPLES, "review"), os.path.join(EXAMPLES, "trades")
DAY, DESK = f"{REVIEW}/day.changes", f"{TRADES}/desk.changes"
TIMES = ("--times", f"{TRADES}/desk.times")
# Bytes of the page's own text, and columns of a line of its sources.
MOST_BYTES, MOST_COLUMNS = 70_000, 130
HOSTILE = "<img src=x onerror=bad()> & \"'.changes"


class Pages:
    """A browser, and a folder of pages that were made for it."""

    def __init__(self, program):
        self.program, self.room = program, tempfile.mkdtemp(prefix="nms-page-")
        self.count = 0

    def __enter__(self):
        return self

    def __exit__(self, *_):
        if "browser" in vars(self):
            self.browser.close()
        shutil.rmtree(self.room, ignore_errors=True)

    @functools.cached_property
    def browser(self):
        it = Browser()
        it.size(1280, 900)
        it("Browser.setDownloadBehavior", behavior="allow", downloadPath=self.room, eventsEnabled=True)
        return it

    def file(self, name, text):
        path = os.path.join(self.room, name)
        os.makedirs(os.path.dirname(path), exist_ok=True)
        with open(path, "w", encoding="utf-8") as it:
            it.write(text)
        return path

    def make(self, changes, *words):
        """Makes a page and gives its path."""
        self.count += 1
        path = os.path.join(self.room, f"page{self.count}.html")
        words = [f"{PAGE}/pack.py", self.program, path, changes, *words]
        ran = subprocess.run([sys.executable, *words], capture_output=True, text=True, check=False)
        if ran.returncode:
            raise Wrong(f"page/pack.py: {ran.stderr[-400:]}")
        return path

    def open(self, path, address="", faults=0):
        """Opens a page, and gives the browser when it has drawn."""
        self.browser.open(f"file://{path}{address}")
        self.browser.settle(150)
        self.sound(faults)
        return self.browser

    def sound(self, faults=0):
        found = self.browser.faults()
        must(len(found) == faults, f"errors in the console: {str(found)[:300]}")
        away = [it for it in self.browser.requests() if not it.startswith((f"file://{self.room}", "blob:", "about:blank"))]
        compare("requests that leave the file", away, [])

    def shown(self, changes, *words, address=""):
        return self.open(self.make(changes, *words), address)

    def printed(self, *words):
        ran = subprocess.run([self.program, *words, "--json"], capture_output=True, text=True, check=False)
        must(ran.returncode in (0, 4, 6), f"{words}: {ran.stderr}")
        return [json.loads(it) for it in ran.stdout.splitlines()]

    def downloaded(self, name, act):
        """The text of a file that the page gives after an act."""
        path = os.path.join(self.room, name)
        with contextlib.suppress(FileNotFoundError):
            os.remove(path)
        act()
        end = time.monotonic() + 20
        while not os.path.exists(path) or not os.path.getsize(path):
            must(time.monotonic() < end, f"{name} was not given")
            self.browser.settle(100)
        with open(path, encoding="utf-8", newline="") as it:
            return it.read()


def must(holds, what):
    if not holds:
        raise Wrong(what)


def near(what, came, wanted, within):
    """Compares lists of tuples of numbers, each within a distance."""
    far = len(came) != len(wanted) or any(abs(a - b) > most for one, other in zip(came, wanted) for a, b, most in zip(one, other, within))
    if far:
        raise Wrong(f"{what}: {[tuple(round(a, 1) for a in it) for it in came]}, and not {wanted}")
    return len(wanted)


# What a reader sees.

def seconds(text):
    """A clock time, as the axis has it, in nanoseconds."""
    hours, minutes, rest = (text + ":00").split(":")[:3]
    whole, _, part = rest.partition(".")
    return ((int(hours) * 60 + int(minutes)) * 60 + int(whole)) * 10**9 + int(part.ljust(9, "0") or 0)


def digits(time):
    return seconds(f"{time[:2]}:{time[2:4]}:{time[4:6]}.{time[6:]}")


def price(text):
    return round(float(text) * 10_000)


def line_through(points):
    (a, x), (b, y) = points[0], points[-1]
    return lambda pixel: a + (pixel - x) * (b - a) / (y - x)


def scales(browser):
    """Of a pixel of the picture: its version or time, and its price."""
    labels = browser.js("[...document.querySelectorAll('#picture > text')].map(it => { const a = it.getBoundingClientRect(),"
                        " b = document.getElementById('picture').getBoundingClientRect();"
                        " return [it.textContent, (a.left + a.right) / 2 - b.left, +it.getAttribute('y'), it.getAttribute('text-anchor')]; })")
    ups = sorted((price(words), y - 4) for words, _, y, anchor in labels if not anchor and re.fullmatch(r"\d+\.\d{2,4}", words))
    # The number of a version is in the middle of its room if there are few.
    few = float(browser.js("location.hash.match(/to=([^&]*)/)[1].includes(':') ? 99 : location.hash.match(/to=([^&]*)/)[1] - "
                           "location.hash.match(/from=([^&]*)/)[1]")) <= 40
    acrosses = sorted((seconds(words) if ":" in words else int(words.replace(",", "")) + few / 2, x)
                      for words, x, _, anchor in labels if anchor == "middle")
    return line_through(acrosses), line_through(ups)


def middles(browser, what, key):
    """The middle of each element in pixels of the picture, with one of its data attributes."""
    return browser.js(f"[...document.querySelectorAll('{what}')].map(it => {{ const a = it.getBoundingClientRect(),"
                      f" b = document.getElementById('picture').getBoundingClientRect();"
                      f" return [it.dataset.{key}, (a.left + a.right) / 2 - b.left, (a.top + a.bottom) / 2 - b.top, a.width]; }})")


def corners(browser, name):
    """Where a stepped line begins a step, as places and prices."""
    x_of, y_of = scales(browser)
    d = browser.js(f"document.getElementById('{name}').getAttribute('d')")
    found, x = [], 0.0
    for kind, words in re.findall(r"([MVH])([\d. -]+)", d):
        numbers = [float(it) for it in words.split()]
        if kind == "H":
            x = numbers[0]
            continue
        x, y = (x, numbers[0]) if kind == "V" else numbers
        found.append((x_of(x), y_of(y)))
    box = browser.js(f"(it => {{ const a = it.getBoundingClientRect(), b = document.getElementById('picture').getBoundingClientRect();"
                     f" return [a.left - b.left, a.top - b.top]; }})(document.getElementById('{name}'))")
    xs, ys = [float(it) for it in re.findall(r"[MH](-?[\d.]+)", d)], [float(it) for it in re.findall(r"(?:M[\d.]+ |V)(-?[\d.]+)", d)]
    near(f"the box of {name}", [box], [(min(xs), min(ys))], (2, 2))
    return found


def steps(lines, key):
    """What the corners must be: the version of each change of a price, and the price."""
    return [(it["version"], price(it[key])) for at, it in enumerate(lines) if it[key] and (not at or it[key] != lines[at - 1][key])]


def text(browser, name):
    return browser.js(f"document.getElementById('{name}').innerText")


def board(browser):
    """The rows of the board that is shown, as `at` has them."""
    rows = browser.js("[...document.querySelectorAll('#board tr')].slice(1).map(row => [...row.cells].map(it =>"
                      " [it.innerText.replace(/,/g, ''), it.className]))")
    found = []
    for cells in rows:
        for side, (who, size, cost) in (("BID", cells[:3]), ("OFFER", cells[:2:-1])):
            if who[0]:
                found.append((side, who[0], cost[0], int(size[0]), "manual" not in who[1], "best" in who[1]))
    return sorted(found)


def board_by(pages, version, changes, *more):
    return sorted((it["side"], it["participant"], it["price"], it["shares"], it["protected"], it["best"])
                  for it in pages.printed("at", str(version), changes, "ABC", *more) if it["what"] == "row")


# The trials.

def own_text(_):
    """The page's text is small, ASCII, and of readable lines."""
    size = 0
    for name in ("page.html", "page.css", "page.js"):
        with open(os.path.join(PAGE, name), encoding="ascii") as it:
            lines = it.read().split("\n")
        size += sum(len(it) + 1 for it in lines)
        wide = [at for at, it in enumerate(lines, 1) if len(it) > MOST_COLUMNS]
        compare(f"lines of {name} above {MOST_COLUMNS} columns", wide, [])
    must(size <= MOST_BYTES, f"{size} bytes")
    with tempfile.TemporaryDirectory(prefix="nms-") as room:
        path = os.path.join(room, "text.rt")
        join = [sys.executable, f"{PAGE}/join.py"]
        compare("status of join.py", subprocess.run([*join, path], check=False).returncode, 0)
        compare("status of --check", subprocess.run([*join, "--check", path], check=False).returncode, 0)
        with open(path, "a", encoding="ascii") as it:
            it.write("\n")
        ran = subprocess.run([*join, "--check", path], stdout=subprocess.DEVNULL, check=False)
        compare("status of --check after a change", ran.returncode, 1)
    return 6


def data(pages):
    """The data, read only by its form, is what the program prints."""
    executions = f"{TRADES}/desk.timed"
    path = pages.make(DESK, "ABC", "--trades", executions, *TIMES, "--window", "1000000")
    with open(path, encoding="utf-8") as it:
        data = data_text(it.read())
    found, causes = tables(data), json.loads(data)["causes"]
    stream, answers = pages.printed("stream", DESK, "ABC", *TIMES), pages.printed("trades", DESK, executions, *TIMES, "--window", "1000000")
    lines = [{"version": it["version"], "time": digits(it["time"]), "bid_by": it["bid_participant"], "bid": price(it["bid_price"]),
              "bid_shares": it["bid_shares"], "offer_by": it["offer_participant"], "offer": price(it["offer_price"]),
              "offer_shares": it["offer_shares"]} for it in stream]
    compare("lines", found["lines"], lines)
    kinds, sides = ("clean", "noquote", "perhaps", "through"), {"B": 1, "S": 2, None: 0}
    wanted = [{"time": digits(it["time"]), "version": it["version"], "kind": kinds.index(it["what"]), "price": round(float(it["price"]) * 1e6),
               "shares": it["executed"], "side": sides[it["side"]], "by": it["participant"], "record": it["record"], "count": it["count"],
               "worst": round(float(it["worst"]) * 1e6), "through": it["shares"],
               "cause": sum(1 << causes.index(cause) for cause in (it["cause"] or "NONE").split("+") if cause != "NONE")}
              for it in answers if it["what"] != "row"]
    compare("executions", found["executions"], [{key: value for key, value in it.items() if value} for it in wanted])
    compare("ids", found["ids"], [it["id"] for it in answers if it["what"] != "row"])
    compare("rows", [(it["by"], it["price"], it["shares"], it["worse"]) for it in found["rows"]],
            [(it["participant"], price(it["price"]), it["shares"], round(float(it["by"]) * 1e6)) for it in answers if it["what"] == "row"])
    return 4


def doubted(pages):
    """The plan of docs/REVIEW.md: its lines, legs, what it passes over, its limit and its words."""
    plan = f"{REVIEW}/day.plan"
    browser, stream, why = pages.shown(DAY, "ABC", "PNY", "--plan", plan), pages.printed("stream", DAY, "ABC"), pages.printed("why", DAY, plan)
    points = 0
    for name, key in (("best-bid", "bid_price"), ("best-offer", "offer_price")):
        points += near(key, corners(browser, name), steps(stream, key), (0.03, 3))
    x_of, y_of = scales(browser)
    for name, wanted in (("leg", [it for it in why if it["what"] == "quotation" and it["sent"]]),
                         ("over", [it for it in why if it["what"] == "traded_through"])):
        found = sorted(middles(browser, f"[data-{name}]", name))
        wanted = sorted((it["participant"], it["price"]) for it in wanted)
        compare(f"participants: {name}", [it[0] for it in found], [it[0] for it in wanted])
        places = [(why[0]["version"] + .5, price(it)) for _, it in wanted]
        points += near(name, [(x_of(x), y_of(y)) for _, x, y, _ in found], places, (.05, 3))
    limit = middles(browser, "#limit", "none")[0]
    near("limit", [(y_of(limit[2]),)], [(price(why[0]["limit"]),)], (3,))
    words = browser.js("document.getElementById('plan').textContent")
    for said in ("DOUBT K1 P10", "past the better protected offer of Y at 10.0000: 100 displayed, 0 sent there", "must be swept, and is not"):
        must(said in words, f"no words `{said}` in {words!r}")
    must("It does not hold" in words, "no words on the certificate")
    return points + 6


def several_plans(pages):
    """Each plan of a script's answers has its marks; the first doubted one is chosen; a button and a key choose another."""
    answers = f"{REVIEW}/day.answers"
    browser = pages.shown(DAY, "ABC", "--plan", answers)
    with open(answers, encoding="utf-8") as it:
        plans = [re.findall(r"^LEG,(\w+),([\d.]+),(\d+)$", plan, re.M) for plan in it.read().split("PLAN,")[1:]]

    def words(plan):
        said = browser.js(f"[...document.querySelectorAll('#picture [data-plan=\"{plan}\"] text')].map(it => it.textContent)")
        compare(f"legs of plan {plan + 1}", [it for it in said if " to " in it], [f"{size} to {name} at {cost}" for name, cost, size in plans[plan]])

    words(1)
    compare("legs", len(browser.js("[...document.querySelectorAll('[data-leg]')].map(it => 1)")), 4)
    compare("chosen", browser.js("document.querySelector('#plans [aria-pressed=true]').dataset.plan"), "1")
    browser.js("document.querySelector('#plans button').click()")
    browser.settle(250)
    must("CONFIRMED" in text(browser, "plan") and "plan=1" in browser.js("location.hash"), "the first plan is not chosen")
    words(0)
    compare("the board's version", browser.js("document.getElementById('board').dataset.version"), "4")
    browser.js("document.getElementById('figure').focus()")
    browser.key("l")
    browser.settle()
    must("DOUBT" in text(browser, "plan"), "the key does not choose the next plan")
    return 7


def stretches(pages):
    """Locked and crossed stretches begin and end at their versions."""
    browser, stream = pages.shown(DAY, "ABC"), pages.printed("stream", DAY, "ABC")
    x_of, _ = scales(browser)
    for name in ("locked", "crossed"):
        wanted = []
        for at, it in enumerate(stream):
            if it["market"] == name.upper() and (not at or stream[at - 1]["market"] != it["market"]):
                end = next((other["version"] for other in stream[at:] if other["market"] != it["market"]), 11)
                wanted.append((it["version"], it["version"], end))
        came = [(float(version), x_of(x - width / 2), x_of(x + width / 2))
                for version, x, _, width in middles(browser, f".strip.{name}[data-version]", "version") if version]
        near(name, came, wanted, (0, .05, .05))
        tints = middles(browser, f".tint.{name}", "version")
        compare(f"tints {name}", len(tints), len(wanted))
    must("locked once, crossed once" in text(browser, "said"), text(browser, "said"))
    return 5


def boards(pages):
    """The board at each version is that of `at`: on the examples, and where lots, states and participants change."""
    more = pages.file("more.changes", "Q,N,ABC,A,9.98,350,10.02,400\nQ,P,ABC,M,9.99,500,10.01,240\nR,ABC,40\nS,N,ABC,H\nQ,Z,PNY,A,1.00,100,,\n"
                      "S,N,ABC,A\nX,P\nR,ABC,AVG,250.0001\nQ,P,ABC,A,9.99,39,10.01,40\nR,ABC,AVG,2000\nQ,N,ABC,A,9.98,350,0,0\n")
    count = 0
    for changes, last in ((DAY, 10), (DESK, 6), (more, 11)):
        browser = pages.shown(changes, "ABC")
        browser.js("document.getElementById('figure').focus()")
        for version in range(1, last + 1):
            pages.browser.js(f"location.hash = '#sym=ABC&by=version&from={version}&to={version + 1}'")
            browser.settle()
            box = browser.js("(r => [r.left + 60, r.top + 60])(document.getElementById('picture').getBoundingClientRect())")
            browser.mouse("Moved", *box)
            compare("the version under the pointer", browser.js("document.getElementById('board').dataset.version"), str(version))
            compare(f"the board of {os.path.basename(changes)} at {version}", board(browser), board_by(pages, version, changes))
            market = pages.printed("at", str(version), changes, "ABC")[0]["market"]
            compare("the market", browser.js("document.querySelector('#moment .chip').textContent"), market)
            count += 3
    return count


def under_the_pointer(pages):
    """By time the pointer shows the board of the version that `when` names, and the best prices at the scale."""
    browser = pages.shown(DESK, "ABC", *TIMES)
    left, top = browser.js("(r => [r.left, r.top])(document.getElementById('picture').getBoundingClientRect())")
    x_of, _ = scales(browser)
    stream = pages.printed("stream", DESK, "ABC")
    for x in (150, 250, 420, 560, 700, 800):
        browser.mouse("Moved", left + x, top + 100)
        browser.settle(40)
        time = int(x_of(x))
        clock = f"{time // 3600 // 10**9:02}{time // 60 // 10**9 % 60:02}{time // 10**9 % 60:02}{time % 10**9:09}"
        version = pages.printed("when", TIMES[1], clock)[0]["version"]
        compare(f"the version at {clock}", browser.js("document.getElementById('board').dataset.version"), str(version))
        line = [it for it in stream if it["version"] <= version][-1]
        tags = browser.js("[...document.querySelectorAll('#cursor text.tag')].map(it => it.textContent)")
        compare("tags", tags[:2], [line["bid_price"], line["offer_price"]])
    return 12


def areas(browser, kind):
    """The boxes of an area, each as its left, its right and its height from the middle."""
    d = browser.js(f"document.querySelector('#picture .{kind}:not(.faint)').getAttribute('d')")
    return [(float(x), float(to), float(y) - float(middle)) for x, middle, y, to in re.findall(r"M([\d.]+) ([\d.]+)V([\d.]+)H([\d.]+)", d)]


def fills(pages):
    """The spread is filled between bid and offer of each line; sizes go up for offers and down for bids."""
    browser, stream = pages.shown(DAY, "ABC"), pages.printed("stream", DAY, "ABC")
    x_of, y_of = scales(browser)
    d = browser.js("document.querySelector('.spread').getAttribute('d')")
    found = [(x_of(float(x)), y_of(float(high)), x_of(float(to)), y_of(float(low)))
             for x, high, to, low in re.findall(r"M([\d.]+) ([\d.]+)H([\d.]+)V([\d.]+)", d)]
    ends = [it["version"] for it in stream[1:]] + [11]
    wanted = [(it["version"], price(it["offer_price"]), end, price(it["bid_price"])) for it, end in zip(stream, ends)]
    near("the spread", found, wanted, (.05, 3, .05, 3))
    most = max(it[key] for it in stream for key in ("bid_shares", "offer_shares"))
    labels = browser.js("[...document.querySelectorAll('#picture > text')].map(it => it.textContent)")
    compare("the greatest size", labels.count(str(most)), 2)
    for kind, key, way in (("bids", "bid_shares", 1), ("offers", "offer_shares", -1)):
        found = [(x_of(x), x_of(to), height / 42 * most) for x, to, height in areas(browser, kind)]
        near(kind, found, [(it["version"], end, way * it[key]) for it, end in zip(stream, ends)], (.05, .05, 2))
    return 4


def own_times(pages):
    """Executions are at their own time and price; the one on some versions of its window is dashed."""
    executions = f"{TRADES}/desk.timed"
    browser = pages.shown(DESK, "ABC", "--trades", executions, *TIMES, "--window", "1000000")
    found = [it for it in pages.printed("trades", DESK, executions, *TIMES, "--window", "1000000") if it["what"] != "row"]
    x_of, y_of = scales(browser)
    came = [(x_of(x), y_of(y)) for _, x, y, _ in sorted(middles(browser, "#marks [data-row]", "row"), key=lambda it: int(it[0]))]
    near("marks", came, [(digits(it["time"]), price(it["price"])) for it in found], (5e6, 7))
    dashed = browser.js("[...document.querySelectorAll('#marks .perhaps')].map(it => it.dataset.row)")
    compare("dashed", dashed, [str(at) for at, it in enumerate(found) if it["what"] == "perhaps"])
    lane = middles(browser, "#lane [data-row]", "row")
    near("the lane", sorted((x_of(x),) for _, x, _, _ in lane), sorted((digits(it["time"]),) for it in found), (2.2e7,))
    kinds = browser.js("[...document.querySelectorAll('#marks [data-row]')].map(it => [it.dataset.row, it.classList[1]])")
    compare("groups", sorted(kinds), [["0", "g0"], ["1", "g0"], ["2", "g2"]])
    return 6


def late_execution(pages):
    """An execution at 15:59 between changes at 09:30 and 16:00 is drawn at 15:59."""
    changes = pages.file("late.changes", "Q,N,ABC,A,10.00,100,10.02,100\nQ,N,ABC,A,10.00,100,10.03,100\n")
    times = pages.file("late.times", "093000000000000\n160000000000000\n")
    executions = pages.file("late.executions", "D,a,ABC,10.01,100,B,@155900,N,\n")
    browser = pages.shown(changes, "ABC", "--trades", executions, "--times", times)
    x_of, _ = scales(browser)
    minutes = x_of(middles(browser, "#marks [data-row]", "row")[0][1]) / 6e10
    near("minutes", [(minutes,)], [(959,)], (.6,))


def choose(browser, name, value):
    """Sets a filter, and gives how many executions the table then counts."""
    return browser.js(f"(it => {{ if (![...it.options].some(o => o.value === {json.dumps(value)})) return 'no such choice'; it.value ="
                      f" {json.dumps(value)}; it.dispatchEvent(new Event('change')); return +document.getElementById('count')"
                      f".textContent.split(' ')[0].replace(/,/g, ''); }})(document.getElementById('filter-{name}'))")


def filters(pages):
    """The counts of each filter, in brackets and of the rows, are those of `--table`."""
    points = 0
    halves = pages.file("halves", "".join(f"D,fill-1,ABC,10.05,100,B,@{it},N,\n" for it in ("093002", "094500", "095959999", "100000", "155959")))
    window = (*TIMES, "--window", "1000000")
    for executions, more in ((f"{TRADES}/desk.executions", ()), (f"{TRADES}/desk.timed", window), (halves, TIMES)):
        name, browser = os.path.basename(executions), pages.shown(DESK, "ABC", "--trades", executions, *more)
        table = pages.printed("trades", DESK, executions, *more, "--table")
        total = table[0]
        wanted = {"clean": total["clean"], "not quoted": total["noquote"], "perhaps": total["perhaps"], "through": total["through"],
                  "through, no exception": total["no_cause"], "flagged": total["through"] + total["perhaps"], "": total["executions"]}
        for kind, count in wanted.items():
            compare(f"{name}: {kind or 'all'}", choose(browser, "kind", kind), count)
        brackets = dict(browser.js("[...document.getElementById('filter-kind').options].slice(1).map(it => [it.value, it.textContent])"))
        compare("in brackets", brackets, {kind: f"{kind} ({count})" for kind, count in wanted.items() if kind})
        choose(browser, "kind", "through")
        for it in table:
            key = {"cause": "cause", "executed": "by", "half_hour": "half"}.get(it["what"])
            if key:
                value = str(digits(it["name"].replace(":", "") + "00") // (1800 * 10**9)) if key == "half" else it["name"]
                compare(f"{name}: {it['name']}", choose(browser, key, value), it["through"])
                words = browser.js(f"document.getElementById('filter-{key}').selectedOptions[0].textContent")
                compare("in brackets", words, f"{it['name']} ({it['through']})")
                choose(browser, key, "")
                points += 2
        choose(browser, "kind", "")
        must((f"{total['refused']} records refused" in text(browser, "count")) == bool(total["refused"]), text(browser, "count"))
        browser.js("(it => { it.value = 'fill-1'; it.dispatchEvent(new Event('input')); })(document.getElementById('filter-id'))")
        ids = browser.js("[...document.querySelectorAll('#scroll tbody tr[data-row]')].map(it => it.cells[1].textContent)")
        must(ids and all("fill-1" in it for it in ids), f"ids {ids}")
        points += len(wanted) + 3
    return points


def clicks(pages):
    """A row of the table shows its moment: its board, its words, its ring where its mark is."""
    executions, points = f"{TRADES}/desk.executions", 0
    path = pages.make(DESK, "ABC", "--trades", executions)
    browser = pages.open(path)
    found = [it for it in pages.printed("trades", DESK, executions) if it["what"] in ("clean", "through", "perhaps", "noquote")]
    compare("rows", browser.js("document.querySelectorAll('#scroll tbody tr[data-row]').length"), len(found))
    for at, it in enumerate(found):
        browser.js("location.hash = '#sym=ABC&by=version&from=0&to=3&row=0'")
        browser.settle()
        browser.js(f"document.querySelector('#scroll tr[data-row=\"{at}\"]').click()")
        browser.settle()
        compare("version", browser.js("document.getElementById('board').dataset.version"), str(it["version"]))
        compare("board", board(browser), board_by(pages, it["version"], DESK))
        words = text(browser, "finding")
        must(it["id"] in words and it["what"] in words and f"at {it['price'].removesuffix('00')}" in words, f"words {words!r}")
        browser.settle(200)
        x_of, y_of = scales(browser)
        ring = middles(browser, f"[data-ring=\"{at}\"]", "ring")
        near("ring", [(x_of(ring[0][1]), y_of(ring[0][2]))], [(it["version"] + .5, price(it["price"]))], (.03, 5))
        compare("selected", browser.js("document.querySelector('#scroll tr[aria-selected=true]').dataset.row"), str(at))
        points += 5
    address = browser.js("location.hash")
    must(address.endswith(f"&row={len(found)}"), address)
    before = browser.js("document.getElementById('best-bid').getAttribute('d')")
    browser = pages.open(path, address)
    compare("the address shows the same", browser.js("[document.getElementById('best-bid').getAttribute('d'), location.hash]"), [before, address])
    mark = middles(browser, "#marks [data-row=\"4\"]", "row")
    if mark:
        box = browser.js("(r => [r.left, r.top])(document.getElementById('picture').getBoundingClientRect())")
        browser.click(box[0] + mark[0][1], box[1] + mark[0][2])
        browser.settle()
        must(found[4]["id"] in text(browser, "finding"), "a click on a mark does not show its finding")
    return points + 4


def table(pages):
    """The cells of the table, its order by each column, and the file of it."""
    with open(f"{TRADES}/desk.timed", encoding="utf-8") as it:
        executions = pages.file("more.timed", it.read() + "D,fill-12,ABC,10.02,1234567,B,@0930019,Z,\n")
    browser = pages.shown(DESK, "ABC", "--trades", executions, *TIMES, "--window", "1000000")
    answers = pages.printed("trades", DESK, executions, *TIMES, "--window", "1000000")
    found = [it for it in answers if it["what"] != "row"]
    lines = pages.downloaded("findings.csv", lambda: browser.js("document.getElementById('csv').click()")).split("\r\n")
    head, rows = lines[0].split(","), [it.split(",") for it in lines[1:-1]]
    stream = pages.printed("stream", DESK, "ABC")
    for it, row in zip(found, rows, strict=True):
        best = [line for line in stream if line["version"] <= it["version"]][-1]
        passed = [row["participant"] for row in answers if row["what"] == "row" and row["id"] == it["id"]]
        time = f"{it['time'][:2]}:{it['time'][2:4]}:{it['time'][4:6]}.{it['time'][6:]}".rstrip("0").rstrip(".")
        wanted = {"record": str(it["record"]), "id": it["id"], "time": time, "version": str(it["version"]), "finding": it["what"],
                  "exception": it.get("cause", ""), "side": {"B": "buy", "S": "sell", None: ""}[it["side"]], "on": it["participant"] or "(none)",
                  "price": it["price"].removesuffix("00"), "best_bid": best["bid_price"], "best_offer": best["offer_price"],
                  "worse_by": it["worst"].removesuffix("00") if it.get("count") else "", "shares": str(it["executed"]),
                  "through": str(it["shares"]) if it.get("shares") else "", "whose": " ".join(passed)}
        compare(it["id"], dict(zip(head, row, strict=True)), wanted)
    for name, key in (("price", lambda it: it["price"]), ("time", lambda it: it["time"]), ("id", lambda it: it["id"])):
        for way in (1, -1):
            browser.js(f"document.querySelector('#scroll th[data-name=\"{name}\"] button').click()")
            ids = browser.js("[...document.querySelectorAll('#scroll tbody tr[data-row]')].map(it => it.cells[1].textContent)")
            compare(f"by {name}", ids, [it["id"] for it in sorted(found, key=key, reverse=way < 0)])
    return len(found) + 6


def saved_picture(pages):
    """The button gives the picture as a file: well formed, with its own style, title and words, and nothing that runs."""
    given, browser = front_picture(pages), pages.browser
    tree, name = xml.etree.ElementTree.fromstring(given), "{http://www.w3.org/2000/svg}"
    kinds = {it.tag.removeprefix(name) for it in tree.iter()}
    must({"title", "desc", "style", "path", "text"} <= kinds and not kinds & {"script", "image", "foreignObject"}, f"elements {kinds}")
    compare("the same line", tree.find(f".//{name}path[@id='best-bid']").get("d"),
            browser.js("document.getElementById('best-bid').getAttribute('d')"))
    must("--bid:" in tree.find(f"{name}style").text and "locked once" in tree.find(f"{name}desc").text, "no style, or no words")
    alone = pages.file("alone.svg", given)
    browser.open(f"file://{alone}")
    pages.sound()
    compare("drawn alone", browser.js("getComputedStyle(document.getElementById('best-bid')).stroke"), "rgb(0, 114, 178)")
    return 4


def front_picture(pages):
    """The picture of README.md, as the page gives it."""
    browser = pages.shown(DAY, "ABC", "--plan", f"{REVIEW}/day.plan")
    return pages.downloaded("ABC.svg", lambda: browser.js("document.getElementById('save').click()"))


def front(pages):
    """The picture of README.md is that of page/shot.py."""
    with open(f"{TOP}/docs/page.svg", encoding="utf-8") as it:
        compare("docs/page.svg", it.read().encode(), front_picture(pages).encode())


def shown_range(browser):
    return [float(it) for it in re.findall(r"(?:from|to)=([\d.]+)", browser.js("location.hash"))]


def hands(pages):
    """Wheel, drag, a chosen range, the strip, keys, buttons."""
    browser = pages.shown(DAY, "ABC")
    left, top, width = browser.js("(r => [r.left, r.top, r.width])(document.getElementById('picture').getBoundingClientRect())")
    pane, foot = width - 76, browser.js("document.getElementById('picture').getBoundingClientRect().bottom - 20")
    right = left + 10 + pane

    def after(act):
        act()
        browser.settle(300)
        return shown_range(browser)

    def drag(x, y, to, **more):
        browser.mouse("Pressed", x, y, button="left", clickCount=1, **more)
        for step in (.3, .6, 1):
            browser.mouse("Moved", x + (to - x) * step, y, button="left", **more)
        browser.mouse("Released", to, y, button="left", clickCount=1, **more)

    all_of = shown_range(browser)
    compare("at first", all_of, [0, 11])
    wheeled = after(lambda: browser("Input.dispatchMouseEvent", type="mouseWheel", x=left + 300, y=top + 90, deltaX=0, deltaY=-200))
    must(0 < wheeled[0] < wheeled[1] < 11, f"wheel: {wheeled}")
    dragged = after(lambda: drag(left + 300, top + 90, left + 200))
    by = 100 / pane * (wheeled[1] - wheeled[0])
    near("drag", [tuple(dragged)], [(wheeled[0] + by, wheeled[1] + by)], (.1, .1))
    compare("double click", after(lambda: browser.js("document.getElementById('picture').dispatchEvent(new MouseEvent('dblclick'))")), [0, 11])
    chosen = after(lambda: drag(left + 10 + pane * .25, top + 90, left + 10 + pane * .5, modifiers=8))
    near("Shift and drag", [tuple(chosen)], [(2.75, 5.5)], (.05, .05))
    strip = after(lambda: drag(left + 10 + pane * .5, foot, right))
    near("drag in the strip", [tuple(strip)], [(5.5, 11)], (.05, .05))
    browser.js("document.getElementById('figure').focus()")
    compare("0", after(lambda: browser.key("0")), [0, 11])
    zoomed = after(lambda: browser.key("+"))
    near("+", [tuple(zoomed)], [(2.75, 8.25)], (.1, .1))
    near("-", [tuple(after(lambda: browser.key("-")))], [(0, 11)], (.1, .1))
    browser.key("Escape")
    for version in (1, 2, 3, 5):
        browser.key("ArrowRight")
        browser.settle(40)
        must(f"Version {version} " in text(browser, "live"), f"spoken: {text(browser, 'live')}")
    must("bid 10.0100, offer 10.0100" in text(browser, "live"), text(browser, "live"))
    compare("a button", after(lambda: browser.js("document.getElementById('in').click()"))[1] < 11, True)
    return 13


def marks_by_key(pages):
    """Keys go through all marks, and through the flagged ones, around the ends."""
    browser = pages.shown(DESK, "ABC", "--trades", f"{TRADES}/desk.executions")
    browser.js("document.getElementById('figure').focus()")
    ids = {}
    for key, count in ((".", 7), ("n", 6), (",", 2), ("p", 2)):
        ids[key] = []
        for _ in range(count):
            browser.key(key)
            browser.settle(30)
            ids[key].append(browser.js("document.querySelector('#finding h2').innerText.split(' ')[0]"))
    order = ["fill-1", "fill-2", "fill-5", "fill-7", "fill-3", "fill-6"]
    compare("each mark", ids["."], [*order, "fill-1"])
    compare("each flagged one", ids["n"], ["fill-2", "fill-3", "fill-5", "fill-6", "fill-7", "fill-2"])
    compare("marks back", ids[","], ["fill-1", "fill-6"])
    compare("flagged ones back", ids["p"], ["fill-5", "fill-3"])
    browser.js("(it => { it.checked = false; it.dispatchEvent(new Event('change')); })(document.getElementById('clean'))")
    browser.settle()
    compare("marks without those that are clean", len(middles(browser, "#marks [data-row]", "row")), 5)
    return 5


def round_lots(pages):
    """A change of the round lot is drawn at its version, with its words, and by time at its time."""
    changes = pages.file("lots.changes", "Q,N,ABC,A,9.98,300,10.02,400\nQ,P,ABC,A,9.97,240,10.01,240\nR,ABC,40\nQ,N,ABC,A,9.98,300,10.03,400\n")
    times = pages.file("lots.times", "".join(f"0930{it:02}000000000\n" for it in (0, 1, 2, 3)))
    browser = pages.shown(changes, "ABC", "--times", times, address="#by=version")
    x_of, _ = scales(browser)
    near("by version", [(x_of(it[1]),) for it in middles(browser, "[data-lot]", "lot")], [(3,)], (.05,))
    words = browser.js("[...document.querySelectorAll('#picture text')].map(it => it.textContent).filter(it => it.includes('lot'))")
    compare("words", words, ["round lot 100 to 40"])
    browser.js("document.getElementById('by-time').click()")
    browser.settle(300)
    x_of, _ = scales(browser)
    near("by time", [(x_of(it[1]),) for it in middles(browser, "[data-lot]", "lot")], [(digits("093002"),)], (2e7,))
    return 3


def far_quotes(pages):
    """A stub quote does not flatten the scale, unless the reader wants it; that it is cut is said and marked."""
    quotes = "".join(f"Q,N,ABC,A,{10 + it % 3 / 100:.2f},100,{10.02 + it % 3 / 100:.2f},100\n" for it in range(30))
    changes = pages.file("far.changes", f"{quotes}Q,N,ABC,A,0.01,100,199999.99,100\n{quotes}")
    browser = pages.shown(changes, "ABC")
    labels = "[...document.querySelectorAll('#picture > text')].map(it => +it.textContent).filter(it => it > 0 && it < 1e6 && it % 1)"
    trimmed = browser.js(labels)
    must(max(trimmed) < 11 and min(trimmed) > 9, f"labels {trimmed}")
    must("cut at the edge" in text(browser, "said") and browser.js("document.querySelector('.far').getAttribute('d')"), "nothing says so")
    browser.js("(it => { it.checked = false; it.dispatchEvent(new Event('change')); })(document.getElementById('trim'))")
    browser.settle(200)
    must("cut at the edge" not in text(browser, "said"), "cut, though it is not to be")
    top = browser.js("Math.max(...[...document.querySelectorAll('#picture > text')].map(it => +it.textContent || 0))")
    must(top > 100_000, f"the greatest label is {top}")
    return 4


def participant(pages):
    """The quotations of a participant, on request."""
    browser = pages.shown(DAY, "ABC")
    compare("at first none", browser.js("document.getElementById('own-bid')"), None)
    browser.js("(it => { it.value = [...it.options].find(o => o.text === 'Z').value; it.dispatchEvent(new Event('change')); })"
               "(document.getElementById('own'))")
    browser.settle(200)
    wanted = []
    for version in range(1, 11):
        row = next((it for it in pages.printed("at", str(version), DAY, "ABC") if it.get("participant") == "Z" and it["side"] == "BID"), None)
        if row and (not wanted or wanted[-1][1] != price(row["price"])):
            wanted.append((version, price(row["price"])))
    near("bids of Z", corners(browser, "own-bid"), wanted, (.05, 3))
    return 2


def several_symbols(pages):
    """A symbol is chosen by its name; one of one quote and one without any are drawn too."""
    changes = pages.file("three.changes", "Q,N,ABC,A,9.98,300,10.02,400\nQ,P,PNY,A,0.0001,100,,\n")
    setup = pages.file("three.toml", read_setup())
    browser = pages.shown(changes, "ABC", "PNY", "NIX", "--setup", setup)
    for name, lines in (("PNY", "1 line "), ("NIX", "0 lines "), ("ABC", "1 line ")):
        browser.js(f"(it => {{ it.value = [...it.options].find(o => o.text === '{name}').value; it.dispatchEvent(new Event('change')); }})"
                   f"(document.getElementById('symbol'))")
        browser.settle(300)
        pages.sound()
        must(lines in text(browser, "said") and f"sym={name}" in browser.js("location.hash"), text(browser, "said"))
        compare("heading", text(browser, "title"), f"{name}: best bid and best offer")
    return 6


def two_symbols_traded(pages):
    """Executions of two symbols: filters by symbol, a row of the other symbol, and the page of one of them."""
    changes = pages.file("two.changes", "Q,N,ABC,A,9.98,300,10.02,400\nQ,P,PNY,A,0.50,100,0.52,100\nQ,N,ABC,A,9.98,300,10.03,400\n")
    executions = pages.file("two.executions", "D,a,ABC,10.00,100,B,1,N,\nD,b,PNY,0.53,100,B,2,N,\nD,c,NIX,1,1,B,1,N,\nD,d,ABC,10.05,100,B,3,N,I\n")
    browser = pages.shown(changes, "ABC", "PNY", "--trades", executions)
    table = {it["name"]: it for it in pages.printed("trades", changes, executions, "--table") if it["what"] == "symbol"}
    for name in ("ABC", "PNY"):
        compare(f"executions of {name}", choose(browser, "symbol", name), table[name]["executions"])
        words = browser.js("document.getElementById('filter-symbol').selectedOptions[0].textContent")
        compare("in brackets", words, f"{name} ({table[name]['through']})")
    browser.js("document.querySelector('#scroll tr[data-row=\"1\"]').click()")
    browser.settle(250)
    compare("heading", text(browser, "title"), "PNY: best bid and best offer")
    must("sym=PNY" in browser.js("location.hash") and "b through" in text(browser, "finding"), text(browser, "finding"))
    browser = pages.shown(changes, "ABC", "--trades", executions)
    cells = browser.js("[...document.querySelectorAll('#scroll tbody tr[data-row]')].map(it => it.cells[0].textContent + it.cells[1].textContent)")
    compare("records and ids of ABC", cells, ["1a", "4d"])
    return 8


def read_setup():
    """The built-in setup with one more symbol."""
    with open(f"{EXAMPLES}/builtin.toml", encoding="utf-8") as it:
        return it.read() + '\n[[symbol]]\nname = "NIX"\nlot = 100\n'


def hostile(pages):
    """A name of a file stays a text, in the page and in the report."""
    name = "a <" + "/script><!--" + HOSTILE
    changes = pages.file(name, "Q,N,ABC,A,9.98,300,10.02,400\n")
    path = pages.make(changes, "ABC")
    with open(path, encoding="utf-8") as it:
        whole = it.read()
    data = whole.split('id="data">')[1].split("</script>")[0]
    must(not re.search("[<>&]|[^\x20-\x7e]", data), "the data has a byte that could end it")
    browser = pages.open(path)
    found = browser.js("[document.images.length, typeof bad, document.getElementById('about').textContent]")
    compare("the page", found, [0, "undefined", f"changes {changes}"])
    browser.scripts(False)
    try:
        browser.open(f"file://{path}")
        found = browser.js("[document.images.length, document.getElementById('plain').textContent.includes('onerror=bad()')]")
        compare("the report", found, [0, True])
    finally:
        browser.scripts(True)
    return 3


def no_other_script(pages):
    """A script that came into the file is not run, and neither is a style."""
    path = pages.make(DAY, "ABC")
    with open(path, encoding="utf-8") as it:
        whole = it.read()
    bad = "<script>document.title = 'bad'</script><style>h1 { color: rgb(1, 2, 3) }</style>"
    browser = pages.open(pages.file("bad.html", whole.replace("</header>", bad + "</header>")), faults=2)
    found = browser.js("[document.title, getComputedStyle(document.getElementById('title')).color]")
    must(found[0].startswith("ABC:") and found[1] != "rgb(1, 2, 3)", f"{found}")
    return 2


def damaged(pages):
    """A torn or wrong file says so."""
    path = pages.make(DESK, "ABC", "--trades", f"{TRADES}/desk.executions")
    with open(path, encoding="utf-8") as it:
        whole = it.read()
    start, points = whole.index('id="data">') + 10, 0
    broken = [whole[:start], whole[:start + 40], whole[:start + 900], whole[:-20 - len("</script></body></html>")]]
    for old, new in (('"format":1', '"format":2'), ('"bid":"2', '"bid":"x'), ('"version":"0CC', '"version":"0C'), (',"Y"]', ']'),
                     ('"lines":{"n":5', '"lines":{"n":6'), ('"ids":["fill-1",', '"ids":['), ('"bid_by":"0C', '"bid_by":"0D'),
                     ('"kind":"0A', '"kind":"0I'), ('"aside":{', '"asides":{'), ('"side":"0C', '"side":"0!'), ('"lot":"2C', '"lot":2'),
                     ('"by":"0C', '"by":"0!')):  # this one is of the board, which is read after the first picture
        must(whole.count(old, start), f"the data has no {old}")
        broken.append(whole[:start] + whole[start:].replace(old, new, 1))
    for at, given in enumerate(broken):
        browser = pages.open(pages.file(f"broken{at}.html", given))
        found = browser.js("[document.getElementById('damaged').hidden, document.getElementById('app').hidden,"
                           " document.getElementById('damaged').textContent]")
        must(found[:2] == [False, True] and "is damaged" in found[2], f"file {at}: {found}")
        points += 1
    torn = pages.file("torn.html", whole[:whole.index("function readColumn")])
    pages.browser.open(f"file://{torn}")
    pages.browser.settle(9500)
    must(pages.browser.js("getComputedStyle(document.getElementById('damaged')).visibility") == "visible", "a torn script says nothing")
    return points + 1


def without_scripts(pages):
    """Without JavaScript there are a summary and the table of what was flagged."""
    path = pages.make(DESK, "ABC", "--trades", f"{TRADES}/desk.executions")
    browser = pages.browser
    browser.scripts(False)
    try:
        browser.open(f"file://{path}")
        found = browser.js("[document.getElementById('app').hidden, document.querySelectorAll('#plain tr').length,"
                           " document.getElementById('plain').offsetHeight > 50, getComputedStyle(document.getElementById('damaged')).display]")
        compare("the report", found, [True, 6, True, "none"])
        must("ISO-CLAIMED" in text(browser, "plain"), "no causes")
    finally:
        browser.scripts(True)
    return 2


def media(pages):
    """Dark by the reader's setting; a phone's width; one sheet of paper."""
    path = pages.make(DESK, "ABC", "--trades", f"{TRADES}/desk.executions")
    browser = pages.open(path)
    colour = "getComputedStyle(document.body).backgroundColor"
    try:
        compare("light", browser.js(colour), "rgb(255, 255, 255)")
        browser.media(prefers_color_scheme="dark")
        compare("dark", browser.js(colour), "rgb(20, 24, 28)")
        printed = base64.b64decode(browser("Page.printToPDF", preferCSSPageSize=True, printBackground=True)["data"])
        compare("sheets", len(re.findall(rb"/Type */Page\b", printed)), 1)
        browser.media(media="print", prefers_color_scheme="dark")
        compare("paper", browser.js(colour), "rgb(255, 255, 255)")
        browser.media()
        browser.size(390, 844, is_phone=True)
        browser = pages.open(path)
        must(browser.js("document.documentElement.scrollWidth") <= 390, "a phone has to scroll sideways")
        compare("the picture's width", browser.js("document.getElementById('picture').clientWidth > 340"), True)
    finally:
        browser.media()
        browser.size(1280, 900)
    return 6


def for_readers(pages):
    """What a screen reader needs: a name of the picture and its words, states of buttons, an order of columns, a live region."""
    browser = pages.shown(DESK, "ABC", "--trades", f"{TRADES}/desk.executions")
    tree = browser("Accessibility.getFullAXTree")["nodes"]
    roles = {}
    for node in tree:
        roles.setdefault(node.get("role", {}).get("value"), []).append(node.get("name", {}).get("value", ""))
    must(any(it.startswith("ABC: best bid and best offer") for it in roles.get("image", []) + roles.get("img", [])), f"{roles.get('image')}")
    must(all(roles["button"]), f"a button without a name: {roles['button']}")
    must(all(name for role in ("combobox", "searchbox", "checkbox") for name in roles.get(role, [])), "a control without a name")
    compare("order", browser.js("[...document.querySelectorAll('#scroll th[aria-sort=ascending]')].map(it => it.dataset.name)"), ["#"])
    compare("rows", browser.js("document.querySelector('#scroll table').getAttribute('aria-rowcount')"), "7")
    return 5


TRIALS = (own_text, data, doubted, several_plans, stretches, boards, under_the_pointer, fills, own_times, late_execution, filters, clicks,
          table, saved_picture, front, hands, marks_by_key, round_lots, far_quotes, participant, several_symbols, two_symbols_traded,
          hostile, no_other_script, damaged, without_scripts, media, for_readers)


def main(words):
    if len(words) != 1:
        print("usage: tests/page.py PROGRAM", file=sys.stderr)
        return 2
    with Pages(os.path.realpath(words[0])) as pages:
        return run("browser", [Trial(it.__name__.replace("_", " "), it, (pages,)) for it in TRIALS], alone=True, may_lack=True)


if __name__ == "__main__":
    sys.exit(main(sys.argv[1:]))
