#!/usr/bin/env python3
"""Joins page.html, page.css and page.js to the three texts that every page has, and writes them as constants of a Rattle source.

    page/join.py FILE             writes FILE
    page/join.py --check FILE     writes nothing; status 1 if FILE is not what would be written

The first text ends where the plain report goes, the second where the data goes (DATA.md). The texts are ASCII: a byte is a
character. The Content-Security-Policy of the page allows its own style and its own script by their hashes, and nothing else,
so not even a script that came with the data could run.
"""
import base64
import hashlib
import os
import sys

ROOM = os.path.dirname(os.path.realpath(__file__))
NAMES = ("HEAD", "MIDDLE", "TAIL")
SAYS = ("The page up to the plain report.", "From the plain report to the data.", "What follows the data.")
# The most bytes of the page's own text.
MOST = 70_000


class Unfit(Exception):
    """Why the three files make no page."""


def read(name, room=ROOM):
    with open(os.path.join(room, name), encoding="ascii") as it:
        return it.read()


def hashed(kind, text):
    return f"{kind}-src 'sha256-{base64.b64encode(hashlib.sha256(text.encode()).digest()).decode()}'"


def texts(room=ROOM):
    """The three texts of the page."""
    page, style, script = (read(it, room) for it in ("page.html", "page.css", "page.js"))
    for text, end in ((style, "</style"), (script, "</script"), (script, "<!--")):
        if end in text:
            raise Unfit(f"a text with `{end}` in it would end its element")
    policy = f"{hashed('style', style)}; {hashed('script', script)}"
    for hole, text in (("@POLICY@", policy), ("@CSS@", style), ("@JS@", script)):
        if page.count(hole) != 1:
            raise Unfit(f"page.html has `{hole}` {page.count(hole)} times, and once is wanted")
        page = page.replace(hole, text)
    parts = page.replace("@DATA@", "@PLAIN@").split("@PLAIN@")
    if len(parts) != 3 or page.index("@PLAIN@") > page.index("@DATA@"):
        raise Unfit("page.html must have `@PLAIN@` once, and then `@DATA@` once")
    if len(page) > MOST:
        raise Unfit(f"the page has {len(page)} bytes, and at most {MOST} are wanted")
    return parts


def constant(name, says, text):
    """A constant of Rattle. A raw text ends at a quote and as many `#` as it began with."""
    fence = "#"
    while f'"{fence}' in text:
        fence += "#"
    return f'/// {says}\npub(crate) const {name}: &str = r{fence}"{text}"{fence};\n'


def source():
    """The Rattle source."""
    head = "//! The page's own text. `page/join.py` writes it, and the gate compares.\n"
    return "\n".join([head, *map(constant, NAMES, SAYS, texts())])


def main(words):
    check = words[:1] == ["--check"]
    if len(words) != 1 + check or words[-1].startswith("-"):
        print("usage: page/join.py [--check] FILE", file=sys.stderr)
        return 2
    path = words[-1]
    try:
        wanted = source()
        if not check:
            with open(path, "w", encoding="ascii") as it:
                it.write(wanted)
            return 0
        with open(path, encoding="ascii") as it:
            if it.read() == wanted:
                return 0
        print(f"{path}: page/join.py writes another text")
    except (Unfit, OSError, ValueError) as error:
        print(f"page/join.py: {error}", file=sys.stderr)
    return 1


if __name__ == "__main__":
    sys.exit(main(sys.argv[1:]))
