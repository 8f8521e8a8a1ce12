#!/usr/bin/env python3
"""Prints the keys of a mapping as the lists of docs/IMPORT.md, from the one table in crates/nms_import/src/keys.rt.

    docs/keys.py --write    writes them into the page again, between two of its lines; docs/check.py compares

Neighbouring keys of one table that have the same rule are one item.
"""
import itertools
import os
import re
import sys

TOP = os.path.dirname(os.path.dirname(os.path.realpath(__file__)))
PAGE, SOURCE = "docs/IMPORT.md", "crates/nms_import/src/keys.rt"
MADE = re.compile(r"(<!-- made: keys -->\n).*?(<!-- end -->)", re.S)
TEXT = r'"((?:[^"\\]|\\.)*)"'
KINDS = ("quotes", "sides", "trades", "bests")


def read(file):
    with open(os.path.join(TOP, file), encoding="utf-8") as it:
        return it.read()


def told(text):
    """A text of the source as it is shown."""
    return re.sub(r"\\(.)", r"\1", text)


def rules(source):
    """Each rule: what is expected, and what the key is if it is absent."""
    texts = {name: told(text) for name, text in re.findall(rf"const (\w+): &str =\s*{TEXT};", source)}
    lists = dict(re.findall(r"const (\w+): &\[&'static str\] = &\[(.*?)\];", source))
    found = {}
    for name, form, needed, words, expected in re.findall(
        r'const (\w+): Rule = \(\s*Form::(\w+),\s*(\w+),\s*(&\[.*?\]|\w+),\s*(\w+|"[^;]*"),?\s*\);', source
    ):
        said = told(expected[1:-1]) if expected.startswith('"') else texts[expected]
        if not said:
            said = texts["ONE_OR_TWO"] if form == "Columns" else "a column"
        said_words = [told(it) for it in re.findall(TEXT, lists.get(words, words))]
        other = said_words and form == "Column"
        absent = f"`{said_words[0]}` has to be there" if other else "refused" if needed == "true" else ""
        if not absent and said_words and form not in ("Instead", "ZoneName"):
            absent = f"`{said_words[0]}`"
        found[name] = (said, absent)
    return found


def rows(source):
    """Each key: its table, its name, the mappings that have it, and the name of its rule."""
    kinds = dict(re.findall(r"const (\w+): Kinds = \((.*?)\);", source))
    for table, key, whose, rule in re.findall(rf"^    \({TEXT}, {TEXT}, (\w+), (\w+)\),$", source, re.M):
        having = [kind for kind, has in zip(KINDS, kinds[whose].split(", ")) if has == "true"]
        yield table, key, "all" if len(having) == len(KINDS) else ", ".join(having), rule


def made():
    """The lines of the list: a table's name, then its keys."""
    source, before = read(SOURCE), None
    known = rules(source)
    lines = []
    for (table, kinds, rule), keys in itertools.groupby(rows(source), lambda row: (row[0], row[2], row[3])):
        if not table:
            continue
        if table != before:
            lines += [f"**`{table}`**", ""] if before is None else ["", f"**`{table}`**", ""]
        before = table
        expected, absent = known[rule]
        names = ", ".join("any word" if key == "*" else f"`{key}`" for _, key, _, _ in keys)
        whose = "" if kinds == "all" else f" ({kinds})"
        said = f"; {absent} if absent" if absent else ""
        lines.append(f"- {names}{whose}: {expected}{said}")
    return "\n".join(lines) + "\n"


def page():
    """The page as it has to be."""
    return MADE.sub(lambda it: it[1] + made() + it[2], read(PAGE))


if __name__ == "__main__":
    if sys.argv[1:] == ["--write"]:
        text = page()
        with open(os.path.join(TOP, PAGE), "w", encoding="utf-8") as file:
            file.write(text)
    else:
        print(made(), end="")
