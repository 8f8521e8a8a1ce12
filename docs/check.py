#!/usr/bin/env python3
"""Checks that what the pages name is there, and that what is said in two places is said alike.

    docs/check.py

It reads the pages (README.md, CHANGELOG.md, docs/, examples/README.md, tests/README.md), the help and the sources; it
proves and builds nothing. Each part below says what it looks at. It writes a line for each difference, and last `N passed,
M failed`; status 1 where one failed.
"""
import os
import re
import shutil
import subprocess
import string
import sys

import claims
import draw_crates
import keys

TOP = os.path.dirname(os.path.dirname(os.path.realpath(__file__)))
sys.path[:0] = [f"{TOP}/tests", f"{TOP}/page"]
import edits
import join

# The page's own text as a constant.
PAGE_TEXT = "crates/nms_drawing/src/page_text.rt"

# Lines and words of the front page, and words of a sentence there.
MOST_LINES, MOST_FRONT, MOST_WORDS = 130, 900, 25
# Words of all pages, with what they show of files and answers.
MOST_PAGES = 36_000
# How often a word of this repository's own dialect may be in all pages together, and in all comments of the crates.
MOST_DIALECT = 5
# Columns of a definition or a proof.
MOST_COLUMNS = 148
# The limits in README.md: the constant of the sources, and what it counts.
LIMITS = (("MOST_RECORDS", "records of a script"), ("MOST_CHANGES", "changes of a tape"), ("MOST_SYMBOLS", "symbols"),
          ("MOST_PARTICIPANTS", "participants"), ("MOST_FEEDS", "feeds"), ("MOST_DESKS", "desks"), ("MOST_QUEUE", "changes in the queue"),
          ("MOST_EXECUTIONS", "executions"))
SPAN = re.compile(r"`([^`]+)`")
# It prints what is checked as a page.
CLAIMS = "docs/claims.py"
# The files of a release, which build/release makes: a tree may have none.
RELEASED = {"release", "release/x86_64-linux"}
RELEASED |= {f"release/x86_64-linux/{it}" for it in "PROVED SHA256SUMS libnms.a libnms.so nms_examples nms_review nms_serve nms_tool".split()}
CELLS = 0
# Folders of an installation, whose files packages/check.py compares with what docs/INSTALL.md says.
INSTALLED = ("bin", "lib", "share")
CODE = re.compile(r"\b([A-Z])(\d{1,2})\b")


def read(file):
    with open(os.path.join(TOP, file), encoding="utf-8") as it:
        return it.read()


# The tree.

def files_of():
    """Every file of the repository, but what is built."""
    found = set()
    for folder, below, names in os.walk(TOP):
        below[:] = [it for it in below if it not in (".git", "out", "target", "__pycache__")]
        found.update(os.path.relpath(os.path.join(folder, it), TOP) for it in names)
    return found


FILES = files_of()
FOLDERS = {os.path.dirname(it) for it in FILES} | {os.path.dirname(os.path.dirname(it)) for it in FILES}
PAGES = sorted(it for it in FILES if it in ("README.md", "CHANGELOG.md") or re.fullmatch(r"(docs|examples|tests)/\w+\.md", it))
CRATES = list(claims.crates.listed())
PORTED = set(re.findall(r"[a-z]\w+", re.sub(r"#.*|\w+=\S+", "", read("crates.txt"))))


def source(file):
    """A source without its comments, in which there may be names of things that are gone."""
    return re.sub(r"--[^\n]*" if file.endswith(".antt") else r"//[^\n]*", "", read(file))


class Crate:
    """The words of a crate's sources, definitions and proofs, and its edits."""

    def __init__(self, name):
        mine = sorted(it for it in FILES if it.startswith(f"crates/{name}/"))
        self.name = name
        self.src = "\n".join(source(it) for it in mine if it.endswith(".rt") and "/src/" in it)
        others = "\n".join(source(it) for it in mine if "/specs/" in it or "/proofs/" in it)
        self.words = set(re.findall(r"\w+", f"{self.src} {others} {' '.join(mine)}"))
        self.edits = {os.path.basename(it)[:-5] for it in mine if it.endswith(".edit")}


TREE = {name: Crate(name) for name in CRATES}
SCRIPTS = [it for it in FILES if re.search(r"\.(py|sh|toml|edit|c|cpp|hpp|h|rs)$|^gate$|^nms_(tool|review|serve|lib)$|^bench/latency$|^(?:build|packages)/|^crates\.txt$|Cargo|peer/", it)]
TITLES = "\n".join(re.findall(r"^(?:==|--) .*", "\n".join(read(it) for it in sorted(FILES) if it.endswith(".cases")), re.M))
WORDS = set().union(*(it.words for it in TREE.values()), re.findall(r"\w+", TITLES),
                    *(re.findall(r"\w+", read(it)) for it in SCRIPTS if it != "docs/check.py"))


def codes_of_sources():
    """Each code of a refusal, with the names that it has."""
    found = {}
    for crate in TREE.values():
        told = "\n".join(read(it) for it in FILES if re.fullmatch(rf"crates/{crate.name}/src/.*\.rt", it))
        for code, name in re.findall(r"/// ([A-Z]\d+): [^\n]*\n(?:\s*(?:///|#\[)[^\n]*\n)*\s*(?:pub (?:struct|enum) )?([A-Z]\w+)", told):
            found.setdefault(code, set()).add(name)
        for code, name in re.findall(r'#\[error\("([A-Z]\d+)[:"][^\]]*\]\s*(\w+)', crate.src):
            found.setdefault(code, set()).add(name)
        for code, name in re.findall(r'#\[error\("([A-Z]\d+)[:"][^\]]*\]\s*(?:#\[[^\]]*\]\s*)*pub (?:enum|struct) (\w+)', crate.src):
            found.setdefault(code, set()).add(name)
        for arm, code in re.findall(r'([^\n]*)=>\s*"([A-Z]\d+)"', crate.src):
            found.setdefault(code, set()).update(re.findall(r"\b\w+::(\w+)", arm))
    return found


CODES = codes_of_sources()
FAMILIES = {it[0] for it in CODES}
# What a program says to do about codes: the codes of an arm, and the text without its backquotes.
REMEDIES = [(arm, text.replace('\\"', '"').replace("`", "")) for arm, text in
            re.findall(r'((?:Code::\w+[\s|]*)+)=>\s*{?\s*"((?:[^"\\]|\\.)+)"', read("crates/nms_codes/src/remedies.rt"))]
COUNT = {"passed": 0, "failed": 0}


def check(holds, page, fault):
    COUNT["passed" if holds else "failed"] += 1
    if not holds:
        print(f"DIFFERS: {page}: {fault}")


def prose(page):
    """A page without its blocks, or what docs/claims.py prints."""
    text = "\n".join(map(claims.printed, claims.known())) if page == CLAIMS else read(page)
    return re.sub(r"^(```+)[^\n]*\n.*?^\1$", "", text, flags=re.M | re.S)


def blocks(page):
    """The blocks of a page, each with its language."""
    return [(it[1], it[2]) for it in re.findall(r"^(```+)([^\n]*)\n(.*?)^\1$", read(page), flags=re.M | re.S)]


def rows(text):
    """The rows of the tables of a text, each by the words of its table's head."""
    head = None
    for line in text.split("\n"):
        cells = [it.strip() for it in line.strip().strip("|").split("|")] if line.startswith("|") else None
        if cells is None:
            head = None
        elif head is None:
            head = cells
        elif not all(re.fullmatch(r":?-+:?", it) for it in cells):
            yield {**dict(zip(head, cells)), CELLS: cells}


def sections(page, level):
    """The parts of a page under its headings of a level."""
    pieces = re.split(rf"^{'#' * level} (.*)$", prose(page), flags=re.M)
    return dict(zip(pieces[1::2], pieces[2::2]))


# What a page names in backquotes.

def is_stand_in(word):
    return bool(re.search(r"NAME|\b[A-Z]{2,}(_[A-Z]+)*\b|\.\.\.|…|\$", word)) and not re.search(r"README|HANDLES|docs/", word)


def has_path(page, path):
    """Whether a file or a folder is there, by its path from the top, from the page, from examples/ or from a crate."""
    path = path.rstrip("/.,").split("#")[0]
    if path.startswith("./"):
        path = path[2:]
    places = ["", f"{os.path.dirname(page)}/", "examples/", "tests/", "tests/cases/", "bench/", "build/", "docs/", "include/", "packages/", "packages/files/", "crates/"]
    places += [f"crates/{it}/{below}" for it in CRATES for below in ("", "src/", "specs/", "proofs/", "src/trials/")]
    for place in places:
        whole = os.path.normpath(place + path)
        pattern = re.escape(whole).replace(r"\*", "[^/]*") + r"(\.antt|\.rt)?"
        if whole in FILES or whole in FOLDERS or whole in RELEASED or f"{whole}.antt" in FILES:
            return True
        if "*" in whole and any(re.fullmatch(pattern, it) for it in FILES):
            return True
    return False


# The sources that a block of a language is text of.
ENDS_OF = {"rust": (".rt", ".rs"), "c": (".c",), "cpp": (".cpp",), "python": (".py",)}
KNOWN_ENDS = r"\.(rt|antt|py|sh|md|edit|cases|script|changes|plan|out|toml|report|txt|orders|feed|feed_a|feed_b|planned|check|c|cpp|hpp|h|rs)$"


def is_path(word):
    return bool(re.fullmatch(r"[\w./*-]+", word)) and not re.fullmatch(r"[./]+|\.\w+|-.*|\d.*", word) \
        and (bool(re.search(KNOWN_ENDS, word)) or "/" in word)


def named(page, span):
    """Checks one span: the files, crates and names that it has."""
    words = span.split()
    for word in words:
        word = word.strip("(),;:'\"")
        if is_path(word) and not word.startswith("/") and not is_stand_in(word):
            check(has_path(page, word) or word.split("/")[0] in ("out", "KIT", *INSTALLED) or "/out" in word, page, f"no file `{word}`")
    for word in re.findall(r"\bnms_\w+", span):
        check(word in CRATES or word in WORDS, page, f"no crate `{word}`")
    if re.fullmatch(r"[A-Za-z_]\w*(::\w+)*(\(\))?", span) and not is_stand_in(span) and len(span) > 2:
        for part in re.findall(r"\w+", span):
            check(part in WORDS or part in PORTED or part in CODES or has_path(page, part), page, f"nothing is named `{part}`")


def check_names():
    """Each file, crate, function, type, clause, edit and test in backquotes is there; `X` of a crate is that crate's."""
    for page in (*PAGES, CLAIMS):
        text = prose(page)
        for span in SPAN.findall(text):
            named(page, span)
        for word in re.findall(r"\b((?:examples|crates|docs|bench|build|tests|include|release)/[\w./-]+)", "\n".join(re.findall(r"^    .*", text, re.M))):
            check(has_path(page, word) or "/out" in word, page, f"no file `{word}`")
        for span, crate in re.findall(r"`([A-Za-z_][\w:]*)`(?: and `\w+`)? of `(nms_\w+)`", text):
            if crate in TREE:
                for part in re.findall(r"\w+", span):
                    check(part in TREE[crate].words, page, f"`{span}` is not of `{crate}`")


def check_codes():
    """Each code that a page names is one of the sources; help and ERRORS.md have all of them, by their names."""
    for page in (*PAGES, CLAIMS):
        for letter, number in CODE.findall(prose(page)):
            if letter in FAMILIES:
                check(letter + number in CODES, page, f"no code {letter}{number}")
    text = read("crates/nms_words/src/help_text.rt")
    helped = re.findall(r"^  ([A-Z]\d+) ", text, re.M)
    told = [(code, [name]) for code, name, _ in coded_items()]
    for code in sorted(CODES):
        # Those of imports, comparisons, times and executions are only of the reviewer's program, whose help names none.
        if code[0] not in "HIJMX":
            check(helped.count(code) == 1, "the help", f"{code} stands there {helped.count(code)} times")
        check([it for it, _ in told].count(code) == 1, "docs/ERRORS.md", f"{code} has {[it for it, _ in told].count(code)} items")
    for code in helped:
        check(code in CODES, "the help", f"no code {code}")
    worded = "".join(read(f"crates/{it}.rt") for it in ("nms_codes/src/code", "nms_explain/src/execution_code", "nms_explain/src/other_codes"))
    for code in sorted(CODES):
        check(f'"{code}"' in worded, "`explain code`", f"no words for {code}")
    for code, names in told:
        check(bool(set(names) & CODES.get(code, set())), "docs/ERRORS.md", f"{code} is {sorted(CODES.get(code, []))}, and not {names}")
    check_remedies()


def coded_items():
    """The items of ERRORS.md: the code, its name, and what is said about it."""
    return re.findall(r"^- \*\*([A-Z]\d+)\*\* `(\w+)`: (.*)$", prose("docs/ERRORS.md"), re.M)


def check_remedies():
    """The remedies of `nms_codes` are those of ERRORS.md: each is part of the item of its code, or of the item which that names."""
    page, said, out_of_memory = "docs/ERRORS.md", {}, set()
    for code, name, text in coded_items():
        said[code] = said.get(code, "") + re.sub(r"\[([^]]*)\]\([^)]*\)", r"\1", text)
        out_of_memory |= {code} if name == "NoMemory" else set()
    for arm, remedy in REMEDIES:
        for code in sorted(set(re.findall(r"Code::([A-Z]\d+)\b", arm)) - out_of_memory):
            told = said.get(code, "")
            told += said.get((re.findall(r"As ([A-Z]\d+)", told) or [""])[0], "")
            check(remedy.lower() in told.replace("`", "").lower(), page, f"{code}: `nms_codes` has: {remedy}")


def reviewed_statuses():
    """The status of each code with which the reviewer's program ends a call, by the matter of the code."""
    matters = re.findall(r"((?:Code::\w+[\s|]*)+)=>\s*Matter::(\w+)", read("crates/nms_codes/src/code.rt"))
    ends = re.findall(r"((?:Matter::\w+[\s|]*)+)=>\s*(\d)", read("crates/nms_codes/src/matter.rt"))
    status = {matter: it for arm, it in ends for matter in re.findall(r"Matter::(\w+)", arm)}
    return {code: status[matter] for arm, matter in matters for code in re.findall(r"Code::([A-Z]\d+)\b", arm)}


def codes_in(text):
    """The codes of a text, those between the ends of `X to Y` among them."""
    found = set()
    for letter, first, last in re.findall(r"\b([A-Z])(\d+)(?: to [A-Z](\d+))?", text):
        found.update(f"{letter}{it}" for it in range(int(first), int(last or first) + 1))
    return found


def check_statuses():
    """The statuses in ERRORS.md are those that the gate sees each code end with; L9 ends nothing by itself."""
    exits = read("tests/cases/texts.cases").split("== text exits\n-- gives\n")[1].split("==")[0]
    status = {code: it for code, it in re.findall(r"^([A-Z]\d+) (\d)$", exits, re.M) if code != "L9"}
    page = "docs/ERRORS.md"
    listed = {row["Status"]: codes_in(row["Codes"]) for row in rows(prose(page)) if "Codes" in row and "Status" in row}
    for code, it in sorted([*status.items(), *reviewed_statuses().items()]):
        check(code in listed.get(it, ()) or code == "L9", page, f"{code} is not listed under status {it}")
    for it, codes in sorted(listed.items()):
        for code in sorted(codes):
            check(status.get(code, it) == it, page, f"{code} ends with {status.get(code)}, and not {it}")
    for row in rows(prose(page)):
        if "Code" in row and re.fullmatch(r"\d", row.get("Status", "")) and row["Code"] in status:
            check(row["Status"] == status[row["Code"]], page, f"{row['Code']} ends with {status[row['Code']]}")


# Links.

def anchor(heading):
    return re.sub(r"[^\w\- ]", "", re.sub(r"[`*]", "", heading).lower()).replace(" ", "-")


def check_links():
    """Each link leads to a file, and each anchor to a heading of it."""
    for page in PAGES:
        for target in re.findall(r"\]\(([^)\s]+)\)", prose(page)):
            path, _, place = target.partition("#")
            file = os.path.normpath(os.path.join(os.path.dirname(page), path)) if path else page
            check(file in FILES, page, f"no file behind the link to {target}")
            if place and file in FILES:
                headings = re.findall(r"^#+ (.*)$", prose(file), re.M)
                check(place in map(anchor, headings), page, f"no heading behind the link to {target}")


# What is made of the sources.

def check_made():
    """What CLAIMS.md shows of docs/claims.py, the keys of IMPORT.md, the picture of the crates and the page's text are as the sources have them."""
    page = "docs/CLAIMS.md"
    shown = [text for _, text in blocks(page)]
    check(shown == [claims.printed(re.match("## (.*)", it)[1]) for it in shown], page, "docs/claims.py prints another block")
    for name, it in sorted(claims.tree().items()):
        if it.functions and name not in ("nms_examples", "nms_tests"):
            check("`" in claims.printed(name), CLAIMS, f"it prints no claim of `{name}`")
    check(read(keys.PAGE) == keys.page(), keys.PAGE, "docs/keys.py --write writes its list of keys otherwise")
    check(read("docs/crates.svg") == draw_crates.drawn(), "docs/crates.svg", "docs/draw_crates.py draws another picture")
    check(read(PAGE_TEXT) == join.source(), PAGE_TEXT, "page/join.py writes another text")
    page = "docs/ARCHITECTURE.md"
    listed = SPAN.findall("\n".join(row[CELLS][0] for row in rows(prose(page)) if "Never knows" in row))
    for name in CRATES:
        check(listed.count(name) == 1, page, f"`{name}` has {listed.count(name)} rows among the crates")


# Proofs.

def check_imports():
    """A proof cites a lower crate's lemmas through the file in which that crate offers them, which offers no others."""
    cited = {}
    for file in sorted(it for it in FILES if it.endswith(".antt")):
        own, text = file.split("/")[1], source(file)
        for crate, module in re.findall(r"\bRattle\.(nms_\w+)\.proofs\.(\w+)", text):
            check(crate == own or module == "Offered", file, f"cites {module} of {crate}, which offers no lemmas")
        for crate, names in re.findall(r"\bRattle\.(nms_\w+)\.proofs\.Offered(?:\.\{([^}]*)\}| as )", text):
            cited.setdefault(crate, set()).update(re.findall(r"[^\s,]+", names or text))
    for file in sorted(it for it in FILES if it.endswith("/proofs/Offered.antt")):
        for name in re.findall(r"[^\s,]+", " ".join(re.findall(r"\{([^}]*)\}", source(file)))):
            there = any(name in it or f"sums.{name}" in it for it in (cited.get(file.split("/")[1], set()),))
            check(there, file, f"no crate above cites {name}")


def check_proofs():
    """A line of a definition or a proof fits a screen, and a file of answers says which function and clause it is for."""
    for file in sorted(it for it in FILES if it.endswith(".antt")):
        text = read(file)
        widest = max(map(len, text.split("\n")))
        check(widest <= MOST_COLUMNS, file, f"a line of {widest} columns, and at most {MOST_COLUMNS} are wanted")
        if re.search(r"/proofs/.*/(Answers|Invariants|Proof)\.antt$", file):
            name = file.split("/")[-2]
            head = re.match(r"(?:--[^\n]*\n)*", text)[0]
            check(bool(re.search(rf"\b{name}\b", head)), file, f"its head does not name `{name}`")


# What is said twice.

def sentences(text):
    """The sentences of a text: its paragraphs, the items of its lists, and the cells of its tables."""
    for line in text.split("\n"):
        if line.startswith((">", "    ", "#")):
            continue
        for cell in line.split("|") if line.startswith("|") else [line.lstrip("- ")]:
            plain = re.sub(r"\]\([^)]*\)", "]", cell)
            yield from re.split(r"(?<=[.?!;])[*]*\s+(?=[^a-z]|$)", plain)


def words_of(text):
    """The words of a text, without the bars of its tables."""
    return [it for it in text.split() if re.search(r"\w", it)]


def check_front():
    """README.md is short, and all pages together; its sentences are; its example is that of examples/. The blocks of CALLING.md with no language are files there."""
    page = "README.md"
    lines = read(page).count("\n")
    check(lines <= MOST_LINES, page, f"{lines} lines, and at most {MOST_LINES} are wanted")
    words = len(words_of(prose(page)))
    check(words <= MOST_FRONT, page, f"{words} words, and at most {MOST_FRONT} are wanted")
    for head, file in (("Input", "examples/sweep.script"), ("Output", "examples/sweep.out")):
        shown = [SPAN.findall(row[head])[0] for row in rows(prose(page)) if head in row]
        check(shown == read(file).splitlines(), page, f"its table `{head}` is not {file}")
    for sentence in sentences(prose(page)):
        count = len(re.findall(r"[\w`][\w`.,:/()'-]*", sentence))
        check(count <= MOST_WORDS, page, f"a sentence of {count} words: {sentence[:60]}..")
    words = sum(len(words_of(read(it))) for it in PAGES)
    check(words <= MOST_PAGES, "docs/", f"{words} words in all pages, and at most {MOST_PAGES} are wanted")
    shown = {read(it) for it in FILES if it.startswith("examples/") and not it.endswith((".md", ".py"))}
    for page in (page, "docs/CALLING.md"):
        for language, text in blocks(page):
            check(bool(language) or text in shown, page, f"a block that is no file of examples/: {text[:40]!r}")


def check_twice():
    """Speeds, limits and numbers of edits and of lines are said alike; a block of a language is text of a source."""
    number = r"\b\d{1,3}(?:,\d{3})+\b|\b\d\.\d+\b"
    for fast in re.findall(number, sections("README.md", 2)["Speed"]):
        check(fast in read("docs/PERFORMANCE.md"), "README.md", f"{fast} does not stand in docs/PERFORMANCE.md")
    limits = next(row[CELLS][1] for row in rows(prose("README.md")) if row[CELLS][0] == "Limits")
    constants = dict(re.findall(r"pub const (MOST_\w+): \w+ = ([\d_]+);", "\n".join(it.src for it in TREE.values())))
    told = [f"{int(constants[name].replace('_', '')):,} {noun}" for name, noun in LIMITS]
    for limit in told:
        check(limit in limits, "README.md", f"the sources have the limit `{limit}`")
        most = limit.split()[0]
        there = re.search(rf"(?<![\d,]){most}(?![\d,]| CFR)", read("docs/FORMATS.md") + read("docs/ERRORS.md"))
        check(bool(there), "README.md", f"the limit {most} stands in no other page")
    check(len(re.findall(r"\d[\d,]*", limits)) == len(told), "README.md", "it has a limit that the sources do not have")
    page = "docs/CERTIFICATE.md"
    for names, crate, count in re.findall(r"\(([^()]*) in `specs/` of `(nms_\w+)`, (\d+) lines with their heads", prose(page)):
        lines = sum(read(f"crates/{crate}/specs/{it}.antt").count("\n") for it in SPAN.findall(names))
        check(lines == int(count), page, f"{count} lines of {names}, and there are {lines}")
    edits = sum(len(it.edits) for it in TREE.values())
    for page in PAGES:
        for count in re.findall(r"\b(\d+) edits\b", prose(page)):
            check(int(count) == edits, page, f"{count} edits, and there are {edits}")
        for language, text in blocks(page):
            if language in ENDS_OF:
                there = any(text.strip() in read(it) for it in FILES if it.endswith(ENDS_OF[language]))
                check(there, page, f"a block that no source has: {text.strip()[:60]!r}")


def kit_there():
    """The toolchain that `rt version` names; none if `rt` is not on the path."""
    command = shutil.which("rt")
    said = subprocess.run([command, "version"], capture_output=True, text=True, check=False).stdout if command else ""
    return re.findall(r"^rattle-kit-\w+", said)


def check_kit():
    """The pages name one toolchain by its number, which README.md names once. The one that is there has that number, and any
    letter after it: machines differ by the letter."""
    page, kits = "README.md", {kit: page for page in PAGES for kit in re.findall(r"\brattle-kit-\w+", read(page))}
    check(len(kits) < 2, ", ".join(sorted(kits.values())), f"two toolchains are named: {', '.join(sorted(kits))}")
    named = re.findall(r"\brattle-kit-\w+", read(page))
    check(len(named) == 1, page, f"it names the toolchain {len(named)} times, and one is wanted")
    for kit in kit_there():
        check(kit.rstrip(string.ascii_lowercase) in named, page, f"it names {named}, and `rt version` prints {kit}")


def plain(page, allowed):
    """The words of a page that may be others: no headline, no case's title, no remedy that a program prints, nothing in backquotes,
    none of the phrases that are right."""
    text = re.sub(r"^> .*$", "", prose(page), flags=re.M)
    for _, remedy in REMEDIES:
        text = re.sub("`?".join(["", *map(re.escape, remedy), ""]), "", text, flags=re.I)
    text = re.sub(r"\]\([^)]*\)", "]", re.sub(r"`[^`\n]+`", "_", text))
    for right in sorted((*allowed, *re.findall(r"^== \w+ (.+)$", TITLES, re.M)), key=len, reverse=True):
        text = text.replace(right, "")
    return text


def commented(file, terms):
    """The comments of a source, one a line, without what is in backquotes and without the terms that are right."""
    blocks = re.findall(r"(?:^[ \t]*(?:--|//[/!]?).*\n)+", read(file), re.M)
    text = "\n".join(" ".join(re.sub(r"^[ \t]*(?:--|//[/!]?)", "", it, flags=re.M).split()) for it in blocks)
    text = re.sub(r"`[^`\n]+`", "_", text)
    for right in sorted(terms, key=len, reverse=True):
        text = text.replace(right, "")
    return text


def check_dialect(where, texts, words, better):
    """Some texts have the words of a line of the dialect at most five times together."""
    # A word with a capital letter is one that begins a sentence.
    pattern = "|".join(map(re.escape, words.split(", ")))
    fronted = re.compile(rf"\b(?:{pattern})\b", re.I) if words.islower() else re.compile(rf"^\W*(?:{pattern})\b")
    found = [(name, sentence) for name, text in texts.items() if words.islower() is False or fronted.search(text)
             for sentence in sentences(text) for _ in fronted.findall(sentence)]
    check(len(found) <= MOST_DIALECT, where, f"`{words}` {len(found)} times, better `{better}`: " + "; ".join(f"{name}: {it[:60]}" for name, it in found))


def check_plain():
    """The pages have none of the words of docs/words_to_avoid.txt, and those of its dialect at most five times in all of them; so
    do the comments of the crates."""
    lines = [it for it in read("docs/words_to_avoid.txt").split("\n") if it and not it.startswith("#")]
    allowed = [it[1:].strip() for it in lines if it.startswith("+")]
    listed = [it.split(": ", 1) for it in lines if it[0] not in "+=~"]
    texts = {page: plain(page, allowed) for page in PAGES}
    terms = allowed + [it[1:].strip() for it in lines if it.startswith("=")]
    said = {file: commented(file, terms) for file in sorted(FILES) if re.fullmatch(r"crates/\w+/(src|specs|proofs)/.*\.(rt|antt)", file)}
    said.pop(PAGE_TEXT)
    for words, better in (it[1:].strip().split(": ", 1) for it in lines if it.startswith("~")):
        check_dialect("the pages", texts, words, better)
        check_dialect("the comments", said, words, better)
    for page, text in texts.items():
        for word, better in listed:
            for found in re.finditer(rf"\b{re.escape(word)}\b", text, re.I):
                line = text[text.rfind("\n", 0, found.start()) + 1:].split("\n")[0]
                check(False, page, f"`{found[0]}`, better `{better}`: {line[:60]}..")
        check(True, page, "")


def check_cases():
    """tests/README.md lists each file of cases."""
    page = "tests/README.md"
    for file in sorted(FILES):
        if re.fullmatch(r"tests/(cases/)?\w+\.cases", file):
            check(f"`{os.path.basename(file)}`" in read(page), page, f"`{file}` is not listed")


def check_edits():
    """Each edit of must-fail/ and wrong/ fits its source. One of wrong/ says what is wrong, and names a function that is there."""
    for file in sorted(FILES):
        place = re.fullmatch(r"crates/(\w+)/(must-fail|wrong)/.*", file)
        if place:
            check(file.endswith(".edit"), file, "it is no edit")
            edit = edits.read_edit(os.path.join(TOP, file))
            check(bool(edit.changes), file, "it changes nothing")
            try:
                edit.texts(f"{TOP}/crates/{place[1]}")
                check(True, file, "")
            except (edits.Unfit, OSError) as error:
                check(False, file, str(error))
            if place[2] == "wrong":
                check(bool(edit.says), file, "no line `# ..` says what is wrong")
                check(has_function(place[1], edit.function), file, f"there is no function `{edit.function}`")


def has_function(crate, path):
    """Whether a crate has a function in that module. A method may be in any file that has an `impl` of its type."""
    *modules, name = path.split("::")
    owner = ""
    while modules and not modules[-1][:1].islower():
        owner = modules.pop()
    folder = f"crates/{crate}/src/"
    file = f"{folder}{'/'.join(modules)}.rt"
    inside = [file] + [it for it in FILES if owner and it.startswith(folder) and re.search(rf"^impl\b.*\b{owner}\b", read(it), re.M)]
    return file in FILES and any(re.search(rf"\bfn {name}\b", read(it)) for it in inside)


def main():
    for part in (check_names, check_codes, check_statuses, check_links, check_made, check_imports, check_proofs, check_front, check_twice,
                 check_kit, check_plain, check_cases, check_edits):
        part()
    print(f"{COUNT['passed']} passed, {COUNT['failed']} failed")
    return 1 if COUNT["failed"] else 0


if __name__ == "__main__":
    sys.exit(main())
