#!/usr/bin/env python3
"""Prints what the sources promise; docs/CLAIMS.md says how to read it.

    docs/claims.py [NAME..]    prints the claims of the crates of these names, or of all. `faults` are the codes of each fault,
                               `memory` the calls that may take memory, `types` the public types of the crates below nms_tool,
                               `bodies` the wrong bodies that a test was seen to refuse, or a contract lets through (wrong_bodies.txt)

The claims of a crate are its public functions: the first sentence of the comment without its CFR section (docs/RULES.md has
those), the names of the clauses, and the fault. A type has its file and the first sentence of its comment, up to the colon of a
long one. Below a crate's tables is what they leave out, from claims_notes.txt.
"""
import functools
import os
import re
import sys

TOP = os.path.dirname(os.path.dirname(os.path.realpath(__file__)))
sys.path.insert(0, f"{TOP}/build")
import crates

# Words of a sentence that is printed in full with a type.
MOST_WORDS = 18
# The names of clauses that say a number and its bounds.
NUMBERS = {"number", "value", "place", "count", "at", "low", "high", "within", "below"}


def read(file):
    with open(os.path.join(TOP, file), encoding="utf-8") as it:
        return it.read()


def sources(crate):
    """The sources of a crate, but its tests and trials."""
    found, folder = [], f"crates/{crate}/src"
    for where, below, names in os.walk(os.path.join(TOP, folder)):
        below[:] = sorted(it for it in below if it not in ("trials", "tests"))
        found += [os.path.relpath(os.path.join(where, it), TOP) for it in sorted(names) if it.endswith(".rt")]
    return found


def first_sentence(comment):
    """The first sentence of a comment, as the row of a table can have it."""
    text = " ".join(comment).strip()
    paragraph = re.split(r" {2,}| \n", text)[0]
    return re.match(r"(?:.*?[.?!:])(?=\s+[A-Z`]|$)|.*", paragraph)[0].rstrip(":").strip().replace("|", "\\|")


def without_sections(text):
    """A sentence without the parenthesis that names its CFR section, which may have others in it."""
    found = re.search(r" \((?:17 CFR|this product's own rule)", text)
    if not found:
        return text
    depth, at = 0, found.start() + 1
    for at in range(found.start() + 1, len(text)):
        depth += {"(": 1, ")": -1}.get(text[at], 0)
        if not depth:
            break
    return without_sections(text[:found.start()] + text[at + 1:])


class Item:
    """A public type or function: its name with its type, file, comment and clauses, and what it returns."""

    def __init__(self, name, file, comment, header=""):
        self.name, self.file = name, file
        whole = first_sentence(comment)
        self.says, self.has_section = without_sections(whole), "CFR" in whole
        self.clauses = re.findall(r"^\s*ensures\s+(?:\*\s*)?(\w*)", header, re.M)
        returned = re.search(r"->\s*(.*?)(?=\n\s*(?:requires|ensures)|\s*\{|$)", header, re.S)
        self.returned = returned[1] if returned else ""
        self.header, self.comment = header, comment

    def promised(self):
        return ", ".join(f"`{it}`" for it in dict.fromkeys(self.clauses) if it)

    def is_number(self):
        """Whether it gives a number, and its clauses say that number and its bounds, and no more."""
        return len(self.clauses) > 1 and set(self.clauses) <= NUMBERS and "Option" not in self.returned


def comment_over(lines, at):
    """The comment over a line, with attributes between them or not; a blank comment line ends a paragraph."""
    found = []
    while at and re.match(r"\s*(///|#\[)", lines[at - 1]):
        at -= 1
        if "///" in lines[at]:
            found.insert(0, lines[at].strip()[3:].strip())
    return found[:found.index("")] if "" in found else found


def header_at(lines, at):
    """The text of a function from its name to its body."""
    indent, found = re.match(r"\s*", lines[at])[0], []
    for line in lines[at:]:
        if re.match(rf"{indent}(\{{|\}}|///|#\[)", line) or found and re.match(rf"{indent}(pub |fn |ghost )", line):
            break
        found.append(line)
        if len(found) == 1 and re.search(r"[{};]\s*$", line):
            break
    return "\n".join(found)


class Crate:
    """The public types and functions of a crate, in the order of its files."""

    def __init__(self, name):
        self.name, self.types, self.functions, self.enums = name, {}, [], {}
        root = next(it for it in (f"crates/{name}/src/lib.rt", f"crates/{name}/src/main.rt") if os.path.exists(os.path.join(TOP, it)))
        text = read(root)
        mods = set(re.findall(r"^(?:pub )?mod (\w+);", text, re.M))
        passed = re.findall(r"pub use (\w+)(?:::\w+)*::(?:\{([^}]*)\}|(\w+));", text)
        self.offered = {it.strip() for mod, many, one in passed if mod in mods for it in (many or one).split(",")}
        for file in sources(name):
            self.read_file(file)

    def read_file(self, file):
        lines, inside = read(file).split("\n"), None
        short = file.split("/src/")[1]
        for at, line in enumerate(lines):
            if line.startswith("impl"):
                found = re.match(r"impl(?:<.*?>)? (?:(\w+)(?:<.*?>)? for )?(\w+)", line)
                inside = found[2] if found and not found[1] else None
            elif line == "}":
                inside = None
            kind = re.match(r"pub (?:struct|enum) (\w+)", line)
            if kind and kind[1] in self.offered:
                self.types[kind[1]] = Item(kind[1], short, comment_over(lines, at))
                self.enums[kind[1]] = "\n".join([*(f"/// {it}" for it in comment_over(lines, at)), *lines[at:at + 1 if line.endswith(";") else lines.index("}", at)]])
            function = re.match(r"( *)pub fn (\w+)", line)
            if function and (inside in self.offered if function[1] else function[2] in self.offered):
                name = f"{inside}::{function[2]}" if function[1] else function[2]
                self.functions.append(Item(name, short, comment_over(lines, at), header_at(lines, at)))


@functools.cache
def tree():
    return {it: Crate(it) for it in crates.listed()}


def codes_of(kind, seen=(), within=None):
    """The codes that the comments of a fault's variants name, and those of the faults that the variants carry: of two faults of one
    name, that of a crate below the carrier's."""
    found = set()
    for crate, text in ((it.name, it.enums[kind]) for it in tree().values() if kind in it.enums and it.name in (within or tree())):
        named = " ".join(re.findall(r"///.*|^[^/]*#\[error.*", text, re.M))
        for letter, first, last in re.findall(r"\b([A-Z])(\d{1,2})(?: to [A-Z](\d+))?(?=[:,; ])", named):
            found.update(f"{letter}{at}" for at in range(int(first), int(last or first) + 1))
        for carried in set(re.findall(r"\b(\w+Fault)\b", text)) - {kind, *seen}:
            found.update(codes_of(carried, (*seen, kind), {crate} | below(crate)))
    return sorted(found, key=lambda it: (it[0], int(it[1:])))


def shortened(codes):
    """Codes, with those that follow each other as `X1-X3`."""
    runs = []
    for code in codes:
        letter, number = code[0], int(code[1:])
        if runs and runs[-1][0] == letter and runs[-1][2] == number - 1:
            runs[-1][2] = number
        else:
            runs.append([letter, number, number])
    return ", ".join(f"{letter}{first}" if first == last else f"{letter}{first}-{letter}{last}" for letter, first, last in runs)


def fault_column(function):
    """The fault that a function may return, if it has codes."""
    kinds = re.findall(r"\b[A-Z]\w+\b", function.returned)
    return ", ".join(f"`{it}`" for it in kinds if is_fault(it))


def is_fault(kind):
    """Whether a type is why a call refuses, and has codes."""
    return (kind.endswith("Fault") or kind in ("Breach", "Doubt", "Full", "NotEmpty", "NoReading", "Unsettled")) and bool(codes_of(kind))


def faults():
    """The codes of each fault."""
    kinds = dict.fromkeys(it for crate in tree().values() for it in crate.enums if is_fault(it))
    return "\n".join(["|Fault|Codes|", "|---|---|", *(f"|`{it}`|{shortened(codes_of(it))}|" for it in kinds)]) + "\n"


def is_out_of_memory(kind, seen=()):
    """Whether a fault can be out of memory: by one of its variants, or by a fault that it carries."""
    text = "\n".join(it.enums[kind] for it in tree().values() if kind in it.enums)
    carried = set(re.findall(r"\b(\w+Fault)\b", text)) - {kind, *seen}
    return "NoMemory" in text or any(is_out_of_memory(it, (*seen, kind)) for it in carried)


def may_take_memory(function):
    """Whether a function's signature names an allocator, or a fault that can be out of memory."""
    signature = re.split(r"\n\s*(?:requires|ensures)", function.header)[0]
    kinds = re.findall(r"\b\w+Fault\b", function.returned)
    return bool(re.search(r"\b(AllocGlobal|Global|AllocError)\b", signature)) or any(map(is_out_of_memory, kinds))


def memory():
    """The calls that may take memory."""
    rows = {crate.name: [it.name for it in crate.functions if may_take_memory(it)] for crate in tree().values()}
    made = [f"|`{crate}`|{', '.join(f'`{it}`' for it in names)}|" for crate, names in rows.items() if names]
    return "\n".join(table("|Crate|Calls|", made)) + "\n"


def edits_of(crate, part):
    folder = os.path.join(TOP, "crates", crate, part)
    return sorted(it[:-5] for it in os.listdir(folder) if it.endswith(".edit")) if os.path.isdir(folder) else []


def table(head, made):
    """A table by its head, if it has rows."""
    return ["\n".join([head, re.sub(r"[^|]+", "---", head), *made])] if made else []


def listed(head, names):
    return [f"{head}: {', '.join(f'`{it}`' for it in names)}."] if names else []


# A clause that may be the only one, and what it says.
ALONE = {"safe": "What is written is safe for a terminal (`safe`)", "kind": "Which faults can come (`kind`)"}


def claims_of(crate):
    """What a crate promises."""
    calls, laws, numbers, plain, bare = [], [], [], [], []
    alone = {head: [] for head in ALONE.values()}
    for it in crate.functions:
        fault = fault_column(it)
        is_law = it.file.endswith("laws.rt") or it.says.startswith("A law")
        if it.name.endswith(("::code", "::status")) and it.clauses in ([], [""]) or it.name == "worked_examples":
            continue
        if is_law:
            says = re.sub(r"^A law: (\w)", lambda found: found[1].upper(), it.says)
            laws.append(f"|`{it.name}`|{says}|{it.promised()}|")
        elif not it.clauses:
            bare.append(it.name)
        elif it.is_number() and not fault:
            numbers.append(it.name)
        elif len(it.clauses) == 1 and it.clauses[0] in ALONE:
            alone[ALONE[it.clauses[0]]].append(it.name)
        elif it.clauses == [""] and not fault and not it.has_section:
            plain.append(it.name)
        else:
            calls.append(f"|`{it.name}`|{it.says}|{it.promised()}|{fault}|")
    pieces = table("|Call|Says|Clauses|Fault|", calls) + table("|Law|Says|Clauses|", laws)
    for head, names in (("A number and its bounds", numbers), ("One clause each", plain), *alone.items(), ("No clause", bare),
                        ("Edits", edits_of(crate.name, "must-fail")), ("Wrong bodies", edits_of(crate.name, "wrong"))):
        pieces += listed(head, names)
    pieces += [f"Beyond the tables: {notes()[crate.name]}"] if crate.name in notes() else []
    return "\n\n".join(pieces) + "\n"


@functools.cache
def notes():
    """What the tables of each crate leave out."""
    return dict(re.findall(r"^## (\w+)\n\n(.*?)\n(?=\n## |\Z)", read("docs/claims_notes.txt"), re.M | re.S))


def bodies():
    """The wrong bodies that a case or a test refuses, and the edits that make them: those that a clause refuses too, and the others."""
    _, *groups, bodies_that_prove = read("docs/wrong_bodies.txt").strip().split("\n\n")
    heads = ("A clause refuses these too:", "Only the case or the test refuses these:")
    made = (table("|Wrong body|Case or test that fails|Edit|", [f"|{it}|" for it in group.split("\n")])[0] for group in groups)
    parts = [*zip(heads, made, strict=True), ("No clause refuses these:", bodies_that_prove)]
    return "\n".join(f"{head}\n\n{rows}\n" for head, rows in parts)


def in_short(sentence):
    """A sentence, up to its colon if it is long."""
    return (sentence.split(": ")[0] if len(sentence.split()) > MOST_WORDS else sentence).rstrip(".")


def below(crate):
    """The crates of this repository below a crate."""
    return set(crates.below(crates.listed(), crate))


def types():
    """The public types of the product's crates, those below nms_tool, without faults and the types of the command line."""
    text, product = "|Type|File in `src/`|What it is|\n|---|---|---|\n", below("nms_tool")
    for crate in (it for it in tree().values() if it.name in product and not it.name.endswith("_words")):
        shown = [it for it in crate.types.values() if not is_fault(it.name)]
        text += f"|**`{crate.name}`**|||\n" if shown else ""
        text += "".join(f"|`{it.name}`|`{it.file}`|{in_short(it.says)}|\n" for it in shown)
    return text


def known():
    """The names by which claims are printed."""
    return [*tree(), "faults", "memory", "types", "bodies"]


def printed(name):
    """The claims of a crate, or what else has that name."""
    text = {"faults": faults, "memory": memory, "types": types, "bodies": bodies}.get(name, lambda: claims_of(tree()[name]))()
    return f"## {name}\n\n{text}"


def main(names):
    if set(names) - set(known()):
        sys.exit(__doc__)
    print("\n".join(map(printed, names or known())), end="")


if __name__ == "__main__":
    main(sys.argv[1:])
