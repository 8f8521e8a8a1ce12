"""The pages of an installation: those of the repository, without what only the repository has.

Words of a page that speak of building are replaced by the table EDITS. A page that still speaks of the repository stops this
program, so a change of a page is seen here.
"""
import os
import re
import sys

TOP = os.path.dirname(os.path.dirname(os.path.realpath(__file__)))
# The pages for users. The others are for those who change the code.
NAMES = ("CALLING", "CERTIFICATE", "ERRORS", "FORMATS", "HEADLINE", "IMPORT", "INSTALL", "JSON", "MINUTES", "REAL_DAY", "REVIEW", "RULES", "SERVING", "TRADES")
PAGES = ("README.md", "CHANGELOG.md", "examples/README.md", *(f"docs/{it}.md" for it in NAMES))
PICTURES = ("docs/page.svg",)
# A page, what is there, and what an installed page has in its place. What is not there is not replaced: LEFT is the test.
EDITS = (
    ("README.md", r"(?<=^## Commands\n\n)(?:    .*\n)+\n.*\n",
     "    nms_tool < examples/sweep.script    the main job\n    nms_selftest                        whether this installation works\n\n"
     "The commands of these pages run in a folder with copies of `share/nms/examples` and `share/nms/rust`.\n"),
    ("README.md", r"^\| To prove \|.*\n", ""),
    ("README.md", r"; for `\./gate quick` `python3`", ""),
    ("README.md", r" \(first build on four processors, disk\)| \(\d+[\d a-z]* minutes, [\d.]+ GB\)", ""),
    ("README.md", r"^`\./nms_tool --unproved` .*\n\n", ""),
    ("README.md", r"^\| take the code over \|.*\n", ""),
    ("README.md", r"`\./nms_lib`, then `[^`]*`", "`gcc YOURS.c $(pkg-config --cflags --libs nms)`"),
    ("docs/CALLING.md", r"(?<=^## The library\n\n)    \./nms_lib\n\n.*\n",
     "[INSTALL.md](INSTALL.md) says where the library, its header and its files for `pkg-config` and CMake are.\n"),
    ("docs/CALLING.md", r"^    \./nms_lib\n", ""),
    ("docs/CALLING.md", r"(gcc|g\+\+) (-std=\S+) -I include (\S+) crates/nms_c/out/libnms\.a", r"\1 \2 \3 $(pkg-config --cflags --libs nms)"),
    ("docs/CALLING.md", r"NMS_LIB_DIR=\S+ cargo run", "cargo run"),
    ("docs/CALLING.md", r" --features static(?= -- examples)", ""),
    ("docs/CALLING.md", r", whose declarations `packages/nms_sys\.py` makes of `nms\.h`", ", whose declarations are those of `nms.h`"),
    ("docs/CALLING.md", r"PYTHONPATH=python python3", "python3"),
    ("docs/CALLING.md", r"^\| \[Rattle\].*\n", ""),
    ("docs/CALLING.md", r"^## From Rattle\n(?s:.*)", ""),
    ("docs/(IMPORT|MINUTES|REVIEW|SERVING).md", r"^The released program .*\n\n", ""),
    ("docs/SERVING.md", r"^The run once more, (.*):\n\n    tests/replay\.py .*\n\n`day\.asks`.*\n",
     r"`tests/replay.py` of the sources makes the run once more, \1.\n"),
    ("docs/INSTALL.md", r"^## To make the packages\n(?s:.*?)(?=^## |\Z)", ""),
    ("examples/README.md", r"^Run each command at the top of the repository\.",
     "Run each command in a folder with a copy of this folder, named `examples`."),
    ("examples/README.md", r"^`tests/check\.py` runs each row\. .*\n",
     "`nms_selftest` runs each row. [docs/CALLING.md](../docs/CALLING.md) has the callers in `c/`, `cpp/` and `python/`.\n"),
    (r"(?!CHANGELOG).*", r"\./(nms_(?:tool|review|serve))\b", r"\1"),
)
# Words of which an installation has nothing.
LEFT = re.compile(r"\./nms_|nms_lib|--unproved|crates/nms_c/out|\./gate\b|rattle-kit|first call proves|top of the repository|^    (?:tests|bench|build|crates)/", re.M)


def linked(page, text):
    """A page's text in which a link to a page that is not installed is the page's name."""
    def link(found):
        words, target = found[1], found[2]
        path = os.path.normpath(os.path.join(os.path.dirname(page), target.partition("#")[0])) if not target.startswith("#") else page
        if path in PAGES or path in PICTURES:
            return found[0]
        return f"{path} of the sources" if words in (path, os.path.basename(path)) else f"{words} ({path} of the sources)"

    return re.sub(r"(?<!!)\[([^\]]*)\]\(([^)\s]+)\)", link, text)


def installed(page):
    """The text of a page as it is installed."""
    with open(f"{TOP}/{page}", encoding="utf-8") as file:
        text = file.read()
    for pages, old, new in EDITS:
        if re.fullmatch(pages, page):
            text = re.sub(old, new, text, flags=re.M)
    text = linked(page, text)
    # The history of the product speaks of how it is built.
    found = LEFT.search(text) if page != "CHANGELOG.md" else None
    if found:
        line = text[text.rfind("\n", 0, found.start()) + 1:].partition("\n")[0]
        sys.exit(f"pages.py: {page} speaks of the repository, and EDITS has nothing for it: {line[:200]}")
    return text
