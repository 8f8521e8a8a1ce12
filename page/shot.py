#!/usr/bin/env python3
"""Writes the picture of README.md: what the page's own button saves of the doubted plan of docs/REVIEW.md.

    page/shot.py PROGRAM OUT      PROGRAM is nms_review; OUT is docs/page.svg

It needs a Chromium. tests/page.py compares docs/page.svg with it.
"""
import os
import sys

TOP = os.path.dirname(os.path.dirname(os.path.realpath(__file__)))
sys.path.insert(0, os.path.join(TOP, "tests"))
from page import Pages, front_picture
from trials import Lacking, Wrong


def main(words):
    if len(words) != 2:
        print("usage: page/shot.py PROGRAM OUT", file=sys.stderr)
        return 2
    with Pages(os.path.realpath(words[0])) as pages:
        try:
            text = front_picture(pages)
        except (Lacking, Wrong) as error:
            print(f"page/shot.py: {error}", file=sys.stderr)
            return 1
    with open(words[1], "w", encoding="utf-8") as it:
        it.write(text)
    return 0


if __name__ == "__main__":
    sys.exit(main(sys.argv[1:]))
