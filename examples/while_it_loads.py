#!/usr/bin/env python3
"""Loads documents and asks for a text meanwhile: tells what stood there when each search was opened.

python3 examples/while_it_loads.py LINES TEXT [SEARCHES]

LINES is a file that a recipe of docs/RECIPES.md wrote. While its documents are added so many searches, 4 or up to 64, are
opened. Each is turned past 100 documents after every ten additions, so that none of these waits long, and is closed at
the end: it finds what was there at its opening. All words of the text are wanted. SK_TOOL names the built program; else
it is this repository's."""
import json
import os
import sys

TOP = os.path.join(os.path.dirname(os.path.realpath(__file__)), "..")
sys.path.insert(0, os.path.join(TOP, "clients", "python"))

from comfreystair import EVERY, Index  # noqa: E402

TOOL = os.environ.get("SK_TOOL") or os.path.join(TOP, "crates", "sk_tool", "out", "sk_tool")


def searches(index, lines, text, count):
    """How many documents were there at the opening of each search, and the search; the documents are added meanwhile."""
    opened = []
    for place, line in enumerate(lines):
        if len(opened) < count and place >= len(opened) * len(lines) // count:
            opened.append((place, index.open(text, op="and", size=3, check=EVERY)))
        index.add(line["add"], line.get("data", ""))
        if place % 10 == 9:
            for _, search in opened:
                if not search.is_done:
                    search.turn(100)
    return opened


def main():
    if len(sys.argv) < 3:
        sys.exit(f"usage: {sys.argv[0]} LINES TEXT [SEARCHES]")
    with open(sys.argv[1], encoding="utf-8") as file:
        schema, *lines = map(json.loads, file)
    text = sys.argv[2]
    with Index(TOOL, schema["schema"], stem=schema.get("stem", False)) as index:
        opened = searches(index, lines, text, int(sys.argv[3]) if len(sys.argv) > 3 else 4)
        found = [(place, search.finish()) for place, search in opened]
        found.append((len(lines), index.find(text, op="and", size=3, check=EVERY)))
        for place, page in found:
            best = ", ".join(hit.data.split("\n")[0] for hit in page)
            print(f"of {place:,} documents {page.count.upper:,} match" + (f": {best}" if best else ""))


if __name__ == "__main__":
    main()
