"""Says which wrong bodies of crates/*/must-fail/ docs/CLAIMS.md does not name once, and which it names that are gone; ends with 1 if any.

Two crates may have one of the same name: it is named once for each.

Run at the top: python3 docs/edits.py
"""

import collections
import pathlib
import re
import sys

top = pathlib.Path(__file__).resolve().parent.parent
claims = (top / "docs/CLAIMS.md").read_text()
named = collections.Counter(re.findall(r"`(\w+)`", claims))
edits = collections.Counter(edit.stem for edit in top.glob("crates/*/must-fail/*.edit"))
wrong = 0
for name, count in sorted(edits.items()):
    if named[name] != count:
        print(f"{name}: {count} of it, named {named[name]} times")
        wrong += 1
items = re.findall(r"^- wrong bodies: (.*\n(?:  .*\n)*)", claims, re.MULTILINE)
crates = {it.name for it in top.glob("crates/*")}
for name in sorted({it for item in items for it in re.findall(r"`(\w+)`", item)} - edits.keys() - crates):
    print(f"{name}: no such edit")
    wrong += 1
print(f"{edits.total()} edits, {wrong} of them not named once")
sys.exit(1 if wrong else 0)
