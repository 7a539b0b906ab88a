"""Prints, by file, the words of specs/ of which the theorem of `run` is made, and the types of the code that they name.

Run at the top: python3 docs/reached.py [FILE:NAME ..], the last to begin with other words than the theorem's. A star stands
behind a word that docs/DEFINITIONS.md does not name.
"""

import pathlib
import re
import sys

top = pathlib.Path(__file__).resolve().parent.parent
ROOTS = ["sk_engine/specs/SessionRan:SessionRan", "sk_engine/specs/SessionRan:ReadingsTold", "sk_run/specs/Started:Started"]
IMPORT = re.compile(r"^use\s+Rattle\.(\S+?)(?:\.\{([^}]*)\})?(?:\s+as\s+(\S+))?\s*$", re.M)
HEADER = re.compile(r" *(abbrev |unfoldable )?pub (record |data )?([^\s:(){]+)")
WORD = re.compile(r"[^\s(){},;λ.]+")


def read(path):
    """Returns what the file imports, each by the name that it has here, and its own definitions, each with its words."""
    text = path.read_text()
    uses, own, block, now = {}, {}, None, set()
    for place, names, alias in IMPORT.findall(text):
        for name in names.split(",") if names else [place.split(".")[-1]]:
            name, _, other = name.strip().partition(" as ")
            uses[alias or other or name] = (place.split("."), name)
    for line in text.split("\n"):
        indent = len(line) - len(line.lstrip())
        if not line.strip() or line.lstrip().startswith(("--", "use ", "pub use ", "pub mod ", "module ")):
            continue
        if line.strip() in ("mutual", "abbrev mutual"):
            block = indent + 2
            continue
        block = None if block and indent < block else block
        found = HEADER.match(line)
        if found and (found[1] or found[2] or indent == block):
            own[found[3]] = now = set()
        now |= {*WORD.findall(line)}
    return uses, own


def reached(roots, files):
    """Returns the definitions that these are made of, and the types of the code among them, as pairs of a file and a name."""
    waiting, seen, types = [tuple(it.split(":")) for it in roots], set(), set()
    while waiting:
        file, name = waiting.pop()
        uses, own = files.get(file, ({}, {}))
        if (file, name) in seen or name not in own:
            continue
        seen.add((file, name))
        for word in own[name]:
            if word in own:
                waiting.append((file, word))
            elif word in uses:
                place, other = uses[word]
                if place[1:3] == ["specs", "declared"] and (top / "crates" / place[0]).is_dir():
                    types.add((f"{place[0]}/src/{place[3]}.rt", place[4]))
                waiting.append(("/".join(place), other))
    return seen, types


if __name__ == "__main__":
    files = {str(it.relative_to(top / "crates").with_suffix("")): read(it) for it in top.glob("crates/*/specs/*.antt") if it.stem != "Lib"}
    seen, types = reached(sys.argv[1:] or ROOTS, files)
    named = {*re.findall(r"[^\s`(),;:]+", " ".join(re.findall(r"`([^`]*)`", (top / "docs/DEFINITIONS.md").read_text())))}
    crates = re.findall(r"^(\w+):", (top / "crates.txt").read_text(), re.M)
    for found in (seen, types):
        for file in sorted({it for it, _ in found}, key=lambda it: (crates.index(it.split("/")[0]), it)):
            print(f"{file}:", *(f"{name}{'' if name in named else '*'}" for at, name in sorted(found) if at == file))
    told = sum(name in named for _, name in seen)
    print(f"{len(seen)} definitions in {len({it for it, _ in seen})} files, of which docs/DEFINITIONS.md names {told}; {len(types)} types of the code")
