#!/usr/bin/env python3
"""Runs the recipes of docs/RECIPES.md, and compares the answers with those that stand there.

python3 examples/try_recipes.py [--mend]

SK_TOOL names the built program; else it is this repository's. A block of `sh` runs in a folder of its own, a block of
`json` is put to the letters of examples/data. The block behind has the answer; a line `..` in it stands for any lines.
A block of `sh machine`, whose answer hangs on the machine, is not run. With --mend what differs is written anew."""
import os
import re
import subprocess
import sys
import tempfile

HERE = os.path.dirname(os.path.realpath(__file__))
TOP = os.path.dirname(HERE)
PAGE = os.path.join(TOP, "docs", "RECIPES.md")
TOOL = os.path.realpath(os.environ.get("SK_TOOL") or os.path.join(TOP, "crates", "sk_tool", "out", "sk_tool"))
BLOCK = re.compile(r"```(sh|json)\n(.*?)```\n\n```\n(.*?)```\n", re.S)


def answer(kind, text, folder):
    """What a block is answered."""
    place = dict(os.environ, PATH=f"{os.path.dirname(TOOL)}:{os.environ['PATH']}")
    if kind == "sh":
        told = subprocess.run(["sh", "-e"], input=text, cwd=folder, env=place, capture_output=True, text=True)
        return told.stdout + told.stderr
    words = [sys.executable, "examples/from_mbox.py", "examples/data/letters.mbox"]
    letters = subprocess.run(words, cwd=folder, check=True, capture_output=True, text=True).stdout
    told = subprocess.run([TOOL, "run"], input=letters + text, capture_output=True, text=True).stdout
    return "".join(told.splitlines(keepends=True)[letters.count("\n"):])


def fits(written, told):
    """Whether an answer is as it is written, where a line `..` stands for any lines."""
    parts = [re.escape(part) for part in re.split(r"(?m)^\.\.\n", written)]
    return re.fullmatch("(.*\n)*".join(parts), told) is not None


def main():
    if not os.access(TOOL, os.X_OK):
        sys.exit(f"no program at {TOOL}: ./prove builds it, or SK_TOOL names it")
    with open(PAGE, encoding="utf-8") as file:
        page = file.read()
    differing = blocks = 0
    with tempfile.TemporaryDirectory() as folder:
        os.symlink(HERE, os.path.join(folder, "examples"))
        mended = page
        for found in BLOCK.finditer(page):
            kind, text, written = found.groups()
            told = answer(kind, text, folder)
            blocks += 1
            if not fits(written, told):
                differing += 1
                print(f"differs:\n{text}written:\n{written}answered:\n{told}")
                mended = mended.replace(found[0], f"```{kind}\n{text}```\n\n```\n{told}```\n")
    if "--mend" in sys.argv[1:]:
        with open(PAGE, "w", encoding="utf-8") as file:
            file.write(mended)
    print(f"{blocks} blocks, {differing} differ")
    return min(differing, 1)


if __name__ == "__main__":
    sys.exit(main())
