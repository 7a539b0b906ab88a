#!/usr/bin/env python3
"""Prints what a page costs in the built program, over two numbers of documents that lie ten apart: processor time of a
run with finds, less that of one without, and the readings that the find tells.

Wants the built program: (cd crates/sk_tool && rt run). Run it at the top of the repository:
python3 bench/pages.py [DOCUMENTS [PROGRAM]]. All documents have one word; the seed is fixed."""
import json
import os
import random
import resource
import subprocess
import sys
import tempfile

HERE = os.path.dirname(os.path.realpath(__file__))
FEW, MANY = 20, 2000
SCHEMA = {
    "schema": [
        {"name": "body", "kind": "text"},
        {"name": "site", "kind": "word", "slot": 0},
        {"name": "own", "kind": "number", "slot": 1},
        {"name": "year", "kind": "number", "slot": 2},
    ]
}
ASKED = [
    ("size 10", {}),
    ("size 1,000", {"size": 1000}),
    ("collapsed, 50 values", {"collapse": "site"}),
    ("collapsed, a value each", {"collapse": "own"}),
    ("by value", {"order": "value", "by": "year"}),
    ("by relevance, then value", {"order": "relevance_value", "by": "year"}),
    ("cutoff 3", {"cutoff": 3}),
    ("ids fall", {"ids": "falling"}),
]


def documents(count, seed=1):
    """Lines of documents that all have a word, one to four times, with a site, a value of their own and a year."""
    picks = random.Random(seed)
    for number in range(count):
        body = " ".join(["common"] * picks.choice([1, 1, 1, 2, 2, 3, 4]) + [f"w{picks.randrange(5000)}"])
        yield {"add": {"body": body, "site": f"s{picks.randrange(50)}", "own": number, "year": picks.randrange(1_000_000)}}


def seconds(program, path):
    """The processor time of a run over these lines, and what it put."""
    before = resource.getrusage(resource.RUSAGE_CHILDREN)
    with open(path, "rb") as lines:
        told = subprocess.run([program, "run"], stdin=lines, check=True, capture_output=True, text=True)
    after = resource.getrusage(resource.RUSAGE_CHILDREN)
    return after.ru_utime - before.ru_utime, told.stdout


def measure(program, folder, count):
    """Milliseconds a find, and its found line, for each that is asked."""
    base = os.path.join(folder, "base")
    with open(base, "w") as out:
        for line in [SCHEMA, *documents(count)]:
            out.write(json.dumps(line) + "\n")
    empty = min(seconds(program, base)[0] for _ in range(2))
    told = []
    for _, options in ASKED:
        finds = FEW
        while True:
            path = os.path.join(folder, "finds")
            with open(base) as given, open(path, "w") as out:
                out.write(given.read())
                out.write((json.dumps({"find": "common", **options}) + "\n") * finds)
            took, put = seconds(program, path)
            found = [line for line in put.splitlines() if line.startswith("found")][0]
            if finds == MANY or int(found.rsplit("=", 1)[1]) > 10_000:
                break
            finds = MANY
        told.append((1000 * (took - empty) / finds, found))
    return told


def main():
    count = int(sys.argv[1]) if len(sys.argv) > 1 else 20_000
    program = sys.argv[2] if len(sys.argv) > 2 else os.path.join(HERE, "..", "crates", "sk_tool", "out", "sk_tool")
    with tempfile.TemporaryDirectory() as folder:
        few, many = (measure(program, folder, number) for number in (count, 10 * count))
    print(f"{'a find of a word that all have':32} {count:>10} {10 * count:>10}  growth  found over {10 * count}")
    for (name, _), (least, _), (most, found) in zip(ASKED, few, many):
        print(f"{name:32} {least:7.2f} ms {most:7.2f} ms {most / max(least, 0.01):7.1f}  {found}")


if __name__ == "__main__":
    main()
