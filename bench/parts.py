#!/usr/bin/env python3
"""Prints what finds cost in the built program over documents in 1, 4 and 16 parts: milliseconds from a line to its last
answer, the least of many, less those of a find of a word that no document has. The hits over several parts are compared
with those over one; ends with 1 where one differs.

Wants the built program: (cd crates/sk_tool && rt run). Run it at the top of the repository:
python3 bench/parts.py [DOCUMENTS [PROGRAM]]. Documents have ten words of 5,000, by Zipf's law; the seed is fixed."""
import json
import os
import random
import subprocess
import sys
import threading
import time

HERE = os.path.dirname(os.path.realpath(__file__))
FIELDS = [{"name": "body", "kind": "text"}, {"name": "year", "kind": "number", "slot": 0}]
TIMES = 30
CLASSES = {
    "a word": [{"find": f"w{i}"} for i in (5, 20, 100, 400)],
    "two with OR": [{"find": f"w{i} w{i + 7}"} for i in (5, 20, 100, 400)],
    "common, with OR": [{"find": f"w{i} w{j}"} for i, j in ((0, 1), (1, 2), (0, 3), (2, 4))],
    "two with AND": [{"find": f"w{i} AND w{i + 3}"} for i in (1, 5, 20, 50)],
    "a phrase": [{"find": f'"w{i} w{i + 1}"'} for i in (0, 3, 8, 20)],
    "by a number": [{"find": f"w{i}", "order": "value", "by": "year"} for i in (5, 20, 100, 400)],
    "a wildcard": [{"find": f"w{i}*"} for i in (1, 22, 30, 4)],
}


def documents(count, seed=5):
    """Lines of documents."""
    picks = random.Random(seed)
    words, weights = [f"w{i}" for i in range(5000)], [1 / (i + 1) for i in range(5000)]
    for _ in range(count):
        yield {"add": {"body": " ".join(picks.choices(words, weights, k=10)), "year": picks.randrange(2000)}}


class Session:
    """The program with documents in so many parts."""

    def __init__(self, program, lines, parts):
        self.program = subprocess.Popen([program, "run"], stdin=subprocess.PIPE, stdout=subprocess.PIPE)
        feeder = threading.Thread(target=self.put, args=([{"schema": FIELDS, "parts": parts}, *lines],))
        feeder.start()
        for _ in range(len(lines) + 1):
            self.program.stdout.readline()
        feeder.join()

    def put(self, lines):
        self.program.stdin.write("".join(json.dumps(it) + "\n" for it in lines).encode())
        self.program.stdin.flush()

    def find(self, line):
        """Returns the seconds and the lines of hits."""
        start = time.perf_counter()
        self.put([line])
        found = self.program.stdout.readline()
        hits = [self.program.stdout.readline() for _ in range(int(found.split(b"hits=")[1].split(b" ")[0]))]
        return time.perf_counter() - start, hits

    def close(self):
        self.program.stdin.close()
        self.program.wait()


def main():
    count = int(sys.argv[1]) if len(sys.argv) > 1 else 200_000
    program = sys.argv[2] if len(sys.argv) > 2 else os.path.join(HERE, "..", "crates", "sk_tool", "out", "sk_tool")
    lines, hits, differ = list(documents(count)), {}, 0
    for parts in (1, 4, 16):
        session = Session(program, lines, parts)
        idle = min(session.find({"find": "none"})[0] for _ in range(200))
        print(f"{parts} parts")
        for name, finds in CLASSES.items():
            least = 0
            for find in finds:
                told = [session.find(find) for _ in range(TIMES)]
                least += min(it for it, _ in told) - idle
                differ += hits.setdefault(json.dumps(find), told[0][1]) != told[0][1]
            print(f"  {name:16} {1000 * least / len(finds):9.3f} ms")
        session.close()
    print(f"{differ} differ")
    return differ > 0


if __name__ == "__main__":
    sys.exit(main())
