#!/usr/bin/env python3
"""Prints a table: what the same lines cost in the built program, in Xapian's in-memory database, in a table of SQLite's FTS5
in memory, and in a floor written by hand that keeps lists of words alone: processor time, of it system time, and memory.

Wants the built program, (cd crates/sk_tool && rt run), g++, and the headers of Xapian and SQLite (Debian: libxapian-dev,
libsqlite3-dev). Run it at the top of the repository: python3 bench/peers.py [DOCUMENTS] [PROGRAM..]. Each further PROGRAM is
one to compare with. The seed is fixed."""
import json
import os
import random
import subprocess
import sys
import tempfile

HERE = os.path.dirname(os.path.realpath(__file__))
OURS = os.path.join(HERE, "..", "crates", "sk_tool", "out", "sk_tool")
LETTERS = "etaoinshrdlu"
RUNS = 2
TEXT = {"schema": [{"name": "body", "kind": "text"}]}


def word(rank):
    """A word of three letters or more for each rank."""
    text = ""
    for _ in range(3):
        text += LETTERS[rank % 12]
        rank //= 12
    return text + (str(rank) if rank else "")


def body(picks, length, words=5_000):
    """So many words, the one of rank r with the weight 1 / r."""
    return " ".join(word(int(words ** picks.random()) - 1) for _ in range(length))


def added(documents, length):
    picks = random.Random(1)
    yield TEXT
    for _ in range(documents):
        yield {"add": {"body": body(picks, length)}}


def finds(count):
    for number in range(count):
        yield {"find": word(number)}


def fresh_words(documents):
    """A word of its own in each document."""
    picks = random.Random(4)
    yield TEXT
    for number in range(documents):
        yield {"add": {"body": f"own{number} {body(picks, 9)}"}}


def replaced(documents):
    picks = random.Random(2)
    for _ in range(documents):
        yield {"replace": picks.randrange(documents) + 1, "with": {"body": body(picks, 10)}}


def deleted(documents, order):
    ids = list(range(1, documents + 1))
    if order == "random":
        random.Random(3).shuffle(ids)
    return ({"delete": id} for id in ids)


def rows(documents):
    half = documents // 2
    yield "ten words, then 100 finds", lambda: [*added(documents, 10), *finds(100)], True
    yield "ten words", lambda: added(documents, 10), True
    yield "one new word each", lambda: fresh_words(documents), True
    yield f"{documents // 100} of 1,000 words", lambda: added(documents // 100, 1000), True
    yield f"{half} added, then replaced", lambda: [*added(half, 10), *replaced(half)], False
    yield f"{half} added, deleted at random", lambda: [*added(half, 10), *deleted(half, "random")], False
    yield f"{half} added, deleted, lowest first", lambda: [*added(half, 10), *deleted(half, "lowest")], False


def run(command, given):
    """Processor seconds, those of the system, and mebibytes at the most."""
    given.seek(0)
    reader, writer = os.pipe()
    sink = subprocess.Popen(["cat"], stdin=reader, stdout=subprocess.DEVNULL)
    child = subprocess.Popen(command, stdin=given, stdout=writer)
    os.close(reader)
    os.close(writer)
    _, status, used = os.wait4(child.pid, 0)
    sink.wait()
    if status != 0:
        sys.exit(f"peers.py: {command} ended with {status}")
    return used.ru_utime + used.ru_stime, used.ru_stime, used.ru_maxrss / 1024


def write(lines, path):
    """In a child, so that no other child is said to hold what this process held."""
    if os.fork() == 0:
        with open(path, "w") as out:
            for line in lines():
                out.write(json.dumps(line) + "\n")
        os._exit(0)
    os.wait()


def main():
    documents = int(sys.argv[1]) if len(sys.argv) > 1 else 200_000
    programs = [OURS, *sys.argv[2:]]
    with tempfile.TemporaryDirectory() as folder:
        peers = os.path.join(folder, "peers")
        subprocess.run(["g++", "-O2", os.path.join(HERE, "peers.cpp"), "-lxapian", "-lsqlite3", "-o", peers], check=True)
        print(f"{documents} documents; answers go into a pipe; seconds (of the system), MiB")
        names = ["sk_tool"] + [f"program {n}" for n in range(2, len(programs) + 1)] + ["Xapian", "FTS5", "floor"]
        print(f"{'':38s}" + "".join(f"{name:>26s}" for name in names))
        for name, lines, floor in rows(documents):
            path = os.path.join(folder, "lines")
            write(lines, path)
            with open(path) as given:
                commands = [[program, "run"] for program in programs]
                commands += [[peers, peer] for peer in (["xapian", "fts5", "floor"] if floor else ["xapian", "fts5"])]
                told = [min(run(command, given) for _ in range(RUNS)) for command in commands]
            print(f"{name:38s}" + "".join(f"{f'{time:.2f} ({system:.2f}), {most:.0f}':>26s}" for time, system, most in told), flush=True)


if __name__ == "__main__":
    main()
