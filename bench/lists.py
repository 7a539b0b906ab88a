#!/usr/bin/env python3
"""Prints what edits of long lists cost in the built program, the memory that lists take, and what a seek reads.

Wants the built program: (cd crates/sk_tool && rt run). Run it at the top of the repository:
python3 bench/lists.py [DOCUMENTS] [PROGRAM]. The seed is fixed; another PROGRAM can be given to compare with."""
import json
import os
import random
import subprocess
import sys
import tempfile

HERE = os.path.dirname(os.path.realpath(__file__))
OURS = os.path.join(HERE, "..", "crates", "sk_tool", "out", "sk_tool")
LETTERS = "etaoinshrdlu"
TEXT = {"schema": [{"name": "body", "kind": "text"}]}


def word(rank):
    """A word of three letters or more for each rank."""
    text = ""
    for _ in range(3):
        text += LETTERS[rank % 12]
        rank //= 12
    return text + (str(rank) if rank else "")


def record(picks):
    """A document of ten words of 5,000, the word of rank r with the weight 1 / r."""
    return {"body": " ".join(word(int(5_000 ** picks.random()) - 1) for _ in range(10))}


def run(program, lines):
    """Processor seconds, mebibytes at the most, and what was put."""
    with tempfile.TemporaryFile("w+") as given, tempfile.TemporaryFile("w+") as put:
        for line in lines:
            given.write(json.dumps(line) + "\n")
        given.seek(0)
        child = subprocess.Popen([program, "run"], stdin=given, stdout=put)
        _, status, used = os.wait4(child.pid, 0)
        if status != 0:
            sys.exit(f"lists.py: {program} ended with {status}")
        put.seek(0)
        return used.ru_utime, used.ru_maxrss / 1024, put.read()


def added(documents):
    picks = random.Random(1)
    yield TEXT
    for _ in range(documents):
        yield {"add": record(picks)}


def replaced(documents):
    picks = random.Random(2)
    for _ in range(documents):
        yield {"replace": picks.randrange(documents) + 1, "with": record(picks)}


def shuffled(documents):
    ids = list(range(1, documents + 1))
    random.Random(3).shuffle(ids)
    return ({"delete": id} for id in ids)


def lowest(documents):
    return ({"delete": id} for id in range(1, documents + 1))


def edits(program, documents):
    base = run(program, added(documents))[0]
    print(f"{documents} documents of ten words: {base:.2f} s to add")
    for name, more in [("replacements at random ids", replaced), ("deletions at random", shuffled), ("deletions, lowest first", lowest)]:
        took = run(program, [*added(documents), *more(documents)])[0] - base
        print(f"  as many {name}: {took:.2f} s, {1e6 * took / documents:.1f} microseconds an edit", flush=True)


def shared_words(documents, each):
    """Documents of one word, each word in so many documents that follow one another."""
    yield TEXT
    for number in range(documents):
        yield {"add": {"body": f"w{number // each}"}}


def memory(program, documents):
    """What words cost that stand in few documents, beside one word that stands in all."""
    same = run(program, shared_words(documents, documents))[1]
    print(f"{documents} documents of one word: {same:.0f} MiB where all have the same", flush=True)
    for each in (1, 10, 1_000):
        own = run(program, shared_words(documents, each))[1]
        more = 1024 * 1024 * (own - same) / (documents // each)
        print(f"  {own:.0f} MiB where {each} each have one: {more:.0f} bytes more for each word", flush=True)


def far_apart(documents, every):
    yield TEXT
    for number in range(documents):
        yield {"add": {"body": "rare common" if number % every == 0 else "common"}}


def seeks(program, documents, every, finds=50):
    lines = list(far_apart(documents, every))
    base = run(program, lines)[0]
    took, _, put = run(program, lines + finds * [{"find": "rare AND common"}])
    head = [line for line in put.splitlines() if line.startswith("found")][0]
    print(f"a list of {documents} sought at {documents // every} ids: {1000 * (took - base) / finds:.2f} ms a find; {head}", flush=True)


def main():
    documents = int(sys.argv[1]) if len(sys.argv) > 1 else 100_000
    program = sys.argv[2] if len(sys.argv) > 2 else OURS
    if not os.path.exists(program):
        sys.exit("lists.py: build crates/sk_tool first: (cd crates/sk_tool && rt run)")
    # A child counts what this process holds when it is made, so memory comes before lists of lines are made.
    memory(program, 2 * documents)
    for size in (documents // 5, documents):
        edits(program, size)
    seeks(program, 10 * documents, 1_000)


if __name__ == "__main__":
    main()
