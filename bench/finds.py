#!/usr/bin/env python3
"""Prints what finds cost in the built program, by class: processor time of a run with finds, less that of one without.

Wants the built program: (cd crates/sk_tool && rt run). Run it at the top of the repository:
python3 bench/finds.py [DOCUMENTS] [VALUES]. Words follow Zipf's law; the seed is fixed."""
import itertools
import json
import os
import random
import resource
import subprocess
import sys
import tempfile

HERE = os.path.dirname(os.path.realpath(__file__))
OURS = os.path.join(HERE, "..", "crates", "sk_tool", "out", "sk_tool")
LETTERS = "etaoinshrdlu"
FINDS = 20


def word(rank):
    """A word of three letters or more for each rank."""
    text = ""
    for _ in range(3):
        text += LETTERS[rank % 12]
        rank //= 12
    return text + (str(rank) if rank else "")


def texts(documents, length, seed=1):
    """Lines of documents of so many words of a vocabulary of 20,000, the word of rank r with the weight 1 / r."""
    picks = random.Random(seed)
    words = [word(rank) for rank in range(20_000)]
    weights = list(itertools.accumulate(1 / (rank + 1) for rank in range(20_000)))
    for _ in range(documents):
        yield {"add": {"body": " ".join(picks.choices(words, cum_weights=weights, k=length))}}


def values(count, seed=2):
    """Lines of documents with a number below a million, and one in ten thousand with a rare word."""
    picks = random.Random(seed)
    for number in range(count):
        record = {"year": picks.randrange(1_000_000)}
        if number % 10_000 == 0:
            record["body"] = "rare"
        yield {"add": record}


def branches(documents, lists, seed=3):
    """Lines of documents that have one of so many words with one beginning, and a word that all have."""
    picks = random.Random(seed)
    for _ in range(documents):
        yield {"add": {"body": f"q{picks.randrange(lists)} all"}}


def seconds(path):
    """The processor time of a run over these lines, and what it put."""
    before = resource.getrusage(resource.RUSAGE_CHILDREN)
    with open(path, "rb") as lines:
        told = subprocess.run([OURS, "run"], stdin=lines, check=True, capture_output=True, text=True)
    after = resource.getrusage(resource.RUSAGE_CHILDREN)
    return after.ru_utime - before.ru_utime, told.stdout


def measure(folder, schema, lines, finds):
    base = os.path.join(folder, "base")
    with open(base, "w") as out:
        for line in [schema, *lines]:
            out.write(json.dumps(line) + "\n")
    empty = min(seconds(base)[0] for _ in range(2))
    for name, find in finds:
        path = os.path.join(folder, "finds")
        with open(base) as given, open(path, "w") as out:
            out.write(given.read())
            out.write((json.dumps(find) + "\n") * FINDS)
        took, put = seconds(path)
        head = [line for line in put.splitlines() if line.startswith("found")][0]
        print(f"{name:34} {1000 * (took - empty) / FINDS:8.2f} ms a find; {head}", flush=True)


def main():
    documents = int(sys.argv[1]) if len(sys.argv) > 1 else 100_000
    count = int(sys.argv[2]) if len(sys.argv) > 2 else 200_000
    schema = {"schema": [{"name": "body", "kind": "text"}, {"name": "year", "kind": "number", "slot": 0}]}
    first, second = word(0), word(1)
    with tempfile.TemporaryDirectory() as folder:
        measure(folder, schema, texts(documents, 100), [
            ("phrase of the two commonest words", {"find": f'"{first} {second}"'}),
            ("near of the two", {"find": f"{first} NEAR {second}"}),
            ("and of the two", {"find": f"{first} {second}", "op": "and"}),
            ("or of the two", {"find": f"{first} {second}"}),
            ("wildcard of two letters", {"find": first[:2] + "*"}),
            ("wildcard of two rarer letters", {"find": word(19_999)[:2] + "*"}),
            ("xor of three", {"find": f"{first} XOR {second} XOR {word(2)}"}),
        ])
        for lists in (50, 500, 5_000):
            measure(folder, schema, branches(documents, lists), [
                (f"wildcard over {lists} lists", {"find": "q*"}),
                ("one list as long as all", {"find": "all"}),
            ])
        measure(folder, schema, values(count), [
            ("range of half of the values", {"find": "year:..500000"}),
            ("the same and a rare word", {"find": "rare year:..500000", "op": "and"}),
            ("a rare word alone", {"find": "rare"}),
        ])


if __name__ == "__main__":
    main()
