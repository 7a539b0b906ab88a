#!/usr/bin/env python3
"""Prints what stems cost, over words of this machine's manual pages: a word in the built try_stems, beside Snowball's stemmer
`porter` in C, with the words of which the two give other stems; and documents of 50 to 150 words that are added under a schema
that asks for stems, beside the same under one that does not. Instructions are counted by callgrind, which what else the machine
does cannot change; processor time is the least of some runs by turns.

Wants g++, Snowball's headers (Debian: libstemmer-dev), valgrind, manual pages, and both programs:
(cd crates/sk_tool && rt run; cd ../try_stems && rt run). Run it at the top of the repository:
python3 bench/stems.py [DOCUMENTS [MANUAL]]. The seed is fixed."""
import itertools
import json
import os
import random
import re
import subprocess
import sys
import tempfile
from collections import Counter

from builds import RUNS, instructions, least, seconds
from finds import HERE, OURS
from floors import Server
from known_items import pages

STEMS = os.path.join(HERE, "..", "crates", "try_stems", "out", "try_stems")
WORD = re.compile(r"(?<![\w'.-])[A-Za-z][a-z]{2,}(?![\w'-])")
ENCODINGS = ["UTF_8", "ISO_8859_1"]
ROUNDS, RUNNING, GOAL = 20, 100_000, 2


def words_of(manual):
    """The words of a to z that stand on two pages or more, the commonest first, and how often each stands on all."""
    counts, on = Counter(), Counter()
    for _, _, body in pages(manual):
        found = [word.lower() for word in WORD.findall(body)]
        counts.update(found)
        on.update(set(found))
    return [(word, count) for word, count in counts.most_common() if on[word] > 1]


def put(path, lines, times=1):
    with open(path, "w") as out:
        out.write("".join(line + "\n" for line in lines) * times)


def stems_of(snowball, words, path):
    """The stems that Snowball gives; those of which try_stems gives others are told."""
    put(path, words)
    with open(path) as given:
        told = subprocess.run([snowball, ENCODINGS[0], "0"], stdin=given, check=True, capture_output=True, text=True).stdout.splitlines()
    put(path, told)
    with open(path) as given:
        *others, last = subprocess.run([STEMS], stdin=given, capture_output=True, text=True).stdout.splitlines()
    print(f"{last}, as Snowball gives them; {len(others)} have others", *others[:20], sep="\n  ")
    return dict(line.split(" ") for line in told)


def print_words(folder, snowball, name, words, stems):
    """What a word costs: its stem in try_stems beyond a word in capitals, which is copied too and is its own stem; all of
    try_stems, which reads the word and compares the stem; and in Snowball's stemmer by both encodings."""
    given, capitals, bare, empty = (os.path.join(folder, part) for part in ("given", "capitals", "bare", "empty"))
    put(empty, [])
    put(bare, words)

    def put_rounds(rounds):
        """The runs that are measured, of so many rounds and of none."""
        put(given, [f"{word} {stems[word]}" for word in words], rounds)
        put(capitals, [f"{word.upper()} {word.upper()}" for word in words], rounds)
        theirs = [([snowball, encoding, str(count)], bare) for encoding in ENCODINGS for count in (rounds + 1, 1)]
        return [([STEMS], given), ([STEMS], capitals), ([STEMS], empty), *theirs]

    def each_word(spent, rounds):
        """What a word costs in each of the four."""
        stem, copy, start, *theirs = spent
        costs = [stem - copy, stem - start, theirs[0] - theirs[1], theirs[2] - theirs[3]]
        return [cost / rounds / len(words) for cost in costs]

    counts = each_word([instructions(*run) for run in put_rounds(1)], 1)
    runs = put_rounds(ROUNDS)
    spent = [min(each) for each in zip(*([seconds(*run) for run in runs] for _ in range(RUNS)))]
    times = [1e9 * each for each in each_word(spent, ROUNDS)]
    for unit, told in (("instructions", counts), ("nanoseconds", times)):
        ratios = [told[0] / theirs for theirs in told[2:]]
        print(
            f"{name + ', ' + unit:40}{''.join(f'{each:11.0f}' for each in told)}   "
            + "".join(f"{ratio:8.2f}{'*' if ratio > GOAL else ' '}" for ratio in ratios),
            flush=True,
        )


def documents(words, count, seed=8):
    """Documents of 50 to 150 words, the one of rank r with the weight 1 / r."""
    picks = random.Random(seed)
    weights = list(itertools.accumulate(1 / rank for rank in range(1, len(words) + 1)))
    for _ in range(count):
        yield {"add": {"body": " ".join(picks.choices(words, cum_weights=weights, k=picks.randint(50, 150)))}}


def put_additions(folder, words, count):
    """Files of the same additions, with stems and without, and how many words they have."""
    lines = list(documents(words, count))
    paths = [os.path.join(folder, "stems"), os.path.join(folder, "none")]
    for path, stem in zip(paths, (True, False)):
        schema = {"schema": [{"name": "body", "kind": "text"}], "stem": stem}
        put(path, map(json.dumps, [schema, *lines]))
    return paths, sum(line["add"]["body"].count(" ") + 1 for line in lines)


def most_memory(path):
    """The mebibytes that the program takes at the most for these lines."""
    with open(path) as given:
        lines = given.read().splitlines()
    server = Server([OURS, "run"], lines, len(lines))
    with open(f"/proc/{server.child.pid}/status") as told:
        most = next(int(line.split()[1]) for line in told if line.startswith("VmHWM:"))
    server.close()
    return most / 1024


def print_additions(folder, words, count):
    paths, written = put_additions(folder, words, count)
    run = [OURS, "run"]
    times = [min(each) for each in zip(*([least([run], path, 1)[0] for path in paths] for _ in range(RUNS)))]
    memory = [most_memory(path) for path in paths]
    tenth, fewer = put_additions(folder, words, count // 10)
    counts = [instructions(run, path) for path in tenth]
    print(f"{'':34}{'stems':>10}{'none':>10}{'ratio':>7}")
    for name, (with_stems, without) in [
        (f"seconds, {count:,} documents", times),
        ("microseconds a word", [1e6 * each / written for each in times]),
        ("instructions a word", [each / fewer for each in counts]),
        ("MiB", memory),
    ]:
        print(f"{name:34}{with_stems:10.2f}{without:10.2f}{with_stems / without:7.2f}")


def main():
    count = int(sys.argv[1]) if len(sys.argv) > 1 else 20_000
    counted = words_of(sys.argv[2] if len(sys.argv) > 2 else "/usr/share/man")
    words = [word for word, _ in counted]
    with tempfile.TemporaryDirectory() as folder:
        snowball = os.path.join(folder, "snowball")
        source = os.path.join(HERE, "stems.cpp")
        subprocess.run(["g++", "-std=c++17", "-O3", "-o", snowball, source, "-lstemmer"], check=True)
        print(f"{len(words):,} words of {sum(map(len, words)) / len(words):.1f} letters")
        stems = stems_of(snowball, words, os.path.join(folder, "words"))
        running = random.Random(9).choices(words, weights=[each for _, each in counted], k=RUNNING)
        print(f"\na word: its stem in sk_stem beyond a copy, all of try_stems, and Snowball's stem; * is over {GOAL} times that")
        print(f"{'':40}{'sk_stem':>11}{'try_stems':>11}{'UTF-8':>11}{'Latin-1':>11}   {'ratios':>9}")
        print_words(folder, snowball, "each word once", words, stems)
        print_words(folder, snowball, "as often as in the pages", running, stems)
        print("\nadditions of documents of 50 to 150 words")
        print_additions(folder, words, count)


if __name__ == "__main__":
    main()
