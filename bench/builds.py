#!/usr/bin/env python3
"""Prints what the same lines cost in two builds of sk_tool: of each part instructions, as callgrind counts them, which do
not change with what else the machine does, and of all processor time too, the least of some runs by turns. The schema asks
for nothing that an older build may not know. The seed is fixed.

Wants valgrind and two built programs. Run it at the top of the repository: python3 bench/builds.py OTHER [PROGRAM
[DOCUMENTS]], OTHER being the build to compare with, and PROGRAM that of crates/sk_tool where it is not said. Where their
answers differ it ends with 1. For the program of another commit:
git worktree add ../other COMMIT && (cd ../other && ./prove sk_tool)."""
import itertools
import json
import os
import random
import resource
import subprocess
import sys
import tempfile

from finds import OURS, word
from floors import SCHEMA, classes

RUNS = 5
TIMES = 10


def instructions(command, path):
    """The instructions of a run over these lines."""
    with tempfile.TemporaryDirectory() as folder, open(path, "rb") as lines:
        counts = os.path.join(folder, "counts")
        counted = ["valgrind", "--tool=callgrind", f"--callgrind-out-file={counts}", *command]
        subprocess.run(counted, stdin=lines, check=True, stdout=subprocess.DEVNULL, stderr=subprocess.DEVNULL)
        with open(counts) as told:
            return next(int(line.split()[1]) for line in told if line.startswith("summary:"))


def seconds(command, path):
    """The processor time of a run over these lines, that of the system too."""
    before = resource.getrusage(resource.RUSAGE_CHILDREN)
    with open(path, "rb") as lines:
        subprocess.run(command, stdin=lines, check=True, stdout=subprocess.DEVNULL)
    after = resource.getrusage(resource.RUSAGE_CHILDREN)
    return after.ru_utime + after.ru_stime - before.ru_utime - before.ru_stime


def least(commands, path, runs=RUNS):
    """The least seconds of each command, over runs by turns."""
    return [min(each) for each in zip(*([seconds(command, path) for command in commands] for _ in range(runs)))]


def records(count, picks, vocabulary=20_000):
    """Documents of 50 to 150 words, the word of rank r with the weight 1 / r, a year and a site."""
    words = [word(rank) for rank in range(vocabulary)]
    weights = list(itertools.accumulate(1 / (rank + 1) for rank in range(vocabulary)))
    for _ in range(count):
        body = " ".join(picks.choices(words, cum_weights=weights, k=picks.randint(50, 150)))
        yield {"body": body, "year": picks.randrange(1_000_000), "site": f"s{picks.randrange(50)}"}


def parts(documents):
    """The parts of the stream: each a name and lines."""
    picks = random.Random(7)
    yield "the start", [SCHEMA]
    yield "additions", [{"add": record} for record in records(documents, picks)]
    ids = picks.sample(range(1, documents + 1), documents // 2)
    half = len(ids) // 2
    yield "replacements", [{"replace": id, "with": record} for id, record in zip(ids[:half], records(half, picks))]
    yield "deletions", [{"delete": id} for id in ids[half:]]
    finds = [json.loads(find) for _, _, _, find, _ in classes()]
    finds += [{"find": word(0), "collapse": "site"}, {"find": f"{word(3)} {word(20)}", "size": 100, "cutoff": 2}]
    yield f"{TIMES * len(finds)} finds", finds * TIMES


def answers(program, path):
    with open(path, "rb") as lines:
        return subprocess.run([program, "run"], stdin=lines, check=True, capture_output=True).stdout


def main():
    if len(sys.argv) < 2:
        sys.exit(f"usage: {sys.argv[0]} OTHER [PROGRAM [DOCUMENTS]]")
    programs = [sys.argv[1], sys.argv[2] if len(sys.argv) > 2 else OURS]
    documents = int(sys.argv[3]) if len(sys.argv) > 3 else 2_000
    commands = [[program, "run"] for program in programs]
    before = [0, 0]
    print(f"{documents:,} documents of 50 to 150 words")
    print(f"{'':30}{'other':>11}{'this':>11}{'ratio':>9}")

    def tell(name, costs):
        ratio = f"{costs[1] / costs[0]:9.4f}" if costs[0] else ""
        print(f"{name:30}{costs[0]:11.2f}{costs[1]:11.2f}{ratio}", flush=True)

    with tempfile.TemporaryDirectory() as folder:
        path = os.path.join(folder, "lines")
        for name, lines in parts(documents):
            with open(path, "a") as out:
                out.writelines(json.dumps(line) + "\n" for line in lines)
            counts = [instructions(command, path) / 1e6 for command in commands]
            tell(f"{name}, M instructions", [now - was for now, was in zip(counts, before)])
            before = counts
        tell("all, M instructions", before)
        tell("all, ms of a processor", [1000 * each for each in least(commands, path)])
        if answers(programs[0], path) != answers(programs[1], path):
            sys.exit("builds.py: the answers differ")


if __name__ == "__main__":
    main()
