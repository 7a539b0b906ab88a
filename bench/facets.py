#!/usr/bin/env python3
"""Prints what facets cost in the built program, beside a floor in C++ that walks through the list of a word and counts in a
hash map, and beside a spy on the matches of Xapian's in-memory database: processor time of a line, the least of some rounds
by turns. The answers are compared. With --instructions the built program and the floor are counted by callgrind instead,
which what else the machine does cannot change. Behind each ratio to the floor stands that of what both cost beyond a line
that nothing matches.

Wants g++, Xapian's headers (Debian: libxapian-dev), with --instructions valgrind, and the built program:
(cd crates/sk_tool && rt run). Run it at the top of the repository: python3 bench/facets.py [--instructions] [DOCUMENTS
[PROGRAM]]. The seed is fixed."""
import json
import os
import random
import subprocess
import sys
import tempfile

from builds import instructions
from finds import HERE, OURS
from floors import Server

ROUNDS = 9
SIZE, VALUES, GOAL = 10, 50, 3
SCHEMA = {
    "schema": [
        {"name": "body", "kind": "text"},
        {"name": "site", "kind": "word", "slot": 0},
        {"name": "own", "kind": "word", "slot": 1},
        {"name": "year", "kind": "number", "slot": 2},
        {"name": "key", "kind": "number", "slot": 3},
    ]
}
FIELDS = ["site", "own", "year", "key"]
# Of each row: what is counted, the word that its matches have, and the field. What the first row costs is that of any line.
ROWS = [
    ("none match", "absent", "site"),
    ("all match, 50 words", "all", "site"),
    ("all match, a word each", "all", "own"),
    ("all match, 50 numbers", "all", "year"),
    ("all match, a number each", "all", "key"),
    ("half match, a word each", "half", "own"),
    ("20 match, 50 words", "rare", "site"),
    ("20 match, a word each", "rare", "own"),
    ("20 match, 50 numbers", "rare", "year"),
    ("20 match, a number each", "rare", "key"),
]


def records(documents, seed=1):
    """Documents with a word that all have, one that every second has and one that twenty have; with two values of 50, and two
    that no other has, which do not rise with the ids."""
    picks = random.Random(seed)
    words, numbers = (picks.sample(range(documents), documents) for _ in range(2))
    for place, (word, number) in enumerate(zip(words, numbers)):
        body = "all" + " half" * (place % 2) + " rare" * (place % max(1, documents // 20) == 0)
        year = 1950 + picks.randrange(VALUES)
        yield {"body": body, "site": f"s{picks.randrange(VALUES)}", "own": f"w{word}", "year": year, "key": number}


def lines_of(given):
    """The documents as the built program reads them, and as the others do."""
    ours = [json.dumps(SCHEMA), *(json.dumps({"add": record}) for record in given)]
    return ours, [" ".join(["doc", *(str(record[name]) for name in FIELDS), record["body"]]) for record in given]


def asked(word, name):
    """The line of the built program, and that of the others."""
    return json.dumps({"facets": word, "by": name, "size": SIZE}), f"facets {FIELDS.index(name)} {SIZE} {word}"


def ratios(mine, floor, none):
    """The two ratios to the floor, told, where none is what the two cost where nothing matches."""
    rest = [cost - least for cost, least in zip((mine, floor), none)]
    beyond = f"{rest[0] / rest[1]:7.2f}" if rest[1] > 0 else f"{'':7}"
    return f"{mine / floor:7.2f}{'*' if mine > GOAL * floor else ' '}{beyond}"


class Counting(Server):
    def answer(self, line, count):
        """The answer to a line, which has so many lines."""
        told = self.exchange((line + "\n").encode(), lambda piece: piece.count(b"\n"), count)
        return told.decode()


def matches_and_values(answer):
    head, *values = answer.splitlines()
    return head.split()[1], values


def print_times(folder, program, given):
    commands = [[program, "run"], [os.path.join(folder, "facets"), "floor"], [os.path.join(folder, "facets"), "xapian"]]
    ours, others = lines_of(given)
    servers = [Counting(command, lines, count) for command, lines, count in
               zip(commands, (ours, others, others), (len(ours), 0, 0))]  # fmt: skip
    print(f"{'':26}{'sk_tool':>10}{'floor':>10}{'ratio':>7} {'beyond':>7}{'Xapian':>11}{'ratio':>7}   answer")
    none = None
    for name, word, field in ROWS:
        mine, other = asked(word, field)
        distinct = len({record[field] for record in given if word in record["body"].split()})
        told = [server.answer(line, 1 + min(SIZE, distinct)) for server, line in zip(servers, (mine, other, other))]
        if any(matches_and_values(each) != matches_and_values(told[0]) for each in told):
            sys.exit(f"facets.py: {name} differs: {told}")
        lengths = [len(each) for each in told]
        asks = list(zip(servers, (mine, other, other), lengths))
        times = [server.times(line, length) for server, line, length in asks]
        rounds = [
            [server.seconds(line, length, count) for (server, line, length), count in zip(asks, times)]
            for _ in range(ROUNDS if times[0] < 100 else 4 * ROUNDS)
        ]
        ms = [1000 * min(each) for each in zip(*rounds)]
        none = none or ms
        print(
            f"{name:26}{ms[0]:10.4f}{ms[1]:10.4f}{ratios(*ms[:2], none)}{ms[2]:11.4f}{ms[0] / ms[2]:7.2f}"
            f"   {told[0].splitlines()[0]}",
            flush=True,
        )
    for server in servers:
        server.close()


def print_instructions(folder, program, given):
    commands = [[program, "run"], [os.path.join(folder, "facets"), "floor"]]
    paths = [os.path.join(folder, name) for name in ("ours", "others")]
    bases = lines_of(given)

    def counted(lines, times):
        """The instructions of each program, its line being asked so many times behind the documents."""
        for path, base, line in zip(paths, bases, lines):
            with open(path, "w") as out:
                out.writelines(each + "\n" for each in base + [line] * times)
        return [instructions(command, path) for command, path in zip(commands, paths)]

    before = counted(["", ""], 0)
    print(f"{'':26}{'sk_tool':>14}{'floor':>14}{'ratio':>7} {'beyond':>7}")
    none = None
    for name, word, field in ROWS:
        times = 2 if word in ("all", "half") else 1_000
        mine, floor = ((now - was) / times for now, was in zip(counted(asked(word, field), times), before))
        none = none or (mine, floor)
        print(f"{name:26}{mine:14,.0f}{floor:14,.0f}{ratios(mine, floor, none)}", flush=True)


def main():
    words = [word for word in sys.argv[1:] if word != "--instructions"]
    documents = int(words[0]) if words else 200_000
    program = words[1] if len(words) > 1 else OURS
    with tempfile.TemporaryDirectory() as folder:
        source = os.path.join(HERE, "facets.cpp")
        built = ["g++", "-std=c++17", "-O3", "-o", os.path.join(folder, "facets"), source, "-lxapian"]
        subprocess.run(built, check=True)
        is_counted = len(words) < len(sys.argv) - 1
        what = "instructions" if is_counted else "ms"
        print(f"{documents:,} documents; {what} of a line of facets with {SIZE} values; * is over {GOAL} times the floor")
        tell = print_instructions if is_counted else print_times
        tell(folder, program, list(records(documents)))


if __name__ == "__main__":
    main()
