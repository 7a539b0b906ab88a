#!/usr/bin/env python3
"""Prints what finds cost in the built program and in Xapian's in-memory database, over the same documents and by the
same lines: of each class the median of its finds, of processor time, in some runs by turns. The median of these runs is
told of each program, and of our time in Xapian's the median, the least and the greatest, since other work on the machine
slows the two down unlike. A term weighs its wdf in both, and Xapian's own query parser reads the texts. First pages are
compared: ids, weights and order. Ends with 1 where one differs.

Wants g++, Xapian's headers (Debian: libxapian-dev), and the built program: (cd crates/sk_tool && rt run). Run it at the
top of the repository: python3 bench/xapian_finds.py [PROGRAM [DOCUMENTS [MANUAL]]]. The last rows are over the manual
pages in MANUAL (/usr/share/man where it is not said), or over the made documents where there are none. The seed is
fixed."""
import json
import os
import random
import re
import statistics
import subprocess
import sys
import tempfile
import time

from builds import records
from finds import HERE, LETTERS, OURS, word
from floors import Server, hits
from known_items import pages

RUNS, FINDS = 7, 20
DOCUMENTS, WORDS = 100_000, 86_400  # 600 words with each two letters in front
YEARS = 1_000_000
PAGES = 2_000
SCHEMA = {"schema": [{"name": "body", "kind": "text"}, {"name": "year", "kind": "number", "slot": 0}]}

# Of each class by words: how many words a find has, below which rank they are, and its text.
CLASSES = [
    ("a word", 1, 20_000, "{}"),
    ("or of 2", 2, 2_000, "{} {}"),
    ("or of 5", 5, 2_000, "{} {} {} {} {}"),
    ("and of 2", 2, 2_000, "{} AND {}"),
    ("and of 5", 5, 200, "{} AND {} AND {} AND {} AND {}"),
    ("and_not", 2, 2_000, "{} NOT {}"),
    ("and_maybe", 2, 2_000, "+{} {}"),
    ("phrase of 2", 2, 100, '"{} {}"'),
    ("phrase of 3", 3, 20, '"{} {} {}"'),
]


def words(picks, count, most):
    """So many words that differ, of ranks below this, the one of rank r with the weight 1 / r."""
    chosen = []
    while len(chosen) < count:
        rank = int(most ** picks.random()) - 1
        if rank not in chosen:
            chosen.append(rank)
    return [word(rank) for rank in chosen]


def years(picks, width):
    """The text of a range of so many years."""
    first = picks.randrange(YEARS - width + 1)
    return f"year:{first}..{first + width - 1}"


def in_order(picks, newest):
    """Finds of half of all, in the order of the year."""
    order = {"order": "value", "by": "year", "reverse": newest}
    return [{"find": years(picks, YEARS // 2), **order} for _ in range(FINDS)]


def asked(picks):
    """Of each class: its name and its finds."""
    for name, count, most, text in CLASSES:
        yield name, [{"find": text.format(*words(picks, count, most))} for _ in range(FINDS)]
    for count in (2, 5):
        yield f"synonym of {count}", [{"tree": {"synonym": words(picks, count, 2_000)}} for _ in range(FINDS)]
    yield "wildcard of 2 letters", [{"find": f"{word(rank)[:2]}*"} for rank in range(2, 2 + 2 * FINDS, 2)]
    yield "wildcard of 1 letter", [{"find": f"{letter}*"} for letter in LETTERS]
    for name, width in (("half", YEARS // 2), ("a tenth", YEARS // 10)):
        yield f"range, {name}", [{"find": years(picks, width)} for _ in range(FINDS)]
        within = [(words(picks, 1, 2_000)[0], years(picks, width)) for _ in range(FINDS)]
        yield f"range, {name}, and a word", [{"find": " ".join(both)} for both in within]
    yield "range, half, newest first", in_order(picks, True)


def asked_by_year():
    """Of each class: its name and its finds, over documents that came by year, as those of an archive do."""
    picks = random.Random(10)
    for name, width in (("a tenth", YEARS // 10), ("a thousandth", YEARS // 1_000)):
        yield f"by year: {name}", [{"find": years(picks, width)} for _ in range(FINDS)]
    within = [(words(picks, 1, 2_000)[0], years(picks, YEARS // 10)) for _ in range(FINDS)]
    yield "by year: a tenth, a word", [{"find": " ".join(both)} for both in within]
    yield "by year: half, newest first", in_order(picks, True)
    yield "by year: half, oldest first", in_order(picks, False)


def asked_again():
    """Of each class: its name and its one find, which names the same words many times."""
    yield "a* 200 times, or", [{"find": " ".join(["a*"] * 200)}]
    yield "a* 100 times, and", [{"find": " AND ".join(["a*"] * 100)}]


def page_records(manual):
    """Each manual page, or one of so many where there are very many, cut into words that both programs take as such."""
    bodies = [body for _, _, body in pages(manual)]
    for body in bodies[:: max(1, len(bodies) // PAGES)]:
        found = re.findall("[a-z0-9]+", body.lower())
        yield {"body": " ".join(each for each in found if len(each) <= 64)}


def served(commands, given):
    """Each program, with these documents."""
    lines = [json.dumps(SCHEMA), *(json.dumps({"add": record}) for record in given)]
    return [Server(command, lines, len(lines)) for command in commands]


def answered(server, line):
    """The answer to a find, and how often it is asked to be timed: for 0.03 seconds at the most, but once at least."""
    before = time.clock_gettime(server.clock)
    answer = server.answer(line)
    return answer, max(1, min(2_000, int(0.03 / (time.clock_gettime(server.clock) - before))))


def timed(servers, lines):
    """Of each find the hits that each program finds; and of each run, of each find the seconds of each. A run goes over all
    finds, so those of one find lie apart."""
    told = [[answered(server, line) for server in servers] for line in lines]
    asks = [
        [(server, line, len(answer), count) for server, (answer, count) in zip(servers, both)]
        for line, both in zip(lines, told)
    ]
    runs = [[[server.seconds(*ask) for server, *ask in both] for both in asks] for _ in range(RUNS)]
    return [[hits(answer) for answer, _ in both] for both in told], runs


def medians(finds):
    """The median of each program, in milliseconds, of the seconds of each find."""
    return [1000 * statistics.median(each) for each in zip(*finds)]


def print_row(servers, name, finds):
    """Times the finds of a class, and gives how many of them differ."""
    lines = [json.dumps(find) for find in finds]
    found, runs = timed(servers, lines)
    spent = [medians(finds) for finds in runs]
    costs = " ".join(f"{statistics.median(each):9.4f}" for each in zip(*spent))
    shares = sorted(mine / other for mine, other in spent)
    ratios = " ".join(f"{share:8.3f}" for share in (statistics.median(shares), shares[0], shares[-1]))
    differing = [line for line, both in zip(lines, found) if both[0] != both[1]]
    compared = sum(len(both[0]) for both in found)
    print(f"{name:27}{len(lines):5} {costs} {ratios} {compared:6}{len(differing):8}", flush=True)
    for line in differing:
        print(f"  differs: {line[:100]}")
    return len(differing)


def print_rows(servers, rows):
    """Gives how many of all finds differ."""
    ratios = f"{'ratio':>8} {'least':>8} {'greatest':>8}"
    print(f"{'class':27}{'finds':>5} {'sk_tool':>9} {'Xapian':>9} {ratios} {'hits':>6}{'differ':>8}")
    return sum(print_row(servers, name, finds) for name, finds in rows)


def main():
    program = sys.argv[1] if len(sys.argv) > 1 else OURS
    documents = int(sys.argv[2]) if len(sys.argv) > 2 else DOCUMENTS
    manual = sys.argv[3] if len(sys.argv) > 3 else "/usr/share/man"
    with tempfile.TemporaryDirectory() as folder:
        peer = os.path.join(folder, "xapian_finds")
        source = os.path.join(HERE, "xapian_finds.cpp")
        subprocess.run(["g++", "-std=c++17", "-O2", "-o", peer, source, "-lxapian"], check=True)
        commands = [program, "run"], [peer]
        print(f"ms of a processor, the median of the finds, and of {RUNS} runs; pages of 10")
        print(f"{documents:,} documents of 50 to 150 words of {WORDS:,}")
        made = [
            {"body": record["body"], "year": record["year"]}
            for record in records(documents, random.Random(8), WORDS)
        ]
        servers = served(commands, made)
        differing = print_rows(servers, asked(random.Random(9)))
        for server in servers:
            server.close()
        print("the same documents, by year")
        servers = served(commands, sorted(made, key=lambda record: record["year"]))
        differing += print_rows(servers, asked_by_year())
        read = list(page_records(manual))
        if read:
            for server in servers:
                server.close()
            print(f"{len(read):,} manual pages, {sum(len(record['body'].split()) for record in read):,} words")
            servers = served(commands, read)
        differing += print_rows(servers, asked_again())
        for server in servers:
            server.close()
    print(f"{differing} finds differ")
    sys.exit(1 if differing else 0)


if __name__ == "__main__":
    main()
