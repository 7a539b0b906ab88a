#!/usr/bin/env python3
"""Prints what finds of some classes cost in the built program, beside a floor for each class: what one would write by hand in
C++ for that class alone. The answers are compared: the same documents, weights and order.

Wants g++ and the built program: (cd crates/sk_tool && rt run). Run it at the top of the repository:
python3 bench/floors.py [PROGRAM]. With --ors it prints, of C++ alone, what an or of many parts costs as a nest of nodes of two
sides, as one node, and as one node by windows; this wants no built program."""
import json
import os
import random
import statistics
import subprocess
import sys
import tempfile
import threading
import time

from finds import OURS, texts, word

HERE = os.path.dirname(os.path.realpath(__file__))
ROUNDS = 15
DOCUMENTS, LENGTH = 100_000, 100
FEW, MANY = 20_000, 200_000
SCHEMA = {
    "schema": [
        {"name": "body", "kind": "text"},
        {"name": "year", "kind": "number", "slot": 0},
        {"name": "site", "kind": "word", "slot": 1},
    ]
}


class Server:
    """A program that holds documents, and answers finds as long as it is given any."""

    def __init__(self, command, lines, answers):
        self.child = subprocess.Popen(command, stdin=subprocess.PIPE, stdout=subprocess.PIPE, bufsize=0)
        self.clock = ~self.child.pid << 3 | 2  # processor time of the process, of any thread
        self.exchange(("".join(line + "\n" for line in lines)).encode(), lambda told: told.count(b"\n"), answers)

    def exchange(self, given, measure, wanted):
        """Gives some bytes, and takes answers until they measure as much as is wanted."""
        writer = threading.Thread(target=self.child.stdin.write, args=(given,))
        writer.start()
        told, have = [], 0
        while have < wanted:
            piece = self.child.stdout.read(1 << 16)
            if not piece:
                sys.exit(f"floors.py: {self.child.args} ended early")
            told.append(piece)
            have += measure(piece)
        writer.join()
        return b"".join(told)

    def answer(self, line):
        """The answer to a find, as it stands."""
        told = b""
        while not told or told.count(b"\n") <= int(told.split(b"hits=", 1)[1].split()[0]):
            told += self.exchange((line + "\n").encode() if not told else b"", len, 1)
        return told

    def seconds(self, line, length, times):
        """The processor time of a find that is asked so many times, with an answer of this length."""
        before = time.clock_gettime(self.clock)
        self.exchange((line + "\n").encode() * times, len, length * times)
        time.sleep(0.001)
        return (time.clock_gettime(self.clock) - before) / times

    def times(self, line, length):
        """How often a find is asked to be timed."""
        return max(3, min(2_000, int(0.03 / self.seconds(line, length, 3))))

    def close(self):
        self.child.stdin.close()
        self.child.wait()


def hits(answer):
    """The ids and weights of an answer."""
    return [tuple(line.split()[2:4]) for line in answer.decode().splitlines()[1:]]


def head_of(answer):
    """What is told of an answer before its hits."""
    return answer.decode().split("\n", 1)[0].removeprefix("found ")


def timed(asked):
    """The median seconds of finds, each a server and a line, that are asked by turns; and their answers."""
    answers = [server.answer(line) for server, line in asked]
    lengths = [len(answer) for answer in answers]
    times = [server.times(line, length) for (server, line), length in zip(asked, lengths)]
    rounds = [
        [server.seconds(line, length, count) for (server, line), length, count in zip(asked, lengths, times)]
        for _ in range(ROUNDS)
    ]
    return [statistics.median(each) for each in zip(*rounds)], answers


def compared(name, answers):
    """Ends where not all answers have the same hits."""
    for answer in answers[1:]:
        if hits(answer) != hits(answers[0]):
            sys.exit(f"floors.py: {name} differs: {hits(answers[0])} {hits(answer)}")


def milliseconds(seconds):
    return f"{1000 * seconds:9.4f}"


def floor_lines(records):
    """Documents as the floor reads them."""
    return [f"doc {record['year']} {record['site']} {record['body']}" for record in records]


def servers(program, floor, records):
    lines = [json.dumps(SCHEMA), *(json.dumps({"add": record}) for record in records)]
    return Server([program, "run"], lines, len(lines)), Server([floor], floor_lines(records), 0)


def zipf_records(seed=5):
    """The documents of `finds.py`, each with a year below a million and a site."""
    picks = random.Random(seed)
    for line in texts(DOCUMENTS, LENGTH):
        yield line["add"] | {"year": picks.randrange(1_000_000), "site": f"s{picks.randrange(50)}"}


def found(text, **options):
    return json.dumps({"find": text, **options})


def classes():
    """Of each row: the class, the most that a find of it may cost in times of its floor, the words' ranks, the find, and the
    floor's lines, of an or also that of one node. Words are told by their ranks: of rank 0 is the commonest."""
    for a in (0, 20, 500, 10_000):
        yield "term", 1.5, f"{a}", found(word(a)), [f"term 10 {word(a)}"]
    pairs = [(0, 1), (5, 300), (50, 60)]
    led = [(0, 1), (5, 300), (300, 5)]
    for name, form, finds, between in [
        ("and of 2", "and", pairs, "{} AND {}"),
        ("and_not", "and_not", led, "{} NOT {}"),
        ("and_maybe", "and_maybe", led, "+{} {}"),
        ("phrase of 2", "phrase", pairs, '"{} {}"'),
    ]:
        for a, b in finds:
            yield name, 1.5, f"{a} {b}", found(between.format(word(a), word(b))), [f"{form} 10 {word(a)} {word(b)}"]
    for a in (0, 19_999):
        yield "wildcard", 1.5, f"as {a}", found(f"{word(a)[:2]}*"), [f"wildcard 10 {word(a)[:2]}"]
    half = "year:..499999"
    yield "range", 1.5, "half", found(half), ["range 10 0 499999"]
    for a in (0, 500):
        yield "range", 1.5, f"half, {a}", found(f"{word(a)} {half}"), [f"term_range 10 0 499999 {word(a)}"]
    yield "range", 1.5, "half, by year", found(half, order="value", by="year"), ["by_year 10 0 499999 rising"]
    for ranks in pairs + [(0, 1, 2, 3, 4), (3, 10, 30, 100, 300), (20, 40, 60, 80, 100)]:
        words = " ".join(word(rank) for rank in ranks)
        goal = 1.5 if len(ranks) == 2 else 2
        yield f"or of {len(ranks)}", goal, " ".join(map(str, ranks)), found(words), [f"or 10 {words}", f"many 10 {words}"]


def print_classes(program, floor):
    ours, theirs = servers(program, floor, list(zipf_records()))
    print(f"{DOCUMENTS:,} documents of {LENGTH} words, pages of 10; ms a find; * misses its goal")
    print(
        f"{'class':12} {'words':17} {'sk_tool':>9} {'floor':>9} {'ratio':>7} {'goal':>4}   {'one node':>9} {'ratio':>6}   found"
    )
    for name, goal, words, find, lines in classes():
        (mine, *floors), answers = timed([(ours, find)] + [(theirs, line) for line in lines])
        compared(f"{name} {words}", answers)
        ratios = [mine / least for least in floors]
        node = f"{milliseconds(floors[1])} {ratios[1]:6.1f}" if len(floors) > 1 else f"{'':16}"
        print(
            f"{name:12} {words:17} {milliseconds(mine)} {milliseconds(floors[0])} {ratios[0]:7.1f} {goal:4.1f}"
            f" {'*' if ratios[0] > goal else ' '} {node}   {head_of(answers[0])}",
            flush=True,
        )
    ours.close()
    theirs.close()


def demo_records(count):
    """The documents of `demo`."""
    for i in range(1, count + 1):
        body = f"all d{i % 10} h{i % 100} k{i % 1000}" + " all" * (i % 7)
        yield {"body": body, "year": 1900 + i % 120, "site": f"s{i % 50}"}


DEMO = [
    ("all", found("all", size=3), "term 3 all"),
    ("d3 h3", found("d3 h3", size=3), "or 3 d3 h3"),
    ("all AND k7", found("all AND k7", size=3), "and 3 all k7"),
    ("d1 all, by site", found("d1 all", size=3, collapse="site"), "or_collapsed 3 d1 all"),
    (
        "year:1950..1959, by year",
        found("year:1950..1959", size=3, order="value", by="year", reverse=True),
        "by_year 3 1950 1959 reversed",
    ),
]


def print_demo(program, floor):
    few, many = ([*servers(program, floor, list(demo_records(count)))] for count in (FEW, MANY))
    for count, (ours, _) in ((FEW, few), (MANY, many)):
        told = subprocess.run([program, "demo", str(count)], check=True, capture_output=True).stdout
        if told != b"".join(ours.answer(find) for _, find, _ in DEMO):
            sys.exit(f"floors.py: these are not the finds of demo {count}")
    print(f"the finds of demo, over {FEW:,} and {MANY:,} documents; ms a find")
    print(
        f"{'find':25} {'sk_tool':>9} {'sk_tool':>9} {'growth':>6} {'floor':>9} {'floor':>9} {'growth':>6} {'ratio':>6}"
        "   found over the more"
    )
    for name, find, line in DEMO:
        (mine, more, least, further), answers = timed(
            [(few[0], find), (many[0], find), (few[1], line), (many[1], line)]
        )
        for pair in (answers[0], answers[2]), (answers[1], answers[3]):
            compared(name, pair)
        print(
            f"{name:25} {milliseconds(mine)} {milliseconds(more)} {more / mine:6.1f} {milliseconds(least)}"
            f" {milliseconds(further)} {further / least:6.1f} {more / further:6.1f}   {head_of(answers[1])}",
            flush=True,
        )
    for server in few + many:
        server.close()


ORS = ["nested", "many", "or", "nested_all", "many_all", "or_all"]


def asked_ors(seed=6):
    """Of each row: a name, and the words of some finds."""
    picks = random.Random(seed)
    for parts in (2, 3, 5, 10, 40):
        yield f"{parts} commonest", [[word(rank) for rank in range(parts)]]
        ranks = [[int(2_000 ** picks.random()) - 1 for _ in range(parts)] for _ in range(5)]
        yield f"{parts} mixed", [[word(rank) for rank in some] for some in ranks]


def print_ors(floor):
    server = Server([floor], floor_lines(zipf_records()), 0)
    print(f"an or over {DOCUMENTS:,} documents of {LENGTH} words, pages of 10; ms a find")
    print(f"{'':14}{'under the need of the page':^42}  {'without a need':^42}")
    heads = [f"{'nested':>9} {'one node':>9} {'windows':>9} {'nested/one':>11}"] * 2
    print(f"{'parts':14} {'   '.join(heads)}")
    for name, finds in asked_ors():
        costs = []
        for words in finds:
            spent, answers = timed([(server, f"{form} 10 {' '.join(words)}") for form in ORS])
            compared(name, answers)
            costs.append(spent)
        spent = [statistics.mean(each) for each in zip(*costs)]
        halves = [
            f"{' '.join(map(milliseconds, half))} {half[0] / half[1]:11.2f}" for half in (spent[:3], spent[3:])
        ]
        print(f"{name:14} {'   '.join(halves)}", flush=True)
    server.close()


def main():
    words = sys.argv[1:]
    with tempfile.TemporaryDirectory() as folder:
        floor = os.path.join(folder, "floors")
        source = os.path.join(HERE, "floors.cpp")
        subprocess.run(["g++", "-std=c++17", "-O3", "-o", floor, source], check=True)
        if words == ["--ors"]:
            print_ors(floor)
            return
        program = words[0] if words else OURS
        print_demo(program, floor)
        print()
        print_classes(program, floor)


if __name__ == "__main__":
    main()
