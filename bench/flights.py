#!/usr/bin/env python3
"""Prints what searches in flight cost in the built program: the first edit behind an opening, which copies the documents,
beside an edit where no search is open and beside the loading, as the documents grow; a find that is opened, turned and
closed, beside the same find at once; the memory of 64 searches on one revision and on 64; and 200 openings, each with an
edit behind it. What each search closes is compared with the find at its opening; ends with 1 where one differs.

Wants the built program: (cd crates/sk_tool && rt run). Run it at the top of the repository:
python3 bench/flights.py [DOCUMENTS [PROGRAM [GB]]]. Documents have ten words of 5,000, by Zipf's law; the seed is fixed. Where
64 revisions would take more than GB (24, and never more than three quarters of what is free), fewer documents are taken,
and it says how many."""
import json
import os
import statistics
import subprocess
import sys
import threading
import time

from parts import CLASSES, FIELDS, HERE, documents

TIMES = 7
EDITS = 200
FINDS = 10
A_LINE = 100
MOST_OPEN = 64


class Session:
    """The program, with the schema."""

    def __init__(self, program):
        self.program = subprocess.Popen([program, "run"], stdin=subprocess.PIPE, stdout=subprocess.PIPE)
        self.ask({"schema": FIELDS})

    def put(self, lines):
        self.program.stdin.write("".join(json.dumps(it) + "\n" for it in lines).encode())
        self.program.stdin.flush()

    def load(self, lines):
        """Puts lines whose answers have a line each; the seconds."""
        start = time.perf_counter()
        feeder = threading.Thread(target=self.put, args=(lines,))
        feeder.start()
        for _ in lines:
            self.program.stdout.readline()
        feeder.join()
        return time.perf_counter() - start

    def ask(self, line):
        """The seconds from a line to its last answer, and the lines of the answer."""
        start = time.perf_counter()
        self.put([line])
        told = [self.program.stdout.readline()]
        if told[0].startswith(b"found "):
            told += [self.program.stdout.readline() for _ in range(int(told[0].split(b"hits=")[1].split(b" ")[0]))]
        return time.perf_counter() - start, told

    def open(self, find):
        """Opens a search; its seconds and its number."""
        seconds, (told,) = self.ask({"open": find["find"], **{name: value for name, value in find.items() if name != "find"}})
        return seconds, int(told.split()[2])

    def memory(self, name):
        """How many MB are taken (VmRSS), or were at the most (VmHWM)."""
        with open(f"/proc/{self.program.pid}/status") as lines:
            return next(int(line.split()[1]) / 1024 for line in lines if line.startswith(name))

    def close(self):
        self.program.stdin.close()
        left = self.program.stdout.read().splitlines()
        self.program.wait()
        return left


def edits(seed):
    """Replacements of documents, one after the other."""
    for number, line in enumerate(documents(10_000, seed)):
        yield {"replace": 1 + 37 * number % 1000, "with": line["add"]}


def idle(session):
    """The least seconds of a line that does nothing."""
    return min(session.ask({"delete": 4_294_967_295})[0] for _ in range(200))


def grown(program, lines):
    """Prints what an edit costs as the documents grow, and answers the session, with all of them."""
    session = Session(program)
    picks = edits(11)
    loaded = taken = 0
    print("ms, the middle of some runs; 'behind an opening' is the first edit there, 'the next' another one behind the same")
    print(f"{'documents':>10}{'loading':>10}{'an edit':>9}{'behind an opening':>19}{'of the loading':>16}{'the next':>10}{'the drop':>10}{'MB':>8}{'and a copy':>12}")
    for part in (8, 4, 2, 1):
        more = lines[loaded : len(lines) // part]
        taken += session.load(more)
        loaded += len(more)
        middle = lambda seconds: 1000 * statistics.median(seconds)
        alone = middle([session.ask(next(picks))[0] for _ in range(EDITS)])
        before = session.memory("VmRSS")
        rows, copied = [], 0
        for _ in range(TIMES):
            _, number = session.open({"find": "w5"})
            row = [session.ask(next(picks))[0], session.ask(next(picks))[0]]
            copied = max(copied, session.memory("VmRSS"))
            rows.append([*row, session.ask({"drop": number})[0]])
        first, second, drop = (middle(each) for each in zip(*rows))
        print(
            f"{loaded:10,}{1000 * taken:10.0f}{alone:9.3f}{first:19.1f}{first / (10 * taken):14.1f} %{second:10.3f}{drop:10.1f}{before:8.0f}{copied - before:12.0f}",
            flush=True,
        )
    return session


def turned(session, find, a_line):
    """A find by an opening, lines of so many turns and a close: the seconds, how many lines of turns, and the page."""
    seconds, number = session.open(find)
    for lines in range(1, 1_000_000):
        more, told = session.ask({"turn": number, "times": a_line})
        seconds += more
        if told[0].endswith(b"done\n"):
            break
    more, told = session.ask({"close": number})
    return seconds + more, lines, told[1:]


def ended(session, number):
    """The page of a search that is turned to its end, and closed."""
    while session.ask({"turn": number, "times": 100_000})[1][0].endswith(b"more\n"):
        pass
    return session.ask({"close": number})[1][1:]


def finds(session):
    """Prints what finds cost at once and through turns, and answers how many pages differ."""
    rest, differ = idle(session), 0
    print(f"\nms of a find, the least of {FINDS}, less {1000 * rest:.3f} a line: at once; opened, turned and closed; and by {A_LINE} turns a line")
    print(f"{'':18}{'at once':>10}{'in flight':>11}{'ratio':>8}{f'by {A_LINE}':>10}{'lines':>7}")
    for name, asked in CLASSES.items():
        at_once = flown = slowly = lines = 0
        for find in asked:
            told = [session.ask(find) for _ in range(FINDS)]
            at_once += min(seconds for seconds, _ in told) - rest
            whole = [turned(session, find, 100_000) for _ in range(FINDS)]
            flown += min(seconds - (count + 2) * rest for seconds, count, _ in whole)
            steps = [turned(session, find, A_LINE) for _ in range(3)]
            slowly += min(seconds - (count + 2) * rest for seconds, count, _ in steps)
            lines += steps[0][1]
            differ += sum(page != told[0][1][1:] for _, _, page in whole + steps)
        ms = lambda seconds: 1000 * seconds / len(asked)
        print(f"{name:18}{ms(at_once):10.3f}{ms(flown):11.3f}{flown / at_once:8.2f}{ms(slowly):10.3f}{lines / len(asked):7.0f}", flush=True)
    return differ


def revisions(session, rounds):
    """Opens, edits, opens, edits, the searches of the last rounds open at once; how many pages differ."""
    picks, opened, differ = edits(13), [], 0
    start = time.perf_counter()
    for round in range(rounds):
        find = {"find": f"w{round % 50} w{round % 7}", "size": 5}
        page = session.ask(find)[1][1:]
        opened.append((session.open(find)[1], page))
        session.ask(next(picks))
        if len(opened) > 2:
            number, page = opened.pop(0)
            differ += ended(session, number) != page
    for number, page in opened:
        differ += ended(session, number) != page
    return time.perf_counter() - start, differ


def free_mb():
    with open("/proc/meminfo") as lines:
        return next(int(line.split()[1]) / 1024 for line in lines if line.startswith("MemAvailable"))


def held(program, lines, is_edited):
    """Peak MB of a session over these lines alone, and with 64 searches open, an edit behind each or none; whether each closes as
    it was found, and is told of at the end."""
    session = Session(program)
    session.load(lines)
    picks = edits(17)
    session.ask(next(picks))
    alone = session.memory("VmHWM")
    pages = {}
    for round in range(MOST_OPEN):
        find = {"find": f"w{round}"}
        page = session.ask(find)[1][1:]
        pages[session.open(find)[1]] = page
        if is_edited:
            session.ask(next(picks))
    peak = session.memory("VmHWM")
    differ = 0
    for number in list(pages)[::2]:
        differ += ended(session, number) != pages[number]
    left = [int(line.split()[1]) for line in session.close()]
    return alone, peak, differ + (left != list(pages)[1::2])


def main():
    count = int(sys.argv[1]) if len(sys.argv) > 1 else 200_000
    program = sys.argv[2] if len(sys.argv) > 2 else os.path.join(HERE, "..", "crates", "sk_tool", "out", "sk_tool")
    most = float(sys.argv[3]) if len(sys.argv) > 3 else 24
    lines = list(documents(count))
    session = grown(program, lines)
    taken = session.memory("VmHWM")
    differ = finds(session)
    seconds, wrong = revisions(session, EDITS)
    differ += wrong
    print(f"\n{EDITS} times a find, an opening and an edit, and a close of the search before the last: {seconds:.1f} s, {1000 * seconds / EDITS:.0f} ms each; at the most {session.memory('VmHWM'):.0f} MB")
    session.close()
    alone, peak, wrong = held(program, lines, False)
    differ += wrong
    print(f"{len(lines):,} documents: {alone:.0f} MB at the most, and {peak:.0f} with {MOST_OPEN} searches open on one revision")
    room = min(1024 * most, free_mb() * 3 / 4)
    fewer = min(1, room / (taken * (MOST_OPEN + 1)))
    some = lines[: int(len(lines) * fewer)]
    alone, peak, wrong = held(program, some, True)
    differ += wrong
    why = "" if fewer == 1 else f", since {MOST_OPEN} of all would not fit in {room / 1024:.1f} GB"
    print(f"{len(some):,} documents{why}: {alone:.0f} MB at the most, and {peak:.0f} with {MOST_OPEN} searches open on {MOST_OPEN} revisions, {(peak - alone) / MOST_OPEN:.1f} each")
    print(f"{differ} differ")
    return differ > 0


if __name__ == "__main__":
    sys.exit(main())
