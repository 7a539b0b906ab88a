#!/usr/bin/env python3
"""Holds the built sk_tool against the built sk_reference over hostile streams of lines, made from a seed: schemas,
edits by id and by filter, finds by text and by tree with options, facets, shows, searches that stay open among edits,
query texts behind records, numbers at their bounds, and lines that are cut, doubled, flipped or too long. Answer by
answer: hits, order, weights and payloads equal, counts enclosed, facets and refusals equal, and no more steps than the
rules allow, which is what sk_reference prints; the status and the errors equal. A stream that differs is told by its
seed, and cut down to few lines that differ; then it ends with 1.

Of searches in flight sk_reference is done as soon as one may be, and sk_tool may turn longer: it may say more where
sk_reference says done, and may refuse a close as not done where it said no done. What both close is compared as a find;
of what sk_tool drops, or leaves open to the end, the steps are to be no more than a close would tell, less its hits. And
what sk_reference closes is what it finds at the opening.

Wants both programs: (cd crates/sk_tool && rt run; cd ../sk_reference && rt run). Run it at the top of the repository:
python3 bench/streams.py [STREAMS [FIRST [FOLDER]]], FIRST being the first seed and FOLDER where crates/ is."""
import json
import os
import random
import re
import sys
import tempfile
from collections import Counter

from random_finds import HERE, agree, answers, numbers_in, options, wanted

LONGEST = 1_048_576
BOUNDS = [0, 1, 2, 127, 128, 255, 256, 2**31, 2**32 - 2, 2**32 - 1, 2**32, 2**53 + 1, 2**63, 2**64 - 1, 2**64]
NUMBERS = [str(bound) for bound in BOUNDS] + ["-1", "-0", "1.0", "1e0", "1e3", "01", "1e400", "9" * 400, "null", "true"]
PLAIN = ["a", "b", "c", "d", "e"]
ODD = [
    "fox", "FOX", "foxes", "Foxes", "hopping", "hoped", "Hope", "relational", "skies", "fishing", "ﬁshes", "don't", "don’t", "'a'", "café", "cafe\u0301", "CAFÉ", "straße", "STRASSE", "ﬁne", "ΌΣΟΣ",
    "日本", "x_1", "me@example.org", "a-b", "a.b-c", "http://e.org/a", "1990", "AND", "NOT", "NEAR", "_", "x" * 64, "x" * 65,
    "é" * 32, "é" * 33, "\u0301", "a\u0323\u0301", "a\u0301\u0323", "\U0001f98a", "\u2028", "ǅ", "İ", "\u0345", "가", "𝐀",
    "a\u200db",
]  # fmt: skip
PAYLOADS = ["", "one", 'a"b\\c', "\n\t\r\b\f\0\x1f\x7f", "é\u2028\U0001f98a", "</a>"]
PAYLOADS += ["\nhit rank=0 id=1 weight=1 collapsed=9 data="]
FIELDS = [
    {"name": "title", "kind": "text", "prefix": "S", "step": 2},
    {"name": "note", "kind": "text", "step": 256},
    {"name": "lang", "kind": "filter", "prefix": "L"},
    {"name": "cat", "kind": "filter", "prefix": "XCAT"},
    {"name": "year", "kind": "number", "slot": 0},
    {"name": "site", "kind": "word", "slot": 255},
]
DISTANCES = ["", "/0", "/1", "/2", "/10000", "/10001", "/70000"]
TERMS = ["a", "a", "b", "b", "c", "d", "en", "fr", "fox", "café", ":x", "Dog", "Zfox", "Za", "ZSfish"]
SIGNS = [b'"', b"{", b"}", b"[", b"]", b",", b":", b"\\", b" ", b"\0", b"\\u0000", b"\\ud800"]
MEMBERS = [b'"data":"x"', b'"max":2', b'"op":"and"', b'"size":3', b'"times":2', b'"x":0']
FILTERS = ["en", "fr", "En", ":x", "", "Dog", "dog", "a b", "é"]
SITES = ["x", "y", "z", "", "xx", "\0", "é"]


def number(picks):
    return picks.randint(0, 9) if picks.random() < 0.8 else picks.choice(BOUNDS)


def word(picks):
    return picks.choices(PLAIN, [5, 3, 2, 1, 1])[0] if picks.random() < 0.8 else picks.choice(ODD)


class Stream:
    """Lines from one seed."""

    def __init__(self, seed):
        self.picks = random.Random(seed)
        self.fields = [{"name": "body", "kind": "text"}] + self.picks.sample(FIELDS, self.picks.randint(0, 6))
        self.picks.shuffle(self.fields)
        self.made = 0
        # As the lines before leave them, where none is changed or refused.
        self.opened = 0
        self.open = []
        # Whether each search is turned to its end before it is closed.
        self.finishes = False
        # A chunk of a list has 128 entries at the most, so lists of about that many are halved and joined.
        self.sizes = self.picks.choice([0, 3, 12, 40, 90, 127, 130, 256, 300, 700])

    def named(self, *kinds):
        return [field["name"] for field in self.fields if field["kind"] in kinds]

    def words(self, most):
        between = self.picks.choice([" ", " ", ", ", "-", ". "])
        return between.join(word(self.picks) for _ in range(self.picks.randint(0, most)))

    def value(self, kind):
        picks = self.picks
        if picks.random() < 0.03:
            return picks.choice([None, 7, "a", [], ["a"], {}, True, -1, 1.5, [7]])
        if kind == "text":
            return self.words(picks.choice([3, 8, 8, 30]))
        if kind == "filter":
            return picks.choice(FILTERS) if picks.random() < 0.6 else picks.choices(FILTERS, k=picks.randint(0, 3))
        return number(picks) if kind == "number" else picks.choice(SITES)

    def record(self):
        values = {field["name"]: self.value(field["kind"]) for field in self.fields if self.picks.random() < 0.75}
        if self.picks.random() < 0.02:
            values[self.picks.choice(["titel", "", "BODY"])] = "a"
        return values

    def data(self):
        return {"data": self.picks.choice(PAYLOADS)} if self.picks.random() < 0.6 else {}

    def id(self):
        rare = self.picks.random()
        if rare < 0.005:
            return 2**32 - 1
        return self.picks.choice([0, 2**32, 2**64 - 1]) if rare < 0.03 else self.picks.randint(1, self.made + 2)

    def term(self):
        """A field and a text, as edits by filter have them."""
        names = self.named("filter") if self.picks.random() < 0.95 else ["body", "none", "year"]
        return [self.picks.choice(names or ["lang"]), self.picks.choice(FILTERS)]

    def edit(self):
        kind = self.picks.random()
        if kind < 0.5:
            self.made += 1
            return {"add": self.record(), **self.data()}
        if kind < 0.7:
            return {"replace": self.id(), "with": self.record(), **self.data()}
        if kind < 0.88:
            return {"delete": self.id()}
        if kind < 0.95:
            return {"replace_by": self.term(), "with": self.record(), **self.data()}
        return {"delete_by": self.term()}

    def piece(self, depth):
        """A part of a query text."""
        picks = self.picks
        texts, filters, slots = self.named("text"), self.named("filter"), self.named("number", "word")
        bound = lambda: picks.choice(["", str(number(picks)), "x", "1a", picks.choice(SITES)])
        makers = [
            lambda: word(picks),
            lambda: word(picks),
            lambda: picks.choice("ab") + "*",
            lambda: '"' + self.words(3) + picks.choice(['"', '"', '"', ""]),
            lambda: f"{word(picks)} {picks.choice(['NEAR', 'ADJ'])}{picks.choice(DISTANCES)} {word(picks)}",
            lambda: f"{picks.choice(texts)}:{word(picks)}",
            lambda: f'{picks.choice(texts)}:"{self.words(3)}"',
            lambda: f"{picks.choice(texts)}:({self.text(depth - 1)})",
            lambda: f"{picks.choice(filters or texts)}:{picks.choice(FILTERS)}",
            lambda: f'{picks.choice(filters or texts)}:"{picks.choice(FILTERS)}"',
            lambda: f"{picks.choice(slots or texts)}:{bound()}{picks.choice(['..', '..', '', '...'])}{bound()}",
            lambda: f"({self.text(depth - 1)})",
            lambda: picks.choice(["()", "?!", ")", "(", '"', "+", "-", "AND", "XOR", "*", ":", "none:a", "a/b"]),
        ]
        made = picks.choice(makers[: 3 if depth < 1 else len(makers)])()
        return picks.choice(["", "", "", "+", "-"]) + made

    def text(self, depth=2):
        joins = [" ", " ", " ", " AND ", " OR ", " XOR ", " NOT ", " AND NOT ", "  ", ""]
        text = ""
        for _ in range(self.picks.randint(0, 4)):
            text += self.piece(depth) + self.picks.choice(joins if self.picks.random() < 0.5 else joins[:3])
        return text if self.picks.random() < 0.1 else text.rstrip("ANDORXT ")

    def leaf(self):
        picks = self.picks
        term = lambda: picks.choice(["", "", "", "S", "L", "XCAT"]) + picks.choice(TERMS)
        terms = lambda: [term() for _ in range(picks.randint(1, 3))]
        bound = lambda: picks.choice([None, number(picks), picks.choice(SITES)])
        return picks.choice(
            [
                lambda: {"term": term()},
                lambda: {"term": term()},
                lambda: {"all": []},
                lambda: {"nothing": []},
                lambda: {"wildcard": picks.choice(["a", "f", "L", "XCAT", "S", "x", "zz", "Z", "ZS"])},
                lambda: {"range": [picks.choice([0, 0, 255, 1, 256]), bound(), bound()]},
                lambda: {"synonym": list({term(), term(), term()})},
                lambda: {"near": [picks.choice([1, 2, 3, 5, 1_048_576, 0]), *terms()]},
                lambda: {"phrase": [picks.choice([1, 2, 3, 5, 1_048_576, 1_048_577]), *terms()]},
            ]
        )()

    def tree(self, depth):
        picks = self.picks
        if depth == 0 or picks.random() < 0.2:
            return self.leaf()
        if picks.random() < 0.1:
            return {"scale": [picks.choice([0, 1, 2, 3, 256, 257, 65_536, 65_537]), self.tree(depth - 1)]}
        form = picks.choice(["and", "or", "or", "xor", "max", "and_not", "and_maybe", "filter"])
        return {form: [self.tree(depth - 1) for _ in range(picks.choice([1, 2, 2, 3, 4]))]}

    def options(self):
        found = options(self.picks, self.named("number", "word"))
        if self.picks.random() < 0.1:
            name = self.picks.choice(["first", "size", "check", "cutoff", "max"])
            found[name] = self.picks.choice([0, 1, 128, 99_990, 99_999, 100_000, 100_001, *BOUNDS[-8:]])
        return found

    def ask(self):
        kind = self.picks.random()
        if kind < 0.1:
            return {"show": self.text()} | self.picks.choice([{}, {"op": "and"}, {"op": "or"}])
        if kind < 0.25:
            return self.counted()
        if kind < 0.6:
            return {"find": self.text(), **({"op": "and"} if self.picks.random() < 0.3 else {}), **self.options()}
        return {"tree": self.tree(self.picks.randint(0, 3)), **self.options()}

    def counted(self):
        """A line that asks for facets."""
        picks = self.picks
        names = self.named("number", "word") if picks.random() < 0.95 else ["body", "none", "lang", ""]
        line = {"facets": self.text(), "by": picks.choice(names or ["year"])}
        if picks.random() < 0.3:
            line["op"] = picks.choice(["or", "and"])
        if picks.random() < 0.5:
            line["size"] = picks.choice([0, 1, 2, 3, 100, 100_000]) if picks.random() < 0.9 else picks.choice(BOUNDS)
        return line

    def opening(self):
        """A line that opens a search, mostly by a text without a fault."""
        picks = self.picks
        if picks.random() < 0.08:
            return {"open": picks.choice(["a AND", "(", ")", "year:x..", 7]), **self.options()}
        if len(self.open) < 64:
            self.opened += 1
            self.open.append(self.opened)
        between = picks.choice([" ", " ", " ", " AND ", " XOR ", " NOT ", "-"])
        words = picks.choices(["a", "b", "c", "fox", "a*", '"a b"', "(a c)", "e"], [5, 4, 3, 1, 2, 1, 1, 1], k=picks.randint(1, 3))
        text = between.join(words) if picks.random() < 0.8 else self.text()
        return {"open": text, **({"op": "and"} if picks.random() < 0.3 else {}), **self.options()}

    def in_flight(self):
        """The number of a search, mostly of an open one."""
        picks = self.picks
        if picks.random() < 0.03:
            return picks.choice([0, 2**32, 2**63, 2**64 - 1, 2**64, self.opened + 1])
        return picks.choice(self.open) if self.open and picks.random() < 0.93 else picks.randint(0, self.opened + 1)

    def times(self):
        """How many turns are asked for."""
        picks = self.picks
        chance = picks.random()
        if chance < 0.4:
            return {}
        if chance < 0.75:
            return {"times": picks.randint(1, 6)}
        return {"times": picks.choice([10, 100, 1_000, 100_000]) if chance < 0.97 else picks.choice([100_001, *BOUNDS])}

    def gone(self, number):
        """The number of a search that is dropped or closed."""
        self.open = [other for other in self.open if other != number]
        return number

    def closing(self, number):
        """Lines that close a search, mostly one that was turned to its end."""
        is_finished = self.finishes or self.picks.random() < 0.85
        if is_finished:
            yield {"turn": number, "times": 100_000}
        if self.picks.random() < 0.3:
            yield self.edit()
        yield {"close": self.gone(number) if is_finished else number}

    def flight(self):
        """Lines on a search in flight."""
        kind = self.picks.random()
        if kind < 0.35 or not self.open:
            yield self.opening()
        elif kind < 0.7:
            yield {"turn": self.in_flight(), **self.times()}
        elif kind < 0.9:
            yield from self.closing(self.in_flight())
        else:
            yield {"drop": self.gone(self.in_flight())}

    def mutated(self, line):
        """The line with one thing or two changed."""
        picks = self.picks
        for _ in range(picks.choice([1, 1, 2])):
            at = picks.randrange(len(line) + 1)
            to = min(len(line), at + picks.randint(1, 8))
            found = list(re.finditer(rb"\d+", line)) or [re.match(rb"", line)]
            digits = picks.choice(found)
            bit = 1 << picks.randrange(8)
            line = picks.choice(
                [
                    lambda: line[:at] + bytes(byte ^ bit for byte in line[at : at + 1]) + line[at + 1 :],
                    lambda: line[:at],
                    lambda: line[at:],
                    lambda: line[:at] + line[to:],
                    lambda: line[:to] + line[at:to] + line[to:],
                    lambda: line[:at] + picks.randbytes(picks.randint(1, 3)) + line[at:],
                    lambda: line[:at] + picks.choice(SIGNS) + line[at:],
                    lambda: line[: digits.start()] + picks.choice(NUMBERS).encode() + line[digits.end() :],
                    lambda: line + line,
                    lambda: b" \t" + line + b"\r ",
                    lambda: line[:-1] + b"," + picks.choice([*MEMBERS, line[1:-1]]) + b"}",
                ]
            )()
        return line

    def lines(self):
        """All lines: bytes without their ends."""
        picks = self.picks
        schema = {"schema": self.fields}
        if picks.random() < 0.5:
            schema["stem"] = picks.random() < 0.9
        if picks.random() < 0.3:
            schema["parts"] = picks.randint(1, 16)
        if picks.random() < 0.1:
            bad = [{"schema": fields} for fields in ([], [{**FIELDS[0], "name": "T"}], self.fields * 2)]
            bad += [{**schema, "stem": stem} for stem in (None, 1, "true")]
            bad += [{**schema, "parts": parts} for parts in (0, 17, None, "2", 1.5, -1)]
            yield picks.choice([{"find": "a"}, 7, *bad])
        if picks.random() < 0.97:
            yield schema
        for _ in range(self.sizes):
            self.made += 1
            yield {"add": self.record(), **self.data()}
        # Over several parts each line on a search in flight is refused.
        flying = picks.random() < (0.8 if schema.get("parts") in (None, 1) else 0.3)
        for _ in range(picks.randint(15, 90) if flying else picks.randint(5, 60)):
            if flying and picks.random() < 0.6:
                yield from self.flight()
            else:
                yield self.edit() if picks.random() < 0.5 else self.ask()
        for _ in range(picks.choice([1, 20, 63, 66]) if flying and picks.random() < 0.15 else 0):
            yield self.opening()
        for _ in range(picks.choice([0, 0, 3])):
            for _ in range(picks.randint(0, self.sizes)):
                yield {"delete": picks.randint(1, self.made + 1)}
            yield self.ask()
            if flying:
                yield from self.flight()
        for number in list(self.open):
            if picks.random() < 0.4:
                yield from self.closing(number)
        if picks.random() < 0.05:
            yield schema

    def bytes_of(self, line):
        """A line as bytes: mostly as it is, at times changed, blank, or as long as a line may be, or longer."""
        picks = self.picks
        text = json.dumps(line, ensure_ascii=picks.random() < 0.5, separators=picks.choice([(",", ":"), (", ", ": ")]))
        line = text.encode()
        chance = picks.random()
        if chance < 0.06:
            return self.mutated(line)
        if chance < 0.07:
            return picks.choice([b"", b" \t\r", b"\x0b", b" " * LONGEST, b"\xff"])
        if chance < 0.073:
            return line.ljust(picks.choice([LONGEST, LONGEST + 1, 2 * LONGEST]))
        return line


def of_seed(seed):
    """The words, the lines of the records and those of the input; the last one may lack its end."""
    stream = Stream(seed)
    picks = stream.picks
    form = picks.random()
    stream.finishes = form >= 0.75
    lines = [stream.bytes_of(line) for line in stream.lines()]
    if form < 0.75:
        return ["run"], [], lines, picks.random() < 0.8
    texts = [stream.text().encode(errors="replace") for _ in range(picks.randint(0, 40))]
    texts = [stream.mutated(text) if picks.random() < 0.1 else text for text in texts]
    return ["search", "FILE"] + (["and"] if form < 0.85 else []), lines, texts, picks.random() < 0.8


def told_by(programs, words, records, lines, is_ended):
    """What each program answers."""
    with tempfile.NamedTemporaryFile() as file:
        file.write(b"".join(line + b"\n" for line in records))
        file.flush()
        words = [file.name if word == "FILE" else word for word in words]
        text = b"\n".join(lines) + (b"\n" if is_ended and lines else b"")
        return [answers(program, text, words) for program in programs]


def answered(lines):
    """The lines that have an answer, each with its object where it is one."""
    for line in b"\n".join(lines).split(b"\n"):
        if len(line) > LONGEST or line.strip(b" \t\r"):
            try:
                told = json.loads(line)
            except (ValueError, RecursionError):
                told = None
            yield line, told if isinstance(told, dict) else {}


def counted_to(line):
    """How many matches are counted exactly at the least."""
    try:
        return wanted(line) if "find" in line or "tree" in line or "open" in line else 0
    except TypeError:
        return 0


def number_in(line, name):
    """The number of a search in flight that a line names so."""
    number = line.get(name)
    return number if type(number) is int else None


def steps_told(answer):
    return int(answer.rsplit("steps=", 1)[1])


class Otherwise:
    """What the plain program answers to the same lines where each opening has its find behind it, and what is dropped or
    left open is turned to its end and closed: of each search by its number what it finds at its opening, and how many
    readings it may have taken before a close."""

    def __init__(self, program, lines, plain):
        self.found = {}
        self.most = {}
        asked, marks = [], []

        def ask(line, mark=None):
            asked.append(line)
            marks.append(mark)

        def closed(number):
            ask(b'{"turn":%d,"times":100000}' % number)
            ask(b'{"close":%d}' % number, (self.most, number))

        lines = list(answered(lines))
        for (line, told), (answer, *_) in zip(lines, plain):
            if answer.startswith("dropped "):
                closed(int(answer.split(" ")[1]))
            ask(line)
            if answer.startswith("ok open "):
                find = {"find": told["open"], **{name: value for name, value in told.items() if name != "open"}}
                ask(json.dumps(find).encode(), (self.found, int(answer.split(" ")[2])))
        for answer, *_ in plain[len(lines) :]:
            closed(int(answer.split(" ")[1]))
        if any(marks):
            self.take(marks, answers(program, b"\n".join(asked))[0])

    def take(self, marks, told):
        for mark, answer in zip(marks, told):
            if mark:
                place, number = mark
                readings = numbers_in(answer[0])
                place[number] = answer if place is self.found else readings["steps"] - readings["hits"]


class Flights:
    """What is known of the searches in flight of both programs while their answers are compared."""

    def __init__(self, otherwise):
        self.otherwise = otherwise
        self.wanted = {}
        # Those that sk_tool said to be done, and those that sk_reference alone closed, with what it told.
        self.done = set()
        self.ended = {}
        self.seen = Counter()

    def few_steps(self, number, steps):
        """Whether a search that was not closed took no more readings than it may, where that is known."""
        most = self.otherwise.most.get(number)
        if number in self.ended:
            told = numbers_in(self.ended[number][0])
            most = told["steps"] - told["hits"]
        self.seen["known to have few steps"] += most is not None
        return most is None or steps <= most

    def turned(self, line, mine, true):
        """Whether a turn of sk_tool is one that it may make."""
        *same, told = mine.split(" ")
        number = int(same[2])
        is_right = told in ("more", "done") and (told == "done" or number not in self.done and line.get("times", 1) < 10_000)
        if true.startswith("ok "):
            is_right = is_right and true.split(" ")[:3] == same and (told == "more" or true.endswith("done"))
            self.seen["turns longer"] += told not in true
        if told == "done":
            self.done.add(number)
        return is_right

    def agree(self, line, mine, true):
        """Whether an answer is one that the plain program's allows."""
        if mine[0].startswith("ok turn ") and (true[0].startswith("ok turn ") or number_in(line, "turn") in self.ended):
            return self.turned(line, mine[0], true[0])
        if mine[0].startswith("dropped ") and (true[0].startswith("dropped ") or number_in(line, "drop") in self.ended):
            number = int(mine[0].split(" ")[1])
            is_right = self.few_steps(number, steps_told(mine[0]))
            if self.ended.pop(number, None):
                return is_right
            return is_right and true[0] == f"dropped {number} steps=0"
        number = number_in(line, "close")
        if number is not None and (number in self.ended or "found " in mine[0] + true[0]):
            return self.closed(number, mine, true)
        if true[0].startswith("ok open "):
            self.wanted[int(true[0].split(" ")[2])] = counted_to(line)
        return agree(mine, true, counted_to(line))

    def closed(self, number, mine, true):
        """Whether a close is answered as it may be."""
        if mine[0] == "refused 14 NotDone":
            if true[0].startswith("found "):
                self.ended[number] = true
                self.seen["closes too early for sk_tool alone"] += 1
            return number not in self.done
        true = self.ended.pop(number, true)
        self.seen["closes compared"] += 1
        return self.otherwise.found.get(number, true) == true and agree(mine, true, self.wanted.get(number, 0))

    def left(self, mine, true):
        """Whether what is told at the end is what may be open."""
        numbers = [int(answer.split(" ")[1]) for answer in mine]
        plain = [f"open {number} steps=0" for number in numbers if number not in self.ended]
        few = all(self.few_steps(number, steps_told(answer)) for number, answer in zip(numbers, mine))
        return few and numbers == sorted(set(numbers)) and set(self.ended) <= set(numbers) and plain == true


def parted(told):
    """The answers to lines, and what is told at the end."""
    lines = [answer for answer in told if not answer[0].startswith("open ")]
    return lines, [answer[0] for answer in told[len(lines) :]]


def compared(programs, words, records, lines, is_ended):
    """What each program answers, the first answers that differ, or nothing, and what was seen of searches in flight."""
    told = told_by(programs, words, records, lines, is_ended)
    (ours, code, said), (plain, true_code, true_said) = told
    commands = lines
    asked = []
    if words == ["run"]:
        otherwise = Otherwise(programs[1], lines, plain)
        asked = [line for _, line in answered(lines)]
    else:
        alone = answers(programs[1], b"\n".join(records))[0]
        otherwise = Otherwise(programs[1], records, alone)
    flights = Flights(otherwise)
    (ours, our_end), (plain, true_end) = parted(ours), parted(plain)
    for place, (mine, true) in enumerate(zip(ours, plain)):
        line = asked[place] if place < len(asked) else {}
        # What sk_tool alone has open counts: from there on the numbers may differ. Nor is it known of records which were closed.
        if mine[0] == "refused 12 TooManyOpen" != true[0] and flights.ended:
            flights.seen["no more compared"] += 1
            return told, [], flights.seen
        if not asked and mine[0] == "refused 14 NotDone" and true[0].startswith("found "):
            flights.seen["no more compared"] += 1
            return told, [], flights.seen
        if not asked and mine[0].startswith("dropped ") and true[0].startswith("dropped "):
            line = {"drop": int(true[0].split(" ")[1])}
        if not flights.agree(line, mine, true):
            return told, [mine, true], flights.seen
    if len(ours) != len(plain) or not flights.left(our_end, true_end):
        return told, [[len(ours), *our_end], [len(plain), *true_end]], flights.seen
    early = flights.seen["closes too early for sk_tool alone"] > 0
    if (1 if early and true_code == 0 else true_code, true_said) != (code, said):
        return told, [[code, said], [true_code, true_said]], flights.seen
    return told, [], flights.seen


def cut_down(programs, words, records, lines, is_ended):
    """Fewer lines that differ still, and how."""

    def differs(records, lines):
        return compared(programs, words, records, lines, is_ended)[1]

    tries = 0
    for which in (0, 1):
        step = max(1, len((records, lines)[which]) // 2)
        while step:
            at = 0
            while at < len((records, lines)[which]) and tries < 500:
                parts = [records, lines]
                parts[which] = parts[which][:at] + parts[which][at + step :]
                tries += 1
                if differs(*parts):
                    records, lines = parts
                else:
                    at += step
            step //= 2
    return records, lines, differs(records, lines)


def main():
    count = int(sys.argv[1]) if len(sys.argv) > 1 else 100
    first = int(sys.argv[2]) if len(sys.argv) > 2 else 0
    folder = sys.argv[3] if len(sys.argv) > 3 else os.path.join(HERE, "..")
    programs = [os.path.join(folder, "crates", name, "out", name) for name in ("sk_tool", "sk_reference")]
    seen = Counter()
    wrong = 0
    for seed in range(first, first + count):
        words, records, lines, is_ended = of_seed(seed)
        seen["lines"] += len(records) + len(lines)
        told, how, flown = compared(programs, words, records, lines, is_ended)
        seen += flown
        for answer in told[1][0]:
            kind, number, *_ = answer[0].split(" ")
            seen[f"{kind} {number}" if kind in ("refused", "ok") else kind] += 1
            seen["values" if kind == "facets" else "hits"] += len(answer) - 1
            seen["facets with values" if kind == "facets" else "finds with hits"] += len(answer) > 1
        seen[f"status {told[1][1]}"] += 1
        if how:
            wrong += 1
            records, lines, how = cut_down(programs, words, records, lines, is_ended)
            print(f"seed {seed} differs, under {words}:")
            for line in records + [b"--"] + lines:
                print("   ", line[:2000])
            print(*(f"    {answer}" for answer in how), sep="\n", flush=True)
    print(", ".join(f"{name}: {seen[name]}" for name in sorted(seen)))
    print(f"{count} streams from seed {first}, {wrong} differ")
    sys.exit(1 if wrong else 0)


if __name__ == "__main__":
    main()
