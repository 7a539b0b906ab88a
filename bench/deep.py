#!/usr/bin/env python3
"""Times the built sk_tool on long, deep and wide lines, on a stack of 8 MiB, and on one of 4 MiB, the least that it
wants, on finds of 1,024 words, brackets and trees that nest: each kind of line in a size and in a tenth of it. What it
is answered must begin as the rules say, and the time of the size must be at most 20 times that of its tenth, where it
is more than the fifth of a second. Ends with 1 where one is not.

Wants the built program: (cd crates/sk_tool && rt run). Run it at the top of the repository:
python3 bench/deep.py [WORD [FOLDER]], the lines whose titles have the word alone, and FOLDER being where crates/ is."""
import json
import os
import resource
import subprocess
import sys
import time

HERE = os.path.dirname(os.path.realpath(__file__))
LONGEST = 1_048_576
STACK, LEAST_STACK = 8 << 20, 4 << 20
SCHEMA = {
    "schema": [
        {"name": "body", "kind": "text"},
        {"name": "lang", "kind": "filter", "prefix": "L"},
        {"name": "year", "kind": "number", "slot": 0},
        {"name": "site", "kind": "word", "slot": 1},
    ]
}


def find(text):
    return json.dumps({"find": text}, ensure_ascii=False)


def add(text):
    return json.dumps({"add": {"body": text}}, ensure_ascii=False)


def tree(query):
    return json.dumps({"tree": query}, separators=(",", ":"))


def nested(form, depth):
    """A tree of so many queries one inside another."""
    return '{"tree":' + f'{{"{form}":[' * (depth - 1) + '{"term":"a"}' + "]}" * (depth - 1) + "}"


def different(count):
    """So many different words, of five letters."""
    return " ".join("".join(chr(97 + number // 26**place % 26) for place in range(5)) for number in range(count))


def every_operator(levels):
    """A text of so many brackets, one inside another, with each operator in each, and 1,024 words in all of 100."""
    text = " AND ".join(f"w{number}" for number in range(324 * levels // 100))
    for _ in range(levels):
        text = f"+({text}) a -b lang:en AND c NOT d XOR e OR f"
    return text


def replace(number):
    return json.dumps({"replace": number, "with": {"body": "a", "year": number, "site": "x"}})


def removed(count):
    return [f'{{"delete":{number + 1}}}' for number in range(count)]


def by_value(options):
    return json.dumps({"find": "a", "order": "value", "by": "year", **options})


FOUND, TOO_MANY = "found ", "refused 9 BadQuery TooMany at 2048"
BAD_SHAPE, NOT_JSON, BAD_TREE = "refused 5 BadShape", "refused 2 NotJson", "refused 10 BadTree"
DOCUMENT = [add("a b a")]
# A title, the greatest size, lines of a size, and how the last answer that is no hit begins.
KINDS = [
    ("brackets, all closed", 500_000, lambda n: [find("(" * n + "a" + ")" * n)], "refused 9 BadQuery TooDeep at 100"),
    ("brackets, none closed", 1_000_000, lambda n: [find("(" * n)], "refused 9 BadQuery UnclosedBracket at 0"),
    (
        "brackets, half closed",
        650_000,
        lambda n: [find("(" * n + ")" * (n // 2))],
        "refused 9 BadQuery UnclosedBracket at 0",
    ),
    ("closing brackets", 1_000_000, lambda n: [find(")" * n)], "refused 9 BadQuery StrayBracket at 0"),
    ("empty brackets", 500_000, lambda n: [*DOCUMENT, find("()" * n)], FOUND),
    ("100 brackets, again and again", 5_000, lambda n: [*DOCUMENT, find(("(" * 100 + ")" * 100) * n)], FOUND),
    ("marks and brackets", 500_000, lambda n: [find("-(" * n)], "refused 9 BadQuery UnclosedBracket at 1"),
    ("marks before empty brackets", 260_000, lambda n: [*DOCUMENT, find("-() " * n)], FOUND),
    ("or without operands", 349_000, lambda n: [find("OR " * n)], "refused 9 BadQuery MissingOperand at 0"),
    ("or of empty brackets", 170_000, lambda n: [*DOCUMENT, find("() OR " * n + "a")], FOUND),
    ("xor of empty brackets", 149_000, lambda n: [*DOCUMENT, find("() XOR " * n + "a")], FOUND),
    ("and of empty brackets", 149_000, lambda n: [*DOCUMENT, find("() AND " * n + "a")], FOUND),
    ("not of empty brackets", 149_000, lambda n: [*DOCUMENT, find("a" + " NOT ()" * n)], FOUND),
    ("or of words", 209_000, lambda n: [find("a OR " * n + "a")], "refused 9 BadQuery TooMany at 5120"),
    ("near of words", 149_000, lambda n: [find("a NEAR " * n + "a")], "refused 9 BadQuery TooMany at 7168"),
    ("words", 520_000, lambda n: [find("a " * n)], TOO_MANY),
    ("words that are joined", 520_000, lambda n: [find("a-" * n)], "refused 9 BadQuery TooMany at 0"),
    ("joiners behind a word", 1_000_000, lambda n: [*DOCUMENT, find("a" + "-" * n)], FOUND),
    ("joiners behind 1,000 words", 1_000, lambda n: [*DOCUMENT, find(("a" + "/" * 1_000 + " ") * n)], FOUND),
    ("quotes", 1_000_000, lambda n: [*DOCUMENT, '{"find":"' + '\\"' * (n // 2) + '"}'], FOUND),
    ("marks before quotes", 250_000, lambda n: [*DOCUMENT, '{"find":"' + '+\\" ' * n + '"}'], FOUND),
    ("words in a quote", 500_000, lambda n: ['{"find":"\\"' + "a " * n + '"}'], "refused 9 BadQuery TooMany at 0"),
    ("marks", 1_000_000, lambda n: [*DOCUMENT, find("+" * n)], FOUND),
    ("fields", 200_000, lambda n: [find("body:" * n)], "refused 9 BadQuery TooMany at 0"),
    ("dots of a range", 1_000_000, lambda n: [find("site:" + "." * n)], FOUND),
    ("digits of a range", 1_000_000, lambda n: [find("year:" + "1" * n)], "refused 9 BadQuery BadRange at 0"),
    ("digits of a distance", 1_000_000, lambda n: [find("a NEAR/" + "0" * n + "1 a")], FOUND),
    ("one word", 1_000_000, lambda n: [find("a" * n)], FOUND),
    ("one word with apostrophes", 500_000, lambda n: [find("a'" * n)], FOUND),
    ("marks on one letter, out of order", 250_000, lambda n: [find("a" + "\u0301\u0323" * n)], FOUND),
    ("marks on one letter, indexed", 250_000, lambda n: [add("a" + "\u0301\u0323" * n)], "ok id 1"),
    ("letters that fold to three", 500_000, lambda n: [add("\u0390" * n)], "ok id 1"),
    ("spaces", 1_000_000, lambda n: [find(" " * n)], FOUND),
    ("a show of empty brackets", 170_000, lambda n: ['{"show":"' + "() OR " * n + 'a"}'], "query "),
    ("arrays in a line", 1_000_000, lambda n: ["[" * n], NOT_JSON),
    ("objects in a line", 200_000, lambda n: ['{"a":' * n], NOT_JSON),
    ("a line of digits", 1_000_000, lambda n: ["1" * n], NOT_JSON),
    ("a line of zeros behind a point", 1_000_000, lambda n: ["0." + "0" * n], BAD_SHAPE),
    (
        "members of an object",
        100_000,
        lambda n: ["{" + ",".join(f'"{number}":0' for number in range(n)) + "}"],
        BAD_SHAPE,
    ),
    ("one member again and again", 100_000, lambda n: ["{" + ",".join('"find":0' for _ in range(n)) + "}"], BAD_SHAPE),
    ("escapes", 170_000, lambda n: ['{"add":{},"data":"' + "\\u0001" * n + '"}', tree({"all": []})], FOUND),
    ("lines", 1_000_000, lambda n: ["\n" * n + "[]"], BAD_SHAPE),
    ("refused lines", 200_000, lambda n: ["[]\n" * n + "[]"], BAD_SHAPE),
    ("a tree 63 deep", 63, lambda n: [*DOCUMENT, nested("or", n)], FOUND),
    ("a tree 64 deep", 64, lambda n: [nested("or", n)], NOT_JSON),
    ("a tree 50,000 deep", 50_000, lambda n: [nested("xor", n)], NOT_JSON),
    ("a tree of 1,024 leaves", 1_024, lambda n: [*DOCUMENT, tree({"or": [{"term": "a"}] * n})], FOUND),
    ("a tree of 65,000 leaves", 65_000, lambda n: [tree({"or": [{"term": "a"}] * n})], BAD_TREE),
    ("an or of all", 69_000, lambda n: [*DOCUMENT, tree({"or": [{"all": []}] * n})], FOUND),
    ("an xor of all", 69_000, lambda n: [*DOCUMENT, tree({"xor": [{"all": []}] * n})], FOUND),
    ("an and of all", 69_000, lambda n: [*DOCUMENT, tree({"and": [{"all": []}] * n})], FOUND),
    ("a max of nothing", 60_000, lambda n: [*DOCUMENT, tree({"max": [{"nothing": []}] * n})], FOUND),
    ("an and_not of all", 69_000, lambda n: [*DOCUMENT, tree({"and_not": [{"all": []}] * n})], FOUND),
    ("an and_maybe of all", 69_000, lambda n: [*DOCUMENT, tree({"and_maybe": [{"all": []}] * n})], FOUND),
    ("a filter of all", 69_000, lambda n: [*DOCUMENT, tree({"filter": [{"all": []}] * n})], FOUND),
    (
        "a synonym of 1,024 words",
        1_024,
        lambda n: [*DOCUMENT, tree({"synonym": [f"a{number}" for number in range(n)]})],
        FOUND,
    ),
    ("the words of a document", 520_000, lambda n: [add("a " * n), find("a")], FOUND),
    ("different words of a document", 174_000, lambda n: [add(different(n)), find("a*")], FOUND),
    ("different words, removed", 174_000, lambda n: [add(different(n)), '{"delete":1}'], "ok deleted 1"),
    (
        "different words, each alone",
        20_000,
        lambda n: [add(word) for word in different(n).split()] + [find("a*")],
        FOUND,
    ),
    (
        "filters of a document",
        100_000,
        lambda n: [json.dumps({"add": {"lang": [str(number) for number in range(n)]}})],
        "ok id 1",
    ),
    ("one filter again and again", 200_000, lambda n: [json.dumps({"add": {"lang": ["a"] * n}})], "ok id 1"),
    ("a phrase in a long document", 260_000, lambda n: [add("a b " * n), '{"find":"\\"b b\\""}'], FOUND),
    (
        "a phrase of 1,000 words in a long document",
        52_000,
        lambda n: [add("a b " * n), tree({"phrase": [1_048_576] + ["a", "b"] * 500})],
        FOUND,
    ),
    (
        "words near in a long document",
        260_000,
        lambda n: [add("a " * n + "b " * n), tree({"near": [2_000, "a", "b", "a", "b"]})],
        FOUND,
    ),
    (
        "words too far away",
        260_000,
        lambda n: [add("a " * n + "c " * 300 + "b " * n), tree({"near": [300, "a", "b"]})],
        FOUND,
    ),
    (
        "a phrase that fails at its last word",
        500,
        lambda n: [add(("a " * 1_023 + "b ") * n), tree({"phrase": [1_024] + ["a"] * 1_024})],
        FOUND,
    ),
    (
        "a phrase of a word at every other place",
        260_000,
        lambda n: [add("a b " * n), tree({"phrase": [2_046] + ["a"] * 1_024})],
        FOUND,
    ),
    (
        "a word 1,023 times near another",
        260_000,
        lambda n: [add("a b " * n), tree({"near": [1] + ["a"] * 1_023 + ["b"]})],
        FOUND,
    ),
    (
        "two words in turn, near at no place",
        260_000,
        lambda n: [add("a b " * n), tree({"near": [1] + ["a", "b"] * 512})],
        FOUND,
    ),
    (
        "a phrase in each document",
        20_000,
        lambda n: [add("a b")] * n + [tree({"phrase": [1_000] + ["a", "b"] * 500})],
        FOUND,
    ),
    ("an xor of 1,000 words", 20_000, lambda n: [add("a")] * n + [tree({"xor": [{"term": "a"}] * 1_000})], FOUND),
    ("words in falling order", 20_000, lambda n: [add(f"w{n - number:08}") for number in range(n)], "ok id "),
    (
        "documents with values, removed from the first on",
        40_000,
        lambda n: [replace(number + 1) for number in range(n)] + removed(n),
        "ok deleted 1",
    ),
    ("ids in falling order", 40_000, lambda n: [replace(n - number) for number in range(n)], "ok id 1"),
    (
        "ids from both ends",
        20_000,
        lambda n: [replace(number + 1 if number % 2 else 2 * n - number) for number in range(n)],
        "ok id ",
    ),
    (
        "documents removed from the first on",
        20_000,
        lambda n: [add("a")] * n + removed(n),
        "ok deleted 1",
    ),
    (
        "documents removed at once",
        20_000,
        lambda n: ['{"add":{"lang":"en"}}'] * n + ['{"delete_by":["lang","en"]}'],
        "ok deleted ",
    ),
    (
        "documents by value, a page of all",
        20_000,
        lambda n: [replace(number + 1) for number in range(n)] + [by_value({"size": 100_000})],
        FOUND,
    ),
    (
        "documents by value, all of one key",
        20_000,
        lambda n: [replace(number + 1) for number in range(n)]
        + [by_value({"size": 100_000, "collapse": "site", "max": 100_000})],
        FOUND,
    ),
    ("documents of one word", 20_000, lambda n: [add("a")] * n + [find("a a a")], FOUND),
    (
        "documents of one value",
        20_000,
        lambda n: ['{"add":{"body":"a","site":"x"}}'] * n + ['{"find":"a","collapse":"site","size":100000}'],
        FOUND,
    ),
    ("one document, replaced", 20_000, lambda n: ['{"replace":1,"with":{"body":"a b c"}}'] * n, "ok id 1"),
    (
        "a document, added and removed",
        20_000,
        lambda n: ['{"replace":1,"with":{"body":"a"}}\n{"delete":1}'] * n,
        "ok deleted 1",
    ),
]
# The same, on the least stack.
ON_LEAST = [
    ("1,024 words, on 4 MiB", 1_024, lambda n: [*DOCUMENT, find("a " * n)], FOUND),
    ("1,024 different words, on 4 MiB", 1_024, lambda n: [add(different(n)), find(different(n))], FOUND),
    ("99 brackets, on 4 MiB", 99, lambda n: [*DOCUMENT, find("(" * n + "a" + ")" * n)], FOUND),
    ("a tree 63 deep, on 4 MiB", 63, lambda n: [*DOCUMENT, nested("and", n)], FOUND),
    (
        "99 brackets with all operators, on 4 MiB",
        99,
        lambda n: [add(" ".join(f"w{number}" for number in range(324))), find(every_operator(n))],
        FOUND,
    ),
]


def seconds(program, text, stack):
    """How long the program takes over the lines, the number that it ends with, and its last answer that is no hit."""
    begun = time.monotonic()
    ran = subprocess.run(
        [program, "run"],
        input=text,
        capture_output=True,
        preexec_fn=lambda: resource.setrlimit(resource.RLIMIT_STACK, (stack, stack)),
    )
    took = time.monotonic() - begun
    answers = [line for line in ran.stdout.split(b"\n") if line and not line.startswith(b"hit ")]
    return took, ran.returncode, answers[-1].decode(errors="replace") if answers else ""


def main():
    word = sys.argv[1] if len(sys.argv) > 1 else ""
    folder = sys.argv[2] if len(sys.argv) > 2 else os.path.join(HERE, "..")
    program = os.path.join(folder, "crates", "sk_tool", "out", "sk_tool")
    wrong = 0
    tries = [(STACK, kind) for kind in KINDS] + [(LEAST_STACK, kind) for kind in ON_LEAST]
    for stack, (title, most, lines, begins) in tries:
        if word not in title:
            continue
        texts = [("\n".join([json.dumps(SCHEMA), *lines(size)]) + "\n").encode() for size in (most // 10, most)]
        longest = max(len(line) for line in texts[1].split(b"\n"))
        (early, _, _), (late, code, said) = (seconds(program, text, stack) for text in texts)
        faults = []
        if code not in (0, 1) or not said.startswith(begins):
            faults.append(f"ends with {code}, says {said[:100]!r} and not {begins!r}")
        if longest > LONGEST:
            faults.append(f"a line of {longest} bytes")
        if late > 0.2 and late > 20 * early:
            faults.append("not near linear")
        wrong += bool(faults)
        print(f"{title:48} {most:9} {early:8.3f} s {late:8.3f} s  {'; '.join(faults) or said[:60]}", flush=True)
    print(f"{wrong} wrong")
    sys.exit(1 if wrong else 0)


if __name__ == "__main__":
    main()
