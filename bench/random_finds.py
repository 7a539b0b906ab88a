#!/usr/bin/env python3
"""Compares finds of the built sk_tool with those of the built sk_reference, over random documents, trees and options,
and texts of words that have stems, under schemas that ask for these or do not, in one part or in up to 16: hits, order,
weights and payloads are to be equal, counts within their bounds, and steps no more than the rules allow, which is what
sk_reference prints. Facets of random texts are to be equal but for their steps. What stands in several parts is also
put to sk_tool in one: hits, order, weights and payloads are to be equal. Ends with 1 where one differs.

Wants both programs: (cd crates/sk_tool && rt run; cd ../sk_reference && rt run). Run it at the top of the repository:
python3 bench/random_finds.py [SEEDS [FIRST [TEXTS [FOLDER]]]], FIRST being the first seed, TEXTS how many finds by such
texts each seed has, and FOLDER where crates/ is."""
import json
import os
import random
import re
import subprocess
import sys

HERE = os.path.dirname(os.path.realpath(__file__))
SCHEMA = {
    "schema": [
        {"name": "body", "kind": "text"},
        {"name": "lang", "kind": "filter", "prefix": "L"},
        {"name": "site", "kind": "word", "slot": 0},
        {"name": "year", "kind": "number", "slot": 1},
    ]
}
FINDS = 40
FACETS = 10
STEMMED = 10
MANY = [f"q{number}" for number in range(100)]
FORMS = ["hop", "hops", "hopping", "Hopped", "hope", "hoping", "Hopes", "fly", "flies"]
COLLAPSED = re.compile(r" collapsed=(\d+)")


def leaf(picks):
    a, b, c = picks.choices("abcde", k=3)
    return picks.choice(
        [
            {"term": a},
            {"term": b},
            {"all": []},
            {"wildcard": "a"},
            {"term": picks.choice(["Len", "Lfr"])},
            {"wildcard": "L"},
            {"synonym": ["Len", a]},
            {"range": [1, picks.choice([None, 3]), picks.choice([None, 7])]},
            {"synonym": sorted({a, b, c})},
            {"near": [picks.randint(1, 5), a, b]},
            {"phrase": [picks.randint(1, 4), a, b]},
            {"wildcard": picks.choice(["q", "q1", f"q{picks.randint(2, 9)}"])},
            {"synonym": picks.sample(MANY, picks.randint(3, 40))},
            again(picks, picks.choice([{"wildcard": "q"}, {"wildcard": "L"}, {"synonym": ["q1", "q2", a]}])),
            {picks.choice(["near", "phrase"]): [picks.randint(1, 6), *picks.choices([a, a, b], k=picks.randint(2, 5))]},
        ]
    )


def again(picks, part):
    """A form of equal parts, with one that differs beside them or without."""
    parts = [part] * picks.randint(2, 70)
    if picks.random() < 0.5:
        parts.insert(picks.randint(0, len(parts)), {"term": picks.choice("abcde")})
    return {picks.choice(["or", "or", "and", "and", "max", "xor"]): parts}


def tree(picks, depth):
    """A random tree, so deep at the most."""
    if depth == 0 or picks.random() < 0.3:
        return leaf(picks)
    if picks.random() < 0.1:
        return {"scale": [picks.choice([0, 1, 2, 3, 40]), tree(picks, depth - 1)]}
    form = picks.choice(["and", "or", "or", "xor", "max", "and_not", "and_maybe", "filter"])
    return {form: [tree(picks, depth - 1) for _ in range(picks.randint(2, 3))]}


def terms(picks):
    """A tree of terms alone, as the sharper bounds on steps have them."""
    words = [{"term": word} for word in picks.sample("abcde", picks.randint(1, 4))]
    return {picks.choice(["and", "or", "or", "max", "and_not", "and_maybe", "filter"]): words}


def many(picks):
    """An or of up to 40 parts, alone or as a part of another form."""
    either = {"or": [tree(picks, picks.choice([0, 0, 1])) for _ in range(picks.choice([3, 4, 5, 8, 20, 40]))]}
    if picks.random() < 0.3:
        return either
    parts = [either, tree(picks, 1)]
    picks.shuffle(parts)
    return {picks.choice(["and", "or", "xor", "max", "and_not", "and_maybe", "filter"]): parts}


def ranged(picks):
    """A find by a range alone, mostly in the order of its own values, with random options."""
    of_year = {"range": [1, picks.choice([None, 0, 3, 100]), picks.choice([None, 7, 200, 900])]}
    of_site = {"range": [0, picks.choice([None, "x", "y"]), picks.choice([None, "y", "z"])]}
    query, slot = picks.choice([(of_year, "year"), (of_year, "year"), (of_site, "site")])
    find = {"tree": query} | options(picks, ["site", "year"])
    if picks.random() < 0.7:
        find |= {"order": picks.choice(["value", "value", "value_relevance", "relevance_value"]), "by": slot}
    return find


def asked(picks):
    """A find by a random tree, some of them behind a filter of all documents, with random options."""
    if picks.random() < 0.1:
        return ranged(picks)
    chance = picks.random()
    if chance < 0.4:
        query = terms(picks)
    elif chance < 0.6:
        query = many(picks)
    else:
        query = tree(picks, picks.randint(0, 3))
    if picks.random() < 0.2:
        query = {"filter": [{"all": []}, query]}
    return {"tree": query} | options(picks, ["site", "year"])


def options(picks, fields):
    """Random options of a find, by these fields that have slots."""
    find = {}
    for name, chance, value in [
        ("scheme", 0.5, lambda: picks.choice(["bool", "coord", "nnn", "bnn", "snn"])),
        ("size", 0.7, lambda: picks.randint(0, 6)),
        ("first", 0.3, lambda: picks.randint(0, 4)),
        ("check", 0.3, lambda: picks.randint(0, 20)),
        ("cutoff", 0.3, lambda: picks.choice([0, 1, 2, 3, 4, 9, 25])),
        ("ids", 0.4, lambda: picks.choice(["rising", "falling"])),
    ]:
        if picks.random() < chance:
            find[name] = value()
    if fields and picks.random() < 0.6:
        find["order"] = picks.choice(["value", "value_relevance", "relevance_value"])
        find["by"] = picks.choice(fields)
        if picks.random() < 0.5:
            find["reverse"] = picks.random() < 0.5
    if fields and picks.random() < 0.5:
        find["collapse"] = picks.choice(fields)
        if picks.random() < 0.5:
            find["max"] = picks.randint(1, 4)
    return find


def counted(picks):
    """A line that asks for facets of a random text."""
    parts = ["a", "b", "c d", "hoped", "Fly", "a*", "a NEAR b", '"a b"', "year:3..7", "site:x", "-b", "+a", "a AND b", "c XOR a"]
    line = {"facets": " ".join(picks.choices(parts, k=picks.randint(1, 4))), "by": picks.choice(["site", "year"])}
    if picks.random() < 0.5:
        line["size"] = picks.randint(0, 12)
    if picks.random() < 0.5:
        line["op"] = picks.choice(["or", "and"])
    return line


def commands(picks, texts=STEMMED):
    """A schema, documents and some deletions, finds by tree and so many by text, and facets."""
    stem = picks.random() < 0.5
    parts = picks.randint(2, 16) if picks.random() < 0.5 else 1
    yield SCHEMA | ({"stem": True} if stem else {}) | ({"parts": parts} if parts > 1 else {})
    latest = picks.choice([9, 9, 1000])
    for number in range(picks.randint(5, 60) if picks.random() < 0.8 else picks.randint(200, 600)):
        words = picks.choices("abcde", [5, 3, 2, 1, 1], k=picks.randint(0, 8))
        words += [*picks.choices(FORMS, k=picks.randint(0, 3)), *picks.choices(MANY, k=picks.randint(0, 6))]
        record = {"body": " ".join(words)}
        if picks.random() < 0.8:
            record["lang"] = picks.choice(["en", "fr", ["en", "fr"]])
        if picks.random() < 0.8:
            record["site"] = picks.choice(["x", "y", "z", ""])
        if picks.random() < 0.8:
            record["year"] = picks.randint(0, latest)
        yield {"add": record, "data": f"d{number}"}
        if picks.random() < 0.05:
            yield {"delete": picks.randint(1, number + 1)}
    for _ in range(FINDS):
        yield asked(picks)
    for _ in range(texts):
        yield {"find": " ".join(picks.choices([*FORMS, "-hop", "+hoped"], k=picks.randint(1, 4)))} | options(picks, ["site", "year"])
    for _ in range(FACETS):
        yield counted(picks)


def answers(program, text, words=("run",)):
    """Each answer with its hits or values, the number that the program ended with, and what it said on the errors."""
    ran = subprocess.run([program, *words], input=text, capture_output=True)
    *lines, rest = ran.stdout.decode(errors="surrogateescape").split("\n")
    told = []
    for line in lines:
        if told and line.startswith(("hit ", "facet ")):
            told[-1].append(line)
        else:
            told.append([line])
    return told, ran.returncode, rest + ran.stderr.decode(errors="replace")


def wanted(find):
    """Where fewer match than this, the counts of a find are the true one. 0 where it collapses: the plain program does
    not tell how many match then."""
    if "collapse" in find:
        return 0
    return max(find.get("check", 0), find.get("first", 0) + find.get("size", 10))


def numbers_in(line):
    """The numbers of an answer, by their names."""
    return {name: int(number) for name, number in (word.split("=") for word in line.split()[1:])}


def same_facets(ours, plain):
    """Whether the two are the same facets, and ours took no more steps than the rules allow, and one for each match."""
    mine, true = numbers_in(ours[0]), numbers_in(plain[0])
    steps = mine.pop("steps"), true.pop("steps")
    return mine == true and ours[1:] == plain[1:] and mine["matches"] <= steps[0] <= steps[1]


def same_hits(ours, whole):
    """Whether two answers have the same hits, whatever was collapsed into these, and the like otherwise."""
    if ours[0].startswith("found ") and whole[0].startswith("found "):
        return [COLLAPSED.sub("", line) for line in ours[1:]] == [COLLAPSED.sub("", line) for line in whole[1:]]
    return ours == whole or ours[0] == "refused 11 InParts"


def agree(ours, plain, few=0):
    """Whether an answer is one that the plain program's allows, and the true count where fewer than `few` match."""
    if ours[0].startswith("facets ") and plain[0].startswith("facets "):
        return same_facets(ours, plain)
    if not (ours[0].startswith("found ") and plain[0].startswith("found ")):
        return ours == plain
    mine, true = numbers_in(ours[0]), numbers_in(plain[0])
    lower, upper, count = mine["lower"], mine["upper"], true["lower"]
    hits = [[COLLAPSED.search(line) for line in told[1:]] for told in (ours, plain)]
    collapsed = [[int(hit.group(1)) for hit in told] for told in hits]
    bare = [[(hit.string[: hit.start()], hit.string[hit.end() :]) for hit in told] for told in hits]
    return (
        bare[0] == bare[1]
        and mine["max"] == true["max"]
        and mine["steps"] <= true["steps"]
        and lower <= count <= upper
        and (count >= few or lower == upper)
        and mine["estimate"] == (lower + upper) // 2
        and all(some <= most for some, most in zip(*collapsed))
    )


def main():
    seeds = int(sys.argv[1]) if len(sys.argv) > 1 else 100
    first = int(sys.argv[2]) if len(sys.argv) > 2 else 0
    texts = int(sys.argv[3]) if len(sys.argv) > 3 else STEMMED
    folder = sys.argv[4] if len(sys.argv) > 4 else os.path.join(HERE, "..")
    programs = [os.path.join(folder, "crates", name, "out", name) for name in ("sk_tool", "sk_reference")]
    finds = facets = stemmed = parted = differing = 0
    for seed in range(first, first + seeds):
        lines = list(commands(random.Random(seed), texts))
        text = "".join(json.dumps(line) + "\n" for line in lines).encode()
        ours, plain = (answers(program, text)[0] for program in programs)
        if "parts" in lines[0]:
            schema = {name: value for name, value in lines[0].items() if name != "parts"}
            whole = answers(programs[0], "".join(json.dumps(line) + "\n" for line in [schema, *lines[1:]]).encode())[0]
            for line, mine, one in zip(lines, ours, whole):
                parted += "tree" in line or "find" in line
                if not same_hits(mine, one):
                    differing += 1
                    print(seed, json.dumps(line), mine, one)
        for line, mine, true in zip(lines, ours, plain):
            finds += "tree" in line or "find" in line
            facets += "facets" in line
            stemmed += "stem" in lines[0] and ("find" in line or "facets" in line)
            if not agree(mine, true, wanted(line) if "tree" in line or "find" in line else 0):
                differing += 1
                print(seed, json.dumps(line), mine, true)
        differing += abs(len(ours) - len(plain))
    print(f"seeds {first} to {first + seeds - 1}: {finds} finds, {facets} facets, {stemmed} texts under stems, {parted} finds in parts, {differing} differ")
    sys.exit(1 if differing else 0)


if __name__ == "__main__":
    main()
