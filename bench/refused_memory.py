#!/usr/bin/env python3
"""Runs the built sk_tool with one request for memory refused, the first, the second and so on, until a run makes no
more, and then with that one and all behind it refused. Each run must end with 5, say `no memory`, and have put whole
answers, to first lines; or put all, and end as if nothing was refused (where a vector that takes an iterator's items is
refused what the iterator announced, the library asks again, for one; and places for guesses in the dictionary can be done
without). Ends with 1 where one does not.

Wants cc and the built program: (cd crates/sk_tool && rt run). Run it at the top of the repository:
python3 bench/refused_memory.py [STEP [FOLDER [STREAMS]]], every STEPth request being refused, FOLDER being where
crates/ is, and 30 requests of each of so many streams of bench/streams.py being refused, by chance, behind the rows.

refused_memory.c stands before the C library's allocator, and counts from the program's main on: what the loader and the
library take before is not refused."""
import os
import random
import subprocess
import sys
import tempfile

import streams

HERE = os.path.dirname(os.path.realpath(__file__))

DOCUMENTS = """\
{"schema":[{"name":"body","kind":"text"},{"name":"lang","kind":"filter","prefix":"L"},\
{"name":"year","kind":"number","slot":0},{"name":"site","kind":"word","slot":1}]}
{"add":{"body":"red fox red","lang":"en","year":1990,"site":"a"},"data":"one"}
{"add":{"body":"Red hen","lang":"en","year":2000,"site":"a"}}
{"add":{"body":"fox den","lang":"fr","year":2010,"site":"b"}}
{"add":{"body":"the red-fox den","lang":"en","site":"b"}}
"""
TEXTS = r"""
{"find":"\"red fox\""}
{"find":"+red fox -hen"}
{"find":"den NEAR/2 red"}
{"find":"fo* XOR (den AND fox)"}
{"find":"year:1995.. lang:en lang:fr"}
{"find":"red fox","op":"and","first":1,"size":2,"check":3,"cutoff":1,"ids":"falling"}
{"show":"+red \"fox den\" -lang:fr year:1990..2000"}
{"find":"red AND"}
{"find":"(red"}
"""
FACETS = """
{"facets":"red fox","by":"site"}
{"facets":"red NEAR fox","by":"year","size":1}
{"facets":"red fox -hen","by":"year","op":"and"}
{"facets":"red AND","by":"year"}
{"facets":"red","by":"body"}
"""
TREES = """
{"tree":{"xor":[{"term":"red"},{"term":"fox"},{"max":[{"term":"red"},{"term":"den"}]}]}}
{"tree":{"and_maybe":[{"synonym":["red","fox"]},{"scale":[5,{"term":"hen"}]}]},"scheme":"coord"}
{"tree":{"filter":[{"all":[]},{"wildcard":"L"},{"range":[0,1990,null]}]},"order":"relevance_value","by":"year"}
{"tree":{"and_not":[{"near":[5,"red","fox"]},{"nothing":[]},{"phrase":[2,"fox","den"]}]}}
{"tree":{"and":[]}}
"""
EDITS = """
{"delete":4}
{"delete":4}
{"replace":3,"with":{"body":"owl fox"},"data":"three"}
{"replace":4294967295,"with":{"body":"red"}}
{"add":{"body":"red"}}
{"replace_by":["lang","en"],"with":{"body":"owl","lang":["fr","de"],"year":1}}
{"delete_by":["lang","fr"]}
{"find":"red owl fox"}
{"schema":[]}
{"add":{"title":"red"}}

"""
# Searches that are opened, turned, closed and dropped among edits; some are refused, and two are open at the end.
FLIGHTS = r"""
{"open":"red fox"}
{"open":"red fox","collapse":"site"}
{"delete":1}
{"close":1}
{"turn":1}
{"open":"red fox","order":"value","by":"year","reverse":true}
{"replace_by":["lang","en"],"with":{"body":"owl","lang":["fr","de"],"year":1},"data":"four"}
{"turn":1,"times":100}
{"turn":2,"times":100}
{"turn":3,"times":2}
{"close":1}
{"close":1}
{"add":{"body":"red"}}
{"open":"\"red fox\" OR year:1995..","op":"and","first":1,"size":2,"check":3}
{"open":"red AND"}
{"turn":4}
{"close":2}
{"drop":3}
{"drop":3}
{"turn":0}
{"open":"r* hen"}
{"delete_by":["lang","fr"]}
"""
# As many are open as may be, one more is refused, and another takes the place of one that is dropped.
MANY_OPEN = '{"open":"hen"}\n' * 64 + '{"add":{"body":"hen"}}\n{"open":"hen"}\n{"drop":64}\n{"open":"hen"}\n'
# A list of more than 128 entries is cut into two, and joined again when many are gone.
MANY = '{"schema":[{"name":"body","kind":"text"}]}\n' + '{"add":{"body":"a"}}\n' * 140
GONE = "".join(f'{{"delete":{number}}}\n' for number in range(20, 130))

# A title, the words, the records and the input.
ROWS = [
    ("two words", ["run"], "", DOCUMENTS + '{"find":"red fox"}\n'),
    (
        "collapsed",
        ["run"],
        "",
        DOCUMENTS + '{"find":"red fox","collapse":"site"}\n{"find":"red fox","collapse":"site","max":2}\n',
    ),
    (
        "by value",
        ["run"],
        "",
        DOCUMENTS
        + '{"find":"red fox","order":"value","by":"year","reverse":true}\n'
        + '{"find":"red fox","order":"value","by":"year","reverse":true,"collapse":"site"}\n',
    ),
    ("texts", ["run"], "", DOCUMENTS + TEXTS),
    ("facets", ["run"], "", DOCUMENTS + FACETS),
    ("trees", ["run"], "", DOCUMENTS + TREES),
    ("edits", ["run"], "", DOCUMENTS + EDITS),
    ("searches in flight", ["run"], "", DOCUMENTS + FLIGHTS),
    ("as many as may be open", ["run"], "", DOCUMENTS + MANY_OPEN),
    ("searches that records open", ["search", "FILE"], DOCUMENTS + FLIGHTS, "red fox\n"),
    ("query texts", ["search", "FILE"], DOCUMENTS + '{"find":"hen"}\n', "red fox\n\nred AND\n"),
    ("joined by and", ["search", "FILE", "and"], DOCUMENTS, "red fox\n"),
    ("a demonstration", ["demo", "20"], "", ""),
    ("a list that is cut, and joined", ["run"], "", MANY + '{"find":"a"}\n' + GONE + '{"find":"a"}\n'),
]


class Runs:
    """Runs of the program in a folder, with the shim before the allocator."""

    def __init__(self, program, folder, words, records, text):
        self.file = os.path.join(folder, "records")
        with open(self.file, "wb") as file:
            file.write(records)
        self.words = [program] + [self.file if word == "FILE" else word for word in words]
        self.text = text
        shim, counted = (os.path.join(folder, name) for name in ("refused.so", "counted"))
        self.settings = os.environ | {"LD_PRELOAD": shim, "COUNTED": counted}

    def run(self, refused, others=False):
        """How a run ended, and how many requests it made: those up to the refused one, where it did not tell more."""
        settings = self.settings | {"REFUSED": str(refused)} | ({"REFUSED_ALL": "1"} if others else {})
        ran = subprocess.run(self.words, input=self.text, capture_output=True, env=settings)
        with open(self.settings["COUNTED"]) as file:
            return ran.returncode, ran.stdout, ran.stderr, int(file.read())


def is_front(put, whole):
    """Whether whole answers were put, to first lines: no hit, or value, of the last one is missing, nor a search of those
    that are told of at the end."""
    rest = whole[len(put) :]
    is_cut = rest.startswith((b"hit ", b"facet ")) or rest.startswith(b"open ") and b"\nopen " in put
    return whole.startswith(put) and put[-1:] in (b"", b"\n") and not is_cut


def came_to(ended, whole):
    """Whether a run is the whole one, or stopped as it must, or neither."""
    if ended[:3] == whole[:3]:
        return "whole"
    code, put, said, _ = ended
    return "stopped" if code == 5 and said == b"no memory\n" and is_front(put, whole[1]) else "wrong"


def tried(runs, step):
    """How the run without a refusal ends, which refused requests left a run whole, and what came to neither."""
    whole = runs.run(0)
    wrong = []
    passed = {False: [], True: []}
    for others in passed:
        for refused in range(1, whole[3] + 1, step):
            ended = runs.run(refused, others)
            if came_to(ended, whole) == "whole":
                passed[others].append(refused)
            elif came_to(ended, whole) == "wrong":
                wrong.append((refused, others, *ended))
    ended = runs.run(whole[3] + 1)
    if came_to(ended, whole) != "whole":
        wrong.append(("none", *ended))
    return whole, passed, wrong


def tried_by_chance(program, folder, seed):
    """What came to neither, of 30 requests of a stream."""
    words, records, lines, _ = streams.of_seed(seed)
    picks = random.Random(seed)
    runs = Runs(program, folder, words, b"".join(line + b"\n" for line in records), b"\n".join(lines))
    whole = runs.run(0)
    tries = [(picks.randint(1, whole[3]), picks.random() < 0.5) for _ in range(30)]
    wrong = [(seed, *one) for one in tries if came_to(runs.run(*one), whole) == "wrong"]
    for one in wrong:
        print("    seed, request, and all behind it:", one)
    return wrong


def main():
    step = int(sys.argv[1]) if len(sys.argv) > 1 else 1
    top = sys.argv[2] if len(sys.argv) > 2 else os.path.join(HERE, "..")
    program = os.path.realpath(os.path.join(top, "crates", "sk_tool", "out", "sk_tool"))
    count = int(sys.argv[3]) if len(sys.argv) > 3 else 0
    bad = 0
    with tempfile.TemporaryDirectory() as folder:
        shim, source = os.path.join(folder, "refused.so"), os.path.join(HERE, "refused_memory.c")
        subprocess.run(["cc", "-O2", "-shared", "-fPIC", "-o", shim, source], check=True)
        for title, words, records, text in ROWS:
            whole, passed, wrong = tried(Runs(program, folder, words, records.encode(), text.encode()), step)
            bad += len(wrong)
            print(f"{title}: ends with {whole[0]}, {whole[3]} requests; {len(wrong)} wrong")
            one, all_behind = (numbers or "none" for numbers in passed.values())
            print(f"    whole without these: {one}; without these and all behind: {all_behind}", flush=True)
            for refused in wrong[:5]:
                print("   ", refused)
        bad += sum(len(tried_by_chance(program, folder, seed)) for seed in range(count))
    print(f"{bad} runs ended as they must not")
    sys.exit(1 if bad else 0)


if __name__ == "__main__":
    main()
