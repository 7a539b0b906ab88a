#!/usr/bin/env python3
"""Prints what finds cost in the built program over an index whose lists grew document by document, and over a copy of it,
in which the chunks of each list lie side by side: a search that stays open while a document is added has the index
copied. Of each class the median of its finds, of processor time, and of some runs by turns. The first pages are compared.
Ends with 1 where one differs.

Wants the built program: (cd crates/sk_tool && rt run). Run it at the top of the repository:
python3 bench/locality.py [PROGRAM [DOCUMENTS]]. The documents and finds are those of bench/xapian_finds.py."""
import json
import random
import statistics
import sys

from builds import records
from finds import OURS
from floors import Server
from xapian_finds import DOCUMENTS, RUNS, SCHEMA, WORDS, asked, medians, timed

COPIED = ['{"open":"a","size":1}', '{"add":{"body":"0"}}', '{"drop":1}']


def main():
    program = sys.argv[1] if len(sys.argv) > 1 else OURS
    documents = int(sys.argv[2]) if len(sys.argv) > 2 else DOCUMENTS
    made = records(documents, random.Random(8), WORDS)
    lines = [json.dumps(SCHEMA)]
    lines += [json.dumps({"add": {"body": record["body"], "year": record["year"]}}) for record in made]
    servers = [Server([program, "run"], more, len(more)) for more in (lines, lines + COPIED)]
    print(f"{documents:,} documents; ms of a processor, the median of the finds, and of {RUNS} runs; pages of 10")
    print(f"{'class':27}{'as grown':>9} {'copied':>9} {'ratio':>6}{'differ':>8}")
    differing = 0
    for name, finds in asked(random.Random(9)):
        found, runs = timed(servers, [json.dumps(find) for find in finds])
        grown, copied = (statistics.median(each) for each in zip(*map(medians, runs)))
        wrong = sum(one != other for one, other in found)
        differing += wrong
        print(f"{name:27}{grown:9.4f} {copied:9.4f} {copied / grown:6.2f}{wrong:8}", flush=True)
    print(f"{differing} finds differ")
    for server in servers:
        server.close()
    sys.exit(1 if differing else 0)


if __name__ == "__main__":
    main()
