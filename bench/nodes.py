#!/usr/bin/env python3
"""Prints what a posting costs in the tree of a query, and in a floor in C++ with nodes of the same shape.

Wants g++ and the built program: (cd crates/try_walks && rt run). Run it at the top of the repository."""
import os
import resource
import subprocess
import tempfile

HERE = os.path.dirname(os.path.realpath(__file__))
OURS = os.path.join(HERE, "..", "crates", "try_walks", "out", "try_walks")
DOCUMENTS, ROUNDS = 100_000, 600
FORMS = {"and": 0, "or": 1, "max": 2, "xor": 3, "not": 4, "maybe": 5, "term": 6}


def seconds(*command):
    """The least processor time of three runs."""
    least = float("inf")
    for _ in range(3):
        before = resource.getrusage(resource.RUSAGE_CHILDREN).ru_utime
        subprocess.run([str(word) for word in command], check=True, stdin=subprocess.DEVNULL, stdout=subprocess.DEVNULL)
        least = min(least, resource.getrusage(resource.RUSAGE_CHILDREN).ru_utime - before)
    return least


def main():
    with tempfile.TemporaryDirectory() as folder:
        floor = os.path.join(folder, "nodes")
        subprocess.run(["g++", "-O3", "-o", floor, os.path.join(HERE, "nodes.cpp")], check=True)
        for form, number in FORMS.items():
            told = subprocess.run([floor, str(DOCUMENTS), "1", form], check=True, capture_output=True, text=True)
            postings = int(told.stdout.split()[1]) // (2 if form == "term" else 1)
            ours = seconds(OURS, DOCUMENTS, ROUNDS, number) - seconds(OURS, DOCUMENTS, 0, number)
            theirs = seconds(floor, DOCUMENTS, ROUNDS, form) - seconds(floor, DOCUMENTS, 0, form)
            each = [1e9 * it / ROUNDS / postings for it in (ours, theirs)]
            print(f"{form:6} {each[0]:5.1f} ns a posting, floor {each[1]:5.1f} ns, ratio {ours / theirs:.2f}")


if __name__ == "__main__":
    main()
