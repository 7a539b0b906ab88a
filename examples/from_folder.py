#!/usr/bin/env python3
"""Writes a folder of texts as command lines: a schema, and one document a file.

python3 examples/from_folder.py FOLDER [SUFFIX ..] > folder.jsonl

With suffixes (.txt .md), only files that end so. Files with a zero byte (pictures, programs) and hidden ones are passed
over. A text is read as UTF-8, or as UTF-16 where its mark says so, else as Latin-1."""
import json
import os
import signal
import sys
import time

MOST_LINE = 1_048_576
SCHEMA = [
    {"name": "title", "kind": "text", "prefix": "S", "step": 256},
    {"name": "any_title", "kind": "text", "step": 256},
    {"name": "body", "kind": "text"},
    {"name": "path", "kind": "filter", "prefix": "P"},
    {"name": "suffix", "kind": "filter", "prefix": "E"},
    {"name": "changed", "kind": "number", "slot": 0},
    {"name": "size", "kind": "number", "slot": 1},
]


def decoded(raw):
    """The text of these bytes. Any bytes are a text in Latin-1, which is tried last."""
    if raw.startswith((b"\xff\xfe", b"\xfe\xff")):
        return raw.decode("utf-16", "replace")
    try:
        return raw.decode("utf-8-sig")
    except UnicodeDecodeError:
        return raw.decode("latin-1")


def line(values, data):
    """The line of an addition. A body that makes it too long is cut in half until it fits."""
    while True:
        told = json.dumps({"add": values, "data": data}, ensure_ascii=False, separators=(",", ":"))
        told = told.encode("utf-8", "replace")
        if len(told) <= MOST_LINE:
            return told
        print(f"{values['path']}: cut, since a line has at most {MOST_LINE} bytes", file=sys.stderr)
        values["body"] = values["body"][:len(values["body"]) // 2]


def document(folder, path):
    """The line of a file, or None where it is no text."""
    with open(path, "rb") as file:
        raw = file.read(64 * MOST_LINE)
    if b"\0" in raw and not raw.startswith((b"\xff\xfe", b"\xfe\xff")):
        return None
    text = decoded(raw)
    told = os.stat(path)
    # A name that is no UTF-8 is written with question marks.
    name = os.path.relpath(path, folder).encode("utf-8", "replace").decode()
    title = next((row.strip("#=*- \t\r") for row in text.split("\n") if row.strip("#=*- \t\r")), name)[:200]
    words = f"{title} {os.path.splitext(os.path.basename(name))[0]}"
    values = {
        "title": words,
        "any_title": words,
        "body": text,
        "path": name,
        "suffix": os.path.splitext(name)[1].lstrip("."),
        "changed": int(time.strftime("%Y%m%d", time.gmtime(max(0, told.st_mtime)))),
        "size": told.st_size,
    }
    return line(values, f"{title}\n{name}")


def main():
    if len(sys.argv) < 2:
        sys.exit(__doc__)
    folder, suffixes = sys.argv[1], tuple(sys.argv[2:])
    if not os.path.isdir(folder):
        sys.exit(f"{folder}: no folder")
    out = sys.stdout.buffer
    out.write(json.dumps({"schema": SCHEMA}, separators=(",", ":")).encode() + b"\n")
    for here, below, names in os.walk(folder):
        below[:] = sorted(name for name in below if not name.startswith("."))
        for name in sorted(names):
            path = os.path.join(here, name)
            if name.startswith(".") or suffixes and not name.endswith(suffixes) or not os.path.isfile(path):
                continue
            try:
                told = document(folder, path)
            except OSError as cause:
                print(f"{path}: {cause.strerror}", file=sys.stderr)
                continue
            if told:
                out.write(told + b"\n")


if __name__ == "__main__":
    signal.signal(signal.SIGPIPE, signal.SIG_DFL)
    main()
