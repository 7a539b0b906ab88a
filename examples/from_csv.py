#!/usr/bin/env python3
"""Writes a CSV file as command lines: a schema, and one document a row.

python3 examples/from_csv.py FILE.csv [COLUMN=KIND ..] > table.jsonl

The first row names the columns. KIND is title, text, filter, number, word or none. Where nothing is said, a column of
whole numbers alone is a number, and each other one a text, the first of them the title. A text column can be asked by
its name (author:darwin) and by plain words, so its text is given twice. The separator is the one of , ; | and tab that
the first row has most often. The file is read as UTF-8, or as UTF-16 where its mark says so, else as Latin-1."""
import csv
import io
import json
import re
import signal
import sys

MOST_LINE = 1_048_576
KINDS = ("title", "text", "filter", "number", "word", "none")


def decoded(raw):
    """The text of these bytes. Any bytes are a text in Latin-1, which is tried last."""
    if raw.startswith((b"\xff\xfe", b"\xfe\xff")):
        return raw.decode("utf-16", "replace")
    try:
        return raw.decode("utf-8-sig")
    except UnicodeDecodeError:
        return raw.decode("latin-1")


def names_of(heads):
    """A field name for each head of a column: a to z, 0 to 9 and _, a letter first, each once."""
    names = []
    for head in heads:
        name = re.sub("[^a-z0-9_]+", "_", head.lower()).strip("_")[:24] or "column"
        name = name if name[0].isalpha() else ("c" + name)[:24]
        count, plain = 2, name
        while name in names:
            name, count = f"{plain}_{count}", count + 1
        names.append(name)
    return names


def number(text):
    """The whole number below 2^64 that this text is, or None."""
    text = text.strip()
    return int(text) if re.fullmatch("[0-9]{1,20}", text) and int(text) < 2**64 else None


def kinds_of(names, rows, told):
    """The kind of each column, told or guessed."""
    kinds = []
    for place, name in enumerate(names):
        given = [row[place] for row in rows if row[place].strip()]
        if name in told:
            kinds.append(told[name])
        elif given and all(number(text) is not None for text in given):
            kinds.append("number")
        else:
            kinds.append("text")
    if "title" not in kinds and "text" in kinds:
        kinds[kinds.index("text")] = "title"
    return kinds


def schema_of(names, kinds):
    """The fields: a text has one under a prefix of its own, for its name, and one without, for plain words."""
    fields, slot = [], 0
    for place, (name, kind) in enumerate(zip(names, kinds)):
        prefix = "X" + chr(ord("A") + place // 26) + chr(ord("A") + place % 26)
        if kind in ("title", "text"):
            step = 256 if kind == "title" else 1
            fields.append({"name": name, "kind": "text", "prefix": prefix, "step": step})
            fields.append({"name": f"any_{name}", "kind": "text", "step": step})
        elif kind == "filter":
            fields.append({"name": name, "kind": "filter", "prefix": prefix})
        elif kind in ("number", "word"):
            fields.append({"name": name, "kind": kind, "slot": slot})
            slot += 1
    return fields


def document(names, kinds, row):
    """The line of a row, whose data is the title, and below it each other column that is not empty."""
    values, shown = {}, []
    for name, kind, text in zip(names, kinds, row):
        text = text.strip()
        if kind == "none" or not text:
            continue
        if kind == "number":
            if number(text) is None:
                print(f"{name}: {text!r} is no whole number, left out", file=sys.stderr)
                continue
            values[name] = number(text)
        else:
            values[name] = text
        if kind in ("title", "text"):
            values[f"any_{name}"] = text
        shown.insert(0, text) if kind == "title" else shown.append(f"{name}: {text}")
    addition = {"add": values, "data": "\n".join(shown)}
    return json.dumps(addition, ensure_ascii=False, separators=(",", ":")).encode("utf-8", "replace")


def main():
    if len(sys.argv) < 2:
        sys.exit(__doc__)
    told = dict(word.split("=", 1) for word in sys.argv[2:] if "=" in word)
    if len(told) < len(sys.argv) - 2 or any(kind not in KINDS for kind in told.values()):
        sys.exit(__doc__)
    csv.field_size_limit(2**31 - 1)
    try:
        with open(sys.argv[1], "rb") as file:
            text = decoded(file.read())
    except OSError as cause:
        sys.exit(f"{sys.argv[1]}: {cause.strerror}")
    first = text.split("\n", 1)[0]
    rows = list(csv.reader(io.StringIO(text, newline=""), delimiter=max(",;\t|", key=first.count)))
    if not rows:
        sys.exit(f"{sys.argv[1]}: no row")
    names = names_of(rows[0])
    for name in told:
        if name not in names:
            sys.exit(f"{name}: no column; there are {', '.join(names)}")
    width = len(names)
    rows = [(row + [""] * width)[:width] for row in rows[1:] if any(row)]
    kinds = kinds_of(names, rows, told)
    fields = schema_of(names, kinds)
    if not 1 <= len(fields) <= 64:
        sys.exit(f"a schema has 1 to 64 fields, and these columns make {len(fields)}: leave some out (COLUMN=none)")
    out = sys.stdout.buffer
    out.write(json.dumps({"schema": fields}, separators=(",", ":")).encode() + b"\n")
    for row in rows:
        line = document(names, kinds, row)
        if len(line) > MOST_LINE:
            print(f"{row[0][:40]!r}: left out, since a line has at most {MOST_LINE} bytes", file=sys.stderr)
            continue
        out.write(line + b"\n")


if __name__ == "__main__":
    signal.signal(signal.SIGPIPE, signal.SIG_DFL)
    main()
