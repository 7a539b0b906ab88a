#!/usr/bin/env python3
"""Writes the manual pages of the machine as command lines: a schema, and one document a page.

python3 examples/from_man.py [FOLDER ..] > man.jsonl

Without folders, /usr/share/man, its pages in English alone. The text of a page is what stands between the marks of its
macros, near enough to search in; nothing is set by troff. A page is read as UTF-8, else as Latin-1."""
import gzip
import json
import os
import re
import signal
import sys
import zlib

MOST_LINE = 1_048_576
SCHEMA = [
    {"name": "title", "kind": "text", "prefix": "S", "step": 256},
    {"name": "any_title", "kind": "text", "step": 256},
    {"name": "body", "kind": "text"},
    {"name": "name", "kind": "filter", "prefix": "N"},
    {"name": "section", "kind": "filter", "prefix": "C"},
    {"name": "counted_section", "kind": "word", "slot": 0},
]
# Requests whose words are no text, and names that mdoc has inside a row.
SILENT = re.compile(
    r"[.'][ \t]*(\\\"|(ad|als|am|bp|br|ce|de|ds|el|fam|fi|ft|hw|hy|ie|if|in|ig|it|ll|mso|na|ne|nf|nh|nr|ns|pl|ps|rm|rr"
    r"|so|sp|ta|ti|tr|warn|TH|PP|LP|P|RS|RE|PD|UE|Dd|Os|Dt|Pp|Bl|El|Bd|Ed|TS|TE)\b)"
)
INSIDE = re.compile(
    r"\b(Ac|Ao|Ar|Bc|Bo|Bq|Brq|Cm|Dq|Em|Ev|Fa|Fl|Fn|Ft|Ic|Li|Nm|No|Ns|Oc|Oo|Op|Pa|Pc|Po|Pq|Ql|Qq|Sq|Sy|Ta|Va|Vt|Xr)\b ?"
)
ESCAPE = re.compile(
    r"\\(?:[fFmMns]\[[^\]]*\]|[fFmMn]\(..|[fFmMn].|s[-+]?[0-9]+|\*\[[^\]]*\]|\*\(..|\*.|\[([^\]]*)\]|\((..)"
    r"|[hvwoLlZXD]'[^']*'|(.))"
)
NAMED = {
    "aq": "'", "dq": '"', "cq": "'", "oq": "'", "lq": '"', "rq": '"', "em": "-", "en": "-", "hy": "-", "mi": "-",
    "rs": "\\", "ti": "~", "ha": "^", "ga": "`", "co": "(C)", "rg": "(R)", "tm": "(TM)",
}
SIGNS = {"-": "-", "e": "\\", "\\": "\\", "'": "'", "`": "`", " ": " ", "~": " ", "0": " ", "t": "\t"}


def escaped(found):
    """What an escape stands for."""
    name, sign = found.group(1) or found.group(2), found.group(3)
    if name:
        return NAMED.get(name, " ")
    return SIGNS.get(sign, "")


def plain(text):
    """The text of a page without its marks."""
    text = re.sub(r"(?ms)^\.[ \t]*(?:de1?|ig|am1?)\b.*?^\.\.[ \t]*$", "", text)
    rows = []
    for row in text.split("\n"):
        if row.startswith((".", "'")):
            if SILENT.match(row):
                continue
            inside = re.match(r"\.[ \t]*[A-Z][a-z]\b", row)
            row = re.sub(r"^[.'][ \t]*\S+[ \t]*", "", row).replace('"', " ")
            row = INSIDE.sub("", row) if inside else row
        rows.append(ESCAPE.sub(escaped, row))
    return "\n".join(rows)


def title(text, name):
    """The line below the heading NAME, as `cp - copy files and directories`."""
    found = re.search(r"(?ms)^\.S[hH][ \t]+\"?NAME\"?[ \t]*\n(.*?)(?=^\.S[hHsS]\b|\Z)", text)
    if not found:
        return name
    told = re.sub(r"(?m)^\.[ \t]*Nd[ \t]+", "- ", found.group(1))
    return " ".join(plain(told).split())[:400] or name


def document(path):
    """The line of a page, or None where it only sends to another one."""
    with (gzip.open if path.endswith(".gz") else open)(path, "rb") as file:
        raw = file.read(64 * MOST_LINE)
    if raw.lstrip().startswith(b".so "):
        return None
    try:
        text = raw.decode("utf-8")
    except UnicodeDecodeError:
        text = raw.decode("latin-1")
    name, _, section = re.sub(r"\.gz$", "", os.path.basename(path)).rpartition(".")
    heading = title(text, name)
    about = re.sub(r"^.*?\s-+\s", "", heading)
    data = f"{name}({section})\n{about}"
    values = {"title": heading, "any_title": heading, "body": plain(text), "name": name, "section": section}
    values["counted_section"] = section
    while True:
        told = json.dumps({"add": values, "data": data}, ensure_ascii=False, separators=(",", ":"))
        told = told.encode("utf-8", "replace")
        if len(told) <= MOST_LINE:
            return told
        print(f"{name}({section}): cut, since a line has at most {MOST_LINE} bytes", file=sys.stderr)
        values["body"] = values["body"][:len(values["body"]) // 2]


def main():
    out = sys.stdout.buffer
    out.write(json.dumps({"schema": SCHEMA}, separators=(",", ":")).encode() + b"\n")
    for folder in sys.argv[1:] or ["/usr/share/man"]:
        for part in sorted(os.listdir(folder)):
            if not re.fullmatch("man[0-9a-z]+", part):
                continue
            for name in sorted(os.listdir(os.path.join(folder, part))):
                path = os.path.join(folder, part, name)
                if os.path.islink(path) or not os.path.isfile(path):
                    continue
                try:
                    told = document(path)
                except (OSError, EOFError, zlib.error) as cause:
                    print(f"{path}: {cause}", file=sys.stderr)
                    continue
                if told:
                    out.write(told + b"\n")


if __name__ == "__main__":
    signal.signal(signal.SIGPIPE, signal.SIG_DFL)
    main()
