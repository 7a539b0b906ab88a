#!/usr/bin/env python3
"""Ranks the manual pages of this machine for the questions of known_items.tsv, each of which wants one page, and prints
for each way of ranking how often that page comes first, in the first three and in the first ten.

Wants the built program (SK_TOOL names it; else crates/sk_tool/out/sk_tool), Debian's manual pages, and for Xapian's row
python3-xapian. Run it at the top of the repository: /usr/bin/python3 bench/known_items.py [MANUAL], where MANUAL is
/usr/share/man if it is not said. Without that package the row is left out."""
import glob
import gzip
import os
import re
import sqlite3
import sys

HERE = os.path.dirname(os.path.realpath(__file__))
sys.path.insert(0, os.path.join(HERE, "..", "clients", "python"))
from comfreystair import Index  # noqa: E402

try:
    import xapian
except ImportError:
    xapian = None

PROGRAM = os.environ.get("SK_TOOL", os.path.join(HERE, "..", "crates", "sk_tool", "out", "sk_tool"))
QUESTIONS = os.path.join(HERE, "known_items.tsv")
LONGEST = 900_000

# The signs of troff: fonts, sizes, named characters, strings, registers, and single ones.
NAMED = {"aq": "'", "dq": '"', "lq": '"', "rq": '"', "oq": "'", "cq": "'", "em": "-", "en": "-", "hy": "-", "mi": "-"}
SINGLE = {"-": "-", "e": "\\", "'": "'", "`": "`", "\\": "\\", ".": ".", " ": " ", "0": " ", "t": " ", "~": " "}
LONG_NAME = r"(?:\[[^]]*\]|\(..|.)"
SIGN = re.compile(rf"\\(?:[fn*]{LONG_NAME}|s[-+]?\d+|\((..)|\[([^]]*)\]|([-e'`\\ .|&^%:,0tc/~]))")
# Macros whose words are not of the text.
QUIET = set(
    ".TH .Dd .Dt .Os .so .de .ds .nr .if .ie .el .ft .in .ti .sp .ps .ta .tr .hy .ad .na .nh .ne .ll .rm .rr .als .RS "
    ".RE .PD .UC .Bl .El .Bd .Ed .TS .TE".split()
)


def plain(text):
    """A line of troff as plain text."""

    def meant(found):
        name = found[1] or found[2]
        if not name:
            return SINGLE.get(found[3], "")
        return chr(int(name[1:], 16)) if re.fullmatch(r"u[0-9A-F]{4,5}", name) else NAMED.get(name, " ")

    return SIGN.sub(meant, text)


def lines_of(source):
    """The lines of a page in troff as pairs of a macro, or nothing, and plain text."""
    is_defining = False
    for line in source.split("\n"):
        if is_defining:
            is_defining = not line.startswith("..")
            continue
        if line[:1] in (".", "'"):
            line = line[0] + line[1:].lstrip()
            macro = line.split(" ", 1)[0].split("\t", 1)[0].replace("'", ".", 1)
            if macro in (".de", ".de1", ".ig"):
                is_defining = True
            elif macro[:2] not in ('."', ".\\") and macro not in QUIET:
                yield macro, plain(line[len(macro) :].replace('"', " ")).strip()
        elif line:
            yield "", plain(line)


def page_of(source):
    """The title of a page, which is its section NAME, and its body, which has all of it."""
    title, body, is_name = [], [], False
    for macro, text in lines_of(source):
        if macro in (".SH", ".Sh"):
            is_name = text.upper() == "NAME"
        elif is_name and macro != ".SS":
            title.append(("- " if macro == ".Nd" else "") + text)
        body.append(text)
    return " ".join(" ".join(title).split()), " ".join(" ".join(body).split())


def pages(manual):
    """Each English page once: its name, as cp(1), its title and its body."""
    seen = set()
    for path in sorted(glob.glob(os.path.join(manual, "man[1-9]", "*.gz"))):
        real = os.path.realpath(path)
        if real in seen or (real != path and real.startswith(os.path.realpath(manual)) and os.path.exists(real)):
            continue
        seen.add(real)
        try:
            with gzip.open(path, "rt", encoding="utf-8", errors="replace") as file:
                source = file.read()
        except OSError:
            continue
        if source.startswith(".so ") or "\n.so man" in source[:300]:
            continue
        name, section = os.path.basename(path)[: -len(".gz")].rsplit(".", 1)
        title, body = page_of(source)
        yield f"{name}({section})", title or name, body[:LONGEST]


def questions():
    with open(QUESTIONS, encoding="utf-8") as file:
        return [tuple(line.rstrip("\n").split("\t")) for line in file if not line.startswith("#")]


# Ways of ranking: each takes the documents and gives a function from a question to the names found, best first.

FIELDS = [{"name": "title", "kind": "text", "prefix": "S"}, {"name": "body", "kind": "text"}]


def ours(documents, fields, find):
    """An index of our own over these fields, and a find in it."""
    index = Index(PROGRAM, fields)
    index.add_all(({"title": title, "body": body}, name) for name, title, body in documents)
    return lambda question: [hit.data for hit in find(index, question)]


def by_search(documents):
    """What `search FILE` finds: the title is as the body, and any word will do."""
    fields = [{"name": "title", "kind": "text", "step": 5}, {"name": "body", "kind": "text"}]
    return ours(documents, fields, lambda index, question: index.find(question))


def by_titles(documents):
    """Titles of a great step, and all words wanted."""
    fields = [{"name": "title", "kind": "text", "step": 256}, {"name": "body", "kind": "text"}]
    return ours(documents, fields, lambda index, question: index.find(question, op="and"))


def by_idf(documents, **options):
    """The client's ranking."""
    return ours(documents, FIELDS, lambda index, question: index.find_by_idf(question, **options))


def by_xapian(documents):
    """Xapian's BM25, over words as its own term generator makes them, a title's counting five times."""
    database = xapian.WritableDatabase("", xapian.DB_BACKEND_INMEMORY)
    generator = xapian.TermGenerator()
    for name, title, body in documents:
        document = xapian.Document()
        generator.set_document(document)
        generator.index_text(title, 5)
        generator.increase_termpos(100)
        generator.index_text(body)
        document.set_data(name)
        database.add_document(document)
    parser = xapian.QueryParser()
    parser.set_database(database)
    enquire = xapian.Enquire(database)

    def find(question):
        enquire.set_query(parser.parse_query(question))
        return [match.document.get_data().decode() for match in enquire.get_mset(0, 10)]

    return find


def by_fts5(documents, join):
    """SQLite's FTS5 with its bm25, a title weighing five times, the words joined by `join`."""
    database = sqlite3.connect(":memory:")
    database.execute("create virtual table pages using fts5(name unindexed, title, body)")
    database.executemany("insert into pages values (?, ?, ?)", documents)

    def find(question):
        words = join.join('"' + word + '"' for word in re.findall(r"\w+", question))
        rows = database.execute(
            "select name from pages where pages match ? order by bm25(pages, 0.0, 5.0, 1.0) limit 10", (words,)
        )
        return [row[0] for row in rows]

    return find


WAYS = [
    ("`search FILE`: any word, titles of step 5", by_search),
    ("titles of step 256, all words (`and`)", by_titles),
    ("the client's `find_by_idf`", by_idf),
    ("the same with `near=0`", lambda documents: by_idf(documents, near=0)),
    ("Xapian's BM25, any word", by_xapian if xapian else None),
    ("SQLite FTS5's bm25, any word", lambda documents: by_fts5(documents, " OR ")),
    ("SQLite FTS5's bm25, all words", lambda documents: by_fts5(documents, " AND ")),
]


def ranks(find, asked):
    """For each question the rank of its page, from 1, or 0 where it is not in the first ten."""
    pages_found = [(find(question), page) for question, page in asked]
    return [found.index(page) + 1 if page in found else 0 for found, page in pages_found]


def main():
    manual = sys.argv[1] if len(sys.argv) > 1 else "/usr/share/man"
    documents = list(pages(manual))
    asked = questions()
    names = {name for name, _, _ in documents}
    missing = [page for _, page in asked if page not in names]
    if missing:
        print("not on this machine, and left out:", ", ".join(missing))
        asked = [(question, page) for question, page in asked if page in names]
    print(f"{len(asked)} questions over {len(documents):,} manual pages")
    print("\n| ranked by | first | in 3 | in 10 |\n|---|---|---|---|")
    for name, way in WAYS:
        if way is None:
            print(f"| {name} | python3-xapian is missing | | |")
            continue
        found = ranks(way(documents), asked)
        firsts, threes, tens = (sum(1 for rank in found if 1 <= rank <= most) for most in (1, 3, 10))
        print(f"| {name} | {firsts} | {threes} | {tens} |", flush=True)


if __name__ == "__main__":
    main()
