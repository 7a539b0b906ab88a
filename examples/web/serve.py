#!/usr/bin/env python3
"""Serves a search page over command lines, on this machine alone.

python3 examples/web/serve.py CORPUS.jsonl [--port PORT] [--tool SK_TOOL]

CORPUS.jsonl is what a recipe of examples/ writes: a schema, then additions. The page is HTML and CSS; it runs no script
and loads nothing from elsewhere. Of a document's data the first line is its title. `--port 0` takes a free port."""
import argparse
import html
import http.server
import json
import os
import re
import sys
import threading
import time
import traceback
import urllib.parse
from dataclasses import dataclass, replace

HERE = os.path.dirname(os.path.realpath(__file__))
TOP = os.path.join(HERE, "..", "..")
sys.path.insert(0, os.path.join(TOP, "clients", "python"))

import comfreystair  # noqa: E402

SIZE = 10
LAST_PAGE = 100_000 // SIZE
MOST_VALUES = 8  # Of a field, at the side of the page.
LONGEST_VALUE = 60  # There, in characters.
REASONS = {
    "StrayBracket": "This bracket closes nothing.",
    "UnclosedBracket": "This bracket is never closed.",
    "MissingOperand": "Something is missing before this, or behind it.",
    "BadNear": "NEAR and ADJ stand between two single words, with a distance of 1 to 10,000.",
    "BadRange": "The ends of this range are whole numbers, or left out: 1990..1999, 1990.. or ..1999.",
    "TooDeep": "Too many brackets are open here: 100 is the most.",
    "TooMany": "With this there are more than 1,024 words, filters and ranges.",
}
HIDDEN = re.compile("[\0-\x08\x0b-\x1f\x7f-\x9f\u202a-\u202e\u2066-\u2069]")
STYLE = open(os.path.join(HERE, "style.css"), "rb").read()
ICON = b"""<svg xmlns="http://www.w3.org/2000/svg" viewBox="0 0 16 16">
<path fill="#6b4aa8" d="M2 14V11h3V8h3V5h3V2h3v12z"/></svg>"""


def shown(text):
    """A text as HTML: nothing in it is a tag, and a sign that would hide or turn others is replaced."""
    return html.escape(HIDDEN.sub("\ufffd", text.replace("\r\n", "\n")))


def plural(count, word):
    return f"{count:,} {word}" if count == 1 else f"{count:,} {word}s"


def complain(cause):
    print(cause, file=sys.stderr)


class Corpus:
    """The documents of a file of command lines, in a process of the program."""

    def __init__(self, tool, path):
        self.tool, self.path = tool, path
        self.name = os.path.splitext(os.path.basename(path))[0]
        self.lock = threading.Lock()
        self.index = self.load()

    def load(self):
        """Starts the program, and adds all documents."""
        begin = time.monotonic()
        with open(self.path, "rb") as lines:
            try:
                schema = json.loads(next(lines, b"null").decode("utf-8-sig"))
            except (ValueError, RecursionError):
                schema = None
            if not isinstance(schema, dict) or "schema" not in schema:
                raise ValueError(f"{self.path}: its first line is no schema")
            self.stem = schema.get("stem", False)
            index = comfreystair.Index(self.tool, schema["schema"], stem=self.stem, on_refused=complain)
            for place, line in enumerate(lines, 2):
                try:
                    told = json.loads(line.decode())
                    index.add(told["add"], told.get("data", ""))
                except (ValueError, TypeError, KeyError, RecursionError) as cause:
                    complain(f"{self.path}:{place}: no addition, passed over: {str(cause)[:100]!r}")
        self.fields = index.fields
        self.count = index.count({"all": []})
        complain(f"{plural(self.count, 'document')} in {time.monotonic() - begin:.1f} seconds")
        return index

    def find(self, asked):
        """What is found, in how many seconds, and what is counted of all matches."""
        options = {"first": asked.first, "size": SIZE}
        if asked.exact:
            options["check"] = comfreystair.EVERY
        if asked.order[:1] in ("+", "-"):
            options |= {"by": asked.order[1:], "reverse": asked.order[0] == "-"}
        if asked.one:
            options["collapse"] = asked.one
        with self.lock:
            if self.index is None:
                self.index = self.load()
            try:
                base = {"all": []} if asked.everything else self.meant(asked.text, asked.op)
                begin = time.monotonic()
                if asked.everything:
                    found = self.index.find(base, **options)
                elif asked.order or base is None:
                    found = self.index.find(asked.text, op=asked.op, **options)
                else:
                    found = self.index.find_by_idf(asked.text, op=asked.op, **options)
                return found, time.monotonic() - begin, self.counted(asked, base)
            except comfreystair.Fault:
                self.index = None
                raise

    def counted(self, asked, base):
        """Of each number and word field its name, how many matches have each value, and the texts that narrow to it."""
        told = []
        for field in self.fields:
            name = field["name"]
            if field["kind"] not in ("number", "word"):
                continue
            # Nothing lies in this range, so what takes it away is all documents.
            text = f"-{name}:1..0" if asked.everything else asked.text
            counts = self.index.facets(text, name, op=asked.op, size=MOST_VALUES)
            # Numbers most of which stand alone, such as moments, tell nothing.
            is_alone = field["kind"] == "number" and 2 * counts.distinct > counts.matches - counts.without
            if counts.values and not is_alone:
                texts = [
                    self.narrowed(asked, base, field, value) if base and count < counts.matches else None
                    for value, count in counts.values
                ]
                told.append((name, counts, texts))
        return told

    def narrowed(self, asked, base, field, value):
        """The text that wants this value too, or None where none says so: the program tells what each means."""
        wish = f"{field['name']}:{value}"
        if len(wish) > 2 * LONGEST_VALUE:
            return None
        # The last is for a text with a quote that is not closed.
        texts = [f"{asked.text} {wish}", f"({asked.text}) {wish}", f'({asked.text}") {wish}']
        one = {"range": [field["slot"], value, value]}
        wanted = [{"filter": [base, one]}, {"filter": [*base.get("filter", [base]), one]}]
        for text in [wish] if asked.everything else texts:
            if self.meant(text, asked.op) in wanted:
                return text
        return None

    def meant(self, text, op):
        """The query of a text, or None where it is none, or nests deeper than Python reads."""
        try:
            return self.index.show(text, op=op)
        except comfreystair.Fault:
            raise
        except comfreystair.Error:
            return None


@dataclass(frozen=True)
class Asked:
    """What the address of a page asks for, sound whatever the address holds."""
    text: str = ""
    everything: bool = False
    op: str = "and"
    order: str = ""
    one: str = ""
    page: int = 1
    exact: bool = False

    @staticmethod
    def of(query, fields):
        """Reads the part of an address behind its question mark."""
        # Bytes that should have been written as %XX are read as if they had.
        query = urllib.parse.quote(query.encode("latin-1", "replace"), safe="%&=+;/?:@!$'()*,-._~")
        told = {}
        for pair in query.split("&")[:20]:
            name, _, value = pair.partition("=")
            told[name] = urllib.parse.unquote_plus(value, errors="replace")
        valued = {field["name"] for field in fields if field["kind"] in ("number", "word")}
        order, one, page = told.get("order", ""), told.get("one", ""), told.get("page", "")
        return Asked(
            text=told.get("q", ""),
            everything=told.get("all") == "1" and not told.get("q"),
            op="or" if told.get("op") == "or" else "and",
            order=order if order == "counted" or order[:1] in ("+", "-") and order[1:] in valued else "",
            one=one if one in valued else "",
            page=min(max(int(page), 1), LAST_PAGE) if re.fullmatch("[0-9]{1,9}", page, re.ASCII) else 1,
            exact=told.get("exact") == "1",
        )

    @property
    def first(self):
        return (self.page - 1) * SIZE

    def address(self, **changes):
        """The address of this page with changes, as HTML."""
        asked = replace(self, **changes)
        told = {"q": asked.text, "all": "1" if asked.everything else "", "op": "or" if asked.op == "or" else ""}
        told |= {"order": asked.order, "one": asked.one, "page": str(asked.page) if asked.page > 1 else ""}
        told["exact"] = "1" if asked.exact else ""
        return shown("/?" + urllib.parse.urlencode({name: value for name, value in told.items() if value}))


def choice(name, label, rows, chosen):
    """A list to choose from, with its label."""
    options = ""
    for value, text in rows:
        options += f'<option value="{shown(value)}"{" selected" if value == chosen else ""}>{shown(text)}</option>'
    return f'<label><span>{shown(label)}</span> <select name="{name}">{options}</select></label>'


def box(asked, fields):
    """The form: a text, and how it is asked."""
    orders, ones = [("", "best first"), ("counted", "best first, words counted")], [("", "all hits")]
    for field in fields:
        name = field["name"]
        if field["kind"] == "number":
            orders += [(f"-{name}", f"{name}, highest first"), (f"+{name}", f"{name}, lowest first")]
        elif field["kind"] == "word":
            orders += [(f"+{name}", f"{name}, A to Z"), (f"-{name}", f"{name}, Z to A")]
        if field["kind"] in ("number", "word"):
            ones.append((name, f"one hit per {name}"))
    choices = choice("op", "Match", [("and", "all words"), ("or", "any word")], asked.op)
    choices += choice("order", "Order", orders, asked.order)
    choices += choice("one", "Show", ones, asked.one) if len(ones) > 1 else ""
    hidden = '<input type="hidden" name="all" value="1">' if asked.everything else ""
    start = "" if asked.text or asked.everything else " autofocus"
    return f"""<form role="search" action="/" method="get">
<div class="box"><label class="unseen" for="q">What to search for</label>
<input id="q" name="q" type="search" value="{shown(asked.text)}" spellcheck="false" autocomplete="off"
 autocapitalize="none"{start}><button>Search</button></div>
<div class="choices">{choices}{hidden}</div>
</form>"""


def document(hit, one):
    """A hit: the first line of its data as a title, the others below, what the program says of it last."""
    title, *rows = hit.data.split("\n")
    below = pairs = ""
    for row in rows:
        found = re.fullmatch("([a-z][a-z0-9_]{0,31}): (.*)", row)
        if found:
            pairs += f"<div><dt>{shown(found[1])}</dt><dd>{shown(found[2])}</dd></div>"
        elif row.strip():
            below += f"<p>{shown(row)}</p>"
    facts = f"document {hit.id} · weight {hit.weight:,}"
    if hit.collapsed:
        facts += f" · at least {hit.collapsed:,} more of this {shown(one)}"
    below += f"<dl>{pairs}</dl>" if pairs else ""
    return f"""<li value="{hit.rank + 1}"><h2>{shown(title) or "(no data)"}</h2>{below}
<p class="facts">{facts}</p></li>"""


def counts(asked, found):
    """How many match: only what is known."""
    if found.count.is_exact:
        many = f"exactly {found.count.lower:,}"
    else:
        many = f"{found.count.lower:,} to {found.count.upper:,}"
    if found.hits:
        first = asked.first + 1
        last = asked.first + len(found.hits)
        told = f"Hit {first:,}" if first == last else f"Hits {first:,} to {last:,}"
        told = f"<strong>{told}</strong> of {many}"
    elif found.count.upper == 0:
        told = "<strong>Nothing matches</strong>"
    else:
        told = f"<strong>Nothing on page {asked.page:,}</strong>: there are {many}"
    if not found.count.is_exact:
        told += f' (<a href="{asked.address(exact=True)}">count them</a>)'
    return told


def pages(asked, found):
    """The ways to the page before and the page behind."""
    before = behind = ""
    if asked.page > 1:
        before = f'<a rel="prev" href="{asked.address(page=asked.page - 1)}">← Page {asked.page - 1:,}</a>'
    if found.hits and asked.first + SIZE < found.count.upper and asked.page < LAST_PAGE:
        behind = f'<a rel="next" href="{asked.address(page=asked.page + 1)}">Page {asked.page + 1:,} →</a>'
    return f'<nav aria-label="Pages">{before}{behind}</nav>' if before or behind else ""


def answer(asked, found, seconds):
    """The hits of a page, how many there are, and what they cost."""
    steps = f'<span class="steps">{plural(found.steps, "reading")} in the index, {seconds * 1000:.1f} ms</span>'
    hits = "".join(document(hit, asked.one) for hit in found.hits)
    return f"""<p class="counts" role="status"><span>{counts(asked, found)}</span> {steps}</p>
{f'<ol class="hits">{hits}</ol>' if hits else ""}{pages(asked, found)}"""


def refusal(text, refused):
    """A refused text, with a mark at its byte."""
    raw = text.encode()
    at = refused.byte if refused.byte is not None else 0
    before, behind = raw[:at].decode(errors="replace"), raw[at:].decode(errors="replace")
    token = re.match(r"[()]|[^\s()]+|", behind)[0]
    told = f"refused {refused.number} {refused.name} {refused.kind or ''} at byte {at}"
    return f"""<section class="refused" role="alert"><h2>This is no query</h2>
<p class="asked"><code>{shown(before)}<mark>{shown(token) or "&nbsp;"}</mark>{shown(behind[len(token):])}</code></p>
<p>{shown(REASONS.get(refused.kind, "The program refuses it."))}</p>
<p class="facts">{shown(told)}</p></section>"""


def help_of(fields, stem):
    """How to ask, over these fields, where words are stemmed or not."""
    rows = [
        ('"owl box"', "these words, one behind the other"),
        ("owl*", "words that begin so"),
        ("+owl box", "owl is needed, box adds weight"),
        ("owl -box", "owl without box"),
        ("owl OR (box AND tree)", "operators are in capitals"),
        ("owl NEAR/3 box", "within three places of each other"),
    ]
    if stem:
        rows.insert(0, ("Owls", "this word as it stands; owls finds owl as well"))
    for field in fields:
        name, kind = field["name"], field["kind"]
        if kind == "text" and field.get("prefix"):
            rows.append((f"{name}:word", f"a word in {name}"))
        elif kind == "filter":
            rows.append((f'{name}:"value"', f"{name} is exactly this"))
        elif kind == "number":
            rows.append((f"{name}:10..20", f"{name} lies between the two"))
        elif kind == "word":
            rows.append((f"{name}:a..m", f"{name} lies between the two, by its bytes"))
    told = "".join(f"<div><dt><code>{shown(sign)}</code></dt><dd>{shown(text)}</dd></div>" for sign, text in rows)
    return f'<section><h2>How to ask</h2><dl class="help">{told}</dl></section>'


def facets(asked, counted):
    """How many of all matches have each value of a field, and the ways to those alone."""
    told = ""
    for name, counts, texts in counted:
        rows = ""
        for (value, count), text in zip(counts.values, texts):
            label = str(value)
            label = shown(label if len(label) <= LONGEST_VALUE else label[:LONGEST_VALUE - 1] + "…")
            if text:
                label = f'<a href="{asked.address(text=text, everything=False, page=1)}">{label}</a>'
            rows += f"<li><span>{label}</span> <span>{count:,}</span></li>"
        below = []
        if counts.distinct > len(texts):
            below.append(plural(counts.distinct - len(texts), "more value"))
        if counts.without:
            below.append(f"{plural(counts.without, 'document')} without")
        below = f"<p>{', '.join(below)}</p>" if below else ""
        told += f'<section class="facets"><h2>{shown(name)}</h2><ul>{rows}</ul>{below}</section>'
    return told


def page(corpus, asked, title, main, aside):
    """A whole page as bytes."""
    return f"""<!doctype html>
<html lang="en"><head><meta charset="utf-8"><meta name="viewport" content="width=device-width, initial-scale=1">
<title>{shown(title)}</title><link rel="stylesheet" href="/style.css"><link rel="icon" href="/icon.svg"></head>
<body><a class="skip" href="#hits">To the hits</a>
<header><p class="name"><a href="/">{shown(corpus.name)}</a></p>
{box(asked, corpus.fields)}</header>
<div class="columns"><main id="hits" tabindex="-1">{main}</main>
<aside>{aside}{help_of(corpus.fields, corpus.stem)}</aside></div>
<footer>{plural(corpus.count, "document")} in memory · searched by Comfreystair</footer></body></html>
""".encode("utf-8", "xmlcharrefreplace")


def response(corpus, query):
    """The status and the page for the part of an address behind its question mark."""
    asked = Asked.of(query, corpus.fields)
    title = f"{asked.text or 'all documents'} - {corpus.name}" if asked.text or asked.everything else corpus.name
    if not asked.text.strip() and not asked.everything:
        all_of_them = f'<a href="{asked.address(everything=True, text="")}">Look at all of them</a>'
        many = f"<strong>{plural(corpus.count, 'document')}</strong>"
        main = f'<div class="welcome"><p>{many} to search in.</p><p>{all_of_them}</p></div>'
        return 200, page(corpus, asked, title, main, "")
    try:
        found, seconds, counted = corpus.find(asked)
    except comfreystair.Refused as refused:
        return 200, page(corpus, asked, title, refusal(asked.text, refused), "")
    except (comfreystair.Error, OSError, ValueError) as cause:
        complain(cause)
        main = f'''<section class="refused" role="alert"><h2>The program ended</h2><p>{shown(str(cause))}</p>
<p>It is started anew at the next search.</p></section>'''
        return 503, page(corpus, asked, title, main, "")
    return 200, page(corpus, asked, title, answer(asked, found, seconds), facets(asked, counted))


POLICY = ("default-src 'none'; style-src 'self'; img-src 'self'; form-action 'self'; base-uri 'none'; "
          "frame-ancestors 'none'")


class Handler(http.server.BaseHTTPRequestHandler):
    """Answers GET and HEAD; what is no such request gets a short page of its status."""
    server_version, sys_version = "comfreystair-page", ""
    timeout = 20
    corpus = None

    def do_GET(self):
        try:
            self.answer()
        except (ConnectionError, TimeoutError):
            self.close_connection = True

    do_HEAD = do_GET

    def answer(self):
        path, _, query = self.path.partition("?")
        host = re.sub(r":[0-9]*$", "", self.headers.get("Host", "localhost"))
        if host not in ("127.0.0.1", "localhost", "[::1]"):
            # Another site's name that leads here must not read these documents.
            return self.send_error(421, explain="This page is served to 127.0.0.1 and localhost alone.")
        if path == "/style.css":
            return self.put(200, "text/css; charset=utf-8", STYLE)
        if path in ("/icon.svg", "/favicon.ico"):
            return self.put(200, "image/svg+xml", ICON)
        if path != "/":
            return self.send_error(404)
        try:
            status, told = response(self.corpus, query)
        except Exception:
            traceback.print_exc()
            return self.send_error(500)
        self.put(status, "text/html; charset=utf-8", told)

    def put(self, status, kind, told):
        self.send_response(status)
        self.send_header("Content-Type", kind)
        self.send_header("Content-Length", str(len(told)))
        self.end_headers()
        if self.command != "HEAD":
            self.wfile.write(told)

    def end_headers(self):
        self.send_header("Content-Security-Policy", POLICY)
        self.send_header("X-Content-Type-Options", "nosniff")
        self.send_header("Referrer-Policy", "no-referrer")
        self.send_header("Cache-Control", "no-store")
        super().end_headers()

    def log_message(self, form, *words):
        """Says nothing: an address holds what its user searches for."""


def main():
    parser = argparse.ArgumentParser(description="Serves a search page over command lines, on this machine alone.")
    parser.add_argument("corpus", help="a file of lines that a recipe of examples/ wrote")
    parser.add_argument("--port", type=int, default=8000, help="8000 where it is not said, 0 for a free one")
    tool = os.environ.get("SK_TOOL") or os.path.join(TOP, "crates", "sk_tool", "out", "sk_tool")
    parser.add_argument("--tool", default=tool, help="the program; else $SK_TOOL, else the repository's own")
    words = parser.parse_args()
    try:
        Handler.corpus = Corpus(words.tool, words.corpus)
        server = http.server.ThreadingHTTPServer(("127.0.0.1", words.port), Handler)
    except (OSError, ValueError, OverflowError, comfreystair.Error) as cause:
        sys.exit(f"{cause}")
    server.daemon_threads = True
    print(f"http://127.0.0.1:{server.server_port}/ (Ctrl-C ends it)", flush=True)
    try:
        server.serve_forever()
    except KeyboardInterrupt:
        pass


if __name__ == "__main__":
    main()
