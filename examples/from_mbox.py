#!/usr/bin/env python3
"""Writes a mailbox (mbox) as command lines: a schema, and one document a message.

python3 examples/from_mbox.py FILE.mbox [FILE.mbox ..] > letters.jsonl

The subject can be asked by its name (subject:budget) and by plain words, so it is given twice. The date is a number of
fourteen digits in UTC (20241204154500), the thread the id of the message that began it. Texts are read by what the
message says of them; one that says nothing, or what is not true, as UTF-8, and else as Latin-1."""
import email
import email.header
import email.utils
import json
import mailbox
import os
import re
import signal
import sys
from datetime import timezone

MOST_LINE = 1_048_576
SCHEMA = [
    {"name": "subject", "kind": "text", "prefix": "S", "step": 256},
    {"name": "any_subject", "kind": "text", "step": 256},
    {"name": "body", "kind": "text"},
    {"name": "people", "kind": "text"},
    {"name": "from", "kind": "filter", "prefix": "A"},
    {"name": "id", "kind": "filter", "prefix": "Q"},
    {"name": "date", "kind": "number", "slot": 0},
    {"name": "thread", "kind": "word", "slot": 1},
]


def decoded(raw, charset):
    """The text of these bytes in this encoding, or else in UTF-8 or Latin-1."""
    for name in (charset, "utf-8"):
        try:
            return raw.decode(name)
        except (LookupError, UnicodeDecodeError, TypeError):
            pass
    return raw.decode("latin-1")


def head(message, name):
    """A header as one line of text, its encoded words read; empty where it is absent."""
    parts = []
    try:
        for text, charset in email.header.decode_header(message.get(name, "")):
            parts.append(decoded(text, charset) if isinstance(text, bytes) else text)
    except (email.header.HeaderParseError, ValueError):
        parts = [str(message.get(name, ""))]
    return " ".join("".join(parts).split())


def body(message):
    """The plain texts of a message, or of its HTML what stands between the tags."""
    plain, marked = [], []
    for part in message.walk():
        if part.get_content_maintype() != "text" or part.get_filename():
            continue
        text = decoded(part.get_payload(decode=True) or b"", part.get_content_charset())
        (plain if part.get_content_subtype() == "plain" else marked).append(text)
    return "\n".join(plain) if plain else "\n".join(re.sub("<[^>]*>", " ", text) for text in marked)


def moment(message):
    """The date as fourteen digits in UTC, or None."""
    try:
        told = email.utils.parsedate_to_datetime(head(message, "Date"))
        told = told.astimezone(timezone.utc) if told.tzinfo else told
        return int(told.strftime("%Y%m%d%H%M%S"))
    except (TypeError, ValueError, IndexError, OverflowError):
        return None


def ids_in(text):
    """The ids of messages in a header."""
    return re.findall("<([^<>\\s]+)>", text)


def document(message, threads):
    """The line of a message; notes which thread it belongs to."""
    subject = head(message, "Subject")
    name, address = email.utils.parseaddr(head(message, "From"))
    own = (ids_in(head(message, "Message-ID")) or [""])[0]
    before = ids_in(head(message, "References")) + ids_in(head(message, "In-Reply-To"))
    thread = next((threads[ident] for ident in before if ident in threads), (before or [own])[0])
    threads[own] = thread
    date = moment(message)
    values = {
        "subject": subject,
        "any_subject": subject,
        "body": body(message),
        "people": head(message, "From"),
        "from": [address.lower(), name],
        "id": own,
        "date": date,
        "thread": thread,
    }
    day = f", {date // 10**10:04d}-{date // 10**8 % 100:02d}-{date // 10**6 % 100:02d}" if date else ""
    data = f"{subject or '(no subject)'}\n{name or address}{day}"
    while True:
        told = json.dumps({"add": values, "data": data}, ensure_ascii=False, separators=(",", ":"))
        told = told.encode("utf-8", "replace")
        if len(told) <= MOST_LINE:
            return told
        print(f"{own}: cut, since a line has at most {MOST_LINE} bytes", file=sys.stderr)
        values["body"] = values["body"][:len(values["body"]) // 2]


def main():
    if len(sys.argv) < 2:
        sys.exit(__doc__)
    out = sys.stdout.buffer
    out.write(json.dumps({"schema": SCHEMA}, separators=(",", ":")).encode() + b"\n")
    threads = {}
    for path in sys.argv[1:]:
        if not os.path.isfile(path):
            sys.exit(f"{path}: no file")
        box = mailbox.mbox(path, create=False)
        for key in box.keys():
            out.write(document(email.message_from_bytes(box.get_bytes(key)), threads) + b"\n")


if __name__ == "__main__":
    signal.signal(signal.SIGPIPE, signal.SIG_DFL)
    main()
