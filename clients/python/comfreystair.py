"""A client of sk_tool, the ranked text search engine of Comfreystair, over a process of its own.

An Index starts `sk_tool run`, writes command lines to it and reads their answers:

    from comfreystair import Index

    fields = [{"name": "title", "kind": "text", "prefix": "S"}, {"name": "body", "kind": "text"}]
    with Index("sk_tool", fields) as index:
        index.add({"title": "The fox", "body": "a red fox sleeps"}, data="one")
        for hit in index.find("red fox", op="and"):
            print(hit.id, hit.weight, hit.data)

Fields, values and options are those of docs/FORMATS.md, by the same names; query texts are those of docs/QUERIES.md.
Additions and replacements do not wait for their answers. All else does, and so does `flush`. The documents live in the
memory of the process, and end with it. A search that `open` opens stays on the documents as they were, whatever is added,
replaced or deleted before it is closed.

Errors: Refused (the program refuses a line), RefusedLines (it refused additions whose answers were not waited for),
NotSent (what JSON cannot hold, which never reaches the program), Fault (the process failed). All are Errors.
"""

from __future__ import annotations

import contextlib
import errno
import json
import math
import operator
import os
import select
import signal
import subprocess
import threading
import unicodedata
import weakref
from collections import deque
from typing import (
    Any,
    Callable,
    Deque,
    Dict,
    Iterable,
    Iterator,
    List,
    Mapping,
    NamedTuple,
    Optional,
    Sequence,
    Tuple,
    Union,
)

__all__ = [
    "EVERY",
    "Count",
    "Error",
    "Facets",
    "Fault",
    "Found",
    "Hit",
    "Index",
    "NotSent",
    "Refused",
    "RefusedLines",
    "Reply",
    "Search",
]

Values = Mapping[str, Any]
Tree = Mapping[str, Any]
Query = Union[str, Tree]

EVERY = 4_294_967_295
"""The greatest `check`: with it a find counts all matches, and its count is exact."""

_PIECE = 1 << 16  # Bytes that are read or written at once.
_MOST_WAITING = 1 << 18  # Bytes of lines that may wait before an addition writes.
_LONGEST_ANSWER = 1 << 26  # No answer line is as long; a program that puts one is no sk_tool.
_MOST_TURNS = 100_000  # That a line may ask for.
_MOST_KEPT = 1000  # Refusals that are kept with their documents until they are reported.
_END_SECONDS = 5.0  # What a process has to end by itself once its output has ended.
_STATUSES = {
    2: "it does not know the words it was started with",
    3: "its input could not be read",
    4: "its output could not be written",
    5: "memory ran out",
    6: "its input is too long",
}


# Errors.


class Error(Exception):
    """What all errors of this module are."""


class NotSent(Error, ValueError):
    """What cannot be written as a line of JSON. The program never saw it."""


class Refused(Error):
    """A line that the program refused; it changed nothing.

    number, name: of the refusal, as docs/FORMATS.md has them.
    kind, byte: of a query text's fault the kind and the byte at which it stands; None otherwise.
    query: the query's text or tree where it was a find, a show, facets or an opening; None otherwise.
    document, data: what was to be added; None otherwise.
    hint: what the client sees to be wrong with the document; empty where it sees nothing.
    """

    def __init__(
        self,
        number: int,
        name: str,
        kind: Optional[str] = None,
        byte: Optional[int] = None,
        query: Optional[Query] = None,
        document: Optional[Values] = None,
        data: Optional[str] = None,
        hint: str = "",
    ) -> None:
        super().__init__(number, name, kind, byte, query, document, data, hint)
        self.number = number
        self.name = name
        self.kind = kind
        self.byte = byte
        self.query = query
        self.document = document
        self.data = data
        self.hint = hint

    def __str__(self) -> str:
        text = f"refused {self.number} {self.name}"
        if self.kind is not None:
            text += f" {self.kind} at {self.byte}"
        if self.hint:
            text += f": {self.hint}"
        if isinstance(self.query, str) and self.byte is not None:
            text += "\n" + _marked(self.query, self.byte)
        elif self.query is not None:
            text += "\n" + _short(self.query)
        elif self.document is not None:
            text += "\n" + _short(self.document) + (f", data {_short(self.data)}" if self.data else "")
        return text


class RefusedLines(Error):
    """Additions and replacements that were refused, and whose answers nobody had waited for.

    count: how many they are.
    refusals: the first of them, at most a thousand, each with its document.
    """

    def __init__(self, count: int, refusals: Sequence[Refused]) -> None:
        super().__init__(count, refusals)
        self.count = count
        self.refusals = list(refusals)

    def __str__(self) -> str:
        lines = "1 line was" if self.count == 1 else f"{self.count:,} lines were"
        return f"{lines} refused, the first: {self.refusals[0]}"


class Fault(Error):
    """The process failed; all documents in it are lost, and every later call of its Index fails so.

    status: with what it ended: 2 to 6 as docs/FORMATS.md has them, the negative number of the signal that killed it,
        or None where it could not be started.
    said: what it wrote on standard error.
    unanswered: how many lines were never answered.
    """

    def __init__(self, message: str, status: Optional[int] = None, said: str = "", unanswered: int = 0) -> None:
        super().__init__(message, status, said, unanswered)
        self.message = message
        self.status = status
        self.said = said
        self.unanswered = unanswered

    def __str__(self) -> str:
        return self.message


def _short(value: object, most: int = 200) -> str:
    """The value on one line, cut where it is long."""
    text = repr(dict(value) if isinstance(value, Mapping) else value)
    return text if len(text) <= most else text[: most - 2] + ".."


def _columns(char: str) -> int:
    """How many columns of a terminal a character takes."""
    if unicodedata.combining(char) or unicodedata.category(char) in ("Mn", "Me", "Cf"):
        return 0
    return 2 if unicodedata.east_asian_width(char) in "WF" else 1


def _marked(text: str, byte: int, around: int = 60) -> str:
    """The text on one line, cut around a byte of it, and under that byte a caret."""
    place = len(text.encode("utf-8", "replace")[:byte].decode("utf-8", "replace"))
    begin, end = max(0, place - around), place + around
    front = ".." if begin else ""
    behind = ".." if end < len(text) else ""
    shown = "".join(" " if unicodedata.category(char) in ("Cc", "Zl", "Zp") else char for char in text[begin:end])
    caret = " " * sum(_columns(char) for char in front + shown[: place - begin]) + "^"
    return front + shown + behind + "\n" + caret


# Results.


class Hit(NamedTuple):
    """A document that was found: its rank in all matches, its id, its weight, how many of its value were left out
    behind it at least, and the data that were given with it."""

    rank: int
    id: int
    weight: int
    collapsed: int
    data: str


class Count(NamedTuple):
    """How many documents match: at least `lower`, at most `upper`; `estimate` is half way between."""

    lower: int
    estimate: int
    upper: int

    @property
    def is_exact(self) -> bool:
        """Whether exactly so many match."""
        return self.lower == self.upper


class Found:
    """What a find found: its page of hits, which it is a sequence of, and bounds on all.

    hits: the page, best first.
    count: how many documents match (where it collapses: are kept).
    max: no document can weigh more.
    steps: how many readings were made in the index.
    """

    __slots__ = ("hits", "count", "max", "steps")

    def __init__(self, hits: List[Hit], count: Count, max: int, steps: int) -> None:
        self.hits = hits
        self.count = count
        self.max = max
        self.steps = steps

    def __iter__(self) -> Iterator[Hit]:
        return iter(self.hits)

    def __len__(self) -> int:
        return len(self.hits)

    def __getitem__(self, place: int) -> Hit:
        return self.hits[place]

    def __bool__(self) -> bool:
        return True

    def __eq__(self, other: object) -> bool:
        if not isinstance(other, Found):
            return NotImplemented
        return (self.hits, self.count, self.max, self.steps) == (other.hits, other.count, other.max, other.steps)

    def __repr__(self) -> str:
        return f"Found(hits={self.hits!r}, count={self.count!r}, max={self.max}, steps={self.steps})"


class Facets(NamedTuple):
    """How often each value of a field stands among all documents that match. So many match, they have so many different
    values, so many of them have none, and so many readings were made in the index. Of the values the first, each with
    how many documents have it: the more the first, and of equal counts the lesser value."""

    matches: int
    distinct: int
    without: int
    steps: int
    values: List[Tuple[Union[int, str], int]]


class Reply:
    """The answer to an addition or a replacement, which may still be under way."""

    __slots__ = ("_index", "_reads", "_query", "_most", "_document", "_data", "_value", "_error", "_kept")

    def __init__(
        self,
        index: "Index",
        reads: str,
        query: Optional[Query] = None,
        document: Optional[Values] = None,
        data: Optional[str] = None,
        most: int = 0,
    ) -> None:
        self._index: Optional[Index] = index
        self._reads = reads  # The first words of its answer.
        self._query = query
        self._most = most  # How many values of facets it tells at the most.
        self._document = document
        self._data = data
        self._value: Any = None
        self._error: Optional[Error] = None
        self._kept = True  # Whether a refusal is kept for `flush` to report.

    @property
    def is_answered(self) -> bool:
        """Whether the answer is there."""
        return self._value is not None or self._error is not None

    @property
    def id(self) -> int:
        """The document's id; waits for the answer, and raises Refused where the line was refused."""
        number: int = self._wait()
        return number

    def __index__(self) -> int:
        return self.id

    def __repr__(self) -> str:
        if self._error is not None:
            return f"<Reply: {self._error!s}>"
        return f"<Reply: id {self._value}>" if self.is_answered else "<Reply: under way>"

    def _wait(self) -> Any:
        index = self._index
        if index is not None and not self.is_answered:
            index._wait_for(self)
        if self._error is not None:
            if index is not None:
                index._forget(self._error)
            raise self._error
        return self._value


class Search:
    """A search in flight, on the documents as they were when `Index.open` opened it. Up to 64 are open at once.

    number: by which the program knows it; no other search of the Index has it.
    is_open: whether it was neither closed nor dropped.
    is_done: whether its last turn was done, so that it can be closed.

    Calls of a search that is gone raise Refused (13 NotOpen). As a context it is dropped at the end, where it is open.
    """

    __slots__ = ("number", "is_open", "is_done", "_index")

    def __init__(self, index: "Index", number: int) -> None:
        self._index = index
        self.number = number
        self.is_open = True
        self.is_done = False

    def turn(self, times: int = 1) -> bool:
        """Makes so many turns, 1 to 100,000, or fewer where one of them is done; whether the last one was. A turn moves
        past one document. Behind one that is done none moves."""
        line = {"turn": self.number, "times": operator.index(times)}
        self.is_done = self._index._call(line, f"ok turn {self.number}")
        return self.is_done

    def close(self) -> Found:
        """Its page, as a find had it at the opening; the search is gone. Refused (14 NotDone) where its last turn was
        not done, or it had none."""
        found: Found = self._index._call({"close": self.number}, "found")
        self.is_open = False
        return found

    def drop(self) -> int:
        """Gives it up, done or not; how many readings it made in the index."""
        steps: int = self._index._call({"drop": self.number}, f"dropped {self.number}")
        self.is_open = False
        return steps

    def finish(self) -> Found:
        """Turns it to its end and closes it."""
        while not self.turn(_MOST_TURNS):
            pass
        return self.close()

    def __enter__(self) -> "Search":
        return self

    def __exit__(self, kind: object, *_: object) -> None:
        if self.is_open:
            with contextlib.suppress(*([] if kind is None else [Error])):
                self.drop()

    def __repr__(self) -> str:
        return f"<Search {self.number}: {'gone' if not self.is_open else 'done' if self.is_done else 'more'}>"


# The process.


class _Pipes:
    """A process whose input and output are moved together, so that neither side ever waits for the other.

    Lines are put into `out`; `pump` moves bytes both ways, and gives each whole line of the output on.
    """

    def __init__(self, path: str, timeout: Optional[float]) -> None:
        self.path = path
        self.timeout = timeout
        self.out = bytearray()
        self.rest = bytearray()  # Of the output: what is no whole line yet.
        self.said = b""  # Of standard error: the last bytes.
        self.is_closing = False
        self.has_ended = False  # Whether the output has ended.
        try:
            self.process = subprocess.Popen(
                [path, "run"],
                stdin=subprocess.PIPE,
                stdout=subprocess.PIPE,
                stderr=subprocess.PIPE,
                bufsize=0,
                start_new_session=True,  # A Ctrl-C of the terminal is for this process alone.
            )
        except (OSError, ValueError) as error:
            raise Fault(f"{path} cannot be started: {_why(error)}") from error
        assert self.process.stdin and self.process.stdout and self.process.stderr
        self.input = self.process.stdin.fileno()
        self.output = self.process.stdout.fileno()
        self.errors = self.process.stderr.fileno()
        self.poll = select.poll()
        for stream in (self.input, self.output, self.errors):
            os.set_blocking(stream, False)
        self.poll.register(self.output, select.POLLIN)
        self.poll.register(self.errors, select.POLLIN)
        self.is_writing = False
        self.is_saying = True

    def pump(self, is_done: Callable[[], bool], answer: Callable[[bytes], None]) -> None:
        """Moves bytes until this is so. Raises _Stopped where it can never be."""
        while not is_done():
            if self.has_ended:
                raise _Stopped("")
            self._want_writing(bool(self.out) or self.is_closing)
            waits = None if self.timeout is None else max(1, math.ceil(1000 * self.timeout))
            events = self.poll.poll(waits)
            if not events:
                raise _Stopped(f"{self.path} gave no sign of life for {self.timeout:g} seconds")
            for stream, _ in events:
                if stream == self.input:
                    self._write()
                elif stream == self.output:
                    self._read(answer)
                else:
                    self._listen()

    def _want_writing(self, wanted: bool) -> None:
        if self.process.stdin is None or self.process.stdin.closed or wanted == self.is_writing:
            return
        if wanted:
            self.poll.register(self.input, select.POLLOUT)
        else:
            self.poll.unregister(self.input)
        self.is_writing = wanted

    def _write(self) -> None:
        try:
            while self.out:
                with memoryview(self.out) as view:
                    count = os.write(self.input, view[:_PIECE])
                del self.out[:count]
        except BlockingIOError:
            return
        except OSError:  # It takes no more; its output tells why, or its status.
            self.out.clear()
            self._close_input()
            return
        if self.is_closing:
            self._close_input()

    def _close_input(self) -> None:
        self._want_writing(False)
        if self.process.stdin is not None:
            self.process.stdin.close()

    def _read(self, answer: Callable[[bytes], None]) -> None:
        try:
            piece = os.read(self.output, _PIECE)
        except BlockingIOError:
            return
        except OSError:
            piece = b""
        if not piece:
            self.has_ended = True
            self.poll.unregister(self.output)
            return
        if b"\n" not in piece:
            self.rest += piece
            if len(self.rest) > _LONGEST_ANSWER:
                raise _Stopped(f"{self.path} is no sk_tool: it put a line of more than {_LONGEST_ANSWER:,} bytes")
            return
        lines = piece.split(b"\n")
        lines[0] = bytes(self.rest) + lines[0]
        self.rest = bytearray(lines.pop())
        for line in lines:
            answer(line)

    def _listen(self) -> None:
        try:
            piece = os.read(self.errors, _PIECE)
        except BlockingIOError:
            return
        except OSError:
            piece = b""
        if not piece:
            self.poll.unregister(self.errors)
            self.is_saying = False
        self.said = (self.said + piece)[-4096:]

    def end(self, seconds: float) -> int:
        """The status with which it ends, or is ended once so many seconds have gone."""
        if self.process.stdin is not None and not self.process.stdin.closed:
            self._close_input()
        try:
            status = self.process.wait(seconds)
        except subprocess.TimeoutExpired:
            self.process.kill()
            status = self.process.wait()
        if self.is_saying:
            self._listen()
        for stream in (self.process.stdout, self.process.stderr):
            if stream is not None:
                stream.close()
        return status


class _Stopped(Exception):
    """The process cannot go on; the text says why, and is empty where its status does."""


def _why(error: Exception) -> str:
    """What the system says of a program that it does not start."""
    if isinstance(error, OSError) and error.strerror:
        hints = {errno.ENOENT: " (build it: cd crates/sk_tool && rt run)", errno.ENOEXEC: " (it is no program)"}
        return error.strerror + hints.get(error.errno or 0, "")
    return str(error)


def _kill(process: "subprocess.Popen[bytes]") -> None:
    """Ends a process whose Index nobody has any more."""
    if process.poll() is None:
        process.kill()
        process.wait()
    for stream in (process.stdin, process.stdout, process.stderr):
        if stream is not None:
            stream.close()


# The index.


class Index:
    """Documents in a process of sk_tool.

    path: the program; a name without a slash is looked up in PATH.
    fields: the schema, 1 to 64 objects as docs/FORMATS.md has them.
    stem: whether words are found by their stems too, as docs/QUERIES.md has it.
    parts: in how many parts the documents stand, 1 to 16; over several there are no facets, and no search is opened.
    timeout: for how many seconds the process may do nothing that is seen while something waits for it, before it is
        taken for stuck, ended, and reported as a Fault; None waits for ever.
    on_refused: is called with each Refused of an addition or a replacement that nobody waited for; without it these
        are gathered, and raised as RefusedLines by the next call that waits.

    status: with what the process ended; None before it is closed.
    still_open: once it is closed, the numbers of the searches that were open to the end, each with how many readings it
        made in the index.

    Any thread may call it; one call is done at a time.
    """

    def __init__(
        self,
        path: Union[str, "os.PathLike[str]"],
        fields: Sequence[Mapping[str, Any]],
        *,
        stem: bool = False,
        parts: int = 1,
        timeout: Optional[float] = 60.0,
        on_refused: Optional[Callable[[Refused], None]] = None,
    ) -> None:
        schema = [dict(field) for field in fields]
        asked = {**({"stem": stem} if stem else {}), **({"parts": parts} if parts != 1 else {})}
        line = _line({"schema": schema, **asked}, "these fields")
        self.fields: Tuple[Mapping[str, Any], ...] = tuple(schema)
        self.path = os.fspath(path)
        self.status: Optional[int] = None
        self.still_open: Dict[int, int] = {}
        self._on_refused = on_refused
        self._lock = threading.RLock()
        self._waiting: Deque[Reply] = deque()
        self._refusals: List[Refused] = []
        self._refused = 0  # How many refusals are to be reported.
        self._answered = 0
        self._page: Union[Found, Facets, None] = None  # An answer of which lines still come.
        self._left = 0  # How many.
        self._fault: Optional[Fault] = None
        self._pipes = _Pipes(self.path, timeout)
        self._end = weakref.finalize(self, _kill, self._pipes.process)
        try:
            self._send(line, Reply(self, "ok schema"))._wait()
        except Refused:
            self._abandon()
            raise

    # Edits.

    def add(self, values: Values, data: str = "") -> Reply:
        """Adds a document: `values` by the names of fields, `data` to be handed back with a hit. Does not wait."""
        return self._put({"add": _checked(values)}, values, data)

    def add_all(
        self,
        documents: Iterable[Union[Values, Tuple[Values, str]]],
        progress: Optional[Callable[[int], None]] = None,
        every: int = 1000,
    ) -> int:
        """Adds documents, each as its values or as a pair of values and data; waits for all, and gives their number.
        `progress` is called with how many were answered, after each `every` documents and at the end. Where some were
        refused the others are added all the same, and then RefusedLines is raised."""
        before = self._answered
        count = 0
        for document in documents:
            values, data = document if isinstance(document, tuple) else (document, "")
            self.add(values, data)
            count += 1
            if progress is not None and count % every == 0:
                progress(self._answered - before)
        try:
            self.flush()
        finally:
            if progress is not None and self._fault is None:
                progress(self._answered - before)
        return count

    def replace(self, id: Union[int, Reply], values: Values, data: str = "") -> Reply:
        """Puts a document in the place of the one with this id, or makes one there. Does not wait."""
        return self._put({"replace": operator.index(id), "with": _checked(values)}, values, data)

    def replace_by(self, field: str, text: str, values: Values, data: str = "") -> Reply:
        """Puts a document in the place of those that have this text in the filter field, or adds it where none has.
        Does not wait."""
        return self._put({"replace_by": [field, text], "with": _checked(values)}, values, data)

    def delete(self, id: Union[int, Reply]) -> int:
        """Deletes the document with this id; 1. Refused (8 NotFound) where there is none."""
        number: int = self._call({"delete": operator.index(id)}, "ok deleted")
        return number

    def delete_by(self, field: str, text: str) -> int:
        """Deletes the documents that have this text in the filter field; how many they were."""
        number: int = self._call({"delete_by": [field, text]}, "ok deleted")
        return number

    def flush(self) -> None:
        """Waits until all lines are answered. Raises RefusedLines where some were refused and nobody was told."""
        with self._lock:
            self._settle()

    # Finds.

    def find(
        self,
        query: Query,
        *,
        op: Optional[str] = None,
        scheme: Optional[str] = None,
        first: Optional[int] = None,
        size: Optional[int] = None,
        check: Optional[int] = None,
        order: Optional[str] = None,
        by: Optional[str] = None,
        reverse: Optional[bool] = None,
        collapse: Optional[str] = None,
        max: Optional[int] = None,
        cutoff: Optional[int] = None,
        ids: Optional[str] = None,
    ) -> Found:
        """A page of the documents that match a query text, or a query tree.

        op: "or" or "and", between the words of a text.
        scheme: "nnn" (how often the words occur), "snn" (the square of that), "bnn" (1, and 0 for a filter's text),
            "coord" (1 each) or "bool" (0).
        first, size: the page's first rank, from 0, and its length, 10 where it is not said.
        check: where no more than so many match, they are counted exactly; EVERY counts exactly always.
        order, by, reverse: "value", "value_relevance" or "relevance_value", and the number or word field whose values
            order, from the least, or from the greatest. Where `by` alone is said, the order is "value".
        collapse, max: a number or word field of whose values each gives at most so many hits, 1 where it is not said.
        cutoff: the least weight of a match.
        ids: "rising" or "falling", of matches that are equal otherwise.
        """
        options = _options(
            order,
            by,
            op=op,
            scheme=scheme,
            first=first,
            size=size,
            check=check,
            reverse=reverse,
            collapse=collapse,
            max=max,
            cutoff=cutoff,
            ids=ids,
        )
        found: Found = self._call(_find(query, options), "found", query)
        return found

    def open(
        self,
        text: str,
        *,
        op: Optional[str] = None,
        scheme: Optional[str] = None,
        first: Optional[int] = None,
        size: Optional[int] = None,
        check: Optional[int] = None,
        order: Optional[str] = None,
        by: Optional[str] = None,
        reverse: Optional[bool] = None,
        collapse: Optional[str] = None,
        max: Optional[int] = None,
        cutoff: Optional[int] = None,
        ids: Optional[str] = None,
    ) -> Search:
        """Opens a search for what a query text matches among the documents as they are now. It is turned to its end, a
        turn or more at a time, and then closed, and sees nothing of what is edited meanwhile. The options are those of
        `find`. Refused (12 TooManyOpen) where 64 are open.

        The first edit behind an opening copies all documents, which takes a part of the time of loading them; a copy
        is held until the last search on it is gone."""
        if not isinstance(text, str):
            raise TypeError(f"a query text is wanted, not {type(text).__name__}")
        options = _options(
            order,
            by,
            op=op,
            scheme=scheme,
            first=first,
            size=size,
            check=check,
            reverse=reverse,
            collapse=collapse,
            max=max,
            cutoff=cutoff,
            ids=ids,
        )
        return Search(self, self._call(_with({"open": text}, options), "ok open", text))

    def count(self, query: Query, *, op: Optional[str] = None) -> int:
        """How many documents match, exactly. `count({"all": []})` is how many there are."""
        return self.find(query, op=op, size=0, check=EVERY).count.upper

    def show(self, text: str, *, op: Optional[str] = None) -> Dict[str, Any]:
        """The query of a text as a tree."""
        if not isinstance(text, str):
            raise TypeError(f"a query text is wanted, not {type(text).__name__}")
        try:
            tree: Dict[str, Any] = json.loads(self._call(_with({"show": text}, {"op": op}), "query", text))
        except RecursionError:
            raise Error("the tree of this text nests deeper than Python reads") from None
        return tree

    def facets(self, text: str, by: str, *, op: Optional[str] = None, size: Optional[int] = None) -> Facets:
        """How often each value of the number or word field `by` stands among all documents that match a query text.

        op: "or" or "and", between the words of the text.
        size: how many values are told at the most, 10 where it is not said.
        """
        if not isinstance(text, str):
            raise TypeError(f"a query text is wanted, not {type(text).__name__}")
        line = _with({"facets": text, "by": by}, {"op": op, "size": size})
        facets: Facets = self._call(line, "facets", text, 10 if size is None else size)
        return facets

    # The end.

    def close(self) -> int:
        """Waits for all answers and ends the process; its status: 0, or 1 where a line was refused. Raises
        RefusedLines where refusals were not told yet; the status is then in `status`."""
        with self._lock:
            if self.status is None or self._fault is not None:
                self._check()
                self._pipes.is_closing = True
                self._pump(lambda: self._pipes.has_ended)
                status = self._pipes.end(_END_SECONDS)
                self._end.detach()
                if self._waiting or status not in (0, 1):
                    raise self._fail("", status)
                self.status = status
        self._report()
        assert self.status is not None
        return self.status

    def __enter__(self) -> "Index":
        return self

    def __exit__(self, kind: object, *_: object) -> None:
        if kind is None:
            self.close()
        else:
            self._abandon()

    # Lines.

    def _put(self, line: Dict[str, Any], values: Values, data: str) -> Reply:
        """Writes an edit, whose answer is not waited for."""
        if not isinstance(data, str):
            raise NotSent(f"data is a text, not {type(data).__name__}: {_short(data)}")
        if data:
            line["data"] = data
        reply = Reply(self, "ok id", document=values, data=data)
        text = _line(line, values)
        with self._lock:
            self._check()
            self._waiting.append(reply)
            self._pipes.out += text
            if len(self._pipes.out) > _MOST_WAITING:
                self._pump(lambda: len(self._pipes.out) <= _MOST_WAITING // 2)
        if self._on_refused is not None:
            self._report()
        return reply

    def _call(self, line: Dict[str, Any], reads: str, query: Optional[Query] = None, most: int = 0) -> Any:
        """Writes a line and waits for its answer, behind those of all lines before it."""
        text = _line(line, query if query is not None else line)
        with self._lock:
            self._settle()
            return self._send(text, Reply(self, reads, query=query, most=most))._wait()

    def _settle(self) -> None:
        """Waits for what was not waited for, and tells its refusals."""
        self._check()
        if self._waiting:
            self._pump(lambda: not self._waiting)
        self._report()

    def _send(self, text: bytes, reply: Reply) -> Reply:
        """Writes a line whose answer will be waited for."""
        self._check()
        reply._kept = False
        self._waiting.append(reply)
        self._pipes.out += text
        return reply

    def _wait_for(self, reply: Reply) -> None:
        """Waits for one answer, whose refusal is then told by its reply."""
        with self._lock:
            reply._kept = False
            if not reply.is_answered:
                self._check()
                self._pump(lambda: reply.is_answered)
        if self._on_refused is not None:
            self._report()

    def _check(self) -> None:
        if self._fault is not None:
            raise Fault(*self._fault.args)
        if self.status is not None:
            raise Error("this Index was closed")

    def _pump(self, is_done: Callable[[], bool]) -> None:
        try:
            self._pipes.pump(is_done, self._take)
        except _Stopped as stopped:
            raise self._fail(str(stopped)) from None

    def _fail(self, message: str, status: Optional[int] = None) -> Fault:
        """Ends the process and tells why it failed, to all that wait."""
        if status is None:
            status = self._pipes.end(_END_SECONDS if self._pipes.has_ended else 0.0)
            self._end.detach()
        said = self._pipes.said.decode("utf-8", "replace").strip()
        waiting = len(self._waiting)
        if not message:
            message = f"{self.path} {_ended(status)}"
        if said:
            message += f"; it said: {_short(said)}"
        if waiting:
            message += "; 1 line has no answer" if waiting == 1 else f"; {waiting:,} lines have no answer"
        self._fault = Fault(message, status, said, waiting)
        for reply in self._waiting:
            reply._error = self._fault
            reply._index = None
        self._waiting.clear()
        return self._fault

    def _abandon(self) -> None:
        """Ends the process without a word."""
        with self._lock:
            self._end()
            self._waiting.clear()
            if self.status is None:
                self.status = self._pipes.process.wait()

    def _report(self) -> None:
        """Tells the refusals that nobody was told yet."""
        with self._lock:
            refusals, count = self._refusals, self._refused
            self._refusals, self._refused = [], 0
        if self._on_refused is not None:
            for refused in refusals:
                self._on_refused(refused)
        elif count:
            raise RefusedLines(count, refusals)

    def _forget(self, error: Error) -> None:
        """A refusal that its reply tells need not be told again."""
        with self._lock:
            kept = [refused for refused in self._refusals if refused is not error]
            self._refused -= len(self._refusals) - len(kept)
            self._refusals = kept

    # Answers.

    def _take(self, line: bytes) -> None:
        """Takes a line of the output."""
        try:
            text = line.decode("utf-8")
            if self._left:
                self._take_more(text)
                return
            if not self._waiting:
                self._take_left(text)
                return
            reply = self._waiting[0]
            if text.startswith("refused "):
                self._answer(None, self._refusal(text, reply))
            elif not text.startswith(reply._reads + " "):
                raise ValueError(f"its line wants '{reply._reads}'")
            elif reply._reads == "found":
                self._take_found(text)
            elif reply._reads == "facets":
                self._take_facets(text, reply._most)
            elif reply._reads == "query":
                self._answer(text[len("query ") :])
            elif reply._reads.startswith("ok turn "):
                self._answer({"more": False, "done": True}[text[len(reply._reads) + 1 :]])
            elif reply._reads.startswith("dropped "):
                self._answer(_numbers(text[len("dropped ") :])["steps"])
            else:
                self._answer(int(text[len(reply._reads) + 1 :]))
        except (ValueError, KeyError, IndexError, RecursionError) as error:
            raise _Stopped(f"{self.path} is no sk_tool that this client knows: it answered {_short(line)} ({error})")

    def _take_left(self, text: str) -> None:
        """Takes a line that tells, at the end, of a search that is still open."""
        if not (self._pipes.is_closing and text.startswith("open ")):
            raise ValueError("no line asks for it")
        told = text[len("open ") :]
        self.still_open[int(told.split(" ")[0])] = _numbers(told)["steps"]

    def _take_found(self, text: str) -> None:
        told = _numbers(text)
        count = Count(told["lower"], told["estimate"], told["upper"])
        self._begin(Found([], count, told["max"], told["steps"]), told["hits"])

    def _take_facets(self, text: str, most: int) -> None:
        told = _numbers(text)
        facets = Facets(told["matches"], told["distinct"], told["without"], told["steps"], [])
        self._begin(facets, min(facets.distinct, most))

    def _begin(self, page: Union[Found, Facets], lines: int) -> None:
        """Takes the first line of an answer, behind which so many come."""
        self._page = page
        self._left = lines
        if not lines:
            self._answer(page)

    def _take_more(self, text: str) -> None:
        """Takes one more line of an answer."""
        if isinstance(self._page, Facets):
            self._take_facet(self._page, text)
        else:
            assert self._page is not None
            self._take_hit(self._page, text)
        self._left -= 1
        if not self._left:
            self._answer(self._page)

    def _take_facet(self, facets: Facets, text: str) -> None:
        front, data = text.split(" value=", 1)
        if not front.startswith("facet "):
            raise ValueError("a facet is wanted")
        value = json.loads(data)
        if isinstance(value, bool) or not isinstance(value, (int, str)):
            raise ValueError("a value is a number or a text")
        facets.values.append((value, _numbers(front)["count"]))

    def _take_hit(self, found: Found, text: str) -> None:
        front, data = text.split(" data=", 1)
        if not front.startswith("hit "):
            raise ValueError("a hit is wanted")
        told = _numbers(front)
        payload = json.loads(data)
        if not isinstance(payload, str):
            raise ValueError("the data of a hit are a text")
        found.hits.append(Hit(told["rank"], told["id"], told["weight"], told["collapsed"], payload))

    def _answer(self, value: Any, error: Optional[Refused] = None) -> None:
        """The answer of the first line that waits is whole."""
        reply = self._waiting.popleft()
        reply._value, reply._error = value, error
        reply._document = None
        self._answered += 1
        if error is None or not reply._kept:
            reply._index = None
            return
        self._refused += 1
        if self._on_refused is not None or len(self._refusals) < _MOST_KEPT:
            self._refusals.append(error)

    def _refusal(self, text: str, reply: Reply) -> Refused:
        words = text.split(" ")
        number, name = int(words[1]), words[2]
        kind, byte = (words[3], int(words[5])) if len(words) == 6 else (None, None)
        document = reply._document
        hint = self._hint(document) if document is not None and number == 6 else ""
        if number == 1:
            hint = "the line has more than 1,048,576 bytes"
        return Refused(number, name, kind, byte, reply._query, document, reply._data, hint)

    def _hint(self, document: Values) -> str:
        """What the fields say against the values of a document."""
        known = {field["name"]: field for field in self.fields}
        for name, value in document.items():
            if name not in known:
                return f"there is no field {_short(name)}, but {', '.join(known)}"
            kind = known[name]["kind"]
            if value is None:
                continue
            if kind in ("text", "word") and not isinstance(value, str):
                return f"{name} is a {kind} field and takes a text, not {_short(value, 60)}"
            if kind == "filter" and not isinstance(value, str):
                texts = value if isinstance(value, (list, tuple)) else [value]
                if not isinstance(value, (list, tuple)) or not all(isinstance(text, str) for text in texts):
                    return f"{name} is a filter field and takes a text or a list of texts, not {_short(value, 60)}"
            if kind == "number":
                is_whole = isinstance(value, int) and not isinstance(value, bool)
                if not is_whole or not 0 <= value < 1 << 64:
                    wanted = "a whole number from 0 to 2^64 - 1"
                    return f"{name} is a number field and takes {wanted}, not {_short(value, 60)}"
        return ""

    # Ranking by how rare words are.

    def find_by_idf(
        self,
        text: str,
        *,
        op: Optional[str] = None,
        boosts: Optional[Mapping[str, float]] = None,
        near: float = 0.5,
        **options: Any,
    ) -> Found:
        """A page of the documents that match a query text, a rare word weighing more than a common one, and words that
        stand close together more than words far apart: `find` by `idf_tree` under the scheme "coord". `options` are
        those of `find`; no weight of the rules' own counts how often a word occurs, or how long a document is."""
        return self.find(self.idf_tree(text, op=op, boosts=boosts, near=near), scheme="coord", **options)

    def idf_tree(
        self,
        text: str,
        *,
        op: Optional[str] = None,
        boosts: Optional[Mapping[str, float]] = None,
        near: float = 0.5,
    ) -> Dict[str, Any]:
        """The query of a text as a tree that ranks by idf under the scheme "coord".

        Each word that the text wants stands in it once for each prefix of the text fields, also where these are found
        by name alone, times 100 log(1 + (N - n + 0.5) / (n + 0.5)), where n of the N documents have it there. Two such
        words within six places, not both common, weigh `near` times the same of how many documents have them so. The
        index is asked for each n by a find of size 0.

        boosts: by the names of text fields what their words weigh, 1 where it is not said; fields of one prefix weigh
            what the first of them does.
        near: 0 looks at no places, which is quicker where words are common. Of more than ten words none are looked at,
            nor of one that is asked for by its stem; in a text of hundreds the fields under a prefix are left out.
        """
        tree = self.show(text, op=op)
        boosted: Dict[str, float] = {}
        for field in self.fields:
            if field["kind"] == "text":
                boost = 1.0 if boosts is None else float(boosts.get(field["name"], 1.0))
                boosted.setdefault(field.get("prefix", ""), boost)
        leaves = list(_wanted(tree))
        if sum(map(_size, leaves)) * len(boosted) > _MOST_LEAVES - _MOST_NEAR * _MOST_NEAR:
            boosted = {"": boosted.get("", 1.0)}
        variants = {key: value for leaf in leaves for key, value in _variants(leaf, boosted)}
        every, *counts = self._counts([{"all": []}, *variants.values()])
        counted = dict(zip(variants, counts))
        pairs = self._pairs(leaves, boosted, counted, every) if near > 0 else []

        def idf(count: int) -> float:
            return 100 * math.log(1 + (every - count + 0.5) / (count + 0.5))

        def weighed(leaf: Tree) -> Tree:
            parts: List[Tree] = [
                {"scale": [_factor(boosted.get(key[0], 1.0) * idf(counted[key]) / _size(variant)), variant]}
                for key, variant in _variants(leaf, boosted)
            ]
            return parts[0] if len(parts) == 1 else {"or": parts}

        def plain(leaf: Tree) -> Tree:
            parts = [variant for _, variant in _variants(leaf, boosted)]
            return parts[0] if len(parts) == 1 else {"or": parts}

        ranked = _rebuilt(tree, weighed, plain)
        if pairs:
            counts = self._counts(pairs)
            close = [{"scale": [_factor(near * idf(count) / 2), pair]} for pair, count in zip(pairs, counts)]
            ranked = {"and_maybe": [ranked, *close]}
        return ranked

    def _pairs(
        self,
        leaves: Sequence[Tree],
        boosted: Mapping[str, float],
        counted: Mapping[Tuple[str, str], int],
        every: int,
    ) -> List[Tree]:
        """The pairs of words whose places are looked at: of few words, and not of two that are common."""
        prefix = "" if "" in boosted or not boosted else next(iter(boosted))
        terms = [leaf for leaf in leaves if "term" in leaf and not _is_prefixed(leaf) and not _is_stem(leaf)]
        words = {leaf["term"]: counted[prefix, _key(leaf)] for leaf in terms}
        if len(words) > _MOST_NEAR:
            return []
        return [
            {"near": [_WINDOW, prefix + word, prefix + other]}
            for place, word in enumerate(words)
            for other in list(words)[place + 1 :]
            if _COMMON * min(words[word], words[other]) <= every
        ]

    def _counts(self, trees: Sequence[Tree]) -> List[int]:
        """How many documents match each, exactly. No reading is needed for a term: it has as many at the most."""
        lines = [
            _line(_find(tree, {"size": 0, "check": 0 if "term" in tree or "all" in tree else EVERY}), tree)
            for tree in trees
        ]
        with self._lock:
            self._settle()
            replies = [self._send(line, Reply(self, "found", query=tree)) for line, tree in zip(lines, trees)]
            return [reply._wait().count.upper for reply in replies]


_MOST_LEAVES = 1024  # Of a query.
_MOST_NEAR = 10  # With more words the places of two are not looked at.
_WINDOW = 6  # The places in which two words stand close together.
_COMMON = 16  # A word is common where more than one in so many documents have it.

_LEAVES = ("term", "wildcard", "phrase", "near")


def _is_stem(leaf: Tree) -> bool:
    """Whether the leaf is the stem of a word, which has no places: a Z stands before its prefix."""
    return "term" in leaf and leaf["term"].startswith("Z")


def _is_prefixed(leaf: Tree) -> bool:
    """Whether the words of a leaf stand under a prefix: they are folded, and a prefix has capital letters."""
    (value,) = leaf.values()
    first: str = value if isinstance(value, str) else value[1]
    return "A" <= first[1 if _is_stem(leaf) else 0] <= "Z"


def _size(leaf: Tree) -> int:
    """How many leaves of a query a leaf counts for: each word of near and phrase is one."""
    (value,) = leaf.values()
    return 1 if isinstance(value, str) else len(value) - 1


def _wanted(tree: Tree) -> Iterator[Tree]:
    """The leaves of the query of a text that are wanted and have words, in their order."""
    ((form, value),) = tree.items()
    if form in _LEAVES:
        yield tree
    elif form in ("and_not", "filter"):
        yield from _wanted(value[0])
    elif form in ("and", "or", "xor", "max", "and_maybe"):
        for part in value:
            yield from _wanted(part)


def _key(leaf: Tree) -> str:
    return json.dumps(leaf)


def _variants(leaf: Tree, prefixes: Iterable[str]) -> List[Tuple[Tuple[str, str], Tree]]:
    """The leaf under each prefix, or as it is where it has one, each with its prefix and a key of the leaf."""
    ((form, value),) = leaf.items()
    key = _key(leaf)
    if _is_prefixed(leaf):
        return [(("", key), leaf)]
    if _is_stem(leaf):
        return [((prefix, key), {form: "Z" + prefix + value[1:]}) for prefix in prefixes]
    if isinstance(value, str):
        return [((prefix, key), {form: prefix + value}) for prefix in prefixes]
    return [((prefix, key), {form: [value[0], *(prefix + word for word in value[1:])]}) for prefix in prefixes]


def _rebuilt(tree: Tree, wanted: Callable[[Tree], Tree], other: Callable[[Tree], Tree]) -> Dict[str, Any]:
    """The query of a text with its leaves changed: those wanted, and those that take away. What filters stays."""
    ((form, value),) = tree.items()
    if form in _LEAVES:
        return dict(wanted(tree))
    if form == "and_not":
        return {form: [_rebuilt(value[0], wanted, other), *(_rebuilt(part, other, other) for part in value[1:])]}
    if form == "filter":
        return {form: [_rebuilt(value[0], wanted, other), *value[1:]]}
    if form in ("and", "or", "xor", "max", "and_maybe"):
        return {form: [_rebuilt(part, wanted, other) for part in value]}
    return dict(tree)


def _factor(weight: float) -> int:
    """A weight as a factor of `scale`."""
    return min(65_536, max(1, round(weight))) if weight > 0 else 0


def _ended(status: int) -> str:
    """How a process ended."""
    if status < 0:
        try:
            name = f" ({signal.Signals(-status).name})"
        except ValueError:
            name = ""
        return f"was killed by signal {-status}{name}"
    if status in _STATUSES:
        return f"ended with status {status}: {_STATUSES[status]}"
    return f"ended with status {status} before it had answered all lines"


def _numbers(text: str) -> Dict[str, int]:
    """The numbers of an answer, by their names."""
    told = {}
    for part in text.split(" ")[1:]:
        name, number = part.split("=", 1)
        told[name] = int(number)
    return told


def _checked(values: Values) -> Dict[str, Any]:
    """The values as an object of JSON, whose names are texts."""
    if not isinstance(values, Mapping):
        raise NotSent(f"values by the names of fields are wanted, not {type(values).__name__}: {_short(values)}")
    for name in values:
        if not isinstance(name, str):
            raise NotSent(f"a field has a name, not {_short(name)}: {_short(values)}")
    return dict(values)


def _with(line: Dict[str, Any], options: Mapping[str, Any]) -> Dict[str, Any]:
    line.update((name, value) for name, value in options.items() if value is not None)
    return line


def _options(order: Optional[str], by: Optional[str], **others: Any) -> Dict[str, Any]:
    """The options of a find: where a field alone is said, its values order."""
    return {"order": "value" if order is None and by is not None else order, "by": by, **others}


def _find(query: Query, options: Mapping[str, Any]) -> Dict[str, Any]:
    """The line of a find."""
    if isinstance(query, str):
        return _with({"find": query}, options)
    if isinstance(query, Mapping):
        return _with({"tree": query}, options)
    raise TypeError(f"a query text or a query tree is wanted, not {type(query).__name__}")


def _plain(value: object) -> object:
    """What json asks for that is no value it knows."""
    if isinstance(value, Mapping):
        return dict(value)
    raise TypeError(f"{type(value).__name__} is no value of JSON")


def _line(value: Mapping[str, Any], what: object) -> bytes:
    """A line of JSON with its end."""
    try:
        text = json.dumps(value, ensure_ascii=False, allow_nan=False, separators=(",", ":"), default=_plain)
        return text.encode("utf-8") + b"\n"
    except (TypeError, ValueError, RecursionError, OverflowError) as error:
        shown = what if isinstance(what, str) and len(what) < 200 else type(what).__name__
        try:
            shown = _short(what)
        except Exception:  # What cannot be shown either.
            pass
        raise NotSent(f"JSON cannot hold this: {error}: {shown}") from error
