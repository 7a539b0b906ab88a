"""Tests of the client over the built program: python3 -m unittest, in this folder.

SK_TOOL names the program; else it is the repository's own (cd crates/sk_tool && rt run)."""

import doctest
import gc
import json
import os
import random
import re
import signal
import stat
import subprocess
import tempfile
import threading
import time
import unittest
from unittest import mock

from comfreystair import EVERY, Error, Facets, Fault, Found, Index, NotSent, Refused, RefusedLines, Search

HERE = os.path.dirname(os.path.realpath(__file__))
PROGRAM = os.environ.get("SK_TOOL") or os.path.join(HERE, "..", "..", "crates", "sk_tool", "out", "sk_tool")
BODY = [{"name": "body", "kind": "text"}]
FIELDS = [
    {"name": "title", "kind": "text", "prefix": "S", "step": 3},
    {"name": "body", "kind": "text"},
    {"name": "lang", "kind": "filter", "prefix": "L"},
    {"name": "year", "kind": "number", "slot": 0},
    {"name": "site", "kind": "word", "slot": 1},
]


def setUpModule():
    if not os.access(PROGRAM, os.X_OK):
        raise RuntimeError(f"no program at {PROGRAM}: build it (cd crates/sk_tool && rt run), or name it by SK_TOOL")


def by_hand(lines):
    """What the program answers to lines, one by one, and its status: a parser of its own, for comparison."""
    text = "".join(json.dumps(line) + "\n" for line in lines).encode()
    told = subprocess.run([PROGRAM, "run"], input=text, stdout=subprocess.PIPE)
    rows = told.stdout.decode().split("\n")[:-1]
    answers = []
    while rows:
        row = rows.pop(0)
        found = re.fullmatch(r"found hits=(\d+) lower=(\d+) estimate=(\d+) upper=(\d+) max=(\d+) steps=(\d+)", row)
        if found:
            page = []
            for _ in range(int(found[1])):
                hit = re.fullmatch(r"hit rank=(\d+) id=(\d+) weight=(\d+) collapsed=(\d+) data=(.*)", rows.pop(0))
                page.append((*map(int, hit.groups()[:4]), json.loads(hit[5])))
            answers.append(("found", page, *(int(number) for number in found.groups()[1:])))
        elif row.startswith("facets "):
            values = []
            while rows and rows[0].startswith("facet "):
                facet = re.fullmatch(r"facet count=(\d+) value=(.*)", rows.pop(0))
                values.append((json.loads(facet[2]), int(facet[1])))
            numbers = re.fullmatch(r"facets matches=(\d+) distinct=(\d+) without=(\d+) steps=(\d+)", row).groups()
            answers.append(("facets", *map(int, numbers), values))
        else:
            answers.append(row)
    return answers, told.returncode


def told(call):
    """What a call of the client comes to, as `by_hand` has it."""
    try:
        value = call()
    except Refused as refused:
        return str(refused).split("\n")[0].split(":")[0]
    if isinstance(value, dict):
        return "query " + json.dumps(value, ensure_ascii=False, separators=(",", ":"))
    if isinstance(value, (int, str)):
        return value
    if isinstance(value, Facets):
        return ("facets", *value)
    return ("found", [tuple(hit) for hit in value.hits], *value.count, value.max, value.steps)


class Sessions(unittest.TestCase):
    def open(self, fields=BODY, **options):
        index = Index(PROGRAM, fields, **options)
        self.addCleanup(index._abandon)
        return index

    def test_a_session(self):
        with self.open() as index:
            one = index.add({"body": "the red fox sleeps"}, data="one")
            index.add({"body": "a fox and a red fox"}, data="two")
            found = index.find("+fox (red OR hen)")
            self.assertEqual([tuple(hit) for hit in found], [(0, 2, 3, 0, "two"), (1, 1, 2, 0, "one")])
            self.assertEqual((found.count.lower, found.count.estimate, found.count.upper), (2, 2, 2))
            self.assertTrue(found.count.is_exact)
            self.assertEqual((found.max, found.steps, len(found), found[0].data), (3, 6, 2, "two"))
            self.assertEqual(one.id, 1)
            self.assertEqual(index.delete(2), 1)
            self.assertEqual([hit.id for hit in index.find("FOX -hen")], [1])
        self.assertEqual(index.status, 0)

    def test_options(self):
        index = self.open(FIELDS)
        for year, site in ((1990, "a"), (2000, "b"), (2010, "a")):
            values = {"title": "Fox", "body": "red fox red", "lang": ["en", "fr"], "year": year, "site": site}
            index.add(values, str(year))
        data = lambda found: [hit.data for hit in found]
        self.assertEqual(data(index.find("red", by="year", reverse=True)), ["2010", "2000", "1990"])
        self.assertEqual(data(index.find("red", order="value", by="year", first=1, size=1)), ["2000"])
        self.assertEqual(data(index.find("red", ids="falling")), ["2010", "2000", "1990"])
        self.assertEqual([tuple(hit)[3:] for hit in index.find("red", collapse="site")], [(1, "1990"), (0, "2000")])
        self.assertEqual(len(index.find("red", collapse="site", max=2)), 3)
        self.assertEqual([hit.weight for hit in index.find("red", scheme="coord")], [1, 1, 1])
        self.assertEqual([hit.weight for hit in index.find("red", scheme="bnn")], [1, 1, 1])
        self.assertEqual([hit.weight for hit in index.find("red", scheme="snn")], [4, 4, 4])
        self.assertEqual(index.find({"scale": [65536, {"term": "red"}]}, scheme="snn").max, 262_144)
        self.assertEqual(len(index.find("red", cutoff=3)), 0)
        self.assertEqual(len(index.find("red owl", op="and")), 0)
        self.assertEqual(index.find({"term": "red"}), index.find("red"))
        self.assertEqual(index.find("red", size=0, check=EVERY).count, (3, 3, 3))
        self.assertEqual(index.count("year:1995.."), 2)
        self.assertEqual(index.count({"all": []}), 3)
        self.assertEqual(index.show("red -fox"), {"and_not": [{"term": "red"}, {"term": "fox"}]})
        self.assertEqual(index.delete_by("lang", "en"), 3)

    def test_facets(self):
        index = self.open(FIELDS)
        for year, site in ((1990, "a"), (2000, 'b"'), ((1 << 64) - 1, "a"), (2000, None)):
            index.add({"body": "red fox", "year": year, "site": site})
        self.assertEqual(index.facets("red", "site"), Facets(4, 2, 1, 8, [("a", 2), ('b"', 1)]))
        years = index.facets("red owl", by="year", op="or")
        self.assertEqual(years.values, [(2000, 2), (1990, 1), ((1 << 64) - 1, 1)])
        self.assertEqual((years.matches, years.distinct, years.without), (4, 3, 0))
        self.assertEqual(index.facets("red", "year", size=1).values, [(2000, 2)])
        self.assertEqual(index.facets("red", "year", size=0), (4, 3, 0, 8, []))
        self.assertEqual(index.facets("red owl", "year", op="and").matches, 0)
        self.assertEqual(index.facets("owl", "year"), (0, 0, 0, 0, []))
        self.assertEqual(index.find("red", size=1)[0].id, 1)

    def test_replies(self):
        index = self.open(FIELDS)
        reply = index.add({"body": "fox", "lang": "en"})
        self.assertEqual(index.replace(reply, {"body": "owl", "lang": "en"}).id, 1)
        self.assertEqual(index.replace_by("lang", "en", {"body": "hen", "lang": "en"}).id, 1)
        self.assertEqual(index.replace_by("lang", "de", {"body": "hen"}).id, 2)
        self.assertEqual(index.delete(reply), 1)
        self.assertTrue(reply.is_answered)
        self.assertIn("id 1", repr(reply))
        self.assertIn("under way", repr(index.add({})))

    def test_any_text_comes_back(self):
        index = self.open()
        texts = ['"', "\\", "a\nb\r\t\0", "\u2028 \u2029 \x7f \x85", " data=x", "日本語 é 🦊", "hit rank=0"]
        texts.append("x" * 200_000)
        for text in texts:
            index.add({"body": "fox " + text}, data=text)
        self.assertEqual([hit.data for hit in index.find("fox", size=100)], texts)

    def test_random_calls_are_as_lines_by_hand(self):
        for seed in range(30):
            picks = random.Random(seed)
            lines, calls = [{"schema": FIELDS}], []
            index = self.open(FIELDS, on_refused=lambda refused: None)
            for _ in range(picks.randint(1, 120)):
                line, call, form = self.random_call(picks, index)
                lines.append(line)
                calls.append((form, call))
            later = [(form, call()) for form, call in calls]
            mine = []
            for form, call in later:
                value = told(call)
                is_number = isinstance(value, int)
                mine.append(form.format(value) if is_number else value)
            hand, status = by_hand(lines)
            self.assertEqual(index.close(), status, f"seed {seed}")
            left = [f"open {number} steps={steps}" for number, steps in index.still_open.items()]
            self.assertEqual(["ok schema 5", *mine, *left], hand, f"seed {seed}")

    def random_call(self, picks, index):
        """A line, the call that stands for it, which gives a second call for its answer, and the form of that answer."""
        word = lambda: picks.choice(["red", "fox", "owl", "é", "Fox", "den"])
        text = lambda: " ".join(word() for _ in range(picks.randint(0, 5)))
        id = picks.randint(1, 20)
        lang = picks.choice(["en", "fr", "de"])
        values = {}
        for name, value in (
            ("title", text()),
            ("body", text()),
            ("lang", picks.choice([lang, [lang, "fr"], None])),
            ("year", picks.choice([*range(10)] * 5 + [(1 << 64) - 1, 1 << 64, -1, 1.5, "x"])),
            ("site", picks.choice("abc")),
            ("nope", 1),
        ):
            if picks.random() < (0.02 if name == "nope" else 0.7):
                values[name] = value
        data = picks.choice(["", "one", "\n\"\\ é"])
        with_data = {"data": data} if data else {}
        form = picks.random()
        wait = lambda reply: (lambda: reply.id)
        if form < 0.4:
            return {"add": values, **with_data}, lambda: wait(index.add(values, data)), "ok id {}"
        if form < 0.45:
            line = {"replace": id, "with": values, **with_data}
            return line, lambda: wait(index.replace(id, values, data)), "ok id {}"
        if form < 0.5:
            field = picks.choice(["lang", "lang", "body"])
            line = {"replace_by": [field, lang], "with": values, **with_data}
            return line, lambda: wait(index.replace_by(field, lang, values, data)), "ok id {}"

        def now(call):
            """Calls at once, and keeps what came of it."""

            def done():
                try:
                    value = call()
                except Refused as refused:
                    error = refused

                    def again():
                        raise error

                    return again
                return lambda: value

            return done

        if form < 0.58:
            return {"delete": id}, now(lambda: index.delete(id)), "ok deleted {}"
        if form < 0.61:
            return {"delete_by": ["lang", lang]}, now(lambda: index.delete_by("lang", lang)), "ok deleted {}"
        signs = ["AND", "OR", "-", "(", ")", '"', "+", "lang:en", "year:2..", "year:x", "f*", "title:fox", "NEAR/3"]
        asked = " ".join(picks.choice([*signs, word(), word()]) for _ in range(picks.randint(0, 4)))
        if form < 0.66:
            return {"show": asked, "op": "and"}, now(lambda: index.show(asked, op="and")), ""
        if form < 0.71:
            by = picks.choice(["year", "site", "site", "lang", "nope"])
            size = picks.choice([0, 1, 2, 10, 100_001])
            line = {"facets": asked, "by": by, "op": "or", "size": size}
            return line, now(lambda: index.facets(asked, by, op="or", size=size)), ""
        options = {}
        for name, value in (
            ("scheme", picks.choice(["bool", "coord", "nnn", "bnn", "snn", "tf"])),
            ("first", picks.choice([0, 1, 3, 100_000])),
            ("size", picks.choice([0, 1, 10, 100])),
            ("check", picks.choice([0, 5, EVERY, -1])),
            ("cutoff", picks.randint(0, 3)),
            ("ids", picks.choice(["rising", "falling"])),
            ("collapse", picks.choice(["site", "year", "body"])),
        ):
            if picks.random() < 0.2:
                options[name] = value
        if "collapse" in options and picks.random() < 0.5:
            options["max"] = picks.randint(0, 3)
        if picks.random() < 0.3:
            options["order"] = picks.choice(["value", "value_relevance", "relevance_value", "relevance"])
            options["by"] = picks.choice(["year", "site"])
            options["reverse"] = picks.random() < 0.5
        if form < 0.76:
            return {"open": asked, **options}, now(lambda: f"ok open {index.open(asked, **options).number}"), ""
        if form < 0.84:
            search = Search(index, picks.choice([0, 1, 1, 1, 2, 2, 3, 4]))
            number, times = search.number, picks.choice([0, 1, 2, 5, 100_000, 100_000])
            turned = lambda: f"ok turn {number} {'done' if search.turn(times) else 'more'}"
            return picks.choice(
                [
                    ({"turn": number, "times": times}, now(turned), ""),
                    ({"close": number}, now(search.close), ""),
                    ({"drop": number}, now(lambda: f"dropped {number} steps={search.drop()}"), ""),
                ]
            )
        if form < 0.92:
            op = picks.choice(["or", "and"])
            return {"find": asked, "op": op, **options}, now(lambda: index.find(asked, op=op, **options)), ""
        form = picks.choice(["and", "or", "xor", "max", "and_not"])
        tree = {form: [{"term": word()} for _ in range(picks.randint(0, 3))]}
        return {"tree": tree, **options}, now(lambda: index.find(tree, **options)), ""


class Readme(unittest.TestCase):
    def test_its_session(self):
        with mock.patch.dict(os.environ, SK_TOOL=PROGRAM):
            told = doctest.testfile("README.md", encoding="utf-8")
        self.assertEqual((told.failed, told.attempted > 10), (0, True))


class Refusals(unittest.TestCase):
    def setUp(self):
        self.index = Index(PROGRAM, FIELDS)
        self.addCleanup(self.index._abandon)

    def refused(self, call):
        with self.assertRaises(Refused) as caught:
            call()
        return caught.exception

    def test_of_a_query_text(self):
        refused = self.refused(lambda: self.index.find("fox AND"))
        told = (refused.number, refused.name, refused.kind, refused.byte)
        self.assertEqual(told, (9, "BadQuery", "MissingOperand", 4))
        self.assertEqual(str(refused), "refused 9 BadQuery MissingOperand at 4\nfox AND\n    ^")

    def test_the_mark_stands_under_its_byte(self):
        mark = lambda text: str(self.refused(lambda: self.index.find(text))).split("\n")[1:]
        self.assertEqual(mark("é AND"), ["é AND", "  ^"])
        self.assertEqual(mark("日本 AND"), ["日本 AND", "     ^"])
        self.assertEqual(mark("a\n\tb AND"), ["a  b AND", "     ^"])
        line, caret = mark("x" * 1000 + " AND " + "y " * 1000 + ")")
        self.assertEqual((line[caret.index("^") :][:1], len(line) < 140), (")", True))
        line, caret = mark("fox " * 300 + "AND " + ") " * 300)
        self.assertEqual(line[caret.index("^") :][:3], "AND")

    def test_of_other_lines(self):
        self.assertEqual(str(self.refused(lambda: self.index.delete(7))), "refused 8 NotFound")
        self.assertEqual(self.refused(lambda: self.index.find({"and": []})).name, "BadTree")
        self.assertEqual(self.refused(lambda: self.index.find("fox", first=100_001)).name, "BadShape")
        self.assertEqual(self.refused(lambda: self.index.find("fox", collapse="body")).name, "BadField")
        self.assertEqual(self.refused(lambda: self.index.show("(")).byte, 0)
        self.assertEqual(self.refused(lambda: self.index.facets("red", "body")).name, "BadField")
        self.assertEqual(self.refused(lambda: self.index.facets("red", "year", size=-1)).name, "BadShape")
        self.assertEqual(self.refused(lambda: self.index.facets("fox (", "year")).byte, 4)
        self.assertEqual(self.index.close(), 1)

    def test_of_fields(self):
        self.assertEqual(self.refused(lambda: Index(PROGRAM, [{"name": "Body", "kind": "text"}])).name, "BadField")
        self.assertEqual(self.refused(lambda: Index(PROGRAM, [])).name, "BadShape")

    def test_of_additions_come_with_their_document(self):
        for year in range(100):
            self.index.add({"year": year} if year % 10 else {"year": year + 0.5}, data=str(year))
        with self.assertRaises(RefusedLines) as caught:
            self.index.find("fox")
        refusals = caught.exception.refusals
        self.assertEqual(caught.exception.count, 10)
        self.assertEqual([refused.data for refused in refusals], [str(year) for year in range(0, 100, 10)])
        self.assertEqual((refusals[0].document, refusals[0].name), ({"year": 0.5}, "BadField"))
        self.assertIn("year is a number field and takes a whole number from 0 to 2^64 - 1, not 0.5", str(caught.exception))
        self.assertEqual(self.index.count({"all": []}), 90)

    def test_hints(self):
        for values, hint in (
            ({"titel": "x"}, "there is no field 'titel', but title, body, lang, year, site"),
            ({"body": 7}, "body is a text field and takes a text, not 7"),
            ({"lang": ["en", 1]}, "lang is a filter field and takes a text or a list of texts, not ['en', 1]"),
            ({"year": True}, "year is a number field and takes a whole number from 0 to 2^64 - 1, not True"),
        ):
            reply = self.index.add(values)
            self.assertEqual(self.refused(lambda: reply.id).hint, hint)
        self.index.flush()

    def test_told_by_the_reply_alone(self):
        good, bad = self.index.add({}), self.index.add({"nope": 1})
        self.assertEqual(self.refused(lambda: bad.id).number, 6)
        self.assertEqual(good.id, 1)
        late = self.index.add({"nope": 1})
        self.index._pump(lambda: late.is_answered)
        self.assertEqual(self.refused(lambda: late.id).number, 6)
        self.index.flush()
        self.assertEqual(self.index.close(), 1)

    def test_told_by_close(self):
        self.index.add({"nope": 1})
        with self.assertRaises(RefusedLines):
            self.index.close()
        self.assertEqual((self.index.status, self.index.close()), (1, 1))

    def test_told_to_a_callback(self):
        seen = []
        index = Index(PROGRAM, BODY, on_refused=seen.append)
        self.addCleanup(index._abandon)
        index.add({"nope": 1})
        index.add({"body": "fox"})
        self.assertEqual(len(index.find("fox")), 1)
        self.assertEqual([refused.document for refused in seen], [{"nope": 1}])
        self.assertEqual(index.close(), 1)

    def test_too_long(self):
        reply = self.index.add({"body": "x " * 600_000})
        self.assertEqual(self.refused(lambda: reply.id).name, "TooLong")
        self.assertEqual(self.refused(lambda: self.index.find("x" * 1_100_000)).name, "TooLong")

    def test_what_json_cannot_hold(self):
        loop = {}
        loop["and"] = [loop]
        deep = {"term": "a"}
        for _ in range(100_000):
            deep = {"and": [deep]}
        for call in (
            lambda: self.index.add({"year": float("nan")}),
            lambda: self.index.add({"year": 10**5000}) if hasattr(int, "bit_count") else self.index.add({"year": b""}),
            lambda: self.index.add({"body": "\ud800"}),
            lambda: self.index.add({"body": b"fox"}),
            lambda: self.index.add({1: "fox"}),
            lambda: self.index.add(["fox"]),
            lambda: self.index.add({}, data=7),
            lambda: self.index.find("\udfff"),
            lambda: self.index.find(loop),
            lambda: self.index.find(deep),
        ):
            try:
                call()
                self.index.flush()
            except (NotSent, RefusedLines):
                continue
            self.fail("it was taken")
        with self.assertRaises(TypeError):
            self.index.find(7)
        self.assertEqual(self.index.count({"all": []}), 0)


class Stems(unittest.TestCase):
    def test_words_are_found_by_their_stems_where_that_is_asked_for(self):
        with Index(PROGRAM, [*BODY, {"name": "title", "kind": "text", "prefix": "S"}], stem=True) as index:
            index.add_all([{"body": "hopping cats", "title": "Hopes"}, {"body": "Hoping"}])
            self.assertEqual([hit.id for hit in index.find("hopes")], [2])
            self.assertEqual([hit.id for hit in index.find("title:hope")], [1])
            self.assertEqual([hit.id for hit in index.find("Hope")], [])
            self.assertEqual(index.show("hop +Hop"), {"and_maybe": [{"term": "hop"}, {"term": "Zhop"}]})
            self.assertEqual([hit.id for hit in index.find_by_idf("hoped cat")], [1, 2])
        with Index(PROGRAM, BODY) as index:
            self.assertEqual(index.show("hopes"), {"term": "hopes"})


class Parts(unittest.TestCase):
    def test_documents_in_parts_are_found_as_in_one(self):
        with Index(PROGRAM, BODY, parts=3) as index:
            index.add_all([{"body": "red fox red"}, {"body": "red hen"}, {"body": "fox den"}, {"body": "red fox den"}])
            self.assertEqual([(hit.id, hit.weight) for hit in index.find("red fox")], [(1, 3), (4, 2), (2, 1), (3, 1)])
        with self.assertRaises(Refused) as refused:
            Index(PROGRAM, BODY, parts=17)
        self.assertEqual(refused.exception.name, "BadShape")


class Searches(unittest.TestCase):
    def setUp(self):
        self.index = Index(PROGRAM, FIELDS)
        self.addCleanup(self.index._abandon)
        for body, year, site in (("red fox red", 1990, "a"), ("red hen", 2000, "a"), ("fox den", 2010, "b")):
            self.index.add({"body": body, "year": year, "site": site}, data=body)

    def refused(self, call):
        with self.assertRaises(Refused) as caught:
            call()
        return caught.exception

    def rows(self, found):
        return [(hit.id, hit.weight, hit.data) for hit in found]

    def test_sees_the_documents_of_its_opening(self):
        search = self.index.open("red fox")
        before = self.rows(self.index.find("red fox"))
        self.assertEqual((search.number, search.is_open, search.is_done, repr(search)), (1, True, False, "<Search 1: more>"))
        self.index.replace(1, {"body": "owl"})
        self.assertFalse(search.turn())
        self.index.add({"body": "red red red red"})
        self.assertEqual(self.index.delete(2), 1)
        self.assertEqual(self.refused(search.close).name, "NotDone")
        self.assertFalse(search.turn(2))
        self.assertTrue(search.turn(100))
        self.assertTrue(search.turn())
        self.index.delete(3)
        self.assertEqual((search.is_done, repr(search)), (True, "<Search 1: done>"))
        found = search.close()
        self.assertIsInstance(found, Found)
        self.assertEqual(self.rows(found), before)
        self.assertEqual((found.count, found.max, search.is_open, repr(search)), ((3, 3, 3), 3, False, "<Search 1: gone>"))
        self.assertEqual(self.rows(self.index.find("red fox")), [(4, 4, "")])

    def test_options_are_those_of_a_find(self):
        for options in (
            {"by": "year", "reverse": True},
            {"order": "value_relevance", "by": "site"},
            {"collapse": "site"},
            {"collapse": "site", "max": 2, "ids": "falling"},
            {"op": "and"},
            {"scheme": "snn", "cutoff": 2},
            {"first": 1, "size": 1, "check": EVERY},
        ):
            found, then = self.index.find("red fox", **options), self.index.open("red fox", **options).finish()
            self.assertEqual((then.hits, then.max), (found.hits, found.max), options)
            self.assertLessEqual(then.count.lower, then.count.upper)

    def test_up_to_64_are_open(self):
        searches = [self.index.open("hen") for _ in range(64)]
        self.assertEqual([search.number for search in searches], list(range(1, 65)))
        refused = self.refused(lambda: self.index.open("hen"))
        self.assertEqual((refused.number, refused.name, refused.query, str(refused)), (12, "TooManyOpen", "hen", "refused 12 TooManyOpen\n'hen'"))
        self.assertEqual(self.refused(lambda: self.index.open("hen AND")).byte, 4)
        self.assertLessEqual(searches[9].drop(), 1)
        self.assertEqual(self.index.open("owl").number, 65)
        self.assertEqual(len(searches[63].finish()), 1)
        self.assertEqual(self.index.open("owl").number, 66)

    def test_of_one_that_is_gone_nothing_is_told(self):
        closed, dropped = self.index.open("red"), self.index.open("red")
        self.assertEqual(len(closed.finish()), 2)
        dropped.drop()
        for search in (closed, dropped, Search(self.index, 3), Search(self.index, 0), Search(self.index, (1 << 64) - 1)):
            for call in (search.turn, search.close, search.drop, search.finish):
                refused = self.refused(call)
                self.assertEqual((refused.number, refused.name, str(refused)), (13, "NotOpen", "refused 13 NotOpen"))
        self.assertEqual(self.refused(Search(self.index, 1 << 64).drop).name, "BadShape")

    def test_other_refusals(self):
        search = self.index.open("red")
        refused = self.refused(search.close)
        self.assertEqual((refused.number, str(refused)), (14, "refused 14 NotDone"))
        for times in (0, 100_001, -1):
            self.assertEqual(self.refused(lambda: search.turn(times)).name, "BadShape")
        self.assertEqual(self.refused(lambda: self.index.open("red", size=-1)).name, "BadShape")
        self.assertEqual(self.refused(lambda: self.index.open("red", by="body")).name, "BadField")
        with self.assertRaises(TypeError):
            self.index.open({"term": "red"})
        with self.assertRaises(TypeError):
            search.turn(1.0)
        self.assertEqual(self.refused(search.close).name, "NotDone")
        self.assertEqual(self.index.open("red").number, 2)
        with Index(PROGRAM, BODY, parts=2) as index:
            for call in (lambda: index.open("("), Search(index, 1).turn, Search(index, 1).close, Search(index, 1).drop):
                self.assertEqual(str(self.refused(call)).split("\n")[0], "refused 11 InParts")

    def test_what_is_open_at_the_end_is_told(self):
        hen, red, owl = (self.index.open(text) for text in ("hen", "red", "owl"))
        red.turn()
        self.index.open("fox").drop()
        self.assertEqual((self.index.still_open, hen.is_open), ({}, True))
        self.assertEqual(self.index.close(), 0)
        self.assertEqual(list(self.index.still_open), [1, 2, 3])
        self.assertTrue(all(steps <= most for steps, most in zip(self.index.still_open.values(), (1, 2, 0))))
        with self.assertRaisesRegex(Error, "closed"):
            owl.turn()
        with Index(PROGRAM, BODY) as index:
            self.assertEqual(index.open("fox").finish().hits, [])
        self.assertEqual(index.still_open, {})

    def test_a_context_drops_it(self):
        with self.index.open("red") as search:
            self.assertEqual(len(search.finish()), 2)
        with self.index.open("red") as search:
            search.turn()
        self.assertFalse(search.is_open)
        with self.assertRaises(ZeroDivisionError):
            with self.index.open("red") as other:
                1 / 0
        self.assertFalse(other.is_open)
        with self.assertRaises(Fault):
            with self.index.open("red") as search:
                self.index._pipes.process.kill()
                search.turn()

    def test_a_refused_addition_is_told_first(self):
        search = self.index.open("red")
        self.index.add({"nope": 1})
        with self.assertRaises(RefusedLines):
            search.turn()
        self.assertEqual(len(search.finish()), 2)

    def test_a_program_that_tells_of_a_search_too_early(self):
        file, path = tempfile.mkstemp()
        self.addCleanup(os.remove, path)
        with os.fdopen(file, "w") as out:
            out.write("#!/bin/sh\nread line; echo ok schema 1; echo open 1 steps=0; read line; read line\n")
        os.chmod(path, stat.S_IRWXU)
        with self.assertRaises(Fault):
            Index(path, BODY).find("fox")


class Loads(unittest.TestCase):
    def test_many_additions_and_their_progress(self):
        seen = []
        with Index(PROGRAM, BODY) as index:
            documents = (({"body": f"fox d{number}"}, "x" * 200) for number in range(10_000))
            self.assertEqual(index.add_all(documents, progress=seen.append), 10_000)
            self.assertEqual((seen[-1], sorted(seen)), (10_000, seen))
            self.assertEqual(index.count("fox"), 10_000)
            self.assertEqual(len(index.find("fox", size=10_000)), 10_000)

    def test_additions_that_are_refused_do_not_stop_the_others(self):
        seen = []
        with Index(PROGRAM, BODY) as index:
            with self.assertRaises(RefusedLines) as caught:
                index.add_all([{"body": "fox"}, {"nope": 1}, {"body": "fox"}], progress=seen.append)
            self.assertEqual((caught.exception.count, seen, index.count("fox")), (1, [3], 2))
        with Index(PROGRAM, BODY) as index:
            with self.assertRaises(RefusedLines) as caught:
                index.add_all({"nope": 1} for _ in range(5000))
            self.assertEqual((caught.exception.count, len(caught.exception.refusals)), (5000, 1000))

    def test_threads(self):
        with Index(PROGRAM, BODY) as index:
            for number in range(100):
                index.add({"body": f"w{number}"}, data=str(number))
            wrong = []

            def ask(number):
                for _ in range(20):
                    if [hit.data for hit in index.find(f"w{number}")] != [str(number)]:
                        wrong.append(number)

            threads = [threading.Thread(target=ask, args=(number,)) for number in range(8)]
            for thread in threads:
                thread.start()
            for thread in threads:
                thread.join()
            self.assertEqual(wrong, [])

    def test_ends_with_its_index(self):
        index = Index(PROGRAM, BODY)
        process = index._pipes.process
        del index
        gc.collect()
        self.assertIsNotNone(process.poll())
        with self.assertRaises(ZeroDivisionError):
            with Index(PROGRAM, BODY) as index:
                index.add({"nope": 1})
                1 / 0
        self.assertIsNotNone(index._pipes.process.poll())
        with self.assertRaisesRegex(Error, "closed"):
            index.find("fox")


class Faults(unittest.TestCase):
    def script(self, text):
        """A program of these lines."""
        file, path = tempfile.mkstemp()
        self.addCleanup(os.remove, path)
        with os.fdopen(file, "w") as out:
            out.write(text)
        os.chmod(path, stat.S_IRWXU)
        return path

    def fault(self, call):
        began = time.monotonic()
        with self.assertRaises(Fault) as caught:
            call()
        self.assertLess(time.monotonic() - began, 8)
        return caught.exception

    def test_killed_under_a_find(self):
        index = Index(PROGRAM, BODY)
        index.add({"body": "fox"})
        index.flush()
        process = index._pipes.process
        process.send_signal(signal.SIGSTOP)
        timer = threading.Timer(0.3, process.send_signal, [signal.SIGKILL])
        timer.start()
        fault = self.fault(lambda: index.find("fox"))
        self.assertEqual((fault.status, fault.unanswered), (-9, 1))
        self.assertIn("was killed by signal 9 (SIGKILL)", str(fault))
        self.assertEqual(self.fault(lambda: index.find("fox")).status, -9)
        self.assertEqual(self.fault(lambda: index.add({})).status, -9)
        self.assertEqual(self.fault(index.close).status, -9)

    def test_killed_while_it_loads(self):
        index = Index(PROGRAM, BODY)
        reply = index.add({"body": "fox"})
        index._pipes.process.kill()

        def load():
            while True:
                index.add({"body": "fox " * 100})

        self.assertEqual(self.fault(load).status, -9)
        self.assertEqual(self.fault(lambda: reply.id).status, -9)

    def test_killed_before_it_is_closed(self):
        def session():
            with Index(PROGRAM, BODY) as index:
                index._pipes.process.kill()

        self.assertEqual(self.fault(session).status, -9)

    def test_stuck(self):
        index = Index(PROGRAM, BODY)
        index._pipes.timeout = 0.3
        index._pipes.process.send_signal(signal.SIGSTOP)
        self.assertIn("no sign of life for 0.3 seconds", str(self.fault(lambda: index.find("fox"))))
        self.assertIsNotNone(index._pipes.process.poll())

    def test_no_program(self):
        folder = tempfile.mkdtemp()
        self.addCleanup(os.rmdir, folder)
        text = self.script("no program")
        os.chmod(text, stat.S_IRUSR)
        for path, why in (("/no/such", "No such file"), ("no_such_sk_tool", "No such file"), (folder, "denied")):
            fault = self.fault(lambda: Index(path, BODY))
            self.assertTrue(str(fault).startswith(path + " cannot be started: "), str(fault))
            self.assertIn(why, str(fault))
        if os.getuid():
            self.assertIn("denied", str(self.fault(lambda: Index(text, BODY))))

    def test_another_program(self):
        for text, why in (
            ("exec cat", "is no sk_tool"),
            ("exec yes", "is no sk_tool"),
            ("exec head -c 100000000 /dev/zero", "is no sk_tool"),
            ("exec cat >/dev/null", "ended with status 0 before"),
            ("while read line; do :; done", "no sign of life"),
            ("exec sleep 100", "no sign of life"),
            ("exit 0", "ended with status 0 before"),
            ("echo what is run >&2; exit 127", "it said: 'what is run'"),
            ("exec <&-; sleep 0.2; exit 7", "ended with status 7"),
            ("exec >&-; sleep 0.2; exit 7", "ended with status 7"),
            ("head -c 1000000 /dev/zero >&2; exec cat", "is no sk_tool"),
        ):
            path = self.script("#!/bin/sh\n" + text + "\n")
            fault = self.fault(lambda: Index(path, BODY, timeout=1.0))
            self.assertRegex(str(fault), why)
            self.assertIn(path, str(fault))

    def test_statuses(self):
        faults = {2: "usage: ..", 3: "read fault", 4: "write fault", 5: "no memory", 6: "too much input"}
        for status, said in faults.items():
            path = self.script(f"#!/bin/sh\nread line; echo ok schema 1; read line; echo {said} >&2; exit {status}\n")
            index = Index(path, BODY)
            fault = self.fault(lambda: index.find("fox"))
            self.assertEqual((fault.status, fault.said, fault.unanswered), (status, said, 1))
            self.assertIn(said, str(fault))
            index = Index(path, BODY)
            self.assertEqual(self.fault(index.close).status, status)

    def test_memory_runs_out(self):
        path = self.script(f'#!/bin/sh\nulimit -v 60000; exec {PROGRAM} "$@"\n')
        index = Index(path, BODY)

        def load():
            for number in range(200_000):
                index.add({"body": f"w{number} x{number}"}, data="y" * 1000)
            index.flush()

        fault = self.fault(load)
        self.assertEqual((fault.status, fault.said), (5, "no memory"))
        self.assertGreater(fault.unanswered, 0)


class Ranking(unittest.TestCase):
    def setUp(self):
        self.index = Index(PROGRAM, FIELDS)
        self.addCleanup(self.index._abandon)
        for number in range(50):
            self.index.add({"title": f"page {number}", "body": "common words " * (number + 1)}, data=str(number))
        self.index.add({"title": "the rare one", "body": "words"}, data="title")
        self.index.add({"title": "page", "body": "rare words", "lang": "en"}, data="body")

    def test_rare_words_first(self):
        data = lambda text, **options: [hit.data for hit in self.index.find_by_idf(text, **options)]
        self.assertEqual(data("common rare", size=2), ["title", "body"])
        self.assertEqual(data("common rare", size=2, boosts={"title": 0.1}), ["body", "title"])
        self.assertEqual(data("common rare lang:en"), ["body"])
        self.assertEqual(data("rare -body:rare"), [])
        self.assertEqual(data("rare -common", op="and"), ["title", "body"])

    def test_trees(self):
        tree = self.index.idf_tree("rare", near=0)
        self.assertEqual(tree, {"or": [{"scale": [356, {"term": "Srare"}]}, {"scale": [356, {"term": "rare"}]}]})
        self.assertEqual(self.index.idf_tree("title:rare"), {"scale": [356, {"term": "Srare"}]})
        self.assertEqual(self.index.idf_tree("lang:en"), self.index.show("lang:en"))
        self.assertEqual(self.index.idf_tree(""), {"nothing": []})
        close = self.index.idf_tree("rare words")["and_maybe"]
        self.assertEqual(close[1]["scale"][1], {"near": [6, "rare", "words"]})

    def test_of_a_term_the_upper_bound_is_its_count(self):
        for term in ("rare", "common", "words", "Spage", "Len", "none"):
            bound = self.index.find({"term": term}, size=0).count.upper
            self.assertEqual(bound, self.index.count({"term": term}))

    def test_matches_are_those_of_the_text_in_any_field(self):
        picks = random.Random(1)
        pieces = ["rare", "common", "words", "page", "one", "AND", "OR", "NOT", "XOR", "-rare", "+page", "wor*"]
        pieces += ["(rare words)", '"common words"', "lang:en", "rare NEAR one", "title:rare"]
        for _ in range(60):
            text = " ".join(picks.choice(pieces) for _ in range(picks.randint(1, 5)))
            try:
                tree = self.index.show(text)
            except Refused:
                with self.assertRaises(Refused):
                    self.index.find_by_idf(text)
                continue

            def anywhere(part):
                ((form, value),) = part.items()
                if form in ("term", "wildcard"):
                    return part if value[0].isupper() else {"or": [part, {form: "S" + value}]}
                if form in ("phrase", "near"):
                    return {"or": [part, {form: [value[0]] + ["S" + word for word in value[1:]]}]}
                return part if form in ("all", "nothing") else {form: [anywhere(each) for each in value]}

            ids = lambda found: sorted(hit.id for hit in found)
            mine, true = self.index.find_by_idf(text, size=1000), self.index.find(anywhere(tree), size=1000)
            self.assertEqual(ids(mine), ids(true), text)

    def test_many_and_deep(self):
        self.assertEqual(len(self.index.find_by_idf(" ".join(f"w{n}" for n in range(400)) + " rare", size=3)), 2)
        self.assertEqual(len(self.index.find_by_idf(" ".join(f"w{n}" for n in range(1000)) + " rare", size=3)), 1)
        deep = "(" * 90 + "rare" + ")" * 90
        self.assertEqual(len(self.index.find_by_idf(deep, size=3)), 2)
        nested = "a -b OR (" * 90 + "rare" + ")" * 90
        for call in (lambda: self.index.find_by_idf(nested), lambda: self.index.show(nested)):
            try:
                call()
            except Error as error:
                self.assertNotIsInstance(error, Fault)
        self.assertEqual(self.index.count("rare"), 1)


if __name__ == "__main__":
    unittest.main()
