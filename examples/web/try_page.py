#!/usr/bin/python3
"""Tries the search page in a browser, and with bytes that no browser sends.

/usr/bin/python3 examples/web/try_page.py [--tool SK_TOOL] [--pictures FOLDER [--corpus CORPUS.jsonl --query TEXT]]

Wants Debian's chromium, chromium-driver and python3-selenium, and the built program. The browser runs no script of a
page. With --pictures it leaves three pictures there, the first of them of the corpus and the query that are told."""
import argparse
import json
import os
import random
import re
import socket
import subprocess
import sys
import tempfile
import urllib.parse

from selenium import webdriver
from selenium.webdriver.chrome.service import Service
from selenium.webdriver.common.by import By
from selenium.webdriver.common.keys import Keys
from selenium.webdriver.support.expected_conditions import staleness_of
from selenium.webdriver.support.ui import Select, WebDriverWait

HERE = os.path.dirname(os.path.realpath(__file__))
TOP = os.path.join(HERE, "..", "..")
HOSTILE = "<script>document.title='taken'</script>\"'><img src=x onerror=alert(1)>"
# Values of a field: the first row can be asked for in a text, the others cannot.
SAID = ["north", "a&b=c%20+d#e", 'a"b', "<b>", "(x", "-x", "é", "year:7", "\u202egnirts", "'&amp;"]
UNSAID = [HOSTILE, "new york", "x)", "1..2", "..", "long" * 50]


class Served:
    """The page over a corpus, as a process on a free port."""

    def __init__(self, corpus, tool):
        words = [sys.executable, os.path.join(HERE, "serve.py"), corpus, "--port", "0"]
        words += ["--tool", tool] if tool else []
        self.process = subprocess.Popen(words, stdout=subprocess.PIPE, stderr=subprocess.DEVNULL, text=True)
        said = self.process.stdout.readline()
        assert said.startswith("http://127.0.0.1:"), f"the server said {said!r}"
        self.port = int(re.search(":([0-9]+)/", said)[1])

    def __enter__(self):
        return self

    def __exit__(self, *_):
        self.process.terminate()
        self.process.wait()

    def address(self, **asked):
        return f"http://127.0.0.1:{self.port}/?{urllib.parse.urlencode(asked)}"

    def sent(self, raw):
        """What comes back for these bytes."""
        with socket.create_connection(("127.0.0.1", self.port), 30) as line:
            line.sendall(raw)
            line.shutdown(socket.SHUT_WR)
            told = b""
            while piece := line.recv(65536):
                told += piece
        return told


def browser(width=1100, height=1000, dark=False, phone=False):
    options = webdriver.ChromeOptions()
    for word in ("--headless=new", "--no-sandbox", "--disable-gpu", "--disable-dev-shm-usage", "--hide-scrollbars",
                 f"--window-size={width},{height}"):
        options.add_argument(word)
    if phone:
        sizes = {"width": 360, "height": 670, "pixelRatio": 1.5, "touch": False}
        options.add_experimental_option("mobileEmulation", {"deviceMetrics": sizes})
    if dark:
        options.add_argument("--blink-settings=preferredColorScheme=0")
    options.add_experimental_option("prefs", {"profile.managed_default_content_settings.javascript": 2})
    driver = webdriver.Chrome(service=Service("/usr/bin/chromedriver"), options=options)
    driver.set_page_load_timeout(60)
    return driver


def corpus_of(folder):
    """The letters of examples/, and a document that would like to be a script."""
    path = os.path.join(folder, "letters.jsonl")
    with open(path, "wb") as out:
        examples = os.path.join(HERE, "..")
        words = [sys.executable, os.path.join(examples, "from_mbox.py"), os.path.join(examples, "data", "letters.mbox")]
        subprocess.run(words, stdout=out, check=True)
        out.write(json.dumps({"add": {"body": "hostile"}, "data": f"{HOSTILE}\n{HOSTILE}"}).encode() + b"\n")
        out.write(b"this is no line of JSON\n")
    return path


def shelf_of(folder):
    """Documents whose values are hard to ask for: in each group three of them, each once more than the one before."""
    path = os.path.join(folder, "shelf.jsonl")
    fields = [{"name": "body", "kind": "text"}, {"name": "site", "kind": "word", "slot": 0},
              {"name": "year", "kind": "number", "slot": 1}, {"name": "moment", "kind": "number", "slot": 2}]
    lines = [{"schema": fields, "stem": True}]
    for place, value in enumerate(SAID + UNSAID):
        for count in range(place % 3 + 1):
            values = {"body": f"groups owl{place // 3}", "site": value, "year": 1990 + count, "moment": len(lines)}
            lines.append({"add": values, "data": value})
    lines.append({"add": {"body": "groups"}, "data": "none"})
    with open(path, "w", encoding="utf-8") as out:
        out.writelines(json.dumps(line) + "\n" for line in lines)
    return path


def text(driver, selector):
    return driver.find_element(By.CSS_SELECTOR, selector).text


def titles(driver):
    return [found.text for found in driver.find_elements(By.CSS_SELECTOR, ".hits h2")]


def leave(driver, act, *words):
    """Does what leads to another page, and waits for that."""
    before = driver.find_element(By.TAG_NAME, "html")
    act(*words)
    WebDriverWait(driver, 30).until(staleness_of(before))


def ask(driver, words):
    """Types these words and ends with Enter, as one who has no mouse."""
    field = driver.find_element(By.ID, "q")
    field.clear()
    leave(driver, field.send_keys, words, Keys.ENTER)


def click(driver, selector):
    leave(driver, driver.find_element(By.CSS_SELECTOR, selector).click)


def try_finds(driver, page):
    driver.get(page.address())
    assert "13 documents" in text(driver, "main"), text(driver, "main")
    assert driver.switch_to.active_element.get_attribute("id") == "q", "the box has the focus"

    ask(driver, "budget 2024")
    assert titles(driver) == ["Budget for 2024", "Re: Budget for 2024", "Re: Budget for 2024"], titles(driver)
    assert text(driver, ".counts").startswith("Hits 1 to 3 of exactly 3"), text(driver, ".counts")
    assert re.search("[0-9]+ readings in the index", text(driver, ".steps")), text(driver, ".steps")
    assert driver.find_element(By.ID, "q").get_attribute("value") == "budget 2024"
    assert driver.title == "budget 2024 - letters", driver.title

    Select(driver.find_element(By.NAME, "op")).select_by_value("or")
    ask(driver, "budget the owl salad")
    assert text(driver, ".counts").startswith("Hits 1 to 10 of "), text(driver, ".counts")
    click(driver, "a[rel=next]")
    assert text(driver, ".counts").startswith("Hits 11 to 12 of exactly 12"), text(driver, ".counts")
    assert driver.find_element(By.CSS_SELECTOR, ".hits li").get_attribute("value") == "11"
    click(driver, "a[rel=prev]")
    assert text(driver, ".counts").startswith("Hits 1 to 10 of "), text(driver, ".counts")


def try_orders(driver, page):
    driver.get(page.address(q="pump"))
    Select(driver.find_element(By.NAME, "order")).select_by_value("-date")
    click(driver, "button")
    days = [found.text[-10:] for found in driver.find_elements(By.CSS_SELECTOR, ".hits li p:not(.facts)")]
    assert len(days) > 3 and days == sorted(days, reverse=True), days
    Select(driver.find_element(By.NAME, "one")).select_by_value("thread")
    click(driver, "button")
    assert titles(driver) == ["Budget for 2025", "Re: Pump leaks", "Re: Budget for 2024"], titles(driver)
    assert "more of this thread" in text(driver, ".hits"), text(driver, ".hits")
    assert "order=-date" in driver.current_url and "one=thread" in driver.current_url, driver.current_url
    driver.get(page.address(all="1", order="-date", page="2"))
    assert text(driver, ".counts").startswith("Hits 11 to 13 of exactly 13"), text(driver, ".counts")
    driver.get(page.address(q="pump", page="77"))
    assert text(driver, ".counts").startswith("Nothing on page 77"), text(driver, ".counts")
    driver.get(page.address(q="zebra"))
    assert text(driver, ".counts").startswith("Nothing matches"), text(driver, ".counts")


def facets(driver):
    """By field what stands at the side: each value with its count."""
    told = {}
    for part in driver.find_elements(By.CSS_SELECTOR, ".facets"):
        rows = [[cell.text for cell in row.find_elements(By.CSS_SELECTOR, "li > span")]
                for row in part.find_elements(By.TAG_NAME, "li")]
        told[part.find_element(By.TAG_NAME, "h2").text] = {value: int(count) for value, count in rows}
    return told


def try_facets(driver, page):
    driver.get(page.address(q="budget OR pump", order="-date"))
    threads = {"b1@example.org": 3, "c1@example.org": 2, "f1@example.org": 2, "g1@example.org": 1}
    assert facets(driver) == {"thread": threads}, facets(driver)
    leave(driver, driver.find_element(By.LINK_TEXT, "b1@example.org").send_keys, Keys.ENTER)
    assert driver.find_element(By.ID, "q").get_attribute("value") == "(budget OR pump) thread:b1@example.org"
    assert text(driver, ".counts").startswith("Hits 1 to 3 of exactly 3"), text(driver, ".counts")
    assert "order=-date" in driver.current_url, driver.current_url
    assert facets(driver) == {"thread": {"b1@example.org": 3}}, facets(driver)
    assert not driver.find_elements(By.CSS_SELECTOR, ".facets a"), "what all have narrows nothing"
    driver.get(page.address(all="1"))
    assert len(facets(driver)["thread"]) == 7 and "1 document without" in text(driver, ".facets"), facets(driver)
    click(driver, ".facets a")
    assert driver.find_element(By.ID, "q").get_attribute("value") == "thread:b1@example.org"
    assert text(driver, ".counts").startswith("Hits 1 to 3 of exactly 3"), text(driver, ".counts")
    driver.get(page.address(q="zebra"))
    assert not facets(driver), facets(driver)


def try_values(driver, page):
    """Each value that a text can say has a way to the documents that have it, and to no other."""
    driver.get(page.address(q="group"))
    assert list(facets(driver)) == ["site", "year"], facets(driver)
    assert "Owls" in text(driver, ".help"), "words are stemmed here"
    assert f"{len(SAID + UNSAID) - 8} more values, 1 document without" in text(driver, ".facets")
    shown = {}
    for group in range((len(SAID + UNSAID) + 2) // 3):
        for words in (f"owl{group}", f'"owl{group}', f"owl{group} OR owl{group}", f"-(groups -owl{group}) site:!.."):
            driver.get(page.address(q=words))
            told = facets(driver)["site"]
            ways = {link.text: link.get_attribute("href")
                    for link in driver.find_elements(By.CSS_SELECTOR, ".facets:first-child a")}
            for label, way in ways.items():
                driver.get(way)
                assert set(titles(driver)) == {label} and len(titles(driver)) == told[label], (words, label)
            shown |= {label: label in ways for label in told}
    cut = [value if len(value) <= 60 else value[:59] + "…" for value in SAID + UNSAID]
    cut = [value.replace("\u202e", "\ufffd") for value in cut]
    assert shown == dict(zip(cut, [True] * len(SAID) + [False] * len(UNSAID))), shown


def try_refusals(driver, page):
    for words, mark, kind in (("budget AND", "AND", "MissingOperand"), ("(pump", "(", "UnclosedBracket"),
                              ("é owl)", ")", "StrayBracket"), ("pump date:x..", "date:x..", "BadRange")):
        driver.get(page.address())
        ask(driver, words)
        assert text(driver, ".refused mark") == mark, (words, text(driver, ".refused mark"))
        assert text(driver, ".refused .asked") == words, text(driver, ".refused .asked")
        assert kind in text(driver, ".refused"), text(driver, ".refused")
        assert driver.find_element(By.ID, "q").get_attribute("value") == words


def try_hostile(driver, page):
    for words in (HOSTILE, f"AND {HOSTILE}", "hostile", "\u202egnirts", "</textarea></title>"):
        for name in ("q", "order", "one", "page", "op"):
            driver.get(page.address(**{"q": "hostile", name: words}))
            assert "letters" in driver.title, driver.title
            assert not driver.find_elements(By.CSS_SELECTOR, "script, img"), words
    driver.get(page.address(q="hostile"))
    assert titles(driver) == [HOSTILE], titles(driver)
    driver.get(page.address(q=f"AND {HOSTILE}"))
    assert HOSTILE in text(driver, ".asked"), text(driver, ".asked")


def try_bytes(page):
    """Requests of any bytes: each gets an answer or none, and the page goes on."""
    picks = random.Random(1)
    end = b" HTTP/1.1\r\n\r\n"
    fronts = [b"", b"GET / HTTP/1.1\r\n", b"GET /?q=", b"GET /?page=", b"POST /" + end, b"HEAD /?q=owl" + end,
              b"GET /?q=%00%ff%fe%ed%a0%80&order=%2Bdate" + end, b"GET /" + b"a" * 70_000 + end,
              b"GET /?" + b"q=(&" * 10_000 + end, b"GET /?q=" + b"%28" * 20_000 + end,
              b"GET /?q=" + b"a+" * 30_000 + end, b"GET / HTTP/1.1\r\nHost: elsewhere.example\r\n\r\n"]
    for turn in range(400):
        raw = picks.choice(fronts) + picks.randbytes(picks.randrange(200)) + picks.choice([b"", end, b"\r\n\r\n"])
        try:
            told = page.sent(fronts[turn] if turn < len(fronts) else raw)
        except ConnectionError:
            continue
        assert not re.match(rb"HTTP/1.0 (500|503) ", told), (turn, raw, told[:300])
    told = page.sent(b"GET /?q=owl HTTP/1.0\r\n\r\n")
    assert told.startswith(b"HTTP/1.0 200 ") and b"Owl box" in told, told[:300]
    assert page.sent(b"GET / HTTP/1.0\r\nHost: elsewhere.example\r\n\r\n").startswith(b"HTTP/1.0 421 ")
    assert page.sent(b"GET /nothing HTTP/1.0\r\n\r\n").startswith(b"HTTP/1.0 404 ")


def try_narrow(page):
    """On a narrow screen nothing is cut off at the side."""
    driver = browser(phone=True)
    try:
        for asked in ({"q": "a" * 300}, {"q": "budget", "one": "thread"}, {"q": "(" + "a" * 300}, {"all": "1"}):
            driver.get(page.address(**asked))
            assert driver.find_element(By.TAG_NAME, "html").rect["width"] == 360
            wide = [found.tag_name for found in driver.find_elements(By.CSS_SELECTOR, "body *")
                    if found.is_displayed() and found.rect["x"] + found.rect["width"] > 361]
            assert not wide, wide
    finally:
        driver.quit()


def take(folder, name, address, **looks):
    """A picture of a page."""
    driver = browser(**looks)
    try:
        driver.get(address)
        driver.save_screenshot(os.path.join(folder, name))
    finally:
        driver.quit()


def main():
    parser = argparse.ArgumentParser()
    parser.add_argument("--tool")
    parser.add_argument("--pictures")
    parser.add_argument("--corpus")
    parser.add_argument("--query", default="")
    words = parser.parse_args()
    with tempfile.TemporaryDirectory() as folder, Served(corpus_of(folder), words.tool) as page:
        driver = browser()
        try:
            for tried in (try_finds, try_orders, try_facets, try_refusals, try_hostile):
                tried(driver, page)
                print(f"{tried.__name__}: ok")
            with Served(shelf_of(folder), words.tool) as shelf:
                try_values(driver, shelf)
                print("try_values: ok")
        finally:
            driver.quit()
        try_narrow(page)
        print("try_narrow: ok")
        try_bytes(page)
        print("try_bytes: ok")
        if words.pictures:
            budget = page.address(q="budget", order="-date", one="thread")
            take(words.pictures, "narrow.png", budget, dark=True, phone=True)
            take(words.pictures, "refused.png", page.address(q="(owl OR pump) AND -date:2024..x"), height=628)
    if words.pictures and words.corpus:
        with Served(words.corpus, words.tool) as page:
            take(words.pictures, "finds.png", page.address(q=words.query), height=853)


if __name__ == "__main__":
    main()
