#!/usr/bin/env python3
"""Pages of plans by `fzcheck-mzn --html`, with a script in the place of MiniZinc.

    tests/pages.py PROGRAM

What the compiler makes of five models is kept in tests/pages, with a good and a bad plan of each.
The structure of a page is looked at, and what is in its tables and charts. Where there is Chromium,
it opens the pages, at the widths of a screen and of paper, and prints them."""
import os
import re
import shutil
import subprocess
import sys
import tempfile
from html.parser import HTMLParser

from plan import COMMAND, KEPT, MINIZINC
from expecting import end, expect
from solver import ROOT, Place

FOLDER = os.path.join(ROOT, "tests", "pages")
EMPTY = ("meta",)  # elements without an end
BROWSERS = ("chromium", "chromium-browser", "google-chrome")
SIZES = ("1280,1600", "688,1600")  # of a screen, and of paper between its margins
MOST_SHEETS = 2
# Of each model the tables of its good plan, by rows, and what clashes in the bad one.
TABLES = {
    "roster": [[["", "Mon", "Tue", "Wed"], ["Ada", "Early", "Early", "Early"],
                ["Ben", "Night", "Night", "Off"], ["Cleo", "Late", "Late", "Night"]]],
    "shop": [[["", "Saw", "Glue"], ["Table", "0", "3"], ["Chair", "3", "5"], ["Shelf", "5", "9"]]],
    "boxes": [[["", "Red", "Green", "Blue"], ["x", "2", "0", "2"], ["y", "0", "0", "3"]]],
    "term": [
        [["", "Algebra", "Botany"], ["slot", "Mon", "Tue"]],
        [["", "Mon", "Tue"], ["held", "{Algebra}", "{Botany}"]],
        [["", "1", "2"], ["Mon", "true", "false"], ["Tue", "false", "false"]],
        [["", "1", "2"], ["Mon", "false", "false"], ["Tue", "true", "true"]]],
    "kit": [[["total", "7"]], [["", "Axe", "Handle", "Rope"], ["count", "1", "1", "5"]]],
}
HEADLINES = {
    "roster": 'Rejected: "cover" and "rest" fail',
    "shop": 'Rejected: "order", "one at a time" and "crew" fail',
    "boxes": 'Rejected: "apart" fails',
    "term": 'Rejected: "booked", "students" and "held" fail',
    "kit": 'Rejected: "total" and "load" fail',
}
# The elements that clash, with the numbers of what they are in.
CLASHING = {
    "roster": {"roster[Ada,Mon] = Late": "1", "roster[Ben,Mon] = Night": "1",
               "roster[Cleo,Mon] = Late": "1", "roster[Ada,Wed] = Late": "2",
               "roster[Ben,Wed] = Late": "2 3", "roster[Cleo,Wed] = Night": "2",
               "roster[Ben,Tue] = Night": "3"},
    "shop": {"start[Shelf,Saw] = 5": "1", "start[Shelf,Glue] = 8": "1 3 4",
             "start[Table,Saw] = 0": "2", "start[Chair,Saw] = 2": "2",
             "start[Chair,Glue] = 5": "3 4"},
    "boxes": {"x[Green] = 0": "1", "y[Green] = 0": "1", "x[Blue] = 1": "1", "y[Blue] = 3": "1"},
    "term": {"booked[Botany,Tue,1] = true": "1", "booked[Botany,Tue,2] = true": "2",
             "slot[Algebra] = Mon": "3", "slot[Botany] = Mon": "1 2 3 .. 4 5",
             "held[Mon] = {Algebra}": "4", "held[Tue] = {Botany}": "5"},
    "kit": {"total = 9": "1", "count[Axe] = 1": "1 2", "count[Handle] = 1": "1 2",
            "count[Rope] = 6": "1 2"},
}
# The bars of the charts of the bad plan, in order; those that clash have a star.
BARS = {
    "shop": ["Table: 0 to 3*", "Chair: 2 to 4*", "Shelf: 5 to 9*", "Table: 3 to 5",
             "Chair: 5 to 9*", "Shelf: 8 to 9*", "Table: 3 to 5", "Chair: 5 to 9*",
             "Shelf: 8 to 9*"],
    "boxes": ["Red: 2 to 5", "Green: 0 to 2*", "Blue: 1 to 5*"],
}


class Page(HTMLParser):
    """What is in a page, and whether its elements end in the order in which they begin."""

    def __init__(self, text):
        super().__init__()
        self.open, self.faults, self.loaded = [], [], []
        self.header, self.ids, self.links = "", [], []
        self.texts = {"title": [], "h1": [], "h2": [], "li": []}
        self.tables, self.clashing, self.bars = [], {}, []
        self.feed(text)
        self.close()
        self.faults += self.open

    def handle_starttag(self, tag, attrs):
        attributes = dict(attrs)
        self.loaded += [value for name, value in attrs
                        if name in ("src", "data") or name == "href" and value[0] != "#"]
        self.loaded += [tag] * (tag in ("script", "link", "iframe", "object", "img"))
        self.ids += [value for key, value in attrs if key == "id"]
        if tag not in EMPTY:
            self.open.append(tag)
        kinds = attributes.get("class", "").split()
        if tag == "header":
            self.header = attributes["class"]
        elif tag == "table":
            self.tables.append([])
        elif tag == "tr":
            self.tables[-1].append([])
        elif tag in ("td", "th"):
            self.tables[-1][-1].append("")
            if "clash" in kinds:
                element, *failures = attributes["title"].split("\n")
                self.clashing[element] = [line.partition(":")[0] for line in failures]
        elif tag == "a":
            self.links.append(attributes["href"][1:])
        elif tag == "rect" and "bar" in kinds:
            self.bars.append("*" * ("clash" in kinds))
        elif tag in self.texts and "svg" not in self.open:
            self.texts[tag].append("")

    def handle_endtag(self, tag):
        if not self.open or self.open.pop() != tag:
            self.faults.append(f"</{tag}>")

    def handle_data(self, data):
        inner = self.open[-1] if self.open else ""
        if "sup" in self.open:
            return
        if "svg" in self.open:
            if inner == "title" and self.bars and self.open[-2] == "rect":
                first = data.partition("\n")[0]
                if not re.match(r"\d+ to ", first):
                    self.bars[-1] = first + self.bars[-1]
        elif inner in ("td", "th"):
            self.tables[-1][-1][-1] += data
        elif self.open and "li" in self.open:
            self.texts["li"][-1] += data
        elif inner in self.texts:
            self.texts[inner][-1] += data


def written(place, name, plan):
    """The text of the page of a plan, and its path."""
    kept = os.path.join(FOLDER, name)
    place.script("bin/minizinc", MINIZINC.replace(KEPT, kept))
    for file in ("model.mzn", "data.dzn", plan):
        shutil.copy(os.path.join(kept, file), place.path(file))
    path = place.path(f"{name} {plan}.html")
    got = place.run(COMMAND, "model.mzn", "data.dzn", "-o", plan, "--html", path)
    expect(f"{name}, {plan}: {got}", int(plan == "bad"), got[0])
    with open(path, encoding="utf-8") as file:
        return file.read(), path


def whole(name, page):
    """What holds of each page."""
    expect(f"{name}: ends of elements", [], page.faults)
    expect(f"{name}: nothing is loaded", [], page.loaded)
    expect(f"{name}: ids are there once", len(set(page.ids)), len(page.ids))
    expect(f"{name}: footnotes are there", set(), set(page.links) - set(page.ids))


def good(place, name):
    text, path = written(place, name, "good")
    page = Page(text)
    whole(name, page)
    expect(f"{name}: verdict", ("accepted", ["Accepted: every constraint holds"]),
           (page.header, page.texts["h1"]))
    expect(f"{name}: tables", TABLES[name], page.tables)
    expect(f"{name}: nothing clashes", {}, page.clashing)
    expect(f"{name}: paper", True, "@media print" in text)
    return path


def bad(place, name):
    text, path = written(place, name, "bad")
    page = Page(text)
    whole(name, page)
    expect(f"{name}: rejected", ("rejected", [HEADLINES[name]]), (page.header, page.texts["h1"]))
    expect(f"{name}: verdict first", True, text.index("<h1>") < text.index("<table"))
    wanted = {element: numbers.replace(".. ", "").split()
              for element, numbers in CLASHING[name].items()}
    expect(f"{name}: clashing", wanted, page.clashing)
    expect(f"{name}: bars", BARS.get(name, []), page.bars)
    numbers = sorted({number for found in wanted.values() for number in found})
    expect(f"{name}: all that fails is listed", [f"f{number}" for number in numbers], page.ids)
    return path


def opened(browser, folder, path):
    """Chromium takes pictures of the page, and prints it."""
    words = [browser, "--headless", "--no-sandbox", "--disable-gpu",
             f"--user-data-dir={folder}/own"]
    name = os.path.basename(path)
    for size in SIZES:
        picture = os.path.join(folder, "picture.png")
        sized = f"--window-size={size}", f"--screenshot={picture}"
        subprocess.run([*words, *sized, f"file://{path}"], stdout=subprocess.DEVNULL,
                       stderr=subprocess.DEVNULL)
        with open(picture, "rb") as file:
            expect(f"{name}: a picture", b"\x89PNG", file.read(4))
        os.remove(picture)
    sheets = os.path.join(folder, "page.pdf")
    subprocess.run([*words, f"--print-to-pdf={sheets}", f"file://{path}"],
                   stdout=subprocess.DEVNULL, stderr=subprocess.DEVNULL)
    with open(sheets, "rb") as file:
        count = len(re.findall(rb"/Type\s*/Page\b", file.read()))
    expect(f"{name}: sheets of paper", True, 1 <= count <= MOST_SHEETS)


def main():
    program = os.path.abspath(sys.argv[1])
    with tempfile.TemporaryDirectory() as folder:
        place = Place(os.path.join(folder, "a place"), program)
        place.variables["XDG_CACHE_HOME"] = place.path("cache")
        paths = [show(place, name) for name in TABLES for show in (good, bad)]
        browser = next(filter(None, map(shutil.which, BROWSERS)), None)
        if browser:
            for path in paths:
                opened(browser, folder, path)
        else:
            print("no Chromium is on the path: the pages aren't opened")
    return end()


if __name__ == "__main__":
    sys.exit(main())
