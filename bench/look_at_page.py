#!/usr/bin/env python3
"""Looks at a page of `nfsbench draw`, apart from the code that made it: look_at_page.py PAGE [PICTURE.png [--dark]]

It says whether the page is UTF-8 without controls, whether its tags are closed in order, whether it holds a script, an event handler or
anything to load, and how many calls it draws and lists. A call that reaches into several strips is counted once, where it begins. With
PICTURE.png it has chromium, where that is installed, make a picture of it, by --dark one for a dark screen. The status is 1 where something
is wrong.
"""
import html.parser
import os
import re
import shutil
import subprocess
import sys

EMPTY = {"meta", "rect", "path", "line", "use"}
LOADING = {"script", "link", "img", "iframe", "object", "embed", "image", "foreignobject", "base", "form", "a"}
ATTRIBUTES = {
    "lang", "charset", "name", "content", "http-equiv", "class", "xmlns", "width", "height", "viewbox", "id", "patternunits",
    "patterntransform", "x", "y", "d", "x1", "y1", "x2", "y2",
}
CALLS = ("plain", "asked", "fault", "explains")
# What a bar tells where its call begins.
BEGINNING = re.compile(r"\d+ call \d+ lane ")
# Controls, and characters that can't be seen.
UNSEEN = re.compile("[\x00-\x08\x0b-\x1f\x7f-\x9f\xad\u034f\u061c\u115f\u1160\u17b4\u17b5\u180b-\u180f\u200b-\u200f\u2028-\u202e\u2060-\u206f\u3164"
                    "\ufe00-\ufe0f\ufeff\uffa0\ufff0-\ufffb\U0001bca0-\U0001bca3\U0001d173-\U0001d17a\U000e0000-\U000e0fff]")


class Look(html.parser.HTMLParser):
    """Notes what a page is made of."""

    def __init__(self):
        super().__init__(convert_charrefs=True)
        self.open = []
        self.faults = []
        self.bars = 0
        self.rows = 0
        self.is_title_next = False
        self.style = ""

    def handle_starttag(self, tag, attributes):
        if tag in LOADING:
            self.faults.append(f"a tag {tag}")
        for name, value in attributes:
            # The names of the lanes stand once more in each strip.
            if name not in ATTRIBUTES and (tag, name, value) != ("use", "href", "#names"):
                self.faults.append(f"an attribute {name} of {tag}")
            if "url(" in (value or ""):
                self.faults.append(f"something to load: {value}")
        classes = dict(attributes).get("class", "")
        self.is_title_next = tag == "title" and self.is_title_next
        if tag == "g" and classes in CALLS:
            self.is_title_next = True
        if tag == "tr" and classes in CALLS:
            self.rows += 1
        if tag not in EMPTY:
            self.open.append(tag)

    def handle_startendtag(self, tag, attributes):
        self.handle_starttag(tag, attributes)
        if tag not in EMPTY:
            self.open.pop()

    def handle_data(self, data):
        if self.open[-1:] == ["style"]:
            self.style += data
        if self.is_title_next and self.open[-1:] == ["title"]:
            self.bars += BEGINNING.match(data) is not None
            self.is_title_next = False

    def handle_endtag(self, tag):
        if not self.open or self.open[-1] != tag:
            self.faults.append(f"an end of {tag} inside {self.open[-3:]}")
        else:
            self.open.pop()


def faults_of(page: bytes) -> tuple:
    """What is wrong with a page, how many calls it draws and how many it lists."""
    try:
        text = page.decode("utf-8")
    except UnicodeDecodeError as error:
        return [f"no UTF-8: {error}"], 0, 0
    look = Look()
    look.feed(text)
    look.close()
    faults = look.faults + [f"{tag} is never closed" for tag in look.open]
    if UNSEEN.search(text):
        faults.append("a control, or a character that can't be seen")
    for found in re.findall(r"url\(([^)]*)\)|@import", look.style):
        if found != "#hatch":
            faults.append(f"something to load: {found}")
    if look.bars != look.rows:
        faults.append(f"{look.bars} bars and {look.rows} rows")
    return faults, look.bars, look.rows


def main() -> int:
    with open(sys.argv[1], "rb") as file:
        page = file.read()
    faults, bars, rows = faults_of(page)
    print(f"{len(page)} bytes, {bars} calls drawn, {rows} listed")
    for fault in faults:
        print(f"wrong: {fault}")
    browser = shutil.which("chromium")
    if len(sys.argv) > 2 and browser:
        words = [browser, "--headless", "--no-sandbox", "--disable-gpu", "--hide-scrollbars", "--window-size=1400,900", f"--screenshot={sys.argv[2]}"]
        words.append(f"--blink-settings=preferredColorScheme={0 if '--dark' in sys.argv[3:] else 1}")
        subprocess.run(words + [f"file://{os.path.abspath(sys.argv[1])}"], check=True, stderr=subprocess.DEVNULL)
    return 1 if faults else 0


if __name__ == "__main__":
    sys.exit(main())
