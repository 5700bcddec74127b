#!/usr/bin/env python3
"""Makes the pictures of docs/READING_A_NO.md and the histories of examples/no: make_pictures.py PROGRAM [--check]

Each picture is a page that `PROGRAM draw` prints, seen by chromium, less its legend. With --check nothing is written. It says where a block of the page that
begins with `$ nfsbench` isn't what PROGRAM prints now, where the page lacks a picture or shows one that isn't there, and where a history of examples/no
isn't the one that is made here. The status is 1 where something is wrong.
"""
import os
import pathlib
import re
import subprocess
import sys
import tempfile

from make_impossible import (FILE, FIRST, NOENT, NO_ATTRIBUTES, ROOT, UNSTABLE, History, bytes_read, changed, create, found, found_after_a_removal, lookup,
                             made, read, remove, stale_size, synced_write_lost, torn_read, write, written)
from try_decisions import word

TOP = pathlib.Path(__file__).resolve().parent.parent
PAGE, PICTURES = TOP / "docs/READING_A_NO.md", TOP / "docs/pictures"
# Where the page's commands find files: it has the line `C=examples/no`.
EXAMPLES = "examples/no"
# Of each picture the words of `draw`.
DRAWN = {
    "elements": "--call 3 $C/elements.history $C/elements.certificate",
    "torn_read_asked": "--call 4 $C/torn_read.history",
    "torn_read": "$C/torn_read.history $C/torn_read.certificate",
    "stale_size": "$C/stale_size.history $C/stale_size.certificate",
    "synced_write_lost": "$C/synced_write_lost.history $C/synced_write_lost.certificate",
    "synced_write_cut": "$C/synced_write_lost.history $C/synced_write_cut.certificate",
    "found_after_a_removal": "$C/found_after_a_removal.history $C/found_after_a_removal.certificate",
    "order_of_calls": "$C/overlap.history $C/order_of_calls.certificate",
    "too_early": "$C/overlap.history $C/too_early.certificate",
}
# What of a page isn't shown: its legend, except for the keys and the events of the first picture.
HIDDEN = {"elements": "p:first-of-type"}
# How wide a window may be, and what is left free beside the page and below it.
WIDEST, MARGIN = 1300, 24


class OnLanes(History):
    """A history whose calls say their lanes."""

    def __init__(self):
        super().__init__()
        self.lanes = {}

    def call_on(self, lane, asked):
        number = self.call(asked)
        self.lanes[number] = lane
        self.events[-1] = word(0) + word(lane) + self.events[-1][8:]
        return number

    def reply(self, number, result):
        super().reply(number, result)
        self.events[-1] = word(1) + word(self.lanes[number]) + self.events[-1][8:]

    def exchange_on(self, lane, asked, result):
        number = self.call_on(lane, asked)
        self.reply(number, result)


def elements():
    """A right history with one of each thing that a picture has: two calls of a lane at once, one without a reply, a crash that takes a WRITE away."""
    it = OnLanes()
    it.exchange_on(1, create(ROOT, b"a"), made(FILE))
    writing = it.call_on(1, write(FILE, b"aaaa", UNSTABLE))
    reading = it.call_on(1, read(FILE))
    it.reply(writing, written(4, UNSTABLE, FIRST))
    it.reply(reading, bytes_read(b""))
    it.call_on(2, write(FILE, b"bbbb", UNSTABLE))
    it.crash()
    it.exchange_on(3, lookup(ROOT, b"a"), found(FILE))
    it.exchange_on(3, remove(ROOT, b"a"), changed())
    it.exchange_on(4, lookup(ROOT, b"a"), word(NOENT) + NO_ATTRIBUTES)
    return it


def overlap():
    """The calls of torn_read, of a right server: the READ beside the WRITE gives all of the file from before it."""
    it = OnLanes()
    it.exchange_on(1, create(ROOT, b"a"), made(FILE))
    it.exchange_on(2, write(FILE, b"aaaa"), written(4))
    writing = it.call_on(3, write(FILE, b"bbbb"))
    it.exchange_on(4, read(FILE), bytes_read(b"aaaa"))
    it.reply(writing, written(4))
    return it


def impossible(make):
    """A history of make_impossible.py."""
    return lambda: make()[0]


HISTORIES = {"elements": elements, "overlap": overlap}
HISTORIES.update((it.__name__, impossible(it)) for it in (torn_read, stale_size, synced_write_lost, found_after_a_removal))


def run(words, folder):
    """What a line of the shell prints at the top of the repository, where `nfsbench` is the program in a folder."""
    around = {**os.environ, "C": EXAMPLES, "PATH": f"{folder}:{os.environ['PATH']}"}
    done = subprocess.run(words, shell=True, cwd=TOP, env=around, stdin=subprocess.DEVNULL, stdout=subprocess.PIPE, stderr=subprocess.STDOUT)
    return done.stdout.decode()


def look(page, words):
    browser = ["chromium", "--headless", "--no-sandbox", "--disable-gpu", "--hide-scrollbars", "--blink-settings=preferredColorScheme=1"]
    done = subprocess.run(browser + words + [f"file://{page}"], check=True, stdout=subprocess.PIPE, stderr=subprocess.DEVNULL)
    return done.stdout.decode()


def size_of(page, html, width):
    """How wide what a page has is in a window of some width, and how high: as the browser lays it out."""
    asking = """<script>
const heading = document.createRange();
heading.selectNodeContents(document.querySelector("h1"));
const ends = [heading, ...document.querySelectorAll("svg.strip text, table")].map((it) => it.getBoundingClientRect().right);
document.title = Math.ceil(Math.max(...ends)) + "x" + Math.ceil(document.body.getBoundingClientRect().bottom);
</script></body>"""
    page.write_text(html.replace("</body>", asking))
    told = re.search(r"<title>(\d+)x(\d+)</title>", look(page, [f"--window-size={width},900", "--dump-dom"]))
    return int(told[1]) + MARGIN, int(told[2]) + MARGIN


def make_picture(name, folder):
    html = run(f"nfsbench draw {DRAWN[name]}", folder)
    html = re.sub(r"<meta http-equiv=[^>]*>", "", html)
    html = html.replace("</style>", f"{HIDDEN.get(name, 'p')} {{ display: none; }}\n</style>")
    page = pathlib.Path(folder) / f"{name}.html"
    width = min(size_of(page, html, WIDEST)[0], WIDEST)
    height = size_of(page, html, width)[1]
    page.write_text(html)
    picture = PICTURES / f"{name}.png"
    look(page, [f"--window-size={width},{height}", f"--screenshot={picture}"])
    print(f"{picture.relative_to(TOP)}: {width} by {height}, {picture.stat().st_size} bytes")


def commands_of(text):
    """The commands of the page's blocks, each with the number of its line and what is printed there."""
    for block in re.finditer(r"^```console\n(\$ nfsbench .*?)^```$", text, flags=re.M | re.S):
        line = text.count("\n", 0, block.start(1)) + 1
        for part in re.split(r"^(?=\$ )", block[1], flags=re.M)[1:]:
            words, _, told = part.partition("\n")
            yield line, words[2:], told
            line += part.count("\n")


def faults_of_page(folder):
    text = PAGE.read_text()
    if f"\nC={EXAMPLES}\n" not in text:
        yield f"the page has no line C={EXAMPLES}"
    count = 0
    for at, words, told in commands_of(text):
        count += 1
        printed = run(words, folder)
        if printed != told:
            yield f"line {at}: {words}\nprints\n{printed}and not\n{told}"
    if count == 0:
        yield "the page has no commands"
    shown = set(re.findall(r"\]\(pictures/(\w+)\.png\)", text))
    there = {picture.stem for picture in PICTURES.glob("*.png")}
    for name in sorted(shown.symmetric_difference(DRAWN) | there.symmetric_difference(DRAWN)):
        yield f"{name}.png isn't in all of: the page, docs/pictures, what is drawn here"


def faults(folder):
    for name, make in HISTORIES.items():
        file = TOP / EXAMPLES / f"{name}.history"
        if not file.exists() or file.read_bytes() != make().file():
            yield f"{file.relative_to(TOP)} isn't what is made here"
    yield from faults_of_page(folder)


def main():
    words = [it for it in sys.argv[1:] if it != "--check"]
    if len(words) != 1:
        sys.exit(__doc__)
    with tempfile.TemporaryDirectory() as folder:
        os.symlink(pathlib.Path(words[0]).resolve(), f"{folder}/nfsbench")
        if "--check" in sys.argv:
            wrong = list(faults(folder))
            for fault in wrong:
                print(fault)
            print(f"{len(wrong)} wrong")
            return 1 if wrong else 0
        for name, make in HISTORIES.items():
            (TOP / EXAMPLES / f"{name}.history").write_bytes(make().file())
        PICTURES.mkdir(exist_ok=True)
        for name in DRAWN:
            make_picture(name, folder)
    return 0


if __name__ == "__main__":
    sys.exit(main())
