#!/usr/bin/env python3
"""Tries `nfsbench draw` on random and on hostile histories: try_pictures.py PROGRAM [--count 500] [--seed 1] [--keep FOLDER] [--only PART].

Random ones are those of `try_histories.py`: of both versions and both profiles, with crashes, calls without a reply, closes and several lanes. Each is
drawn with its certificate, with that of another history, or with none, whole, from one event to another and around a call. What has to be printed is
said by docs/COMMANDS.md over the rules of `differ/`: a line with its status, or a page. A page has to be well-formed XML by `xmllint`, HTML without
scripts or anything to load by `look_at_page.py`, and to show the right events, calls, places and marks: the table and each bar, with the words of
`nfsbench show`. Events have to stand in their order, and bars and labels of a row may not overlap.

Hostile ones are made by hand (`pictures/hostile.py`): names of each byte, of markup, of no UTF-8, of marks that turn a text, names of up to 2 MiB,
1,000 lanes, 600 crashes, no events. Shapes are such that their pages are large (`pictures/shapes.py`); their sizes and times are printed, and those of
common histories have to be less than 2 MB and a second of a processor. PART is random, hostile or shapes.

Each difference is printed, and the status is 1 where there is one. With --keep the files of differences are stored in FOLDER.
"""
import argparse
import collections
import os
import pathlib
import re
import resource
import subprocess
import sys
import tempfile
from concurrent.futures import ProcessPoolExecutor

sys.dont_write_bytecode = True

import look_at_page
from differ.changes import make_case
from differ.draws import Dice
from pictures import hostile, looks, shapes
from pictures.wanted import Line, wanted

BATCH, TIMEOUT, WORKERS = 25, 600, 2
MEMORY_FOLDER = "/dev/shm"
LINT_FAULT = re.compile(r"^(\S+?):\d+: ")
# A path is told in its page.
PATHS = ["history", "history", "a<b>&c", "\"quoted' name", "right\u202eleft", "bell\x07", "</title><script>alert(1)</script>", "\u4e2d\u6587"]


def seconds_of_children() -> float:
    used = resource.getrusage(resource.RUSAGE_CHILDREN)
    return used.ru_utime + used.ru_stime


class Found:
    """What was tried, and the differences."""

    def __init__(self):
        self.tally, self.faults, self.largest, self.slowest = collections.Counter(), [], 0, 0.0

    def add(self, other: "Found") -> None:
        self.tally += other.tally
        self.faults += other.faults
        self.largest, self.slowest = max(self.largest, other.largest), max(self.slowest, other.slowest)


class Trial:
    """Pages of a program, in a folder of its own."""

    def __init__(self, program: str, folder: str, keep):
        self.program, self.folder, self.keep, self.found = program, pathlib.Path(folder), keep, Found()
        self.pages = {}

    def run(self, *words):
        """What the program prints, its status, and its seconds of a processor."""
        began = seconds_of_children()
        try:
            ran = subprocess.run([self.program, *words], stdout=subprocess.PIPE, stderr=subprocess.PIPE, timeout=TIMEOUT)
        except subprocess.TimeoutExpired as late:
            return late.stdout or b"", f"none after {TIMEOUT} seconds", seconds_of_children() - began
        return ran.stdout, ran.returncode, seconds_of_children() - began

    def show(self, history: pathlib.Path) -> dict:
        """The lines of `show` by the numbers of their events."""
        lines = self.run("show", str(history))[0].split(b"\n")
        return {int(line.split(b" ", 1)[0]): line for line in lines if line[:1].isdigit()}

    def tell(self, name: str, fault: str, files) -> None:
        self.found.faults.append(f"{name}: {fault}")
        if self.keep:
            stem = pathlib.Path(self.keep) / re.sub(r"\W+", "-", name)
            stem.parent.mkdir(parents=True, exist_ok=True)
            for end, data in zip((".history", ".certificate"), files):
                if data is not None:
                    stem.with_name(stem.name + end).write_bytes(data)

    def draw(self, name: str, path: str, files, words: list, sheet, shown=None) -> bytes:
        """Draws once, and compares. `files` are the bytes of the history and of the certificate or None, which stand at the path."""
        certificate = [path + ".certificate"] if files[1] is not None else []
        printed, status, seconds = self.run("draw", *words, path, *certificate)
        self.found.slowest = max(self.found.slowest, seconds)
        if isinstance(sheet, Line):
            self.found.tally["lines: " + " ".join(sheet.line.split(" ")[:2])] += 1
            if (printed, status) != (sheet.line.encode() + b"\n", sheet.status):
                self.tell(name, f"wanted {sheet.line!r} with status {sheet.status}, got {printed[:200]!r} with status {status}", files)
            return printed
        if status != 0 or not printed.startswith(b"<!DOCTYPE html>\n"):
            self.tell(name, f"wanted a page, got {printed[:200]!r} with status {status}", files)
            return printed
        self.found.largest = max(self.found.largest, len(printed))
        self.note(name, printed, files)
        if sheet is not None:
            for fault in looks.faults_of(printed, sheet, shown)[:3]:
                self.tell(name, fault, files)
            self.tally(sheet)
        return printed

    def note(self, name: str, printed: bytes, files) -> None:
        """Looks at a page as HTML, and stores it for xmllint."""
        for fault in look_at_page.faults_of(printed)[0][:3]:
            self.tell(name, f"as HTML: {fault}", files)
        page = self.folder / f"page{len(self.pages)}.html"
        page.write_bytes(printed)
        self.pages[str(page)] = name, files
        if len(self.pages) >= BATCH:
            self.lint()

    def lint(self) -> None:
        """Each page is XML."""
        if not self.pages:
            return
        ran = subprocess.run(["xmllint", "--noout", "--nonet", *self.pages], stdout=subprocess.DEVNULL, stderr=subprocess.PIPE, timeout=TIMEOUT)
        said = ran.stderr.decode("utf-8", "replace").splitlines()
        for page, (name, files) in self.pages.items():
            for line in [line for line in said if line.startswith(f"{page}:")][:1]:
                self.tell(name, f"as XML: {line.removeprefix(page)}", files)
            os.unlink(page)
        if ran.returncode != 0 and not any(LINT_FAULT.match(line) for line in said):
            self.found.faults.append(f"xmllint: {said[:3]}")
        self.found.tally["pages that xmllint reads"] += len(self.pages)
        self.pages = {}

    def tally(self, sheet) -> None:
        tally, calls = self.found.tally, sheet.history.calls
        head = sheet.history.head
        tally["pages of version " + ("2, strict" if head.is_strict else "2, plain" if head.has_start else "1")] += 1
        fault = sheet.caption.rpartition(": ")[2].split(" ")[0] if sheet.text is not None else None
        tally["pages without a certificate" if fault is None else "pages of a yes" if fault == "yes" else f"pages of a no: {fault}"] += 1
        tally["pages with a crash"] += any(sheet.first <= crash <= sheet.last for crash in sheet.crashes)
        tally["pages with a call without a reply"] += any(call.end is None for call in calls)
        tally["pages with a call that a crash took away"] += any(is_lost for _, is_lost in sheet.places().values())
        tally["pages with several lanes"] += len({call.lane for call in calls}) > 1
        tally["pages with no call"] += not sheet.drawn()
        tally["pages with calls left out"] += sheet.left_out() > 0
        tally["pages with two write verifiers"] += sheet.two

    def put(self, path: str, files) -> str:
        """Writes both files, and gives the path of the history."""
        history = self.folder / path
        history.parent.mkdir(parents=True, exist_ok=True)
        history.write_bytes(files[0])
        if files[1] is not None:
            (self.folder / (path + ".certificate")).write_bytes(files[1])
        return str(history)


def near(dice: Dice, most: int) -> int:
    """A number up to some number, now and then one more or far too many."""
    return dice.choice([1, max(1, most), max(1, most - 1), most + 1, 2**63, 2**64 - 1]) if dice.chance(0.15) else dice.randrange(1, most + 2) if most else 1


def wishes(dice: Dice, history: bytes) -> list:
    """None, some events, a call."""
    sheet = wanted("", history, None, {})
    events, calls = (0, 0) if isinstance(sheet, Line) else (sheet.events, len(sheet.history.calls))
    first, last = near(dice, events), near(dice, events)
    if dice.chance(0.8):
        first, last = min(first, last), max(first, last)
    some = dice.choice([{"from": first, "to": last}, {"from": first, "to": last}, {"from": first}, {"to": last}])
    return [{}, some, {"call": near(dice, calls)}]


def words_of(wish: dict) -> list:
    return [word for name, value in wish.items() for word in (f"--{name}", str(value))]


def random_files(dice: Dice, seed: str, number: int):
    """A case's own files, or without the certificate, or with another one."""
    history, certificate = make_case(f"{seed}/{number}")
    kind = dice.weighted({"own": 65, "none": 20, "other": 15})
    return history, None if kind == "none" else make_case(f"{seed}/{number + 1}")[1] if kind == "other" else certificate


def try_random(program: str, seed: str, numbers: range, keep) -> Found:
    place = MEMORY_FOLDER if os.path.isdir(MEMORY_FOLDER) else None
    with tempfile.TemporaryDirectory(dir=place) as folder:
        trial = Trial(program, folder, keep)
        for number in numbers:
            dice = Dice(f"pictures {seed}/{number}")
            files = random_files(dice, seed, number)
            path = trial.put(dice.choice(PATHS), files)
            shown = trial.show(path)
            for wish in wishes(dice, files[0]):
                trial.draw(f"case {number} {' '.join(words_of(wish))}", path, files, words_of(wish), wanted(path, *files, wish), shown)
        trial.lint()
    return trial.found


def all_random(program: str, count: int, seed: str, keep) -> Found:
    found = Found()
    with ProcessPoolExecutor(WORKERS) as pool:
        batches = [pool.submit(try_random, program, seed, range(first, min(first + BATCH, count + 1)), keep) for first in range(1, count + 1, BATCH)]
        for batch in batches:
            found.add(batch.result())
    return found


def try_hostile(program: str, keep) -> Found:
    with tempfile.TemporaryDirectory() as folder:
        trial = Trial(program, folder, keep)
        for story in hostile.all_stories():
            history, certificate = story.files()
            path = trial.put("history", (history, certificate))
            shown = trial.show(path)
            for text in (certificate, None):
                wish = {"call": int(story.options[1])} if story.options else {}
                sheet = wanted(path, history, text, wish)
                line = sheet.line if isinstance(sheet, Line) else None
                if text is not None and line != story.line:
                    trial.tell(story.name, f"{line!r} is wanted by the rules, and {story.line!r} by hand", (history, text))
                page = trial.draw(story.name if text else f"{story.name}, no certificate", path, (history, text), story.options, sheet, shown)
                if text is not None:
                    print(f"  {story.name}: {len(page):,} bytes", flush=True)
        trial.lint()
    return trial.found


def try_shapes(program: str, keep) -> Found:
    """A table of sizes and times, the least of three runs each."""
    with tempfile.TemporaryDirectory() as folder:
        trial = Trial(program, folder, keep)
        print(f"{'bytes':>12} {'seconds':>8} {'MB of file':>11}  shape")
        for shape in [*shapes.common_shapes(), *shapes.hard_shapes()]:
            path, files = trial.put("history", (shape.history, shape.certificate)), (shape.history, shape.certificate)
            page = trial.draw(shape.name, path, files, shape.options, None)
            seconds = min(trial.run("draw", *shape.options, path, path + ".certificate")[2] for _ in range(3))
            is_over = seconds >= shapes.SECONDS or len(page) >= shapes.BYTES
            told = ", over what a page may take" if is_over else ""
            print(f"{len(page):12,} {seconds:8.2f} {len(shape.history) / 1e6:11.1f}  {shape.name}{told}", flush=True)
            if is_over and shape.is_common:
                trial.tell(shape.name, f"{len(page):,} bytes in {seconds:.2f} s", files)
        trial.lint()
    return trial.found


def main() -> int:
    parser = argparse.ArgumentParser(description=__doc__.split("\n", 1)[0])
    parser.add_argument("program")
    parser.add_argument("--count", type=int, default=500)
    parser.add_argument("--seed", default="1")
    parser.add_argument("--keep", metavar="FOLDER")
    parser.add_argument("--only", choices=["random", "hostile", "shapes"])
    words = parser.parse_args()
    program, found = str(pathlib.Path(words.program).resolve()), Found()
    if words.only in (None, "random"):
        found.add(all_random(program, words.count, words.seed, words.keep))
    if words.only in (None, "hostile"):
        print("hostile histories, and the sizes of their pages:")
        found.add(try_hostile(program, words.keep))
    if words.only in (None, "shapes"):
        found.add(try_shapes(program, words.keep))
    print("\n".join(f"{count:8}  {name}" for name, count in sorted(found.tally.items())))
    print("\n".join(found.faults))
    print(f"cases {words.count}, seed {words.seed}, largest page {found.largest:,} bytes, slowest {found.slowest:.2f} s, differences {len(found.faults)}")
    return 1 if found.faults else 0


if __name__ == "__main__":
    sys.exit(main())
