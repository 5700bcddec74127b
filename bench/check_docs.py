#!/usr/bin/env python3
"""Compares what the documents say with the repository: check_docs.py [PROGRAM].

Looked at are README.md, docs/, bench/README.md and the README of each crate:
- A link leads to a file that is there, and its anchor to a heading.
- What stands between backticks and looks like a file of the repository is one.
- `crate::name` is a name in that crate, and a definition or a clause that stands in brackets after a crate's function isn't looked at.
- A crate's README is there, and each crate stands in the map of docs/ARCHITECTURE.md.
- The wrong bodies that docs/PROOFS.md counts are there, crate by crate.
- The commands of nfsbench and their options are those that PROGRAM's help tells, where a program is given.
Each sentence at fault is printed, and the status is 1 where there is one.
"""
import os
import re
import subprocess
import sys

TOP = os.path.dirname(os.path.dirname(os.path.abspath(__file__)))
CRATES = sorted(os.listdir(f"{TOP}/crates"))
# What files are called in examples of the documents, and of machines.
ELSEWHERE = re.compile(r"^(/|~|\$|NIGHT/|HISTORY|CAPTURE|FILE|FOLDER|COPY|CLONE|KIT/|out/|crates/nfsbench/out/)|[*<>{}]|\.\.\.|NAME|\bN\b")
FILE = re.compile(r"^[\w./-]+\.(md|rt|antt|py|sh|c|txt|edit|history|certificate|plan|pcap|json|xml)$|^[\w-]+(/[\w.-]+)+/?$")
# Files that programs write, or that are no files.
WRITTEN = {"history", "certificate", "NIGHT.md", "report.json", "junit.xml", "explanation.txt", "out", "Cargo.toml"}


def documents():
    yield "README.md"
    yield "bench/README.md"
    for name in sorted(os.listdir(f"{TOP}/docs")):
        if name.endswith(".md"):
            yield f"docs/{name}"
    for name in CRATES:
        yield f"crates/{name}/README.md"


def anchor(heading):
    """The anchor that a heading gets on the pages of a forge."""
    return re.sub(r"[^\w\- ]", "", heading.strip().lower()).replace(" ", "-")


def prose(text):
    """The text without its blocks of code, lines kept."""
    return re.sub(r"^```.*?^```", lambda block: "\n" * block[0].count("\n"), text, flags=re.M | re.S)


def line_of(text, at):
    return text.count("\n", 0, at) + 1


def links(path, text):
    for found in re.finditer(r"\[[^\]]*\]\(([^)\s]+)\)", prose(text)):
        target, _, fragment = found[1].partition("#")
        if re.match(r"\w+:", target):
            continue
        file = os.path.normpath(os.path.join(TOP, os.path.dirname(path), target)) if target else os.path.join(TOP, path)
        if not os.path.exists(file):
            yield line_of(prose(text), found.start()), f"no file {target}"
        elif fragment:
            with open(file) as opened:
                headings = re.findall(r"^#+ (.*)$", opened.read(), flags=re.M)
            if fragment not in map(anchor, headings):
                yield line_of(prose(text), found.start()), f"no heading #{fragment} in {target or path}"


def all_files():
    """Each file of the repository, from its crate or from the top, with its ending and without."""
    there = set()
    for folder, inside, found in os.walk(TOP):
        inside[:] = [it for it in inside if it not in ("out", ".git", "unlanded")]
        path = os.path.relpath(folder, TOP)
        for name in found + inside:
            whole = os.path.normpath(os.path.join(path, name))
            for part in (whole, whole.removeprefix("crates/"), re.sub(r"^crates/\w+/(data/)?", "", whole), re.sub(r"^bench/(cases/)?", "", whole),
                         whole.removeprefix("docs/")):
                there.update((part, part.rsplit(".", 1)[0]))
            if re.match(r"crates/\w+/(src|specs|proofs)/", whole):
                there.add(name)
    return there


THERE = all_files()


def is_there(path, word):
    """Whether a word is a path from the top, from its document or from a crate, or the name of a file of sources."""
    word = word.rstrip("/")
    folder = f"{TOP}/{os.path.dirname(path)}"
    return word in THERE or any(os.path.exists(f"{folder}/{part}{word}") for part in ("", "src/", "specs/", "proofs/"))


def files(path, text):
    for found in re.finditer(r"`([^`\n]+)`", prose(text)):
        word = found[1]
        if not FILE.match(word) or ELSEWHERE.search(word) or word in WRITTEN or os.path.basename(word) in WRITTEN:
            continue
        if "/" in word and "." not in os.path.basename(word) and word.split("/")[0] not in CRATES + ["crates", "docs", "bench", "src", "specs", "proofs"]:
            continue
        if not is_there(path, word):
            yield line_of(prose(text), found.start()), f"no file {word}"


def names(path, text):
    for found in re.finditer(r"`(\w+)::(?:\w+::)*(\w+)", prose(text)):
        crate, name = found[1], found[2]
        if crate in CRATES and name not in words_of(crate):
            yield line_of(prose(text), found.start()), f"no {name} in {crate}"


KNOWN = {}


def words_of(crate):
    if crate not in KNOWN:
        KNOWN[crate] = set()
        for folder, _, inside in os.walk(f"{TOP}/crates/{crate}"):
            if "/out" in folder:
                continue
            for name in inside:
                KNOWN[crate].add(name.rsplit(".", 1)[0])
                if name.endswith((".rt", ".antt")):
                    with open(f"{folder}/{name}") as opened:
                        KNOWN[crate].update(re.findall(r"\w+", opened.read()))
    return KNOWN[crate]


def crates(path, text):
    if path == "docs/ARCHITECTURE.md":
        for name in CRATES:
            if f"`{name}`" not in text:
                yield 1, f"{name} isn't in the map"


def bodies(path, text):
    if path != "docs/PROOFS.md":
        return
    for found in re.finditer(r"^\| `(\w+)` \| (\d+) \| (\d+) \| \d+ \|", text, flags=re.M):
        for folder, count in (("must-fail", found[2]), ("attacks", found[3])):
            there = f"{TOP}/crates/{found[1]}/{folder}"
            number = sum(name.endswith(".edit") for name in os.listdir(there)) if os.path.isdir(there) else 0
            if number != int(count):
                yield line_of(text, found.start()), f"{found[1]}/{folder} has {number}, not {count}"


def help_of(program, words):
    told = subprocess.run([program, *words, "--help"], stdin=subprocess.DEVNULL, capture_output=True, text=True).stdout
    return told


def options(program):
    """The options of each command, as its help tells them."""
    commands = re.findall(r"^  (\w+) ", help_of(program, []).partition("Commands:")[2], flags=re.M)
    return {name: set(re.findall(r"--[\w-]+", help_of(program, [name]))) for name in commands}


def commands(path, text, known):
    for at, line in enumerate(text.split("\n"), 1):
        line = line.partition("    #")[0]
        for found in re.finditer(r"\bnfsbench (\w+)([^`|#]*)", line):
            name, rest = found[1], found[2]
            if name not in known:
                if re.search(r"(`|^ *(\(|\$ ))" + re.escape("nfsbench " + name), line) and name.islower():
                    yield at, f"no command {name}"
                continue
            for option in re.findall(r"(?<!\S)\[?(--[a-z][\w-]*)", rest):
                if option not in known[name]:
                    yield at, f"{name} has no {option}"


def main():
    known = options(sys.argv[1]) if len(sys.argv) > 1 else None
    wrong = count = 0
    for path in documents():
        if not os.path.exists(f"{TOP}/{path}"):
            print(f"{path}: isn't there")
            wrong += 1
            continue
        with open(f"{TOP}/{path}") as file:
            text = file.read()
        count += 1
        looks = [links, files, names, crates, bodies]
        found = [one for look in looks for one in look(path, text)]
        if known is not None:
            found += commands(path, text, known)
        for line, what in sorted(found):
            print(f"{path}:{line}: {what}")
        wrong += len(found)
    print(f"{count} documents, {wrong} wrong")
    return 1 if wrong else 0


sys.exit(main())
