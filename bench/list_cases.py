#!/usr/bin/env python3
"""Lists the cases of the crates that only test: list_cases.py [COPY] [--names]

Of each test its crate and module, of each table of rows (a const or static list in src/) how many it has, of each stored run how many lines it reads and
prints. With --names instead how often each name of a fault, an end or a doubt (a variant of an enum of crates/ whose name ends so) is wanted, in tests and
in what stored runs print. Run it on two copies and compare, so that none is lost where tests are rewritten.
"""
import collections
import os
import re
import sys

ENDS = ("Fault", "End", "Stop", "Stops", "Refusal", "Refused", "Doubt", "Why", "Undecided", "Trouble", "TroubleKind", "Cause", "Verdict", "Error")


def read(path: str) -> str:
    with open(path, encoding="utf-8", errors="replace") as file:
        return file.read()


def sources(folder: str) -> list:
    return sorted(os.path.join(at, name) for at, _, names in os.walk(folder) for name in names if name.endswith(".rt"))


def items_of(text: str, start: int) -> int:
    """How many items the list has that begins at `[`."""
    depth, count, is_open, at = 0, 0, False, start
    text = re.sub(r"//[^\n]*", lambda it: " " * len(it[0]), text)
    while at < len(text):
        letter = text[at]
        if letter == '"':
            at = re.compile(r'"(?:[^"\\]|\\.)*"', re.S).match(text, at).end() - 1
            is_open = True
        elif letter in "[({":
            is_open, depth = is_open or depth > 0, depth + 1
        elif letter in "])}":
            depth -= 1
            if depth == 0:
                return count + is_open
        elif letter == "," and depth == 1:
            count, is_open = count + 1, False
        elif not letter.isspace():
            is_open = True
        at += 1
    return count


def tests_of(text: str) -> list:
    return re.findall(r"#\[test\]\s*(?:#\[[^\]]*\]\s*)*(?:pub )?fn (\w+)", text)


def tables_of(text: str) -> list:
    """The tables of a text with their rows; lists of bytes are no tables."""
    return [(it[1], items_of(text, it.end() - 1)) for it in re.finditer(r"(?:const|static) (\w+): &?(?:'static )?\[[^=]*= &?\[(?!\s*[0-9])", text)]


def crates_of_tests(top: str) -> list:
    lines = read(f"{top}/crates.txt").split("# Tests:")[1]
    return re.findall(r"(?m)^(\w+)(?: [\w=+]+)*:", lines)


def names_of_faults(top: str) -> set:
    found = set()
    for crate in os.listdir(f"{top}/crates"):
        for path in sources(f"{top}/crates/{crate}/src"):
            for name, body in re.findall(r"(?ms)^pub enum (\w+)[^{]*\{(.*?)^\}", read(path)):
                if name.endswith(ENDS):
                    found |= {(name, it) for it in re.findall(r"(?m)^    ([A-Z]\w*)", body)}
    return found


def main() -> int:
    words = [it for it in sys.argv[1:] if not it.startswith("--")]
    top = os.path.abspath(words[0] if words else os.path.join(os.path.dirname(os.path.abspath(__file__)), ".."))
    tests, rows, lines, wanted = 0, 0, 0, collections.Counter()
    variants = names_of_faults(top)
    for crate in crates_of_tests(top):
        base = f"{top}/crates/{crate}"
        for path in sources(f"{base}/src"):
            text, where = read(path), os.path.relpath(path, f"{base}/src")[:-3].replace(os.sep, "::")
            for name, variant in variants:
                wanted[f"{name}::{variant}"] += len(re.findall(rf"\b{name}::{variant}\b", text))
            for test in tests_of(text):
                tests += 1
                if "--names" not in sys.argv:
                    print(f"{crate} {where}::{test}")
            for table, count in tables_of(text):
                rows += count
                if "--names" not in sys.argv:
                    print(f"{crate} {where}::{table} {count} rows")
        for name in ("stdin", "stdout"):
            if os.path.isfile(f"{base}/{name}"):
                text = read(f"{base}/{name}")
                lines += text.count("\n") * (name == "stdin")
                if "--names" not in sys.argv:
                    print(f"{crate} {name} {text.count(chr(10))} lines")
                for it in re.findall(r"\b(?:refused|no|undecided): ([A-Z]\w+)", text):
                    wanted[f"printed {it}"] += 1
    if "--names" in sys.argv:
        for name, count in sorted(wanted.items()):
            if count:
                print(f"{count:5} {name}")
    print(f"{tests} tests, {rows} rows of tables, {lines} lines of stored runs, {sum(wanted.values())} wants of a fault by its name, {len(+wanted)} names")
    return 0


if __name__ == "__main__":
    sys.exit(main())
