#!/usr/bin/env python3
"""Counts the lines of each crate: code without tests, tests, specs, proofs, and the wrong bodies in the gate and outside it.

Without an option it prints the table of docs/PROVING.md. With --check it compares the two, and exits with 1 where they differ; with
--write it puts the table there. A module is a test where its `mod` line is behind `#[cfg(test)]`.
"""
import os
import re
import sys

top = os.path.dirname(os.path.dirname(os.path.abspath(__file__)))
PAGE = os.path.join(top, "docs", "PROVING.md")
HEAD = "| Crate | code | tests | specs | proofs | must-fail | attacks |\n|---|---|---|---|---|---|---|\n"


def files(folder, ending):
    return sorted(os.path.join(at, name) for at, _, names in os.walk(folder) for name in names if name.endswith(ending))


def lines(paths):
    return sum(open(path, encoding="utf-8").read().count("\n") for path in paths)


def test_modules(root):
    return re.findall(r"#\[cfg\(test\)\]\n(?:pub )?mod (\w+);", open(root, encoding="utf-8").read())


def row_of(crate):
    base = os.path.join(top, "crates", crate)
    source = os.path.join(base, "src")
    root = next(path for path in (f"{source}/lib.rt", f"{source}/main.rt") if os.path.isfile(path))
    tests = tuple(place for name in test_modules(root) for place in (f"{source}/{name}.rt", f"{source}/{name}/"))
    code = files(source, ".rt")
    tried = [path for path in code if path.startswith(tests)] if tests else []
    edits = [len(files(os.path.join(base, kind), ".edit")) for kind in ("must-fail", "attacks")]
    return [lines(code) - lines(tried), lines(tried), lines(files(f"{base}/specs", ".antt")), lines(files(f"{base}/proofs", ".antt")), *edits]


def table():
    crates = re.findall(r"(?m)^(\w+)(?: .*?)?:", open(os.path.join(top, "crates.txt"), encoding="utf-8").read())
    rows = [(crate, row_of(crate)) for crate in crates]
    rows.append(("all", [sum(numbers) for numbers in zip(*(row for _, row in rows))]))
    return HEAD + "".join("| %s | %s |\n" % (crate, " | ".join(map(str, row))) for crate, row in rows)


def main():
    words = sys.argv[1:]
    if words not in ([], ["--check"], ["--write"]):
        print(__doc__, file=sys.stderr)
        return 2
    now = table()
    if not words:
        print(now, end="")
        return 0
    page = open(PAGE, encoding="utf-8").read()
    start = page.index(HEAD)
    end = re.compile(r"(?m)^(?!\|)|\Z").search(page, start).start()
    if words == ["--write"]:
        with open(PAGE, "w", encoding="utf-8") as file:
            file.write(page[:start] + now + page[end:])
        return 0
    old, new = page[start:end].split("\n"), now.split("\n")
    for line in sorted(set(old) ^ set(new)):
        print(("there: " if line in old else "is: ") + line)
    return 0 if old == new else 1


if __name__ == "__main__":
    sys.exit(main())
