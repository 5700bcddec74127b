#!/usr/bin/env python3
"""Merges whole crates of a copy of the repository by a table: merge_crates.py COPY [TABLE]

A row of TABLE (bench/merges.txt if none is named) is `INTO: CRATE=FOLDER ..`, or `INTO new TEXT: ..` where INTO isn't there yet and TEXT is the first line
of its src/lib.rt. The modules of CRATE go to src/FOLDER/ of INTO, its lib.rt to src/FOLDER.rt, and INTO hands on what CRATE did. Files of specs/ and the
lemmas of proofs/ stay flat; one whose name INTO has already gets CRATE's name before it. What names a module, a definition or a lemma is written anew in
all crates, wrong bodies among them, and so are crates.txt and doors; README pages are put together. In docs/ and README pages the crate's name becomes
INTO's; where both have a row of one table numbers are added, and what the rows say is joined. The other lines that named a crate that is gone are listed, to
be read, and those of bench/. Look with check_imports.py and check_docs.py then.
"""
import os
import re
import shutil
import sys
from dataclasses import dataclass, field

TEXTS = (".rt", ".antt", ".edit")
ITEMS = re.compile(r"(?m)^pub (?:const )?(?:fn|struct|enum|const|static|type|trait) (\w+)")


def read(path: str) -> str:
    with open(path, encoding="utf-8") as file:
        return file.read()


def write(path: str, text: str) -> None:
    os.makedirs(os.path.dirname(path), exist_ok=True)
    with open(path, "w", encoding="utf-8") as file:
        file.write(text)


def files_below(folder: str) -> list:
    return sorted(os.path.join(at, name) for at, _, names in os.walk(folder) for name in names)


def move(path: str, to: str) -> None:
    if os.path.exists(to):
        sys.exit(f"{to} is there already")
    os.makedirs(os.path.dirname(to), exist_ok=True)
    shutil.move(path, to)


@dataclass
class Merge:
    """A crate that goes into another one, and the new names of its files of specs/ and proofs/ that the other has already."""
    crate: str
    into: str
    folder: str
    specs: dict = field(default_factory=dict)
    proofs: dict = field(default_factory=dict)
    # What it hands on whole.
    doors: set = field(default_factory=set)

    def flat_name(self, kind: str, name: str) -> str:
        return (self.specs if kind == "specs" else self.proofs).get(name, name)


def uses_of(text: str) -> list:
    """The statements of a lib.rt that hand something on."""
    return re.findall(r"(?ms)^pub use .*?;$", text)


def names_of(use: str) -> list:
    """The names that `pub use a::b;` or `pub use a::{b, c as d};` gives, with whether it is a whole crate or module."""
    path = use[len("pub use "):-1].strip()
    if path.endswith("}"):
        inside = path[path.index("{") + 1:-1]
        return [part.split(" as ")[-1].split("::")[-1].strip() for part in inside.split(",") if part.strip()]
    return [path.split(" as ")[-1].split("::")[-1].strip()]


class House:
    def __init__(self, top: str):
        self.top = top
        self.lines = read(f"{top}/crates.txt").split("\n")

    def path(self, crate: str, *parts: str) -> str:
        return os.path.join(self.top, "crates", crate, *parts)

    def row(self, crate: str) -> int:
        return next(at for at, line in enumerate(self.lines) if re.match(rf"{crate}\b[^:]*:", line))

    def crates(self) -> list:
        return [match[1] for line in self.lines if (match := re.match(r"(\w+)[^:]*:", line)) and not line.startswith("#")]

    def libraries(self, crate: str) -> list:
        return self.lines[self.row(crate)].split(":", 1)[1].split()

    def set_libraries(self, crate: str, libraries: list) -> None:
        at = self.row(crate)
        self.lines[at] = (self.lines[at].split(":", 1)[0] + ": " + " ".join(dict.fromkeys(libraries))).rstrip()

    # A crate that isn't there yet

    def begin(self, crate: str, text: str, at: int) -> None:
        write(self.path(crate, "src", "lib.rt"), f"//! {text}\n#![tactic(auto)]\n")
        write(self.path(crate, "README.md"), f"# `{crate}`\n\n{text}\n")
        self.lines.insert(at, f"{crate}:")

    # The files of a merge

    def renamed(self, merge: Merge, kind: str) -> dict:
        """The flat files of specs/ or proofs/ that INTO has too, with another name."""
        ours, theirs = self.path(merge.into, kind), self.path(merge.crate, kind)
        modules = {os.path.splitext(os.path.relpath(path, self.path(merge.into, "src")))[0].lower() for path in files_below(self.path(merge.into, "src"))}
        found = {}
        for name in sorted(os.listdir(theirs)) if os.path.isdir(theirs) else []:
            stem, ending = os.path.splitext(name)
            if ending != ".antt" or stem == "Lib":
                continue
            if os.path.exists(os.path.join(ours, name)) or (kind == "proofs" and (stem.lower() in modules or stem.lower() == merge.folder)):
                found[stem] = "".join(word.capitalize() for word in merge.crate.split("_")) + stem
        return found

    def move_sources(self, merge: Merge) -> None:
        base, to = self.path(merge.crate, "src"), self.path(merge.into, "src")
        for path in files_below(base):
            name = os.path.relpath(path, base)
            move(path, f"{to}/{merge.folder}.rt" if name == "lib.rt" else f"{to}/{merge.folder}/{name}")

    def move_flat(self, merge: Merge, kind: str, new_names: dict) -> None:
        base, to = self.path(merge.crate, kind), self.path(merge.into, kind)
        for path in files_below(base):
            name = os.path.relpath(path, base)
            stem, ending = os.path.splitext(name)
            if name == "Lib.antt":
                continue
            if os.sep not in name and ending == ".antt":
                move(path, f"{to}/{new_names.get(stem, stem)}.antt")
            else:
                move(path, f"{to}/{merge.folder}/{name}")
        lib = os.path.join(base, "Lib.antt")
        if os.path.isfile(lib):
            lines = [re.sub(r"^pub mod (\w+)$", lambda it: f"pub mod {new_names.get(it[1], it[1])}", line) for line in read(lib).split("\n") if line]
            ours = os.path.join(to, "Lib.antt")
            there = [line for line in read(ours).split("\n") if line] if os.path.isfile(ours) else []
            write(ours, "\n".join(there + [line for line in lines if line not in there]) + "\n")

    def move_edits(self, merge: Merge, kind: str) -> None:
        base, to = self.path(merge.crate, kind), self.path(merge.into, kind)
        for path in files_below(base):
            name = os.path.relpath(path, base)
            text = re.sub(r"(?m)^file: src/(.*)$", lambda it: f"file: src/{merge.folder}.rt" if it[1] == "lib.rt" else f"file: src/{merge.folder}/{it[1]}", read(path))
            write(path, text)
            move(path, f"{to}/{name}" if not os.path.exists(f"{to}/{name}") else f"{to}/{merge.folder}_{name}")

    def join_readme(self, merge: Merge) -> None:
        ours, theirs = self.path(merge.into, "README.md"), self.path(merge.crate, "README.md")
        text = re.sub(r"(?m)^#", "##", read(theirs))
        text = re.sub(rf"\A## `{merge.crate}`", f"## `{merge.folder}`", text)
        text = re.sub(r"(?<![\w/])src/([\w/]+)\.rt", lambda it: f"src/{merge.folder}.rt" if it[1] == "lib" else f"src/{merge.folder}/{it[1]}.rt", text)
        write(ours, read(ours).rstrip("\n") + "\n\n" + text)
        os.remove(theirs)

    # The root of INTO

    def hand_on(self, merge: Merge) -> None:
        """INTO's lib.rt gets the module and hands on what CRATE handed on; CRATE's own root keeps its modules and what they give."""
        root, part = self.path(merge.into, "src", "lib.rt"), self.path(merge.into, "src", f"{merge.folder}.rt")
        text, below = read(root), read(part)
        below = re.sub(r"(?m)^#!\[tactic\(auto\)\]\n\n?", "\n", below)
        doors = [use for use in uses_of(below) if re.fullmatch(r"pub use \w+;", use)]
        given = [name for use in uses_of(below) if use not in doors for name in names_of(use)] + ITEMS.findall(below)
        given += re.findall(r"(?m)^pub mod (\w+);", below)
        for use in doors:
            below = below.replace(use + "\n", "")
        for use in re.findall(rf"(?ms)^pub use crate::{merge.folder}::.*?;\n", text):
            given += [name for name in names_of(use.rstrip("\n")) if name not in given]
            text = text.replace(use, "")
        if merge.folder in given:
            sys.exit(f"{merge.crate} hands on {merge.folder}: a folder needs another name than an item beside it")
        taken = set(ITEMS.findall(text)) | {name for use in uses_of(text) for name in names_of(use)}
        for name in given:
            if name in taken:
                print(f"{merge.into} and {merge.crate} both give {name}: by the module", file=sys.stderr)
        given = sorted((name for name in given if name not in taken), key=lambda name: (name.upper() == name and 1 or name[0].isupper() and 2 or 3, name))
        write(part, below)
        text = re.sub(r"(?m)\A((?:.*\n)*?)(?=(?:pub )?mod |pub use |\Z)", lambda it: it[1] + f"mod {merge.folder};\n", text, count=1)
        uses = [f"pub use {merge.folder}::{given[0]};" if len(given) == 1 else f"pub use {merge.folder}::{{{', '.join(given)}}};"] if given else []
        uses += [use for use in doors if use not in text and use != f"pub use {merge.into};"]
        write(root, tidy(text.rstrip("\n") + "\n" + "\n".join(uses) + "\n"))

    # What names it

    def rewrite(self, merge: Merge) -> None:
        folder = self.path(merge.into, "src", merge.folder)
        for crate in self.crates():
            for path in files_below(self.path(crate)):
                if not path.endswith(TEXTS) or f"{os.sep}data{os.sep}" in path:
                    continue
                text = new = read(path)
                is_edit = crate == merge.into and re.search(rf"(?m)^file: src/{merge.folder}[./]", text)
                if path.startswith(folder + os.sep) or path == f"{folder}.rt" or is_edit:
                    new = re.sub(r"\bcrate::(specs|proofs)::(\w+)", lambda it: f"crate::{it[1]}::{merge.flat_name(it[1], it[2])}", new)
                    new = re.sub(r"\bcrate::(?!specs::|proofs::)", f"crate::{merge.folder}::", new)
                    new = re.sub(rf"(?<![\w:]){merge.into}::(?=\w|\{{)", "crate::", new)
                new = self.new_paths(merge, crate, new)
                if new != text:
                    write(path, new)

    def new_paths(self, merge: Merge, crate: str, text: str) -> str:
        old, into, folder = merge.crate, merge.into, merge.folder
        here = "crate" if crate == into else into

        def flat(kind: str, head: str):
            def put(it) -> str:
                word = it[1]
                if word in ("declared", "contracts"):
                    return f"{head}{word}.{folder}"
                if kind == "proofs" and not word[0].isupper() and not word.endswith("_laws"):
                    return f"{head}{folder}.{word}"
                return head + merge.flat_name(kind, word)
            return put

        for kind, alias in (("specs", "specs"), ("proofs", "laws")):
            text = re.sub(rf"\bRattle\.{old}\.{kind}\.([\w+]+)", flat(kind, f"Rattle.{into}.{kind}."), text)
            text = re.sub(rf"\b{old}_{alias}\.([\w+]+)", flat(kind, f"{into}_{alias}."), text)
            text = text.replace(f"Rattle.{into}.{kind}.{into}_{alias}.", f"Rattle.{into}.{kind}.")
            # doors
            text = re.sub(rf"(?m)^pub use Rattle\.{old}\.{kind} as {old}_{alias}$", f"pub use Rattle.{into}.{kind} as {into}_{alias}", text)
            text = re.sub(rf"(?m)^pub use Rattle\.{into}\.{kind}\.{old}_{alias}$", f"pub use Rattle.{into}.{kind} as {into}_{alias}", text)
            text = re.sub(rf"(?m)^(pub use Rattle\.\w+\.{kind})\.{old}_{alias}$", rf"\1.{into}_{alias}", text)
            if crate == into:
                text = re.sub(rf"(?m)^pub use Rattle\.{into}\.{kind} as {into}_{alias}\n", "", text)

        def rust(it) -> str:
            ahead, after = it[1], it[2]
            if ahead.endswith(f"{into}::"):
                return ahead + after
            if after == into:
                return ahead + into
            if crate == into:
                return after if after in merge.doors else f"crate::{folder}::{after}"
            return f"{ahead}{into}::{after}"

        text = re.sub(rf"(?<![\w:]){old}::(specs|proofs)::(\w+)", lambda it: f"{here}::{it[1]}::{merge.flat_name(it[1], it[2])}", text)
        text = re.sub(rf"(?<![\w:])((?:\w+::)*){old}::(\w+|\{{)", rust, text)
        return re.sub(rf"(?m)^pub use {old};\n", "" if crate == into else f"pub use {into};\n", text)

    def run(self, merge: Merge) -> None:
        merge.specs, merge.proofs = self.renamed(merge, "specs"), self.renamed(merge, "proofs")
        merge.doors = set(re.findall(r"(?m)^pub use (\w+);$", read(self.path(merge.crate, "src", "lib.rt"))))
        others = [crate for crate in self.crates() if crate != merge.crate]
        if re.search(rf"(?m)^(?:pub )?mod {merge.folder};", read(self.path(merge.into, "src", "lib.rt"))) or merge.folder in others:
            sys.exit(f"{merge.into} has a module {merge.folder}, or it is a crate")
        self.move_sources(merge)
        self.move_flat(merge, "specs", merge.specs)
        self.move_flat(merge, "proofs", merge.proofs)
        self.move_edits(merge, "must-fail")
        self.move_edits(merge, "attacks")
        self.join_readme(merge)
        left = [path for path in files_below(self.path(merge.crate)) if not path.endswith("Lib.antt")]
        if left:
            sys.exit(f"left in {merge.crate}: {left}")
        shutil.rmtree(self.path(merge.crate))
        # crates.txt
        theirs = self.libraries(merge.crate)
        del self.lines[self.row(merge.crate)]
        for crate in self.crates():
            libraries = [merge.into if it == merge.crate else it for it in self.libraries(crate)]
            if crate == merge.into:
                libraries = [it for it in libraries + theirs if it != merge.into]
            self.set_libraries(crate, libraries)
        self.rewrite(merge)
        self.hand_on(merge)

    # Pages

    def pages(self) -> list:
        docs = [path for path in files_below(f"{self.top}/docs") if path.endswith(".md")]
        return docs + [f"{self.top}/README.md", f"{self.top}/CONTRIBUTING.md"] + [self.path(crate, "README.md") for crate in self.crates()]

    def rename_in_pages(self, merges: list) -> None:
        for path in self.pages():
            text = read(path)
            new = "\n".join(with_rows_joined(text.split("\n"), merges))
            for merge in merges:
                new = re.sub(rf"crates/{merge.crate}/", f"crates/{merge.into}/", new)
                new = re.sub(rf"`{merge.crate}`(?!\*\*)", f"`{merge.into}`", new)
                new = re.sub(rf"`{merge.crate}`\*\*", f"`{merge.into}`, {merge.folder}**", new)
                new = re.sub(rf"`{merge.crate}::", f"`{merge.into}::", new)
                new = re.sub(rf"`{merge.into}`, `{merge.into}`", f"`{merge.into}`", new)
            if new != text:
                write(path, new)
                for number, (line, before) in enumerate(zip(new.split("\n"), text.split("\n")), 1):
                    if line != before and not line.startswith("|") and len(new.split("\n")) == len(text.split("\n")):
                        print(f"{os.path.relpath(path, self.top)}:{number}: {line.strip()[:150]}")

    def sort_lines(self) -> None:
        """A crate stands after those that it uses."""
        again = True
        while again:
            again = False
            for crate in self.crates():
                last = max([self.row(it) for it in self.libraries(crate) if it in self.crates()] + [-1])
                at = self.row(crate)
                if last > at:
                    self.lines.insert(last, self.lines.pop(at))
                    again = True

    def end(self) -> None:
        self.sort_lines()
        write(f"{self.top}/crates.txt", "\n".join(self.lines))


def with_rows_joined(lines: list, merges: list) -> list:
    """The lines of a page, in whose tables the row of a crate that is gone has become part of the other's."""
    lines = list(lines)
    for merge in merges:
        for at, line in enumerate(lines):
            if not line.startswith(f"| `{merge.crate}` |"):
                continue
            first = at
            while first > 0 and lines[first - 1].startswith("|"):
                first -= 1
            last = at
            while last + 1 < len(lines) and lines[last + 1].startswith("|"):
                last += 1
            other = next((it for it in range(first, last + 1) if lines[it].startswith(f"| `{merge.into}` |")), None)
            cells = [cell.strip() for cell in line.strip("|").split("|")]
            if other is None or cells[1:] and "Files" in lines[first]:
                lines[at] = line.replace(f"| `{merge.crate}` |", f"| `{merge.into}` |", 1)
                continue
            theirs = [cell.strip() for cell in lines[other].strip("|").split("|")]
            joined = [theirs[0]] + [joined_cell(one, two, merge.folder) for one, two in zip(theirs[1:], cells[1:])]
            lines[other] = "| " + " | ".join(joined) + " |"
            lines[at] = None
        lines = [line for line in lines if line is not None]
    return lines


def joined_cell(ours: str, theirs: str, folder: str) -> str:
    numbers = re.fullmatch(r"(\d+)(.*)", ours), re.fullmatch(r"(\d+)(.*)", theirs)
    if all(numbers):
        return str(int(numbers[0][1]) + int(numbers[1][1])) + (numbers[0][2] or numbers[1][2])
    if ours == theirs:
        return ours
    if len(theirs) < 30:
        return f"{ours}; {folder} {theirs}"
    return f"{ours}; `{folder}/`: {theirs}"


def tidy(text: str) -> str:
    """A lib.rt whose modules and uses are each sorted, none twice."""
    head = re.match(r"\A(?:(?!(?:pub )?mod |pub use |#\[cfg).*\n)*", text)[0]
    rest = text[len(head):]
    if re.search(r"(?m)^(?!(?:pub )?mod \w+;$|pub use |    |\}|#\[cfg|$)", rest) or "#[cfg" in rest:
        return text
    modules = sorted(set(re.findall(r"(?m)^(?:pub )?mod \w+;$", rest)), key=lambda line: line.split("mod ")[1])
    uses = sorted({wrapped(use) for use in uses_of(rest)}, key=lambda use: re.sub(r"[{}\s]", "", use[8:]).lower())
    return head.rstrip("\n") + "\n\n" + "\n".join(modules) + "\n\n" + "\n".join(uses) + "\n"


def wrapped(use: str) -> str:
    """A `pub use` as it is laid out: in one line of at most 100 letters, else with its names below."""
    line = re.sub(r"\s+", " ", use).replace("{ ", "{").replace(", }", "}").replace(" }", "}")
    if len(line) <= 100:
        return line
    ahead, inside = line[:line.index("{") + 1], line[line.index("{") + 1:-2]
    lines, row = [], "   "
    for name in inside.split(", "):
        if len(row) + len(name) + 2 > 99:
            lines.append(row)
            row = "   "
        row += f" {name},"
    return "\n".join([ahead, *lines, row, "};"])


def merges_of(text: str) -> list:
    found = []
    for line in text.split("\n"):
        match = re.match(r"(\w+)(?: new (.*))?: (.*)$", line)
        if match and not line.startswith("#"):
            found.append((match[1], match[2], [pair.split("=") for pair in match[3].split()]))
    return found


def main() -> int:
    if len(sys.argv) not in (2, 3):
        print(__doc__, file=sys.stderr)
        return 2
    top = os.path.abspath(sys.argv[1])
    table = sys.argv[2] if len(sys.argv) == 3 else os.path.join(os.path.dirname(os.path.abspath(__file__)), "merges.txt")
    house, done = House(top), []
    for into, text, parts in merges_of(read(table)):
        if text:
            house.begin(into, text, house.row(parts[0][0]))
        for crate, folder in parts:
            done.append(Merge(crate, into, folder))
            house.run(done[-1])
    house.end()
    house.rename_in_pages([merge for merge in done])
    word = re.compile(r"(?<![\w/])(" + "|".join(merge.crate for merge in done) + r")(?![\w])") if done else None
    for path in files_below(f"{top}/bench"):
        if path.endswith((".md", ".py", ".sh")) and word:
            for number, line in enumerate(read(path).split("\n"), 1):
                if word.search(line):
                    print(f"{os.path.relpath(path, top)}:{number}: {', '.join(sorted(set(word.findall(line))))}")
    return 0


if __name__ == "__main__":
    sys.exit(main())
