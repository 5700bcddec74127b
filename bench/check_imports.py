#!/usr/bin/env python3
"""Looks up what imports name, in a second, before any proof: check_imports.py [COPY]

Each `use Rattle.CRATE.specs.M.{..}`, `use Rattle.CRATE.proofs.M.{..}` and `ghost use` of a crate of the repository (of COPY, where one is named): its
file has to be there and to have each name that is asked of it. Of specs.declared and specs.contracts, and of proofs/ that follow an item, the item has
to be in src/. A path by a door (`pub use low;` in src/, `pub use Rattle.low.specs as low_specs` in specs/Lib.antt, the same of proofs/) is followed to
the crate that it leads to, over any number of doors. The kit's libraries are left out. Also whether the crate's line in crates.txt lists that crate, whether the crate's files name each library
that the line lists, whether Lib.antt names each file, whether each module of src/ has its `mod`, and whether the text of each edit stands once in its
file; and whether a crate's root has an item named as a module of it, or a file of proofs/ named as a type that the root hands on, which a check refuses once
its libraries are there. Prints what isn't so, and exits with 1 then.
"""
import os
import re
import sys

from doors import by_doors

top = os.path.abspath(sys.argv[1] if len(sys.argv) > 1 else os.path.join(os.path.dirname(os.path.abspath(__file__)), ".."))
wrong = []
deps, cache = {}, {}
for line in open(f"{top}/crates.txt", encoding="utf-8"):
    match = re.match(r"(\w+)(?: [\w=+]+)*:(.*)$", line)
    if match and not line.startswith("#"):
        deps[match[1]] = set(match[2].split())


def read(path):
    if path not in cache:
        cache[path] = open(path, encoding="utf-8").read() if os.path.isfile(path) else None
    return cache[path]


def module(crate, words):
    """The text of the longest module path of `words` in src/, and what is left of them."""
    base = f"{top}/crates/{crate}/src"
    root = next((name for name in ("lib.rt", "main.rt") if os.path.isfile(f"{base}/{name}")), "lib.rt")
    text, at = read(f"{base}/{root}"), 0
    while at < len(words):
        path = f"{base}/{'/'.join(words[:at + 1])}.rt"
        if not os.path.isfile(path):
            break
        text, at = read(path), at + 1
    return text or "", words[at:]


def has(text, name):
    return re.search(rf"(?<![\w-]){re.escape(name)}(?![\w-])", text) is not None


def names(group):
    found, depth, word = [], 0, ""
    for letter in group + ",":
        if letter == "," and depth == 0:
            word = word.strip()
            if word:
                found.append(word.split(" as ")[0].strip())
            word = ""
        else:
            depth += {"{": 1, "}": -1}.get(letter, 0)
            word += letter
    return found


def look(where, crate, kind, words, group):
    crate, words = by_doors(crate, kind, words, top)
    folder = f"{top}/crates/{crate}"
    if kind == "specs" and words and words[0] in ("declared", "contracts"):
        text, rest = module(crate, words[1:])
        if not rest or rest[0] in ("TheConstants", "TheLaws", "TheLinks"):
            rest = [group_name for group_name in names(group or "")] if rest and rest[0] == "TheConstants" else []
        for word in rest[:1]:
            if not re.search(rf"\b(struct|enum|trait|const|type|fn|union|static)\s+{re.escape(word)}\b", text) and not has(text, word):
                wrong.append(f"{where}: no {word} in the source of {crate} {'.'.join(words)}")
        return
    if not words:
        for name in names(group or ""):
            if not os.path.isfile(f"{folder}/{kind}/{name}.antt"):
                wrong.append(f"{where}: {crate} has no {kind}/{name}.antt")
        return
    path = f"{folder}/{kind}/{words[0]}.antt"
    text = read(path)
    if text is None:
        if kind == "proofs":
            # the path of an item: module .. item, then Goals, Given or the like
            if os.path.isdir(f"{folder}/{kind}/{'/'.join(words[:-1])}"):
                return
            source, rest = module(crate, words)
            item = rest[0] if rest else ""
            plain = re.sub(r"^\+", "", item)
            if has(source, plain) or any(has(source, plain[:cut]) and has(source, plain[cut:]) for cut in range(3, len(plain) - 2)):
                return
            if re.fullmatch(r"[A-Za-z]+", plain) and any(plain.startswith(word) for word in re.findall(r"\bfor (\w+)", source)):
                return
            wrong.append(f"{where}: {crate} has no {kind} {'.'.join(words)}")
            return
        wrong.append(f"{where}: {crate} has no {kind}/{words[0]}.antt")
        return
    inner = words[1:]
    for word in inner:
        if not has(text, word):
            wrong.append(f"{where}: {crate}/{kind}/{words[0]}.antt has no {word}")
    for name in names(group or ""):
        plain = name.replace("◌", "")
        own = "\n".join(line for line in text.split("\n") if not line.startswith("use "))
        if not (has(own, name) or name in own or (plain and plain in own)):
            wrong.append(f"{where}: {crate}/{kind}/{words[0]}.antt has no {name}")


count = 0
for folder, folders, files in os.walk(f"{top}/crates"):
    folders[:] = [name for name in folders if name not in ("out", "data")]
    for file in files:
        if not file.endswith((".rt", ".antt")):
            continue
        path = os.path.join(folder, file)
        where = os.path.relpath(path, f"{top}/crates")
        own = where.split(os.sep)[0]
        text = read(path)
        for match in re.finditer(r"\buse Rattle\.(\w+)\.(specs|proofs)((?:\.[\w+\-]+)*)(?:\.\{([^}]*)\})?", text):
            crate = match[1]
            if crate not in deps:
                if os.path.isdir(f"/opt/rattle/rattle/{crate}") or os.path.isfile(f"/opt/rattle/rlibs/{crate}.rlib"):
                    continue
                wrong.append(f"{where}: no crate {crate}")
                continue
            if crate != own and crate not in deps[own]:
                wrong.append(f"{where}: crates.txt doesn't list {crate} for {own}")
            count += 1
            look(where, crate, match[2], [word for word in match[3].split(".") if word], match[4])
        if file.endswith(".rt"):
            for match in re.finditer(r"\b(\w+)::(specs|proofs)::(\w+)(?:::(\w+))?", text):
                crate = own if match[1] == "crate" else match[1]
                if crate in deps:
                    count += 1
                    look(where, crate, match[2], [match[3]], match[4])
            for match in re.finditer(r"(?m)^\s*(?:pub )?use (\w+)::", text):
                if match[1] in deps and match[1] not in deps[own] and not os.path.isfile(f"{top}/crates/{own}/src/{match[1]}.rt"):
                    wrong.append(f"{where}: use of {match[1]}, which crates.txt doesn't list for {own}")


def elements(text):
    parts, depth, start = [], 0, 0
    for at, letter in enumerate(text + ","):
        if letter in "{}":
            depth += 1 if letter == "{" else -1
        elif letter == "," and depth == 0:
            parts.append((text + ",")[start:at].strip())
            start = at + 1
    return [part for part in parts if part]


def flat(body):
    """The paths that a `use` names."""
    body = body.strip()
    head, brace, rest = body.partition("{")
    if not brace:
        return [body.split(" as ")[0].strip()]
    return [head.strip() + path for element in elements(rest.rsplit("}", 1)[0]) for path in flat(element)]


def shown(crate):
    """What is public at the root of a crate."""
    if ("shown", crate) not in cache:
        text = read(f"{top}/crates/{crate}/src/lib.rt") or read(f"{top}/crates/{crate}/src/main.rt") or ""
        found = set(re.findall(r"(?m)^pub (?:unsafe )?(?:const )?(?:struct|enum|fn|const|trait|type|static|mod) (\w+)", text))
        for body in re.findall(r"(?m)^pub use ([^;]+);", text):
            found |= {path.split("::")[-1] for path in flat(re.sub(r"\s+", " ", body))}
        cache["shown", crate] = found
    return cache["shown", crate]


for folder, folders, files in os.walk(f"{top}/crates"):
    folders[:] = [name for name in folders if name not in ("out", "data")]
    for file in files:
        if not file.endswith(".rt"):
            continue
        path = os.path.join(folder, file)
        where = os.path.relpath(path, f"{top}/crates")
        own = where.split(os.sep)[0]
        for body in re.findall(r"(?m)^\s*(?:pub(?:\(\w+\))? )?use ([^;]+);", read(path)):
            for one in flat(re.sub(r"\s+", " ", body)):
                words = [word.strip() for word in one.split("::")]
                if words[0] in deps[own] and words[0] in deps:
                    count += 1
                    while len(words) > 2 and words[1] in deps and words[1] in shown(words[0]):
                        words = words[1:]
                    if len(words) > 1 and words[1] not in shown(words[0]):
                        wrong.append(f"{where}: {words[0]} shows no {words[1]}")
                elif words[0] == "crate" and len(words) > 1:
                    count += 1
                    text, rest = module(own, words[1:])
                    if rest and not has(text, rest[0]):
                        wrong.append(f"{where}: nothing in {own} is {one}")
for crate in deps:
    base = f"{top}/crates/{crate}"
    texts = [read(os.path.join(at, name)) for kind in ("src", "specs", "proofs") for at, _, names in os.walk(f"{base}/{kind}") for name in names]
    for word in sorted(deps[crate]):
        if not any(re.search(rf"(?<!::)\b{word}::|\bRattle\.{word}\b|\buse {word}\b", text) for text in texts):
            wrong.append(f"crates.txt lists {word} for {crate}, which names it nowhere")
    for kind in ("specs", "proofs"):
        if not os.path.isdir(f"{base}/{kind}"):
            continue
        listed = set(re.findall(r"(?m)^(?:pub )?mod (\w+)", read(f"{base}/{kind}/Lib.antt") or ""))
        there = {name[:-5] for name in os.listdir(f"{base}/{kind}") if name.endswith(".antt")} - {"Lib"}
        for name in sorted(there ^ listed):
            wrong.append(f"{crate}/{kind}/Lib.antt: {name} is {'not named' if name in there else 'not there'}")
    for folder, folders, files in os.walk(f"{base}/src"):
        for file in files:
            if file.endswith(".rt") and file not in ("lib.rt", "main.rt"):
                parent = folder if os.path.isdir(folder) else ""
                inner = os.path.relpath(folder, f"{base}/src")
                owner = read(f"{base}/src/{inner}.rt") if inner != "." else (read(f"{base}/src/lib.rt") or read(f"{base}/src/main.rt"))
                if not owner or not re.search(rf"(?m)^\s*(?:pub(?:\(\w+\))? )?mod {file[:-3]};", owner):
                    wrong.append(f"{crate}/src: no mod line for {os.path.join(inner, file)}")
    # a folder of proofs/ follows a module or an item
    if os.path.isdir(f"{base}/proofs"):
        for folder, folders, files in os.walk(f"{base}/proofs"):
            for name in folders:
                words = os.path.relpath(os.path.join(folder, name), f"{base}/proofs").split(os.sep)
                if len(words) == 1 and not words[0].startswith("+") and not os.path.isfile(f"{base}/proofs/{words[0]}.antt"):
                    source, rest = module(crate, words)
                    if rest and not has(source, rest[0]) and not any(rest[0].startswith(word) for word in re.findall(r"\bfor (\w+)", source)):
                        wrong.append(f"{crate}/proofs/{words[0]}: no such module or item at the root")
    # what rattle makes modules of
    root = read(f"{base}/src/lib.rt") or read(f"{base}/src/main.rt")
    items = set(re.findall(r"(?m)^pub (?:const )?(?:fn|struct|enum|const|static|type|trait) (\w+)", root))
    for use in re.findall(r"(?ms)^pub use (.*?);$", root):
        items.update(part.split(" as ")[-1].split("::")[-1].strip() for part in use[use.find("{") + 1:].rstrip("}").split(",") if part.strip())
    wrong += [f"{crate}/src: the root has a module and an item {name}" for name in items & set(re.findall(r"(?m)^(?:pub )?mod (\w+);", root))]
    wrong += [f"{crate}/proofs/{name}.antt: the root hands on a type of that name" for name in items if os.path.isfile(f"{base}/proofs/{name}.antt")]
edits = 0
for folder, folders, files in os.walk(f"{top}/crates"):
    folders[:] = [name for name in folders if name != "out"]
    for file in files:
        if not file.endswith(".edit"):
            continue
        where = os.path.relpath(os.path.join(folder, file), f"{top}/crates")
        base, texts, current = f"{top}/crates/{where.split(os.sep)[0]}", {}, None
        edits += 1
        old = None
        for line in open(os.path.join(folder, file), encoding="utf-8").read().split("\n"):
            if line.startswith("file: "):
                current = line[6:].strip()
                text = read(f"{base}/{current}")
                if text is None:
                    wrong.append(f"{where}: no file {current}")
                    break
                texts.setdefault(current, text)
            elif line.startswith("old: "):
                old = line[5:]
                if texts[current].count(old) != 1:
                    wrong.append(f"{where}: its text stands {texts[current].count(old)} times in {current}: {old}")
            elif line.startswith("new: ") and old is not None:
                texts[current] = texts[current].replace(old, line[5:], 1)
for line in sorted(set(wrong)):
    print(line)
print(f"{count} imports of the checkout's own crates and {edits} edits, {len(set(wrong))} wrong")
sys.exit(1 if wrong else 0)
