#!/usr/bin/env python3
"""Says of each file of specs/ whom it serves, and compares this with the file's first line.

A definition is believed if a clause of one of the calls in ROOTS names it, or another definition that is believed: a yes, a no, a
book's certificate and a decision rest on these. A file with one begins with `-- Believed.` and every other one with `-- For the prover`:
then `.` if only private functions and proofs name what is in it, or `, and for callers.` if a clause of another public call does. If all
that isn't believed comes last in a file, a line `-- ----` ahead of it names the prover or private functions. Lib.antt and the types of
`specs.declared`, which are those of the code, are left out.

Exits with 1 where a file says otherwise. With --write it puts the lines right; with --list it lists what isn't believed in files that
are.
"""
import os
import re
import sys

from doors import by_doors

# The crates with calls whose clauses are believed, and the names of these calls; "" for all public calls and traits of the crate.
ROOTS = {
    # a yes and a no
    "witness_check": "check_files check check_calls a_plan_has_one_verdict two_files_have_one_verdict",
    "judging_commands": "judge judge_files judge_read judge_read_as_json report_read_as_json run_bundle verdict_report",
    "json_reports": "",
    "first_look": "look",
    # a book's certificate
    "recorder": "new_from new begin begin_read place place_spelled flush_giving flush answer answer_spelled close_lane crash history"
    " into_history certificate device",
    "journal_server": "",
    # a history without a witness
    "decision_core": "",
    "decision_steps": "",
    "decision_law": "",
    "decision_walk": "new deeds bound",
    "decide": "",
    "deciding_command": "decide_file decide_history",
    # a reason
    "fault_reasons": "explain",
    "explaining_command": "explain_read explain_history",
    # what stood at first
    "night_start": "finish",
}

BELIEVED, PROVER, CALLERS = "-- Believed.", "-- For the prover.", "-- For the prover, and for callers."

top = os.path.dirname(os.path.dirname(os.path.abspath(__file__)))
NAME = r"[^\s(){}\[\];,.:]+"
IMPORT = re.compile(r"^\s*(?:ghost )?use Rattle\.(\w+)\.specs\.([\w.]+?)(?:\.\{([^}]*)\}| as (\w+))?;?\s*$", re.M)


def read(path):
    with open(path, encoding="utf-8") as file:
        return file.read()


def uses(text):
    """The imports of a file: of each name the definition that it stands for, and of each name of a module or a type what is in it."""
    names, spaces = {}, {}
    for crate, path, given, alias in IMPORT.findall(text):
        crate, parts = by_doors(crate, "specs", path.split("."))
        if not parts or parts[0] == "declared":
            continue
        if given:
            for name in re.split(r",\s*", given.strip()):
                name, _, other = name.partition(" as ")
                names[other or name] = (crate, parts[0], parts[1] if len(parts) > 1 else name)
        else:
            spaces[alias or parts[-1]] = (crate, parts[0], parts[1] if len(parts) > 1 else None)
    return names, spaces


def named(text, names, spaces):
    """The definitions that a text names."""
    found = set()
    for prefix, name in re.findall(rf"(?:({NAME})\.)?({NAME})", text):
        if prefix in spaces:
            crate, module, owner = spaces[prefix]
            found.add((crate, module, owner or name))
        elif prefix in names:
            found.add(names[prefix])
        elif name in names:
            found.add(names[name])
    for name, what in names.items():
        signs = [sign for sign in name.split("◌") if sign]
        if "◌" in name and (all(f" {sign} " in text for sign in signs) or (name == "◌>>=◌" and "←" in text)):
            found.add(what)
    return found


class Spec:
    """A file of specs/: its definitions, each with the line at which it begins, comments ahead of it included, and what it names."""

    def __init__(self, crate, module, path):
        self.path, self.lines = path, read(path).splitlines()
        self.starts, texts, owners = {}, {}, {}
        current, ahead, indents = None, None, [0]
        for number, line in enumerate(self.lines):
            bare = line.strip()
            if bare.startswith("--"):
                ahead = number if ahead is None and not bare.startswith("-- ----") else ahead
                continue
            if not bare or re.match(r"(use|infix[lr]?|joined) ", line):
                ahead = None
                continue
            indent = len(line) - len(line.lstrip())
            while indent < indents[-1]:
                indents.pop()
            if indent == indents[-1] and bare.startswith("module "):
                indents.append(indent + 2)
                current, ahead = None, None
                continue
            if indent == indents[-1]:
                start = re.match(rf"(?:(?:abbrev|unfoldable|unfolding \S+) )*(?:pub )?(?:(record|data) )?({NAME})( :)?", bare)
                if start and (start.group(1) or start.group(3)):
                    self.starts.setdefault(start.group(2), number if ahead is None else ahead)
                if start and start.group(2) in self.starts:
                    current = start.group(2)
            ahead = None
            if current:
                texts[current] = texts.get(current, "") + re.sub(r"\s--\s.*", "", line) + "\n"
                field = re.match(r"\s+(?:pub )?(\S+) :", line)
                if field and indent > indents[-1]:
                    owners.setdefault(field.group(1), current)
        names, spaces = uses("\n".join(self.lines))
        names.update({name: (crate, module, name) for name in self.starts})
        self.names = {name: named(text, names, spaces) for name, text in texts.items()}
        self.owners = owners


def clauses(text):
    """The clauses of the public functions and traits of a Rust file, each with its function's or trait's name, and what is printed."""
    name, indent, said = None, "", []
    for line in text.splitlines():
        start = re.match(r"( *)pub (?:fn|trait) (\w+)", line)
        if start and name is None:
            indent, name, is_trait = start.group(1), start.group(2), " trait " in line
        if name is None and re.match(r"\s*ghost output = ", line):
            yield "output", line
        if name is None:
            continue
        said.append(re.sub(r"(^|\s)//.*", "", line))
        if line == indent + "}" if is_trait else line.startswith(indent + "{") or line.endswith((" {", " {}", "{}")) and "{ " not in line:
            yield name, "\n".join(said)
            name, said = None, []


def rooted(roots):
    """What the clauses of these calls name; of "all" also the words that are printed of the crate's types."""
    found = set()
    for crate, wanted in roots.items():
        calls = [] if wanted == "all" else wanted.split()
        missing = set(calls)
        for folder, _, files in os.walk(f"{top}/crates/{crate}/src"):
            for file in files:
                if not file.endswith((".rt", ".rs")):
                    continue
                text = read(os.path.join(folder, file))
                names, spaces = uses(text)
                for call, said in clauses(text):
                    if call in calls or wanted in ("", "all") and (call != "output" or wanted == "all"):
                        missing.discard(call)
                        found |= named(said, names, spaces)
        if missing or not os.path.isdir(f"{top}/crates/{crate}/src"):
            sys.exit(f"{crate} has no public call {', '.join(sorted(missing))}: mend ROOTS")
    return found


def all_specs():
    specs = {}
    for crate in sorted(os.listdir(f"{top}/crates")):
        folder = f"{top}/crates/{crate}/specs"
        for file in sorted(os.listdir(folder) if os.path.isdir(folder) else []):
            if file.endswith(".antt") and file != "Lib.antt":
                specs[crate, file[:-5]] = Spec(crate, file[:-5], f"{folder}/{file}")
    return specs


def closure(specs, todo):
    """What these definitions are said by, themselves included."""
    seen, todo = set(), list(todo)
    while todo:
        crate, module, name = todo.pop()
        spec = specs.get((crate, module))
        if spec is None:
            continue
        name = name if name in spec.starts else spec.owners.get(name, name)
        if (crate, module, name) not in seen:
            seen.add((crate, module, name))
            todo += spec.names.get(name, ())
    return seen


def wanted_lines(spec, believed, called):
    """The lines that a file of specs/ should have."""
    lines = list(spec.lines)
    others = {spec.starts[name]: name in called for name in spec.starts if name not in believed}
    last = max((spec.starts[name] for name in believed), default=0)
    if believed and others and min(others) > last:
        at = min(others)
        if not any(re.match(r"\s*-- ---- .*(prover|private)", line) for line in lines[last:]):
            indent = re.match(r"\s*", lines[at]).group()
            lines[at:at] = [indent + (CALLERS if any(others.values()) else PROVER).replace("-- For", "-- ---- for")[:-1], ""]
    first = BELIEVED if believed else CALLERS if any(others.values()) else PROVER
    return [first] + lines[lines[0] in (BELIEVED, PROVER, CALLERS):]


def main(flags):
    specs = all_specs()
    believed = closure(specs, rooted(ROOTS))
    called = closure(specs, rooted({crate: "all" for crate in os.listdir(f"{top}/crates")}))
    wrong, counts = 0, {}
    for (crate, module), spec in specs.items():
        mine = {name for c, m, name in believed if (c, m) == (crate, module)}
        wanted = wanted_lines(spec, mine, {name for c, m, name in called if (c, m) == (crate, module)})
        counts[wanted[0]] = counts.get(wanted[0], 0) + 1
        others = [name for name in spec.starts if name not in mine]
        if "--list" in flags and mine and others:
            print(f"{crate} {module}: {' '.join(others)}")
        if wanted == spec.lines:
            continue
        wrong += 1
        if "--write" in flags:
            with open(spec.path, "w", encoding="utf-8") as file:
                file.write("\n".join(wanted) + "\n")
        elif wanted[0] != spec.lines[0]:
            print(f"{crate} {module} should begin with `{wanted[0]}`")
        else:
            print(f"{crate} {module} should say where what isn't believed begins")
    print("; ".join(f"{counts[first]} files {first[3:]}" for first in sorted(counts)), f"{wrong} wrong", sep="; ")
    return 1 if wrong and "--write" not in flags else 0


if __name__ == "__main__":
    sys.exit(main(sys.argv[1:]))
