#!/usr/bin/env python3
"""Lists the files of specs/ that a yes rests on, by what their definitions name, with their lines, and compares them with
docs/PROOFS.md.

A yes of two files is AreAccepted of witness_check's Witness. From there each definition that one names is followed, but for those of
specs.declared (the types of the code as they stand) and of the kit. Exits with 1 where docs/PROOFS.md names other files, or where a
file has over 150 lines.
"""
import re
import sys

from whom_specs_serve import all_specs, closure, read, top

START = [("witness_check", "Witness", "AreAccepted")]

specs = all_specs()
seen = {(crate, module): len(specs[crate, module].lines) for crate, module, _ in closure(specs, START)}

documented = set()
section = read(f"{top}/docs/PROOFS.md").split("## What a yes rests on")[1].split("\n## ")[0]
for crate, names in re.findall(r"^\| `(\w+)` \| ([^|]*) \|", section, re.M):
    for name in re.findall(r"[A-Z]\w*", re.sub(r"\([^)]*\)", "", names)):
        documented.add((crate, name))

wrong = 0
for crate, name in sorted(seen):
    note = "" if (crate, name) in documented else "  not in docs/PROOFS.md"
    if seen[crate, name] > 150:
        note += "  over 150 lines"
    wrong += note != ""
    print(f"{seen[crate, name]:5} {crate} {name}{note}")
for crate, name in sorted(documented - set(seen)):
    print(f"      {crate} {name}  only in docs/PROOFS.md")
    wrong += 1
print(f"{len(seen)} files, {sum(seen.values())} lines")
sys.exit(1 if wrong else 0)
