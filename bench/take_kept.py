#!/usr/bin/env python3
"""Gives a copy of the repository the libraries that `rt ci` proved elsewhere: take_kept.py COPY PROVED [CRATE..]

PROVED is the word `kept`, for what `rt ci` of kit 13f keeps on this machine beside the kit, also by `rt ci NAME..`, whichever copy it ran in.
Or, with any kit: a copy in which `rt ci` runs, or ran. `rt check` proves each library below a crate again in a copy that has none; this puts those of
PROVED whose sources are the same into the crates' out/ of COPY, so that a check of CRATE (of all crates, where none is named) begins above
them. It says how many crates have their library, and which have none: those that changed, those above them, and those that the run hasn't
come to. Call it again as the run gets on. All libraries of COPY have to come of one run. No verdict rests on it: `rt ci` reads nothing of
what was in out/.
"""
import importlib.machinery
import importlib.util
import os
import shutil
import sys
import time

sys.path.insert(0, os.path.dirname(os.path.realpath(shutil.which("rt"))))
import rtlib


def crates_at(folder: str) -> dict:
    """The crates of a copy by their names, each after those that it uses."""
    os.chdir(folder)
    return {crate.name: crate for crate in rtlib.crates_below(folder)}


def is_whole(crate) -> bool:
    """Whether the run has written the crate's library to its end: half a minute has passed since its last file."""
    if not os.path.isdir(crate.rlib):
        return False
    files = [os.path.join(at, name) for at, _, names in os.walk(crate.rlib) for name in names]
    newest = max(map(os.path.getmtime, files), default=0)
    return bool(files) and newest + 30 < time.time()


def take(crate, proved) -> bool:
    """Gives one crate the library that was proved of the same sources, where there is one."""
    if crate.is_built():
        return True
    if proved is None or crate.stamp() != proved.stamp() or not is_whole(proved):
        return False
    kept = os.path.dirname(crate.rlib)
    shutil.rmtree(kept, ignore_errors=True)
    os.makedirs(kept)
    shutil.copytree(proved.rlib, crate.rlib)
    with open(f"{kept}/stamp", "w", encoding="utf-8") as stamp:
        stamp.write(crate.stamp())
    return True


def loaded_rt():
    """The program rt as a module: what it keeps has names by sums that it alone works out."""
    path = os.path.realpath(shutil.which("rt"))
    loader = importlib.machinery.SourceFileLoader("rt_program", path)
    made = importlib.util.module_from_spec(importlib.util.spec_from_loader("rt_program", loader))
    sys.modules["rt_program"] = made
    loader.exec_module(made)
    return made


def take_from_store(copy: str, names: list) -> list:
    """Gives a copy the libraries below these crates (all, if none is named) that are kept beside the kit, and returns the names of the others."""
    rt = loaded_rt()
    os.chdir(copy)
    rt.Crate.allowed, rt.Crate.cuts_libraries = rt.handles_of(copy), True
    crates = {it.name: it for it in rt.crates_of(copy)}
    below = {it.name for name in names for it in crates[name].below()} if names else {*crates}
    libraries = sorted((it for it in crates.values() if it.name in below and not it.is_program), key=lambda it: len(it.below()))
    kept, without = rt.Kept([*crates.values()]), []
    for crate in libraries:
        if {it.name for it in crate.below()} & {*without}:
            without.append(crate.name)
            continue
        key, mark = kept.key(crate), f"{crate.folder}/out/rlib/of_the_gate"
        if not (crate.is_built() and os.path.isfile(mark)):
            if not os.path.isdir(kept.place(crate, False, key)) or not kept.give(crate, False, key):
                without.append(crate.name)
                continue
            with open(f"{crate.folder}/out/rlib/stamp", "w", encoding="utf-8") as stamp:
                stamp.write(crate.stamp())
            open(mark, "w", encoding="utf-8").close()
        kept.is_built(crate)
    print(f"{len(libraries) - len(without)} crates have their library; without:", *(without or ["none"]))
    return without


def main() -> int:
    words = sys.argv[1:]
    if len(words) >= 2 and words[1] == "kept" and os.path.isfile(f"{words[0]}/crates.txt"):
        take_from_store(os.path.realpath(words[0]), words[2:])
        return 0
    if len(words) < 2 or not all(os.path.isfile(f"{it}/crates.txt") for it in words[:2]):
        print(__doc__, file=sys.stderr)
        return 2
    copy, run = (os.path.realpath(it) for it in words[:2])
    proved = crates_at(run)
    crates = crates_at(copy)
    chosen = [name for name, it in crates.items() if not words[2:] or any(name == word or name in {dep.name for dep in crates[word].below()} for word in words[2:])]
    without = []
    for name in chosen:
        below = {dep.name for dep in crates[name].below()}
        if below & {*without} or not take(crates[name], proved.get(name)):
            without.append(name)
    print(f"{len(chosen) - len(without)} crates have their library; without:", *(without or ["none"]))
    return 0


if __name__ == "__main__":
    sys.exit(main())
