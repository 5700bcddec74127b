#!/usr/bin/env python3
"""Runs what `rt ci` runs, and goes on with a run that was stopped: RT_JOBS=4 resume_gate.py STATE, at the top of a clone.

`rt ci` of kit 13b proves everything from nothing each time, so one crate that fails, or is mended, costs a whole run more. This takes the steps of
`rt ci` (proofs, tests, wrong bodies, runs), and notes in the file STATE which of them passed, by a sum over the crate's sources and those of all
crates below it. Called again, it takes only the others. Change nothing in the clone while it runs: stop it, change, and call it again. The clone
keeps the built libraries in out/. Each step prints a line `resume_gate: ..` with its seconds.

It is for work on many crates. Its last line is no verdict: that is `rt ci`'s, from nothing, in one run.
"""
import hashlib
import json
import os
import shutil
import sys
import tempfile
import threading
import time

# What is changed in rt: what earlier runs left isn't set aside, and steps are looked up first.
CHANGES = {
    'if os.path.isdir(f"{root}/crates"):\n        # what an earlier run left': 'if False:\n        # what an earlier run left',
    "given = in_lanes(tasks)": "given = in_lanes(RESUMED(tasks, crates))",
}
PARTS = ("src", "specs", "proofs")


def remember(kind, name: str) -> None:
    """Has a method of rt's crates work out its answer once for each crate: without this it goes over all paths to all crates below, 76,000 of
    `nfsbench_engine`."""
    plain, known = getattr(kind, name), {}

    def answer(crate):
        if crate.folder not in known:
            known[crate.folder] = plain(crate)
        found = known[crate.folder]
        return list(found) if isinstance(found, list) else found
    setattr(kind, name, answer)


def sum_of_folder(folder: str) -> bytes:
    """A sum over the names and bytes of the files below a folder."""
    total = hashlib.sha256()
    for at, folders, files in os.walk(folder):
        folders.sort()
        for name in sorted(files):
            with open(f"{at}/{name}", "rb") as file:
                total.update(os.path.relpath(f"{at}/{name}", folder).encode() + b"\0" + file.read() + b"\0")
    return total.digest()


class Steps:
    """The steps of a run, of which some passed before."""

    def __init__(self, path: str, gate: dict):
        self.path, self.gate, self.lock = path, gate, threading.Lock()
        self.passed = json.load(open(path, encoding="utf-8")) if os.path.exists(path) else {}
        self.sums, self.below = {}, {}

    def crates_below(self, crate) -> list:
        if crate.name not in self.below:
            self.below[crate.name] = sorted(crate.below(), key=lambda it: it.name)
        return self.below[crate.name]

    def own_sum(self, crate, with_edits: bool) -> bytes:
        """That of one crate: its sources, and the libraries that it uses."""
        key = crate.name, with_edits
        if key not in self.sums:
            total = hashlib.sha256()
            for part in (*PARTS, "must-fail") if with_edits else PARTS:
                total.update(sum_of_folder(f"{crate.folder}/{part}"))
            total.update(" ".join([*(it.name for it in self.crates_below(crate)), "|", *sorted(crate.of_kit)]).encode())
            self.sums[key] = total.digest()
        return self.sums[key]

    def sum_of(self, crate, step: str) -> str:
        total = hashlib.sha256()
        for it in self.crates_below(crate):
            total.update(self.own_sum(it, False))
        total.update(self.own_sum(crate, step == "edits"))
        return total.hexdigest()

    def has_passed(self, crate, step: str) -> bool:
        """Whether the step passed with these sources, and what it built is there."""
        known = self.passed.get(f"{crate.name}|{step}")
        made = f"{crate.folder}/out/{crate.name}" if crate.is_program else crate.rlib
        return bool(known) and known["sum"] == self.sum_of(crate, step) and (step != "proof" or os.path.exists(made))

    def note(self, crate, step: str, tried) -> None:
        with self.lock:
            self.passed[f"{crate.name}|{step}"] = {"sum": self.sum_of(crate, step), "tried": tried}
            with open(f"{self.path}.new", "w", encoding="utf-8") as file:
                json.dump(self.passed, file)
            os.replace(f"{self.path}.new", self.path)

    def take(self, crate, step: str, call, given, jobs):
        """What the step gives: as it did before, or by taking it."""
        is_edits = step == "edits"
        if self.has_passed(crate, step):
            tried = self.passed[f"{crate.name}|{step}"]["tried"]
            return ([], self.gate["edits_of"](crate)[0], [tuple(it) for it in tried]) if is_edits else True
        began = time.time()
        result = call(given, jobs)
        bad, good, tried = result if is_edits else ([], [], [])
        is_well = not bad and len(tried) == len(good) and all(it[0] for it in tried) if is_edits else result is True
        if is_well:
            self.note(crate, step, [list(it) for it in tried])
        print(f"resume_gate: {time.strftime('%H:%M:%S')} {crate.name} {step} {'passed' if is_well else 'FAILED'} {time.time() - began:.0f} s", flush=True)
        return result

    def resumed(self, tasks: dict, crates: list) -> dict:
        """The steps, those that passed before without work."""
        named, steps = {it.name: it for it in crates}, {}
        for (name, step), (waits, lines, needs, call) in tasks.items():
            crate = named[name]
            work = 0 if self.has_passed(crate, step) else lines
            steps[name, step] = waits, work, needs, lambda given, jobs, c=crate, s=step, f=call: self.take(c, s, f, given, jobs)
        print(f"resume_gate: {sum(work == 0 for _, work, _, _ in steps.values())} of {len(steps)} steps passed before, or have nothing to do", flush=True)
        return steps


def main() -> int:
    if len(sys.argv) != 2:
        print(__doc__, file=sys.stderr)
        return 2
    rt = os.path.realpath(shutil.which("rt"))
    with open(rt, encoding="utf-8") as file:
        text = file.read()
    for old, new in CHANGES.items():
        if text.count(old) != 1:
            print("resume_gate: this kit's rt is another one", file=sys.stderr)
            return 2
        text = text.replace(old, new)
    sys.path.insert(0, os.path.dirname(rt))
    gate = {"__name__": "gate", "__file__": rt}
    steps = Steps(os.path.realpath(sys.argv[1]), gate)
    gate["RESUMED"] = steps.resumed
    exec(compile(text, rt, "exec"), gate)
    for name in ("below", "stamp"):
        remember(gate["rtlib"].Crate, name)
    with tempfile.TemporaryDirectory(prefix="rt-aside-") as aside:
        return gate["ci_from_nothing"](aside)


if __name__ == "__main__":
    sys.exit(main())
