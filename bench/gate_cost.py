#!/usr/bin/env python3
"""Tells what a gate costs, step by step: gate_cost.py CLONE [COUNT], started beside `rt ci` in that clone.

Every two seconds it reads from /proc which programs the gate runs, and how many seconds of a processor each has taken. When the gate has
ended, or at an interrupt, it prints the COUNT (40) dearest steps in minutes, each with the most memory that it took at once, in GB, and the sums
of each kind: `proof` of a crate (of a program too), `tests` (their proof and their compilation), `edit` (the wrong bodies of must-fail/, with what they begin and end with), `compile`
(a program, by each compiler), `run` and `rt` itself. What a program takes after the last look at it isn't seen, a second on average, so
`time ./.ci/run` tells a little more. Beside other work the minutes are more: tell them beside those of one proof.
"""
import collections
import os
import re
import sys
import time

PAUSE = 2
TICK = os.sysconf("SC_CLK_TCK")
PAGE = os.sysconf("SC_PAGE_SIZE")


def processes():
    """Each process: its parent, when it began, the seconds of a processor that it has taken, and the bytes of memory that it holds."""
    found = {}
    for process in filter(str.isdigit, os.listdir("/proc")):
        try:
            with open(f"/proc/{process}/stat") as file:
                fields = file.read().rsplit(")", 1)[1].split()
        except OSError:
            continue
        found[int(process)] = int(fields[1]), fields[19], (int(fields[11]) + int(fields[12])) / TICK, int(fields[21]) * PAGE
    return found


def words_of(process):
    try:
        with open(f"/proc/{process}/cmdline", "rb") as file:
            return file.read().decode(errors="replace").replace("\0", " "), os.readlink(f"/proc/{process}/cwd")
    except OSError:
        return "", ""


def step_of(words, folder):
    """Of which crate a program of the gate's is, and what kind of step."""
    name = re.search(r"--crate-name (\w+)", words)
    if name is None:
        return "", "rt" if "/rt ci" in words or words.startswith("rt ci") else "run"
    if os.path.basename(folder).startswith("rt-edit-"):
        return name[1], "edit"
    if "--crate-checked" in words:
        return name[1], "compile"
    return name[1], "tests" if " --test " in words else "proof"


def is_below(found, process, gate):
    while process in found and process != gate:
        process = found[process][0]
    return process == gate


def began_in(process):
    """The folder in which a process was begun: `rt ci NAME..` goes on in a copy."""
    try:
        with open(f"/proc/{process}/environ", "rb") as file:
            return next((it[4:].decode(errors="replace") for it in file.read().split(b"\0") if it.startswith(b"PWD=")), "")
    except OSError:
        return ""


def gate_in(clone):
    """The process of the gate that runs in the clone."""
    for process in processes():
        words, folder = words_of(process)
        if clone in (folder, began_in(process)) and re.search(r"python\S* \S*/rt ci\b", words):
            return process
    return None


def watch(gate, seconds, most):
    """Notes what the gate's programs take, and the most memory of each step, until the gate has ended."""
    steps = {}
    while True:
        found = processes()
        if gate not in found:
            return
        held = collections.Counter()
        for process, (_, began, taken, memory) in found.items():
            key = process, began
            if key not in steps and is_below(found, process, gate):
                steps[key] = step_of(*words_of(process))
            if key in steps:
                # A new process has its parent's words for a moment.
                if steps[key][1] in ("rt", "run"):
                    steps[key] = step_of(*words_of(process))
                seconds[key] = (steps[key], taken)
                held[steps[key]] += memory
        for step, memory in held.items():
            most[step] = max(most.get(step, 0), memory)
        time.sleep(PAUSE)


def main():
    clone, count = os.path.realpath(sys.argv[1]), int(sys.argv[2]) if len(sys.argv) > 2 else 40
    gate = gate_in(clone)
    while gate is None:
        time.sleep(1)
        gate = gate_in(clone)
    seconds, most = {}, {}
    try:
        watch(gate, seconds, most)
    except KeyboardInterrupt:
        pass
    each, kinds = collections.Counter(), collections.Counter()
    for (name, kind), taken in seconds.values():
        each[name, kind] += taken / 60
        kinds[kind] += taken / 60
    for (name, kind), minutes in each.most_common(count):
        print(f"{minutes:7.1f} {most.get((name, kind), 0) / 1e9:5.1f} GB {name} {kind}")
    for kind, minutes in kinds.most_common():
        print(f"{minutes:7.1f} all {kind}")
    print(f"{sum(kinds.values()):7.1f} in all")


if __name__ == "__main__":
    main()
