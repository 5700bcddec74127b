#!/usr/bin/env python3
"""Writes what a program is run on, cases by their names, and the answers that it has to give.

make_cases.py FOLDER        stdin and stdout of FOLDER, that is of crates/command_cases, whose command lines stay after them

A case is a history and a certificate, a text of a format, a history file of which lines are shown, or one of which a certificate is
searched. The answers stand beside the cases in `cases/`, as RFC 1813, RFC 5531, docs/PROFILE.md and docs/FORMATS.md have them. None is
taken from a program. The histories of `cases/recorded.txt` and `cases/searches.txt` are whole files in hex, which no code of `cases/`
has made.
"""
import sys

sys.dont_write_bytecode = True

from cases import bundles, changes, cuts, failures, faults, fronts, lines, looks, messages, orders, recorded, searches, starts, strict
from cases.history import Cases


def collected(*parts):
    cases = Cases()
    for part in parts:
        part.add_all(cases)
    return cases


def add_built(cases):
    """Of each fault of a history the first case, once more: its events are read, built and appended as a history."""
    seen = set()
    for asked, line in list(zip(cases.asked, cases.answered)):
        if ": refused: " not in line or "\n" not in asked.rstrip("\n"):
            continue
        name, answer = line.rstrip("\n").split(": refused: ")
        fault = " ".join(word for word in answer.split() if not word.isdigit())
        if fault in seen or fault in ("BadLine", "bad bundle"):
            continue
        seen.add(fault)
        # What is no file has no events.
        times = 1 if fault in ("BadMagic", "TooLarge", "Truncated", "BadEvent", "Trailing", "BadStart", "BadProfile") else 3
        cases.add(name + "-built", "%s-built built %s\n" % (name, asked.split("\n")[1]), ", ".join([answer] * times))
    cases.add("the-example-built", "the-example-built built %s\n" % faults.EXAMPLE.hex(), "ok, ok, ok")


def main():
    folder = sys.argv[1]
    cases = collected(looks, changes, failures, faults, orders, cuts, bundles, recorded, messages, lines, searches, starts, strict, fronts)
    add_built(cases)
    cases.write(folder)


main()
