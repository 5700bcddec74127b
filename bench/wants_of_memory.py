#!/usr/bin/env python3
"""Lists where the code says by hand that memory ran out, and fails where a place is new: wants_of_memory.py [--all]

No clause sees a refusal that is told as want of memory (docs/PROOFS.md). So each line of `src/` that makes an AllocError or a NoMemory
otherwise than out of one stands in KNOWN, with the crate's file and how many such lines it has; a reader has looked at each. What an
`impl From` makes of an error of the allocator is left out, and so are tests.
"""
import glob
import os
import re
import sys

WORD = re.compile(r"\b(AllocError|NoMemory|OutOfMemory)\b")
WANT = re.compile(r"\b(AllocError|AllocFailed|NoMemory|OutOfMemory|Memory)\b")

# A growth was refused where the error has another name; a value is given up behind it; or what can't occur is answered so.
KNOWN = {
    "search_workers/src/running.rt": 1, "search_workers/src/ways.rt": 2, "search_workers/src/worker.rt": 1,
    "crash_harness/src/run.rt": 1, "cut_check/src/stability.rt": 1,
    "journal_server/src/crashing.rt": 1, "journal_server/src/desk.rt": 1, "journal_server/src/placing.rt": 1,
    "tree_stores/src/names/long.rt": 2, "tree_stores/src/names/short.rt": 1, "nfs_history/src/checking.rt": 1, "nfs_history/src/history.rt": 1,
    "nfs_relay/src/connection.rt": 1, "nfs_relay/src/relay.rt": 1, "judging_commands/src/search.rt": 1,
    "book_ledger/src/answering.rt": 2, "book_ledger/src/beginning.rt": 2, "book_ledger/src/certifying.rt": 1, "book_ledger/src/crashing.rt": 1, "recorder/src/book.rt": 2, "book_ledger/src/ledger.rt": 2,
    "search_branches/src/state.rt": 1, "tree_nodes/src/nodes.rt": 1, "tree_nodes/src/table.rt": 1,
    "witness_check/src/run.rt": 2, "reply_order/src/binds.rt": 1, "history_lines/src/lines.rt": 1, "decision_core/src/deciding.rt": 3,
    "decision_core/src/register.rt": 2, "decision_core/src/states.rt": 2, "decision_walk/src/children.rt": 1, "decision_walk/src/stepping.rt": 1,
    "deciding_command/src/file_decision.rt": 1, "decide/src/deciding.rt": 1,
}


def made_by_hand(lines):
    """The lines, with their numbers, that make a want of memory of something else."""
    inside = False
    for number, line in enumerate(lines, 1):
        code = line.split("//")[0].strip()
        if re.match(r"impl\b.*\bFrom<", code):
            inside = True
        elif line.startswith("}"):
            inside = False
        if inside or not WORD.search(code) or code.startswith(("use ", "pub use", "ghost", "ensures", "requires", "NoMemory", "#", "->", "λ")):
            continue
        if "=>" in code:
            pattern, made = code.split("=>", 1)
            if WORD.search(made) and not WANT.search(pattern):
                yield number, code
        elif re.match(r"(return )?(Err|Some)\(", code) and not code.endswith("=> {"):
            yield number, code


def main():
    crates = os.path.join(os.path.dirname(os.path.abspath(__file__)), "..", "crates")
    wrong = 0
    for path in sorted(glob.glob(crates + "/*/src/**/*.rt", recursive=True)):
        name = os.path.relpath(path, crates)
        if name.split("/")[0].endswith(("_tests", "_cases")):
            continue
        with open(path) as file:
            found = list(made_by_hand(file.read().split("\n")))
        if len(found) != KNOWN.get(name, 0):
            wrong += 1
            print("%s has %d such lines, and %d are known" % (name, len(found), KNOWN.get(name, 0)))
        if len(found) != KNOWN.get(name, 0) or "--all" in sys.argv:
            for number, code in found:
                print("  %s:%d: %s" % (name, number, code))
    sys.exit(1 if wrong else 0)


main()
