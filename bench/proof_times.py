#!/usr/bin/env python3
"""What each function of a crate took to prove: proof_times.py FOLDER [COUNT].

FOLDER is crates/NAME/out/incremental behind a first `rt check --jobs 1` of that crate (--test for its tests): a check writes a file
for each module of a proof as it is done with it, one after the other, so the time of a file, less that of the file ahead of it, is what the module took. Told
are the COUNT (30) dearest functions, in seconds by the clock, the share of each in all, and how large its files are. The sizes don't
depend on what else the machine does, and the seconds grow a little faster than they do. Modules that an earlier check left count for nothing: take the
folder away first.
"""
import collections
import os
import re
import sys

# The parts of one function's proof, each a module of its own.
PARTS = r"\.(Lts.*|Code.*|Goals|Answers|Proof|View|Given|Tie|Kinds|Reads|TheLaws|Invariants)$"


def modules(folder):
    """The files that a check wrote, by time, each with the function that it is of, and its size."""
    found = []
    for path, _, names in os.walk(folder):
        if os.path.basename(path) != "records":
            for it in names:
                if it.endswith(".oantt"):
                    told = os.stat(f"{path}/{it}")
                    found.append((told.st_mtime, re.sub(PARTS, "", it[:-6]), told.st_size))
    return sorted(found)


def main():
    found = modules(sys.argv[1])
    count = int(sys.argv[2]) if len(sys.argv) > 2 else 30
    took, sizes = collections.Counter(), collections.Counter()
    for (before, _, _), (after, name, size) in zip(found, found[1:]):
        took[name] += after - before
        sizes[name] += size
    whole = sum(took.values()) or 1
    for name, seconds in took.most_common(count):
        print(f"{seconds:8.1f} s {100 * seconds / whole:5.1f} % {sizes[name] / 1e6:7.2f} MB  {name}")
    return 0 if took else 1


if __name__ == "__main__":
    sys.exit(main())
