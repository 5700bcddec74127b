#!/usr/bin/env python3
"""Refuses each allocation of the program in turn: refuse_memory.py PROGRAM

It judges the histories of cases/recorded.txt, and decides those of make_impossible.py and one that has a yes. Each run has to print the answer,
or `out of memory` with status 3. Prints a table, and ends with status 1 where a run prints anything else, or where no refusal shows.
The program is `nfsbench`. `refuse_memory.c`, compiled by `cc`, stands before it by LD_PRELOAD.
"""
import os
import subprocess
import sys
import tempfile

sys.dont_write_bytecode = True

import make_impossible
from cases import recorded
from cases.history import Cases

STATUS = {"yes": 0, "no": 1, "refused": 2}


def run(library, program, bundle, refused, words=()):
    """What is printed, the status, and the sizes of the allocations."""
    reading, writing = os.pipe()
    setting = dict(os.environ, LD_PRELOAD=library, REFUSE=str(refused))
    # The library tells of each allocation on descriptor 3.
    told = subprocess.run([program, *words], input=bundle, capture_output=True, env=setting, close_fds=False,
                          preexec_fn=lambda: os.dup2(writing, 3), check=False)
    os.close(writing)
    with os.fdopen(reading) as sizes:
        return told.stdout.decode(), told.returncode, [int(size) for size in sizes.read().split()]


def judged():
    """Bundles, each with its name, the words of the command line and the answer."""
    cases = Cases()
    recorded.add_all(cases)
    for asked, line in zip(cases.asked, cases.answered):
        name, want = line.rstrip("\n").split(": ", 1)
        yield name, asked.split("\n", 1)[1].rstrip("\n").encode() + b"\n", (), want, STATUS[want.split(":")[0]]


def decided(folder):
    """Histories that are decided, in the same way."""
    for make in make_impossible.MADE:
        history, event, call = make()
        file = os.path.join(folder, make.__name__)
        with open(file, "wb") as out:
            out.write(history.file())
        yield make.__name__, b"", ("decide", file), "no witness: event %d call %d" % (event, call), 1
    history, event, _ = make_impossible.stale_size()
    history.events = history.events[:event - 2]
    file = os.path.join(folder, "right")
    with open(file, "wb") as out:
        out.write(history.file())
    yield "right", b"", ("decide", file), "yes", 0


def main():
    program = os.path.abspath(sys.argv[1])
    here = os.path.dirname(os.path.abspath(__file__))
    wrong = shown = 0
    print("| case | answer | allocations | largest, bytes | out of memory |\n|---|---|---|---|---|")
    with tempfile.TemporaryDirectory() as folder:
        library = folder + "/refuse.so"
        subprocess.run(["cc", "-O1", "-shared", "-fPIC", "-o", library, here + "/refuse_memory.c"], check=True)
        for name, given, words, want, status_wanted in [*judged(), *decided(folder)]:
            answers = [(want + "\n", status_wanted), ("out of memory\n", 3)]
            told, status, sizes = run(library, program, given, 0, words)
            wrong += (told, status) != answers[0]
            out = 0
            for refused in range(1, len(sizes) + 1):
                answer = run(library, program, given, refused, words)[:2]
                out += answer == answers[1]
                if answer not in answers:
                    print("%s: allocation %d refused: %s" % (name, refused, answer), file=sys.stderr)
                    wrong += 1
            shown += out
            print("| `%s` | `%s` | %d | %d | %d |" % (name, want, len(sizes), max(sizes), out))
    sys.exit(1 if wrong or not shown else 0)


if __name__ == "__main__":
    main()
