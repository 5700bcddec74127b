#!/usr/bin/env python3
"""Measures the journal server: measure_server.py PROGRAM [CALLS [TIMES]].

PROGRAM is crates/server_cases, built; CALLS is how many calls all threads of a run make together, 20,000 if it is left out; each run
is made TIMES times, 3 if that is left out, and the best one is told. The threads call the server in memory. Told are calls a second
by threads, for WRITEs to a file of each thread's own (`private`), for CREATE, WRITE, RENAME and REMOVE in one directory (`shared`),
and for four READs to each WRITE over eight files (`reads`). The last column is how long the book's steps (begin, place, flush where
it is due, answer) take for a call: those of the one thread's calls, made once more by one thread without a server, a lock or a
wait. As the book's lock is held for these steps alone, no more than one second through that time of calls come a second.
"""
import re
import subprocess
import sys

KINDS, THREADS = ("private", "shared", "reads"), (1, 2, 4, 8)


def run(program: str, threads: int, kind: str, calls: int) -> tuple[int, int]:
    """Calls a second, and for one thread the nanoseconds of the book's steps."""
    told = subprocess.run([program], input=f"bench {threads} {calls} {kind}\n", capture_output=True, text=True, check=True).stdout
    if not told.endswith("yes\n"):
        sys.exit(f"{threads} threads, {kind}: {told}")
    speed = re.search(r"calls a second (\d+)", told)
    book = re.search(r"take (\d+) nanoseconds", told)
    return int(speed.group(1)), int(book.group(1)) if book else 0


def main() -> int:
    program = sys.argv[1]
    calls = int(sys.argv[2]) if len(sys.argv) > 2 else 20_000
    times = int(sys.argv[3]) if len(sys.argv) > 3 else 3
    print("| calls | " + " | ".join(f"{threads} threads" for threads in THREADS) + " | book, ns a call | most a second |")
    print("|---|" + "---|" * (len(THREADS) + 2))
    for kind in KINDS:
        runs = {threads: [run(program, threads, kind, calls) for _ in range(times)] for threads in THREADS}
        book = min(nanoseconds for _, nanoseconds in runs[1])
        speeds = " | ".join(str(max(speed for speed, _ in runs[threads])) for threads in THREADS)
        print(f"| {kind} | {speeds} | {book} | {1_000_000_000 // max(book, 1)} |", flush=True)
    return 0


if __name__ == "__main__":
    sys.exit(main())
