#!/usr/bin/env python3
"""Compares programs on large histories, on a machine that others use too: compare_programs.py KIND RUNS PROGRAM.. [--where].

KIND is one of make_large.py, at 100,000 and 1,000,000 events, seed 1. The programs run in turn, RUNS times each, on the one processor that is fastest
just then, which is looked for again every few runs: on a shared machine one processor may take twice as long as another. A row has the least seconds and
the lower quartile of each size, and how many times as long the larger one took, by the least. With --where, and `perf`, it tells for each program which functions took
more at 1,000,000 events than ten times what they took at 100,000, in milliseconds, over the fastest third of the runs. Programs without a proof are compared with one another only.
"""
import collections
import os
import subprocess
import sys
import tempfile
import time

SIZES = (100_000, 1_000_000)


def words(program, at):
    return [program, "check", at + ".hist", at + ".cert"]


def took(processor, command):
    start = time.perf_counter()
    said = subprocess.run(["taskset", "-c", str(processor)] + command, stdout=subprocess.PIPE).stdout
    if said.strip() != b"yes":
        sys.exit(f"{command[0]}: {said.decode().strip()}")
    return time.perf_counter() - start


def fastest(command):
    return min(os.sched_getaffinity(0), key=lambda processor: min(took(processor, command) for _ in range(2)))


def compare(kind, runs, programs, folder):
    seconds = {}
    for events in SIZES:
        at = f"{folder}/{kind}-{events}"
        for run in range(runs):
            if run % 4 == 0:
                processor = fastest(words(programs[0], f"{folder}/{kind}-{SIZES[0]}"))
            for program in programs:
                seconds.setdefault((program, events), []).append(took(processor, words(program, at)))
    for program in programs:
        row = [kind, os.path.basename(program)]
        for events in SIZES:
            sorted_seconds = sorted(seconds[program, events])
            row.append(f"{sorted_seconds[0]:.4f} {sorted_seconds[len(sorted_seconds) // 4]:.4f}")
        print("  ".join(row), f" {min(seconds[program, SIZES[1]]) / min(seconds[program, SIZES[0]]):.2f}", flush=True)


def samples(processor, command, folder):
    data = f"{folder}/perf.data"
    subprocess.run(["taskset", "-c", str(processor), "perf", "record", "-q", "-F", "5000", "-o", data] + command, stdout=subprocess.DEVNULL, stderr=subprocess.DEVNULL)
    told = subprocess.run(["perf", "script", "-i", data, "-F", "period,ip,sym"], capture_output=True, text=True).stdout
    found = collections.Counter()
    for line in told.splitlines():
        period, _, name = (line.split(None, 2) + ["?", "?"])[:3]
        found[name] += int(period)
    return found


def where(kind, runs, program, folder):
    by_size = []
    for events in SIZES:
        found = []
        for run in range(runs if events == SIZES[1] else 4 * runs):
            if run % 4 == 0:
                processor = fastest(words(program, f"{folder}/{kind}-{SIZES[0]}"))
            found.append(samples(processor, words(program, f"{folder}/{kind}-{events}"), folder))
        found.sort(key=lambda it: sum(it.values()))
        best = found[: max(1, len(found) // 3)]
        by_size.append({name: sum(it[name] for it in best) / len(best) / 1e6 for name in set().union(*best)})
    small, large = by_size
    more = {name: large.get(name, 0) - 10 * small.get(name, 0) for name in set(small) | set(large)}
    print(f"{kind}  {os.path.basename(program)}  {sum(small.values()):.1f} ms  {sum(large.values()):.1f} ms  beyond ten times: {sum(more.values()):.1f} ms")
    for name in sorted(more, key=more.get, reverse=True)[:20]:
        print(f"{more[name]:8.1f} of {large.get(name, 0):7.1f}  {name[:90]}")


def main():
    told = [it for it in sys.argv[1:] if it != "--where"]
    kind, runs, programs = told[0], int(told[1]), [os.path.realpath(it) for it in told[2:]]
    with tempfile.TemporaryDirectory() as folder:
        for events in SIZES:
            make = os.path.join(os.path.dirname(os.path.realpath(__file__)), "make_large.py")
            subprocess.run([sys.executable, make, kind, str(events), "1", folder], check=True)
        if "--where" in sys.argv:
            for program in programs:
                where(kind, runs, program, folder)
        else:
            compare(kind, runs, programs, folder)
    return 0


if __name__ == "__main__":
    sys.exit(main())
