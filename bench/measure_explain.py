#!/usr/bin/env python3
"""Measures `nfsbench explain` beside `nfsbench check` on large histories: measure_explain.py PROGRAM [--events 100000] [--runs 5] [SHAPE..].

A SHAPE is a kind of make_large.py, or a shape of make_hostile.py. In each history one reply is made wrong, near the beginning, in the middle or
near the end: a byte of what a READ gave, a type, a handle, or a count. Both commands have to name that call. They run in turn; a row has the least
seconds of a processor that each took, and their ratio. The status is 1 where a line is another one, or where a ratio is over 1.3 and `explain` took
at least 0.05 seconds.
"""
import argparse
import os
import pathlib
import struct
import subprocess
import sys
import tempfile

from large.kinds import KINDS

BAR, SHORT = 1.3, 0.05
SPOTS = {"beginning": 0.01, "middle": 0.5, "end": 0.99}
SHAPES = ["mixed", "writes", "dirs", "deep", "crashes", "lanes", "both", "nested", "bytes"]
CALL, REPLY, CRASH = 0, 1, 3
GETATTR, LOOKUP, READ, WRITE, CREATE, MKDIR = 1, 3, 6, 7, 8, 9


def word_at(data, at: int) -> int:
    return int.from_bytes(data[at:at + 4], "big")


def padded(length: int) -> int:
    return length + -length % 4


def first_event(data) -> int:
    """Where the number of events stands."""
    at = 8
    at += 4 + padded(word_at(data, at))
    if data[:8] == b"NFSHIST1":
        return at
    objects = word_at(data, at + 4)
    at += 8
    for _ in range(objects):
        at += 8
        at += 4 + padded(word_at(data, at))
        kind = word_at(data, at)
        at += 4
        if kind != 2:
            at += 4 + padded(word_at(data, at))
    return at


def messages(data):
    """Kind, lane and place of each message."""
    at = first_event(data)
    count, at = word_at(data, at), at + 4
    for _ in range(count):
        kind = word_at(data, at)
        if kind == CRASH:
            at += 4
            continue
        lane, at = word_at(data, at + 4), at + 8
        if kind in (CALL, REPLY):
            yield kind, lane, at + 4
            at += 4 + padded(word_at(data, at))


def wrong_byte(data, procedure: int, at: int):
    """Where a byte of a result can be made wrong, and by how much; None where there is none. The result begins with its status."""
    if word_at(data, at) != 0:
        return None
    if procedure == READ and word_at(data, at + 4) == 0 and word_at(data, at + 8) > 0:
        return at + 20, 1
    if procedure == GETATTR:
        return at + 7, 3
    if procedure == LOOKUP:
        return at + 7 + word_at(data, at + 4), 1
    if procedure in (CREATE, MKDIR) and word_at(data, at + 4) == 1:
        return at + 11 + word_at(data, at + 8), 1
    if procedure == WRITE and word_at(data, at + 4) == word_at(data, at + 8) == 0:
        return at + 12, 128
    return None


def spoilable(data) -> list:
    """The calls whose replies can be made wrong, in the order of the replies: number, byte, change."""
    asked, found, calls = {}, [], 0
    for kind, lane, at in messages(data):
        xid = word_at(data, at)
        if kind == CALL:
            calls += 1
            asked[lane, xid] = calls, word_at(data, at + 20)
        else:
            number, procedure = asked.pop((lane, xid))
            spot = wrong_byte(data, procedure, at + 24) if word_at(data, at + 20) == 0 else None
            if spot:
                found.append((number, *spot))
    return found


def seconds(words: list):
    """What a command prints, and its seconds of a processor."""
    process = subprocess.Popen(words, stdout=subprocess.PIPE)
    printed = process.stdout.read()
    _, _, used = os.wait4(process.pid, 0)
    process.returncode = 0
    return printed.decode(), used.ru_utime + used.ru_stime


def make(shape: str, events: int, folder: str) -> pathlib.Path:
    here = pathlib.Path(__file__).resolve().parent
    if shape in KINDS:
        subprocess.run([sys.executable, here / "make_large.py", shape, str(events), "1", folder], check=True)
        return pathlib.Path(folder) / f"{shape}-{events}.hist"
    subprocess.run([sys.executable, here / "make_hostile.py", shape, folder], check=True)
    return pathlib.Path(folder) / f"{shape}.hist"


def compare(program: str, runs: int, history: pathlib.Path, number: int):
    """The least of runs in turn of both commands, and what is wrong."""
    certificate, least = str(history.with_suffix(".cert")), {}
    for _ in range(runs):
        for command in ("check", "explain"):
            printed, took = seconds([program, command, str(history), certificate])
            line = printed.split("\n", 1)[0]
            if line != f"no: Illegal {number}":
                return None, f"{command} says {line!r} for 'no: Illegal {number}'"
            least[command] = min(least.get(command, took), took)
    return least, None


def main() -> int:
    parser = argparse.ArgumentParser(description=__doc__.split("\n", 1)[0])
    parser.add_argument("program")
    parser.add_argument("shapes", nargs="*", metavar="SHAPE", default=SHAPES)
    parser.add_argument("--events", type=int, default=100_000)
    parser.add_argument("--runs", type=int, default=5)
    words = parser.parse_intermixed_args()
    program, is_wrong = str(pathlib.Path(words.program).resolve()), False
    print(f"{'shape':10} {'MB':>6} {'fault':>10} {'call':>8} {'check':>8} {'explain':>8} {'ratio':>6}")
    for shape in words.shapes:
        with tempfile.TemporaryDirectory() as folder:
            history = make(shape, words.events, folder)
            data = bytearray(history.read_bytes())
            found = spoilable(data)
            for spot, share in SPOTS.items():
                number, at, change = found[int(share * (len(found) - 1))]
                data[at] ^= change
                history.write_bytes(data)
                data[at] ^= change
                least, fault = compare(program, words.runs, history, number)
                if fault:
                    is_wrong = True
                    print(f"{shape}, call {number}: {fault}", flush=True)
                    continue
                check, explain = least["check"], least["explain"]
                is_over = explain > BAR * check and explain >= SHORT
                is_wrong |= is_over
                row = f"{shape:10} {len(data) / 1e6:6.1f} {spot:>10} {number:8} {check:8.3f} {explain:8.3f} {explain / check:6.2f}"
                print(row + ("  over" if is_over else ""), flush=True)
    return 1 if is_wrong else 0


if __name__ == "__main__":
    sys.exit(main())
