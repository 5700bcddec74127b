#!/usr/bin/env python3
"""Makes a small history of large files: each is written one byte, the last that a file may have, so that all before it are zeros.

make_sparse.py FILES AT_ONCE FILE           a history with a witness: FILES files are made, then written, AT_ONCE at a time
make_sparse.py FILES AT_ONCE FILE wrong     one reply more says what no order explains, so that each order is tried

Each order of the WRITEs that are on their way at once leads to the same tree, so a walk over the orders compares trees whose files are
full. The history has some 250 bytes for a file.
"""
import struct
import sys

LAST = 16777215
ROOT = b"\0" * 8
CREDENTIAL = b"\0" * 16
LOOKUP, WRITE, CREATE = 3, 7, 8
FILE_SYNC = 2


def opaque(data):
    return struct.pack(">I", len(data)) + data + b"\0" * (-len(data) % 4)


def handle(number):
    return struct.pack(">Q", number)


def entry(name):
    return opaque(ROOT) + opaque(b"f%d" % name)


def call(xid, lane, procedure, arguments):
    return struct.pack(">II", 0, lane) + opaque(struct.pack(">IIIIII", xid, 0, 2, 100003, 3, procedure) + CREDENTIAL + arguments)


def reply(xid, lane, results):
    return struct.pack(">II", 1, lane) + opaque(struct.pack(">III", xid, 1, 0) + b"\0" * 12 + results)


def made(file):
    yield call(file, 1, CREATE, entry(file) + struct.pack(">I", 1) + b"\0" * 24)
    yield reply(file, 1, struct.pack(">II", 0, 1) + opaque(handle(file)) + b"\0" * 12)


def written(first, files):
    """The files are written at once, each on a connection of its own: the last that is asked for is the first that is answered."""
    lanes = list(enumerate(files, 1))
    for lane, file in lanes:
        yield call(first + lane, lane, WRITE, opaque(handle(file)) + struct.pack(">QII", LAST, 1, FILE_SYNC) + opaque(b"x"))
    for lane, _ in reversed(lanes):
        yield reply(first + lane, lane, b"\0" * 12 + struct.pack(">IIQ", 1, FILE_SYNC, 1))


def main():
    files, at_once = int(sys.argv[1]), int(sys.argv[2])
    events, calls = [], files
    for file in range(1, files + 1):
        events += made(file)
    for first in range(1, files + 1, at_once):
        group = range(first, min(first + at_once, files + 1))
        events += written(calls, group)
        calls += len(group)
    if sys.argv[4:] == ["wrong"]:
        events.append(call(calls + 1, 1, LOOKUP, entry(0)))
        events.append(reply(calls + 1, 1, struct.pack(">I", 0) + opaque(handle(1)) + b"\0" * 8))
    with open(sys.argv[3], "wb") as file:
        file.write(b"NFSHIST1" + opaque(ROOT) + struct.pack(">I", len(events)) + b"".join(events))


main()
