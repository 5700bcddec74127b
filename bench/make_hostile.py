#!/usr/bin/env python3
"""Makes histories whose shape is hard on a checker, each with a certificate that is a witness of it.

make_hostile.py nested FOLDER     4,000 directories, each made in the one before
make_hostile.py renames FOLDER    a directory of 500,000 files, each renamed once; no call is answered, each is taken as done
make_hostile.py bytes FOLDER      a file of 16 MiB, rewritten 100,000 times, one byte at a time
make_hostile.py handles FOLDER    500,000 handles that name one file, which is written once by each
make_hostile.py eras FOLDER       100,000 eras of ten events

It writes the files FOLDER/SHAPE.hist and FOLDER/SHAPE.cert.
"""
import os
import struct
import sys


def opaque(data):
    return struct.pack(">I", len(data)) + data + b"\0" * (-len(data) % 4)


# AUTH_NONE twice, and the arguments of SETATTR that set nothing
NOBODY = b"\0" * 16
NOTHING = b"\0" * 24
ROOT = struct.pack(">Q", 0)


def handle(number):
    return struct.pack(">Q", number)


def call(xid, lane, procedure, arguments):
    message = struct.pack(">IIIIII", xid, 0, 2, 100003, 3, procedure) + NOBODY + arguments
    return struct.pack(">II", 0, lane) + opaque(message)


def reply(xid, lane, results):
    message = struct.pack(">III", xid, 1, 0) + b"\0" * 12 + results
    return struct.pack(">II", 1, lane) + opaque(message)


def place(directory, name):
    return opaque(directory) + opaque(name)


def made(number):
    return b"\0" * 4 + struct.pack(">I", 1) + opaque(handle(number)) + b"\0" * 12


def create(xid, lane, name):
    return call(xid, lane, 8, place(ROOT, name) + b"\0" * 4 + NOTHING)


def write(xid, lane, file, offset, data):
    return call(xid, lane, 7, opaque(file) + struct.pack(">QII", offset, len(data), 2) + opaque(data))


def written(xid, lane, count):
    return reply(xid, lane, b"\0" * 12 + struct.pack(">IIQ", count, 2, 1))


def nested():
    for n in range(1, 4001):
        yield call(n, 1, 9, place(handle(n - 1), b"d") + NOTHING), 1, None
        yield reply(n, 1, made(n)), 1, "place %d" % n


def renames():
    for n in range(1, 500001):
        yield create(n, 1, b"a%06d" % n), 1, "take %d" % n
    for n in range(1, 500001):
        names = place(ROOT, b"a%06d" % n) + place(ROOT, b"b%06d" % n)
        yield call(500000 + n, 1, 14, names), 1, "take %d" % (500000 + n)


def rewritten():
    yield create(1, 1, b"a") + reply(1, 1, made(1)), 2, "place 1"
    yield write(2, 1, handle(1), 16777215, b"z") + written(2, 1, 1), 2, "place 2"
    for n in range(3, 100003):
        offset = n * 7919 * 7919 % 16777216
        yield write(n, 1, handle(1), offset, b"%c" % (n % 256)) + written(n, 1, 1), 2, "place %d" % n


def handles():
    yield create(1, 1, b"a"), 1, "take 1"
    for n in range(1, 500001):
        yield write(n + 1, 1, handle(n), 0, b"x"), 1, "take %d 1" % (n + 1)


def eras():
    for era in range(1, 100001):
        for n in range(4 * era - 3, 4 * era + 1):
            if n == 1:
                yield create(1, era, b"a") + reply(1, era, made(1)), 2, "place 1"
            else:
                yield write(n, era, handle(1), n % 1000, b"x") + written(n, era, 1), 2, "place %d" % n
        yield struct.pack(">II", 2, era), 1, None
        if era < 100000:
            yield struct.pack(">I", 3), 1, "cut 4"


SHAPES = {
    "nested": (nested, lambda: [(n, n) for n in range(1, 4001)]),
    "renames": (renames, lambda: []),
    "bytes": (rewritten, lambda: [(1, 1)]),
    "handles": (handles, lambda: [(n, 1) for n in range(1, 500001)]),
    "eras": (eras, lambda: [(1, 1)]),
}


def main():
    shape, folder = sys.argv[1:]
    events, binds = SHAPES[shape]
    lines = ["witness 1"] + ["bind %s %d" % (handle(n).hex(), o) for n, o in binds()]
    count, parts = 0, []
    for text, happened, line in events():
        count += happened
        parts.append(text)
        lines += [line] if line else []
    with open(os.path.join(folder, shape + ".hist"), "wb") as file:
        file.write(b"NFSHIST1" + opaque(ROOT) + struct.pack(">I", count) + b"".join(parts))
    with open(os.path.join(folder, shape + ".cert"), "w") as file:
        file.write("\n".join(lines + ["end"]) + "\n")


main()
