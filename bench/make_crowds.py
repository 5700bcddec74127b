#!/usr/bin/env python3
"""Makes a history that takes a search long: clients that change a few names of one directory at once.

make_crowds.py LANES NAMES CALLS SEED FILE           a history with a witness, of CALLS calls on LANES connections
make_crowds.py LANES NAMES CALLS SEED FILE wrong     one reply more says what no order explains, so that each order is tried

The clients CREATE (GUARDED), REMOVE, RENAME and LOOK UP names out of NAMES, each with one call on its way. A call takes effect at some
moment between its call and its reply, so replies come in another order than effects.
"""
import random
import struct
import sys


def opaque(data):
    return struct.pack(">I", len(data)) + data + b"\0" * (-len(data) % 4)


ROOT = b"\0" * 8
CREDENTIAL = b"\0" * 16
NOENT, EXIST = 2, 17
LOOKUP, CREATE, REMOVE, RENAME = 3, 8, 12, 14


def handle(number):
    return struct.pack(">Q", number)


def entry(name):
    return opaque(ROOT) + opaque(b"n%d" % name)


class Directory:
    """A directory as its calls find it: names with the numbers of their files."""

    def __init__(self):
        self.files = {}

    def take(self, call):
        """Takes a call's effect, and gives the bytes of its results."""
        procedure, number, name, other = call
        if procedure == LOOKUP:
            if name not in self.files:
                return struct.pack(">II", NOENT, 0)
            return struct.pack(">I", 0) + opaque(handle(self.files[name])) + b"\0" * 8
        if procedure == CREATE:
            if name in self.files:
                return struct.pack(">III", EXIST, 0, 0)
            self.files[name] = number
            return struct.pack(">II", 0, 1) + opaque(handle(number)) + b"\0" * 12
        if name not in self.files:
            return struct.pack(">I", NOENT) + b"\0" * (8 if procedure == REMOVE else 16)
        file = self.files.pop(name)
        if procedure == REMOVE:
            return b"\0" * 12
        self.files[other] = file
        return b"\0" * 20


def arguments(call):
    procedure, _, name, other = call
    if procedure == CREATE:
        return entry(name) + struct.pack(">I", 1) + b"\0" * 24
    if procedure == RENAME:
        return entry(name) + entry(other)
    return entry(name)


def event(kind, lane, message):
    return struct.pack(">II", kind, lane) + opaque(message)


def asked(xid, call):
    return struct.pack(">IIIIII", xid, 0, 2, 100003, 3, call[0]) + CREDENTIAL + arguments(call)


def answer(xid, results):
    return struct.pack(">III", xid, 1, 0) + b"\0" * 12 + results


def drawn(draw, number, names):
    procedure = draw.choices((LOOKUP, CREATE, REMOVE, RENAME), (2, 3, 2, 3))[0]
    name, other = draw.sample(range(names), 2)
    return (procedure, number, name, other)


def main():
    lanes, names, calls, seed = (int(word) for word in sys.argv[1:5])
    draw, directory, events = random.Random(seed), Directory(), []
    idle, waiting, done, begun = list(range(1, lanes + 1)), {}, {}, 0
    while begun < calls or waiting or done:
        moves = (["begin"] * 4 if idle and begun < calls else []) + ["take"] * 2 * bool(waiting) + ["end"] * bool(done)
        move = draw.choice(moves)
        if move == "begin":
            lane = idle.pop(draw.randrange(len(idle)))
            begun += 1
            call = drawn(draw, begun, names)
            events.append(event(0, lane, asked(begun, call)))
            waiting[lane] = (begun, call)
        elif move == "take":
            lane = draw.choice(sorted(waiting))
            xid, call = waiting.pop(lane)
            done[lane] = (xid, directory.take(call))
        else:
            lane = draw.choice(sorted(done))
            xid, results = done.pop(lane)
            events.append(event(1, lane, answer(xid, results)))
            idle.append(lane)
    if sys.argv[6:] == ["wrong"]:
        begun += 1
        call = (LOOKUP, begun, names, 0)
        events.append(event(0, 1, asked(begun, call)))
        events.append(event(1, 1, answer(begun, struct.pack(">I", 0) + opaque(handle(begun)) + b"\0" * 8)))
    with open(sys.argv[5], "wb") as file:
        file.write(b"NFSHIST1" + opaque(ROOT) + struct.pack(">I", len(events)) + b"".join(events))


main()
