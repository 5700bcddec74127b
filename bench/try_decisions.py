#!/usr/bin/env python3
"""Tries every plan of small random histories, and compares what `nfsbench decide` says: try_decisions.py PROGRAM [COUNT [SEED [CALLS]]] [OPTION..].

A history has two to CALLS calls (5 if not said) on a few lanes, often a crash or two, and replies that are drawn, so that about half of the histories have no
witness. Every plan is tried by force: each binding of the handles to objects, each order, each cut, each call without a reply taken or not, a WRITE with each
count. The rules of the tree and of cuts are those of `differ`, which share nothing with the program. COUNT is 1,000 and SEED 1 if they are left out. It prints
how many were a yes, a no and undecided, and each history that the two decide differently; the status is 1 where there is one. Its last line has how many
there were with a WRITE of over 64 bytes that got no reply, with a handle that no reply gave before a call asked by it, and with an object that a crash may
have brought back. The options ask for more of these.
"""
import argparse
import collections
import itertools
import pathlib
import random
import struct
import subprocess
import sys
import tempfile

from differ import layouts as nfs
from differ import rare
from differ.certificates import Certificate, Era, Place
from differ.histories import read_history
from differ.plans import Fault, check_cuts, check_verifiers, is_placeable, next_tree
from differ.trees import Binds

ROOT = b"\0"
HANDLES = [b"\x0a", b"\x0b"]
NAMES = [b"a", b"b"]
OK, NOENT, EXIST, NOTDIR, NOTEMPTY, STALE = 0, 2, 17, 20, 66, 70
VERIFIERS = [bytes(7) + b"\1", bytes(7) + b"\2"]
# Of the one long WRITE of a history.
LENGTHS = [65, 66, 100, 200]


def word(number):
    return struct.pack(">I", number)


def hyper(number):
    return struct.pack(">Q", number)


def opaque(data):
    return word(len(data)) + data + b"\0" * (-len(data) % 4)


# ---- messages: no attributes are given, and no size is checked

NO_WCC, NO_ATTRIBUTES = word(0) + word(0), word(0)
UNSET = word(0) * 6


class Draw:
    """One history. What a reply says is drawn from a tree that some order of the calls has made so far, or freely. `wishes` are kinds of `rare` of which
    there are more than else."""

    def __init__(self, dice, most, wishes=()):
        self.dice, self.events, self.waiting, self.xid, self.lane, self.wishes = dice, [], [], 0, 1, wishes
        self.left, self.known, self.written = dice.randrange(2, most + 1), [], b""

    def place(self):
        return opaque(ROOT if self.dice.random() < 0.85 or not self.known else self.dice.choice(self.known)) + opaque(self.dice.choice(NAMES))

    def file(self):
        """Mostly a handle that a reply gave before."""
        share = 0.5 if rare.UNKNOWN_HANDLES in self.wishes else 0.97
        return opaque(self.dice.choice(self.known if self.known and self.dice.random() < share else HANDLES))

    def given(self):
        """Mostly a handle that no reply gave before."""
        fresh = [handle for handle in HANDLES if handle not in self.known]
        return opaque(self.dice.choice(fresh if fresh and self.dice.random() < 0.7 else HANDLES))

    def success_or(self, share, success, *failures):
        return success if self.dice.random() < share else self.dice.choice(failures)

    def call(self):
        """A procedure, its arguments, and a reply's result."""
        dice = self.dice
        if self.written and dice.random() < 0.6:
            return self.look_at_long()
        if rare.LONG_WRITES in self.wishes and self.known and not self.written and dice.random() < 0.6:
            return self.long_write()
        if not self.known and not (rare.UNKNOWN_HANDLES in self.wishes and self.xid > 1):
            kind = dice.choice(["create", "create", "create", "create", "mkdir", "remove", "lookup", "rename"])
        else:
            kind = dice.choice(["lookup", "create", "create", "mkdir", "remove", "rename", "write", "write", "write", "read", "commit", "getattr", "rmdir"])
        post_op = word(1) + self.given() if dice.random() < (0.3 if rare.UNKNOWN_HANDLES in self.wishes else 0.8) else word(0)
        if kind == "lookup":
            return 3, self.place(), self.success_or(0.5, word(OK) + self.given() + NO_ATTRIBUTES + NO_ATTRIBUTES, word(NOENT) + NO_ATTRIBUTES)
        if kind == "create":
            how = word(dice.choice([0, 1])) + UNSET
            return 8, self.place() + how, self.success_or(0.75, word(OK) + post_op + NO_ATTRIBUTES + NO_WCC, word(EXIST) + NO_WCC)
        if kind == "mkdir":
            return 9, self.place() + UNSET, self.success_or(0.7, word(OK) + post_op + NO_ATTRIBUTES + NO_WCC, word(EXIST) + NO_WCC)
        if kind in ("remove", "rmdir"):
            failures = [word(NOENT) + NO_WCC, word(NOTDIR) + NO_WCC] if kind == "rmdir" else [word(NOENT) + NO_WCC]
            return 12 if kind == "remove" else 13, self.place(), self.success_or(0.6, word(OK) + NO_WCC, *failures)
        if kind == "rename":
            return 14, self.place() + self.place(), self.success_or(0.6, word(OK) + NO_WCC + NO_WCC, word(NOENT) + NO_WCC + NO_WCC)
        if kind == "write":
            data, level = dice.choice([b"x", b"y", b"xy"]), dice.choice([0, 0, 0, 2])
            count = len(data) if dice.random() < 0.8 else 1
            arguments = self.file() + hyper(dice.choice([0, 0, 1])) + word(len(data)) + word(level) + opaque(data)
            return 7, arguments, self.success_or(0.85, word(OK) + NO_WCC + word(count) + word(level) + dice.choice(VERIFIERS[:1] * 3 + VERIFIERS), word(STALE) + NO_WCC)
        if kind == "read":
            data = dice.choice([b"", b"x", b"y", b"xy", b"yx"])
            is_end = dice.random() < 0.8
            return 6, self.file() + hyper(0) + word(4), self.success_or(0.8, word(OK) + NO_ATTRIBUTES + word(len(data)) + word(is_end) + opaque(data), word(STALE) + NO_ATTRIBUTES)
        if kind == "commit":
            return 21, self.file() + hyper(0) + word(0), self.success_or(0.9, word(OK) + NO_WCC + dice.choice(VERIFIERS[:1] * 3 + VERIFIERS), word(STALE) + NO_WCC)
        return 1, self.file(), self.success_or(0.3, word(OK) + self.attributes(), word(STALE))

    def attributes(self, kind=None, size=None):
        kind = kind or self.dice.choice([1, 2])
        size = self.dice.choice([0, 1, 2]) if size is None else size
        return word(kind) + word(0o644) + word(1) + word(0) * 2 + hyper(size) + hyper(0) + word(0) * 2 + hyper(0) * 2 + word(0) * 6

    def long_write(self):
        """A WRITE of more bytes than any other, of which a part is kept in mind that it may have written. It gets no reply, as a rule."""
        dice = self.dice
        data, offset, level = bytes(dice.choices(b"xy", k=dice.choice(LENGTHS))), dice.choice([0, 0, 0, 1]), dice.choice([0, 2])
        self.written = bytes(offset) + data[:dice.randrange(1, len(data) + 1)]
        arguments = self.file() + hyper(offset) + word(len(data)) + word(level) + opaque(data)
        return 7, arguments, None if dice.random() < 0.9 else word(OK) + NO_WCC + word(len(data)) + word(level) + VERIFIERS[0]

    def look_at_long(self):
        """A look at what the long WRITE may have written, mostly at the part that is kept in mind."""
        dice, content = self.dice, self.written
        if dice.random() < 0.15:
            content = content[:dice.randrange(len(content) + 1)]
        if dice.random() < 0.5:
            return 1, self.file(), word(OK) + self.attributes(1, len(content))
        offset, count = dice.choice([0, max(0, len(content) - 3)]), dice.choice([4, 300])
        data = content[offset:offset + count]
        is_end = offset + len(data) >= len(content)
        return 6, self.file() + hyper(offset) + word(count), word(OK) + NO_ATTRIBUTES + word(len(data)) + word(is_end) + opaque(data)

    def begin(self):
        self.left -= 1
        self.send(*self.call())

    def send(self, procedure, arguments, result):
        self.xid += 1
        header = word(self.xid) + word(0) + word(2) + word(100003) + word(3) + word(procedure) + word(0) * 4
        self.events.append(word(0) + word(self.lane) + opaque(header + arguments))
        self.waiting.append((self.lane, self.xid, result))

    def answer(self):
        self.answer_at(self.dice.randrange(len(self.waiting)))

    def answer_at(self, at):
        lane, xid, result = self.waiting.pop(at)
        if result is None:
            return
        self.known += [handle for handle in HANDLES if handle not in self.known and opaque(handle) in result]
        self.events.append(word(1) + word(lane) + opaque(word(xid) + word(1) + word(0) + word(0) + word(0) + word(0) + result))

    def crash(self):
        self.events.append(word(3))
        self.waiting, self.lane = [], self.lane + 1

    def take_away(self):
        """What was made is taken away without a reply, some look at it, and a crash may bring it back. Its handle may be one that no reply gives."""
        dice, name, handle = self.dice, opaque(ROOT) + opaque(NAMES[0]), HANDLES[0]
        is_directory = dice.random() < 0.3
        shown = word(1) + opaque(handle) if rare.UNKNOWN_HANDLES not in self.wishes or dice.random() < 0.5 else word(0)
        made = word(OK) + shown + NO_ATTRIBUTES + NO_WCC
        self.send(*((9, name + UNSET, made) if is_directory else (8, name + word(0) + UNSET, made)))
        self.answer_at(0)
        self.send(13 if is_directory else 12, name, None)
        self.send(*dice.choice([(1, opaque(handle), word(STALE)), (3, name, word(NOENT) + NO_ATTRIBUTES),
                                (6, opaque(handle) + hyper(0) + word(4), word(STALE) + NO_ATTRIBUTES)]))
        self.answer_at(1)
        if dice.random() < 0.3:
            self.begin()
            self.answer_at(len(self.waiting) - 1)
        self.crash()
        self.send(1, opaque(handle), dice.choice([word(STALE), word(OK) + self.attributes(2 if is_directory else 1, 0), word(OK) + self.attributes(1, 0)]))
        self.left = dice.randrange(3)

    def make(self):
        if rare.OBJECTS_BACK in self.wishes and self.dice.random() < 0.8:
            self.take_away()
        crashes = self.dice.choice([0, 0, 1, 1, 2])
        while self.left or self.waiting:
            if self.events and crashes and self.dice.random() < 0.2:
                crashes -= 1
                self.crash()
            elif self.left and (not self.waiting or self.dice.random() < 0.55):
                self.begin()
            elif self.waiting and not self.left and self.dice.random() < 0.1:
                self.waiting.pop()
            elif self.waiting:
                self.answer()
        return b"NFSHIST1" + opaque(ROOT) + word(len(self.events)) + b"".join(self.events)


# ---- every plan

def ways_to_place(number, call):
    """What a plan chooses of a call: nothing, or its place: as it was answered, or as it is taken with one of these counts."""
    if not call.is_judged:
        return [None]
    if call.result is not None:
        return [[Place(number, False)]]
    if call.end is not None or not call.is_modifying:
        return [None]
    counts = range(len(call.arguments["data"]) + 1) if call.procedure == nfs.WRITE else [None]
    return [None, [Place(number, True, count) for count in counts]]


def keeps_order(history, places, number):
    """Whether a call may stand behind these: it hadn't ended before one of them began."""
    end = history.calls[number - 1].end
    return end is None or all(history.calls[one.number - 1].begin < end for one in places)


def orders(history, binds, tree, chosen, places, trees):
    """Each order of the chosen calls that runs from the tree, with each count, and with the trees behind each place."""
    if not chosen:
        yield list(places), list(trees)
        return
    for at, counts in enumerate(chosen):
        if keeps_order(history, places, counts[0].number):
            for place in counts:
                after = next_tree(binds, trees[-1], history, place)
                if after is not None:
                    yield from orders(history, binds, tree, chosen[:at] + chosen[at + 1:], places + [place], trees + [after])


def plans(history, binds, tree, era, parts):
    """Each plan of the eras from this one on that runs from the tree."""
    if era > history.eras:
        yield parts
        return
    numbers = [number for number, call in enumerate(history.calls, 1) if call.era == era]
    for chosen in itertools.product(*(ways_to_place(number, history.calls[number - 1]) for number in numbers)):
        placed = [place for place in chosen if place is not None]
        for places, trees in orders(history, binds, tree, placed, [], [tree]):
            for cut in [None] if era == history.eras else range(len(places) + 1):
                part = Era()
                part.places, part.cut = places, cut
                yield from plans(history, binds, trees[-1] if cut is None else trees[cut], era + 1, parts + [part])


def is_witness(history, pairs, parts):
    text = Certificate()
    text.binds, text.eras = pairs, parts
    try:
        check_cuts(history, text)
        check_verifiers(history, text)
    except Fault:
        return False
    return all(is_placeable(history.calls[place.number - 1], place) for part in parts for place in part.places)


def has_witness(history):
    """Each handle names nothing, the root, or what some call made."""
    makers = [number for number, call in enumerate(history.calls, 1) if call.is_judged and call.procedure in (nfs.CREATE, nfs.MKDIR)]
    objects = [None, 0, *makers]
    for named in itertools.product(objects, repeat=len(HANDLES)):
        pairs = [(handle, number) for handle, number in zip(HANDLES, named) if number is not None]
        binds = Binds(history.head.root, pairs)
        if any(is_witness(history, pairs, parts) for parts in plans(history, binds, history.head.opening, 1, [])):
            return True
    return False


def told_by(program, file):
    """The line of a decision; one that takes two minutes is given up."""
    try:
        ran = subprocess.run([program, "decide", file, "--seconds", "10"], stdout=subprocess.PIPE, stderr=subprocess.DEVNULL, timeout=120)
    except subprocess.TimeoutExpired:
        return "undecided: not in two minutes"
    return ran.stdout.decode().strip()


def kind_of(line):
    kinds = {"yes": "yes", "no witness": "no", "undecided": "undecided"}
    return kinds.get(line.split(":")[0], line)


def noted(tally, whys, wanted, line):
    """The kind of a line, which is counted beside the answer that is wanted."""
    got = kind_of(line)
    tally[wanted, got] += 1
    if got == "undecided":
        whys[line.partition(": ")[2].rstrip("0123456789 ")] += 1
    return got


def tell(by, tally, whys):
    """How often each pair of answers came up, and why the program didn't decide."""
    for (wanted, got), many in sorted(tally.items()):
        print(f"{wanted} by {by}, {got} by the program: {many}")
    for why, many in whys.most_common():
        print(f"undecided {why}: {many}")


def main():
    parser = argparse.ArgumentParser(description=__doc__.split("\n", 1)[0])
    parser.add_argument("program", metavar="PROGRAM")
    parser.add_argument("count", metavar="COUNT", type=int, nargs="?", default=1000)
    parser.add_argument("seed", metavar="SEED", type=int, nargs="?", default=1)
    parser.add_argument("most", metavar="CALLS", type=int, nargs="?", default=5)
    rare.add_options(parser)
    words = parser.parse_intermixed_args()
    program, count, seed, most = words.program, words.count, words.seed, words.most
    tally, whys, kinds, differ = collections.Counter(), collections.Counter(), rare.Tally(), 0
    with tempfile.TemporaryDirectory() as folder:
        file = pathlib.Path(folder) / "small.history"
        for number in range(count):
            data = Draw(random.Random(f"{seed}/{number}"), most, words.wishes).make()
            history = read_history(data)
            wanted = "yes" if has_witness(history) else "no"
            file.write_bytes(data)
            line = told_by(program, file)
            got = noted(tally, whys, wanted, line)
            kinds.note(history, wanted, got)
            if got not in (wanted, "undecided"):
                differ += 1
                print(f"{number}: every plan says {wanted}, the program {line}")
    tell("every plan", tally, whys)
    print(kinds.line())
    return 1 if differ else 0


if __name__ == "__main__":
    sys.exit(main())
