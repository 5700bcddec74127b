#!/usr/bin/env python3
"""Writes a certificate of a history: its calls in the order of their replies, of which a crash takes none away.

reply_order.py HISTORY > CERTIFICATE

That is the right order where no two calls that overlap depend on each other, and a crash of a server whose kernel keeps what
was written. Else `nfsbench check` says no to it, though another certificate may get a yes. Calls without a reply are left out.
A handle is bound to the object that a call made, which gave the handle back or whose name a LOOKUP or READDIRPLUS found later, or to
one that the server held at first, by a name that such a call found.
"""
import struct
import sys

JUDGED = {1: "GETATTR", 2: "SETATTR", 3: "LOOKUP", 5: "READLINK", 6: "READ", 7: "WRITE", 8: "CREATE", 9: "MKDIR",
          10: "SYMLINK", 12: "REMOVE", 13: "RMDIR", 14: "RENAME", 16: "READDIR", 17: "READDIRPLUS", 21: "COMMIT"}


class Items:
    """Items of XDR (RFC 4506), from the front of some bytes."""

    def __init__(self, data):
        self.data, self.at = data, 0

    def take(self, length):
        if self.at + length > len(self.data):
            raise EOFError
        self.at += length
        return self.data[self.at - length:self.at]

    def word(self):
        return struct.unpack(">I", self.take(4))[0]

    def opaque(self):
        length = self.word()
        return self.take(length + -length % 4)[:length]

    def attributes(self):
        """Attributes that may be left out."""
        if self.word():
            self.take(84)

    def handle(self):
        """A handle that may be left out."""
        return self.opaque() if self.word() else None


def read_head(items):
    """The root handle, and what stood at first: the directory's number and the name of each object."""
    magic = items.take(8)
    if magic not in (b"NFSHIST1", b"NFSHIST2"):
        sys.exit("no history file")
    root = items.opaque()
    if magic == b"NFSHIST1":
        return root, []
    items.word()
    return root, [read_object(items) for _ in range(items.word())]


def read_object(items):
    """The number of a starting object's directory, and its name."""
    place = struct.unpack(">Q", items.take(8))[0], items.opaque()
    if items.word() != 2:
        items.opaque()
    return place


def read_events(items):
    """The events of a file as (kind, lane, message), after its head."""
    for _ in range(items.word()):
        kind = items.word()
        lane = items.word() if kind < 3 else None
        yield kind, lane, items.opaque() if kind < 2 else None


def read_call(message):
    """Transaction number, procedure (None: not of NFS version 3) and arguments."""
    items = Items(message)
    xid, _, _, program, version, procedure = (items.word() for _ in range(6))
    for _ in range(2):
        items.word()
        items.opaque()
    return xid, procedure if (program, version) == (100003, 3) else None, items


def read_reply(message):
    """Transaction number, and the result where the call was accepted and done, else None."""
    items = Items(message)
    xid, _, refused = items.word(), items.word(), items.word()
    if refused:
        return xid, None
    items.word()
    items.opaque()
    return xid, None if items.word() else items


class Objects:
    """Which object each handle names, and which object each name leads to."""

    def __init__(self, root, start):
        self.of_handle, self.count = {root: 0}, len(start)
        self.of_name = {place: number for number, place in enumerate(start, 1)}

    def bind(self, handle, made):
        if handle is not None and made is not None:
            self.of_handle.setdefault(handle, made)

    def place(self, items):
        """A directory's object and a name in it."""
        return self.of_handle.get(items.opaque()), items.opaque()

    def note(self, number, procedure, asked, result):
        """What a call that succeeded shows."""
        name = JUDGED[procedure]
        if name in ("CREATE", "MKDIR", "SYMLINK"):
            self.made(number, name, self.place(asked), asked, result)
        elif name == "LOOKUP":
            self.bind(result.opaque(), self.of_name.get(self.place(asked)))
        elif name in ("REMOVE", "RMDIR"):
            self.of_name.pop(self.place(asked), None)
        elif name == "RENAME":
            source, target = self.place(asked), self.place(asked)
            if source in self.of_name:
                self.of_name[target] = self.of_name.pop(source)
        elif name == "READDIRPLUS":
            self.listed(self.of_handle.get(asked.opaque()), result)

    def made(self, number, name, place, asked, result):
        is_unchecked = name == "CREATE" and asked.word() == 0
        handle = result.handle()
        if handle in self.of_handle:
            made = self.of_handle[handle]
        elif is_unchecked and place in self.of_name:
            made = self.of_name[place]
        else:
            made = self.count + number
        self.bind(handle, made)
        self.of_name[place] = made

    def listed(self, directory, result):
        result.attributes()
        result.take(8)
        while result.word():
            result.take(8)
            name = result.opaque()
            result.take(8)
            result.attributes()
            handle = result.handle()
            if name not in (b".", b".."):
                self.bind(handle, self.of_name.get((directory, name)))


def main():
    items = Items(open(sys.argv[1], "rb").read())
    objects, unanswered, calls = Objects(*read_head(items)), {}, 0
    eras = [[]]
    for kind, lane, message in read_events(items):
        if kind == 0:
            calls += 1
            xid, procedure, asked = read_call(message)
            unanswered[lane, xid] = calls, procedure, asked
        elif kind == 1:
            xid, result = read_reply(message)
            number, procedure, asked = unanswered.pop((lane, xid))
            if procedure in JUDGED and result is not None:
                eras[-1].append(number)
                if result.word() == 0:
                    objects.note(number, procedure, asked, result)
        elif kind == 3:
            eras.append([])
    print("witness 1")
    for handle, made in sorted(objects.of_handle.items()):
        if made:
            print("bind %s %d" % (handle.hex(), made))
    for era, places in enumerate(eras):
        if era:
            print("cut %d" % len(eras[era - 1]))
        for number in places:
            print("place %d" % number)
    print("end")


main()
