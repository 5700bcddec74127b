#!/usr/bin/env python3
"""Makes a bundle for nfsbench: a history of N events and its certificate.

make_history.py N refused           the last event has an unknown kind word, so that nothing is replayed
make_history.py N replayed          a CREATE, then WRITEs and READs of one file in turn, each answered
make_history.py N common            the same, with handles of 32 bytes and AUTH_SYS credentials, as common clients have them
make_history.py N taken             a CREATE, then WRITEs of such a client, none answered and each taken as done
make_history.py N eras              as common, and the server goes down at each hundredth event; every place is kept
make_history.py N SHAPE FOLDER      the same, as the files FOLDER/history and FOLDER/certificate
"""
import os
import struct
import sys


def opaque(data):
    return struct.pack(">I", len(data)) + data + b"\0" * (-len(data) % 4)


# AUTH_NONE, and AUTH_SYS (RFC 5531, appendix A): stamp, machine, user, group, one more group
NOBODY = b"\0" * 16
USER = struct.pack(">I", 1) + opaque(b"\0" * 4 + opaque(b"client") + struct.pack(">IIII", 1000, 1000, 1, 1000)) + b"\0" * 8


class Client:
    """The calls of a client, and the replies to them; call n has transaction number n."""

    def __init__(self, credential, width):
        self.credential, self.width = credential, width
        self.root, self.file = opaque(b"\0" * width), opaque(b"\xaa" * width)

    def call(self, n, procedure, arguments):
        return struct.pack(">IIIIII", n, 0, 2, 100003, 3, procedure) + self.credential + arguments

    def create(self, n):
        asked = self.call(n, 8, self.root + opaque(b"a") + b"\0" * 4 + b"\0" * 24)
        return asked, reply(n, b"\0" * 4 + b"\0\0\0\1" + self.file + b"\0" * 12)

    def write(self, n):
        asked = self.call(n, 7, self.file + struct.pack(">QII", 0, 3, 2) + opaque(b"%03d" % (n % 1000)))
        return asked, reply(n, b"\0" * 12 + struct.pack(">IIQ", 3, 2, 1))

    def read(self, n):
        asked = self.call(n, 6, self.file + struct.pack(">QI", 0, 10))
        return asked, reply(n, b"\0" * 8 + struct.pack(">II", 3, 1) + opaque(b"%03d" % ((n - 1) % 1000)))

    def exchange(self, n):
        return self.create(n) if n == 1 else self.write(n) if n % 2 == 0 else self.read(n)


def reply(n, results):
    return struct.pack(">III", n, 1, 0) + b"\0" * 12 + results


def event(kind, message, lane=1):
    return struct.pack(">II", kind, lane) + opaque(message)


def answered(client, calls):
    """The events of calls that are answered, and their places."""
    for n in range(1, calls + 1):
        asked, given = client.exchange(n)
        yield event(0, asked) + event(1, given), "place %d" % n


def unanswered(client, calls):
    """The events of calls that get no reply, and their places."""
    yield event(0, client.create(1)[0]), "take 1"
    for n in range(2, calls + 1):
        yield event(0, client.write(n)[0]), "take %d 3" % n


def over_crashes(client, eras):
    """The events of eras of a hundred each: 49 answered calls, a close and, but for the last era, a crash."""
    for era in range(1, eras + 1):
        for n in range(49 * era - 48, 49 * era + 1):
            asked, given = client.exchange(n)
            yield event(0, asked, era) + event(1, given, era), "place %d" % n
        closed = struct.pack(">II", 2, era)
        yield (closed + struct.pack(">I", 3), "cut 49") if era < eras else (closed, None)


def main():
    events, shape = int(sys.argv[1]), sys.argv[2]
    client = Client(USER, 32) if shape in ("common", "taken", "eras") else Client(NOBODY, 1)
    count = events if shape == "taken" else events // 2 * 2
    if shape == "eras":
        count = events // 100 * 100 - 1
        made = over_crashes(client, events // 100)
    elif shape == "taken":
        made = unanswered(client, count)
    else:
        made = answered(client, count // 2)
    body, lines = bytearray(), ["witness 1", "bind " + "aa" * client.width + " 1"]
    for happened, place in made:
        body += happened
        lines += [place] if place else []
    if shape == "refused":
        body += struct.pack(">I", 9)
        count += 1
    history = b"NFSHIST1" + client.root + struct.pack(">I", count) + bytes(body)
    certificate = "\n".join(lines + ["end"]) + "\n"
    if len(sys.argv) == 3:
        sys.stdout.write(history.hex() + "\n" + certificate)
        return
    with open(os.path.join(sys.argv[3], "history"), "wb") as file:
        file.write(history)
    with open(os.path.join(sys.argv[3], "certificate"), "w") as file:
        file.write(certificate)


main()
