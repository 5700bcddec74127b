"""What a server reads a message as: a call of a judged procedure, which it records, or one that it answers by itself.

It is written from RFC 5531, RFC 1813 and the rules in docs/PROFILE.md and docs/FORMATS.md, apart from the crates' code.
"""
from dataclasses import dataclass

from books.tree import FBIG, FILE_LIMIT, INVAL, NOTSUPP
from books.wire import (
    COMMIT, CREATE, EXCLUSIVE, GETATTR, LOOKUP, MKDIR, READ, READDIR, READDIRPLUS, READLINK, RECORD_LIMIT, REMOVE,
    RENAME, RMDIR, SETATTR, SYMLINK, WRITE, words,
)

HANDLE_LIMIT, CREDENTIAL_LIMIT = 64, 400
PROGRAM, VERSION, SEALED, LAST_PROCEDURE = 100003, 3, 6, 21
# How a call is answered in RPC: accepted or denied, and why.
PROG_UNAVAIL, PROG_MISMATCH, PROC_UNAVAIL, GARBAGE_ARGS, AUTH_ERROR = 1, 2, 3, 4, 1
# The procedures that aren't served, and how many optional attributes a failure of each has.
UNSERVED = {4: 1, 11: 2, 15: 3, 18: 1, 19: 1, 20: 1}


class Unreadable(Exception):
    """Bytes aren't what is to be read of them."""


class Reader:
    """Items of XDR, read from the front."""

    def __init__(self, data: bytes):
        self.data, self.at = data, 0

    def fixed(self, length: int) -> bytes:
        end = self.at + length
        if end > len(self.data):
            raise Unreadable
        self.at, start = end, self.at
        return self.data[start:end]

    def word(self) -> int:
        return int.from_bytes(self.fixed(4), "big")

    def long(self) -> int:
        return int.from_bytes(self.fixed(8), "big")

    def one_of(self, *allowed: int) -> int:
        word = self.word()
        if word not in allowed:
            raise Unreadable
        return word

    def flag(self) -> bool:
        return self.one_of(0, 1) == 1

    def opaque(self, limit: int = 2 ** 32 - 1) -> bytes:
        length = self.word()
        if length > limit:
            raise Unreadable
        data = self.fixed(length)
        self.fixed(-length % 4)
        return data

    def end(self) -> None:
        if self.at != len(self.data):
            raise Unreadable


@dataclass
class Head:
    """What is ahead of a call's arguments."""
    xid: int
    program: int
    version: int
    procedure: int
    flavor: int
    arguments: bytes


def read_head(message: bytes) -> Head:
    """The head of an RPC call (RFC 5531, section 9)."""
    reader = Reader(message)
    xid = reader.word()
    reader.one_of(0)
    reader.one_of(2)
    program, version, procedure, flavor = (reader.word() for _ in range(4))
    reader.opaque(CREDENTIAL_LIMIT)
    reader.word()
    reader.opaque(CREDENTIAL_LIMIT)
    return Head(xid, program, version, procedure, flavor, message[reader.at:])


def read_time(reader: Reader) -> None:
    if reader.one_of(0, 1, 2) == 2:
        reader.long()


def read_attributes(reader: Reader) -> int | None:
    """The size in the attributes that a call sets. The others have no effect."""
    for _ in range(3):
        if reader.flag():
            reader.word()
    size = reader.long() if reader.flag() else None
    read_time(reader)
    read_time(reader)
    return size


def read_name(reader: Reader) -> dict:
    return {"handle": reader.opaque(HANDLE_LIMIT), "name": reader.opaque()}


def read_data(reader: Reader, procedure: int) -> dict:
    """Of a procedure that takes one handle and no name, what is behind the handle."""
    if procedure == SETATTR:
        size = read_attributes(reader)
        return {"size": size, "guard": [reader.word(), reader.word()] if reader.flag() else None}
    if procedure in (READ, COMMIT):
        return {"offset": reader.long(), "count": reader.word()}
    if procedure == WRITE:
        asked = {"offset": reader.long(), "count": reader.word(), "level": reader.one_of(0, 1, 2)}
        return asked | {"data": reader.opaque()}
    if procedure in (READDIR, READDIRPLUS):
        asked = {"cookie": reader.long(), "verifier": reader.long(), "count": reader.word()}
        return asked | ({"most": reader.word()} if procedure == READDIRPLUS else {})
    assert procedure in (GETATTR, READLINK)
    return {}


def read_made(reader: Reader, procedure: int) -> dict:
    """Of a procedure that makes an object, what is behind the name."""
    if procedure == CREATE:
        mode = reader.one_of(0, 1, 2)
        if mode == EXCLUSIVE:
            return {"mode": mode, "verifier": reader.long(), "size": None}
        return {"mode": mode, "verifier": None, "size": read_attributes(reader)}
    size = read_attributes(reader)
    return {"size": size} | ({"text": reader.opaque()} if procedure == SYMLINK else {})


def read_arguments(procedure: int, data: bytes) -> dict:
    """The call of a judged procedure (RFC 1813, section 3.3)."""
    reader = Reader(data)
    call = {"procedure": procedure}
    if procedure in (LOOKUP, REMOVE, RMDIR):
        call |= read_name(reader)
    elif procedure == RENAME:
        call |= read_name(reader)
        call |= {"to_handle": reader.opaque(HANDLE_LIMIT), "to_name": reader.opaque()}
    elif procedure in (CREATE, MKDIR, SYMLINK):
        call |= read_name(reader)
        call |= read_made(reader, procedure)
    else:
        call["handle"] = reader.opaque(HANDLE_LIMIT)
        call |= read_data(reader, procedure)
    reader.end()
    return call


def accepted(xid: int, state: int, body: bytes = b"") -> bytes:
    return words(xid, 1, 0, 0, 0, state) + body


def failed(xid: int, status: int, absent: int) -> bytes:
    """A failure in NFS, with so many attributes absent."""
    return accepted(xid, 0, words(status) + words(*[0] * absent))


def is_too_far(call: dict) -> bool:
    """Whether a success might leave a file over its limit."""
    if call["procedure"] == WRITE:
        return call["count"] > 0 and call["offset"] + call["count"] > FILE_LIMIT
    return call["procedure"] in (SETATTR, CREATE) and call["size"] is not None and call["size"] > FILE_LIMIT


@dataclass
class Request:
    """What a message asks for. The kind tells of which sort it is, for a report."""
    kind: str
    xid: int = 0
    # The reply, where the server answers by itself, or the call, where it is recorded.
    reply: bytes | None = None
    call: dict | None = None


def answered_ahead(head: Head) -> Request | None:
    """What is answered whatever the arguments are."""
    xid, procedure = head.xid, head.procedure
    if head.program != PROGRAM:
        return Request("another program", xid, accepted(xid, PROG_UNAVAIL))
    if head.version != VERSION:
        return Request("another version", xid, accepted(xid, PROG_MISMATCH, words(VERSION, VERSION)))
    if head.flavor == SEALED:
        return Request("a sealed call", xid, words(xid, 1, 1, 1, AUTH_ERROR))
    if procedure > LAST_PROCEDURE:
        return Request("no procedure", xid, accepted(xid, PROC_UNAVAIL))
    if procedure == 0:
        return Request("NULL", xid, accepted(xid, 0))
    if procedure in UNSERVED:
        return Request(f"procedure {procedure}", xid, failed(xid, NOTSUPP, UNSERVED[procedure]))
    return None


def read_request(message: bytes) -> Request:
    if len(message) > RECORD_LIMIT:
        return Request("a message too long")
    try:
        head = read_head(message)
    except Unreadable:
        return Request("no call")
    ahead = answered_ahead(head)
    if ahead is not None:
        return ahead
    try:
        call = read_arguments(head.procedure, head.arguments)
    except Unreadable:
        return Request("garbage", head.xid, accepted(head.xid, GARBAGE_ARGS))
    if head.procedure == WRITE and call["count"] != len(call["data"]):
        return Request("another count", head.xid, failed(head.xid, INVAL, 2))
    if is_too_far(call):
        return Request("too far", head.xid, failed(head.xid, FBIG, 2))
    return Request("recorded", head.xid, call=call)
