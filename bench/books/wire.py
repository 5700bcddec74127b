"""Messages in bytes, and how bytes are spelled in a line.

A call and a reply are dictionaries: the procedure's number as `procedure`, a reply's `status`, and the fields of the
message by name. Optional attributes are absent, or a list of words.
"""
import struct

GETATTR, SETATTR, LOOKUP, READLINK, READ, WRITE, CREATE, MKDIR, SYMLINK = 1, 2, 3, 5, 6, 7, 8, 9, 10
REMOVE, RMDIR, RENAME, READDIR, READDIRPLUS, COMMIT = 12, 13, 14, 16, 17, 21
JUDGED = (GETATTR, SETATTR, LOOKUP, READLINK, READ, WRITE, CREATE, MKDIR, SYMLINK,
          REMOVE, RMDIR, RENAME, READDIR, READDIRPLUS, COMMIT)
MODIFYING = (SETATTR, WRITE, CREATE, MKDIR, SYMLINK, REMOVE, RMDIR, RENAME)
NAMES = {GETATTR: "GETATTR", SETATTR: "SETATTR", LOOKUP: "LOOKUP", READLINK: "READLINK", READ: "READ", WRITE: "WRITE",
         CREATE: "CREATE", MKDIR: "MKDIR", SYMLINK: "SYMLINK", REMOVE: "REMOVE", RMDIR: "RMDIR", RENAME: "RENAME",
         READDIR: "READDIR", READDIRPLUS: "READDIRPLUS", COMMIT: "COMMIT"}
UNCHECKED, GUARDED, EXCLUSIVE = 0, 1, 2
RECORD_LIMIT = 2_097_152
ATTRIBUTE_WORDS = 21


def words(*numbers: int) -> bytes:
    return struct.pack(f">{len(numbers)}I", *numbers)


def long(number: int) -> bytes:
    return struct.pack(">Q", number)


def opaque(data: bytes) -> bytes:
    return words(len(data)) + data + bytes(-len(data) % 4)


def spell(data: bytes) -> str:
    """Numbers of four bytes, runs of a byte, and what is left over, joined by points."""
    parts, at = [], 0
    whole = len(data) - len(data) % 4
    while at < whole:
        run = 4
        while at + run < whole and data[at:at + 4] == data[at + run:at + run + 4]:
            run += 4
        if run >= 12 and len(set(data[at:at + 4])) == 1:
            parts.append(f"{data[at]}*{run}")
            at += run
        else:
            parts.append(str(int.from_bytes(data[at:at + 4], "big")))
            at += 4
    if whole < len(data):
        parts.append("x" + data[whole:].hex())
    return ".".join(parts)


def tell(data: bytes) -> str:
    """Numbers of four bytes, joined by points."""
    assert len(data) % 4 == 0
    return ".".join(str(word) for (word,) in struct.iter_unpack(">I", data))


def set_attributes(size: int | None, extra: bool = False) -> bytes:
    mode = words(1, 420) if extra else words(0)
    sized = words(0) if size is None else words(1) + long(size)
    times = words(2, 5, 6, 1) if extra else words(0, 0)
    return mode + words(0, 0) + sized + times


def arguments(call: dict) -> bytes:
    """The arguments of a judged procedure (RFC 1813, section 3.3)."""
    procedure = call["procedure"]
    handle = opaque(call["handle"])
    if procedure in (GETATTR, READLINK):
        return handle
    if procedure == SETATTR:
        guard = words(0) if call["guard"] is None else words(1, *call["guard"])
        return handle + set_attributes(call["size"], call.get("extra", False)) + guard
    if procedure in (READ, COMMIT):
        return handle + long(call["offset"]) + words(call["count"])
    if procedure == WRITE:
        head = handle + long(call["offset"]) + words(call.get("count", len(call["data"])), call["level"])
        return head + opaque(call["data"])
    if procedure == READDIR:
        return handle + long(call["cookie"]) + long(call["verifier"]) + words(call["count"])
    if procedure == READDIRPLUS:
        return handle + long(call["cookie"]) + long(call["verifier"]) + words(call["count"], call["most"])
    named = handle + opaque(call["name"])
    if procedure in (LOOKUP, REMOVE, RMDIR):
        return named
    if procedure == RENAME:
        return named + opaque(call["to_handle"]) + opaque(call["to_name"])
    if procedure == CREATE:
        if call["mode"] == EXCLUSIVE:
            return named + words(EXCLUSIVE) + long(call["verifier"])
        return named + words(call["mode"]) + set_attributes(call["size"], call.get("extra", False))
    attributes = set_attributes(call["size"], call.get("extra", False))
    if procedure == MKDIR:
        return named + attributes
    assert procedure == SYMLINK
    return named + attributes + opaque(call["text"])


def call_message(xid: int, call: dict) -> bytes:
    head = words(xid, 0, 2, 100003, 3, call["procedure"], 0, 0, 0, 0)
    return head + arguments(call)


def optional(items: list[int] | None) -> bytes:
    return words(0) if items is None else words(1, *items)


def around(reply: dict, which: str = "") -> bytes:
    """The attributes of a changed object: ahead of the change, six words, and behind it."""
    return optional(reply.get("before" + which)) + optional(reply.get("after" + which))


def listing(reply: dict, with_handles: bool) -> bytes:
    out = optional(reply.get("after")) + long(reply["verifier"])
    for entry in reply["entries"]:
        out += words(1) + long(entry["fileid"]) + opaque(entry["name"]) + long(entry["cookie"])
        if with_handles:
            out += optional(entry.get("attributes"))
            out += words(0) if entry["handle"] is None else words(1) + opaque(entry["handle"])
    return out + words(0, reply["eof"])


def failure(reply: dict) -> bytes:
    procedure = reply["procedure"]
    head = words(reply["status"])
    if procedure == GETATTR:
        return head
    if procedure in (LOOKUP, READLINK, READ, READDIR, READDIRPLUS):
        return head + optional(reply.get("after"))
    if procedure == RENAME:
        return head + around(reply) + around(reply, "_to")
    return head + around(reply)


def result(reply: dict) -> bytes:
    """The result of a judged procedure (RFC 1813, section 3.3)."""
    if reply["status"] != 0:
        return failure(reply)
    procedure = reply["procedure"]
    head = words(0)
    if procedure == GETATTR:
        return head + words(*reply["attributes"])
    if procedure == LOOKUP:
        return head + opaque(reply["handle"]) + optional(reply.get("object")) + optional(reply.get("after"))
    if procedure == READLINK:
        return head + optional(reply.get("after")) + opaque(reply["text"])
    if procedure == READ:
        count = reply.get("count", len(reply["data"]))
        return head + optional(reply.get("after")) + words(count, reply["eof"]) + opaque(reply["data"])
    if procedure == WRITE:
        return head + around(reply) + words(reply["count"], reply["level"]) + long(reply["verifier"])
    if procedure in (CREATE, MKDIR, SYMLINK):
        handle = words(0) if reply["handle"] is None else words(1) + opaque(reply["handle"])
        return head + handle + optional(reply.get("object")) + around(reply)
    if procedure in (READDIR, READDIRPLUS):
        return head + listing(reply, procedure == READDIRPLUS)
    if procedure == RENAME:
        return head + around(reply) + around(reply, "_to")
    if procedure == COMMIT:
        return head + around(reply) + long(reply["verifier"])
    assert procedure in (SETATTR, REMOVE, RMDIR)
    return head + around(reply)


def reply_message(xid: int, reply: dict) -> bytes:
    return words(xid, 1, 0, 0, 0, 0) + result(reply)
