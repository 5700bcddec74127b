"""Items of XDR (RFC 4506), structs of RFC 1813 and the heads of RPC messages (RFC 5531), as large histories need them."""
import struct


def word(number: int) -> bytes:
    return struct.pack(">I", number)


def hyper(number: int) -> bytes:
    return struct.pack(">Q", number)


def opaque(data: bytes) -> bytes:
    return word(len(data)) + data + b"\0" * (-len(data) % 4)


ABSENT = word(0)
PRESENT = word(1)
NO_WCC = ABSENT * 2


def handle(number: int) -> bytes:
    """The handle of an object: its number in eight bytes."""
    return opaque(hyper(number))


def settings(size=None) -> bytes:
    """sattr3 that sets a size at most."""
    return ABSENT * 3 + (ABSENT if size is None else PRESENT + hyper(size)) + ABSENT * 2


def attributes(kind: int, size: int) -> bytes:
    """fattr3 of a type and a size."""
    return struct.pack(">5I2Q2I5Q", kind, 0o644, 1, 0, 0, size, size, 0, 0, 0, 7, 0, 0, 0)


def call_message(xid: int, procedure: int, arguments: bytes) -> bytes:
    return struct.pack(">6I", xid, 0, 2, 100003, 3, procedure) + b"\0" * 16 + arguments


def reply_message(xid: int, accepted: int, results: bytes) -> bytes:
    """An accepted reply: 0 is SUCCESS, 4 GARBAGE_ARGS."""
    return struct.pack(">3I", xid, 1, 0) + b"\0" * 8 + word(accepted) + results


def event(kind: int, lane: int, message: bytes) -> bytes:
    return struct.pack(">2I", kind, lane) + opaque(message)


def close_event(lane: int) -> bytes:
    return struct.pack(">2I", 2, lane)


CRASH_EVENT = word(3)
