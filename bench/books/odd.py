"""Messages that a book takes though they are spelled oddly, and messages that it refuses."""
from books.calls import Calls
from books.tree import FILE_LIMIT, handle_of
from books.wire import (
    CREATE, GETATTR, GUARDED, LOOKUP, REMOVE, RMDIR, SETATTR, UNCHECKED, WRITE, arguments, call_message, opaque,
    reply_message, words,
)


def with_padding(calls: Calls, xid: int, call: dict) -> bytes:
    """With bytes in the padding of its credential."""
    head = words(xid, 0, 2, 100003, 3, call["procedure"], 1, 5) + b"12345pad" + words(0, 0)
    return head + arguments(call)


def with_credential(calls: Calls, xid: int, call: dict) -> bytes:
    """With a credential of the longest body, and a verifier of RPCSEC_GSS."""
    head = words(xid, 0, 2, 100003, 3, call["procedure"], calls.dice.choice((1, 3, 77))) + opaque(bytes(400))
    return head + words(6) + opaque(b"sealed") + arguments(call)


def with_padded_name(calls: Calls, xid: int, call: dict) -> bytes:
    """With bytes in the padding of what ends its arguments."""
    message = call_message(xid, call)
    last = call.get("data") if call["procedure"] == WRITE else call["name"]
    padding = -len(last) % 4
    return message[:len(message) - padding] + b"\xff" * padding


def odd_message(calls: Calls, xid: int, call: dict) -> bytes:
    forms = [with_padding, with_credential]
    if call["procedure"] in (WRITE, LOOKUP, REMOVE, RMDIR):
        forms.append(with_padded_name)
    return calls.dice.choice(forms)(calls, xid, call)


# What no book takes. Each is made of a call of any procedure, or makes its own.

def headed(xid: int, procedure: int, body: bytes, kind=0, rpc=2, program=100003, version=3, flavor=0) -> bytes:
    return words(xid, kind, rpc, program, version, procedure, flavor, 0, 0, 0) + body


def own(make):
    return lambda calls, xid, call: make(calls, xid)


def plain(calls: Calls, xid: int, call: dict, **other) -> bytes:
    return headed(xid, call["procedure"], arguments(call), **other)


def unjudged(calls: Calls, xid: int) -> bytes:
    procedure = calls.dice.choice((0, 4, 11, 15, 18, 19, 20, 22, 2 ** 32 - 1))
    return headed(xid, procedure, opaque(handle_of(0)))


def without_end(calls: Calls, xid: int, call: dict) -> bytes:
    message = call_message(xid, call)
    return message[:len(message) - 4 * calls.dice.randrange(1, 3)]


def without_bytes(calls: Calls, xid: int, call: dict) -> bytes:
    return call_message(xid, call)[:-calls.dice.randrange(1, 4)]


def cut_head(calls: Calls, xid: int, call: dict) -> bytes:
    return call_message(xid, call)[:4 * calls.dice.randrange(1, 10)]


def a_reply(calls: Calls, xid: int, call: dict) -> bytes:
    return reply_message(xid, {"procedure": GETATTR, "status": 70})


def long_credential(calls: Calls, xid: int, call: dict) -> bytes:
    head = words(xid, 0, 2, 100003, 3, call["procedure"], 1)
    return head + opaque(bytes(401)) + words(0, 0) + arguments(call)


def long_handle(calls: Calls, xid: int) -> bytes:
    return headed(xid, GETATTR, opaque(bytes(65)))


def bad_words(calls: Calls, xid: int) -> bytes:
    """A mode, a level, a time or a flag that is none."""
    root = opaque(handle_of(0))
    return calls.dice.choice((
        headed(xid, CREATE, root + opaque(b"a") + words(3) + bytes(24)),
        headed(xid, WRITE, root + words(0, 0, 0, 3, 0)),
        headed(xid, SETATTR, root + words(0, 0, 0, 0, 3, 0, 0)),
        headed(xid, SETATTR, root + words(2, 0, 0, 0, 0, 0, 0)),
    ))


def other_count(calls: Calls, xid: int) -> bytes:
    return headed(xid, WRITE, opaque(handle_of(1)) + words(0, 0, calls.dice.choice((0, 2, 4)), 0) + opaque(b"abc"))


def too_far(calls: Calls, xid: int) -> bytes:
    """A WRITE beyond the longest file."""
    offset = calls.dice.choice((FILE_LIMIT, FILE_LIMIT - 2, 2 ** 32, 2 ** 64 - 3, 2 ** 64 - 1))
    call = {"procedure": WRITE, "handle": handle_of(1), "offset": offset, "level": 0, "data": b"abc"}
    return call_message(xid, call)


def too_large(calls: Calls, xid: int) -> bytes:
    """A SETATTR or CREATE beyond the longest file."""
    size = calls.dice.choice((FILE_LIMIT + 1, 2 ** 32, 2 ** 64 - 1))
    if calls.chance(50):
        return call_message(xid, {"procedure": SETATTR, "handle": handle_of(1), "size": size, "guard": None})
    mode = calls.dice.choice((UNCHECKED, GUARDED))
    return call_message(xid, {"procedure": CREATE, "handle": handle_of(0), "name": b"a", "mode": mode, "size": size})


BAD = {
    "no bytes": lambda calls, xid, call: b"",
    "a cut head": cut_head,
    "a reply": a_reply,
    "another message type": lambda calls, xid, call: plain(calls, xid, call, kind=2),
    "another RPC version": lambda calls, xid, call: plain(calls, xid, call, rpc=3),
    "another program": lambda calls, xid, call: plain(calls, xid, call, program=100005),
    "another version": lambda calls, xid, call: plain(calls, xid, call, version=calls.dice.choice((2, 4))),
    "a sealed call": lambda calls, xid, call: plain(calls, xid, call, flavor=6),
    "a long credential": long_credential,
    "a procedure that isn't judged": own(unjudged),
    "cut arguments": without_end,
    "cut bytes": without_bytes,
    "bytes behind the arguments": lambda calls, xid, call: call_message(xid, call) + bytes(4),
    "a long handle": own(long_handle),
    "a word outside its list": own(bad_words),
    "another count": own(other_count),
    "a WRITE too far": own(too_far),
    "a size too large": own(too_large),
}


def bad_message(calls: Calls, kind: str, xid: int, call: dict) -> bytes:
    return BAD[kind](calls, xid, call)
