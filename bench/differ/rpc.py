"""Heads of RPC messages (RFC 5531, section 9)."""
from .items import Bad, Opaque, Source, Word

CALL, REPLY = 0, 1
ACCEPTED, DENIED = 0, 1
SUCCESS, PROG_UNAVAIL, PROG_MISMATCH, PROC_UNAVAIL, GARBAGE_ARGS, SYSTEM_ERR = range(6)
RPC_MISMATCH, AUTH_ERROR = 0, 1
RPC_VERSION = 2
AUTH_NONE, AUTH_SYS, RPCSEC_GSS = 0, 1, 6
BODY_LIMIT = 400


def read_call(message: bytes) -> dict:
    """The head of a call; its arguments are the bytes behind it."""
    source = Source(message)
    call = {"xid": source.word()}
    if source.word() != CALL:
        raise Bad("type")
    if source.word() != RPC_VERSION:
        raise Bad("version")
    for field in ("program", "version", "procedure"):
        call[field] = source.word()
    call["flavor"] = source.word()
    Opaque(BODY_LIMIT).read(source)
    source.word()
    Opaque(BODY_LIMIT).read(source)
    call["arguments"] = source.rest()
    return call


def read_reply(message: bytes) -> dict:
    """The head of a reply. `result` is the bytes behind accepted and SUCCESS, or None with another reply, which nothing may follow."""
    source = Source(message)
    reply = {"xid": source.word(), "result": None}
    if source.word() != REPLY:
        raise Bad("type")
    if Word([ACCEPTED, DENIED]).read(source) == ACCEPTED:
        source.word()
        Opaque(BODY_LIMIT).read(source)
        accepted = Word(range(6)).read(source)
        if accepted == SUCCESS:
            reply["result"] = source.rest()
            return reply
        if accepted == PROG_MISMATCH:
            source.take(8)
    elif Word([RPC_MISMATCH, AUTH_ERROR]).read(source) == RPC_MISMATCH:
        source.take(8)
    else:
        source.word()
    source.end()
    return reply
