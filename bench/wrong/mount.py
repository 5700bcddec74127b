"""MOUNT version 3 (RFC 1813, appendix I): the root handle of one export. It keeps no list of who has mounted."""
from differ.items import Bad, Opaque, Source
from differ.rpc import AUTH_NONE, AUTH_SYS, GARBAGE_ARGS, SUCCESS

from .calls import read_head, refusal
from .results import ABSENT, PRESENT, opaque, reply_message, word, words

PROGRAM, VERSION = 100005, 3
NULL, MNT, DUMP, UMNT, UMNTALL, EXPORT = range(6)
OK, NO_ENTRY = 0, 2
PATH_LIMIT = 1024


class Mount:
    def __init__(self, export: bytes, root_handle: bytes):
        self.export, self.root_handle = export, root_handle
        # What each MNT is answered with, if it isn't 0.
        self.status = OK

    def answer(self, message: bytes):
        """The reply to a message, or None where it is no call."""
        head, reply = read_head(message)
        if head is None:
            return reply
        reply = refusal(head, PROGRAM, VERSION, EXPORT)
        if reply is not None:
            return reply
        try:
            return reply_message(head["xid"], SUCCESS, self.results(head["procedure"], Source(head["arguments"])))
        except Bad:
            return reply_message(head["xid"], GARBAGE_ARGS, b"")

    def results(self, procedure: int, source: Source) -> bytes:
        if procedure == MNT:
            path = Opaque(PATH_LIMIT).read(source)
            if self.status != OK:
                return word(self.status)
            if path.rstrip(b"/") != self.export.rstrip(b"/"):
                return word(NO_ENTRY)
            return word(OK) + opaque(self.root_handle) + words(2, AUTH_SYS, AUTH_NONE)
        if procedure == EXPORT:
            return PRESENT + opaque(self.export) + ABSENT + ABSENT
        return ABSENT if procedure == DUMP else b""
