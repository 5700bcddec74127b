"""A call on its way, and what the server makes of its bytes."""
from typing import Optional

from differ import layouts as nfs
from differ.items import Bad, Source, Struct, Word, read_whole
from differ.rpc import AUTH_NONE, AUTH_SYS, GARBAGE_ARGS, PROC_UNAVAIL, PROG_MISMATCH, PROG_UNAVAIL, RPC_VERSION, SUCCESS, read_call

from .results import denied_credential, denied_version, reply_message, words
from .tree import Change

BAD_CREDENTIAL = 1
LAST_PROCEDURE = nfs.COMMIT
# The arguments of the procedures that are served and not judged. Those of MKNOD begin with a directory and a name; the rest isn't read.
OTHER_ARGUMENTS = {
    nfs.ACCESS: Struct(object=nfs.handle, access=Word()),
    nfs.FSSTAT: Struct(object=nfs.handle), nfs.FSINFO: Struct(object=nfs.handle), nfs.PATHCONF: Struct(object=nfs.handle),
    nfs.LINK: Struct(object=nfs.handle, dir=nfs.handle, name=nfs.name),
}
NODE_ARGUMENTS = Struct(dir=nfs.handle, name=nfs.name)


class Call:
    """A call of NFS version 3 with its arguments. `lane` is where the reply goes; `arrived` the moment at which the call came."""

    __slots__ = ("lane", "xid", "procedure", "arguments", "arrived", "weak_before", "results", "is_stable", "change", "commits")

    def __init__(self, lane, xid: int, procedure: int, arguments: dict):
        self.lane, self.xid, self.procedure, self.arguments = lane, xid, procedure, arguments
        self.arrived = 0
        self.weak_before: dict[str, bytes] = {}
        self.results = b""
        self.is_stable = True
        self.change: Optional[Change] = None
        self.commits: list[Change] = []

    @property
    def name(self) -> str:
        return nfs.NAMES[self.procedure]


def read_arguments(procedure: int, data: bytes) -> dict:
    if procedure == nfs.NULL:
        return {}
    if procedure == nfs.MKNOD:
        return NODE_ARGUMENTS.read(Source(data))
    return read_whole(nfs.ARGUMENTS.get(procedure) or OTHER_ARGUMENTS[procedure], data)


def read_head(message: bytes):
    """The head of a call, or the reply to one of another RPC version; None where it is no call."""
    try:
        return read_call(message), None
    except Bad:
        xid, kind, version = (int.from_bytes(message[at:at + 4], "big") for at in (0, 4, 8))
        is_other = len(message) >= 12 and kind == 0 and version != RPC_VERSION
        return None, denied_version(xid) if is_other else None


def refusal(head: dict, program: int, version: int, last_procedure: int) -> Optional[bytes]:
    """The reply to a call that RPC refuses, or None: the credential, the program, the version, the procedure."""
    xid = head["xid"]
    if head["flavor"] not in (AUTH_NONE, AUTH_SYS):
        return denied_credential(xid, BAD_CREDENTIAL)
    if head["program"] != program:
        return reply_message(xid, PROG_UNAVAIL, b"")
    if head["version"] != version:
        return reply_message(xid, PROG_MISMATCH, words(version, version))
    if head["procedure"] > last_procedure:
        return reply_message(xid, PROC_UNAVAIL, b"")
    return None


def read(lane, message: bytes):
    """The call, or else a reply that can be sent at once; both None where there is nothing to say."""
    head, reply = read_head(message)
    if head is None:
        return None, reply
    reply = refusal(head, nfs.PROGRAM, nfs.VERSION, LAST_PROCEDURE)
    if reply is not None:
        return None, reply
    try:
        return Call(lane, head["xid"], head["procedure"], read_arguments(head["procedure"], head["arguments"])), None
    except Bad:
        return None, reply_message(head["xid"], GARBAGE_ARGS, b"")


def accepted(call: Call) -> bytes:
    return reply_message(call.xid, SUCCESS, call.results)
