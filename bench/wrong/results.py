"""Results in bytes (RFC 1813, section 3.3), and RPC's replies around them (RFC 5531, section 9)."""
import struct

from differ.rpc import AUTH_ERROR, DENIED, REPLY, RPC_MISMATCH, RPC_VERSION
from large.wire import ABSENT, PRESENT, hyper, opaque, reply_message, word

from .tree import Node

FILE_SYSTEM = 0x77726F6E67
BILLION = 1_000_000_000
NO_WCC = ABSENT * 2


def words(*numbers: int) -> bytes:
    return struct.pack(f">{len(numbers)}I", *numbers)


def time_words(nanoseconds: int) -> tuple[int, int]:
    seconds, rest = divmod(nanoseconds, BILLION)
    return seconds & 0xFFFFFFFF, rest


def links_of(node: Node) -> int:
    """A directory is linked to by its name, by its own `.`; what stands below it isn't counted."""
    return 2 if node.is_directory else node.links


def attributes(node: Node, size=None, kind=None) -> bytes:
    """fattr3. Another size or type than the node's may be shown."""
    size, kind = node.size if size is None else size, kind or node.kind
    return struct.pack(">5I2Q2I2Q6I", kind, node.mode, links_of(node), node.uid, node.gid, size, size, 0, 0, FILE_SYSTEM, node.number,
                       *time_words(node.atime), *time_words(node.mtime), *time_words(node.ctime))


def before(node: Node) -> bytes:
    """wcc_attr: size and times."""
    return struct.pack(">Q4I", node.size, *time_words(node.mtime), *time_words(node.ctime))


def denied_version(xid: int) -> bytes:
    return words(xid, REPLY, DENIED, RPC_MISMATCH, RPC_VERSION, RPC_VERSION)


def denied_credential(xid: int, why: int) -> bytes:
    return words(xid, REPLY, DENIED, AUTH_ERROR, why)


def framed(message: bytes) -> bytes:
    """A record of one fragment."""
    return word(0x80000000 | len(message)) + message


__all__ = ["ABSENT", "BILLION", "NO_WCC", "PRESENT", "attributes", "before", "denied_credential", "denied_version", "framed", "hyper", "opaque",
           "reply_message", "time_words", "word", "words"]
