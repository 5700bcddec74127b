"""Faults of what files hold, and of what replies say of it."""
from differ import layouts as nfs
from differ.layouts import UNSTABLE

from . import results as wire
from .calls import Call
from .faults import STRICT, Faulty
from .results import word
from .server import is_success
from .tree import Node

FILLING = b"\xee"


class SwallowWrite(Faulty):
    """A WRITE is answered and not done."""

    def write(self, call: Call) -> bytes:
        results = super().write(call)
        write = call.change.write
        if write is not None and write.old != write.data and self.is_time(call):
            call.change.take_back()
        return results


def changes_what_is_judged(call: Call) -> bool:
    """Whether a call that succeeded left another tree, as far as it is judged."""
    if call.procedure == nfs.SETATTR and call.arguments["new"]["size"] is None:
        return False
    return call.procedure in nfs.MODIFYING and bool(call.change.undo)


class SwallowChange(Faulty):
    """A change other than a WRITE is answered and not done."""

    def run(self, call: Call) -> bytes:
        results = super().run(call)
        if call.procedure != nfs.WRITE and changes_what_is_judged(call) and self.is_time(call):
            call.change.take_back()
        return results


class FailedButDone(Faulty):
    """A change is done and answered by NFS3ERR_IO."""

    def perform(self, call: Call) -> None:
        super().perform(call)
        if is_success(call) and changes_what_is_judged(call) and self.is_time(call):
            call.results = word(nfs.STATUSES["IO"]) + self.failed(call)


class ReadFault(Faulty):
    """A READ is answered from another content of the file."""

    def content(self, call: Call, node: Node) -> bytearray:
        right = super().content(call, node)
        wrong = self.wrong_content(call, node)
        if wrong is None or not differs(call, right, wrong):
            return right
        return wrong if self.is_time(call) else right

    def wrong_content(self, call: Call, node: Node):
        """The content to answer from, or None."""
        raise NotImplementedError


def asked(call: Call) -> slice:
    return slice(call.arguments["offset"], call.arguments["offset"] + call.arguments["count"])


def differs(call: Call, one: bytearray, other: bytearray) -> bool:
    """Whether a READ shows different bytes of two contents."""
    return one[asked(call)] != other[asked(call)]


class TornRead(ReadFault):
    """A READ shows half of a WRITE."""

    def wrong_content(self, call: Call, node: Node):
        if node.last_write is None:
            return None
        half = node.last_write.content_halfway()
        return half if differs(call, node.last_write.content_before(), half) else None


class StaleRead(ReadFault):
    """A READ shows the bytes of before a WRITE that was answered."""

    def wrong_content(self, call: Call, node: Node):
        write = node.last_write
        return write.content_before() if write is not None and write.change.is_known_to(call) else None


class WrongEof(Faulty):
    """A READ says wrongly whether it reaches the end of the file."""

    def shown(self, call: Call, node: Node, data: bytes, is_end: bool) -> tuple[bytes, bool]:
        return data, is_end != self.is_time(call)


class WrongHole(Faulty):
    """A READ shows other bytes than zeros where nothing was written."""

    def shown(self, call: Call, node: Node, data: bytes, is_end: bool) -> tuple[bytes, bool]:
        offset = call.arguments["offset"]
        first, last = max(node.hole.start - offset, 0), min(node.hole.stop - offset, len(data))
        if first < last and not any(data[first:last]) and self.is_time(call):
            data = data[:first] + FILLING * (last - first) + data[last:]
        return data, is_end


class ReadsMore(Faulty):
    """A READ gives a byte more than was asked for."""

    def shown(self, call: Call, node: Node, data: bytes, is_end: bool) -> tuple[bytes, bool]:
        end = call.arguments["offset"] + len(data)
        if len(data) == call.arguments["count"] and end < node.size and self.is_time(call):
            return data + node.data[end:end + 1], end + 1 == node.size
        return data, is_end


def earlier_size(call: Call, node: Node):
    """The size of before the last change of a file's size, if that was answered before the call came, and None else."""
    resizing = node.last_resizing if node.is_file else None
    is_known = resizing is not None and resizing.change.is_known_to(call) and resizing.old_size != node.size
    return resizing.old_size if is_known else None


class StaleSize(Faulty):
    """GETATTR shows a size of before a change that was answered."""

    def getattr(self, call: Call) -> bytes:
        node = self.node(call)
        size = earlier_size(call, node)
        if size is None or not self.is_time(call):
            return super().getattr(call)
        return wire.attributes(node, size=size)


class StaleAttributes(Faulty):
    """The attributes in another reply than GETATTR's show a size of before a change that was answered."""
    seen = STRICT

    def attributes(self, call: Call, node: Node) -> bytes:
        size = earlier_size(call, node) if call.procedure in nfs.JUDGED - {nfs.GETATTR} else None
        if size is None or not self.is_time(call):
            return super().attributes(call, node)
        return wire.attributes(node, size=size)


class StaleBefore(Faulty):
    """The size of before a call, in its reply, is that of before an earlier change that was answered."""
    seen = STRICT

    def before(self, call: Call, node: Node) -> bytes:
        size = earlier_size(call, node)
        if size is None or not self.is_time(call):
            return super().before(call, node)
        return wire.hyper(size) + super().before(call, node)[8:]


class WrongType(Faulty):
    """GETATTR shows another type than the object's."""

    def getattr(self, call: Call) -> bytes:
        node = self.node(call)
        if not self.is_time(call):
            return super().getattr(call)
        return wire.attributes(node, kind=nfs.REGULAR if node.is_directory else nfs.DIRECTORY)


class LowerLevel(Faulty):
    """A WRITE is answered as less safe than was asked."""

    def level(self, call: Call) -> int:
        asked_level = super().level(call)
        return asked_level - 1 if asked_level > UNSTABLE and self.is_time(call) else asked_level


class TwoVerifiers(Faulty):
    """A WRITE or COMMIT shows another write verifier than those before it, without a crash between."""

    def shown_verifier(self, call: Call) -> bytes:
        right = super().shown_verifier(call)
        return bytes(8) if self.is_time(call) else right


KINDS = [SwallowWrite, SwallowChange, FailedButDone, TornRead, StaleRead, WrongEof, WrongHole, ReadsMore, StaleSize, WrongType, StaleAttributes,
         StaleBefore, LowerLevel, TwoVerifiers]
