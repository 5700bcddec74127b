"""Servers that are wrong. Each is a fault beside those of `wrong`, which `wrong_server.py` serves."""
import sys
import time

from differ import layouts as nfs
from differ.rpc import PROC_UNAVAIL, SUCCESS
from wrong.calls import Call, accepted
from wrong.data_faults import ReadFault, changes_what_is_judged
from wrong.faults import Faulty, all_faults
from wrong.health_faults import OTHER_NUMBER
from wrong.process import ServerProcess
from wrong.results import denied_credential, framed, reply_message, words
from wrong.server import Failed, is_success
from wrong.tree import Change, Node
from wrong_server import Program, read_words


class AppliesNone(Faulty):
    """Each change is answered, and none is done."""

    def run(self, call: Call) -> bytes:
        results = super().run(call)
        if changes_what_is_judged(call):
            self.happens(call.name)
            call.change.take_back()
        return results


class EverySecond(Faulty):
    """Each second connection ends in place of its first reply."""

    def __init__(self, *words, **named):
        super().__init__(*words, **named)
        self.lanes = []

    def outgoing(self, call: Call) -> tuple[bytes, bool]:
        if call.lane not in self.lanes:
            self.lanes.append(call.lane)
        if self.lanes.index(call.lane) % 2 == 0:
            return super().outgoing(call)
        self.happens(call.name)
        return b"", True


class OtherFile(ReadFault):
    """A READ is answered with the bytes of another file."""

    def wrong_content(self, call: Call, node: Node):
        return next((other.data for other in self.tree.nodes.values() if other.is_file and other is not node and other.data), None)


class ReplyBefore(Faulty):
    """Each reply has the results of the connection's call before."""

    def __init__(self, *words, **named):
        super().__init__(*words, **named)
        self.last: dict = {}

    def outgoing(self, call: Call) -> tuple[bytes, bool]:
        results = self.last.get(call.lane, call.results)
        self.last[call.lane] = call.results
        self.happens(call.name)
        return framed(reply_message(call.xid, SUCCESS, results)), False


class OnlyOtherNumbers(Faulty):
    """Each reply has a transaction number that nobody sent."""

    def outgoing(self, call: Call) -> tuple[bytes, bool]:
        self.happens(call.name)
        return framed(reply_message(call.xid ^ OTHER_NUMBER, SUCCESS, call.results)), False


class CacheByNumber(Faulty):
    """A call is answered by what another connection's call of the same transaction number and procedure got, and isn't done."""

    def __init__(self, *words, **named):
        super().__init__(*words, **named)
        self.cache: dict = {}

    def perform(self, call: Call) -> None:
        lane, results = self.cache.get((call.xid, call.procedure), (call.lane, b""))
        if lane is call.lane:
            super().perform(call)
            self.cache[call.xid, call.procedure] = call.lane, call.results
        else:
            self.happens(call.name)
            call.change, call.results = Change(self.last_change), results


class CrossesLanes(Faulty):
    """A reply that says little waits for the other connection's reply of its transaction number; if that says as much, each gets the other's."""
    quiet = {nfs.SETATTR, nfs.REMOVE, nfs.RMDIR}

    def __init__(self, *words, **named):
        super().__init__(*words, **named)
        # The last transaction number of each connection, and the calls whose replies are kept back.
        self.reached: dict = {}
        self.held: dict[int, Call] = {}

    def arrive(self, call: Call) -> None:
        super().arrive(call)
        self.reached[call.lane] = call.xid

    def outgoing(self, call: Call) -> tuple[bytes, bool]:
        told, held = self.told(call), self.held.pop(call.xid, None)
        if held is not None:
            return self.answer_both(held, call, told is not None and told == self.told(held))
        if told is not None and any(lane.is_open and lane is not call.lane and xid < call.xid for lane, xid in self.reached.items()):
            self.held[call.xid] = call
            return b"", False
        return super().outgoing(call)

    def told(self, call: Call):
        """What is judged of a reply, if that is little: that it is a success, or the status of a failure."""
        if not is_success(call):
            return call.procedure, call.results[:4]
        return "success" if call.procedure in self.quiet else None

    def answer_both(self, held: Call, call: Call, is_crossed: bool) -> tuple[bytes, bool]:
        """Sends what was kept back, and the reply that came now: each to the other's connection, or to its own."""
        first, second = (call, held) if is_crossed else (held, call)
        if is_crossed:
            self.happens(f"xid {call.xid}")
        held.lane.send(framed(accepted(first)))
        return framed(accepted(second)), False


class GivesNoByte(Faulty):
    """Each READ of bytes gives none of them, and not the end."""

    def shown(self, call: Call, node: Node, data: bytes, is_end: bool) -> tuple[bytes, bool]:
        if not data:
            return data, is_end
        self.happens(call.name)
        return b"", False


class WritesNoByte(Faulty):
    """Each WRITE succeeds, and writes no byte."""

    def write(self, call: Call) -> bytes:
        self.file(call)
        self.happens(call.name)
        return self.weak(call, "object") + words(0, call.arguments["level"]) + self.shown_verifier(call)


class ListsNoName(Faulty):
    """Each list of a directory that holds something has no entry, and not the end."""

    def page(self, call: Call, directory: Node, page: list, is_end: bool, room: int) -> tuple[list[bytes], bool]:
        if not directory.entries:
            return super().page(call, directory, page, is_end, room)
        self.happens(call.name)
        return [], False


class ListsTooSmall(Faulty):
    """Each list of a directory that holds something fails with NFS3ERR_TOOSMALL."""

    def page(self, call: Call, directory: Node, page: list, is_end: bool, room: int) -> tuple[list[bytes], bool]:
        if directory.entries:
            self.happens(call.name)
            raise Failed("TOOSMALL")
        return super().page(call, directory, page, is_end, room)


class NothingAtAll(GivesNoByte, WritesNoByte, ListsNoName):
    """No READ gives a byte, no WRITE writes one, and no list has a name."""


class EndlessList(Faulty):
    """A list never ends: each page begins at the first name, and says that there are more."""

    def after(self, call: Call, directory: Node, cookie: int):
        return super().after(call, directory, 0)

    def page(self, call: Call, directory: Node, page: list, is_end: bool, room: int) -> tuple[list[bytes], bool]:
        self.happens(call.name)
        return super().page(call, directory, page, False, room)


class Fails(Faulty):
    """Each call of some procedures fails with NFS3ERR_IO once the export has something."""
    procedures: set = set()

    def run(self, call: Call) -> bytes:
        if call.procedure in self.procedures and self.tree.last_number > 1 and self.is_chosen():
            self.happens(call.name)
            raise Failed("IO")
        return super().run(call)

    def is_chosen(self) -> bool:
        return True


class FailsWrites(Fails):
    """Each WRITE fails with NFS3ERR_IO."""
    procedures = {nfs.WRITE}


class FailsReads(Fails):
    """Each READ fails with NFS3ERR_IO."""
    procedures = {nfs.READ}


class FailsRemoves(Fails):
    """Each REMOVE, RMDIR and RENAME fails with NFS3ERR_IO."""
    procedures = {nfs.REMOVE, nfs.RMDIR, nfs.RENAME}


class FailsCommits(Fails):
    """Each COMMIT fails with NFS3ERR_IO."""
    procedures = {nfs.COMMIT}


class FailsLists(Fails):
    """Each READDIR and READDIRPLUS fails with NFS3ERR_IO."""
    procedures = {nfs.READDIR, nfs.READDIRPLUS}


class DiskFull(Faulty):
    """The server's disk is full: each WRITE, and all that makes something, fails with NFS3ERR_NOSPC once a file is there."""

    def run(self, call: Call) -> bytes:
        if call.procedure in (nfs.WRITE, nfs.CREATE, nfs.MKDIR, nfs.SYMLINK) and self.tree.last_number > 3:
            self.happens(call.name)
            raise Failed("NOSPC")
        return super().run(call)


class FailsFifth(Fails):
    """One call in five fails with NFS3ERR_IO."""
    procedures = nfs.JUDGED

    def is_chosen(self) -> bool:
        return self.dice.randrange(5) == 0


class FailsAll(Fails):
    """After the first thing is made each call fails with NFS3ERR_IO."""
    procedures = nfs.JUDGED


class SwallowsUntilCrash(Faulty):
    """Before the first crash one call in a hundred is never answered."""
    has_crashed = False

    def outgoing(self, call: Call) -> tuple[bytes, bool]:
        is_early = not self.has_crashed and self.tree.last_number > 1
        return (b"", False) if is_early and self.is_time(call) else super().outgoing(call)

    def crash(self) -> list[Change]:
        self.has_crashed = True
        return super().crash()


class SlowBehindCrash(Faulty):
    """Behind the first crash a call takes half a second."""
    has_crashed = False

    def outgoing(self, call: Call) -> tuple[bytes, bool]:
        if self.has_crashed:
            self.happens(call.name)
            time.sleep(0.5)
        return super().outgoing(call)

    def crash(self) -> list[Change]:
        self.has_crashed = True
        return super().crash()


class SwallowsGetattr(Faulty):
    """No GETATTR is ever answered."""

    def outgoing(self, call: Call) -> tuple[bytes, bool]:
        if call.procedure != nfs.GETATTR:
            return super().outgoing(call)
        self.happens(call.name)
        return b"", False


class RefusesByRpc(Faulty):
    """Each WRITE is refused by RPC: PROC_UNAVAIL and MSG_DENIED in turn."""

    def perform(self, call: Call) -> None:
        if call.procedure == nfs.WRITE:
            call.change, call.results = Change(self.last_change), b""
        else:
            super().perform(call)

    def outgoing(self, call: Call) -> tuple[bytes, bool]:
        if call.procedure != nfs.WRITE:
            return super().outgoing(call)
        self.happens("a WRITE")
        return framed(reply_message(call.xid, PROC_UNAVAIL, b"") if self.times % 2 else denied_credential(call.xid, 1)), False


KINDS = [AppliesNone, EverySecond, OtherFile, ReplyBefore, OnlyOtherNumbers, CacheByNumber, CrossesLanes, GivesNoByte, WritesNoByte, ListsNoName,
         ListsTooSmall, NothingAtAll, EndlessList, DiskFull, FailsWrites, FailsReads, FailsRemoves, FailsCommits, FailsLists, FailsFifth, FailsAll,
         SwallowsUntilCrash, SlowBehindCrash, SwallowsGetattr, RefusesByRpc]


def serve() -> None:
    """This script as a server: `--serve`, and the words of wrong_server.py."""
    sys.argv.remove("--serve")
    faults = all_faults() | {kind.name(): kind for kind in KINDS}
    Program(read_words(faults), faults).run()


def fault(kind, often: int = 1) -> list[str]:
    """The words for a server with this fault: a class, or the name of one of `wrong`."""
    return ["--serve", "--fault", kind if isinstance(kind, str) else kind.name(), "--often", str(often)]


def check_fault(words_of_server: list[str], server: ServerProcess) -> None:
    """A row says nothing where what is wrong never came about."""
    assert "--fault" not in words_of_server or server.times(), "the fault never happened"


RIGHT = ["--serve"]
