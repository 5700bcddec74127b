"""A history made by hand, call by call, with the certificate that has its calls in the order of their replies."""
from differ import layouts as nfs
from differ.runs import CallEvent, CloseEvent, CrashEvent, PlanEra, PlanPlace, ReplyEvent, Run
from differ.spelling import spell_certificate, spell_history

ROOT = bytes(8)
NO_WCC = {"before": None, "after": None}
NOTHING_SET = {"mode": None, "uid": None, "gid": None, "size": None, "atime": (0, None), "mtime": (0, None)}
VERIFIER = b"verifier"


def handle_of(number: int) -> bytes:
    return number.to_bytes(8, "big")


class Story:
    """`options` are words of the command line; `line` is what is printed in place of a page, if anything is."""

    def __init__(self, name: str, start=None):
        self.name, self.options, self.line = name, [], None
        self.run = Run(ROOT, eras=[PlanEra()], start=start)
        self.calls, self.waiting = 0, {}

    def call(self, procedure: int, arguments: dict, lane=1, **more) -> int:
        self.calls += 1
        self.run.events.append(CallEvent(lane, self.calls, procedure, arguments, **more))
        self.waiting[self.calls] = self.run.events[-1]
        return self.calls

    def answer(self, number: int, status: int, value: dict) -> None:
        event = self.waiting.pop(number)
        self.run.events.append(ReplyEvent(event.lane, event.xid, event.procedure, status, value))
        self.run.eras[-1].places.append(PlanPlace(number))

    def answered(self, procedure: int, arguments: dict, status: int, value: dict, lane=1, **more) -> int:
        number = self.call(procedure, arguments, lane, **more)
        self.answer(number, status, value)
        return number

    def crash(self) -> None:
        self.run.eras[-1].cut = len(self.run.eras[-1].places)
        self.run.events.append(CrashEvent())
        self.run.eras.append(PlanEra())
        self.waiting = {}

    def close(self, lane=1) -> None:
        self.run.events.append(CloseEvent(lane))

    def bind(self, handle: bytes, number: int) -> None:
        self.run.binds = sorted([*self.run.binds, (handle, number)])

    # Calls that each have an answer which the tree takes

    def absent(self, name: bytes, lane=1) -> int:
        """A LOOKUP of a name that isn't there."""
        return self.answered(nfs.LOOKUP, {"dir": ROOT, "name": name}, nfs.STATUSES["NOENT"], {"post": None}, lane)

    def full(self, name: bytes, lane=1) -> int:
        """A MKDIR that finds no room."""
        return self.answered(nfs.MKDIR, {"dir": ROOT, "name": name, "new": NOTHING_SET}, nfs.STATUSES["NOSPC"], {"weak": NO_WCC}, lane)

    def moved(self, name: bytes, other: bytes, lane=1) -> int:
        """A RENAME of a name that isn't there."""
        arguments = {"dir": ROOT, "name": name, "to_dir": ROOT, "to_name": other}
        return self.answered(nfs.RENAME, arguments, nfs.STATUSES["NOENT"], {"weak": NO_WCC, "to_weak": NO_WCC}, lane)

    def create(self, name: bytes, lane=1) -> bytes:
        """The handle of a new file."""
        number = self.call(nfs.CREATE, {"dir": ROOT, "name": name, "how": (nfs.UNCHECKED, NOTHING_SET)}, lane)
        self.answer(number, 0, {"handle": handle_of(number), "post": None, "weak": NO_WCC})
        self.bind(handle_of(number), number)
        return handle_of(number)

    def symlink(self, name: bytes, text: bytes, lane=1) -> bytes:
        number = self.call(nfs.SYMLINK, {"dir": ROOT, "name": name, "new": NOTHING_SET, "text": text}, lane)
        self.answer(number, 0, {"handle": handle_of(number), "post": None, "weak": NO_WCC})
        self.bind(handle_of(number), number)
        return handle_of(number)

    def write(self, file: bytes, data: bytes, lane=1, offset=0) -> int:
        arguments = {"object": file, "offset": offset, "count": len(data), "level": nfs.FILE_SYNC, "data": data}
        return self.answered(nfs.WRITE, arguments, 0, {"weak": NO_WCC, "count": len(data), "level": nfs.FILE_SYNC, "verifier": VERIFIER}, lane)

    def read(self, file: bytes, data: bytes, lane=1) -> int:
        """A READ of the whole file."""
        value = {"post": None, "count": len(data), "eof": True, "data": data}
        return self.answered(nfs.READ, {"object": file, "offset": 0, "count": 2**32 - 1}, 0, value, lane)

    def listed(self, names: list, lane=1) -> int:
        """A READDIR that gives these names of the root."""
        entries = [{"fileid": at, "name": name, "cookie": at} for at, name in enumerate(names, 1)]
        value = {"post": None, "verifier": bytes(8), "entries": entries, "eof": True}
        return self.answered(nfs.READDIR, {"dir": ROOT, "cookie": 0, "verifier": bytes(8), "count": 4096}, 0, value, lane)

    def files(self):
        return spell_history(self.run), spell_certificate(self.run)
