"""A right server that does, now and then, what RFC 1813 and `docs/PROFILE.md` leave to a server and clients may forget."""
import random

from differ import layouts as nfs
from differ.layouts import FILE_SYNC

from .calls import Call
from .results import ABSENT, NO_WCC
from .server import Failed, Server
from .tree import PARENT_COOKIE, Node


class FreeServer(Server):
    def __init__(self, seed: int = 1, often: int = 10):
        super().__init__(seed)
        self.dice, self.often, self.is_busy = random.Random(f"{seed} freedoms"), often, False

    def is_free(self) -> bool:
        return self.dice.randrange(self.often) == 0

    def perform(self, call: Call) -> None:
        """A call may be put off by NFS3ERR_JUKEBOX; then it has no effect."""
        self.is_busy = call.procedure in nfs.JUDGED and self.is_free()
        super().perform(call)

    def run(self, call: Call) -> bytes:
        if self.is_busy:
            raise Failed("JUKEBOX")
        return super().run(call)

    def shown(self, call: Call, node: Node, data: bytes, is_end: bool) -> tuple[bytes, bool]:
        """A READ may give fewer bytes than there are, and then not the end."""
        if len(data) < 2 or not self.is_free():
            return super().shown(call, node, data, is_end)
        return data[:self.dice.randrange(1, len(data))], False

    def taken(self, call: Call, data: bytes) -> bytes:
        """A WRITE may write fewer bytes than it brought."""
        return data[:self.dice.randint(1, len(data))] if self.is_free() else data

    def level(self, call: Call) -> int:
        """A WRITE may be safer than was asked."""
        asked = super().level(call)
        return FILE_SYNC if asked != FILE_SYNC and self.is_free() else asked

    def made_handle(self, call: Call, node: Node) -> bytes:
        return ABSENT if self.is_free() else super().made_handle(call, node)

    def post(self, call: Call, node: Node) -> bytes:
        return ABSENT if self.is_free() else super().post(call, node)

    def weak(self, call: Call, field: str) -> bytes:
        return NO_WCC if self.is_free() else super().weak(call, field)

    def after(self, call: Call, directory: Node, cookie: int):
        """A list may leave `.` and `..` out."""
        return super().after(call, directory, max(cookie, PARENT_COOKIE) if self.is_free() else cookie)

    def page(self, call: Call, directory: Node, page: list, is_end: bool, room: int) -> tuple[list[bytes], bool]:
        """A page may be shorter than there is room for."""
        if len(page) > 1 and self.is_free():
            page, is_end = page[:self.dice.randrange(1, len(page))], False
        return super().page(call, directory, page, is_end, room)

    def next_verifier(self, lost: list) -> bytes:
        """The write verifier may stay over a crash that lost nothing."""
        return self.verifier if not lost and self.is_free() else super().next_verifier(lost)
