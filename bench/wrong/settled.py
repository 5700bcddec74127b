"""Servers for the first minutes of a test: one that holds something, and one that refuses each call."""
from differ.layouts import REGULAR

from .calls import Call
from .server import Failed, Server
from .tree import Node


def hold(server: Server, count: int) -> None:
    """The root has so many files of one byte before the first call, and no crash takes them."""
    for number in range(count):
        server.tree.make(server.tree.root, b"held %d" % number, Node(server.tree.fresh_number(), REGULAR, bytearray(b"x")))


class RefusingServer(Server):
    """Each call but NULL fails with one status."""

    def __init__(self, seed: int, status: str):
        super().__init__(seed)
        self.status = status

    def run(self, call: Call) -> bytes:
        raise Failed(self.status)
