"""A plain client over TCP, as tests and trials need it: it sends records, and reads them."""
import socket
import struct

from large.wire import call_message

from .network import HOST
from .results import framed

LAST = 0x80000000


class Peer:
    def __init__(self, port: int, timeout: float = 10):
        self.sock = socket.create_connection((HOST, port), timeout)
        self.sock.setsockopt(socket.IPPROTO_TCP, socket.TCP_NODELAY, 1)
        self.coming = self.sock.makefile("rb")

    def send(self, message: bytes) -> None:
        self.sock.sendall(framed(message))

    def receive(self):
        """The next record, or None where the connection has ended."""
        try:
            head = self.coming.read(4)
            if len(head) < 4:
                return None
            length = struct.unpack(">I", head)[0] & ~LAST
            record = self.coming.read(length)
        except ConnectionResetError:
            return None
        return record if len(record) == length else None

    def call(self, xid: int, procedure: int, arguments: bytes):
        """One call, and the next record."""
        self.send(call_message(xid, procedure, arguments))
        return self.receive()

    def close(self) -> None:
        self.coming.close()
        self.sock.close()
