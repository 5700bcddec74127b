"""Ports and connections over TCP, with records as RFC 5531, section 11, marks them."""
import socket

from .loop import Loop
from .results import framed

HOST = "127.0.0.1"
RECORD_LIMIT, PIECE = 2_097_152, 262_144
LAST = 0x80000000
# `select` takes no more files than 1,024.
MOST_CONNECTIONS = 900


class Connection:
    """A client's connection. `take` is called with each record that comes."""

    def __init__(self, port: "Port", sock: socket.socket):
        self.port, self.sock = port, sock
        self.coming, self.record, self.leaving = bytearray(), bytearray(), bytearray()
        self.is_open, self.is_ending = True, False
        sock.setblocking(False)
        sock.setsockopt(socket.IPPROTO_TCP, socket.TCP_NODELAY, 1)
        port.loop.readers[sock] = self.read

    def read(self) -> None:
        try:
            piece = self.sock.recv(PIECE)
        except BlockingIOError:
            return
        except OSError:
            piece = b""
        if not piece:
            self.close()
            return
        self.coming += piece
        self.take_records()

    def take_records(self) -> None:
        at = 0
        while self.is_open and len(self.coming) - at >= 4:
            head = int.from_bytes(self.coming[at:at + 4], "big")
            length = head & ~LAST
            if len(self.record) + length > RECORD_LIMIT:
                self.close()
                return
            if len(self.coming) - at - 4 < length:
                break
            self.record += self.coming[at + 4:at + 4 + length]
            at += 4 + length
            if head & LAST:
                record, self.record = bytes(self.record), bytearray()
                self.port.take(self, record)
        del self.coming[:at]

    def send(self, data: bytes) -> None:
        """Sends bytes now, or as soon as the client takes them."""
        if not self.is_open or self.is_ending:
            return
        self.leaving += data
        self.write()

    def write(self) -> None:
        try:
            sent = self.sock.send(self.leaving) if self.leaving else 0
        except BlockingIOError:
            sent = 0
        except OSError:
            self.close()
            return
        del self.leaving[:sent]
        if self.leaving:
            self.port.loop.writers[self.sock] = self.write
        elif self.is_ending:
            self.close()
        else:
            self.port.loop.writers.pop(self.sock, None)

    def end(self) -> None:
        """Closes the connection as soon as what was sent has left."""
        if self.is_open:
            self.is_ending = True
            self.write()

    def close(self) -> None:
        if self.is_open:
            self.is_open = False
            self.port.loop.forget(self.sock)
            self.port.connections.discard(self)
            self.sock.close()


class Port:
    """A port that listens, or doesn't, with its connections."""

    def __init__(self, loop: Loop, number: int, take):
        self.loop, self.number, self.take = loop, number, take
        self.sock = None
        self.connections: set[Connection] = set()

    def open(self) -> None:
        self.sock = socket.socket()
        self.sock.setsockopt(socket.SOL_SOCKET, socket.SO_REUSEADDR, 1)
        self.sock.bind((HOST, self.number))
        self.number = self.sock.getsockname()[1]
        self.sock.listen(256)
        self.sock.setblocking(False)
        self.loop.readers[self.sock] = self.accept

    def accept(self) -> None:
        try:
            sock, _ = self.sock.accept()
        except OSError:
            return
        if len(self.connections) < MOST_CONNECTIONS // 2:
            self.connections.add(Connection(self, sock))
        else:
            sock.close()

    def shut(self) -> None:
        """Ends all connections, and listens no more."""
        if self.sock is not None:
            self.loop.forget(self.sock)
            self.sock.close()
            self.sock = None
        for connection in list(self.connections):
            connection.close()


def answer(connection: Connection, message) -> None:
    if message is not None:
        connection.send(framed(message))
