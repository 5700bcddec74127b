"""Networks that are wrong: a proxy between a client and a server, and what it makes of the replies."""
import socket
import struct
import threading
import time

from wrong.network import HOST


class Proxy:
    """Stands between a client and a server on other ports. `way` gets each piece of the replies, and says what is passed on, or None to end both."""

    def __init__(self, port: int, server: int, way):
        self.server, self.way, self.socks = server, way, []
        self.listener = socket.create_server((HOST, port), backlog=64)
        threading.Thread(target=self.accept, daemon=True).start()

    def accept(self) -> None:
        while True:
            try:
                client, _ = self.listener.accept()
                self.socks.append(client)
                if self.server is None:
                    continue
                server = socket.create_connection((HOST, self.server))
            except OSError:
                return
            self.socks.append(server)
            threading.Thread(target=self.pump, args=(client, server, lambda piece, _: piece), daemon=True).start()
            threading.Thread(target=self.pump, args=(server, client, self.way), daemon=True).start()

    def pump(self, source, target, way) -> None:
        try:
            while piece := source.recv(65536):
                passed = way(piece, target)
                if passed is None:
                    break
                target.sendall(passed)
        except OSError:
            pass
        if not getattr(self.way, "keeps_open", False):
            close(source)
            close(target)

    def close(self) -> None:
        close(self.listener)
        for sock in self.socks:
            close(sock)


def close(sock, is_reset: bool = False) -> None:
    """Ends a connection, also where a thread waits for it."""
    try:
        if is_reset:
            sock.setsockopt(socket.SOL_SOCKET, socket.SO_LINGER, struct.pack("ii", 1, 0))
        else:
            sock.shutdown(socket.SHUT_RDWR)
    except OSError:
        pass
    sock.close()


class Way:
    """What becomes of the replies after so many bytes of them."""

    def __init__(self, after: int):
        self.left, self.lock = after, threading.Lock()

    def __call__(self, piece: bytes, target):
        with self.lock:
            self.left -= len(piece)
            return piece if self.left > 0 else self.changed(piece, target)


class Resets(Way):
    def changed(self, piece: bytes, target):
        close(target, is_reset=True)
        return None


class CutsRecord(Way):
    def changed(self, piece: bytes, target):
        target.sendall(piece[:len(piece) // 2])
        return None


class OneWay(Way):
    def changed(self, piece: bytes, target):
        return b""


class Hangs(OneWay):
    """The end of the client's side doesn't come through either."""
    keeps_open = True


class DropsNowAndThen(Way):
    def __init__(self, after: int):
        super().__init__(after)
        self.after = after

    def changed(self, piece: bytes, target):
        self.left = self.after
        return None


class Delays(Way):
    """Each piece comes so many seconds later."""

    def __init__(self, seconds: float, after: int = 0):
        super().__init__(after)
        self.seconds = seconds

    def changed(self, piece: bytes, target):
        time.sleep(self.seconds)
        return piece
