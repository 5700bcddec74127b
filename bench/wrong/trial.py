"""A trial of the server: its clients are recorded by `nfsbench tap`, and the history is decided by `nfsbench decide`."""
import pathlib
import random
import subprocess
import threading
import time

from differ import layouts as nfs
from differ.items import Bad
from differ.rpc import read_reply
from large.wire import opaque

from .peer import Peer
from .process import ServerProcess, say, soon, started
from .results import word, words
from .sample import STRICT_HEAD, Client, Mix, spelled

PATIENCE = 3
ROOT_AT = 28


def listens(port: int) -> bool:
    """Asks without a connection, which would be a lane."""
    return any(f":{port:04X} 00000000:0000 0A" in line for line in open("/proc/net/tcp"))


class Caller(threading.Thread):
    """A client that makes its calls one after the other, on a connection of its own. `complaint` is what it missed."""

    def __init__(self, client: Client, port: int, calls: int):
        super().__init__(daemon=True)
        self.client, self.port, self.calls, self.complaint = client, port, calls, None

    def run(self) -> None:
        try:
            peer = Peer(self.port, PATIENCE)
            for xid in range(1, self.calls + 1):
                self.complaint = self.call(peer, xid)
                if self.complaint:
                    break
            peer.close()
        except TimeoutError:
            self.complaint = "no reply"
        except OSError:
            self.complaint = "the connection ended"
        except Bad:
            self.complaint = "an unreadable reply"

    def call(self, peer: Peer, xid: int):
        procedure, arguments = self.client.draw()
        record = peer.call(xid, procedure, spelled(procedure, arguments))
        if record is None:
            return "the connection ended"
        status, value = nfs.read_result(procedure, read_reply(record)["result"])
        if status == 0:
            self.client.learn(value)
        return None


class Trial:
    """The server with a recorder before it, on three ports from `port` on; files are in `folder`."""

    def __init__(self, program: str, folder: pathlib.Path, port: int, words_of_server: list[str]):
        self.program, self.folder, self.port = program, folder, port
        self.history = folder / "history"
        self.heard = folder / "tap"
        self.server = ServerProcess(folder / "server", port, words_of_server)
        self.root = self.mounted()
        line = [program, "tap", "--quiet", "--root", self.root.hex(), "--port", str(port + 2), "--server", str(port), str(self.history)]
        self.tap = started(line, self.heard)
        assert soon(lambda: listens(port + 2)), "the recorder doesn't listen"
        self.clients: list[Client] = []
        self.crashes, self.complaints = 0, []

    def mounted(self) -> bytes:
        """The root handle, from the reply to MNT."""
        peer = Peer(self.port + 1)
        peer.send(words(1, 0, 2, 100005, 3, 1, 0, 0, 0, 0) + opaque(b"/wrong"))
        record = peer.receive()
        peer.close()
        return record[ROOT_AT + 4:ROOT_AT + 4 + int.from_bytes(record[ROOT_AT:ROOT_AT + 4], "big")]

    def add_clients(self, count: int, seed: int, mix: Mix) -> None:
        self.clients = [Client(random.Random(f"{seed} client {number}"), self.root, mix) for number in range(count)]

    def run(self, calls: int, seconds=None) -> None:
        """All clients at once make so many calls each, or as many as they come to in so many seconds before a crash."""
        callers = [Caller(client, self.port + 2, calls) for client in self.clients]
        for caller in callers:
            caller.start()
        if seconds is not None:
            time.sleep(seconds)
            self.crash()
        for caller in callers:
            caller.join()
        if seconds is None:
            self.complaints += [caller.complaint for caller in callers if caller.complaint]

    def crash(self) -> None:
        self.server.crash()
        self.crashes += 1
        say(self.tap, "crash")
        assert soon(lambda: self.heard.read_text().count("the crash is noted") == self.crashes), "the crash isn't noted"
        self.server.up()

    def end(self) -> None:
        self.tap.communicate()
        if not self.server.end():
            self.complaints.append("the server ended")

    def recorder_complaints(self) -> list[str]:
        return sorted({word for line in self.heard.read_text().splitlines() for word in ("NoSuchCall", "BadRpc", "RecordTooLong") if word in line})

    def decided(self, is_strict: bool) -> str:
        """The line of `decide`: of the history as it is, or of the same under the strict profile."""
        history = self.history
        if is_strict:
            data, end = history.read_bytes(), 8 + len(opaque(self.root))
            history = self.folder / "strict"
            history.write_bytes(STRICT_HEAD + data[8:end] + word(1) + word(0) + data[end:])
        return subprocess.run([self.program, "decide", str(history)], capture_output=True, text=True).stdout.strip()
