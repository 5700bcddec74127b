"""A recording by `nfsbench tap --strict`, and the clients that visit it."""
import subprocess
import time

from differ import layouts as nfs
from differ.rpc import read_reply
from large.wire import call_message
from wrong.nights import EXPORT
from wrong.peer import Peer
from wrong.process import ServerProcess, soon, started
from wrong.sample import NOTHING, spelled
from wrong.trial import Trial, listens

from .faults import check_fault
from .proxy import Proxy, close
from .runs import PATIENCE, Answer, Setting


class Visitor:
    """A client of a recorder, which makes a few calls."""

    def __init__(self, port: int, root: bytes, seconds: float = 10):
        self.peer, self.root, self.xid = Peer(port, seconds), root, 0

    def send(self, procedure: int, arguments: dict) -> None:
        self.xid += 1
        self.peer.send(call_message(self.xid, procedure, spelled(procedure, arguments)))

    def call(self, procedure: int, arguments: dict):
        """The record of the reply, or None."""
        self.send(procedure, arguments)
        return self.peer.receive()

    def asked(self, procedure: int, arguments: dict) -> dict:
        return nfs.read_result(procedure, read_reply(self.call(procedure, arguments))["result"])[1]

    def make(self, name: bytes) -> bytes:
        return self.asked(nfs.CREATE, {"dir": self.root, "name": name, "how": (nfs.UNCHECKED, NOTHING)})["handle"]

    def find(self, name: bytes) -> bytes:
        return self.asked(nfs.LOOKUP, {"dir": self.root, "name": name})["handle"]

    def write(self, file: bytes, data: bytes = b"abc", level: int = nfs.FILE_SYNC):
        return self.call(nfs.WRITE, {"object": file, "offset": 0, "count": len(data), "level": level, "data": data})

    def read(self, file: bytes):
        return self.call(nfs.READ, {"object": file, "offset": 0, "count": 100})

    def visit(self, name: bytes = b"a") -> "Visitor":
        """Makes a file, writes and reads it."""
        file = self.make(name)
        self.write(file)
        self.read(file)
        return self

    def leave(self, is_reset: bool = False) -> None:
        close(self.peer.sock, is_reset)
        self.peer.coming.close()


class Recording:
    """A server, a recorder before it by `tap --strict`, and its orders. The recorder's port is `at`."""

    def __init__(self, setting: Setting, server: list[str], given=(), way=None, program=None, ends=("--orders",), name: str = "h.hist"):
        self.setting, self.port, self.at = setting, setting.port, setting.port + 3
        self.orders, self.history, self.heard = setting.folder / "orders", setting.folder / name, setting.folder / "tap"
        self.orders.touch()
        self.server, self.words_of_server = ServerProcess(setting.folder / "server", setting.port, server), server
        setting.ends.append(self.server.process.kill)
        if way is not None:
            setting.ends.append(Proxy(setting.port + 2, setting.port, way).close)
        line = [program or setting.program, "tap", "--strict", "--quiet", "--mount", str(self.port + 1), "--export", EXPORT, "--port", str(self.at),
                "--server", str(setting.port + 2 if way else setting.port), *given]
        self.tap = started([*line, *([*ends, str(self.orders)] if ends else []), str(self.history)], self.heard)
        setting.ends.append(self.tap.kill)
        assert soon(lambda: listens(self.at) or self.tap.poll() is not None, PATIENCE), "the recorder doesn't listen"
        self.root = Trial.mounted(self)

    def visitor(self, seconds: float = 10) -> Visitor:
        return Visitor(self.at, self.root, seconds)

    def order(self, text: str) -> None:
        with open(self.orders, "a") as file:
            file.write(text)

    def crash(self, order: str = "crash\n") -> None:
        self.server.crash()
        self.order(order)
        time.sleep(0.5)
        self.server.up()

    def end(self, order: str = "end\n") -> Answer:
        """What the recorder says, and where that is green what the history gets."""
        self.order(order)
        try:
            out, _ = self.tap.communicate(timeout=PATIENCE)
        except subprocess.TimeoutExpired:
            return Answer(None, "the recorder doesn't end")
        check_fault(self.words_of_server, self.server)
        answer = Answer(self.tap.returncode, out, self.heard.read_text().replace("the crash is noted\n", ""))
        return answer if answer.status else self.judged(answer)

    def judged(self, answer: Answer) -> Answer:
        """`search` and `report`, as README.md says."""
        found = self.setting.run("search", "--quiet", self.history)
        if found.status:
            return Answer(found.status, answer.out + found.out, answer.err + found.err)
        return self.setting.reported(self.history, found.out, answer)
