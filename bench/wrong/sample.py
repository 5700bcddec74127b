"""Clients that draw calls, and recordings of a server without sockets, each with the order in which its calls took effect.

`differ`, which was written apart from this server, judges such a recording.
"""
import random
from typing import NamedTuple

from differ import layouts as nfs
from differ.items import Sink
from differ.verdicts import judge
from large.wire import CRASH_EVENT, call_message, event, opaque, word

from .calls import Call, accepted, read
from .server import Server, is_success
from .tree import Change

FILES, DIRECTORIES, LINKS = [b"f0", b"f1", b"f2"], [b"d0", b"d1"], [b"l0"]
WEIGHTS = {nfs.GETATTR: 5, nfs.SETATTR: 4, nfs.LOOKUP: 9, nfs.READLINK: 2, nfs.READ: 12, nfs.WRITE: 12, nfs.CREATE: 8, nfs.MKDIR: 3, nfs.SYMLINK: 2,
           nfs.REMOVE: 4, nfs.RMDIR: 3, nfs.RENAME: 5, nfs.READDIR: 4, nfs.READDIRPLUS: 4, nfs.COMMIT: 4}


class Mix(NamedTuple):
    """Which procedures clients call how often, and how many of their WRITEs are UNSTABLE."""
    weights: dict[int, int]
    unstable: float = 0.5


ALL = Mix(WEIGHTS)
WRITING = Mix({**WEIGHTS, nfs.WRITE: 40, nfs.READ: 20, nfs.CREATE: 4, nfs.REMOVE: 1, nfs.RENAME: 1, nfs.SETATTR: 1, nfs.MKDIR: 1})
COMMITTING = Mix({nfs.CREATE: 2, nfs.LOOKUP: 2, nfs.WRITE: 20, nfs.READ: 20, nfs.COMMIT: 15})
# A crash loses most where little is made safe.
LOSING = Mix({nfs.CREATE: 1, nfs.LOOKUP: 4, nfs.WRITE: 20, nfs.READ: 20, nfs.COMMIT: 1}, 0.95)
NESTING = Mix({nfs.MKDIR: 20, nfs.RENAME: 20, nfs.RMDIR: 15, nfs.CREATE: 8, nfs.LOOKUP: 10, nfs.READDIR: 3})
NAMING = Mix({nfs.CREATE: 10, nfs.REMOVE: 10, nfs.RENAME: 10, nfs.LOOKUP: 20, nfs.READDIR: 5})
# Each mix shows some faults well.
MIXES = [ALL, WRITING, COMMITTING, LOSING, NESTING, NAMING]
NOTHING = {"mode": None, "uid": None, "gid": None, "size": None, "atime": (0, None), "mtime": (0, None)}
CALL, REPLY = 0, 1
STRICT_HEAD = b"NFSHIST2"


class Client:
    """Draws calls over a few names, with the handles that replies gave."""

    def __init__(self, dice: random.Random, root: bytes, mix: Mix = ALL):
        self.dice, self.mix = dice, mix
        self.handles = {nfs.DIRECTORY: [root], nfs.REGULAR: [], nfs.LINK_TYPE: []}

    def handle(self, kind: int) -> bytes:
        """A handle of this kind mostly, of those that were learned last."""
        if self.dice.random() < 0.04 or not self.handles[kind]:
            kind = self.dice.choice([kind for kind, handles in self.handles.items() if handles])
        return self.dice.choice(self.handles[kind][-4:] + self.handles[kind][:1])

    def name(self) -> bytes:
        return self.dice.choice(self.dice.choice([FILES, FILES, DIRECTORIES, LINKS]))

    def wanted(self) -> dict:
        return {**NOTHING, "size": self.dice.choice([None, None, 0, 5, 40])}

    def draw(self) -> tuple[int, dict]:
        weights = self.mix.weights
        procedure = self.dice.choices(list(weights), list(weights.values()))[0]
        return procedure, getattr(self, nfs.NAMES[procedure].lower())()

    def getattr(self) -> dict:
        return {"object": self.handle(self.dice.choice([nfs.REGULAR, nfs.REGULAR, nfs.DIRECTORY]))}

    def setattr(self) -> dict:
        return {"object": self.handle(nfs.REGULAR), "new": self.wanted(), "guard": None}

    def lookup(self) -> dict:
        return {"dir": self.handle(nfs.DIRECTORY), "name": b".." if self.dice.random() < 0.05 else self.name()}

    def readlink(self) -> dict:
        return {"object": self.handle(nfs.LINK_TYPE)}

    def read(self) -> dict:
        return {"object": self.handle(nfs.REGULAR), "offset": self.dice.choice([0, 0, 0, 7]), "count": self.dice.choice([4, 100, 100])}

    def write(self) -> dict:
        data = self.dice.randbytes(self.dice.choice([0, 2, 8, 8, 12]))
        return {"object": self.handle(nfs.REGULAR), "offset": self.dice.choice([0, 0, 4, 10, 50]), "count": len(data),
                "level": self.level(), "data": data}

    def level(self) -> int:
        return nfs.UNSTABLE if self.dice.random() < self.mix.unstable else self.dice.choice([nfs.DATA_SYNC, nfs.FILE_SYNC])

    def create(self) -> dict:
        mode = self.dice.choice([nfs.UNCHECKED, nfs.GUARDED, nfs.EXCLUSIVE])
        how = self.dice.choice([b"verifier", b"another "]) if mode == nfs.EXCLUSIVE else self.wanted()
        return {"dir": self.handle(nfs.DIRECTORY), "name": self.dice.choice(FILES), "how": (mode, how)}

    def mkdir(self) -> dict:
        return {"dir": self.handle(nfs.DIRECTORY), "name": self.dice.choice(DIRECTORIES), "new": NOTHING}

    def symlink(self) -> dict:
        return {"dir": self.handle(nfs.DIRECTORY), "name": self.dice.choice(LINKS), "new": NOTHING, "text": b"to/" + self.name()}

    def remove(self) -> dict:
        return {"dir": self.handle(nfs.DIRECTORY), "name": self.name()}

    def rmdir(self) -> dict:
        return {"dir": self.handle(nfs.DIRECTORY), "name": self.dice.choice(DIRECTORIES)}

    def rename(self) -> dict:
        names = self.dice.choice([FILES, DIRECTORIES, LINKS])
        return {"dir": self.handle(nfs.DIRECTORY), "name": self.dice.choice(names), "to_dir": self.handle(nfs.DIRECTORY),
                "to_name": self.dice.choice(names) if self.dice.random() < 0.9 else self.name()}

    def readdir(self) -> dict:
        return {"dir": self.handle(nfs.DIRECTORY), "cookie": self.dice.choice([0, 0, 0, 2, 4]), "verifier": bytes(8),
                "count": self.dice.choice([180, 4096, 4096])}

    def readdirplus(self) -> dict:
        return {"dir": self.handle(nfs.DIRECTORY), "cookie": self.dice.choice([0, 0, 0, 2]), "verifier": bytes(8), "dircount": 4096,
                "maxcount": self.dice.choice([500, 8192, 8192])}

    def commit(self) -> dict:
        return {"object": self.handle(nfs.REGULAR), **self.dice.choice([{"offset": 0, "count": 0}, {"offset": 6, "count": 3}])}

    def learn(self, value: dict) -> None:
        """The handle that a success gives, with its object's type."""
        if value.get("handle") is not None and value["post"] is not None:
            known = self.handles[value["post"]["type"]]
            if value["handle"] in known[1:]:
                known.remove(value["handle"])
            if value["handle"] not in known:
                known.append(value["handle"])


def spelled(procedure: int, arguments: dict) -> bytes:
    sink = Sink()
    nfs.ARGUMENTS[procedure].write(sink, arguments)
    return sink.data()


class Recording:
    """Events as a recorder sees them, and the order of effects as the server alone knows it. Lane k is of client k in each era anew."""

    def __init__(self, server: Server, seed: int, clients: int, depth: int, mix: Mix = ALL):
        self.server, self.dice, self.depth = server, random.Random(f"{seed} recording"), depth
        self.clients = [Client(random.Random(f"{seed} client {number}"), server.root_handle, mix) for number in range(clients)]
        self.events: list[bytes] = []
        self.calls, self.waiting, self.done = 0, [], []
        self.numbers: dict[int, int] = {}                   # the number in the history of each call by its xid
        self.binds: dict[bytes, int] = {}
        self.eras: list[list[Call]] = [[]]                  # the calls in the order of their effects
        self.cuts: list[int] = []
        self.answered: set[int] = set()

    def lane(self, client: int) -> int:
        return len(self.eras) * len(self.clients) + client

    def send(self, client: int) -> None:
        procedure, arguments = self.clients[client].draw()
        self.calls += 1
        message = call_message(self.calls, procedure, spelled(procedure, arguments))
        self.events.append(event(CALL, self.lane(client), message))
        call, _ = read(client, message)
        self.server.arrive(call)
        self.waiting.append(call)

    def perform(self, call: Call) -> None:
        self.waiting.remove(call)
        self.server.perform(call)
        self.eras[-1].append(call)
        self.done.append(call)
        if is_success(call) and call.procedure in (nfs.CREATE, nfs.MKDIR, nfs.SYMLINK):
            entry = self.server.known(call.arguments["dir"]).entries.get(call.arguments["name"])
            if entry is not None:
                self.binds.setdefault(self.server.handle(entry.node), call.xid)

    def answer(self, call: Call) -> None:
        self.done.remove(call)
        self.server.answered(call)
        self.answered.add(call.xid)
        self.events.append(event(REPLY, self.lane(call.lane), accepted(call)))
        status, value = nfs.read_result(call.procedure, call.results)
        if status == 0:
            self.clients[call.lane].learn(value)

    def step(self) -> None:
        """A client sends, a call takes effect, or one is answered."""
        open_calls = [call.lane for call in self.waiting + self.done]
        free = [client for client in range(len(self.clients)) if open_calls.count(client) < self.depth]
        steps = [(self.send, free), (self.perform, self.waiting), (self.answer, self.done)]
        step, choices = self.dice.choice([pair for pair in steps if pair[1]])
        step(self.dice.choice(choices))

    def finish(self) -> None:
        """All calls that are on their way take effect and are answered."""
        while self.waiting:
            self.perform(self.waiting[0])
        while self.done:
            self.answer(self.done[0])

    def run(self, calls: int) -> None:
        end = self.calls + calls
        while self.calls < end:
            self.step()

    def crash(self) -> list[Change]:
        """The calls on their way stay without a reply. The cut is at the first change that was lost."""
        lost = {id(change) for change in self.server.crash()}
        places = self.placed(len(self.eras) - 1)
        self.cuts.append(next((at for at, call in enumerate(places) if id(call.change) in lost), len(places)))
        self.events.append(CRASH_EVENT)
        self.waiting, self.done = [], []
        self.eras.append([])
        return list(lost)

    def placed(self, era: int) -> list[Call]:
        """The calls of an era that a certificate places: answered ones, and those that changed the tree without a reply."""
        return [call for call in self.eras[era] if call.xid in self.answered or (call.procedure in nfs.MODIFYING and is_success(call))]

    def history(self, is_strict: bool) -> bytes:
        head = STRICT_HEAD + opaque(self.server.root_handle) + word(1) + word(0) if is_strict else b"NFSHIST1" + opaque(self.server.root_handle)
        return head + word(len(self.events)) + b"".join(self.events)

    def certificate(self, cuts: list[int]) -> bytes:
        lines = ["witness 1", *(f"bind {handle.hex()} {number}" for handle, number in sorted(self.binds.items()))]
        for era in range(len(self.eras)):
            lines += [self.place_line(call) for call in self.placed(era)]
            lines.append(f"cut {cuts[era]}" if era < len(cuts) else "end")
        return "".join(line + "\n" for line in lines).encode()

    def place_line(self, call: Call) -> str:
        if call.xid in self.answered:
            return f"place {call.xid}"
        return f"take {call.xid}" + (f" {len(call.arguments['data'])}" if call.procedure == nfs.WRITE else "")

    def verdict(self, is_strict: bool) -> str:
        """What the second checker says of the server's own order."""
        return judge(self.history(is_strict), self.certificate(self.cuts)).line

    def is_explained(self, is_strict: bool) -> bool:
        """Whether the order of the replies is a witness with some cut, where one client sent one call after the other over one crash at most."""
        cuts = [[cut] for cut in range(len(self.placed(0)) + 1)] if self.cuts else [[]]
        history = self.history(is_strict)
        return any(judge(history, self.certificate(cut)).line == "yes" for cut in cuts)
