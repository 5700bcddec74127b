"""A server on its two ports, up or down. Each call takes effect a little after it came, and is answered a little after that."""
import random

from .calls import Call, read
from .loop import Loop
from .mount import Mount
from .network import Connection, Port, answer
from .server import Server

MILLION = 1_000_000


class Host:
    def __init__(self, loop: Loop, server: Server, ports: tuple[int, int], export: bytes, seed: int, delay: int):
        """`delay` is in microseconds: the most by which an effect, and then the reply, comes later."""
        self.loop, self.server, self.delay = loop, server, delay / MILLION
        self.draws = random.Random(f"{seed} delays")
        self.mounts = Mount(export, server.root_handle)
        self.nfs = Port(loop, ports[0], self.take)
        self.mount = Port(loop, ports[1], lambda connection, message: answer(connection, self.mounts.answer(message)))
        self.is_up = False

    def later(self, step, call: Call) -> None:
        self.loop.after(self.draws.random() * self.delay, step, call)

    def take(self, connection: Connection, message: bytes) -> None:
        call, reply = read(connection, message)
        if call is None:
            answer(connection, reply)
            return
        self.server.arrive(call)
        self.later(self.perform, call)

    def perform(self, call: Call) -> None:
        self.server.perform(call)
        self.later(self.reply, call)

    def reply(self, call: Call) -> None:
        """What a closed connection can't carry any more is no answer."""
        if not call.lane.is_open:
            return
        data, ends = self.server.outgoing(call)
        self.server.answered(call)
        call.lane.send(data)
        if ends:
            call.lane.end()

    def up(self) -> None:
        if not self.is_up:
            self.nfs.open()
            self.mount.open()
            self.is_up = True

    def crash(self) -> str:
        """Ends all connections and forgets the calls that are on their way; the words say what was lost."""
        if not self.is_up:
            return "was down"
        self.is_up = False
        self.nfs.shut()
        self.mount.shut()
        for step in (self.perform, self.reply):
            self.loop.forget_moments(step)
        possible = len(self.server.journal.changes)
        return f"lost {len(self.server.crash())} of {possible} changes that a crash may lose"
