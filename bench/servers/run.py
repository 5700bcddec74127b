"""A run of commands to servers, with their answers."""
import random
from collections import Counter

from books.book import RUNNING
from books.starts import Opening
from books.tree import handle_of
from books.wire import READDIR, READDIRPLUS, call_message, spell
from servers.calls import ServerCalls
from servers.replies import causes, reply_to
from servers.server import Pass, Server

# Of so many calls the one is taken that shows what was shown least often.
DRAWN = 4
LANES = 4
ATTRIBUTES = ("after", "before", "after_to", "before_to", "object")


def move_handle(handle: bytes, by: int) -> bytes:
    """The handle of an object with a higher number. The root stays, and what is none of a number."""
    number = int.from_bytes(handle, "big")
    return handle_of(number + by) if len(handle) == 8 and 0 < number < 2 ** 63 else handle


def move_call(call: dict, by: int) -> dict:
    return call | {name: move_handle(call[name], by) for name in ("handle", "to_handle") if name in call}


class Run:
    def __init__(self, seed: int):
        self.dice = random.Random(seed)
        self.calls = ServerCalls(self.dice)
        self.blocks: list[list[str]] = []
        self.wanted: list[str] = []
        self.server = Server()
        # The passes that closed no server, by their numbers, how many there were, and those of this server.
        self.passes: dict[int, Pass] = {}
        self.joined = 0
        self.own: list[int] = []
        self.xid = 0
        # What was reached.
        self.kinds, self.replies, self.causes, self.pairs = Counter(), Counter(), Counter(), Counter()
        self.faults, self.fault_pairs, self.done = Counter(), Counter(), Counter()
        self.eras = 0
        # How the next server begins, and by how much the objects are moved that calls by hand name; how many servers began with something or nothing and were strict or plain, and in replies of
        # which procedures, failures and successes, each of the optional attributes stood.
        self.opening, self.moved = Opening(), 0
        self.openings, self.attributes = Counter(), Counter()

    # Commands.

    def say(self, line: str, answer: str) -> str:
        self.blocks[-1].append(line)
        self.wanted.append(answer)
        return answer

    def count(self, word: str, refusals: list[str]) -> None:
        names = [refusal.split(" ")[0] for refusal in refusals]
        if names:
            self.faults[word, names[0]] += 1
        else:
            self.done[word] += 1
        for other in names[1:]:
            self.fault_pairs[word, names[0], other] += 1

    def new_server(self, faults: tuple[int, int, int] = (0, 0, 0), lanes: int = 0) -> list[int]:
        """Another server, and the passes that it gives."""
        self.server = Server(*faults, self.opening)
        self.blocks.append([f"server {faults[0]} {faults[1]} {faults[2]}{self.opening.spelled()}"])
        self.openings[bool(self.opening.start), self.opening.strict] += 1
        self.own, self.xid = [], 0
        self.eras += 1
        return self.join(lanes)

    def join(self, count: int = 1) -> list[int]:
        if not count:
            return []
        answer, given = "ok", []
        for _ in range(count):
            one = self.server.join()
            if one is None:
                answer = "TooManyLanes"
                break
            self.joined += 1
            self.passes[self.joined] = one
            given.append(self.joined)
        self.own += given
        self.count("join", [] if answer == "ok" else [answer])
        self.say(f"join {count}", answer)
        return given

    def call(self, number: int, message: bytes) -> str:
        given, server = self.passes[number], self.server
        book, condition = server.book, server.book.condition
        lane_refusals = book.lane_refusals(given.lane)
        answer = server.call(given, message)
        self.kinds[server.request.kind] += 1
        if server.request.reply is None:
            refusals = ["BadRecord"] if server.request.call is None else []
            refusals += ([] if condition == RUNNING else ["Down"]) + lane_refusals
            if not refusals and not answer.startswith("ok"):
                refusals = ["Down"]
            self.count("call", refusals)
        if server.reply is not None:
            self.count_reply(server.reply)
        return self.say(f"call {number} {spell(message)}".rstrip(), answer)

    def count_reply(self, reply: dict) -> None:
        self.replies[reply["procedure"], reply["status"]] += 1
        for name in ATTRIBUTES:
            self.attributes[reply["procedure"], reply["status"] == 0, name] += name in reply

    def record(self, number: int, call: dict, odd: bool = False) -> dict | None:
        """A call of a judged procedure, and the reply to it, if there was one."""
        self.xid += 1
        book, call = self.server.book, move_call(call, self.moved)
        held = [name for name, _ in causes(book.sight(), call)]
        message = self.calls.message(self.xid, call) if odd else call_message(self.xid, call)
        self.call(number, message)
        if self.server.reply is not None and self.server.reply["status"] != 0 and held:
            self.causes[call["procedure"], held[0]] += 1
            for other in held[1:]:
                self.pairs[call["procedure"], held[0], other] += 1
        return self.server.reply

    def leave(self, number: int) -> None:
        refusals = self.server.book.lane_refusals(self.passes[number].lane)
        self.count("leave", refusals)
        self.say(f"leave {number}", self.server.leave(self.passes[number]))

    def crash(self, extra: int) -> str:
        answer = self.server.crash(extra)
        self.count("crash", [] if answer == "ok" else [answer])
        self.eras += answer == "ok"
        return self.say(f"crash {extra}", answer)

    def close(self, numbers: list[int]) -> str:
        """The end of the server, by these passes, which are then gone."""
        closing = [self.passes.pop(number) for number in numbers]
        answer = self.server.close(closing)
        self.count("close", [answer] if answer in ("MissingPass",) or answer.startswith("Torn") else [])
        return self.say(" ".join(["close", *map(str, numbers)]), answer)

    def stdin(self) -> str:
        return "\n\n".join("\n".join(block) for block in self.blocks) + "\n"

    def stdout(self) -> str:
        return "\n".join(self.wanted) + "\n"

    # Steps that are drawn.

    def open_passes(self) -> list[int]:
        book = self.server.book
        return [number for number in self.own if number in self.passes and book.is_open(self.passes[number].lane)]

    def open_pass(self) -> int:
        given = self.open_passes()[-LANES:]
        return self.dice.choice(given) if given else self.join()[0]

    def any_pass(self) -> int:
        """A pass of any kind: one that left, one of an era that is over."""
        return self.dice.choice(self.own) if self.own else self.open_pass()

    def rarity(self, call: dict) -> int:
        """How often it was shown what a call would show now."""
        book, procedure = self.server.book, call["procedure"]
        held = [name for name, _ in causes(book.sight(), call)]
        reply = reply_to(book, len(book.calls) + 1, call)
        shown = self.replies[procedure, reply["status"]]
        if reply["status"] and held:
            shown = min(shown, self.causes[procedure, held[0]])
            shown = min([shown] + [self.pairs[procedure, held[0], other] for other in held[1:]])
        return shown

    def drawn_call(self) -> dict:
        if self.calls.chance(50):
            return self.calls.call(self.server.book)
        return min((self.calls.call(self.server.book) for _ in range(DRAWN)), key=self.rarity)

    def record_drawn(self) -> None:
        self.record(self.open_pass(), self.drawn_call(), odd=True)

    def call_odd(self) -> None:
        number = self.open_pass() if self.calls.chance(80) else self.any_pass()
        self.xid += 1
        self.call(number, self.calls.odd(self.xid, self.calls.call(self.server.book)))

    def record_refused(self) -> None:
        self.record(self.any_pass(), self.calls.call(self.server.book))

    def leave_drawn(self) -> None:
        self.leave(self.open_pass() if self.calls.chance(50) else self.any_pass())

    def list_pages(self) -> None:
        """A list in several parts, each behind the last cookie of the one before."""
        call = self.calls.call(self.server.book, self.dice.choice((READDIR, READDIRPLUS))) | {"cookie": 0}
        size = self.dice.choice((60, 100, 140, 200))
        call |= {"count": size, "most": size}
        number = self.open_pass()
        for _ in range(6):
            reply = self.record(number, call)
            if reply is None or reply["status"] != 0 or reply["eof"]:
                return
            call = call | {"cookie": reply["entries"][-1]["cookie"]}

    STEPS = {record_drawn: 200, call_odd: 24, record_refused: 5, leave_drawn: 4, list_pages: 4, join: 3}

    def step(self) -> None:
        self.dice.choices(list(self.STEPS), list(self.STEPS.values()))[0](self)

    def commands(self) -> int:
        return len(self.wanted)

    # Eras.

    def run_era(self, commands: int) -> None:
        """So many commands, or fewer where the server goes down."""
        last = self.commands() + commands
        while self.commands() < last and self.server.book.condition == RUNNING:
            self.step()

    def run_down(self, commands: int) -> None:
        """Commands to a server that is down."""
        steps = (self.record_refused, self.record_drawn, self.call_odd, self.leave_drawn, self.join)
        for _ in range(commands):
            self.dice.choices(steps, (4, 4, 3, 3, 1))[0]()

    def end_era(self) -> None:
        if self.server.book.condition != RUNNING:
            self.run_down(self.dice.randrange(4, 10))
        book = self.server.book
        lost = len(book.device.trees) - book.device.mark
        extra = self.dice.choice((0, self.dice.randrange(lost + 1), lost, lost + 1, 2 ** 64 - 1))
        if self.crash(extra) == "ok":
            for _ in range(self.dice.randrange(3)):
                self.dice.choice((self.record_refused, self.leave_drawn))()
            return
        self.run_down(self.dice.randrange(4, 10))
        self.crash(extra)

    def telling(self) -> list[int]:
        """The passes that tell of all that was answered, and some others of the server."""
        given = [number for number in self.own if number in self.passes]
        kept = [number for number in given if self.passes[number].exchanges or self.calls.chance(50)]
        self.dice.shuffle(kept)
        return kept

    def end_server(self) -> None:
        """Closes the server, mostly by the passes that tell of all that was answered."""
        numbers = self.telling()
        if numbers and self.calls.chance(8):
            numbers.pop()
        others = [number for number in self.passes if number not in self.own]
        if others and self.calls.chance(8):
            numbers.insert(self.dice.randrange(len(numbers) + 1), self.dice.choice(others))
        self.close(numbers)
