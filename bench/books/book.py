"""The book of a journal server, as a table: what each of its calls is answered, and what it then holds.

It is written from the calls' table and the machine's steps in words, apart from the crates' code. Every refusal that
applies is found, so that a run can be told in which pairs the order of the refusals was tried.
"""
from dataclasses import dataclass, field

from books.starts import Opening
from books.strict import agrees
from books.tree import Sight, Tree, opening_tree, outcome
from books.wire import COMMIT, CREATE, MKDIR, MODIFYING, RECORD_LIMIT, SYMLINK, WRITE, reply_message, tell

RUNNING, DOWN, DEAD = "running", "down", "dead"


@dataclass
class Placed:
    number: int
    reply: dict
    # How many records the journal had behind the place, and whether the last one is its own.
    records: int
    recorded: bool


@dataclass
class Begun:
    number: int
    lane: int
    xid: int
    era: int
    call: dict
    place: Placed | None = None
    answered: bool = False


@dataclass
class Device:
    """A list of records, here the tree behind each, and the call of each kind that fails."""
    fail_append: int
    fail_barrier: int
    fail_recover: int
    trees: list = field(default_factory=list)
    mark: int = 0
    faults: int = 0
    appends: int = 0
    barriers: int = 0
    recovers: int = 0

    def append_fails(self) -> bool:
        return self.appends + 1 == self.fail_append

    def barrier_fails(self) -> bool:
        return self.barriers + 1 == self.fail_barrier

    def recover_fails(self) -> bool:
        return self.recovers + 1 == self.fail_recover


class Book:
    def __init__(self, fail_append: int = 0, fail_barrier: int = 0, fail_recover: int = 0, opening: Opening = Opening()):
        self.opening = opening
        self.device = Device(fail_append, fail_barrier, fail_recover)
        self.era = 1
        self.condition = RUNNING
        self.tree: Tree = opening_tree(opening.start)
        # The objects that have a handle: those that stood at first, and those that calls made.
        self.made: set[int] = set(range(1, len(opening.start) + 1))
        self.calls: list[Begun] = []
        self.events = 0
        # The lanes and transaction numbers of unanswered calls.
        self.waiting: set[tuple[int, int]] = set()
        # The era in which a lane was last used, and in which it was closed.
        self.used: dict[int, int] = {}
        self.closed: dict[int, int] = {}
        # Of each era the places, and of each ended one how many records were kept.
        self.placed: list[list[Placed]] = [[]]
        self.kept: list[int] = []

    # What is looked up.

    def sight(self) -> Sight:
        return Sight(self.tree, self.made)

    def object_of(self, number: int) -> int:
        """The object that the call with this number makes, if it makes one."""
        return len(self.opening.start) + number

    def lane_refusals(self, lane: int) -> list[str]:
        out = []
        if self.used.get(lane, self.era) < self.era:
            out.append(f"EraOver {self.era}")
        if lane in self.closed:
            out.append("LaneClosed")
        return out

    def is_open(self, lane: int) -> bool:
        return not self.lane_refusals(lane)

    def begun(self, number: int) -> Begun | None:
        return self.calls[number - 1] if 1 <= number <= len(self.calls) else None

    def xid_waits(self, lane: int, xid: int) -> bool:
        return (lane, xid) in self.waiting

    def is_durable(self, begun: Begun) -> bool:
        placed, reply, mark = begun.place, begun.place.reply, self.device.mark
        if reply["status"] != 0:
            return True
        if reply["procedure"] == COMMIT:
            return placed.records <= mark
        if reply["procedure"] not in MODIFYING or (reply["procedure"] == WRITE and reply["level"] == 0):
            return True
        return placed.records <= mark

    def next_tree(self, begun: Begun, reply: dict) -> Tree | None:
        """The tree behind a place with this reply, where the call may be placed so."""
        if reply["status"] == 0 and reply["procedure"] in (WRITE, COMMIT) and reply["verifier"] != self.era:
            return None
        sight, own = self.sight(), self.object_of(begun.number)
        after = outcome(sight, own, begun.call, reply)
        if after is None or len(reply_message(begun.xid, reply)) > RECORD_LIMIT:
            return None
        if self.opening.strict and not agrees(sight, Sight(after, self.made | {own}), begun.call, reply):
            return None
        return after

    # What applies, in the table's order. The first is the answer.

    def begin_refusals(self, lane: int, xid: int | None, call: dict | None) -> list[str]:
        out = [] if self.condition == RUNNING else ["Down"]
        out += self.lane_refusals(lane)
        if call is None:
            out.append("BadRecord")
        if xid is not None and self.xid_waits(lane, xid):
            out.append("XidInUse")
        return out

    def token_refusals(self, begun: Begun | None) -> list[str]:
        out = [] if self.condition == RUNNING else ["Down"]
        if begun is None:
            return out + ["OutOfTurn"]
        if begun.era < self.era:
            out.append(f"EraOver {self.era}")
        if begun.lane in self.closed:
            out.append("LaneClosed")
        return out

    def place_refusals(self, number: int, reply: dict) -> list[str]:
        begun = self.begun(number)
        out = self.token_refusals(begun)
        if begun is None:
            return out
        if begun.place is not None:
            out.append("OutOfTurn")
        if self.next_tree(begun, reply) is None:
            out.append("NotLegal")
        if is_change(reply) and self.device.append_fails():
            out.append("DeviceFault")
        return out

    def flush_refusals(self) -> list[str]:
        out = [] if self.condition == RUNNING else ["Down"]
        return out + (["DeviceFault"] if self.device.barrier_fails() else [])

    def answer_refusals(self, number: int) -> list[str]:
        begun = self.begun(number)
        out = self.token_refusals(begun)
        if begun is None:
            return out
        if begun.place is None or begun.answered:
            out.append("OutOfTurn")
        if begun.place is not None and not self.is_durable(begun):
            out.append(f"NotDurable {self.device.mark}")
        return out

    def crash_refusals(self, keep: int) -> list[str]:
        out = ["Down"] if self.condition == DEAD else []
        if keep < self.device.mark:
            out.append(f"KeepTooSmall {self.device.mark}")
        if keep > len(self.device.trees):
            out.append(f"KeepTooLarge {len(self.device.trees)}")
        return out + (["DeviceFault"] if self.device.recover_fails() else [])

    # What it does. Each gives the refusals that applied, and the answer where there was none.

    def begin(self, lane: int, xid: int | None, call: dict | None):
        refusals = self.begin_refusals(lane, xid, call)
        if refusals:
            return refusals, None
        self.calls.append(Begun(len(self.calls) + 1, lane, xid, self.era, call))
        self.used[lane] = self.era
        self.waiting.add((lane, xid))
        self.events += 1
        return [], f"ok {len(self.calls)}"

    def place(self, number: int, reply: dict):
        refusals = self.place_refusals(number, reply)
        answer = refusals[0] if refusals else None
        if answer in ("NotLegal", "DeviceFault"):
            self.condition = DOWN
        if answer == "DeviceFault":
            self.device.appends += 1
            self.device.faults += 1
        if refusals:
            return refusals, None
        self.put(self.begun(number), reply)
        return [], "ok"

    def put(self, begun: Begun, reply: dict) -> None:
        before, self.tree = self.tree, self.next_tree(begun, reply)
        if is_change(reply):
            self.device.appends += 1
            self.device.trees.append(self.tree)
            if reply["procedure"] in (CREATE, MKDIR, SYMLINK) and len(self.tree.nodes) > len(before.nodes):
                self.made.add(self.object_of(begun.number))
        begun.place = Placed(begun.number, reply, len(self.device.trees), is_change(reply))
        self.placed[-1].append(begun.place)

    def flush(self):
        refusals = self.flush_refusals()
        if refusals and refusals[0] == "Down":
            return refusals, None
        self.device.barriers += 1
        if refusals:
            self.device.faults += 1
            self.condition = DOWN
            return refusals, None
        self.device.mark = len(self.device.trees)
        return [], "ok"

    def answer(self, number: int):
        refusals = self.answer_refusals(number)
        if refusals:
            return refusals, None
        begun = self.begun(number)
        begun.answered = True
        self.waiting.discard((begun.lane, begun.xid))
        self.events += 1
        return [], "ok " + tell(reply_message(begun.xid, begun.place.reply))

    def close(self, lane: int):
        refusals = self.lane_refusals(lane)
        if refusals:
            return refusals, None
        self.used[lane] = self.era
        self.closed[lane] = self.era
        self.events += 1
        return [], "ok"

    def crash(self, keep: int):
        refusals = self.crash_refusals(keep)
        if refusals and refusals[0] != "DeviceFault":
            return refusals, None
        self.device.recovers += 1
        if refusals:
            self.device.faults += 1
            self.condition = DEAD
            return refusals, None
        del self.device.trees[keep:]
        self.device.mark = keep
        self.tree = self.device.trees[-1] if self.device.trees else opening_tree(self.opening.start)
        self.era += 1
        self.events += 1
        self.condition = RUNNING
        self.placed.append([])
        self.kept.append(keep)
        return [], "ok"

    # What it tells.

    def journal(self) -> str:
        return f"{len(self.device.trees)} {self.device.mark} {self.device.faults} {self.events}"

    def tree_words(self) -> str:
        return tell(self.tree.printed())

    def line_of(self, placed: Placed) -> str | None:
        """The place of a call in the certificate."""
        if self.begun(placed.number).answered:
            return f"place {placed.number}"
        if not placed.recorded:
            return None
        count = f" {placed.reply['count']}" if placed.reply["procedure"] == WRITE else ""
        return f"take {placed.number}{count}"

    def certificate(self) -> str:
        lines = ["witness 1"] + [f"bind {number:016x} {number}" for number in sorted(self.made)]
        for era, places in enumerate(self.placed):
            listed = [(self.line_of(placed), placed) for placed in places]
            listed = [(line, placed) for line, placed in listed if line is not None]
            lines += [line for line, _ in listed]
            if era < len(self.kept):
                kept = [at + 1 for at, (_, placed) in enumerate(listed)
                        if placed.recorded and placed.records <= self.kept[era]]
                lines.append(f"cut {max(kept, default=0)}")
        return ";".join(lines + ["end"]) + ";"


def is_change(reply: dict) -> bool:
    """Whether it is the success of a modifying call."""
    return reply["status"] == 0 and reply["procedure"] in MODIFYING
