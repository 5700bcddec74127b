"""A run of commands to books, with their answers."""
from collections import Counter

from books.book import RUNNING, Book
from books.calls import Calls
from books.odd import BAD, bad_message, odd_message
from books.starts import Opening
from books.tree import handle_of
from books.wire import MKDIR, NAMES, READ, arguments, result, spell
from books.wrong import ALL_KINDS, wrong_reply


class Run:
    def __init__(self, calls: Calls):
        self.calls, self.dice = calls, calls.dice
        self.given: list[str] = []
        self.wanted: list[str] = []
        self.book = Book()
        # How many calls the books so far began at most: so many have a token.
        self.tokens = 0
        self.refused, self.pairs, self.wrong, self.done = Counter(), Counter(), Counter(), Counter()
        self.bad = Counter()
        # How many books began with something or nothing, and were strict or plain.
        self.openings = Counter()
        self.eras = 0
        self.lanes: list[int] = []
        self.next_lane, self.next_xid = 0, 0
        # The calls of the era that aren't placed, and those that are and wait for their answers.
        self.unplaced: list[int] = []
        self.unanswered: list[int] = []

    # Commands.

    def say(self, line: str, answer: str) -> str:
        self.given.append(line)
        self.wanted.append(answer)
        return answer

    def ask(self, word: str, line: str, told: tuple) -> str:
        """A command that a book may refuse."""
        refusals, answer = told
        names = [refusal.split(" ")[0] for refusal in refusals]
        if names:
            self.refused[word, names[0]] += 1
            for other in names[1:]:
                self.pairs[word, names[0], other] += 1
            return self.say(line, refusals[0])
        self.done[word] += 1
        return self.say(line, answer)

    def new_book(self, faults: tuple[int, int, int], opening: Opening = Opening()) -> None:
        self.book = Book(*faults, opening)
        self.say(f"new {faults[0]} {faults[1]} {faults[2]}{opening.spelled()}", "ok")
        self.openings[bool(opening.start), opening.strict] += 1
        self.next_lane, self.next_xid = 0, 0
        self.begin_era()

    def begin_era(self) -> None:
        self.lanes, self.unplaced, self.unanswered = [], [], []
        self.eras += 1
        for _ in range(4):
            self.add_lane()

    def add_lane(self) -> None:
        """One more lane that is open."""
        self.next_lane += 1
        while not self.book.is_open(self.next_lane):
            self.next_lane += 1
        self.lanes.append(self.next_lane)

    def xid(self) -> int:
        """A transaction number, now and then one that was used before."""
        if self.calls.chance(1):
            return self.dice.choice((0, 2 ** 32 - 1))
        if self.next_xid and self.calls.chance(5):
            return self.dice.randrange(max(1, self.next_xid - 60), self.next_xid + 1)
        return self.new_xid()

    def new_xid(self) -> int:
        self.next_xid += 1
        return self.next_xid

    def begin(self, lane: int, xid: int, call: dict, odd: bool = False) -> int | None:
        if odd:
            line = f"raw {lane} {spell(odd_message(self.calls, xid, call))}"
        else:
            line = f"begin {lane} {xid} {call['procedure']} {spell(arguments(call))}"
        answer = self.ask("begin", line, self.book.begin(lane, xid, call))
        if not answer.startswith("ok"):
            return None
        number = len(self.book.calls)
        self.tokens = max(self.tokens, number)
        self.unplaced.append(number)
        return number

    def begin_bad(self, lane: int, xid: int, kind: str) -> None:
        message = bad_message(self.calls, kind, xid, self.calls.call(self.book))
        read = int.from_bytes(message[:4], "big") if len(message) >= 4 else None
        self.ask("begin", f"raw {lane} {spell(message)}".rstrip(), self.book.begin(lane, read, None))
        self.bad[kind] += 1

    def place(self, number: int, reply: dict) -> bool:
        line = f"place {number} {reply['procedure']} {spell(self.spelled(reply))}"
        placed = self.ask("place", line, self.book.place(number, reply)) == "ok"
        if placed:
            self.unplaced.remove(number)
            self.unanswered.append(number)
            how = "success" if reply["status"] == 0 else "failure"
            self.done[NAMES[reply["procedure"]], how] += 1
        return placed

    def spelled(self, reply: dict) -> bytes:
        """A result, now and then with bytes in the padding of what ends it. Those are read as none, and aren't sent."""
        text = result(reply)
        padding = -len(reply.get("data", b"")) % 4
        if reply["procedure"] == READ and reply["status"] == 0 and padding and self.calls.chance(20):
            return text[:-padding] + b"\xff" * padding
        return text

    def answer(self, number: int) -> None:
        if self.ask("answer", f"answer {number}", self.book.answer(number)).startswith("ok"):
            self.unanswered.remove(number)

    def flush(self) -> None:
        self.ask("flush", "flush", self.book.flush())

    def close(self, lane: int) -> None:
        if self.ask("close_lane", f"close {lane}", self.book.close(lane)) == "ok" and lane in self.lanes:
            self.lanes.remove(lane)
            self.add_lane()

    def crash(self, keep: int) -> None:
        if self.ask("crash", f"crash {keep}", self.book.crash(keep)) == "ok":
            self.begin_era()

    def look(self) -> None:
        """What stands now, judged and printed."""
        self.say("check", "check yes")
        self.say("rebuild", "rebuild yes")
        self.say("journal", self.book.journal())
        self.say("tree", self.book.tree_words())

    def end_book(self) -> None:
        self.look()
        self.say("certificate", self.book.certificate())

    # Steps that are drawn.

    def lane(self) -> int:
        return self.dice.choice(self.lanes)

    def any_lane(self) -> int:
        """A lane of any kind, most often one that isn't open."""
        draw = self.dice.random()
        if draw < 0.02:
            return self.dice.choice((0, 2 ** 32 - 1))
        if draw < 0.3:
            return self.lane()
        if draw < 0.6 and self.book.closed:
            return self.dice.choice(sorted(self.book.closed)[-8:])
        return self.dice.randrange(1, self.next_lane + 2)

    def any_call(self) -> int | None:
        """A call of any kind: of this era or an earlier one, of a book ahead of this one."""
        draw = self.dice.random()
        last = len(self.book.calls)
        if draw < 0.15 and self.tokens > last:
            return self.dice.randrange(last + 1, self.tokens + 1)
        if draw < 0.6 and last:
            return self.dice.randrange(max(1, last - 40), last + 1)
        return self.dice.randrange(1, last + 1) if last else None

    def waiting_xid(self, lane: int) -> int:
        waiting = [xid for other, xid in self.book.waiting if other == lane]
        return self.dice.choice(sorted(waiting)) if waiting else self.xid()

    def begin_drawn(self) -> None:
        self.begin(self.lane(), self.xid(), self.calls.call(self.book), self.calls.chance(2))

    def placeable(self) -> list[int]:
        return [number for number in self.unplaced if self.book.is_open(self.book.begun(number).lane)]

    def place_drawn(self) -> None:
        numbers = self.placeable()
        if not numbers:
            return self.begin_drawn()
        number = self.dice.choice(numbers)
        self.place(number, self.calls.right_reply(self.book, number, self.book.begun(number).call))

    def answerable(self) -> list[int]:
        return [number for number in self.unanswered if not self.book.answer_refusals(number)]

    def answer_drawn(self) -> None:
        numbers = self.answerable()
        if numbers:
            self.answer(self.dice.choice(numbers))
        else:
            self.flush()

    def begin_refused(self) -> None:
        lane = self.any_lane() if self.calls.chance(60) else self.lane()
        xid = self.waiting_xid(lane) if self.calls.chance(50) else self.xid()
        if self.calls.chance(50):
            self.begin_bad(lane, xid, self.dice.choice(list(BAD)))
        else:
            self.begin(lane, xid, self.calls.call(self.book))

    def place_refused(self) -> None:
        """A place out of turn, which leaves a book as it is, whatever the reply."""
        number = self.any_call()
        if number is None:
            return
        begun = self.book.begun(number)
        call = self.calls.call(self.book) if begun is None else begun.call
        reply = self.calls.right_reply(self.book, number, call)
        if self.calls.chance(40):
            reply = self.calls.failure(self.book, number, call, 5)
        refusals = self.book.place_refusals(number, reply)
        if refusals and refusals[0] not in ("NotLegal", "DeviceFault"):
            self.place(number, reply)

    def answer_refused(self) -> None:
        number = self.any_call()
        if number is not None and self.calls.chance(50) and self.unanswered:
            number = self.dice.choice(self.unanswered)
        if number is not None:
            self.answer(number)

    def crash_refused(self) -> None:
        mark, records = self.book.device.mark, len(self.book.device.trees)
        if mark and self.calls.chance(50):
            self.crash(self.dice.choice((0, mark - 1, self.dice.randrange(mark))))
        else:
            self.crash(records + self.dice.choice((1, 2, 2 ** 32, 2 ** 64 - 1 - records)))

    STEPS = {begin_drawn: 27, place_drawn: 27, answer_drawn: 24, flush: 5, begin_refused: 5, place_refused: 4,
             answer_refused: 5, crash_refused: 1}

    def step(self) -> None:
        draw = self.dice.choices(list(self.STEPS), list(self.STEPS.values()))[0]
        draw(self)
        if self.calls.chance(0.8):
            self.close(self.any_lane())

    # Eras.

    def run_era(self, commands: int) -> None:
        """So many commands, or fewer where the book goes down."""
        last = len(self.given) + commands
        while len(self.given) < last and self.book.condition == RUNNING:
            self.step()

    def begin_one(self, kind: str) -> int | None:
        """Begins a call that a reply of this kind may be of, or another one, which makes the tree richer."""
        procedure = self.dice.choice(ALL_KINDS[kind][1]) if self.calls.chance(60) else None
        return self.begin(self.lane(), self.xid(), self.calls.call(self.book, procedure))

    def found_wrong(self, kind: str, number: int) -> dict | None:
        call = self.book.begun(number).call
        for _ in range(4):
            reply = wrong_reply(self.calls, self.book, kind, number, call)
            if reply is not None:
                return reply
        return None

    def try_wrong(self, kind: str) -> bool:
        """A reply that is refused, of this kind if there is a call for it."""
        for _ in range(60):
            number = self.begin_one(kind)
            if number is None:
                continue
            reply = self.found_wrong(kind, number)
            if reply is not None:
                self.place(number, reply)
                self.wrong[kind] += 1
                return True
            self.place(number, self.calls.right_reply(self.book, number, self.book.begun(number).call))
            if self.book.condition != RUNNING:
                return False
        return False

    def try_fault(self) -> None:
        """Where the device fails at the next record: a place on a closed lane and in a later era, a reply that is refused, and
        then a right one."""
        call = {"procedure": MKDIR, "handle": handle_of(0), "name": b"d", "size": None}
        number = self.begin(self.lane(), self.new_xid(), call)
        reply = {"procedure": MKDIR, "status": 0, "handle": handle_of(self.book.object_of(number))}
        self.close(self.book.begun(number).lane)
        self.place(number, reply)
        self.end_era()
        self.place(number, reply)
        while self.book.condition == RUNNING:
            self.try_wrong("another handle of what is made")
        self.end_era()
        while not self.book.device.faults:
            self.begin_drawn()
            self.place_drawn()

    def run_down(self, commands: int) -> None:
        """Commands to a book that is down, or to any."""
        last = len(self.given) + commands
        steps = (self.begin_refused, self.place_down, self.answer_refused, self.flush, self.crash_refused)
        while len(self.given) < last:
            self.dice.choice(steps)()
            if self.calls.chance(10):
                self.close(self.any_lane())

    def place_down(self) -> None:
        number = self.any_call()
        if number is not None:
            begun = self.book.begun(number)
            call = self.calls.call(self.book) if begun is None else begun.call
            reply = self.calls.right_reply(self.book, number, call)
            self.place(number, reply if self.calls.chance(70) else self.calls.failure(self.book, number, call, 5))

    def crash_drawn(self) -> None:
        """A crash that as many records outlive as is drawn."""
        mark, records = self.book.device.mark, len(self.book.device.trees)
        self.crash(self.dice.choice((mark, records, self.dice.randrange(mark, records + 1))))

    def end_era(self) -> None:
        if self.book.condition != RUNNING:
            self.run_down(self.dice.randrange(4, 12))
            if self.calls.chance(30):
                self.look()
        self.crash_drawn()
        if self.book.condition != RUNNING:
            self.run_down(self.dice.randrange(4, 12))
        elif self.calls.chance(5):
            self.crash_drawn()
        self.look()
