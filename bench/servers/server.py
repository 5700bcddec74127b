"""A journal server on the model of its book, with what each of its calls is answered.

It is written from the rules in words, apart from the crates' code. Calls come one behind the other.
"""
import hashlib
from dataclasses import dataclass, field

from books.book import DEAD, Book
from books.starts import Opening
from books.wire import opaque, reply_message, tell, words
from servers.messages import Request, read_request
from servers.replies import reply_to

PASS_LIMIT = 65_535
LONGEST_TOLD = 256
CALL, REPLY, CLOSE, CRASH = range(4)


def tell_digest(data: bytes) -> str:
    return f"{len(data)} bytes {hashlib.sha256(data).hexdigest()}"


def tell_reply(message: bytes) -> str:
    return "ok " + (tell(message) if len(message) <= LONGEST_TOLD else tell_digest(message))


@dataclass
class Pass:
    lane: int
    # The calls that were recorded and answered, with their replies.
    exchanges: list[tuple[bytes, bytes]] = field(default_factory=list)


class Server:
    def __init__(self, fail_append: int = 0, fail_barrier: int = 0, fail_recover: int = 0, opening: Opening = Opening()):
        self.book = Book(fail_append, fail_barrier, fail_recover, opening)
        self.joined = 0
        self.events: list[bytes] = []
        # Of each lane the answered calls in the order of their numbers.
        self.answered: dict[int, list[tuple[bytes, bytes]]] = {}
        # What came of the last message, for a report: what it was, and a recorded call's reply.
        self.request = Request("none")
        self.reply: dict | None = None

    def join(self) -> Pass | None:
        if self.joined == PASS_LIMIT:
            return None
        self.joined += 1
        return Pass(self.joined)

    def call(self, given: Pass, message: bytes) -> str:
        self.request, self.reply = read_request(message), None
        if self.request.reply is not None:
            return tell_reply(self.request.reply)
        if self.request.call is None:
            return "BadRecord"
        return self.record(given, message)

    def record(self, given: Pass, message: bytes) -> str:
        """A call in its steps: it begins, is placed, is put on stable storage where its reply promises so, and is answered."""
        book, xid, call = self.book, self.request.xid, self.request.call
        refusals, _ = book.begin(given.lane, xid, call)
        if refusals:
            return refusals[0]
        self.events.append(words(CALL, given.lane) + opaque(message))
        number = len(book.calls)
        reply = reply_to(book, number, call)
        refusals, _ = book.place(number, reply)
        assert "NotLegal" not in refusals, (call, reply)
        if refusals:
            return "Down"
        if not book.is_durable(book.begun(number)) and book.flush()[0]:
            return "Down"
        refusals, _ = book.answer(number)
        assert not refusals
        self.reply = reply
        return self.note(given, message, reply_message(xid, reply))

    def note(self, given: Pass, message: bytes, reply: bytes) -> str:
        self.events.append(words(REPLY, given.lane) + opaque(reply))
        self.answered.setdefault(given.lane, []).append((message, reply))
        given.exchanges.append((message, reply))
        return tell_reply(reply)

    def leave(self, given: Pass) -> str:
        refusals, _ = self.book.close(given.lane)
        if refusals:
            return refusals[0]
        self.events.append(words(CLOSE, given.lane))
        return "ok"

    def crash(self, extra: int) -> str:
        device = self.book.device
        refusals, _ = self.book.crash(min(device.mark + extra, len(device.trees)))
        if refusals:
            return refusals[0]
        self.events.append(words(CRASH))
        return "ok"

    def is_dead(self) -> bool:
        return self.book.condition == DEAD

    # The end.

    def is_torn(self, lane: int, passes: list[Pass]) -> bool:
        own = [given for given in passes if given.lane == lane]
        return len(own) > 1 or own[0].exchanges != self.answered.get(lane, [])

    def close_refusal(self, passes: list[Pass]) -> str | None:
        if sum(len(given.exchanges) for given in passes) != sum(len(calls) for calls in self.answered.values()):
            return "MissingPass"
        torn = [given.lane for given in passes if self.is_torn(given.lane, passes)]
        return f"Torn {min(torn)}" if torn else None

    def history(self) -> bytes:
        return self.book.opening.head() + words(len(self.events)) + b"".join(self.events)

    def close(self, passes: list[Pass]) -> str:
        """The certificate, what the file of the history is, and the verdict on both, or why the passes don't tell of it."""
        refusal = self.close_refusal(passes)
        return refusal or f"{self.book.certificate()} {tell_digest(self.history())} yes"
