"""Lanes of calls in flight over the small server: a call begins, is placed and is answered at three moments. With it goes the certificate."""
import random

from . import calls, starts
from .server import REGULAR, Server
from .wire import CRASH_EVENT, call_message, close_event, event, hyper, opaque, reply_message, word


class Flight:
    """A call that has begun; behind its place its results."""

    def __init__(self, number: int, call):
        self.number, self.call, self.results, self.place = number, call, None, None


class Place:
    """A call's place in the serial order of its era."""

    def __init__(self, number: int, call, succeeded: bool, undo: list):
        self.number, self.call, self.succeeded, self.undo, self.is_answered = number, call, succeeded, undo, False

    def stands(self) -> bool:
        """Whether a certificate has a line of it."""
        return self.is_answered or (self.succeeded and self.call.is_modifying())

    def line(self) -> str:
        if self.is_answered:
            return f"place {self.number}"
        if isinstance(self.call, calls.Write):
            return f"take {self.number} {len(self.call.words[2])}"
        return f"take {self.number}"


def last_stable(places: list) -> int:
    """How many places of an era a crash has to keep."""
    needed, unstable = 0, {}
    for position, place in enumerate(places, 1):
        if not (place.is_answered and place.succeeded):
            continue
        call = place.call
        if isinstance(call, calls.Write) and call.words[3] == 0:
            if call.words[2]:
                unstable[call.words[0]] = position
        elif isinstance(call, calls.Commit):
            needed = max(needed, unstable.pop(call.words[0], 0))
        elif call.is_modifying():
            needed = position
    return needed


class Clients:
    """So many lanes at once. After a crash they are new ones. The server held `first` objects; where these are any, the history is of version 2."""

    def __init__(self, width: int, seed: str, is_logging: bool, first=0):
        self.dice = random.Random(seed)
        self.server = Server(is_logging)
        self.start = list(starts.draw(self.dice, first))
        self.width, self.first_lane = width, 1
        self.flights = [None] * width
        self.parts, self.size = [], 0
        self.events = self.calls = self.open = 0
        self.era, self.places = 1, []
        self.made, self.lines = [], []
        self.hold_start()

    def hold_start(self) -> None:
        """The server holds the starting objects, and clients know all of them."""
        for number, (parent, name, kind, data) in enumerate(self.start, 1):
            self.server.make(number, parent, name, kind, bytearray(data) if kind == REGULAR else data)
            self.made.append(number)
        self.server.taken_undo()

    def note(self, part: bytes) -> None:
        self.events += 1
        self.size += len(part)
        self.parts.append(part)

    def begin(self, lane: int, call) -> None:
        self.calls += 1
        self.open += 1
        self.note(event(0, self.first_lane + lane, call_message(self.calls, call.procedure, call.arguments())))
        self.flights[lane] = Flight(self.calls, call)

    def advance(self, lane: int) -> None:
        """Takes the lane's call one moment further."""
        flight = self.flights[lane]
        if flight.results is None:
            self.place(flight)
            return
        self.flights[lane] = None
        self.open -= 1
        if flight.place is not None:
            flight.place.is_answered = True
        accepted = 4 if isinstance(flight.call, calls.Garbage) else 0
        self.note(event(1, self.first_lane + lane, reply_message(flight.number, accepted, flight.results)))

    def place(self, flight: Flight) -> None:
        call, number = flight.call, flight.number
        if isinstance(call, (calls.Access, calls.Garbage)):
            flight.results = b"" if isinstance(call, calls.Garbage) else bytes(8)
            return
        made = len(self.start) + number
        flight.results, succeeded = call.run(self.server, made, self.era)
        if made in self.server.objects:
            self.made.append(made)
        flight.place = Place(number, call, succeeded, self.server.taken_undo())
        self.places.append(flight.place)

    def settle(self) -> None:
        """Answers all that is in flight."""
        for lane in range(self.width):
            while self.flights[lane] is not None:
                self.advance(lane)

    def crash(self) -> None:
        """The server loses some of the places behind the last stable one."""
        places = [place for place in self.places if place.stands()]
        cut = self.dice.randint(last_stable(places), len(places))
        self.lines += [place.line() for place in places] + [f"cut {cut}"]
        for place in reversed(places[cut:]):
            for step, *words in place.undo:
                step(*words)
        self.note(CRASH_EVENT)
        self.era += 1
        self.first_lane += self.width
        self.flights, self.places, self.open = [None] * self.width, [], 0

    def close(self, lane: int) -> None:
        self.note(close_event(lane))

    def history(self) -> bytes:
        front = b"NFSHIST2" + opaque(hyper(0)) + starts.spelled(self.start) if self.start else b"NFSHIST1" + opaque(hyper(0))
        return front + word(self.events) + b"".join(self.parts)

    def certificate(self) -> str:
        known = sorted(self.made) if self.events else []
        lines = ["witness 1"] + [f"bind {number:016x} {number}" for number in known] + self.lines
        lines += [place.line() for place in self.places if place.stands()]
        return "\n".join(lines + ["end"]) + "\n"
