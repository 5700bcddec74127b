"""What the history of a capture must be: a model for try_import.py, written from docs/CAPTURES.md and the RFCs, apart from the crates' code.

It is given what a reader can know of each packet (`captures.Seen`), and works byte by byte. Where docs/CAPTURES.md leaves a choice, it is made here:

- A connection begins another time with a SYN that isn't the one with which that way of it began.
- A lane ends by a gap at the first packet that shows it, or at the last one that brought bytes ahead of the gap, if that came later; what stands at
  that packet is still in the lane. A packet shows it whose bytes stand behind it; and, if `shows_all`, one whose bytes were cut off by a snap length
  there, and a FIN behind it. A reader may wait for bytes that were captured: then a gap that none follow isn't told.
- A lane ends by a record that is too long at the packet with which its first byte was known without a gap.
- The bytes of a RST aren't those of the stream (RFC 1122, section 4.2.2.12).
- A record that can't follow the events before it is left out, and the lane goes on.
"""
from collections import Counter
from dataclasses import dataclass, field
from itertools import accumulate
from typing import Optional

from captures import CUT_PAYLOAD, FIN, RST, SYN, End, Seen
from differ.items import Bad
from differ.rpc import read_call, read_reply

CALL, REPLY, CLOSE = range(3)
RECORD_LIMIT = 2_097_152
MOUNT, MNT = 100_005, 1
TOO_EARLY = "earlier than one before"
TOLERANCE = 1_000_000


@dataclass
class Wanted:
    """A history's root and events (kind, lane, message), the lanes that ended early with their times, how many records were left out, and how many
    packets have no part in it, or not all of theirs, for each reason."""
    root: Optional[bytes] = None
    events: list = field(default_factory=list)
    ended: list = field(default_factory=list)
    left_out: int = 0
    passed: dict = field(default_factory=dict)

    @property
    def calls(self) -> int:
        return sum(1 for event in self.events if event[0] == CALL)


@dataclass
class Record:
    """A message, the packet that brought its first byte, and the packet with which its last byte was known without a gap."""
    message: bytes
    first: int
    known: int


class Way:
    """One way of a connection: the packet and the value of each byte by its number from the first one on; the packet is -1 where none was seen."""

    def __init__(self, shows_all: bool):
        self.start, self.has_fin, self.shows_all = None, False, shows_all
        self.sources, self.values = [], bytearray()
        self.shown = []
        self.next = 0

    def place(self, sequence: int) -> int:
        """The number nearest to the first byte that is missing."""
        ahead = (sequence - self.start - self.next) % 2**32
        return self.next + (ahead if ahead < 2**31 else ahead - 2**32)

    def put(self, index: int, seen: Seen) -> None:
        segment = seen.segment
        if segment.flags & RST:
            return
        is_syn, size = bool(segment.flags & SYN), len(segment.payload)
        sequence = (segment.sequence + is_syn) % 2**32
        if self.start is None and (is_syn or seen.kept):
            self.start = sequence
        self.has_fin |= bool(segment.flags & FIN)
        if self.start is None or not (size or segment.flags & FIN):
            return
        begin = self.place(sequence)
        if self.shows_all or seen.kept:
            self.shown.append((begin + (size if self.shows_all else seen.kept), index))
        missing = begin + seen.kept - len(self.sources)
        if missing > 0:
            self.sources += [-1] * missing
            self.values += bytes(missing)
        for at in range(max(begin, 0), begin + seen.kept):
            if self.sources[at] < 0:
                self.sources[at], self.values[at] = index, segment.payload[at - begin]
        while self.next < len(self.sources) and self.sources[self.next] >= 0:
            self.next += 1

    def gap(self) -> Optional[int]:
        """The packet at which the way ends by a gap."""
        behind = [index for end, index in self.shown if end > self.next]
        if not behind:
            return None
        return max(min(behind), *self.sources[:self.next], -1)


@dataclass
class Records:
    records: list
    ends_at: Optional[int]


def records_of(way: Way) -> Records:
    """The records of what is known without a gap (RFC 5531, section 11), and the packet at which they end by a fault."""
    data, known = bytes(way.values[:way.next]), list(accumulate(way.sources[:way.next], max))
    records, at = [], 0
    while True:
        message, begin, is_last = b"", at, False
        while not is_last:
            if at + 4 > len(data):
                return Records(records, None)
            head = int.from_bytes(data[at:at + 4], "big")
            is_last, size = head >> 31 == 1, head & 0x7FFFFFFF
            if len(message) + size > RECORD_LIMIT:
                return Records(records, known[begin])
            if at + 4 + size > len(data):
                return Records(records, None)
            message += data[at + 4:at + 4 + size]
            at += 4 + size
        records.append(Record(message, way.sources[begin], known[at - 1]))


def is_message(reader, message: bytes) -> bool:
    try:
        reader(message)
        return True
    except Bad:
        return False


class Connection:
    def __init__(self, client: End, server: End, shows_all: bool):
        self.client, self.server = client, server
        self.calls, self.replies = Way(shows_all), Way(shows_all)
        self.closed = None

    def way(self, segment) -> Way:
        return self.calls if segment.source == self.client else self.replies

    def is_over_by(self, segment) -> bool:
        way = self.way(segment)
        if not segment.flags & SYN:
            return False
        if way.start is None:
            return self.closed is not None
        return way.start != (segment.sequence + 1) % 2**32

    def put(self, index: int, seen: Seen) -> None:
        self.way(seen.segment).put(index, seen)
        if self.closed is None and (seen.segment.flags & RST or self.calls.has_fin and self.replies.has_fin):
            self.closed = index


def connections_of(packets: list[Seen], port: int, shows_all: bool = True) -> list[Connection]:
    connections, latest = [], {}
    for index, seen in enumerate(packets):
        segment = seen.segment
        if segment is None:
            continue
        ends = frozenset((segment.source, segment.destination))
        if ends not in latest or latest[ends].is_over_by(segment):
            is_reply = segment.source.port == port != segment.destination.port
            client, server = (segment.destination, segment.source) if is_reply else (segment.source, segment.destination)
            latest[ends] = Connection(client, server, shows_all)
            connections.append(latest[ends])
        latest[ends].put(index, seen)
    return connections


def lane_of(connection: Connection) -> tuple[list, Optional[int]]:
    """The events of a lane, (packet, kind, message), and the packet at which it ends early."""
    calls, replies = records_of(connection.calls), records_of(connection.replies)
    ends = [connection.calls.gap(), connection.replies.gap(), calls.ends_at, replies.ends_at]
    end = min((end for end in ends if end is not None), default=None)
    events = [(record.known, CALL, record.message) for record in calls.records]
    events += [(record.first, REPLY, record.message) for record in replies.records]
    events = [event for event in events if end is None or event[0] <= end]
    closed = connection.closed if end is None else end
    if closed is not None:
        events.append((max([closed, *(event[0] for event in events)]), CLOSE, b""))
    return events, end


def may_follow(kind: int, lane: int, message: bytes, open_calls: set) -> bool:
    """Whether an event may follow those before it, by docs/FORMATS.md; it is noted then."""
    if kind == CLOSE:
        return True
    if not is_message(read_call if kind == CALL else read_reply, message):
        return False
    key = lane, message[:4]
    if (kind == CALL) == (key in open_calls):
        return False
    (open_calls.add if kind == CALL else open_calls.remove)(key)
    return True


def handle_of(reply: dict) -> Optional[bytes]:
    """The handle in a success of MNT (RFC 1813, section 5.2.1)."""
    result = reply["result"]
    if result is None or result[:4] != bytes(4) or len(result) < 8:
        return None
    size = int.from_bytes(result[4:8], "big")
    return result[8:8 + size] if size <= 64 and len(result) >= 8 + size else None


def roots_between(asked: Way, told: Way):
    """The handles that one way of a connection gives to calls of the other, each with the packet at which it begins."""
    asking = set()
    for record in records_of(asked).records:
        if is_message(read_call, record.message):
            call = read_call(record.message)
            if (call["program"], call["version"], call["procedure"]) == (MOUNT, 3, MNT):
                asking.add(call["xid"])
    for record in records_of(told).records if asking else []:
        if is_message(read_reply, record.message):
            reply = read_reply(record.message)
            handle = handle_of(reply) if reply["xid"] in asking else None
            if handle is not None:
                yield record.first, handle


def root_in(connections: list[Connection]) -> Optional[bytes]:
    """The handle that the first successful reply to a MNT gives, of whichever connection."""
    found = []
    for connection in connections:
        found += roots_between(connection.calls, connection.replies)
        found += roots_between(connection.replies, connection.calls)
    return min(found)[1] if found else None


def passed_over(packets: list[Seen]) -> dict:
    """How many packets have no part in a history, or not all of theirs, for each reason."""
    passed, time = Counter(), 0
    for seen in packets:
        passed[TOO_EARLY] += seen.time + TOLERANCE < time
        time = max(seen.time, time)
        if seen.segment is None:
            passed[seen.reason] += 1
        else:
            passed[CUT_PAYLOAD] += seen.kept < len(seen.segment.payload)
    return {reason: count for reason, count in passed.items() if count}


def history_of(packets: list[Seen], port: int, root: Optional[bytes] = None, shows_all: bool = True) -> Wanted:
    connections = connections_of(packets, port, shows_all)
    wanted = Wanted(root=root_in(connections) if root is None else root, passed=passed_over(packets))
    lanes = [connection for connection in connections if connection.server.port == port]
    found = []
    for lane, connection in enumerate(lanes, 1):
        events, end = lane_of(connection)
        found += [(at, lane, kind, message) for at, kind, message in events]
        if end is not None:
            wanted.ended.append((lane, packets[end].time))
    open_calls = set()
    for _, lane, kind, message in sorted(found, key=lambda event: event[0]):
        if may_follow(kind, lane, message, open_calls):
            wanted.events.append((kind, lane, message))
        else:
            wanted.left_out += 1
    return wanted
