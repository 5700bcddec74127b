"""Inputs as lists of items: `split` parts the bytes of a kind of file, `join` puts them together with right lengths and counts.

What can't be parted stays whole: the bytes from the first item on that is none are the last item. Kinds are `pair` (a history, and from its last
`witness ` on a certificate), `history`, `certificate`, `plan`, `capture` and `stream`.
"""
import struct
from dataclasses import dataclass, field

CALL, REPLY, CLOSE, CRASH = range(4)
FILE, DIRECTORY, LINK = 1, 2, 5
LONGEST_MESSAGE, MOST_EVENTS = 2_097_152, 1_000_000
MAGICS = (b"NFSHIST1", b"NFSHIST2")
CAPTURE_MAGICS = {b"\xd4\xc3\xb2\xa1": "<", b"\x4d\x3c\xb2\xa1": "<", b"\xa1\xb2\xc3\xd4": ">", b"\xa1\xb2\x3c\x4d": ">"}


class Short(Exception):
    """The bytes end in the middle of an item."""


@dataclass
class Parts:
    """`head` and `middle` are the bytes ahead of each list; `lines` are those of a certificate behind a history."""
    kind: str
    head: bytes = b""
    starts: list = field(default_factory=list)
    middle: bytes = b""
    items: list = field(default_factory=list)
    lines: list = field(default_factory=list)

    def lists(self) -> list:
        return [it for it in (self.starts, self.items, self.lines) if it]


class Source:
    def __init__(self, data: bytes):
        self.data, self.at = data, 0

    def take(self, size: int) -> bytes:
        if self.at + size > len(self.data):
            raise Short
        self.at += size
        return self.data[self.at - size:self.at]

    def word(self) -> int:
        return int.from_bytes(self.take(4), "big")

    def opaque(self) -> bytes:
        size = self.word()
        taken = self.take(size)
        self.take(-size % 4)
        return taken


def opaque(data: bytes) -> bytes:
    return struct.pack(">I", len(data)) + data + bytes(-len(data) % 4)


def taken_items(source: Source, take, most: int) -> list:
    """The items up to the first one that isn't whole."""
    items = []
    while source.at < len(source.data) and len(items) < most:
        begin = source.at
        try:
            take(source)
        except Short:
            source.at = begin
            break
        items.append(source.data[begin:source.at])
    return items


def take_start(source: Source) -> None:
    source.take(8)
    source.opaque()
    if source.word() in (FILE, LINK):
        source.opaque()


def take_event(source: Source) -> None:
    kind = source.word()
    if kind > CRASH:
        raise Short
    if kind != CRASH:
        source.word()
    if kind in (CALL, REPLY):
        source.opaque()


def split_history(data: bytes) -> Parts:
    source, parts = Source(data), Parts("history")
    try:
        magic = source.take(8)
        if magic not in MAGICS:
            raise Short
        source.opaque()
        if magic == MAGICS[1]:
            source.word()
            parts.head = data[:source.at]
            parts.starts = taken_items(source, take_start, source.word())
            parts.middle = b"starts"
        else:
            parts.head = data[:source.at]
        parts.items = taken_items(source, take_event, source.word())
    except Short:
        if not parts.head:
            return Parts("whole", items=[data])
    if source.at < len(data):
        parts.items.append(data[source.at:])
    return parts


def join_history(parts: Parts) -> bytes:
    starts = [struct.pack(">I", len(parts.starts)), *parts.starts] if parts.middle else []
    return b"".join([parts.head, *starts, struct.pack(">I", len(parts.items)), *parts.items])


def split_lines(data: bytes, kind: str) -> Parts:
    return Parts(kind, items=data.splitlines(keepends=True))


def split_pair(data: bytes) -> Parts:
    at = data.rfind(b"witness ")
    parts = split_history(data[:at] if at >= 0 else data)
    if at >= 0:
        parts.lines = data[at:].splitlines(keepends=True)
    return parts


def join_pair(parts: Parts) -> bytes:
    return (b"".join(parts.items) if parts.kind == "whole" else join_history(parts)) + b"".join(parts.lines)


def split_capture(data: bytes) -> Parts:
    """Packets of classic pcap, or blocks of pcapng."""
    source, parts = Source(data), Parts("capture")
    order = CAPTURE_MAGICS.get(data[:4])

    def take_packet(source: Source) -> None:
        source.take(struct.unpack(order + "I", source.take(16)[8:12])[0])

    def take_block(source: Source) -> None:
        kind, size = struct.unpack(block_order + "II", source.take(8))
        source.take(max(size - 8, 4))

    if order:
        parts.head = data[:24]
        source.at = min(24, len(data))
        parts.items = taken_items(source, take_packet, len(data))
    else:
        block_order = ">" if data[8:12] == b"\x1a\x2b\x3c\x4d" else "<"
        parts.items = taken_items(source, take_block, len(data))
    if source.at < len(data):
        parts.items.append(data[source.at:])
    return parts


def split_stream(data: bytes) -> Parts:
    """Records of one fragment: their bytes, without the mark."""
    source, parts = Source(data), Parts("stream")

    def take_record(source: Source) -> None:
        source.take(source.word() & 0x7FFFFFFF)

    parts.items = [it[4:] for it in taken_items(source, take_record, len(data))]
    if source.at < len(data):
        parts.items.append(data[source.at:])
    return parts


def join_stream(parts: Parts) -> bytes:
    return b"".join(struct.pack(">I", 1 << 31 | len(it)) + it for it in parts.items)


def join_plain(parts: Parts) -> bytes:
    return parts.head + b"".join(parts.items)


SPLITS = {"pair": split_pair, "history": split_history, "certificate": lambda data: split_lines(data, "certificate"),
          "plan": lambda data: split_lines(data, "plan"), "capture": split_capture, "stream": split_stream}
JOINS = {"pair": join_pair, "history": join_pair, "certificate": join_plain, "plan": join_plain, "capture": join_plain, "stream": join_stream}


# Repeating, to see how time grows.

def on_other_lane(event: bytes, copy: int) -> bytes:
    """The same event on a lane of the copy's own."""
    if len(event) < 8 or int.from_bytes(event[:4], "big") == CRASH:
        return event
    return event[:4] + struct.pack(">I", (int.from_bytes(event[4:8], "big") + 1_000_003 * copy) & 0xFFFFFFFF) + event[8:]


def for_other_calls(line: bytes, shift: int) -> bytes:
    """The same place for a call that comes so much later."""
    words = line.split(b" ")
    if words[0] not in (b"place", b"take") or len(words) < 2 or not words[1].strip().isdigit():
        return line
    end = b"\n" if words[1].endswith(b"\n") else b""
    return b" ".join([words[0], str(int(words[1]) + shift).encode() + end, *words[2:]])


def repeated(kind: str, data: bytes, times: int) -> bytes:
    """The items of an input, so many times: events on new lanes, places of the calls there, the lines of a text between its first and its last."""
    parts = SPLITS[kind](data)
    calls = sum(it[:4] == bytes(4) for it in parts.items)
    if kind in ("pair", "history") and parts.kind != "whole":
        parts.items = [on_other_lane(it, copy) for copy in range(times) for it in parts.items]
    elif kind in ("certificate", "plan"):
        parts.items = parts.items[:1] + parts.items[1:-1] * times + parts.items[-1:]
    else:
        parts.items = parts.items * times
    first = [it for it in parts.lines[:-1] if it.split(b" ")[0] in (b"witness", b"bind")]
    rest = [it for it in parts.lines[:-1] if it not in first]
    parts.lines = first + [for_other_calls(it, calls * copy) for copy in range(times) for it in rest] + parts.lines[-1:]
    return JOINS[kind](parts)
