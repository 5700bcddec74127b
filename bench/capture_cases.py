"""Captures made by hand for try_import.py: what docs/CAPTURES.md says, case by case, and bad input with its line and status.

Lines are patterns of the whole of standard output without its line feed (None: the parser's text, whatever it is), `told` those of lines of standard
error. Where `wanted` is given, the history has to be that one. Packets are a second apart, from second 1,000 on.
"""
import random
import struct
from dataclasses import dataclass, field
from typing import Optional

from capture_model import CALL, REPLY, Wanted, history_of
from capture_traffic import (CALLS, MOUNT_PORT, NFS_PORT, RECORD_LIMIT, REPLIES, ROOT, Conversation, Sent, body, call, framed, mnt_call, mnt_reply, reply)
from captures import (ACK, FIN, FORMS, LINKS, RST, SYN, WHOLE, End, Interface, Packet, block, block_file, classic_file, classic_head, classic_packet,
                      laid_out, packet_block, section_block)

ETHERNET, MICRO = LINKS["ethernet"], FORMS["micro, lowest first"]
SERVER, CLIENT = b"\x0a\0\0\x01", b"\x0a\0\0\x02"
GIVEN = ("--root", ROOT.hex())
BAD_ROOT, CANNOT_WRITE, UNREADABLE = "refused: bad root", "refused: cannot write", "refused: unreadable capture"


@dataclass
class Case:
    """A run: the bytes of its capture, the words beside the port, and how it has to end. A name of a capture or a history is one in the folder."""
    name: str
    data: Optional[bytes]
    status: int
    line: Optional[str]
    wanted: Optional[Wanted] = None
    told: list = field(default_factory=list)
    words: tuple = GIVEN
    capture: Optional[str] = None
    history: Optional[str] = None
    port: int = NFS_PORT
    # What is right too.
    otherwise: Optional[Wanted] = None


def talk(port: int = 700, server_port: int = NFS_PORT, begins=(1_000, 5_000)) -> Conversation:
    return Conversation((End(CLIENT, port), End(SERVER, server_port)), begins)


def asks(at: int = 0, payload: bytes = b"", flags: int = ACK) -> Sent:
    return Sent(CALLS, at, payload, flags)


def gives(at: int = 0, payload: bytes = b"", flags: int = ACK) -> Sent:
    return Sent(REPLIES, at, payload, flags)


def packets_of(*pairs) -> list[Packet]:
    """The packets of pairs of a conversation and what it sends."""
    packets = []
    for number, (conversation, sent) in enumerate(pairs):
        packets.append(conversation.packet(random.Random(9), sent))
        packets[-1].time = (1_000 + number) * 10**9
    return packets


def of_open(*sent: Sent) -> list[Packet]:
    """The packets of one connection that was there before the capture."""
    lane = talk()
    return packets_of(*((lane, one) for one in sent))


def of_one(*sent: Sent) -> list[Packet]:
    """The packets of one connection whose beginning was captured."""
    return of_open(asks(flags=SYN), gives(flags=SYN | ACK), *sent)


def captured(packets: list[Packet], snap: int = WHOLE) -> tuple[bytes, list]:
    laid = [laid_out(packet, ETHERNET, snap) for packet in packets]
    return classic_file(MICRO, [frame for frame, _ in laid], snap), [seen for _, seen in laid]


def modelled(name: str, packets: list[Packet], snap: int = WHOLE, words: tuple = GIVEN, told=(), has_behind: bool = False) -> Case:
    """A capture whose history is what the model says; if something stands behind a gap, that may tell it."""
    data, seen = captured(packets, snap)
    root = ROOT if words else None
    wanted, otherwise = history_of(seen, NFS_PORT, root), history_of(seen, NFS_PORT, root, shows_all=not has_behind)
    return Case(name, data, 0, r"calls \d+", wanted, list(told), words, otherwise=otherwise)


def told(name: str, packets: list[Packet], calls: int, lines: list, snap: int = WHOLE) -> Case:
    """A capture of which so many calls are in the history, and of which these lines have to be told."""
    return Case(name, captured(packets, snap)[0], 0, f"calls {calls}", told=lines)


FIRST, SECOND, THIRD = (framed(call(xid, 0)) for xid in (1, 2, 3))
ONE, TWO, THREE = (framed(reply(xid)) for xid in (1, 2, 3))
SIZE, REPLY_SIZE = len(FIRST), len(ONE)
LANE_ENDS = r"^lane 1: ends.* at "


def gaps() -> list[Case]:
    long_call = framed(call(2, 7, body(random.Random(1), 400)))
    parts = [asks(at, long_call[at:at + 40]) for at in range(0, len(long_call), 40)]
    answered = [asks(0, FIRST), gives(0, ONE)]
    behind = [asks(SIZE + 8, THIRD), gives(REPLY_SIZE, THREE)]
    fins = [asks(2 * SIZE, flags=FIN | ACK), gives(REPLY_SIZE, flags=FIN | ACK)]
    too_long = struct.pack(">I", 0x80000001 + RECORD_LIMIT) + b"abcd"
    return [
        modelled("a segment that was never captured", of_one(*answered, *behind)),
        modelled("a reply that was never captured", of_one(asks(0, FIRST + SECOND + THIRD), gives(REPLY_SIZE, TWO), asks(3 * SIZE, FIRST))),
        modelled("a gap that is filled late", of_one(asks(SIZE, SECOND), asks(4, FIRST[4:]), asks(0, FIRST[:4]), gives(0, ONE + TWO))),
        modelled("cut by the snap length, others behind",
                 of_one(*answered, asks(SIZE, long_call), asks(SIZE + len(long_call), THIRD), gives(REPLY_SIZE, TWO)), snap=150, has_behind=True),
        modelled("cut by the snap length, none behind", of_one(*answered, asks(SIZE, long_call)), snap=150),
        told("cut by the snap length is told", of_one(asks(0, FIRST), asks(SIZE, long_call)), 1, [LANE_ENDS + r"1003\.000 seconds$"], snap=150),
        modelled("cut by the snap length, and again in parts", of_one(asks(0, long_call), *parts), snap=150),
        modelled("the bytes ahead of a FIN were never captured", of_one(*answered, *fins)),
        modelled("a record that is too long", of_one(*answered, asks(SIZE, too_long), asks(SIZE + 8, SECOND))),
    ]


def beginnings() -> list[Case]:
    like_a_record = struct.pack(">I", 0x80000010) + b"B" * 16
    behind = [asks(64, FIRST), gives(0, ONE), asks(64 + SIZE, SECOND)]
    return [
        modelled("begins with a call", of_open(asks(0, FIRST), gives(0, ONE))),
        modelled("begins with a reply to a call ahead of it", of_open(gives(0, THREE), asks(0, FIRST), gives(REPLY_SIZE, ONE))),
        modelled("begins with a segment that came late", of_open(asks(SIZE, SECOND), asks(0, FIRST), gives(REPLY_SIZE, TWO))),
        modelled("begins amid a record, with letters", of_open(asks(0, b"A" * 64), *behind)),
        modelled("begins amid a record, with what could be one", of_open(asks(44, like_a_record), *behind)),
        told("begins amid a record, with zeros", of_open(asks(2, bytes(62)), *behind), 0, ["^lane 1: "]),
        modelled("bytes in a SYN", with_syn_bytes()),
        modelled("both ends have the port", both_ports()),
        modelled("a port used again", used_again()),
    ]


def with_syn_bytes() -> list[Packet]:
    """A SYN with the first bytes (RFC 7413)."""
    packets = of_open(asks(flags=SYN), gives(flags=SYN | ACK), asks(10, FIRST[10:]), gives(0, ONE))
    packets[0].segment.payload = FIRST[:10]
    return packets


def both_ports() -> list[Packet]:
    lane = talk(port=NFS_PORT)
    sent = [asks(flags=SYN), gives(flags=SYN | ACK), asks(0, FIRST), gives(0, ONE)]
    return packets_of(*((lane, one) for one in sent))


def used_again() -> list[Packet]:
    first, second = talk(), talk(begins=(2**32 - 20, 2**32 - 5))
    sent = [asks(flags=SYN), gives(flags=SYN | ACK), asks(0, FIRST), gives(0, ONE)]
    ends = [gives(REPLY_SIZE, flags=RST | ACK)]
    return packets_of(*((first, one) for one in sent + ends), *((second, one) for one in sent))


def orders() -> list[Case]:
    other = bytes(byte ^ 1 for byte in FIRST)
    twice = [packet for packet in of_one(asks(0, FIRST), gives(0, ONE), asks(SIZE, SECOND)) for _ in range(2)]
    pieces = [asks(2 * SIZE + at, THIRD[at:at + 1]) for at in range(7, SIZE)]
    return [
        modelled("other bytes come later", of_one(asks(0, FIRST), asks(0, other), gives(0, ONE))),
        modelled("a reply ahead of its call", of_one(gives(0, ONE), asks(0, FIRST), asks(SIZE, SECOND), gives(REPLY_SIZE, TWO))),
        modelled("a reply whose first byte was seen early", of_one(asks(0, FIRST + SECOND), gives(REPLY_SIZE, TWO), gives(0, ONE))),
        modelled("a call whose last byte was seen early", of_one(asks(20, FIRST[20:]), asks(0, FIRST[:20]), gives(0, ONE))),
        modelled("each packet twice", twice),
        modelled("a call twice, each answered", of_one(asks(0, FIRST + FIRST), gives(0, ONE + ONE))),
        modelled("no RPC, and calls behind", of_one(asks(0, framed(b"abcd") + FIRST), gives(0, ONE + framed(b"")))),
        modelled("records in one segment, and one in many", of_one(asks(0, FIRST + SECOND + THIRD[:7]), *pieces, gives(0, THREE))),
        modelled("bytes in a RST", with_reset_bytes()),
        modelled("a segment of over 65,535 bytes", offload()),
        modelled("records behind a RST", of_one(asks(0, FIRST), gives(0, flags=RST), gives(0, ONE))),
        modelled("a segment that comes again behind 5,000 others", late_segment()),
        *long_records(),
    ]


def with_reset_bytes() -> list[Packet]:
    packets = of_one(asks(0, FIRST), gives(0, ONE), asks(SIZE, flags=RST | ACK))
    packets[-1].segment.payload = b"connection is reset by nobody"
    return packets


def offload() -> list[Packet]:
    """A call that hardware cuts into segments behind the capture."""
    packets = of_one(asks(0, framed(call(1, 7, body(random.Random(2), 100_000)))), gives(0, ONE))
    packets[2].segment.has_length = False
    return packets


def late_segment() -> list[Packet]:
    record = framed(call(1, 7, body(random.Random(3), 500_000)))
    pieces = [asks(at, record[at:at + 100]) for at in range(0, len(record), 100)]
    return of_one(*pieces[1:], pieces[0], gives(0, ONE))


def long_records() -> list[Case]:
    """Records at the limit, and a byte over it, whose bytes are all there."""
    cases = []
    for size in (RECORD_LIMIT, RECORD_LIMIT + 4):
        message = call(1, 7, bytes(size - 40))
        record = framed(message, 1_000_000)
        data, _ = captured(of_one(*(asks(at, record[at:at + 60_000]) for at in range(0, len(record), 60_000)), gives(0, ONE)))
        events = [(CALL, 1, message), (REPLY, 1, reply(1))]
        wanted = Wanted(ROOT, events) if size == RECORD_LIMIT else None
        cases.append(Case(f"a record of {size} bytes", data, 0, "calls 1" if wanted else "calls 0", wanted, [] if wanted else [LANE_ENDS]))
    return cases


def mounts() -> list[Case]:
    first, second, lane = talk(701, MOUNT_PORT), talk(702, MOUNT_PORT), (talk(), asks(0, FIRST))
    asked, given, refusal = framed(mnt_call(8)), framed(mnt_reply(8)), framed(reply(8, struct.pack(">I", 13)))
    early, late = (gives(0, framed(mnt_reply(8, root))) for root in (b"early", b"late"))
    two = packets_of((first, asks(0, asked)), (second, asks(0, asked)), (second, early), (first, late), lane)
    none = "refused: the capture has no reply of MOUNT .*"
    return [
        modelled("a root by MOUNT", packets_of((first, asks(0, asked)), (first, gives(0, given)), lane), words=()),
        modelled("the first root of two", two, words=()),
        modelled("MOUNT at the port of NFS", of_one(asks(0, asked + FIRST), gives(0, given + ONE)), words=()),
        modelled("MOUNT refuses at first", packets_of((first, asks(0, asked + asked)), (first, gives(0, refusal + given))), words=()),
        Case("MOUNT refuses", captured(packets_of((first, asks(0, asked)), (first, gives(0, refusal))))[0], 2, none, words=()),
        Case("no MOUNT and no root", captured(packets_of(lane))[0], 2, none, words=()),
        Case("a MOUNT that isn't answered", captured(packets_of((first, asks(0, asked))))[0], 2, none, words=()),
    ]


def small_frames() -> list:
    return [laid_out(packet, ETHERNET)[0] for packet in of_one(asks(0, FIRST), gives(0, ONE))]


def words() -> list[Case]:
    data = classic_file(MICRO, small_frames())
    bad_roots = {"upper case": "AA", "no digits": "zz", "half a byte": "abc"}
    return [
        *(Case(f"bad root: {name}", data, 2, BAD_ROOT, words=(f"--root={root}",)) for name, root in bad_roots.items()),
        Case("a root of no bytes", data, 0, "calls 1", told=["^the root's handle has no byte: is --root empty by mistake\\?$"], words=("--root=",)),
        Case("a root of 65 bytes", data, 2, "refused: the root handle has over 64 bytes", words=("--root", "ab" * 65)),
        Case("a root of 64 bytes", data, 0, "calls 1", words=("--root", "ab" * 64)),
        *(Case(f"port {port}", data, 2, None, port=port) for port in (0, 70_000, -1, "nfs")),
        Case("another port", data, 0, "calls 0", Wanted(ROOT), ["^no call to port 2050 was captured$"], port=2_050),
        Case("no file", None, 2, UNREADABLE, capture="none"),
        Case("a folder", data, 2, UNREADABLE, capture="."),
        Case("the history in a folder that isn't there", data, 2, CANNOT_WRITE, history="none/history"),
        Case("the history is a folder", data, 2, CANNOT_WRITE, history="."),
        Case("the history where nothing can be written", data, 2, CANNOT_WRITE, history="/proc/history"),
        Case("the history is the capture", data, 2, CANNOT_WRITE, history="capture"),
    ]


def refused(name: str, data: bytes, fault: str) -> Case:
    return Case(name, data, 2, "refused: capture: " + fault)


def bad_classic() -> list[Case]:
    frames = small_frames()
    data = classic_file(MICRO, frames)
    long_packet = data[:24] + struct.pack("<IIII", 0, 0, 0xFFFFFFFF, 60) + data[40:]
    return [
        refused("an empty file", b"", "not a capture file"),
        refused("three bytes", data[:3], "not a capture file"),
        refused("a text", b"Not a capture.\n" * 9, "not a capture file"),
        refused("zeros", bytes(4_096), "not a capture file"),
        refused("another magic", b"\xa1\xb2\xcd\x34" + data[4:], "not a capture file"),
        refused("classic of version 3", classic_head(MICRO, 1, version=(3, 4)), "unknown version at byte 4"),
        refused("classic of version 2 in the other order", data[:4] + b"\0\2" + data[6:], "unknown version at byte 4"),
        refused("classic of USB", classic_head(MICRO, 189), "unknown link type 189 at byte 20"),
        Case("a packet of 4 GiB", long_packet, 0, "calls 0", Wanted(ROOT), ["^the capture is cut off in the packet at byte 24$"]),
        Case("classic without packets", data[:24], 0, "calls 0", Wanted(ROOT)),
        Case("bits of check sums above the link type", data[:20] + struct.pack("<I", 0x24000001) + data[24:], 0, "calls 1"),
    ]


def with_length(data: bytes, at: int, length: int) -> bytes:
    return data[:at] + struct.pack("<I", length) + data[at + 4:]


def bad_blocks() -> list[Case]:
    frames, interface, unknown = small_frames(), Interface(ETHERNET), Interface(ETHERNET._replace(number=189))
    data, head = block_file("<", interface, frames), section_block("<") + interface.block("<")
    first, size = len(head), len(packet_block("<", "enhanced", 0, interface, frames[0]))
    bad_length, nowhere = (f"{fault} at byte {first}" for fault in ("bad length", "unknown interface"))
    two_sections = data + section_block(">")
    return [
        *(refused(f"a block of {length} bytes", with_length(data, first + 4, length), bad_length) for length in (0, 8, 11, 13, 30, 2**32 - 1)),
        Case("a block longer than the file", with_length(data, first + 4, 2**32 - 4), 0, "calls 0", told=[f"is cut off in the packet at byte {first}$"]),
        refused("a block whose lengths differ", with_length(data, first + size - 4, size + 4), bad_length),
        refused("a packet longer than its block", with_length(data, first + 20, 100), bad_length),
        refused("a packet of 4 GiB in its block", with_length(data, first + 20, 2**32 - 1), bad_length),
        refused("a block too short for its packet", head + block("<", 6, bytes(12)), bad_length),
        refused("an interface too short", section_block("<") + block("<", 1, b"\1\0"), "bad length at byte 28"),
        refused("a packet of an interface that isn't there", head + packet_block("<", "enhanced", 1, interface, frames[0]), nowhere),
        refused("a packet of an interface of another section", two_sections + packet_block(">", "enhanced", 0, interface, frames[0]),
                f"unknown interface at byte {len(two_sections)}"),
        refused("a simple packet without an interface", section_block("<") + packet_block("<", "simple", 0, interface, frames[0]),
                "unknown interface at byte 28"),
        refused("pcapng of version 2", section_block("<", (2, 0)) + data[28:], "unknown version at byte 0"),
        refused("pcapng of an order that there isn't", data[:8] + bytes(4) + data[12:], "not a capture file"),
        refused("pcapng of USB", block_file("<", unknown, frames), "unknown link type 189 at byte [0-9]+"),
        Case("an interface of USB without packets", head + unknown.block("<") + data[first:], 0, "calls 1"),
        Case("pcapng of version 1.2", section_block("<", (1, 2)) + data[28:], 0, "calls 1"),
        Case("a section alone", section_block(">"), 0, "calls 0", Wanted(ROOT)),
    ]


def many_calls(count: int, is_closed: bool) -> bytes:
    """So many calls with their replies on one lane, 1,400 in a segment."""
    sent, at = [], [0, 0]
    for first in range(0, count, 1_400):
        xids = range(first, min(first + 1_400, count))
        for way, data in ((CALLS, b"".join(framed(call(xid, 0)) for xid in xids)), (REPLIES, b"".join(framed(reply(xid)) for xid in xids))):
            sent.append(Sent(way, at[way], data))
            at[way] += len(data)
    return captured(of_one(*sent, *([asks(at[0], flags=RST)] if is_closed else [])))[0]


def limits():
    """As many events as find room beside 4,096 closes (crates/nfs_tap), and two more, replies. Made when they are asked for."""
    yield Case("995,904 events", many_calls(497_952, True), 0, "calls 497952")
    yield Case("995,906 events", many_calls(497_953, True), 0, "calls 497953", told=["^lane 1: record not taken: the log is full, at "] * 2)


def judged_messages() -> tuple[bytes, bytes]:
    """A GETATTR of the root and its reply, as records."""
    handle = struct.pack(">I", len(ROOT)) + ROOT
    attributes = struct.pack(">5I", 2, 0o755, 2, 0, 0) + bytes(64)
    return framed(call(1, 1, handle)), framed(reply(1, bytes(4) + attributes))


def strict() -> list[Case]:
    """What `--strict` says of captures that lack something, and of one that doesn't."""
    ask, give = judged_messages()
    right = of_one(asks(0, ask), gives(0, give))
    late = of_one(asks(0, ask), gives(0, give))
    late[2].time, late[3].time = late[3].time, late[2].time
    files = {
        "nothing": (captured(right)[0], 0),
        "a segment": (captured(of_one(asks(0, ask), gives(0, give), asks(2 * len(ask), THIRD)))[0], 1),
        "a call": (captured(of_one(gives(0, give), asks(0, ask)))[0], 1),
        "a reply": (captured(of_one(asks(0, ask), gives(0, give), asks(len(ask), SECOND)))[0], 1),
        "all calls": (captured(right[:2])[0], 1),
        "all judged calls": (captured(of_one(asks(0, FIRST), gives(0, ONE)))[0], 1),
        "the beginning": (captured(right[2:])[0], 1),
        "the last byte": (captured(right)[0][:-1], 1),
        "the order of time": (captured(late)[0], 1),
        "bytes by a snap length": (captured(of_one(asks(0, ask), gives(0, give), asks(len(ask), framed(call(2, 7, bytes(200))))), snap=150)[0], 1),
    }
    return [Case(f"strict, lacks {name}", data, status, r"calls \d+", words=(*GIVEN, "--strict")) for name, (data, status) in files.items()]


def all_cases():
    for made in (gaps, beginnings, orders, mounts, words, strict, bad_classic, bad_blocks, limits):
        yield from made()


@dataclass
class CutCapture:
    """A capture to be cut, and how many calls its first bytes have, by their number, where these end behind its head or an item."""
    name: str
    data: bytes
    calls: dict


def cut_captures() -> list[CutCapture]:
    sent = [one for number in range(60) for one in (asks(SIZE * number, framed(call(number, 0))), gives(REPLY_SIZE * number, framed(reply(number))))]
    laid = [laid_out(packet, ETHERNET) for packet in of_open(*sent)]
    interface = Interface(ETHERNET)
    heads = {"classic": [classic_head(MICRO, 1)], "pcapng": [section_block("<"), interface.block("<")]}
    put = {"classic": lambda frame: classic_packet(MICRO, frame), "pcapng": lambda frame: packet_block("<", "enhanced", 0, interface, frame)}
    return [cut_capture(name, heads[name], [put[name](frame) for frame, _ in laid], [seen for _, seen in laid]) for name in heads]


def cut_capture(name: str, heads: list, items: list, seen: list) -> CutCapture:
    calls, data = {}, b""
    for number, item in enumerate(heads + items, 1):
        data += item
        calls[len(data)] = history_of(seen[:max(0, number - len(heads))], NFS_PORT, ROOT).calls
    return CutCapture(name, data, calls)
