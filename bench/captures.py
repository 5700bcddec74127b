"""Builds capture files: TCP segments and other packets, the link headers ahead of them, and classic pcap or pcapng around them.

A `Packet` is what was on the wire: a TCP segment, or bytes that a reader has to pass over. `laid_out` puts a link header of `LINKS` ahead of it and
cuts it at a snap length: that gives a `Frame`, and a `Seen`, which is what a reader can know of it. `classic_file` and `block_file` make files of
frames. Check sums are right. After draft-ietf-opsawg-pcap, draft-ietf-opsawg-pcapng, tcpdump.org's list of link-layer header types, RFC 791, RFC 8200
and RFC 9293.
"""
import random
import struct
from dataclasses import dataclass
from typing import NamedTuple, Optional

FIN, SYN, RST, PUSH, ACK = 1, 2, 4, 8, 16
TCP, UDP, ICMP = 6, 17, 1
IPV4, IPV6, ARP = 0x0800, 0x86DD, 0x0806
WHOLE = 262_144

NOT_IP, FRAGMENT, NOT_TCP, MALFORMED = "not IP", "a fragment of an IP packet", "not TCP", "a header that no packet has"
CUT_HEADER, CUT_PAYLOAD = "cut in a header by the snap length", "cut by the snap length"


class End(NamedTuple):
    """An end of a connection. The address has four bytes, or sixteen."""
    address: bytes
    port: int


@dataclass
class Segment:
    """A TCP segment. `options` are those of TCP; `headers` those of IPv4, or pairs of a number and a header of IPv6."""
    source: End
    destination: End
    sequence: int
    flags: int = ACK
    payload: bytes = b""
    options: bytes = b""
    headers: object = b""
    has_length: bool = True


@dataclass
class Packet:
    """A packet: its time in nanoseconds, and either a segment, or a protocol and bytes, with why they are passed over."""
    time: int = 0
    segment: Optional[Segment] = None
    protocol: int = 0
    content: bytes = b""
    reason: Optional[str] = None


@dataclass
class Frame:
    """A packet of a file: the number of its link type, what was captured of it, and its length on the wire."""
    time: int
    link: int
    data: bytes
    length: int


@dataclass
class Seen:
    """What a reader can know of a packet: its segment and how many bytes of the payload were captured, or why it is passed over."""
    time: int
    segment: Optional[Segment] = None
    kept: int = 0
    reason: Optional[str] = None


def sum_of(data: bytes) -> int:
    """The check sum of RFC 1071."""
    data += bytes(len(data) % 2)
    total = sum(struct.unpack(f">{len(data) // 2}H", data))
    while total >> 16:
        total = (total & 0xFFFF) + (total >> 16)
    return total ^ 0xFFFF


def tcp_bytes(segment: Segment) -> bytes:
    options = segment.options + b"\x01" * (-len(segment.options) % 4)
    size = 20 + len(options)
    head = struct.pack(">HHIIHH", segment.source.port, segment.destination.port, segment.sequence, 0, size // 4 << 12 | segment.flags, 8_192)
    rest = b"\0\0" + options + segment.payload
    length = size + len(segment.payload)
    pseudo = segment.source.address + segment.destination.address + struct.pack(">II", length, TCP)
    return head + struct.pack(">H", sum_of(pseudo + head + b"\0\0" + rest)) + rest


def ipv4_bytes(source: bytes, destination: bytes, protocol: int, content: bytes, options=b"", fragment=0x4000, has_length=True) -> bytes:
    options += bytes(-len(options) % 4)
    size = 20 + len(options)
    length = size + len(content) if has_length else 0
    head = struct.pack(">BBHHHBB", 0x40 | size // 4, 0, length, 0x1234, fragment, 64, protocol)
    ends = source + destination + options
    return head + struct.pack(">H", sum_of(head + b"\0\0" + ends)) + ends + content


def ipv6_bytes(source: bytes, destination: bytes, protocol: int, content: bytes, headers=(), has_length=True) -> bytes:
    """`headers` are pairs of a number and the bytes behind the first two, six or eight more each."""
    following = [number for number, _ in headers][1:] + [protocol]
    chain = b"".join(bytes([after, (len(inner) - 6) // 8]) + inner for after, (_, inner) in zip(following, headers))
    first = headers[0][0] if headers else protocol
    length = len(chain) + len(content) if has_length else 0
    return struct.pack(">IHBB", 6 << 28, length, first, 64) + source + destination + chain + content


def datagram(packet: Packet) -> tuple[int, bytes]:
    """The number of the protocol, and the bytes behind the link header."""
    segment = packet.segment
    if segment is None:
        return packet.protocol, packet.content
    ends = segment.source.address, segment.destination.address
    if len(segment.source.address) == 4:
        return IPV4, ipv4_bytes(*ends, TCP, tcp_bytes(segment), segment.headers or b"", has_length=segment.has_length)
    return IPV6, ipv6_bytes(*ends, TCP, tcp_bytes(segment), segment.headers or (), has_length=segment.has_length)


def ethernet(*tags: int):
    """A header with these VLAN tags; a short frame is filled up with bytes that aren't zero, so that who takes them as a payload is seen."""
    def laid(protocol: int, content: bytes) -> bytes:
        words = b"".join(struct.pack(">HH", tag, 7) for tag in tags)
        frame = bytes.fromhex("020000000002020000000001") + words + struct.pack(">H", protocol) + content
        return frame + b"\x55" * (60 - len(frame))
    return laid


def cooked(*tags: int):
    def laid(protocol: int, content: bytes) -> bytes:
        words = [*tags, protocol]
        behind = b"".join(struct.pack(">HH", 7, word) for word in words[1:])
        return struct.pack(">HHH8sH", 0, 1, 6, b"\x02\0\0\0\0\x01", words[0]) + behind + content
    return laid


def cooked2(*tags: int):
    def laid(protocol: int, content: bytes) -> bytes:
        words = [*tags, protocol]
        behind = b"".join(struct.pack(">HH", 7, word) for word in words[1:])
        return struct.pack(">HHIHBB8s", words[0], 0, 2, 1, 0, 6, b"\x02\0\0\0\0\x01") + behind + content
    return laid


def family(order: str, number_of_v6: int):
    """A word for the protocol: 2 for IPv4, on each system another one for IPv6, and 7 for what is neither."""
    def laid(protocol: int, content: bytes) -> bytes:
        return struct.pack(order + "I", {IPV4: 2, IPV6: number_of_v6}.get(protocol, 7)) + content
    return laid


def bare(protocol: int, content: bytes) -> bytes:
    return content


class Link(NamedTuple):
    """A link layer: its number, what lays a packet out, and the protocols that it carries."""
    number: int
    laid: object
    protocols: tuple = (IPV4, IPV6, ARP)


LINKS = {
    "ethernet": Link(1, ethernet()),
    "ethernet, one tag": Link(1, ethernet(0x8100)),
    "ethernet, two tags": Link(1, ethernet(0x88A8, 0x8100)),
    "cooked": Link(113, cooked()),
    "cooked, a tag": Link(113, cooked(0x8100)),
    "cooked 2": Link(276, cooked2()),
    "cooked 2, a tag": Link(276, cooked2(0x8100)),
    "raw": Link(101, bare, (IPV4, IPV6)),
    "null, lowest first, 24": Link(0, family("<", 24)),
    "null, lowest first, 30": Link(0, family("<", 30)),
    "null, highest first, 28": Link(0, family(">", 28)),
    "loop": Link(108, family(">", 24)),
    "ipv4": Link(228, bare, (IPV4,)),
    "ipv6": Link(229, bare, (IPV6,)),
}


def laid_out(packet: Packet, link: Link, snap: int = WHOLE) -> tuple[Frame, Seen]:
    protocol, content = datagram(packet)
    wire = link.laid(protocol, content)
    frame = Frame(packet.time, link.number, wire[:snap], len(wire))
    if packet.segment is None:
        return frame, Seen(packet.time, reason=packet.reason)
    size = len(packet.segment.payload)
    head = len(link.laid(protocol, content + bytes(60))) - 60 - size
    if snap < head:
        return frame, Seen(packet.time, reason=CUT_HEADER)
    return frame, Seen(packet.time, packet.segment, min(size, snap - head))


class Form(NamedTuple):
    """How a classic file counts: the order of its bytes, and whether it has nanoseconds."""
    order: str
    is_nano: bool


FORMS = {"micro, lowest first": Form("<", False), "micro, highest first": Form(">", False),
         "nano, lowest first": Form("<", True), "nano, highest first": Form(">", True)}


def classic_head(form: Form, link: int, snap: int = WHOLE, version=(2, 4)) -> bytes:
    magic = 0xA1B23C4D if form.is_nano else 0xA1B2C3D4
    return struct.pack(form.order + "IHHiIII", magic, *version, 0, 0, snap, link)


def classic_packet(form: Form, frame: Frame) -> bytes:
    seconds, part = divmod(frame.time, 1_000_000_000)
    head = struct.pack(form.order + "IIII", seconds, part if form.is_nano else part // 1_000, len(frame.data), frame.length)
    return head + frame.data


def classic_file(form: Form, frames: list[Frame], snap: int = WHOLE) -> bytes:
    return classic_head(form, frames[0].link, snap) + b"".join(classic_packet(form, frame) for frame in frames)


def block(order: str, kind: int, body: bytes) -> bytes:
    body += bytes(-len(body) % 4)
    length = struct.pack(order + "I", len(body) + 12)
    return struct.pack(order + "I", kind) + length + body + length


def option(order: str, code: int, value: bytes) -> bytes:
    return struct.pack(order + "HH", code, len(value)) + value + bytes(-len(value) % 4)


def section_block(order: str, version=(1, 0), options: bytes = b"") -> bytes:
    return block(order, 0x0A0D0D0A, struct.pack(order + "IHHq", 0x1A2B3C4D, *version, -1) + options)


@dataclass
class Interface:
    """An interface of a section: its link layer, its snap length, and the byte that says how long its ticks are, if it has one."""
    link: Link
    snap: int = 0
    resolution: Optional[int] = None

    @property
    def per_second(self) -> int:
        places = 6 if self.resolution is None else self.resolution
        return 2 ** (places - 128) if places >= 128 else 10**places

    def rounded(self, time: int) -> int:
        """The time that its ticks can tell, in whole nanoseconds."""
        return time * self.per_second // 10**9 * 10**9 // self.per_second

    def ticks(self, time: int) -> int:
        """The ticks of a rounded time."""
        return -(-time * self.per_second // 10**9)

    def block(self, order: str) -> bytes:
        options = option(order, 2, b"eth0")
        if self.resolution is not None:
            options += option(order, 9, bytes([self.resolution]))
        return block(order, 1, struct.pack(order + "HHI", self.link.number, 0, self.snap) + options + bytes(4))


def packet_block(order: str, kind: str, number: int, interface: Interface, frame: Frame, options: bytes = b"") -> bytes:
    """A block that holds a packet: `enhanced`, `old`, or `simple`, which has no time, and is of interface 0."""
    data = frame.data + bytes(-len(frame.data) % 4)
    if kind == "simple":
        return block(order, 3, struct.pack(order + "I", frame.length) + data)
    high, low = divmod(interface.ticks(frame.time), 2**32)
    rest = struct.pack(order + "IIII", high, low, len(frame.data), frame.length) + data + options
    if kind == "old":
        return block(order, 2, struct.pack(order + "HH", number, 3) + rest)
    return block(order, 6, struct.pack(order + "I", number) + rest)


def block_file(order: str, interface: Interface, frames: list[Frame], kind: str = "enhanced") -> bytes:
    """One section with one interface, of which all packets are."""
    return section_block(order) + interface.block(order) + b"".join(packet_block(order, kind, 0, interface, frame) for frame in frames)


def odd_block(draw: random.Random, order: str) -> bytes:
    """A block that holds no packet: names, statistics, a custom one, or a kind that nobody knows."""
    kind = draw.choice([4, 5, 0x00000BAD, 0x40000BAD, 0x0000ABCD])
    if kind == 4:
        return block(order, 4, bytes(4))
    if kind == 5:
        return block(order, 5, bytes(12))
    return block(order, kind, draw.randbytes(4 * draw.randrange(1, 9)))
