"""Random traffic for captures: connections of clients to a server of NFS and to its MOUNT service, what a network does to their segments, and other
packets between them (for try_import.py).

`traffic(draw)` gives packets in the order in which they were seen. A connection's packets come from a `Conversation`; `disturbed` puts some in another
order, leaves some out and has some come again.
"""
import random
import struct
from dataclasses import dataclass, field

from captures import (ACK, ARP, FIN, FRAGMENT, IPV4, IPV6, ICMP, MALFORMED, NOT_IP, NOT_TCP, PUSH, RST, SYN, TCP, UDP, End, Packet, Segment, ipv4_bytes,
                      ipv6_bytes, tcp_bytes)

NFS_PORT, MOUNT_PORT = 2049, 20048
ROOT = bytes(range(0x80, 0x9C))
CALLS, REPLIES = 0, 1
RECORD_LIMIT = 2_097_152


def opaque(data: bytes) -> bytes:
    return struct.pack(">I", len(data)) + data + bytes(-len(data) % 4)


def call(xid: int, procedure: int, arguments: bytes = b"", program: int = 100_003, version: int = 3, credential: bytes = bytes(16)) -> bytes:
    return struct.pack(">6I", xid, 0, 2, program, version, procedure) + credential + arguments


def reply(xid: int, results: bytes = b"") -> bytes:
    return struct.pack(">6I", xid, 1, 0, 0, 0, 0) + results


def mnt_call(xid: int, path: bytes = b"/srv/tried") -> bytes:
    return call(xid, 1, opaque(path), program=100_005)


def mnt_reply(xid: int, root: bytes = ROOT) -> bytes:
    return reply(xid, bytes(4) + opaque(root) + struct.pack(">2I", 1, 1))


def framed(message: bytes, *sizes: int) -> bytes:
    """A record whose first fragments have these sizes (RFC 5531, section 11)."""
    pieces, at = [], 0
    for size in sizes:
        pieces.append(struct.pack(">I", size) + message[at:at + size])
        at += size
    rest = message[at:]
    return b"".join(pieces) + struct.pack(">I", 0x80000000 | len(rest)) + rest


def body(draw: random.Random, size: int) -> bytes:
    """Bytes of which no four begin a record that could be short."""
    return bytes(draw.choices(range(0x21, 0x7F), k=size))


def random_frame(draw: random.Random, message: bytes) -> bytes:
    sizes, left = [], len(message)
    while draw.random() < 0.25 and left:
        sizes.append(draw.choice([0, min(4, left), draw.randint(0, left)]))
        left -= sizes[-1]
    return framed(message, *sizes)


def credential(draw: random.Random) -> bytes:
    if draw.random() < 0.3:
        return bytes(16)
    inside = struct.pack(">I", draw.getrandbits(32)) + opaque(b"client%d" % draw.randrange(10)) + struct.pack(">4I", 1000, 1000, 1, 1000)
    return struct.pack(">I", 1) + opaque(inside) + bytes(8)


@dataclass
class Sent:
    """A segment of a conversation: which way, where its bytes stand in the stream of that way, and its flags."""
    way: int
    at: int = 0
    payload: bytes = b""
    flags: int = ACK


@dataclass
class Conversation:
    """A connection: its ends (client, server), the first sequence numbers of both ways, and what is said."""
    ends: tuple
    begins: tuple
    streams: list = field(default_factory=lambda: [bytearray(), bytearray()])
    sent: list = field(default_factory=list)

    def send(self, draw: random.Random, way: int, done: list) -> None:
        """A segment more of what waits on a way."""
        waiting = len(self.streams[way]) - done[way]
        size = min(waiting, draw.choice([draw.randint(1, 40), draw.randint(40, 400), 1_448, 1_448, 65_000]))
        flags = ACK | (PUSH if size == waiting else 0)
        self.sent.append(Sent(way, done[way], bytes(self.streams[way][done[way]:done[way] + size]), flags))
        done[way] += size

    def say(self, draw: random.Random, exchanges: list) -> None:
        """Calls and their replies, pairs of bytes; a reply may be None. It is sent when its call has been."""
        done, asked, open_replies, left = [0, 0], [], [], list(reversed(exchanges))
        while left or any(done[way] < len(self.streams[way]) for way in (CALLS, REPLIES)) or asked:
            open_replies += [given for end, given in asked if end <= done[CALLS] and given is not None]
            asked = [pair for pair in asked if pair[0] > done[CALLS]]
            move = draw.randrange(4)
            if move == 0 and left and len(asked) + len(open_replies) < 6:
                asking, given = left.pop()
                self.streams[CALLS] += asking
                asked.append((len(self.streams[CALLS]), given))
            elif move == 1 and open_replies:
                self.streams[REPLIES] += open_replies.pop(draw.randrange(len(open_replies)))
            elif move > 1 and done[move - 2] < len(self.streams[move - 2]):
                self.send(draw, move - 2, done)
            elif draw.random() < 0.1:
                way = draw.randrange(2)
                self.sent.append(Sent(way, done[way]))
        while open_replies or done[REPLIES] < len(self.streams[REPLIES]):
            self.streams[REPLIES] += open_replies.pop() if open_replies else b""
            self.send(draw, REPLIES, done)

    def packet(self, draw: random.Random, sent: Sent) -> Packet:
        source, destination = self.ends if sent.way == CALLS else self.ends[::-1]
        sequence = (self.begins[sent.way] + sent.at + (0 if sent.flags & SYN else 1)) % 2**32
        options = b"\x02\x04\x05\xb4\x04\x02" if sent.flags & SYN else draw.choice([b"", b"\x01\x01\x08\x0a" + draw.randbytes(8)])
        return Packet(segment=Segment(source, destination, sequence, sent.flags, sent.payload, options, headers(draw, source)))


def headers(draw: random.Random, source: End):
    """Options of IPv4, or headers with options of IPv6; mostly none."""
    if draw.random() < 0.8:
        return None
    if len(source.address) == 4:
        return draw.choice([b"\x94\x04\0\0", b"\x01\x01\x01", b"\x07\x07\x04\0\0\0\0"])
    hop_by_hop, destination = (0, b"\x05\x02\0\0\x01\0"), (60, b"\x01\x0c" + bytes(12))
    return draw.choice([(hop_by_hop,), (destination,), (hop_by_hop, destination)])


def exchanges(draw: random.Random, count: int) -> list:
    """Calls with their replies, as records; some calls get none, and now and then a transaction number comes again."""
    made, first = [], draw.getrandbits(32)
    for number in range(count):
        xid = (first + number) % 2**32
        if number and draw.random() < 0.02:
            xid = (first + draw.randrange(number)) % 2**32
        sizes = [draw.choice([0, 32, 36, 100, draw.randint(0, 300)]) for _ in range(2)]
        if draw.random() < 0.1:
            sizes[draw.randrange(2)] = draw.choice([8_192, 3_000, 40_000])
        asking = call(xid, draw.choice([0, 1, 6, 7]), body(draw, sizes[0] // 4 * 4), credential=credential(draw))
        given = random_frame(draw, reply(xid, body(draw, sizes[1]))) if draw.random() > 0.05 else None
        made.append((random_frame(draw, asking), given))
    return made


def begun(draw: random.Random, talk: Conversation) -> None:
    """Puts the three segments of a beginning ahead, of which the third may be missing or have bytes of its own."""
    opening = [Sent(CALLS, flags=SYN), Sent(REPLIES, flags=SYN | ACK)] + [Sent(CALLS)] * draw.randrange(2)
    if draw.random() < 0.1:
        opening.insert(1, Sent(CALLS, flags=SYN))
    talk.sent[:0] = opening


def ended(draw: random.Random, talk: Conversation) -> None:
    """Puts an end behind: both FINs, one alone, or a RST, or none. The last bytes may stand in the segment of a FIN."""
    ends = [len(stream) for stream in talk.streams]
    how, first = draw.randrange(6), draw.randrange(2)
    if how < 4:
        talk.sent.append(Sent(first, ends[first], flags=FIN | ACK))
    if how < 3:
        talk.sent += [Sent(1 - first, ends[1 - first]), Sent(1 - first, ends[1 - first], flags=FIN | ACK)]
        talk.sent += [Sent(1 - first, ends[1 - first], flags=FIN | ACK)] * draw.randrange(2) + [Sent(first, ends[first] + 1)]
    if how in (3, 4) and draw.random() < 0.7:
        talk.sent.append(Sent(first, ends[first], flags=RST | ACK))
    if how == 0:
        join_fin(talk)


def join_fin(talk: Conversation) -> None:
    """Makes the last segment with bytes of a way the one with its FIN, and leaves out the FIN of its own."""
    for index in range(len(talk.sent) - 1, -1, -1):
        sent = talk.sent[index]
        if sent.payload:
            own = [other for other in talk.sent if other.way == sent.way and other.flags & FIN]
            talk.sent = [other for other in talk.sent if all(other is not one for one in own)]
            sent.flags |= FIN
            return


def reordered(draw: random.Random, sent: list, often: float) -> list:
    """Some segments come later than others that were sent behind them."""
    keyed = [(index + (draw.uniform(1, 6) if draw.random() < often and not one.flags & (SYN | FIN | RST) else 0), index, one)
             for index, one in enumerate(sent)]
    return [one for _, _, one in sorted(keyed, key=lambda key: key[:2])]


def with_gap(draw: random.Random, sent: list) -> list:
    """Leaves out a segment with bytes behind which others with bytes of that way come, and what else that way shows of it ahead of these."""
    last = {way: max((one.at for one in sent if one.way == way and one.payload), default=0) for way in (CALLS, REPLIES)}
    lost = [index for index, one in enumerate(sent) if one.payload and one.at < last[one.way]]
    if not lost:
        return sent
    index = draw.choice(lost)
    gone = sent[index]
    kept, is_shown = sent[:index], False
    for one in sent[index + 1:]:
        is_shown |= one.way == gone.way and bool(one.payload) and one.at > gone.at
        if is_shown or one.way != gone.way or one.payload:
            kept.append(one)
    return kept


def changed(draw: random.Random, payload: bytes) -> bytes:
    return bytes(byte ^ draw.choice([0, 1, 0x80]) for byte in payload)


def again(draw: random.Random, talk: Conversation, known: list, way: int) -> Sent:
    """A segment that has bytes of which some or all came before. Those that came before may be others now."""
    end = len(known[way].rstrip(b"\0"))
    begin = draw.randrange(max(0, end - 3_000), end)
    stop = min(begin + draw.choice([1, draw.randint(1, 200), 1_448]), len(talk.streams[way]), end + 600)
    payload = bytes(talk.streams[way][begin:stop])
    if draw.random() < 0.5:
        other = changed(draw, payload)
        payload = bytes(theirs if known[way][begin + at] else ours for at, (ours, theirs) in enumerate(zip(payload, other)))
    return Sent(way, begin, payload)


def with_repeats(draw: random.Random, talk: Conversation, sent: list, often: float) -> list:
    """Segments come again, overlap others, or ask whether the other end is there."""
    known = [bytearray(len(stream)) for stream in talk.streams]
    repeated = []
    for one in sent:
        repeated.append(one)
        known[one.way][one.at:one.at + len(one.payload)] = b"\1" * len(one.payload)
        way = draw.randrange(2)
        if draw.random() < often and any(known[way]):
            more = again(draw, talk, known, way)
            repeated.append(more)
            known[way][more.at:more.at + len(more.payload)] = b"\1" * len(more.payload)
    return repeated


def is_plain_start(talk: Conversation, sent: list) -> bool:
    """Whether each way begins with a record, or where nobody could take what stands there for one."""
    for way in (CALLS, REPLIES):
        first = next((one for one in sent if one.way == way and one.payload), None)
        if first is None or first.at in record_starts(talk.streams[way]):
            continue
        if len(first.payload) < 4 or int.from_bytes(first.payload[:4], "big") & 0x7FFFFFFF <= RECORD_LIMIT:
            return False
    return True


def record_starts(stream: bytes) -> set:
    starts, at, is_start = set(), 0, True
    while at + 4 <= len(stream):
        if is_start:
            starts.add(at)
        head = int.from_bytes(stream[at:at + 4], "big")
        is_start = head >> 31 == 1
        at += 4 + (head & 0x7FFFFFFF)
    return starts


def opened_before(draw: random.Random, sent: list, talk: Conversation) -> list:
    """What is left of a connection that was there before the capture began."""
    sent = [one for one in sent if not one.flags & SYN]
    for _ in range(20):
        rest = sent[draw.randrange(len(sent) // 2 + 1):]
        if is_plain_start(talk, rest):
            return rest
    return sent


def conversation(draw: random.Random, ends: tuple, said: list) -> Conversation:
    begins = tuple(draw.choice([draw.getrandbits(32), (2**32 - draw.randrange(3_000)) % 2**32]) for _ in range(2))
    talk = Conversation(ends, begins)
    talk.say(draw, said)
    ended(draw, talk)
    return talk


def disturbed(draw: random.Random, talk: Conversation, may_be_open: bool = True) -> list[Packet]:
    """The packets of a connection as a capture has them."""
    often = draw.choice([0, 0, 0.05, 0.3])
    sent = reordered(draw, talk.sent, often)
    if draw.random() < 0.25:
        sent = with_gap(draw, sent)
    is_open = may_be_open and draw.random() < 0.25
    if is_open:
        sent = opened_before(draw, sent, talk)
    talk.sent = with_repeats(draw, talk, sent, often)
    if not is_open:
        begun(draw, talk)
    return [talk.packet(draw, one) for one in talk.sent]


def address(draw: random.Random, version: int) -> bytes:
    return b"\x0a\0\0" + draw.randbytes(1) if version == 4 else bytes.fromhex("fd00") + bytes(6) + draw.randbytes(8)


def reused(draw: random.Random, ends: tuple) -> list[Packet]:
    """One connection, or two or three, each between the same ends behind the other."""
    packets = []
    while True:
        packets += disturbed(draw, conversation(draw, ends, exchanges(draw, draw.randrange(1, 25))), may_be_open=not packets and draw.random() < 0.5)
        if draw.random() < 0.75 or len({packet.segment.source for packet in packets if packet.segment.payload or packet.segment.flags & SYN}) < 2:
            return packets


def mounting(draw: random.Random, server: bytes, client: bytes) -> list[Packet]:
    ends = End(client, draw.randrange(600, 1_000)), End(server, MOUNT_PORT)
    said = [(framed(call(7, 0, program=100_005)), framed(reply(7))), (framed(mnt_call(8)), framed(mnt_reply(8)))]
    talk = conversation(draw, ends, said)
    begun(draw, talk)
    return [talk.packet(draw, one) for one in talk.sent]


def other_stream(draw: random.Random, server: bytes, client: bytes) -> list[Packet]:
    """A connection of another service, which speaks no RPC."""
    ends = End(client, draw.randrange(30_000, 40_000)), End(server, draw.choice([22, 80, 12_345]))
    return disturbed(draw, conversation(draw, ends, [(body(draw, draw.randrange(1, 900)), body(draw, draw.randrange(1, 900))) for _ in range(4)]))


def odd_packet(draw: random.Random, version: int, has_arp: bool) -> Packet:
    """A packet that is passed over."""
    ends = [address(draw, version) for _ in range(2)]
    inside = tcp_bytes(Segment(End(ends[0], 700), End(ends[1], NFS_PORT), 9, ACK, b"abc"))
    lay = ipv4_bytes if version == 4 else ipv6_bytes
    protocol = IPV4 if version == 4 else IPV6
    short_header = inside[:12] + b"\x40" + inside[13:]
    kinds = [(NOT_TCP, lay(*ends, UDP, bytes(8))), (NOT_TCP, lay(*ends, ICMP, bytes(8))), (MALFORMED, lay(*ends, TCP, short_header))]
    if version == 4:
        kinds += [(FRAGMENT, lay(*ends, TCP, inside, fragment=0x2000)), (FRAGMENT, lay(*ends, TCP, inside, fragment=3)),
                  (MALFORMED, b"\x44" + lay(*ends, TCP, inside)[1:])]
    else:
        kinds.append((FRAGMENT, lay(*ends, TCP, inside, ((44, b"\0\x01" + bytes(4)),))))
    if has_arp and draw.random() < 0.3:
        return Packet(protocol=ARP, content=b"\0\x01\x08\0\x06\x04\0\x01" + bytes(20), reason=NOT_IP)
    reason, content = draw.choice(kinds)
    return Packet(protocol=protocol, content=content, reason=reason)


def merged(draw: random.Random, lists: list) -> list:
    """Lists as one, each in its order."""
    order = [number for number, packets in enumerate(lists) for _ in packets]
    draw.shuffle(order)
    iterators = [iter(packets) for packets in lists]
    return [next(iterators[number]) for number in order]


def traffic(draw: random.Random, versions: tuple = (4, 6), has_arp: bool = True, has_mount: bool = True) -> list[Packet]:
    """The packets of a capture."""
    lists, used = [], set()
    for _ in range(draw.randrange(1, 6)):
        version = draw.choice(versions)
        server, client = bytes(address(draw, version)[:-1]) + b"\x01", address(draw, version)
        port = draw.randrange(600, 1_024)
        if (client, port) not in used and client != server:
            used.add((client, port))
            lists.append(reused(draw, (End(client, port), End(server, NFS_PORT))))
    if has_mount:
        lists.append(mounting(draw, address(draw, versions[0]), address(draw, versions[0])))
    if draw.random() < 0.5:
        lists.append(other_stream(draw, address(draw, versions[-1]), address(draw, versions[-1])))
    lists.append([odd_packet(draw, draw.choice(versions), has_arp) for _ in range(draw.randrange(6))])
    packets, time = merged(draw, lists), draw.randrange(1_600_000_000, 1_800_000_000) * 10**9
    for packet in packets:
        time += draw.choice([1, 999, 1_234_567, draw.randrange(2 * 10**9)])
        packet.time = time
    return packets


def offloaded(draw: random.Random, packets: list[Packet]) -> None:
    """Some long packets say that they have no length, as where hardware cuts them into segments behind the capture."""
    for packet in packets:
        if packet.segment and len(packet.segment.payload) > 1_448 and draw.random() < 0.3:
            packet.segment.has_length = False
