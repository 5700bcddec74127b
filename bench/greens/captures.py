"""Rows of `import --strict`, and of `search` and `report` behind it: captures that lack something."""
import capture_cases as cases

from .runs import Answer, Setting
from .table import Row


def imported(make):
    """`import --strict` of packets, and what `search` and `report` say of its history."""
    def trial(setting: Setting) -> Answer:
        capture, history = setting.folder / "capture", setting.folder / "h.hist"
        capture.write_bytes(cases.captured(make())[0])
        answer = setting.run("import", "--port", cases.NFS_PORT, "--root", cases.ROOT.hex(), "--strict", capture, history)
        if answer.status:
            return answer
        found = setting.run("search", "--quiet", history)
        return setting.reported(history, found.out, answer)
    return trial


def with_lost_end():
    """A call, its reply, and a call whose reply was dropped at the end of the capture."""
    (ask, give), second = cases.judged_messages(), cases.framed(cases.call(2, 0))
    return cases.of_one(cases.asks(0, ask), cases.gives(0, give), cases.asks(len(ask), second))


def without_judged():
    return cases.of_one(cases.asks(0, cases.FIRST), cases.gives(0, cases.ONE))


def of_two_servers():
    """Connections to one port of two hosts."""
    ask, give = cases.judged_messages()
    other = cases.Conversation((cases.End(cases.CLIENT, 701), cases.End(b"\x0a\0\0\x03", cases.NFS_PORT)), (1_000, 5_000))
    pairs = [(lane, sent) for lane in (cases.talk(), other) for sent in (cases.asks(flags=cases.SYN), cases.gives(flags=cases.SYN | cases.ACK),
                                                                        cases.asks(0, ask), cases.gives(0, give))]
    return cases.packets_of(*pairs)


def reset_by_server():
    """The server resets the connection amid a call."""
    ask, give = cases.judged_messages()
    second = cases.framed(cases.call(2, 0))
    return cases.of_one(cases.asks(0, ask), cases.gives(0, give), cases.asks(len(ask), second), cases.gives(len(give), flags=cases.RST | cases.ACK))


def with_other_packet(protocol: int, content: bytes):
    """The same call, and a packet that is passed over."""
    def make():
        ask, give = cases.judged_messages()
        packets = cases.of_one(cases.asks(0, ask), cases.gives(0, give))
        return [*packets, cases.Packet(packets[-1].time, None, protocol, content, "passed over")]
    return make


CAPTURES = [
    Row("(b) import: a last reply lost", "The last reply was dropped by the capture", "import --strict, search, report", imported(with_lost_end)),
    Row("(c) import: no judged call", "No call of the capture is judged", "import --strict, search, report", imported(without_judged)),
    Row("(c) import: two servers", "Two servers at one port are one history", "import --strict, search, report", imported(of_two_servers)),
    Row("import: reset by the server", "The server resets a connection amid a call", "import --strict, search, report", imported(reset_by_server), wants="told",
        least="reset|ended|unanswered"),
    Row("import: an ARP packet", "Nothing: no segment of TCP is in it. Standard error says that a packet was passed over",
        "import --strict, search, report", imported(with_other_packet(0x0806, bytes(28))), wants="told", least="packets passed over: 1: not IP"),
    Row("import: a broken header", "A packet has a header of sixteen bytes, and no packet has one of less than twenty", "import --strict, search, report",
        imported(with_other_packet(0x0800, b"\x44\0\0\x14" + bytes(16))), least="a header that no packet has"),
]
