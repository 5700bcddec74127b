"""A history file: its events, its calls, and what makes it refused."""
from . import layouts as nfs
from .items import Bad, Source, Word, read_whole
from .refusals import Refused, take_bytes, take_limited
from .rpc import RPCSEC_GSS, read_call, read_reply
from .starts import PLAIN, STRICT, read_profile, read_start
from .trees import OPENING

MAGIC, MAGIC_OF_STARTS = b"NFSHIST1", b"NFSHIST2"
FILE_LIMIT = 268_435_456
EVENT_LIMIT = 1_000_000
MESSAGE_LIMIT = 2_097_152
SIZE_LIMIT = 16_777_216
CALL, REPLY, CLOSE, CRASH = range(4)


class Call:
    """A call of a history. `result` is a pair of status and value, for a judged call that was answered."""

    def __init__(self, lane: int, head: dict, begin: int, era: int):
        self.lane, self.head, self.begin, self.era = lane, head, begin, era
        self.end = self.reply = self.arguments = self.result = None
        self.is_judged = False

    @property
    def procedure(self) -> int:
        return self.head["procedure"]

    @property
    def is_modifying(self) -> bool:
        return self.is_judged and self.procedure in nfs.MODIFYING

    @property
    def has_success(self) -> bool:
        return self.result is not None and self.result[0] == 0


class Head:
    """What a history begins with: the root handle, the tree before the first event, whether attributes are judged.

    `first` is how many starting objects there are: call n makes object `first` + n.
    """

    def __init__(self, root: bytes, has_start=False, profile=PLAIN, opening=OPENING):
        self.root, self.has_start, self.is_strict, self.opening, self.first = root, has_start, profile == STRICT, opening, len(opening) - 1


class History:
    def __init__(self, head: Head, calls: list, eras: int):
        self.head, self.calls, self.eras = head, calls, eras


def read_head(source: Source) -> Head:
    has_start = source.take(8) == MAGIC_OF_STARTS
    root = take_bytes(source, nfs.HANDLE_LIMIT)
    return Head(root, True, read_profile(source), read_start(source)) if has_start else Head(root)


def read_file(data: bytes):
    """The head and the events (kind, lane, message). The first item that can't be read decides."""
    if data[:8] not in (MAGIC, MAGIC_OF_STARTS):
        raise Refused("BadMagic")
    if len(data) > FILE_LIMIT:
        raise Refused("TooLarge")
    source, events = Source(data), []
    try:
        head = read_head(source)
        for number in range(1, take_limited(source, EVENT_LIMIT) + 1):
            kind = source.word()
            if kind > CRASH:
                raise Refused("BadEvent", number)
            lane = source.word() if kind != CRASH else None
            message = take_bytes(source, MESSAGE_LIMIT) if kind in (CALL, REPLY) else None
            events.append((kind, lane, message))
    except Bad:
        raise Refused("Truncated") from None
    if source.at != len(data):
        raise Refused("Trailing")
    return head, events


def read_message(reader, message: bytes, number: int) -> dict:
    try:
        return reader(message)
    except Bad:
        raise Refused("BadRpc", number) from None


def match_events(events: list):
    """The calls with their replies, and the number of eras. A lane is closed by its close, and by a crash behind any event of it."""
    calls, waiting, used, closed, era = [], {}, set(), set(), 1
    for number, (kind, lane, message) in enumerate(events, 1):
        if kind == CRASH:
            closed |= used
            era += 1
            continue
        if lane in closed:
            raise Refused("LaneClosed", number)
        used.add(lane)
        if kind == CLOSE:
            closed.add(lane)
        elif kind == CALL:
            head = read_message(read_call, message, number)
            if (lane, head["xid"]) in waiting:
                raise Refused("XidInUse", number)
            waiting[lane, head["xid"]] = call = Call(lane, head, number, era)
            calls.append(call)
        else:
            reply = read_message(read_reply, message, number)
            call = waiting.pop((lane, reply["xid"]), None)
            if call is None:
                raise Refused("NoSuchCall", number)
            call.end, call.reply = number, reply
    return calls, era


def wanted_size(call: Call):
    """The size that a SETATTR or CREATE asks for, or None."""
    if call.procedure == nfs.SETATTR:
        return call.arguments["new"]["size"]
    if call.procedure == nfs.CREATE and call.arguments["how"][0] != nfs.EXCLUSIVE:
        return call.arguments["how"][1]["size"]
    return None


def is_too_far(call: Call) -> bool:
    """A file over the limit would be made, and no failure was answered."""
    if call.result is not None and call.result[0] != 0:
        return False
    if call.procedure == nfs.WRITE:
        return call.arguments["count"] > 0 and call.arguments["offset"] + call.arguments["count"] > SIZE_LIMIT
    return (wanted_size(call) or 0) > SIZE_LIMIT


def look_at_link(call: Call, number: int) -> None:
    """LINK and MKNOD: of the result only the status word is read, and only a failure is no fault."""
    if call.reply is not None:
        try:
            if Word().read(Source(call.reply["result"])) != 0:
                return
        except Bad:
            raise Refused("BadResult", number) from None
    raise Refused("Outside", number, "Link" if call.procedure == nfs.LINK else "Node")


def look_at_call(call: Call, number: int) -> None:
    """Reads arguments and result. A call that was refused in RPC, or is of another program or version, is free of all faults."""
    is_failed = call.reply is not None and call.reply["result"] is None
    if is_failed or (call.head["program"], call.head["version"]) != (nfs.PROGRAM, nfs.VERSION):
        return
    if call.head["flavor"] == RPCSEC_GSS:
        raise Refused("Sealed", number)
    if call.procedure in (nfs.LINK, nfs.MKNOD):
        look_at_link(call, number)
    if call.procedure not in nfs.JUDGED:
        return
    call.is_judged = True
    try:
        call.arguments = read_whole(nfs.ARGUMENTS[call.procedure], call.head["arguments"])
    except Bad:
        raise Refused("BadArgs", number) from None
    if call.reply is not None:
        try:
            call.result = nfs.read_result(call.procedure, call.reply["result"])
        except Bad:
            raise Refused("BadResult", number) from None
    if call.procedure == nfs.WRITE and call.arguments["count"] != len(call.arguments["data"]):
        raise Refused("Outside", number, "CountDiffers")
    if is_too_far(call):
        raise Refused("Outside", number, "TooFar")


def read_history(data: bytes) -> History:
    head, events = read_file(data)
    calls, eras = match_events(events)
    for number, call in enumerate(calls, 1):
        look_at_call(call, number)
    return History(head, calls, eras)
