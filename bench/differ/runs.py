"""A run: the events of a history with their messages, and the certificate that explains them. Changes work on these values."""
from dataclasses import dataclass, field

from . import layouts as nfs
from . import rpc
from .starts import STRICT


@dataclass
class CallEvent:
    """A call. Where `arguments` is None the bytes of `raw` stand in their place. `extra` follows the message."""
    lane: int
    xid: int
    procedure: int
    arguments: dict | None = None
    raw: bytes = b""
    program: int = nfs.PROGRAM
    version: int = nfs.VERSION
    flavor: int = rpc.AUTH_NONE
    credential: bytes = b""
    check_flavor: int = rpc.AUTH_NONE
    check: bytes = b""
    rpc_version: int = rpc.RPC_VERSION
    type_word: int = rpc.CALL
    extra: bytes = b""


@dataclass
class ReplyEvent:
    """A reply: accepted and SUCCESS with a result (`status`, `value`) or the bytes of `raw`; or, with `words`, the words behind the message type."""
    lane: int
    xid: int
    procedure: int
    status: int | None = None
    value: dict | None = None
    raw: bytes = b""
    words: list | None = None
    check_flavor: int = rpc.AUTH_NONE
    check: bytes = b""
    type_word: int = rpc.REPLY
    extra: bytes = b""


@dataclass
class CloseEvent:
    lane: int


@dataclass
class CrashEvent:
    pass


@dataclass
class PlanPlace:
    number: int
    is_taken: bool = False
    count: int | None = None


@dataclass
class PlanEra:
    places: list = field(default_factory=list)
    cut: int | None = None


@dataclass
class StartObject:
    """An object that stands before the first event. A length that isn't None is written in place of the true one."""
    parent: int
    name: bytes
    kind: int
    data: bytes = b""
    name_length: int | None = None
    data_length: int | None = None


@dataclass
class Start:
    """What a history of version 2 begins with. A count that isn't None is written in place of the true one."""
    profile: int
    objects: list = field(default_factory=list)
    count: int | None = None


@dataclass
class Run:
    """A run. Without a start its history is of version 1."""
    root: bytes
    events: list = field(default_factory=list)
    binds: list = field(default_factory=list)
    eras: list = field(default_factory=list)
    start: Start | None = None

    @property
    def is_strict(self) -> bool:
        return self.start is not None and self.start.profile == STRICT

    @property
    def first(self) -> int:
        """How many objects stand before the first event: call n makes object `first` + n."""
        return len(self.start.objects) if self.start else 0

    def calls(self) -> list:
        return [event for event in self.events if isinstance(event, CallEvent)]

    def replies(self) -> list:
        """The reply of each call, or None."""
        replies, waiting = [], {}
        for event in self.events:
            if isinstance(event, CallEvent):
                waiting[event.lane, event.xid] = len(replies)
                replies.append(None)
            elif isinstance(event, ReplyEvent) and (event.lane, event.xid) in waiting:
                replies[waiting.pop((event.lane, event.xid))] = event
        return replies

    def pairs(self) -> list:
        """Each call with arguments and its reply with a result of that procedure."""
        return [(call, reply) for call, reply in zip(self.calls(), self.replies())
                if call.arguments is not None and reply is not None and reply.value is not None and call.procedure == reply.procedure]

    def places(self) -> list:
        return [place for era in self.eras for place in era.places]

    def era_numbers(self) -> list:
        """The era of each call, from 0."""
        eras, era = [], 0
        for event in self.events:
            era += isinstance(event, CrashEvent)
            if isinstance(event, CallEvent):
                eras.append(era)
        return eras
