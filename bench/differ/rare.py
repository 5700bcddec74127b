"""What few histories have, and what is hard to decide: a long WRITE without a reply, a handle that no reply gave, an object that a crash brings back."""
from collections import Counter

from . import layouts as nfs
from .failure import HANDLE_FIELDS

LONG = 64
TAKING = (nfs.REMOVE, nfs.RMDIR, nfs.RENAME)
GONE = {nfs.STATUSES["STALE"], nfs.STATUSES["BADHANDLE"]}


def is_long(call) -> bool:
    return call.procedure == nfs.WRITE and call.arguments is not None and len(call.arguments["data"]) > LONG


def has_long_open_write(history) -> bool:
    """A WRITE of over 64 bytes got no reply, and may have written any part of them."""
    return any(call.is_judged and call.end is None and is_long(call) for call in history.calls)


def named(call) -> list:
    """The handles by which a judged call asks."""
    return [call.arguments[field] for field in HANDLE_FIELDS[call.procedure]] if call.is_judged else []


def given(call) -> list:
    """The handles that its reply gives."""
    if not call.is_judged or not call.has_success:
        return []
    value = call.result[1]
    handles = [value.get("handle"), *(entry.get("handle") for entry in value.get("entries", []))]
    return [handle for handle in handles if handle is not None]


def has_unknown_handle(history) -> bool:
    """A call asks by a handle that no reply had given when it was sent, and that isn't the root's."""
    first = {}
    for call in history.calls:
        for handle in given(call):
            first[handle] = min(call.end, first.get(handle, call.end))
    return any(handle != history.head.root and call.begin < first.get(handle, call.begin + 1) for call in history.calls for handle in named(call))


def taken_places(history) -> list:
    """The calls that may take a name away and stay without a reply over a crash, each with the handles that replies gave for the name."""
    places = []
    for call in history.calls:
        if call.is_judged and call.end is None and call.era < history.eras and call.procedure in TAKING:
            place = call.arguments["dir"], call.arguments["name"]
            makers = [other for other in history.calls if other.is_judged and (other.arguments.get("dir"), other.arguments.get("name")) == place]
            places.append((call, {handle for other in makers for handle in given(other)}))
    return places


def has_object_back(history) -> bool:
    """A handle was answered NFS3ERR_STALE, or its name NFS3ERR_NOENT, while a call without a reply may have taken the object away, and it is asked by
    after the crash, which may have brought the object back."""
    for taker, handles in taken_places(history):
        place, gone = (taker.arguments["dir"], taker.arguments["name"]), set()
        for call in history.calls:
            if not call.is_judged or call.result is None or call.era != taker.era or call.end < taker.begin:
                continue
            if call.result[0] in GONE:
                gone |= set(named(call))
            elif call.result[0] == nfs.STATUSES["NOENT"] and (call.arguments.get("dir"), call.arguments.get("name")) == place:
                gone |= handles
        if any(gone & set(named(call)) for call in history.calls if call.era > taker.era):
            return True
    return False


LONG_WRITES, UNKNOWN_HANDLES, OBJECTS_BACK = "long WRITEs without a reply", "handles that no reply gave", "objects that a crash may bring back"
OPTIONS = {"--long-writes": LONG_WRITES, "--unknown-handles": UNKNOWN_HANDLES, "--objects-back": OBJECTS_BACK}
KINDS = {LONG_WRITES: has_long_open_write, UNKNOWN_HANDLES: has_unknown_handle, OBJECTS_BACK: has_object_back}


def kinds_of(history) -> list:
    return [kind for kind, is_so in KINDS.items() if is_so(history)]


def add_options(parser) -> None:
    """Options that ask for more histories of a kind."""
    for option, kind in OPTIONS.items():
        parser.add_argument(option, dest="wishes", action="append_const", const=kind, default=[], help=f"more histories with {kind}")


class Tally:
    """How many histories of each kind had which answer, by a reference and by the program."""

    def __init__(self):
        self.answers = Counter()

    def note(self, history, wanted: str, got: str) -> None:
        self.answers.update((kind, wanted, got) for kind in kinds_of(history))

    def line(self) -> str:
        return "; ".join(f"{kind}: {self.of(kind)}" for kind in KINDS)

    def of(self, kind: str) -> str:
        def many(wanted=None, got=None):
            return sum(count for (its, one, other), count in self.answers.items() if its == kind and wanted in (None, one) and got in (None, other))
        return f"{many()} ({many('yes')} yes, {many('no')} no, {many(got='undecided')} undecided by the program)"
