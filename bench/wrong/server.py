"""The right server: what each procedure does and answers (RFC 1813, section 3.3; `docs/PROFILE.md` says what is judged).

A call comes (`arrive`), takes effect at one moment (`perform`) and is answered (`answered`). Attributes in a reply are those of the moment of its effect.
Faults are classes over this one, which override a method.
"""
import bisect
import itertools
import random

from differ import layouts as nfs
from differ.layouts import DIRECTORY, EXCLUSIVE, GUARDED, LINK_TYPE, REGULAR, STATUSES, UNCHECKED, UNSTABLE

from . import results as wire
from .calls import Call, accepted
from .journal import Journal, is_committed
from .results import ABSENT, NO_WCC, PRESENT, framed, hyper, opaque, word, words
from .tree import PARENT_COOKIE, SELF_COOKIE, Change, Entry, Node, Tree

OK = word(0)
FILE_LIMIT, TRANSFER_LIMIT, TEXT_LIMIT, NAME_LIMIT = 16_777_216, 1_048_576, 1_048_576, 255
HANDLE_WORD = b"nfs3"
LIST_VERIFIER = bytes(8)
# FSINFO's properties (RFC 1813, section 3.3.19): FSF3_SYMLINK, FSF3_HOMOGENEOUS, FSF3_CANSETTIME.
PROPERTIES = 0x02 | 0x08 | 0x10

METHODS = {number: name.lower() for number, name in enumerate(nfs.NAMES)}
# The handles whose attributes of before and after the call a reply carries, or of after it alone; failures carry them too.
WEAK = {
    **{procedure: ("object",) for procedure in (nfs.SETATTR, nfs.WRITE, nfs.COMMIT)},
    **{procedure: ("dir",) for procedure in (nfs.CREATE, nfs.MKDIR, nfs.SYMLINK, nfs.MKNOD, nfs.REMOVE, nfs.RMDIR)},
    nfs.RENAME: ("dir", "to_dir"), nfs.LINK: ("dir",),
}
POST = {
    **{procedure: "object" for procedure in (nfs.ACCESS, nfs.READLINK, nfs.READ, nfs.FSSTAT, nfs.FSINFO, nfs.PATHCONF, nfs.LINK)},
    **{procedure: "dir" for procedure in (nfs.LOOKUP, nfs.READDIR, nfs.READDIRPLUS)},
}


class Failed(Exception):
    """A call fails with a status, by its name in RFC 1813."""

    def __init__(self, name: str):
        super().__init__(name)
        self.status = STATUSES[name]


def is_plain(name: bytes) -> bool:
    return name not in (b"", b".", b"..")


class Server:
    def __init__(self, seed: int = 1):
        self.draws = random.Random(f"{seed} server")
        self.tree, self.journal = Tree(), Journal()
        self.moment = self.last_change = 0
        self.verifier = self.draws.randbytes(8)

    # A call's way

    def arrive(self, call: Call) -> None:
        self.moment += 1
        call.arrived = self.moment

    def perform(self, call: Call) -> None:
        """The call takes effect, and its results are worked out."""
        self.note_before(call)
        self.tree.change = call.change = Change(self.last_change + 1)
        try:
            call.results = OK + self.run(call) if call.procedure != nfs.NULL else b""
        except Failed as failure:
            assert not call.change.undo, "a call that fails has no effect"
            call.results = word(failure.status) + self.failed(call)
            return
        if call.procedure in nfs.MODIFYING:
            self.last_change += 1
            self.journal.add(call.change)

    def run(self, call: Call) -> bytes:
        return getattr(self, METHODS[call.procedure])(call)

    def answered(self, call: Call) -> None:
        """The reply goes out. From now on no crash may lose the change, or the WRITEs that the call committed, and with them each change before."""
        self.moment += 1
        call.change.answered = self.moment
        if call.procedure in nfs.MODIFYING and call.is_stable and is_success(call):
            self.journal.keep_through(call.change.number)
        for change in call.commits:
            change.is_committed = True
            self.make_safe(change)

    def make_safe(self, change: Change) -> None:
        """A COMMIT of an UNSTABLE WRITE."""
        self.journal.keep_through(change.number)

    def crash(self) -> list[Change]:
        """Takes a random suffix of what may be lost back, and gives it."""
        lost = self.journal.lose_behind(self.kept_number())
        self.verifier = self.next_verifier(lost)
        return lost

    def outgoing(self, call: Call) -> tuple[bytes, bool]:
        """What is sent for a call's reply, and whether the connection ends then."""
        return framed(accepted(call)), False

    def kept_number(self) -> int:
        """How many of the changes that may be lost outlive the crash."""
        return self.draws.randint(0, len(self.journal.changes))

    def next_verifier(self, lost: list[Change]) -> bytes:
        return self.draws.randbytes(8)

    # Attributes in replies

    def note_before(self, call: Call) -> None:
        for field in WEAK.get(call.procedure, ()):
            node = self.known(call.arguments[field])
            if node is not None:
                call.weak_before[field] = self.before(call, node)

    def before(self, call: Call, node: Node) -> bytes:
        return wire.before(node)

    def attributes(self, call: Call, node: Node) -> bytes:
        return wire.attributes(node)

    def post(self, call: Call, node: Node) -> bytes:
        return PRESENT + self.attributes(call, node)

    def weak(self, call: Call, field: str) -> bytes:
        node = self.known(call.arguments[field])
        if node is None or field not in call.weak_before:
            return NO_WCC
        return PRESENT + call.weak_before[field] + self.post(call, node)

    def failed(self, call: Call) -> bytes:
        """What a failure carries behind its status."""
        carried = b""
        if call.procedure in POST:
            node = self.known(call.arguments[POST[call.procedure]])
            carried = ABSENT if node is None else self.post(call, node)
        return carried + b"".join(self.weak(call, field) for field in WEAK.get(call.procedure, ()))

    # Handles and names

    def handle(self, node: Node) -> bytes:
        return HANDLE_WORD + hyper(node.number)

    @property
    def root_handle(self) -> bytes:
        return self.handle(self.tree.root)

    def known(self, handle: bytes):
        """The node of a handle, or None."""
        is_ours = len(handle) == 12 and handle[:4] == HANDLE_WORD
        return self.tree.nodes.get(int.from_bytes(handle[4:], "big")) if is_ours else None

    def node(self, call: Call, field: str = "object") -> Node:
        handle = call.arguments[field]
        node = self.known(handle)
        if node is None:
            raise Failed("STALE" if len(handle) == 12 and handle[:4] == HANDLE_WORD else "BADHANDLE")
        return node

    def directory(self, call: Call, field: str = "dir") -> Node:
        node = self.node(call, field)
        if not node.is_directory:
            raise Failed("NOTDIR")
        return node

    def file(self, call: Call) -> Node:
        node = self.node(call)
        if not node.is_file:
            raise Failed("ISDIR" if node.is_directory else "INVAL")
        return node

    def plain_name(self, call: Call, field: str = "name") -> bytes:
        name = call.arguments[field]
        if not is_plain(name):
            raise Failed("INVAL")
        if len(name) > NAME_LIMIT:
            raise Failed("NAMETOOLONG")
        return name

    def entry(self, call: Call, directory: Node, name: bytes) -> Entry:
        found = directory.entries.get(name)
        if found is None:
            raise Failed("NOENT")
        return found

    # Attributes of an object

    def getattr(self, call: Call) -> bytes:
        return self.attributes(call, self.node(call))

    def setattr(self, call: Call) -> bytes:
        node, wanted, guard = self.node(call), call.arguments["new"], call.arguments["guard"]
        if wanted["size"] is not None:
            self.file(call)
            self.check_size(wanted["size"])
        if guard is not None and (guard["seconds"], guard["nanoseconds"]) != wire.time_words(node.ctime):
            raise Failed("NOT_SYNC")
        if wanted["size"] is not None:
            self.tree.resize(node, wanted["size"])
        self.set_attributes(node, wanted)
        return self.weak(call, "object")

    def check_size(self, size) -> None:
        if size is not None and size > FILE_LIMIT:
            raise Failed("FBIG")

    def set_attributes(self, node: Node, wanted: dict) -> None:
        """Those that aren't judged: mode, owner, times."""
        self.tree.keep_fields(node, "mode", "uid", "gid", "atime", "mtime")
        for field in ("mode", "uid", "gid"):
            if wanted[field] is not None:
                setattr(node, field, wanted[field])
        for field in ("atime", "mtime"):
            how, time = wanted[field]
            if how:
                setattr(node, field, self.tree.now() if time is None else time["seconds"] * wire.BILLION + time["nanoseconds"])
        self.tree.touch(node, is_modified=False)

    # Looking

    def lookup(self, call: Call) -> bytes:
        directory = self.directory(call)
        node = self.found(call, directory, call.arguments["name"])
        return opaque(self.handle(node)) + self.post(call, node) + self.post(call, directory)

    def found(self, call: Call, directory: Node, name: bytes) -> Node:
        if name == b".":
            return directory
        return directory.parent if name == b".." else self.entry(call, directory, name).node

    def readlink(self, call: Call) -> bytes:
        node = self.node(call)
        if not node.is_link:
            raise Failed("INVAL")
        return self.post(call, node) + opaque(self.text(call, node))

    def text(self, call: Call, node: Node) -> bytes:
        return node.data

    def read(self, call: Call) -> bytes:
        node, offset = self.file(call), call.arguments["offset"]
        content = self.content(call, node)
        data = bytes(content[offset:offset + min(call.arguments["count"], TRANSFER_LIMIT)])
        data, is_end = self.shown(call, node, data, offset + len(data) >= len(content))
        return self.post(call, node) + words(len(data), is_end) + opaque(data)

    def content(self, call: Call, node: Node) -> bytearray:
        """The bytes of the file that a READ is answered from."""
        return node.data

    def shown(self, call: Call, node: Node, data: bytes, is_end: bool) -> tuple[bytes, bool]:
        """What a READ shows of these bytes, and of whether they reach the end."""
        return data, is_end

    # Writing

    def write(self, call: Call) -> bytes:
        arguments = call.arguments
        node, data, level = self.file(call), arguments["data"], self.level(call)
        if arguments["count"] != len(data):
            raise Failed("INVAL")
        if data:
            self.check_size(arguments["offset"] + len(data))
            data = self.taken(call, data)
            self.tree.write(node, arguments["offset"], data, level)
        call.is_stable = level != UNSTABLE
        return self.weak(call, "object") + words(len(data), level) + self.shown_verifier(call)

    def taken(self, call: Call, data: bytes) -> bytes:
        """How much of its bytes a WRITE writes."""
        return data

    def level(self, call: Call) -> int:
        """How safe a WRITE is before it is answered."""
        return call.arguments["level"]

    def shown_verifier(self, call: Call) -> bytes:
        return self.verifier

    def commit(self, call: Call) -> bytes:
        node, offset, count = self.file(call), call.arguments["offset"], call.arguments["count"]
        standing = [write.change for write in node.writes if is_committed(write.change, node, offset, count)]
        call.commits = self.journal.committed_by(node, offset, count) + standing
        return self.weak(call, "object") + self.shown_verifier(call)

    # Making

    def create(self, call: Call) -> bytes:
        directory, name = self.directory(call), self.plain_name(call)
        mode, how = call.arguments["how"]
        if mode != EXCLUSIVE:
            self.check_size(how["size"])
        found = directory.entries.get(name)
        if found is None:
            node = self.make_file(call, directory, name)
        else:
            node = self.created_again(call, found, mode, how)
        return self.made(call, node)

    def make_file(self, call: Call, directory: Node, name: bytes) -> Node:
        mode, how = call.arguments["how"]
        is_exclusive = mode == EXCLUSIVE
        size = 0 if is_exclusive else how["size"] or 0
        node = Node(self.fresh_number(call), REGULAR, bytearray(size), how if is_exclusive else None)
        self.tree.make(directory, name, node)
        if not is_exclusive:
            self.set_attributes(node, how)
        return node

    def created_again(self, call: Call, found: Entry, mode: int, how) -> Node:
        """CREATE of a name that stands."""
        node = found.node
        if not node.is_file or not self.may_create_again(call, found, mode, how):
            raise Failed("EXIST")
        if mode == UNCHECKED and how["size"] is not None:
            self.tree.resize(node, how["size"])
        return node

    def may_create_again(self, call: Call, found: Entry, mode: int, how) -> bool:
        if mode == EXCLUSIVE:
            return found.node.verifier == how
        return mode != GUARDED

    def made(self, call: Call, node: Node) -> bytes:
        return self.made_handle(call, node) + self.post(call, node) + self.weak(call, "dir")

    def made_handle(self, call: Call, node: Node) -> bytes:
        return PRESENT + opaque(self.handle(node))

    def fresh_number(self, call: Call) -> int:
        return self.tree.fresh_number()

    def mkdir(self, call: Call) -> bytes:
        return self.make(call, DIRECTORY, b"")

    def symlink(self, call: Call) -> bytes:
        return self.make(call, LINK_TYPE, call.arguments["text"])

    def make(self, call: Call, kind: int, text: bytes) -> bytes:
        directory, name = self.directory(call), self.plain_name(call)
        if len(text) > TEXT_LIMIT:
            raise Failed("NAMETOOLONG")
        if name in directory.entries:
            raise Failed("EXIST")
        node = Node(self.fresh_number(call), kind, text)
        self.tree.make(directory, name, node)
        self.set_attributes(node, call.arguments["new"])
        return self.made(call, node)

    # Taking away and moving

    def remove(self, call: Call) -> bytes:
        directory, name = self.directory(call), self.plain_name(call)
        if self.entry(call, directory, name).node.is_directory:
            raise Failed("ISDIR")
        self.tree.drop(directory, name)
        return self.weak(call, "dir")

    def rmdir(self, call: Call) -> bytes:
        directory, name = self.directory(call), self.plain_name(call)
        node = self.entry(call, directory, name).node
        if not node.is_directory:
            raise Failed("NOTDIR")
        if node.entries:
            self.empty(call, node)
        self.tree.drop(directory, name)
        return self.weak(call, "dir")

    def empty(self, call: Call, node: Node) -> None:
        """A directory that holds something isn't taken away."""
        raise Failed("NOTEMPTY")

    def rename(self, call: Call) -> bytes:
        directory, to_directory = self.directory(call), self.directory(call, "to_dir")
        name, to_name = self.plain_name(call), self.plain_name(call, "to_name")
        node = self.entry(call, directory, name).node
        there = to_directory.entries.get(to_name)
        if (directory, name) != (to_directory, to_name):
            if self.tree.is_below(to_directory, node):
                return self.move_below_itself(call)
            if there is not None:
                self.check_target(node, there.node)
            self.move(call, directory, name, to_directory, to_name)
        return self.weak(call, "dir") + self.weak(call, "to_dir")

    def check_target(self, node: Node, there: Node) -> None:
        """What stands at the new name may have to stay."""
        if node.is_directory and not there.is_directory:
            raise Failed("NOTDIR")
        if there.is_directory and not node.is_directory:
            raise Failed("ISDIR")
        if there.entries:
            raise Failed("NOTEMPTY")

    def move_below_itself(self, call: Call) -> bytes:
        raise Failed("INVAL")

    def move(self, call: Call, directory: Node, name: bytes, to_directory: Node, to_name: bytes) -> None:
        self.tree.move(directory, name, to_directory, to_name)

    # Lists

    def readdir(self, call: Call) -> bytes:
        directory = self.directory(call)
        room = call.arguments["count"] - 4 - (4 + 84) - 8 - 8
        return self.listing(call, directory, room, None, lambda name, node: b"")

    def readdirplus(self, call: Call) -> bytes:
        directory = self.directory(call)
        room = call.arguments["maxcount"] - 4 - (4 + 84) - 8 - 8

        def beside(name: bytes, node: Node) -> bytes:
            return self.post(call, node) + PRESENT + opaque(self.handle(node))
        return self.listing(call, directory, room, call.arguments["dircount"], beside)

    def listing(self, call: Call, directory: Node, room: int, names_room, beside) -> bytes:
        """A page: as many entries as there is room for, in the bytes of the reply and in those of the names alone."""
        page, is_end = [], True
        room = min(room, TRANSFER_LIMIT)
        for cookie, name, node in self.after(call, directory, call.arguments["cookie"]):
            text = PRESENT + hyper(node.number) + opaque(name) + hyper(cookie) + beside(name, node)
            room -= len(text)
            names_room = None if names_room is None else names_room - 8 - len(opaque(name)) - 8
            if room < 0 or (names_room is not None and names_room < 0):
                is_end = False
                break
            page.append((name, text))
        if not page and not is_end:
            raise Failed("TOOSMALL")
        texts, is_end = self.page(call, directory, page, is_end, room)
        return self.post(call, directory) + LIST_VERIFIER + b"".join(texts) + ABSENT + word(is_end)

    def after(self, call: Call, directory: Node, cookie: int):
        """What a list from a cookie shows: cookie, name and node of each."""
        if cookie < SELF_COOKIE:
            yield SELF_COOKIE, b".", directory
        if cookie < PARENT_COOKIE:
            yield PARENT_COOKIE, b"..", directory.parent
        first = bisect.bisect_right(directory.order, cookie, key=lambda pair: pair[0])
        for number, name in itertools.islice(directory.order, first, None):
            yield number, name, directory.entries[name].node

    def page(self, call: Call, directory: Node, page: list, is_end: bool, room: int) -> tuple[list[bytes], bool]:
        """The entries that are sent, of those that the page has, and whether none is behind them."""
        return [text for _, text in page], is_end

    # Procedures that aren't judged

    def access(self, call: Call) -> bytes:
        return self.post(call, self.node(call)) + word(call.arguments["access"])

    def fsstat(self, call: Call) -> bytes:
        numbers = [1 << 40] * 3 + [1 << 20] * 3
        return self.post(call, self.node(call)) + b"".join(hyper(number) for number in numbers) + word(0)

    def fsinfo(self, call: Call) -> bytes:
        sizes = words(TRANSFER_LIMIT, 65536, 1, TRANSFER_LIMIT, 65536, 1, 65536)
        return self.post(call, self.node(call)) + sizes + hyper(FILE_LIMIT) + words(0, 1, PROPERTIES)

    def pathconf(self, call: Call) -> bytes:
        return self.post(call, self.node(call)) + words(1, NAME_LIMIT, 1, 0, 0, 1)

    def link(self, call: Call) -> bytes:
        raise Failed("NOTSUPP")

    def mknod(self, call: Call) -> bytes:
        raise Failed("NOTSUPP")


def is_success(call: Call) -> bool:
    return call.results[:4] == OK
