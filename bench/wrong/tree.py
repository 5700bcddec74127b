"""The tree of files that the server keeps. Each step of a change tells how to take it back, since a crash may lose the change."""
import bisect
import time
from typing import NamedTuple, Optional

from differ.layouts import DIRECTORY, LINK_TYPE, REGULAR

ROOT_NUMBER = 1
# The cookies of `.` and `..` in a list. Those of entries are above.
SELF_COOKIE, PARENT_COOKIE = 1, 2
# How many WRITEs of a file are kept in mind.
MOST_WRITES = 8
# What a change of a file's bytes changes beside them.
FILE_FIELDS = "last_write", "writes", "last_resizing", "hole"


class Change:
    """What one call changed: the steps that take it back, and the moment at which the call was answered, if it was."""

    __slots__ = ("number", "undo", "answered", "write", "is_committed")

    def __init__(self, number: int):
        self.number, self.undo = number, []
        self.answered: Optional[int] = None
        self.write: Optional[Write] = None
        self.is_committed = False

    def is_known_to(self, call) -> bool:
        """Whether the change was answered before the call came."""
        return self.answered is not None and self.answered < call.arrived

    def take_back(self) -> None:
        while self.undo:
            self.undo.pop()()


class Write(NamedTuple):
    """The bytes that a WRITE brought, and what stood there: enough to go back to the content of before, or half of the way."""
    change: Change
    node: "Node"
    offset: int
    data: bytes
    old: bytes
    old_size: int
    level: int

    @property
    def end(self) -> int:
        return self.offset + len(self.data)

    @property
    def lost(self) -> bytes:
        """What stands in its place if a crash takes it alone: what was there, and zeros behind the file's end of before."""
        return self.old + bytes(len(self.data) - len(self.old))

    def content_before(self) -> bytearray:
        """The file's bytes without the WRITE, which has to be the file's last change."""
        content = bytearray(self.node.data)
        content[self.offset:self.offset + len(self.old)] = self.old
        del content[self.old_size:]
        return content

    def content_halfway(self) -> bytearray:
        """The file's bytes with the first half of the WRITE alone."""
        content = self.content_before()
        put(content, self.offset, self.data[:len(self.data) // 2])
        return content


class Resizing(NamedTuple):
    """The last change of a file's size, and the size of before."""
    change: Change
    old_size: int


class Entry(NamedTuple):
    """A name's place in a directory: what it leads to, its cookie, and the change that put it there."""
    node: "Node"
    cookie: int
    change: Change


class Node:
    """A file with its bytes, a link with its text, or a directory with its entries."""

    __slots__ = ("number", "kind", "data", "entries", "order", "parent", "links", "verifier", "mode", "uid", "gid",
                 "atime", "mtime", "ctime", "last_write", "writes", "last_resizing", "hole")

    def __init__(self, number: int, kind: int, data=b"", verifier=None):
        self.number, self.kind, self.data, self.verifier = number, kind, data, verifier
        self.entries: dict[bytes, Entry] = {}
        self.order: list[tuple[int, bytes]] = []          # the cookies and names of a directory, rising
        self.parent, self.links = self, 0
        self.mode, self.uid, self.gid = (0o755 if kind == DIRECTORY else 0o644), 0, 0
        self.atime = self.mtime = self.ctime = 0
        self.last_write: Optional[Write] = None           # where a WRITE was the file's last change
        self.writes: list[Write] = []                     # the last ones of which each byte still stands
        self.last_resizing: Optional[Resizing] = None
        self.hole = range(0)                              # the last bytes that became zeros without a WRITE of them

    @property
    def is_directory(self) -> bool:
        return self.kind == DIRECTORY

    @property
    def is_file(self) -> bool:
        return self.kind == REGULAR

    @property
    def is_link(self) -> bool:
        return self.kind == LINK_TYPE

    @property
    def size(self) -> int:
        return 4096 if self.is_directory else len(self.data)


def put(content: bytearray, offset: int, data: bytes) -> None:
    """Writes bytes over a content. A gap is filled with zeros; no bytes change nothing."""
    if data:
        content.extend(bytes(max(0, offset - len(content))))
        content[offset:offset + len(data)] = data


class Tree:
    """All that stands, by number. A number is given once, and so is a cookie."""

    def __init__(self):
        self.root = Node(ROOT_NUMBER, DIRECTORY)
        self.root.links = 1
        self.nodes = {ROOT_NUMBER: self.root}
        self.last_number, self.last_cookie, self.last_time = ROOT_NUMBER, PARENT_COOKIE, 0
        self.change = Change(0)
        self.root.atime = self.root.mtime = self.root.ctime = self.now()

    def now(self) -> int:
        """The time in nanoseconds, never the same twice."""
        self.last_time = max(self.last_time + 1, time.time_ns())
        return self.last_time

    def undo(self, step) -> None:
        """The step that takes back what is done next."""
        self.change.undo.append(step)

    def keep_fields(self, node: Node, *fields: str) -> None:
        """Fields of a node that taking back has to set as they are now."""
        kept = [(field, getattr(node, field)) for field in fields]

        def set_back():
            for field, value in kept:
                setattr(node, field, value)
        self.undo(set_back)

    def touch(self, node: Node, is_modified: bool = True) -> None:
        self.keep_fields(node, "mtime", "ctime")
        node.ctime = self.now()
        if is_modified:
            node.mtime = node.ctime

    # Entries

    def hang(self, directory: Node, name: bytes, entry: Entry) -> None:
        """Puts an entry into a directory."""
        directory.entries[name] = entry
        bisect.insort(directory.order, (entry.cookie, name))
        entry.node.links += 1
        self.nodes[entry.node.number] = entry.node

    def unhang(self, directory: Node, name: bytes) -> Entry:
        """Takes an entry out of a directory. What no entry leads to stands no more."""
        entry = directory.entries.pop(name)
        del directory.order[bisect.bisect_left(directory.order, (entry.cookie, name))]
        entry.node.links -= 1
        if entry.node.links == 0:
            del self.nodes[entry.node.number]
        return entry

    def add(self, directory: Node, name: bytes, node: Node) -> None:
        self.last_cookie += 1
        self.keep_fields(node, "parent")
        self.undo(lambda: self.unhang(directory, name))
        node.parent = directory
        self.hang(directory, name, Entry(node, self.last_cookie, self.change))
        self.touch(directory)

    def drop(self, directory: Node, name: bytes) -> None:
        entry = self.unhang(directory, name)
        self.undo(lambda: self.hang(directory, name, entry))
        self.touch(directory)

    def drop_below(self, directory: Node) -> None:
        """Takes away all that a directory holds, however deep."""
        for name, entry in list(directory.entries.items()):
            if entry.node.is_directory:
                self.drop_below(entry.node)
            self.drop(directory, name)

    def make(self, directory: Node, name: bytes, node: Node) -> None:
        node.atime = node.mtime = node.ctime = self.now()
        self.add(directory, name, node)

    def fresh_number(self) -> int:
        self.last_number += 1
        return self.last_number

    def move(self, directory: Node, name: bytes, to_directory: Node, to_name: bytes) -> None:
        """Takes what stands at the new name away, and leads the old name's node there."""
        node = directory.entries[name].node
        if to_name in to_directory.entries:
            self.drop(to_directory, to_name)
        self.drop(directory, name)
        self.add(to_directory, to_name, node)
        self.touch(node, is_modified=False)

    # Files

    def resize(self, node: Node, size: int) -> None:
        old_size, cut = len(node.data), bytes(node.data[size:])
        self.keep_fields(node, *FILE_FIELDS)

        def set_back():
            del node.data[old_size:]
            node.data.extend(cut or bytes(old_size - len(node.data)))
        self.undo(set_back)
        del node.data[size:]
        node.data.extend(bytes(size - len(node.data)))
        node.last_write, node.hole = None, range(old_size, size)
        node.writes = [write for write in node.writes if write.end <= size]
        if size != old_size:
            node.last_resizing = Resizing(self.change, old_size)
        self.touch(node)

    def write(self, node: Node, offset: int, data: bytes, level: int) -> None:
        """Writes some bytes, at least one."""
        old_size = len(node.data)
        write = Write(self.change, node, offset, data, bytes(node.data[offset:offset + len(data)]), old_size, level)
        self.keep_fields(node, *FILE_FIELDS)

        def set_back():
            node.data[offset:offset + len(write.old)] = write.old
            del node.data[old_size:]
        self.undo(set_back)
        put(node.data, offset, data)
        node.last_write = self.change.write = write
        standing = [other for other in node.writes if other.end <= offset or other.offset >= write.end]
        node.writes = [*standing[1 - MOST_WRITES:], write]
        if offset > old_size:
            node.hole = range(old_size, offset)
        if len(node.data) != old_size:
            node.last_resizing = Resizing(self.change, old_size)
        self.touch(node)

    def is_below(self, node: Node, above: Node) -> bool:
        """Whether a node is another one, or stands somewhere in it."""
        while node is not above:
            if node.parent is node:
                return False
            node = node.parent
        return True
