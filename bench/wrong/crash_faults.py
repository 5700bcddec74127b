"""Faults that a crash shows. They happen at each crash that they fit."""
from typing import Iterator, NamedTuple, Optional

from differ.layouts import FILE_SYNC, UNSTABLE

from .calls import Call
from .faults import Faulty
from .journal import Journal
from .tree import Change, Entry, Node, Write

PRETENDED_SHARE = 0.25
LATE_CHANGES = 8


class WriteFault(Faulty):
    """A crash takes single WRITEs back, though they have to survive: those of which each byte still stands."""

    def crash(self) -> list[Change]:
        lost = super().crash()
        writes = [write for node in self.tree.nodes.values() for write in node.writes if write.lost != write.data and self.fits(write)]
        for write in self.chosen(writes):
            self.happens(f"a WRITE of file {write.node.number} over a crash")
            write.node.data[write.offset:write.end] = write.lost
            write.node.writes.remove(write)
            write.node.last_write = None
        return lost

    def fits(self, write: Write) -> bool:
        raise NotImplementedError

    def chosen(self, writes: list[Write]) -> list[Write]:
        return self.dice.sample(writes, min(1, len(writes)))


class LoseSyncedWrite(WriteFault):
    """A crash loses a WRITE that was answered DATA_SYNC or FILE_SYNC."""

    def fits(self, write: Write) -> bool:
        return write.level != UNSTABLE and write.change.answered is not None


class LoseCommittedWrite(WriteFault):
    """A crash loses an UNSTABLE WRITE of which a byte was committed."""

    def fits(self, write: Write) -> bool:
        return write.level == UNSTABLE and write.change.answered is not None and write.change.is_committed


class CommitNotDone(LoseCommittedWrite):
    """A COMMIT is answered and makes nothing safe, and a crash loses the WRITEs."""

    def make_safe(self, change: Change) -> None:
        pass

    def crash(self) -> list[Change]:
        lost = super().crash()
        for change in lost:
            if change.is_committed:
                self.happens(f"a WRITE of file {change.write.node.number} over a crash")
        return lost

    def chosen(self, writes: list[Write]) -> list[Write]:
        return writes


class UnstableAsSynced(WriteFault):
    """An UNSTABLE WRITE is answered FILE_SYNC and not made safe, and a crash loses it."""

    def __init__(self, *words, **named):
        super().__init__(*words, **named)
        self.pretended: set[int] = set()

    def level(self, call: Call) -> int:
        right = super().level(call)
        if right != UNSTABLE or self.dice.random() > PRETENDED_SHARE:
            return right
        self.pretended.add(call.change.number)
        return FILE_SYNC

    def fits(self, write: Write) -> bool:
        return write.change.number in self.pretended and write.change.answered is not None

    def chosen(self, writes: list[Write]) -> list[Write]:
        return writes


class LateJournal(Journal):
    """A journal that keeps the last changes open for a while, though they were answered."""

    def keep_through(self, number: int) -> None:
        super().keep_through(number - LATE_CHANGES)


class LoseChanges(Faulty):
    """A crash takes the last changes back, answered ones too."""

    def __init__(self, *words, **named):
        super().__init__(*words, **named)
        self.journal = LateJournal()

    def kept_number(self) -> int:
        changes = self.journal.changes
        answered = [at for at, change in enumerate(changes) if change.answered is not None and change.undo]
        if not answered:
            return super().kept_number()
        self.happens("a crash")
        return self.dice.randint(0, answered[-1])


class KeepVerifier(Faulty):
    """The write verifier stays the same over a crash that lost a WRITE."""

    def kept_number(self) -> int:
        lost = [at for at, change in enumerate(self.journal.changes) if is_answered_write(change)]
        return self.dice.randint(0, lost[-1]) if lost else super().kept_number()

    def next_verifier(self, lost: list[Change]) -> bytes:
        if not any(is_answered_write(change) for change in lost):
            return super().next_verifier(lost)
        self.happens("a crash")
        return self.verifier


def is_answered_write(change: Change) -> bool:
    return change.write is not None and change.answered is not None and change.write.old != change.write.data


def has_to_survive(change: Change) -> bool:
    """Whether a change was answered and is no WRITE, or a WRITE that was synced or committed."""
    if change.answered is None:
        return False
    return change.write is None or change.write.level != UNSTABLE or change.is_committed


def give_bytes(node: Node, data: bytearray) -> None:
    """The file has these bytes, and nothing is kept in mind of how it came by them."""
    node.data, node.last_write, node.writes, node.last_resizing, node.hole = data, None, [], None, range(0)


class StableFault(Faulty):
    """A crash spoils what was on stable storage, whatever it takes back beside that."""

    def crash(self) -> list[Change]:
        lost = super().crash()
        self.tree.change = Change(0)
        self.spoil()
        self.tree.change.undo.clear()
        return lost

    def spoil(self) -> None:
        raise NotImplementedError

    def chosen(self, things: list) -> list:
        return self.dice.sample(things, min(1, len(things)))

    def entries(self) -> Iterator[Entry]:
        for node in self.tree.nodes.values():
            yield from node.entries.values()


class LinkTextEmptied(StableFault):
    """After a crash the text of a symbolic link is empty."""

    def spoil(self) -> None:
        links = [entry.node for entry in self.entries() if entry.node.is_link and entry.node.data and has_to_survive(entry.change)]
        for link in self.chosen(links):
            self.happens(f"the text of link {link.number} over a crash")
            link.data = b""


class FilesSwapped(StableFault):
    """After a crash two files have each other's bytes."""

    def spoil(self) -> None:
        files = [node for node in self.tree.nodes.values() if node.is_file]
        for one in self.chosen([node for node in files if misses(node, bytearray())]):
            for other in self.chosen([node for node in files if misses(one, node.data)]):
                self.happens(f"files {one.number} and {other.number} over a crash")
                content = one.data
                give_bytes(one, other.data)
                give_bytes(other, content)


def misses(node: Node, content: bytearray) -> bool:
    """Whether a content lacks bytes of the file that a WRITE brought and that had to survive."""
    return any(has_to_survive(write.change) and content[write.offset:write.end] != write.data for write in node.writes)


class Rename(NamedTuple):
    """A RENAME that was done, and what it took away at the new name."""
    change: Change
    directory: Node
    name: bytes
    to_directory: Node
    to_name: bytes
    replaced: Optional[Node]


class RenameForgotten(StableFault):
    """After a crash a RENAME that was answered isn't done: the old name is back."""

    def __init__(self, *words, **named):
        super().__init__(*words, **named)
        self.renames: list[Rename] = []

    def move(self, call: Call, directory: Node, name: bytes, to_directory: Node, to_name: bytes) -> None:
        there = to_directory.entries.get(to_name)
        super().move(call, directory, name, to_directory, to_name)
        self.renames.append(Rename(call.change, directory, name, to_directory, to_name, there and there.node))

    def spoil(self) -> None:
        for rename in self.chosen([rename for rename in self.renames if self.can_be_forgotten(rename)]):
            self.happens(f"a RENAME of {rename.to_directory.entries[rename.to_name].node.number} over a crash")
            self.tree.move(rename.to_directory, rename.to_name, rename.directory, rename.name)
            if rename.replaced is not None:
                self.tree.add(rename.to_directory, rename.to_name, rename.replaced)
        self.renames = []

    def can_be_forgotten(self, rename: Rename) -> bool:
        """It had to survive, nothing was moved since, and the old name is free in a directory that stands and isn't in what was moved."""
        entry, directory = rename.to_directory.entries.get(rename.to_name), rename.directory
        if entry is None or entry.change is not rename.change or not has_to_survive(rename.change):
            return False
        is_there = self.tree.nodes.get(directory.number) is directory
        return is_there and rename.name not in directory.entries and not self.tree.is_below(directory, entry.node)


class SizeLost(StableFault):
    """After a crash a file is shorter, and without the bytes that made it longer."""

    def spoil(self) -> None:
        files = [node for node in self.tree.nodes.values() if node.size and node.last_resizing and has_to_survive(node.last_resizing.change)]
        for node in self.chosen(files):
            self.happens(f"the size of file {node.number} over a crash")
            give_bytes(node, node.data[:self.dice.randint(0, most_left(node))])


def most_left(node: Node) -> int:
    """The most bytes with which the last change of a file's size isn't done at all."""
    write = node.last_resizing.change.write
    return node.size - 1 if write is None else write.offset


KINDS = [LoseSyncedWrite, LoseCommittedWrite, CommitNotDone, UnstableAsSynced, LoseChanges, KeepVerifier, LinkTextEmptied, FilesSwapped, RenameForgotten,
         SizeLost]
