"""What of an era a crash may take back: the changes in the order of their effects, up to the last one that has to survive."""
from collections import deque

from differ.layouts import UNSTABLE

from .tree import Change, Node


class Journal:
    def __init__(self):
        self.changes: deque[Change] = deque()

    def add(self, change: Change) -> None:
        self.changes.append(change)

    def keep_through(self, number: int) -> None:
        """Change `number` is on stable storage, and with it each one before."""
        while self.changes and self.changes[0].number <= number:
            self.changes.popleft().undo.clear()

    def committed_by(self, node: Node, offset: int, count: int) -> list[Change]:
        """The UNSTABLE WRITEs of a file with a byte in a COMMIT's range, which has no end if its count is 0."""
        return [change for change in self.changes if is_committed(change, node, offset, count)]

    def lose_behind(self, kept: int) -> list[Change]:
        """A crash: the first `kept` changes stay for good, and the others are taken back. These are given."""
        lost = list(self.changes)[kept:]
        for change in reversed(lost):
            change.take_back()
        for change in self.changes:
            change.undo.clear()
        self.changes.clear()
        return lost


def is_committed(change: Change, node: Node, offset: int, count: int) -> bool:
    write = change.write
    if write is None or write.node is not node or write.level != UNSTABLE:
        return False
    return write.end > offset and (count == 0 or write.offset < offset + count)
