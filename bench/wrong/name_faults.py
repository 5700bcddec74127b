"""Faults of names, handles, links and lists."""
import itertools

from differ.layouts import EXCLUSIVE, GUARDED

from .calls import Call
from .faults import NEVER, Faulty
from .server import Failed, is_plain
from .tree import SELF_COOKIE, Change, Entry, Node

# Of how many names in a directory WrongHandle takes one.
MOST_OTHERS = 16


class LookupBeforeRemove(Faulty):
    """LOOKUP finds what is gone: its REMOVE, RMDIR or RENAME was answered."""

    def __init__(self, *words, **named):
        super().__init__(*words, **named)
        self.gone: dict[tuple[int, bytes], tuple[Node, Change]] = {}

    def remove(self, call: Call) -> bytes:
        return self.taking(call, super().remove)

    def rmdir(self, call: Call) -> bytes:
        return self.taking(call, super().rmdir)

    def rename(self, call: Call) -> bytes:
        return self.taking(call, super().rename)

    def taking(self, call: Call, method) -> bytes:
        """Does a call that takes a name away, and keeps in mind what the name led to."""
        directory, name = self.known(call.arguments["dir"]), call.arguments["name"]
        entry = directory.entries.get(name) if directory is not None else None
        results = method(call)
        self.gone[directory.number, name] = entry.node, call.change
        return results

    def found(self, call: Call, directory: Node, name: bytes) -> Node:
        node, change = self.gone.get((directory.number, name), (None, None))
        if node is None or name in directory.entries or not change.is_known_to(call) or not self.is_time(call):
            return super().found(call, directory, name)
        return node


class LookupMisses(Faulty):
    """LOOKUP answers NFS3ERR_NOENT for what stands."""

    def found(self, call: Call, directory: Node, name: bytes) -> Node:
        entry = directory.entries.get(name)
        if entry is not None and entry.change.is_known_to(call) and self.is_time(call):
            raise Failed("NOENT")
        return super().found(call, directory, name)


class WrongHandle(Faulty):
    """LOOKUP gives the handle of what another name leads to."""

    def found(self, call: Call, directory: Node, name: bytes) -> Node:
        right = super().found(call, directory, name)
        others = [entry.node for entry in itertools.islice(directory.entries.values(), MOST_OTHERS)
                  if entry.node is not right and entry.change.is_known_to(call)]
        return self.dice.choice(others) if is_plain(name) and others and self.is_time(call) else right


class StaleHandle(Faulty):
    """A handle of what stands is answered by NFS3ERR_STALE."""

    def node(self, call: Call, field: str = "object") -> Node:
        node = super().node(call, field)
        if self.is_time(call):
            raise Failed("STALE")
        return node


class HandleReused(Faulty):
    """What is made gets the handle of a file that was removed."""

    def __init__(self, *words, **named):
        super().__init__(*words, **named)
        self.spent: list[tuple[int, Change]] = []

    def remove(self, call: Call) -> bytes:
        node = self.known(call.arguments["dir"])
        entry = node.entries.get(call.arguments["name"]) if node is not None else None
        results = super().remove(call)
        self.spent.append((entry.node.number, call.change))
        return results

    def fresh_number(self, call: Call) -> int:
        fits = self.spent and self.spent[-1][1].is_known_to(call) and self.spent[-1][0] not in self.tree.nodes
        return self.spent.pop()[0] if fits and self.is_time(call) else super().fresh_number(call)


class GuardedTwice(Faulty):
    """A GUARDED CREATE of a name that stands succeeds."""

    def may_create_again(self, call: Call, found: Entry, mode: int, how) -> bool:
        if mode == GUARDED and found.change.is_known_to(call) and self.is_time(call):
            return True
        return super().may_create_again(call, found, mode, how)


class ForgetExclusive(Faulty):
    """An EXCLUSIVE CREATE of a file that stands succeeds with another verifier than the file was made with."""

    def may_create_again(self, call: Call, found: Entry, mode: int, how) -> bool:
        is_right = super().may_create_again(call, found, mode, how)
        return is_right or (mode == EXCLUSIVE and found.change.is_known_to(call) and self.is_time(call))


class ExclusiveExists(Faulty):
    """An EXCLUSIVE CREATE that is sent again with the same verifier is answered by NFS3ERR_EXIST, which the profile allows."""
    seen = NEVER

    def may_create_again(self, call: Call, found: Entry, mode: int, how) -> bool:
        is_right = super().may_create_again(call, found, mode, how)
        return is_right and not (mode == EXCLUSIVE and self.is_time(call))


class BelowItself(Faulty):
    """A RENAME of a directory to a name below itself succeeds."""

    def move_below_itself(self, call: Call) -> bytes:
        if not self.is_time(call):
            return super().move_below_itself(call)
        return self.weak(call, "dir") + self.weak(call, "to_dir")


class RemoveNonempty(Faulty):
    """RMDIR takes a directory away that holds something."""

    def empty(self, call: Call, node: Node) -> None:
        is_known = all(entry.change.is_known_to(call) for entry in node.entries.values())
        if not is_known or not self.is_time(call):
            return super().empty(call, node)
        self.tree.drop_below(node)


class RenameKeepsOld(Faulty):
    """After a RENAME the old name leads to the object too."""

    def move(self, call: Call, directory: Node, name: bytes, to_directory: Node, to_name: bytes) -> None:
        node = directory.entries[name].node
        super().move(call, directory, name, to_directory, to_name)
        if not node.is_directory and self.is_time(call):
            self.tree.add(directory, name, node)


class WrongLink(Faulty):
    """READLINK gives another text."""

    def text(self, call: Call, node: Node) -> bytes:
        right = super().text(call, node)
        return right + b"/wrong" if self.is_time(call) else right


class ListFault(Faulty):
    """A page of a list has other entries than it should have."""

    def page(self, call: Call, directory: Node, page: list, is_end: bool, room: int) -> tuple[list[bytes], bool]:
        known = [at for at, (name, _) in enumerate(page) if is_plain(name) and directory.entries[name].change.is_known_to(call)]
        wrong = self.wrong_page(call, page, known, is_end, room)
        return super().page(call, directory, page if wrong is None else wrong, is_end, room)

    def wrong_page(self, call: Call, page: list, known: list[int], is_end: bool, room: int):
        """The page to send, or None. `known` are the places of entries whose change was answered."""
        raise NotImplementedError


class ListedTwice(ListFault):
    """A name stands twice in a page of READDIR or READDIRPLUS."""

    def wrong_page(self, call: Call, page: list, known: list[int], is_end: bool, room: int):
        fitting = [at for at in known if len(page[at][1]) <= room]
        if not fitting or not self.is_time(call):
            return None
        at = self.dice.choice(fitting)
        return page[:at + 1] + page[at:]


class ListMisses(ListFault):
    """READDIR or READDIRPLUS leaves a name out of a list that comes in one page."""

    def wrong_page(self, call: Call, page: list, known: list[int], is_end: bool, room: int):
        if call.arguments["cookie"] or not is_end or not known or not self.is_time(call):
            return None
        at = self.dice.choice(known)
        return page[:at] + page[at + 1:]


class PageTwice(Faulty):
    """A page of a list begins with the name that the page before ended with, which the profile doesn't judge."""
    seen = NEVER

    def after(self, call: Call, directory: Node, cookie: int):
        is_again = cookie > SELF_COOKIE and self.is_time(call)
        return super().after(call, directory, cookie - 1 if is_again else cookie)


class PageMisses(Faulty):
    """A later page of a list leaves its first name out, which the profile doesn't judge."""
    seen = NEVER

    def after(self, call: Call, directory: Node, cookie: int):
        right = super().after(call, directory, cookie)
        if cookie > SELF_COOKIE and self.is_time(call):
            next(right, None)
        return right


KINDS = [LookupBeforeRemove, LookupMisses, WrongHandle, StaleHandle, HandleReused, GuardedTwice, ForgetExclusive, ExclusiveExists, BelowItself,
         RemoveNonempty, RenameKeepsOld, WrongLink, ListedTwice, ListMisses, PageTwice, PageMisses]
