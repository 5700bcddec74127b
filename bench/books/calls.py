"""Random calls, and replies to them: such as a server may give, and others."""
import random

from books.book import Book
from books.strict import told_nodes
from books.tree import (
    DIRECTORY, EXCUSED, FILE, LINK, TOOSMALL, TRANSFER_LIMIT, Sight, allows, asked_bytes, created, handle_of, outcome,
    permitted,
)
from books.wire import (
    COMMIT, CREATE, EXCLUSIVE, GETATTR, GUARDED, LOOKUP, MKDIR, READ, READDIR, READDIRPLUS, READLINK, REMOVE, RENAME,
    RMDIR, SETATTR, SYMLINK, UNCHECKED, WRITE,
)

WEIGHTS = {GETATTR: 6, SETATTR: 7, LOOKUP: 8, READLINK: 3, READ: 10, WRITE: 18, CREATE: 14, MKDIR: 7, SYMLINK: 4,
           REMOVE: 7, RMDIR: 4, RENAME: 9, READDIR: 4, READDIRPLUS: 3, COMMIT: 8}
FULL_WEIGHTS = {**WEIGHTS, CREATE: 4, MKDIR: 2, SYMLINK: 1, REMOVE: 22, RMDIR: 12}
PLAIN_NAMES = (b"a", b"b", b"c", b"d", b"e", b"ab", b"fghi")
ODD_NAMES = (b"", b".", b"..", b"\0", b"a/b", b"\xc3\xa4", b"...", b"long" * 16)
ODD_HANDLES = (b"", b"\0\0\0\1", bytes(7), bytes(9), b"h" * 64, b"\xff" * 8)
FULL = 40


class Calls:
    def __init__(self, dice: random.Random):
        self.dice = dice

    def chance(self, percent: float) -> bool:
        return self.dice.random() * 100 < percent

    # Calls.

    def handle(self, book: Book, kind: int) -> bytes:
        """A handle of an object of this kind, mostly."""
        draw = self.dice.random()
        nodes = list(book.tree.nodes.values())
        if draw < 0.90:
            suited = [node[0] for node in nodes if node[1] == kind]
            if suited:
                return handle_of(self.dice.choice(suited))
        if draw < 0.94:
            return handle_of(self.dice.choice(nodes)[0])
        if draw < 0.97 and book.made:
            return handle_of(self.dice.choice(sorted(book.made)[-40:]))
        if draw < 0.99:
            return handle_of(book.object_of(len(book.calls) + self.dice.randrange(-3, 4)) if len(book.calls) > 3 else 1)
        return self.dice.choice(ODD_HANDLES)

    def present_name(self, book: Book, handle: bytes, kinds: tuple) -> bytes | None:
        directory = book.sight().directory_of(handle)
        if directory is None:
            return None
        names = [name for name in book.tree.names_in(directory) if book.tree.entry(directory, name)[1] in kinds]
        return self.dice.choice(names) if names else None

    def name(self, book: Book, handle: bytes, present: float, kinds: tuple = (FILE, DIRECTORY, LINK)) -> bytes:
        if self.chance(4):
            return self.dice.choice(ODD_NAMES)
        if self.chance(present):
            name = self.present_name(book, handle, kinds)
            if name is not None:
                return name
        return self.dice.choice(PLAIN_NAMES)

    def offset(self) -> int:
        if self.chance(2):
            return self.dice.choice((2 ** 64 - 1, 2 ** 32, 10 ** 6))
        return self.dice.choice((0, 0, 0, 1, 2, 3, 5, 8, 13))

    def near(self) -> int:
        return self.dice.choice((0, 0, 0, 1, 2, 3, 5, 8, 13))

    def data(self) -> bytes:
        return bytes(self.dice.choice(b"abcxyz") for _ in range(self.dice.choice((0, 1, 1, 2, 3, 3, 4, 5, 8))))

    def size(self, percent: float) -> int | None:
        return self.dice.randrange(0, 16) if self.chance(percent) else None

    def procedure(self, book: Book) -> int:
        weights = FULL_WEIGHTS if len(book.tree.nodes) > FULL else WEIGHTS
        return self.dice.choices(list(weights), list(weights.values()))[0]

    def call(self, book: Book, procedure: int | None = None) -> dict:
        procedure = procedure or self.procedure(book)
        if procedure in (LOOKUP, CREATE, MKDIR, SYMLINK, REMOVE, RMDIR, RENAME):
            return self.named_call(book, procedure)
        kind = {READLINK: LINK, READDIR: DIRECTORY, READDIRPLUS: DIRECTORY}.get(procedure, FILE)
        if procedure in (GETATTR, SETATTR):
            kind = self.dice.choice((FILE, FILE, DIRECTORY, LINK))
        call = {"procedure": procedure, "handle": self.handle(book, kind)}
        if procedure == SETATTR:
            call |= {"size": self.size(70 if kind == FILE else 30), "extra": self.chance(10)}
            call["guard"] = [self.dice.randrange(9), 0] if self.chance(20) else None
        elif procedure in (READ, COMMIT):
            call |= {"offset": self.offset(), "count": self.dice.choice((0, 1, 4, 10, 100, 2 ** 32 - 1))}
        elif procedure == WRITE:
            call |= {"offset": self.near(), "level": self.dice.choice((0, 0, 0, 1, 2)), "data": self.data()}
            if not call["data"]:
                call["offset"] = self.offset()
        elif procedure in (READDIR, READDIRPLUS):
            call |= {"cookie": self.dice.choice((0, 0, 0, 2)), "verifier": self.dice.choice((0, 7)), "count": 512}
            call["most"] = 1024
        return call

    def named_call(self, book: Book, procedure: int) -> dict:
        handle = self.handle(book, DIRECTORY)
        call = {"procedure": procedure, "handle": handle}
        if procedure in (CREATE, MKDIR, SYMLINK):
            call["name"] = self.name(book, handle, 25)
            call |= {"size": self.size(20), "extra": self.chance(5)}
        if procedure == CREATE:
            call["mode"] = self.dice.choice((UNCHECKED, UNCHECKED, UNCHECKED, GUARDED, EXCLUSIVE, EXCLUSIVE))
            call["verifier"] = self.dice.choice((0, 1, 2 ** 64 - 1))
            if self.chance(15):
                return call | self.made_before(book)
        elif procedure == SYMLINK:
            call["text"] = self.dice.choice((b"", b"a", b"../x", b"dir/a"))
        elif procedure == RENAME:
            call["name"] = self.name(book, handle, 90)
            call["to_handle"] = self.handle(book, DIRECTORY) if self.chance(70) else handle
            call["to_name"] = self.target_name(book, call)
        elif procedure == LOOKUP:
            call["name"] = self.dice.choice((b".", b"..")) if self.chance(10) else self.name(book, handle, 70)
        elif procedure in (REMOVE, RMDIR):
            kinds = {REMOVE: (FILE, LINK), RMDIR: (DIRECTORY,)}[procedure] if self.chance(80) else (FILE, DIRECTORY, LINK)
            call["name"] = self.name(book, handle, 85, kinds)
        return call

    def target_name(self, book: Book, call: dict) -> bytes:
        """The name that a RENAME gives: now and then its own, or one that means no entry, or another directory's for a
        directory's."""
        if self.chance(8):
            return call["name"]
        if self.chance(5):
            return self.dice.choice(ODD_NAMES)
        source = book.sight().directory_of(call["handle"])
        entry = None if source is None else book.tree.entry(source, call["name"])
        is_directory = entry is not None and entry[1] == DIRECTORY
        kinds = (DIRECTORY,) if is_directory and self.chance(60) else (FILE, DIRECTORY, LINK)
        return self.name(book, call["to_handle"], 45, kinds)

    def made_before(self, book: Book) -> dict:
        """What asks once more for a file that an EXCLUSIVE CREATE made, where there is one."""
        made = [(path, node) for path, node in book.tree.nodes.items() if node[3] is not None]
        if not made:
            return {}
        path, node = self.dice.choice(made)
        directory = book.tree.nodes[path[:-1]][0]
        again = {"handle": handle_of(directory), "name": path[-1], "mode": EXCLUSIVE, "size": None}
        return again | {"verifier": node[3] if self.chance(80) else 3}

    # Replies.

    def any_attributes(self) -> list[int]:
        return [self.dice.choice((1, 2, 5)), *(self.dice.randrange(3) for _ in range(20))]

    def attributes(self) -> list[int] | None:
        return self.any_attributes() if self.chance(3) else None

    def around(self, procedure: int) -> dict:
        """Optional attributes of a reply whose attributes aren't judged."""
        out = {"after": self.attributes()}
        if procedure in (LOOKUP, CREATE, MKDIR, SYMLINK):
            out["object"] = self.attributes()
        if self.chance(3):
            out["before"] = [self.dice.randrange(3) for _ in range(6)]
        if procedure == RENAME:
            out["after_to"] = self.attributes()
        return out

    def told(self, name: str, node: tuple) -> list[int]:
        """Attributes of an object, right in all that is judged."""
        _, kind, content, _ = node
        size = len(content) if kind == FILE else self.dice.choice((0, 4096, len(content)))
        size_halves = [size >> 32, size & (2 ** 32 - 1)]
        if name.startswith("before"):
            return [*size_halves, *(self.dice.randrange(3) for _ in range(4))]
        return [kind, *(self.dice.randrange(3) for _ in range(4)), *size_halves, *(self.dice.randrange(3) for _ in range(14))]

    def judged_around(self, book: Book, number: int, call: dict, reply: dict) -> dict:
        """Optional attributes of a reply whose attributes are judged: of what stands right ones, of what doesn't any."""
        before, own = book.sight(), book.object_of(number)
        after = outcome(before, own, call, reply) or before.tree
        nodes = told_nodes(before, Sight(after, before.made | {own}), call, reply["status"])
        out = {}
        for name, node in nodes.items():
            if node is not None and self.chance(60):
                out[name] = self.told(name, node)
            elif node is None and self.chance(20):
                out[name] = self.any_attributes()[:6 if name.startswith("before") else 21]
        return out

    def with_attributes(self, book: Book, number: int, call: dict, reply: dict) -> dict:
        """A reply with optional attributes."""
        if book.opening.strict:
            return reply | self.judged_around(book, number, call, reply)
        return reply | self.around(call["procedure"])

    def failure(self, book: Book, number: int, call: dict, status: int) -> dict:
        return self.with_attributes(book, number, call, {"procedure": call["procedure"], "status": status})

    def success(self, book: Book, number: int, call: dict) -> dict:
        """A success that is right, where some success is."""
        return self.with_attributes(book, number, call, self.bare_success(book, number, call))

    def bare_success(self, book: Book, number: int, call: dict) -> dict:
        """One without the attributes that are optional but for those of entries."""
        procedure = call["procedure"]
        reply = {"procedure": procedure, "status": 0}
        if procedure == SETATTR or procedure in (REMOVE, RMDIR, RENAME):
            return reply
        if procedure in (GETATTR, READLINK, READ):
            return reply | self.seen(book, call)
        if procedure in (READDIR, READDIRPLUS):
            return reply | self.listing(book, call)
        if procedure == LOOKUP:
            sight = book.sight()
            return reply | {"handle": handle_of(sight.found(sight.directory_of(call["handle"]), call["name"]))}
        if procedure == WRITE:
            level = self.dice.randrange(call["level"], 3) if self.chance(30) else call["level"]
            return reply | {"count": len(call["data"]), "level": level, "verifier": book.era}
        if procedure == COMMIT:
            return reply | {"verifier": book.era}
        return reply | {"handle": None if self.chance(5) else self.made_handle(book, number, call)}

    def seen(self, book: Book, call: dict) -> dict:
        number, kind, content, _ = book.sight().node_of(call["handle"])
        if call["procedure"] == READLINK:
            return {"text": content}
        if call["procedure"] == READ:
            data = asked_bytes(content, call)[:TRANSFER_LIMIT]
            return {"data": data, "eof": int(call["offset"] + len(data) >= len(content))}
        size = len(content) if kind == FILE else self.dice.choice((0, 4096))
        return {"attributes": [kind, 420, 1, 0, 0, 0, size, *[0] * 6, number, *[0] * 7][:21]}

    def made_handle(self, book: Book, number: int, call: dict) -> bytes:
        sight = book.sight()
        if call["procedure"] == CREATE and created(sight, call) in ("size", "same"):
            return handle_of(sight.tree.entry(sight.directory_of(call["handle"]), call["name"])[0])
        return handle_of(book.object_of(number))

    def listing(self, book: Book, call: dict) -> dict:
        directory = book.sight().directory_of(call["handle"])
        names = book.tree.names_in(directory) + [name for name in (b".", b"..") if self.chance(30)]
        self.dice.shuffle(names)
        eof = int(self.chance(60))
        if self.chance(30) and not (eof and call["cookie"] == 0):
            names = names[:self.dice.randrange(len(names) + 1)]
        entries = [self.listed(book, directory, name, at + 1) for at, name in enumerate(names)]
        return {"entries": entries, "eof": eof, "verifier": self.dice.choice((0, 9))}

    def listed(self, book: Book, directory: tuple, name: bytes, cookie: int) -> dict:
        entry = book.tree.entry(directory, name)
        handle = self.dice.choice((None, b"odd")) if entry is None else handle_of(entry[0])
        fileid = 0 if entry is None else entry[0]
        attributes = self.attributes()
        if book.opening.strict and entry is not None:
            attributes = self.told("entry", entry) if self.chance(50) else None
        shown = {"name": name, "fileid": fileid, "cookie": cookie, "attributes": attributes}
        return shown | {"handle": None if self.chance(20) else handle}

    def right_reply(self, book: Book, number: int, call: dict) -> dict:
        """A reply that the server may give."""
        sight = book.sight()
        if call["procedure"] in (READDIR, READDIRPLUS) and self.chance(10):
            return self.failure(book, number, call, TOOSMALL)
        if allows(sight, call):
            return self.success(book, number, call)
        judged = sorted(permitted(sight, call))
        if judged and self.chance(75):
            return self.failure(book, number, call, self.dice.choice(judged))
        return self.failure(book, number, call, self.dice.choice(EXCUSED))
