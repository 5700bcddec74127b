"""Random messages to a server: calls of all kinds, spelled rightly and oddly, and messages that it doesn't record."""
from books.book import Book
from books.calls import Calls
from books.odd import BAD, bad_message, headed, odd_message
from books.tree import FILE_LIMIT, TRANSFER_LIMIT, handle_of
from books.wire import READ, READDIR, READDIRPLUS, SETATTR, WRITE, arguments, call_message, opaque, words
from servers.messages import UNSERVED
from servers.replies import list_length, listed

ODD_WORDS = (0, 1, 2, 3, 4, 5, 65, 400, 401, 2 ** 31, 2 ** 32 - 1)
FAR = 70_000


def directory_names(book: Book, call: dict) -> tuple:
    """The directory that is listed, if it is one, and its names in their order."""
    directory = book.sight().directory_of(call["handle"])
    return directory, [] if directory is None else sorted(book.tree.names_in(directory))


def page_size(book: Book, call: dict, shown: int) -> int:
    """How long a reply is that lists so many names behind the cookie."""
    directory, names = directory_names(book, call)
    front = names[call["cookie"]:][:shown]
    return list_length(book, call, [listed(book.sight(), directory, name, 1) for name in front])


class ServerCalls(Calls):
    def call(self, book: Book, procedure: int | None = None) -> dict:
        call = super().call(book, procedure)
        if call["procedure"] in (READDIR, READDIRPLUS):
            return self.page(book, call)
        if call["procedure"] == WRITE and call["data"] and self.chance(8):
            return call | {"offset": self.dice.choice((100, 4096, self.dice.randrange(FAR)))}
        if call["procedure"] == SETATTR and call["size"] is not None and self.chance(8):
            return call | {"size": self.dice.randrange(FAR)}
        if call["procedure"] == READ and self.chance(10):
            return call | {"offset": self.dice.randrange(FAR), "count": self.dice.choice((3, 100, TRANSFER_LIMIT))}
        return call

    def page(self, book: Book, call: dict) -> dict:
        """A part of a list, mostly such that the last name that is shown just fits or just doesn't."""
        directory, names = directory_names(book, call)
        cookie = self.dice.choice((0, 0, 0, 1, 2, len(names), len(names) + 1, 2 ** 64 - 1))
        call |= {"cookie": cookie, "verifier": self.dice.choice((0, 0, 7))}
        size = self.dice.choice((0, 4096, 2 ** 32 - 1))
        if directory is not None and self.chance(80):
            size = page_size(book, call, self.dice.randrange(len(names) + 2)) + self.dice.choice((-1, 0, 0, 1))
        other = self.dice.choice((0, 512))
        return call | ({"count": size} if call["procedure"] == READDIR else {"count": other, "most": size})

    # Messages.

    def message(self, xid: int, call: dict) -> bytes:
        return odd_message(self, xid, call) if self.chance(4) else call_message(xid, call)

    def changed(self, xid: int, call: dict) -> bytes:
        """A message of which a word is another one, or bytes are missing, or more follow."""
        message = call_message(xid, call)
        draw = self.dice.random()
        if draw < 0.25:
            return message[:self.dice.randrange(len(message))]
        if draw < 0.35:
            return message + bytes(self.dice.randrange(1, 9))
        at = 4 * self.dice.randrange(1 if draw < 0.5 else 10, len(message) // 4)
        return message[:at] + words(self.dice.choice(ODD_WORDS)) + message[at + 4:]

    def unserved(self, xid: int) -> bytes:
        """A call of another procedure, now and then of another program, another version or sealed at the same time."""
        procedure = self.dice.choice((0, *UNSERVED, 22, 23, 2 ** 32 - 1))
        other = {}
        if self.chance(10):
            other["program"] = self.dice.choice((0, 100000, 100005))
        if self.chance(10):
            other["version"] = self.dice.choice((0, 2, 4))
        if self.chance(10):
            other["flavor"] = 6
        return headed(xid, procedure, self.dice.choice((b"", opaque(handle_of(0)), b"\0" * 7)), **other)

    def odd(self, xid: int, call: dict) -> bytes:
        """A message that most often isn't recorded."""
        draw = self.dice.random()
        if draw < 0.35:
            return bad_message(self, self.dice.choice(list(BAD)), xid, call)
        return self.unserved(xid) if draw < 0.6 else self.changed(xid, call)


def cut_everywhere(call: dict) -> list[bytes]:
    """All messages that end within the arguments of a call, at a word or one byte behind it."""
    message = call_message(9, call)
    ends = range(len(message) - len(arguments(call)), len(message), 4)
    return [message[:end] for end in ends] + [message[:end + 1] for end in ends]


def at_limit(length: int) -> int:
    """The greatest offset of a WRITE of so many bytes."""
    return FILE_LIMIT - length
