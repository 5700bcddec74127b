"""Items of XDR (RFC 4506, section 4). A type reads a value from a source and writes it to a sink.

Writing doesn't ask whether a value is in the grammar, so that messages outside it can be made.
"""


class Bad(Exception):
    """The bytes aren't in the grammar."""


class Source:
    def __init__(self, data: bytes):
        self.data, self.at = data, 0

    def take(self, count: int) -> bytes:
        if self.at + count > len(self.data):
            raise Bad("short")
        piece = self.data[self.at:self.at + count]
        self.at += count
        return piece

    def word(self) -> int:
        return int.from_bytes(self.take(4), "big")

    def rest(self) -> bytes:
        return self.take(len(self.data) - self.at)

    def end(self) -> None:
        if self.at != len(self.data):
            raise Bad("trailing")


class Sink:
    """Where items are written. Padding is zero, or what `pad` gives: a reader takes any padding."""

    def __init__(self, pad=bytes):
        self.pieces, self.pad = [], pad

    def put(self, piece: bytes) -> None:
        self.pieces.append(piece)

    def word(self, value: int) -> None:
        self.put((value % 2**32).to_bytes(4, "big"))

    def data(self) -> bytes:
        return b"".join(self.pieces)


class Word:
    """A word, of those that are allowed."""

    def __init__(self, allowed=None):
        self.allowed = allowed

    def read(self, source):
        value = source.word()
        if self.allowed is not None and value not in self.allowed:
            raise Bad("enum")
        return value

    def write(self, sink, value):
        sink.word(value)


class Hyper:
    def read(self, source):
        return int.from_bytes(source.take(8), "big")

    def write(self, sink, value):
        sink.put((value % 2**64).to_bytes(8, "big"))


class Flag:
    """A word 0 or 1. A number that is none of them is written as it is."""

    def read(self, source):
        value = source.word()
        if value > 1:
            raise Bad("flag")
        return bool(value)

    def write(self, sink, value):
        sink.word(int(value))


class Fixed:
    def __init__(self, size: int):
        self.size = size

    def read(self, source):
        return source.take(self.size)

    def write(self, sink, value):
        sink.put(value)


class Opaque:
    """A length, the bytes, and padding to a multiple of four. A length over the limit is at fault ahead of bytes that are missing."""

    def __init__(self, limit=None):
        self.limit = limit

    def read(self, source):
        length = source.word()
        if self.limit is not None and length > self.limit:
            raise Bad("long")
        value = source.take(length)
        source.take(-length % 4)
        return value

    def write(self, sink, value):
        sink.word(len(value))
        sink.put(value)
        sink.put(sink.pad(-len(value) % 4))


class Optional:
    """A flag, and the item if the flag is 1. Without the item the value is None."""

    def __init__(self, inner):
        self.inner = inner

    def read(self, source):
        return self.inner.read(source) if Flag().read(source) else None

    def write(self, sink, value):
        Flag().write(sink, value is not None)
        if value is not None:
            self.inner.write(sink, value)


class Struct:
    """Named items, one behind the other. The value is a dict."""

    def __init__(self, **fields):
        self.fields = fields

    def read(self, source):
        return {name: kind.read(source) for name, kind in self.fields.items()}

    def write(self, sink, value):
        for name, kind in self.fields.items():
            kind.write(sink, value[name])


class Choice:
    """A word, and the item that it chooses. The value is a pair; where the word chooses nothing, its second half is None."""

    def __init__(self, **kinds):
        self.kinds = {int(name[1:]): kind for name, kind in kinds.items()}

    def read(self, source):
        word = source.word()
        if word not in self.kinds:
            raise Bad("enum")
        kind = self.kinds[word]
        return word, kind.read(source) if kind else None

    def write(self, sink, value):
        word, inner = value
        sink.word(word)
        kind = self.kinds.get(word)
        if kind:
            kind.write(sink, inner)


class Chain:
    """Items each behind a flag 1, up to a flag 0. The value is a list."""

    def __init__(self, inner):
        self.inner = inner

    def read(self, source):
        values = []
        while Flag().read(source):
            values.append(self.inner.read(source))
        return values

    def write(self, sink, value):
        for one in value:
            sink.word(1)
            self.inner.write(sink, one)
        sink.word(0)


def read_whole(kind, data: bytes):
    """The value that the bytes spell, all of them."""
    source = Source(data)
    value = kind.read(source)
    source.end()
    return value
