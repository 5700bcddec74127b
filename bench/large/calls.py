"""The calls of large histories: their arguments, and what the small server does and answers."""
from .server import DIRECTORY, EXIST, INVAL, ISDIR, LINK, NOTDIR, NOTEMPTY, REGULAR, Failed
from .wire import ABSENT, NO_WCC, PRESENT, attributes, handle, hyper, opaque, settings, word

DONE = word(0)
MODIFYING = {2, 7, 8, 9, 10, 12, 13, 14}


def made(number: int) -> bytes:
    return DONE + PRESENT + handle(number) + ABSENT + NO_WCC


class Call:
    """A call that is judged. `act` gives its results, or raises `Failed`."""

    procedure = 0
    failed = NO_WCC

    def __init__(self, *words):
        self.words = words

    def arguments(self) -> bytes:
        raise NotImplementedError

    def act(self, server, number, verifier) -> bytes:
        raise NotImplementedError

    def run(self, server, number, verifier):
        """The results, and whether it succeeded."""
        try:
            return self.act(server, number, verifier), True
        except Failed as failure:
            return word(failure.status) + self.failed, False

    def is_modifying(self) -> bool:
        return self.procedure in MODIFYING


class GetAttr(Call):
    procedure, failed = 1, b""

    def arguments(self):
        return handle(self.words[0])

    def act(self, server, number, verifier):
        found = server.any_of(self.words[0])
        return DONE + attributes(found.kind, 4096 if found.kind == DIRECTORY else len(found.data))


class SetAttr(Call):
    """Of an object, with a size or none."""

    procedure = 2

    def arguments(self):
        return handle(self.words[0]) + settings(self.words[1]) + ABSENT

    def act(self, server, number, verifier):
        target, size = self.words
        if size is None:
            server.any_of(target)
            return DONE + NO_WCC
        data = server.edit(target).data
        del data[size:]
        data.extend(b"\0" * (size - len(data)))
        return DONE + NO_WCC


class Named(Call):
    """A call of a directory and a name in it."""

    def arguments(self):
        return handle(self.words[0]) + opaque(self.words[1])


class Lookup(Named):
    procedure, failed = 3, ABSENT

    def act(self, server, number, verifier):
        directory, name = self.words
        found = server.directory(directory)
        if name in (b".", b".."):
            return DONE + handle(directory if name == b"." else found.parent) + ABSENT * 2
        return DONE + handle(server.entry(directory, name)) + ABSENT * 2


class ReadLink(Call):
    procedure, failed = 5, ABSENT

    def arguments(self):
        return handle(self.words[0])

    def act(self, server, number, verifier):
        found = server.any_of(self.words[0])
        if found.kind != LINK:
            raise Failed(INVAL)
        return DONE + ABSENT + opaque(found.data)


class Read(Call):
    procedure, failed = 6, ABSENT

    def arguments(self):
        file, offset, count = self.words
        return handle(file) + hyper(offset) + word(count)

    def act(self, server, number, verifier):
        file, offset, count = self.words
        data = server.file(file).data
        shown = bytes(data[offset:offset + count])
        return DONE + ABSENT + word(len(shown)) + word(offset + len(shown) >= len(data)) + opaque(shown)


class Write(Call):
    procedure = 7

    def arguments(self):
        file, offset, data, level = self.words
        return handle(file) + hyper(offset) + word(len(data)) + word(level) + opaque(data)

    def act(self, server, number, verifier):
        file, offset, data, level = self.words
        stands = server.edit(file).data
        if data:
            stands.extend(b"\0" * (offset - len(stands)))
            stands[offset:offset + len(data)] = data
        return DONE + NO_WCC + word(len(data)) + word(level) + hyper(verifier)


class Making(Named):
    """A call that makes an object."""

    kind = REGULAR

    def data(self):
        return bytearray()

    def act(self, server, number, verifier):
        directory, name = self.words[:2]
        found = server.directory(directory).entries.get(name)
        if found is not None:
            return self.found(server, found)
        server.make(number, directory, name, self.kind, self.data())
        return made(number)

    def found(self, server, found):
        raise Failed(EXIST)


class Create(Making):
    """UNCHECKED."""

    procedure = 8

    def arguments(self):
        return super().arguments() + word(0) + settings()

    def found(self, server, found):
        kind = server.objects[found].kind
        if kind != REGULAR:
            raise Failed(ISDIR if kind == DIRECTORY else EXIST)
        return made(found)


class CreateExclusive(Making):
    procedure = 8

    def arguments(self):
        return super().arguments() + word(2) + hyper(self.words[2])


class MkDir(Making):
    procedure, kind = 9, DIRECTORY

    def arguments(self):
        return super().arguments() + settings()

    def data(self):
        return None


class SymLink(Making):
    procedure, kind = 10, LINK

    def arguments(self):
        return super().arguments() + settings() + opaque(self.words[2])

    def data(self):
        return self.words[2]


class Remove(Named):
    procedure = 12

    def act(self, server, number, verifier):
        found = server.entry(*self.words)
        if server.objects[found].kind == DIRECTORY:
            raise Failed(ISDIR)
        server.remove(found)
        return DONE + NO_WCC


class RmDir(Named):
    procedure = 13

    def act(self, server, number, verifier):
        found = server.entry(*self.words)
        if server.objects[found].kind != DIRECTORY:
            raise Failed(NOTDIR)
        if server.objects[found].entries:
            raise Failed(NOTEMPTY)
        server.remove(found)
        return DONE + NO_WCC


class Rename(Call):
    procedure, failed = 14, NO_WCC * 2

    def arguments(self):
        source, name, target, other = self.words
        return handle(source) + opaque(name) + handle(target) + opaque(other)

    def act(self, server, number, verifier):
        source, name, target, other = self.words
        entries = server.directory(source).entries
        replaced = server.directory(target).entries.get(other)
        moved = entries.get(name)
        if moved is None:
            raise Failed(2)
        if replaced == moved:
            return DONE + NO_WCC * 2
        is_directory = server.objects[moved].kind == DIRECTORY
        if is_directory and server.is_below(target, moved):
            raise Failed(INVAL)
        if replaced is not None:
            self.check(server.objects[replaced], is_directory)
            server.remove(replaced)
        server.move(moved, target, other)
        return DONE + NO_WCC * 2

    @staticmethod
    def check(replaced, is_directory):
        if replaced.kind == DIRECTORY:
            if not is_directory:
                raise Failed(ISDIR)
            if replaced.entries:
                raise Failed(NOTEMPTY)
        elif is_directory:
            raise Failed(NOTDIR)


class ReadDir(Call):
    """Of a directory, from a cookie on, so many names at most; with handles or without."""

    procedure, failed = 16, ABSENT

    def arguments(self):
        directory, cookie, most = self.words
        return handle(directory) + hyper(cookie) + hyper(0) + word(most * 32)

    def shown(self, number):
        return b""

    def act(self, server, number, verifier):
        directory, cookie, most = self.words
        found = server.directory(directory)
        parts = [DONE, ABSENT, hyper(0)]
        for at, name in enumerate(found.order[cookie:cookie + most], cookie + 1):
            listed = found.entries[name]
            parts += [PRESENT, hyper(listed), opaque(name), hyper(at), self.shown(listed)]
        return b"".join(parts) + ABSENT + word(cookie + most >= len(found.order))


class ReadDirPlus(ReadDir):
    procedure = 17

    def arguments(self):
        return super().arguments() + word(65536)

    def shown(self, number):
        return ABSENT + PRESENT + handle(number)


class Commit(Call):
    """Of a whole file."""

    procedure = 21

    def arguments(self):
        return handle(self.words[0]) + hyper(0) + word(0)

    def act(self, server, number, verifier):
        server.file(self.words[0])
        return DONE + NO_WCC + hyper(verifier)


class Access(Call):
    """It isn't judged."""

    procedure = 4

    def arguments(self):
        return handle(self.words[0]) + word(63)


class Garbage(GetAttr):
    """A GETATTR that is answered by GARBAGE_ARGS, and so isn't judged."""
