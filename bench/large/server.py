"""The small server whose calls are recorded: objects by number, with what takes a step back where it may crash."""
import bisect

REGULAR, DIRECTORY, LINK = 1, 2, 5
NOENT, EXIST, NOTDIR, ISDIR, INVAL, NOTEMPTY, STALE = 2, 17, 20, 21, 22, 66, 70


class Failed(Exception):
    """A call fails with a status."""

    def __init__(self, status: int):
        super().__init__(status)
        self.status = status


class Object:
    """A file with its bytes, a link with its text, or a directory with its names in order."""

    __slots__ = ("kind", "parent", "name", "is_live", "data", "entries", "order")

    def __init__(self, kind: int, data=None):
        self.kind, self.parent, self.name, self.is_live = kind, 0, b"", True
        self.data = data
        self.entries, self.order = {}, []

    def add(self, name: bytes, number: int) -> None:
        self.entries[name] = number
        bisect.insort(self.order, name)

    def drop(self, name: bytes) -> None:
        del self.entries[name]
        del self.order[bisect.bisect_left(self.order, name)]


class Server:
    """The root alone, object 0. With `is_logging` each step tells how to take it back."""

    def __init__(self, is_logging: bool):
        self.objects = {0: Object(DIRECTORY)}
        self.is_logging = is_logging
        self.undo = []

    def live(self, number: int):
        found = self.objects.get(number)
        return found if found is not None and found.is_live else None

    def any_of(self, number: int) -> Object:
        found = self.live(number)
        if found is None:
            raise Failed(STALE)
        return found

    def file(self, number: int) -> Object:
        found = self.any_of(number)
        if found.kind != REGULAR:
            raise Failed(ISDIR if found.kind == DIRECTORY else INVAL)
        return found

    def directory(self, number: int) -> Object:
        found = self.any_of(number)
        if found.kind != DIRECTORY:
            raise Failed(NOTDIR)
        return found

    def entry(self, directory: int, name: bytes) -> int:
        found = self.directory(directory).entries.get(name)
        if found is None:
            raise Failed(NOENT)
        return found

    def put(self, number: int, directory: int, name: bytes) -> None:
        stands = self.objects[number]
        stands.is_live, stands.parent, stands.name = True, directory, name
        self.objects[directory].add(name, number)

    def take(self, number: int) -> None:
        stands = self.objects[number]
        stands.is_live = False
        self.objects[stands.parent].drop(stands.name)

    def note(self, step, *words) -> None:
        if self.is_logging:
            self.undo.append((step, *words))

    def make(self, number: int, directory: int, name: bytes, kind: int, data) -> None:
        self.objects[number] = Object(kind, data)
        self.put(number, directory, name)
        self.note(self.forget, number)

    def forget(self, number: int) -> None:
        self.take(number)
        del self.objects[number]

    def remove(self, number: int) -> None:
        stands = self.objects[number]
        self.take(number)
        self.note(self.put, number, stands.parent, stands.name)

    def move(self, number: int, directory: int, name: bytes) -> None:
        stands = self.objects[number]
        self.note(self.lead_back, number, stands.parent, stands.name)
        self.lead_back(number, directory, name)

    def lead_back(self, number: int, directory: int, name: bytes) -> None:
        self.take(number)
        self.put(number, directory, name)

    def edit(self, number: int) -> Object:
        stands = self.file(number)
        if self.is_logging:
            self.note(self.restore, number, bytes(stands.data))
        return stands

    def restore(self, number: int, data: bytes) -> None:
        self.objects[number].data = bytearray(data)

    def is_below(self, number: int, above: int) -> bool:
        while number != above:
            if number == 0:
                return False
            number = self.objects[number].parent
        return True

    def taken_undo(self) -> list:
        """What takes the last call's step back, the last part first."""
        undo, self.undo = self.undo[::-1], []
        return undo
