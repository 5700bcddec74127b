"""The text of a certificate: binds, and for each era its places and, but for the last, a cut."""
import re

from .refusals import Refused

BIND = re.compile(rb"bind ((?:[0-9a-f]{2}){1,64}) (0|[1-9][0-9]*)")
PLACE = re.compile(rb"(place|take) (0|[1-9][0-9]*)")
TAKE_COUNT = re.compile(rb"take (0|[1-9][0-9]*) (0|[1-9][0-9]*)")
CUT = re.compile(rb"cut (0|[1-9][0-9]*)")
NUMBER_LIMIT, COUNT_LIMIT = 2**64 - 1, 2**32 - 1


class Place:
    """A call at its place: with its reply, or taken as done, with a count or None."""

    def __init__(self, number: int, is_taken: bool, count=None):
        self.number, self.is_taken, self.count = number, is_taken, count


class Era:
    def __init__(self):
        self.places, self.cut = [], None


class Certificate:
    def __init__(self):
        self.binds, self.eras = [], [Era()]


class Reader:
    """Reads line by line. A method gives False where the line can't stand there."""

    def __init__(self):
        self.text, self.has_places, self.is_ended = Certificate(), False, False

    def bind(self, line: bytes) -> bool:
        found = BIND.fullmatch(line)
        if not found or self.has_places:
            return False
        handle, number = bytes.fromhex(found[1].decode()), small(found[2], NUMBER_LIMIT)
        if number is None or (self.text.binds and self.text.binds[-1][0] >= handle):
            return False
        self.text.binds.append((handle, number))
        return True

    def place(self, line: bytes) -> bool:
        if found := PLACE.fullmatch(line):
            number, count = small(found[2], NUMBER_LIMIT), 0
            place = Place(number, found[1] == b"take")
        elif found := TAKE_COUNT.fullmatch(line):
            number, count = small(found[1], NUMBER_LIMIT), small(found[2], COUNT_LIMIT)
            place = Place(number, True, count)
        else:
            return False
        self.has_places = True
        self.text.eras[-1].places.append(place)
        return number is not None and count is not None

    def cut(self, line: bytes) -> bool:
        found = CUT.fullmatch(line)
        if not found or small(found[1], NUMBER_LIMIT) is None:
            return False
        self.has_places = True
        self.text.eras[-1].cut = small(found[1], NUMBER_LIMIT)
        self.text.eras.append(Era())
        return True

    def line(self, number: int, line: bytes) -> bool:
        if number == 1 or self.is_ended:
            return number == 1 and line == b"witness 1"
        if line == b"end":
            self.is_ended = True
            return True
        return self.bind(line) or self.place(line) or self.cut(line)


def small(digits: bytes, limit: int):
    """The number, or None where it is over its limit, however long it is."""
    if len(digits) > 20 or int(digits) > limit:
        return None
    return int(digits)


def read_certificate(text: bytes) -> Certificate:
    """The first line at fault: it can't stand behind those before it, or it is missing, or has no line feed."""
    reader = Reader()
    *lines, rest = text.split(b"\n")
    for number, line in enumerate(lines, 1):
        if not reader.line(number, line):
            raise Refused("BadLine", number)
    if rest or not reader.is_ended:
        raise Refused("BadLine", len(lines) + 1)
    return reader.text
