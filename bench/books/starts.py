"""What a server holds at first, and how strictly its replies are judged.

An object of a start is a tuple: the number of its directory, its name, its kind word, and a file's bytes or a link's text. The k-th is
object k (docs/FORMATS.md).
"""
import random
from dataclasses import dataclass

from books.wire import long, opaque, spell, words

FILE, DIRECTORY, LINK = 1, 2, 5
NAMES = (b"a", b"b", b"c", b"d", b"e", b"ab", b"fghi", b"...", b"\xc3\xa4", b"a/b")
MOST = 12


@dataclass(frozen=True)
class Opening:
    start: tuple = ()
    strict: bool = False

    def is_plain(self) -> bool:
        return not self.start and not self.strict

    def spelled(self) -> str:
        """What stands behind the faults of a device in the line that makes a book or a server."""
        if self.is_plain():
            return ""
        return " ".join([" strict" if self.strict else " plain", *map(spell_object, self.start)])

    def head(self) -> bytes:
        """What stands ahead of the number of events in a history's file."""
        root = opaque(bytes(8))
        if self.is_plain():
            return b"NFSHIST1" + root
        objects = b"".join(map(object_bytes, self.start))
        return b"NFSHIST2" + root + words(self.strict, len(self.start)) + objects


def spell_object(item: tuple) -> str:
    directory, name, kind, content = item
    content = "" if kind == DIRECTORY else f"/{spell(content)}"
    return f"{directory}/{kind}/{spell(name)}{content}"


def object_bytes(item: tuple) -> bytes:
    directory, name, kind, content = item
    return long(directory) + opaque(name) + words(kind) + (b"" if kind == DIRECTORY else opaque(content))


def drawn_content(dice: random.Random, kind: int, longest: int) -> bytes:
    if kind == LINK:
        return dice.choice((b"", b"a", b"../x", b"dir/a"))
    if kind == DIRECTORY:
        return b""
    if dice.random() < 0.1:
        return b"z" * dice.choice((30, longest))
    return bytes(dice.choice(b"abcxyz") for _ in range(dice.choice((0, 1, 3, 5, 8, 13))))


def drawn_start(dice: random.Random, longest: int = 100) -> tuple:
    """At most twelve objects: files, few of which are long, links, and directories with others in them."""
    objects, directories, taken = [], [0], set()
    count = dice.randrange(MOST + 1)
    for _ in range(4 * count):
        place = dice.choice(directories), dice.choice(NAMES)
        if len(objects) == count or place in taken:
            continue
        kind = dice.choice((FILE, FILE, DIRECTORY, DIRECTORY, LINK))
        taken.add(place)
        objects.append((*place, kind, drawn_content(dice, kind, longest)))
        if kind == DIRECTORY:
            directories.append(len(objects))
    return tuple(objects)


def drawn_opening(dice: random.Random, longest: int = 100) -> Opening:
    """Half of all begin with a start, and half of all are strict."""
    start = drawn_start(dice, longest) if dice.random() < 0.5 else ()
    return Opening(start, dice.random() < 0.5)
