"""What the server of a large history holds before the first event: directories, files and links, each in the root or in an earlier directory."""
import random

from .server import DIRECTORY, LINK, REGULAR
from .wire import hyper, opaque, word


def draw(dice: random.Random, count: int):
    """Objects from number 1 on, one in fifty a directory: parent, name, kind, and the bytes or the text."""
    directories = [0]
    for number in range(1, count + 1):
        parent, name, roll = directories[dice.randrange(len(directories))], b"o%07d" % number, dice.randrange(50)
        if roll == 0:
            directories.append(number)
            yield parent, name, DIRECTORY, None
        elif roll < 4:
            yield parent, name, LINK, b"to/where"
        else:
            yield parent, name, REGULAR, dice.randbytes(dice.randrange(40))


def spelled(objects: list) -> bytes:
    """The plain profile, the number of objects, and the objects."""
    parts = [word(0), word(len(objects))]
    for parent, name, kind, data in objects:
        parts.append(hyper(parent) + opaque(name) + word(kind) + (b"" if data is None else opaque(data)))
    return b"".join(parts)
