"""What a server holds before the first event: random starting objects, and the tree that they make."""
from . import layouts as nfs
from .draws import FAR, ODD_NAMES, Dice
from .runs import Start, StartObject
from .starts import PLAIN, STRICT
from .trees import OPENING, Node, is_plain

MOST_OBJECTS = 8


def free_name(dice: Dice, names: list, taken: set) -> bytes:
    """Mostly one of those that clients use."""
    pool = [name for name in ODD_NAMES if is_plain(name)] if dice.chance(0.1) else names
    free = [name for name in pool if name not in taken]
    return dice.choice(free) if free else b"s%d" % len(taken)


def some_data(dice: Dice, kind: int) -> bytes:
    if kind == nfs.DIRECTORY:
        return b""
    if dice.chance(0.03):
        return dice.randbytes(dice.randrange(1000, 70_000))
    if kind == nfs.REGULAR and dice.chance(0.002):
        return bytes(FAR)
    return dice.some(12)


def draw_start(dice: Dice, names: list) -> Start:
    objects, directories = [], [0]
    for number in range(1, dice.randrange(MOST_OBJECTS + 1) + 1):
        parent = dice.choice([directories[-1], dice.choice(directories)])
        name = free_name(dice, names, {one.name for one in objects if one.parent == parent})
        kind = dice.weighted({nfs.REGULAR: 5, nfs.DIRECTORY: 4, nfs.LINK_TYPE: 2})
        objects.append(StartObject(parent, name, kind, some_data(dice, kind)))
        if kind == nfs.DIRECTORY:
            directories.append(number)
    return Start(STRICT if dice.chance(0.5) else PLAIN, objects)


def tree_of(start) -> dict:
    """The tree of a start, or that of a server that held nothing."""
    tree, paths = dict(OPENING), [()]
    for number, one in enumerate(start.objects if start else [], 1):
        paths.append(paths[one.parent] + (one.name,))
        tree[paths[-1]] = Node(number, one.kind, one.data)
    return tree
