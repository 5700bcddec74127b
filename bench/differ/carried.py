"""The attributes that replies of a server carry: right ones, of the tree that it has, and wrong ones."""
from . import draws
from . import layouts as nfs
from .draws import Dice
from .strict import owner_in, spots

OTHER_TYPES = {nfs.REGULAR: [2, 5, 6, 7], nfs.DIRECTORY: [1, 3, 5], nfs.LINK_TYPE: [1, 2, 4, 6]}


def right(dice: Dice, spot, node):
    """What agrees. Of no node anything does, and the size of a directory or a link may be any."""
    size = len(node.data) if node is not None and node.is_file else None
    if spot.is_before:
        return {"size": dice.hyper() if size is None else size, "mtime": draws.time(dice), "ctime": draws.time(dice)}
    return draws.attributes(dice, None if node is None else node.kind, size)


def fill(dice: Dice, binds, before: dict, after: dict, served, share: float) -> None:
    """A reply carries attributes that agree, each of them with this share."""
    status, value = served.result
    for spot in spots(binds, after, served.procedure, served.arguments, status, value):
        if spot.field != "attributes":
            node = owner_in(before if spot.is_before else after, spot)
            spot.holder[spot.field] = right(dice, spot, node) if dice.chance(share) else None


def can_be_wrong(spot, node) -> bool:
    return node is not None and (node.is_file or not spot.is_before)


def make_wrong(dice: Dice, spot, node) -> None:
    """One detail doesn't agree: a size by one mostly, or a type."""
    carried = spot.holder[spot.field] = right(dice, spot, node)
    if node.is_file and (spot.is_before or dice.chance(0.6)):
        carried["size"] = dice.choice([size for size in (carried["size"] - 1, carried["size"] + 1, carried["size"] + 2**32, 0) if 0 <= size != carried["size"]])
    else:
        carried["type"] = dice.choice(OTHER_TYPES[node.kind])


def spoil_one(dice: Dice, binds, before: dict, after: dict, served) -> None:
    """A reply carries one wrong detail, where it can. Not that of GETATTR, which is judged without a strict profile too."""
    status, value = served.result
    wrong = []
    for spot in spots(binds, after, served.procedure, served.arguments, status, value):
        node = owner_in(before if spot.is_before else after, spot)
        if spot.field != "attributes" and can_be_wrong(spot, node):
            wrong.append((spot, node))
    if wrong:
        make_wrong(dice, *dice.choice(wrong))


def spoil_some(dice: Dice, binds, before: dict, after: dict, served, share: float) -> None:
    """A reply of a server whose attributes nobody judges."""
    for _ in range(2):
        if dice.chance(share):
            spoil_one(dice, binds, before, after, served)
