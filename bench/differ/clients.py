"""Calls as clients make them, most of them at what stands in the server's tree."""
from . import draws
from . import layouts as nfs
from .draws import FAR, Dice
from .rare import LONG

MOST_LONG = 200
ALL = {procedure: 1 for procedure in nfs.JUDGED}
FEW = dict.fromkeys(ALL, 0.2)
THEMES = {
    "mixed": ALL,
    "data": {**FEW, nfs.WRITE: 12, nfs.READ: 5, nfs.COMMIT: 5, nfs.SETATTR: 1, nfs.CREATE: 1, nfs.GETATTR: 1},
    "commits": {nfs.WRITE: 10, nfs.COMMIT: 7, nfs.READ: 1, nfs.LOOKUP: 0.5},
    "dirs": {**ALL, nfs.MKDIR: 6, nfs.RENAME: 9, nfs.RMDIR: 4, nfs.REMOVE: 3, nfs.CREATE: 3, nfs.LOOKUP: 4, nfs.READDIR: 3, nfs.READDIRPLUS: 3},
    "made": {**ALL, nfs.CREATE: 12, nfs.REMOVE: 4, nfs.SYMLINK: 3, nfs.MKDIR: 2, nfs.LOOKUP: 3, nfs.READDIRPLUS: 3, nfs.READLINK: 2, nfs.GETATTR: 3},
}
# What a run begins with: how many calls, of which kinds.
STARTS = {
    "mixed": ([0, 1, 2, 4, 8], {nfs.CREATE: 5, nfs.MKDIR: 3, nfs.SYMLINK: 2, nfs.WRITE: 1}),
    "data": ([1, 2, 3, 4], {nfs.CREATE: 6, nfs.MKDIR: 1, nfs.WRITE: 3}),
    "commits": ([1, 2], {nfs.CREATE: 1}),
    "dirs": ([0, 2, 5, 10], {nfs.MKDIR: 6, nfs.CREATE: 3, nfs.SYMLINK: 1}),
    "made": ([0, 1, 3, 6], {nfs.CREATE: 3, nfs.SYMLINK: 2, nfs.MKDIR: 1}),
}
NAME_POOLS = [[b"a", b"b"], [b"a", b"b", b"c"], [b"a", b"b", b"aa", b"ab", b"d"]]
CREATE_VERIFIERS = [b"verify-1", b"verify-1", b"verify-1", b"verify-1", b"verify-2", bytes(8)]


class World:
    """What stands at the server, the handles that it ever gave, and this era's WRITEs (handle, first byte, end)."""

    def __init__(self, dice: Dice, root: bytes, tree: dict, names: list):
        self.root, self.tree, self.handles, self.names = root, tree, {0: [root]}, names
        self.right_share, self.hit_share, self.odd_share, self.alias_share = 86, 0, 0.06, dice.choice([0.05, 0.05, 0.4])
        self.own_share = dice.choice([0, 0.5, 0.9])
        # How many long WRITEs may come, how many WRITEs write a part, how many objects that are made are shown by their handles, and whether clients know
        # the others by handles all the same.
        self.long_left, self.part_share, self.shown_share, self.is_silent = 0, 0.15, 0.88, False
        self.writes = []

    def known(self) -> set:
        return {handle for handles in self.handles.values() for handle in handles}

    def live(self, kinds) -> list:
        return [handle for node in self.tree.values() if node.kind in kinds for handle in self.handles.get(node.object, [])]

    def handle_for(self, dice: Dice, number: int) -> bytes:
        """A handle of an object, in some histories its number; now and then another one than before."""
        handles = self.handles.setdefault(number, [])
        if not handles or dice.chance(self.alias_share):
            own = number.to_bytes(8, "big")
            handles.append(own if dice.chance(self.own_share) and own not in self.known() else draws.fresh_handle(dice, self.known()))
        return dice.choice(handles)


def any_handle(dice: Dice, world: World, kinds) -> bytes:
    chosen = dice.weighted({"right": world.right_share, "live": 93 - world.right_share, "known": 5, "odd": 2})
    handles = {"right": world.live(kinds), "live": world.live(range(1, 8)), "known": sorted(world.known())}.get(chosen)
    if handles:
        return dice.choice(handles)
    return dice.choice([b"", world.root, world.root[:-1], (world.root + b"\0")[:64], draws.fresh_handle(dice, world.known())])


def any_name(dice: Dice, world: World) -> bytes:
    return dice.choice(draws.ODD_NAMES) if dice.chance(world.odd_share) else dice.choice(world.names)


def dir_and_name(dice: Dice, world: World, hit=0.3, field="dir", name_field="name") -> dict:
    """A directory and a name; with the share `hit` those of an entry."""
    entries = [path for path in world.tree if path and world.handles.get(world.tree[path[:-1]].object)]
    if entries and dice.chance(max(hit, world.hit_share)):
        path = dice.choice(entries)
        return {field: dice.choice(world.handles[world.tree[path[:-1]].object]), name_field: path[-1]}
    return {field: any_handle(dice, world, {nfs.DIRECTORY}), name_field: any_name(dice, world)}


def offset_near(dice: Dice, world: World, handle: bytes) -> int:
    """An offset in a file or at its end."""
    sizes = [len(node.data) for node in world.tree.values() if handle in world.handles.get(node.object, []) and node.is_file] or [3]
    return max(0, dice.choice([0, 0, 1, 2, 3, 5, 9, sizes[0], sizes[0] - 1, sizes[0] + 1]))


def setattr_arguments(dice, world):
    size = draws.size(dice) if dice.chance(0.6) else None
    kinds = {nfs.REGULAR} if size is not None else {nfs.REGULAR, nfs.DIRECTORY, nfs.LINK_TYPE}
    guard = draws.time(dice) if dice.chance(0.2) else None
    return {"object": any_handle(dice, world, kinds), "new": draws.wanted(dice, size), "guard": guard}


def read_arguments(dice, world):
    handle = any_handle(dice, world, {nfs.REGULAR})
    offset = 2**64 - 1 if dice.chance(0.03) else offset_near(dice, world, handle)
    return {"object": handle, "offset": offset, "count": dice.choice([0, 1, 2, 3, 5, 10, 100, 2**32 - 1])}


def some_data(dice: Dice, world: World) -> bytes:
    if world.long_left and dice.chance(0.5):
        world.long_left -= 1
        return bytes(dice.choices(b"abcxyz", k=dice.randrange(LONG + 1, MOST_LONG + 1)))
    return dice.some(dice.choice([0, 1, 3, 6, 12]))


def write_arguments(dice, world):
    handle, data = any_handle(dice, world, {nfs.REGULAR}), some_data(dice, world)
    offset = offset_near(dice, world, handle)
    if dice.chance(0.004):
        offset = FAR - len(data)
    if not data and dice.chance(0.1):
        offset = 2**64 - 1
    return {"object": handle, "offset": offset, "count": len(data), "level": dice.weighted({0: 6, 1: 1, 2: 2}), "data": data}


def create_arguments(dice, world):
    """Now and then once more what an EXCLUSIVE one made, or UNCHECKED over it."""
    mode, verifier = dice.choice([nfs.UNCHECKED, nfs.UNCHECKED, nfs.GUARDED, nfs.EXCLUSIVE]), dice.choice(CREATE_VERIFIERS)
    target = dir_and_name(dice, world)
    before = [path for path, node in world.tree.items() if node.verifier and world.handles.get(world.tree[path[:-1]].object)]
    if before and dice.chance(0.3):
        path = dice.choice(before)
        mode, verifier = dice.choice([nfs.UNCHECKED, nfs.EXCLUSIVE, nfs.EXCLUSIVE]), world.tree[path].verifier
        target = {"dir": world.handles[world.tree[path[:-1]].object][0], "name": path[-1]}
    if mode == nfs.EXCLUSIVE:
        return {**target, "how": (mode, verifier)}
    return {**target, "how": (mode, draws.wanted(dice, draws.size(dice) if dice.chance(0.3) else None))}


def listing_arguments(dice, world):
    cookie = 0 if dice.chance(0.7) else dice.choice([1, 2, 2**64 - 1])
    return {"dir": any_handle(dice, world, {nfs.DIRECTORY}), "cookie": cookie, "verifier": dice.randbytes(8)}


def commit_arguments(dice, world):
    """Mostly a range that begins or ends at an edge of what a WRITE wrote, or one byte beside it, by the same handle or another."""
    handle = any_handle(dice, world, {nfs.REGULAR})
    if not world.writes or dice.chance(0.3):
        return {"object": handle, "offset": 0 if dice.chance(0.5) else offset_near(dice, world, handle), "count": dice.choice([0, 0, 1, 3, 6, 2**32 - 1])}
    written, first, end = dice.choice(world.writes)
    if dice.chance(0.7):
        handle = dice.choice([written] + next((handles for handles in world.handles.values() if written in handles), []))
    return {"object": handle, **range_beside(dice, first, end)}


def range_beside(dice: Dice, first: int, end: int) -> dict:
    """A range that begins where these bytes end, or ends where they begin, or one byte more or less."""
    if dice.chance(0.5):
        return {"offset": max(0, end + dice.choice([-1, 0, 0, 1])), "count": dice.choice([0, 0, 1, 5])}
    offset = dice.randrange(first + 1)
    return {"offset": offset, "count": max(0, first - offset + dice.choice([-1, 0, 0, 1, 1]))}


def arguments_for(dice: Dice, world: World, procedure: int) -> dict:
    if procedure == nfs.GETATTR:
        return {"object": any_handle(dice, world, {nfs.REGULAR, nfs.DIRECTORY, nfs.LINK_TYPE})}
    if procedure == nfs.READLINK:
        return {"object": any_handle(dice, world, {nfs.LINK_TYPE})}
    if procedure in (nfs.LOOKUP, nfs.REMOVE, nfs.RMDIR):
        return dir_and_name(dice, world)
    if procedure == nfs.MKDIR:
        return {**dir_and_name(dice, world, 0.1), "new": draws.wanted(dice, dice.choice([None, None, 0, 2**64 - 1]))}
    if procedure == nfs.SYMLINK:
        return {**dir_and_name(dice, world, 0.1), "new": draws.wanted(dice, dice.choice([None, None, 0, FAR + 1])), "text": dice.some(6)}
    if procedure == nfs.RENAME:
        return {**dir_and_name(dice, world), **dir_and_name(dice, world, 0.2, "to_dir", "to_name")}
    if procedure == nfs.READDIR:
        return {**listing_arguments(dice, world), "count": dice.word()}
    if procedure == nfs.READDIRPLUS:
        return {**listing_arguments(dice, world), "dircount": dice.word(), "maxcount": dice.word()}
    rest = {nfs.SETATTR: setattr_arguments, nfs.READ: read_arguments, nfs.WRITE: write_arguments, nfs.CREATE: create_arguments, nfs.COMMIT: commit_arguments}
    return rest[procedure](dice, world)


# What is made first where a call has nothing to work at.
NEEDED = {nfs.READ: (nfs.REGULAR, nfs.CREATE), nfs.WRITE: (nfs.REGULAR, nfs.CREATE), nfs.COMMIT: (nfs.REGULAR, nfs.CREATE),
          nfs.READLINK: (nfs.LINK_TYPE, nfs.SYMLINK)}


def draw_call(dice: Dice, world: World, weights: dict):
    procedure = dice.weighted(weights)
    kind, maker = NEEDED.get(procedure, (nfs.DIRECTORY, None))
    if not world.live({kind}) and dice.chance(0.8):
        procedure = maker
    return procedure, arguments_for(dice, world, procedure)
