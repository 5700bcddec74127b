"""Replies of a server that keeps to the rules: a success that gives the next tree, or a failure that is permitted."""
from . import draws
from . import layouts as nfs
from . import rpc
from .draws import Dice
from .failure import EXCUSED_STATUSES, permitted
from .success import Try, after_success, found
from .trees import Binds, entries_of

READ_MOST = 1000


def binds_of(world) -> Binds:
    return Binds(world.root, [(handle, number) for number, handles in world.handles.items() for handle in handles])


def getattr_value(dice, world, one):
    node = one.node("object")
    return node and {"attributes": draws.attributes(dice, node.kind, len(node.data) if node.is_file else None)}


def lookup_value(dice, world, one):
    target = one.target()
    node = found(one.tree, target) if target else None
    return node and {"handle": world.handle_for(dice, node.object), "post": draws.post(dice), "dir_post": draws.post(dice)}


def readlink_value(dice, world, one):
    node = one.node("object")
    return node and {"post": draws.post(dice), "text": node.data}


def read_value(dice, world, one):
    node, offset = one.node("object"), one.arguments["offset"]
    if node is None:
        return None
    most = min(one.arguments["count"], READ_MOST)
    data = node.data[offset:offset + (dice.randrange(most + 1) if dice.chance(0.15) else most)]
    return {"post": draws.post(dice), "count": len(data), "eof": offset + len(data) >= len(node.data), "data": data}


def write_value(dice, world, one):
    asked = one.arguments["level"]
    count = dice.randrange(one.arguments["count"] + 1) if dice.chance(world.part_share) else one.arguments["count"]
    level = dice.randrange(asked, 3) if dice.chance(0.15) else asked
    return {"weak": draws.weak(dice), "count": count, "level": level, "verifier": world.verifier}


def made_value(dice, world, one):
    target = one.target()
    there = one.tree.get(target) if target else None
    made = there.object if there else one.number
    handle = world.handle_for(dice, made) if dice.chance(world.shown_share) else None
    if handle is None and world.is_silent:
        world.handle_for(dice, made)
    return {"handle": handle, "post": draws.post(dice), "weak": draws.weak(dice)}


def listed(dice, world, name, node, is_plus):
    entry = {"fileid": dice.hyper(), "name": name, "cookie": dice.hyper()}
    if is_plus:
        is_dot = node is None
        handle = draws.fresh_handle(dice, set()) if is_dot else world.handle_for(dice, node.object)
        entry.update(post=draws.post(dice), handle=handle if dice.chance(0.6) else None)
    return entry


def listing_value(dice, world, one, is_plus):
    """Names in any order, `.` and `..` or not; less than all where the list begins later or doesn't end here."""
    path = one.path("dir")
    if path is None:
        return None
    names = [*entries_of(one.tree, path).items()] + [(name, None) for name in (b".", b"..") if dice.chance(0.4)]
    dice.shuffle(names)
    is_end = dice.chance(0.7)
    if one.arguments["cookie"] != 0 or not is_end:
        names = names[:dice.randrange(len(names) + 1)]
    entries = [listed(dice, world, name, node, is_plus) for name, node in names]
    return {"post": draws.post(dice), "verifier": dice.randbytes(8), "entries": entries, "eof": is_end}


def success_value(dice: Dice, world, one, procedure: int):
    """A success that may fit, or None."""
    makers = {nfs.GETATTR: getattr_value, nfs.LOOKUP: lookup_value, nfs.READLINK: readlink_value, nfs.READ: read_value, nfs.WRITE: write_value,
              nfs.CREATE: made_value, nfs.MKDIR: made_value, nfs.SYMLINK: made_value}
    if procedure in makers:
        return makers[procedure](dice, world, one)
    if procedure in (nfs.READDIR, nfs.READDIRPLUS):
        return listing_value(dice, world, one, procedure == nfs.READDIRPLUS)
    if procedure == nfs.RENAME:
        return {"weak": draws.weak(dice), "to_weak": draws.weak(dice)}
    return {"weak": draws.weak(dice), **({"verifier": world.verifier} if procedure == nfs.COMMIT else {})}


def failure_value(dice: Dice, procedure: int) -> dict:
    fields = nfs.FAILURES[procedure].fields
    return {field: draws.post(dice) if field == "post" else draws.weak(dice) for field in fields}


def reply_to(dice: Dice, world, made: int, procedure: int, call_arguments: dict, success_share: float):
    """Status, value and the next tree. `made` is the number of an object that the call makes."""
    binds = binds_of(world)
    one = Try(binds, world.tree, made, call_arguments, None)
    if dice.chance(success_share):
        value = success_value(dice, world, one, procedure)
        tree = after_success(binds_of(world), world.tree, made, procedure, call_arguments, value) if value else None
        if tree is not None:
            return 0, value, tree
    judged = sorted(permitted(binds, world.tree, procedure, call_arguments))
    status = dice.choice(judged) if judged and dice.chance(0.75) else dice.choice(sorted(EXCUSED_STATUSES))
    return status, failure_value(dice, procedure), world.tree


def refusal(dice: Dice) -> list:
    """The words of a reply that isn't accepted with SUCCESS: reply_stat, then what follows."""
    return dice.choice([
        [rpc.ACCEPTED, 0, 0, rpc.PROG_UNAVAIL], [rpc.ACCEPTED, 0, 0, rpc.PROG_MISMATCH, 2, 4], [rpc.ACCEPTED, 0, 0, rpc.PROC_UNAVAIL],
        [rpc.ACCEPTED, 0, 0, rpc.GARBAGE_ARGS], [rpc.ACCEPTED, 0, 0, rpc.SYSTEM_ERR], [rpc.DENIED, rpc.RPC_MISMATCH, 2, 2],
        [rpc.DENIED, rpc.AUTH_ERROR, dice.word()]])
