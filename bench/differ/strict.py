"""The strict profile: the attributes that a reply carries agree with the tree, be it a success or a failure.

Attributes of after the call have the type of their object in the tree after it, and for a file its length; a size of before the call is that of the file
in the tree before it. What doesn't stand in that tree isn't judged, nor is the size of a directory or a link.
"""
from typing import NamedTuple, Optional

from . import layouts as nfs
from .failure import HANDLE_FIELDS
from .success import found
from .trees import path_of

FOUND_OR_MADE = (nfs.LOOKUP, nfs.CREATE, nfs.MKDIR, nfs.SYMLINK)
FIRST, SECOND, ANSWER, ENTRY = "first", "second", "answer", "entry"


class Spot(NamedTuple):
    """Where a reply may carry attributes: `holder[field]` has them, or None. They are of this object, or of none that is known."""
    role: str
    holder: dict
    field: str
    owner: Optional[int]
    is_before: bool = False


def path_named(binds, tree: dict, call_arguments: dict) -> Optional[tuple]:
    """The path that the first handle and the name lead to."""
    named = binds.object_of(call_arguments["dir"])
    path = None if named is None else path_of(tree, named)
    return None if path is None else path + (call_arguments["name"],)


def object_answered(binds, tree: dict, call_arguments: dict) -> Optional[int]:
    """What LOOKUP found, or what stands where something was made, in the tree after the call."""
    path = path_named(binds, tree, call_arguments)
    node = found(tree, path) if path else None
    return node.object if node else None


def entry_spots(binds, tree: dict, call_arguments: dict, entries: list):
    """Those of a list: `.` and `..` aren't judged."""
    for entry in entries:
        if entry["name"] not in (b".", b"..") and "post" in entry:
            path = path_named(binds, tree, {**call_arguments, "name": entry["name"]})
            yield Spot(ENTRY, entry, "post", tree[path].object if path in tree else None)


def spots(binds, after: dict, procedure: int, call_arguments: dict, status: int, shown: dict):
    """Each place for attributes in a reply. `after` is the tree after the call."""
    first, *second = [binds.object_of(call_arguments[field]) for field in HANDLE_FIELDS[procedure]]
    has_answer = status == 0 and procedure in FOUND_OR_MADE
    if "attributes" in shown:
        yield Spot(FIRST, shown, "attributes", first)
    if "post" in shown:
        yield Spot(ANSWER, shown, "post", object_answered(binds, after, call_arguments)) if has_answer else Spot(FIRST, shown, "post", first)
    if "dir_post" in shown:
        yield Spot(FIRST, shown, "dir_post", first)
    for role, field, owner in [(FIRST, "weak", first), *((SECOND, "to_weak", owner) for owner in second)]:
        if field in shown:
            yield Spot(role, shown[field], "before", owner, is_before=True)
            yield Spot(role, shown[field], "after", owner)
    yield from entry_spots(binds, after, call_arguments, shown.get("entries", []))


def owner_in(tree: dict, spot: Spot):
    """The node of the object in a tree, or None."""
    path = None if spot.owner is None else path_of(tree, spot.owner)
    return None if path is None else tree[path]


def is_right(before: dict, after: dict, spot: Spot) -> bool:
    carried, node = spot.holder[spot.field], owner_in(before if spot.is_before else after, spot)
    if carried is None or node is None:
        return True
    if not spot.is_before and carried["type"] != node.kind:
        return False
    return not node.is_file or carried["size"] == len(node.data)


def agrees(binds, before: dict, after: dict, procedure: int, call_arguments: dict, status: int, shown: dict, note=lambda spot, is_so: None) -> bool:
    """Whether all that a reply carries agrees. `note` is told of each attributes that can be judged."""
    answers = []
    for spot in spots(binds, after, procedure, call_arguments, status, shown):
        if spot.holder[spot.field] is not None and owner_in(before if spot.is_before else after, spot) is not None:
            answers.append(is_right(before, after, spot))
            note(spot, answers[-1])
    return all(answers)
