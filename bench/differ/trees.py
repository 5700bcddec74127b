"""A tree of files: a map from paths (tuples of names) to nodes. It is never changed in place; a step gives another one."""
from typing import NamedTuple, Optional

from .layouts import DIRECTORY, LINK_TYPE, REGULAR

ROOT_OBJECT = 0
NODE_LIMIT = 2**32 - 1


class Node(NamedTuple):
    """An object by its number, and its kind as GETATTR tells it. A file has its bytes and the verifier of an EXCLUSIVE CREATE, a link its text."""
    object: int
    kind: int
    data: bytes = b""
    verifier: Optional[bytes] = None

    @property
    def is_file(self) -> bool:
        return self.kind == REGULAR

    @property
    def is_directory(self) -> bool:
        return self.kind == DIRECTORY

    @property
    def is_link(self) -> bool:
        return self.kind == LINK_TYPE


class Binds:
    """What a handle names. The root handle names the root, whatever the binds say of it."""

    def __init__(self, root: bytes, pairs):
        self.pairs = dict(pairs)
        self.pairs[root] = ROOT_OBJECT

    def object_of(self, handle: bytes):
        return self.pairs.get(handle)


OPENING = {(): Node(ROOT_OBJECT, DIRECTORY)}


def path_of(tree: dict, object_number):
    """Where an object stands, or None."""
    for path, node in tree.items():
        if node.object == object_number:
            return path
    return None


def is_plain(name: bytes) -> bool:
    return name not in (b"", b".", b"..")


def entries_of(tree: dict, path: tuple) -> dict:
    """The nodes of a directory by their names."""
    return {one[-1]: node for one, node in tree.items() if one and one[:-1] == path}


def below(tree: dict, path: tuple) -> list:
    return [one for one in tree if len(one) > len(path) and one[:len(path)] == path]


def with_node(tree: dict, path: tuple, node: Node) -> dict:
    return {**tree, path: node}


def without(tree: dict, path: tuple) -> dict:
    return {one: node for one, node in tree.items() if one != path}


def moved(tree: dict, old: tuple, new: tuple) -> dict:
    """What stood at the new path goes; the old path and all below it stand at the new one."""
    rest = {one: node for one, node in tree.items() if one != new and one[:len(old)] != old}
    return {**rest, **{new + one[len(old):]: node for one, node in tree.items() if one[:len(old)] == old}}


def resized(data: bytes, size: int) -> bytes:
    return data[:size] + bytes(size - len(data[:size]))


def written(data: bytes, offset: int, piece: bytes) -> bytes:
    """The bytes with a piece written over them. A gap is of zeros; no bytes change nothing."""
    if not piece:
        return data
    return resized(data, offset)[:offset] + piece + data[offset + len(piece):]
