"""What a server held before the first event, as a history of version 2 has it: how strictly replies are judged, and the starting objects."""
from .items import Source
from .refusals import Refused, take_bytes, take_limited
from .trees import DIRECTORY, LINK_TYPE, OPENING, REGULAR, ROOT_OBJECT, Node, is_plain

PLAIN, STRICT = 0, 1
START_LIMIT = 1_000_000
TEXT_LIMIT = 1_048_576
FILE_BYTES_LIMIT = 16_777_216


def read_profile(source: Source) -> int:
    profile = source.word()
    if profile not in (PLAIN, STRICT):
        raise Refused("BadProfile")
    return profile


def read_object(source: Source, number: int, directories: dict, taken: set):
    """An object's path and node. The first of its items at fault decides: its directory, its name, its kind, its bytes.

    `directories` has the path of the root and of each earlier directory, by their numbers; `taken` the paths that are taken.
    """
    parent = int.from_bytes(source.take(8), "big")
    if parent not in directories:
        raise Refused("BadStart", number)
    name = take_bytes(source, TEXT_LIMIT)
    path = directories[parent] + (name,)
    if not is_plain(name) or path in taken:
        raise Refused("BadStart", number)
    kind = source.word()
    if kind not in (REGULAR, DIRECTORY, LINK_TYPE):
        raise Refused("BadStart", number)
    limits = {REGULAR: FILE_BYTES_LIMIT, LINK_TYPE: TEXT_LIMIT}
    return path, Node(number, kind, take_bytes(source, limits[kind]) if kind in limits else b"")


def read_start(source: Source) -> dict:
    """The tree before the first event. The starting objects are numbered from 1 in their order."""
    tree, directories = dict(OPENING), {ROOT_OBJECT: ()}
    for number in range(1, take_limited(source, START_LIMIT) + 1):
        path, node = read_object(source, number, directories, tree)
        tree[path] = node
        if node.is_directory:
            directories[number] = path
    return tree
