"""What a server replies to a call that it records: its success, or the first status of the first cause of a failure.

It is written from the rules in words, apart from the crates' code.
"""
from books.book import Book
from books.strict import told_nodes
from books.tree import (
    DIRECTORY, EXIST, FILE, INVAL, ISDIR, LINK, NAMED, NAMETOOLONG, NOENT, NOSPC, NOTDIR, NOTEMPTY, STALE, Sight,
    TOOSMALL, TRANSFER_LIMIT, allows, asked_bytes, created, handle_of, is_plain, outcome,
)
from books.wire import (
    COMMIT, CREATE, EXCLUSIVE, GETATTR, GUARDED, LOOKUP, MKDIR, READ, READDIR, READDIRPLUS, READLINK, REMOVE, RENAME,
    RMDIR, SETATTR, SYMLINK, UNCHECKED, WRITE, result,
)

MODE = 420


def halves(number: int) -> list[int]:
    return [number >> 32, number & (2 ** 32 - 1)]


# Causes of failures. Each looks at the tree that a call finds, and they are asked in their order.

def handles_of(call: dict) -> list[bytes]:
    return [call["handle"]] + ([call["to_handle"]] if call["procedure"] == RENAME else [])


def names_of(call: dict) -> list[bytes]:
    if call["procedure"] not in NAMED:
        return []
    return [call["name"]] + ([call["to_name"]] if call["procedure"] == RENAME else [])


def entry_of(sight: Sight, handle: bytes, name: bytes):
    """The entry of a live directory. No entry is named by nothing or by points."""
    directory = sight.directory_of(handle)
    return sight.tree.entry(directory, name) if directory is not None and is_plain(name) else None


def is_absent(sight: Sight, call: dict) -> bool:
    return sight.directory_of(call["handle"]) is not None and entry_of(sight, call["handle"], call["name"]) is None


def asks_for_data(call: dict) -> bool:
    return call["procedure"] in (READ, WRITE, COMMIT) or (call["procedure"] == SETATTR and call["size"] is not None)


def kind_of(sight: Sight, handle: bytes) -> int | None:
    node = sight.node_of(handle)
    return None if node is None else node[1]


def entry_kind(sight: Sight, call: dict) -> int | None:
    entry = entry_of(sight, call["handle"], call["name"])
    return None if entry is None else entry[1]


def target_kind(sight: Sight, call: dict) -> int | None:
    entry = entry_of(sight, call["to_handle"], call["to_name"])
    return None if entry is None else entry[1]


def is_stale(sight: Sight, call: dict) -> bool:
    return any(sight.node_of(handle) is None for handle in handles_of(call))


def is_no_directory(sight: Sight, call: dict) -> bool:
    return call["procedure"] in (*NAMED, READDIR, READDIRPLUS) and any(
        kind_of(sight, handle) in (FILE, LINK) for handle in handles_of(call))


def is_no_link(sight: Sight, call: dict) -> bool:
    return call["procedure"] == READLINK and kind_of(sight, call["handle"]) in (FILE, DIRECTORY)


def is_data_of_directory(sight: Sight, call: dict) -> bool:
    return asks_for_data(call) and kind_of(sight, call["handle"]) == DIRECTORY


def is_data_of_link(sight: Sight, call: dict) -> bool:
    return asks_for_data(call) and kind_of(sight, call["handle"]) == LINK


def is_name_absent(sight: Sight, call: dict) -> bool:
    return call["procedure"] in (LOOKUP, REMOVE, RMDIR, RENAME) and is_absent(sight, call)


def is_name_present(sight: Sight, call: dict) -> bool:
    if call["procedure"] not in (CREATE, MKDIR, SYMLINK):
        return False
    kind = entry_kind(sight, call)
    if kind is None:
        return False
    return call["procedure"] != CREATE or call["mode"] in (GUARDED, EXCLUSIVE) or kind != FILE


def is_remove_of_directory(sight: Sight, call: dict) -> bool:
    return call["procedure"] == REMOVE and entry_kind(sight, call) == DIRECTORY


def is_rmdir_of_other(sight: Sight, call: dict) -> bool:
    return call["procedure"] == RMDIR and entry_kind(sight, call) in (FILE, LINK)


def is_filled(sight: Sight, handle: bytes, name: bytes) -> bool:
    """Whether an entry is a directory that has entries."""
    entry = entry_of(sight, handle, name)
    return entry is not None and entry[1] == DIRECTORY and bool(sight.tree.names_in(sight.tree.paths[entry[0]]))


def is_rmdir_of_filled(sight: Sight, call: dict) -> bool:
    return call["procedure"] == RMDIR and is_filled(sight, call["handle"], call["name"])


def is_directory_onto_other(sight: Sight, call: dict) -> bool:
    return (call["procedure"] == RENAME and entry_kind(sight, call) == DIRECTORY
            and target_kind(sight, call) in (FILE, LINK))


def is_other_onto_directory(sight: Sight, call: dict) -> bool:
    return (call["procedure"] == RENAME and entry_kind(sight, call) in (FILE, LINK)
            and target_kind(sight, call) == DIRECTORY)


def is_onto_filled(sight: Sight, call: dict) -> bool:
    """A RENAME of any entry onto another directory that has entries."""
    if call["procedure"] != RENAME or not is_filled(sight, call["to_handle"], call["to_name"]):
        return False
    source = entry_of(sight, call["handle"], call["name"])
    return source is not None and source != entry_of(sight, call["to_handle"], call["to_name"])


def is_below_itself(sight: Sight, call: dict) -> bool:
    target = sight.directory_of(call["to_handle"]) if call["procedure"] == RENAME else None
    if target is None or entry_kind(sight, call) != DIRECTORY:
        return False
    source = sight.tree.paths[entry_of(sight, call["handle"], call["name"])[0]]
    path = target + (call["to_name"],)
    return path != source and path[:len(source)] == source


def is_name_empty(sight: Sight, call: dict) -> bool:
    return any(not is_plain(name) for name in names_of(call))


def is_name_odd(sight: Sight, call: dict) -> bool:
    return any(byte in (0, 47) or byte > 127 for name in names_of(call) for byte in name)


CAUSES = (
    ("a handle that isn't live", is_stale, STALE),
    ("no directory", is_no_directory, NOTDIR),
    ("no link", is_no_link, INVAL),
    ("data of a directory", is_data_of_directory, ISDIR),
    ("data of a link", is_data_of_link, INVAL),
    ("an absent name", is_name_absent, NOENT),
    ("a present name", is_name_present, EXIST),
    ("REMOVE of a directory", is_remove_of_directory, ISDIR),
    ("RMDIR of no directory", is_rmdir_of_other, NOTDIR),
    ("RMDIR of a filled directory", is_rmdir_of_filled, NOTEMPTY),
    ("RENAME of a directory onto none", is_directory_onto_other, EXIST),
    ("RENAME of no directory onto one", is_other_onto_directory, EXIST),
    ("RENAME onto a filled directory", is_onto_filled, NOTEMPTY),
    ("RENAME below itself", is_below_itself, INVAL),
    ("an empty name or points", is_name_empty, INVAL),
    ("an odd name", is_name_odd, INVAL),
)


def causes(sight: Sight, call: dict) -> list[tuple[str, int]]:
    """The causes that hold, in their order, each with the status that is answered for it. That a SETATTR has a guard, and a
    list a cookie, are causes too, behind all of these; no call fails by them alone."""
    return [(name, status) for name, holds, status in CAUSES if holds(sight, call)]


# Successes.

def size_of(node: tuple) -> list[int]:
    return halves(0 if node[1] == DIRECTORY else len(node[2]))


def attributes(node: tuple) -> list[int]:
    number, kind, _, _ = node
    return [kind, MODE, 1, 0, 0, *size_of(node), *[0] * 6, *halves(number), *[0] * 6]


def attributes_ahead(node: tuple) -> list[int]:
    """The size, and times of 0."""
    return [*size_of(node), *[0] * 4]


def listed(sight: Sight, directory: tuple, name: bytes, cookie: int) -> dict:
    number = sight.tree.entry(directory, name)[0]
    return {"name": name, "fileid": number, "cookie": cookie, "handle": handle_of(number)}


def list_of(call: dict, entries: list[dict], is_whole: bool) -> dict:
    return {"procedure": call["procedure"], "status": 0, "entries": entries, "eof": int(is_whole), "verifier": 0}


def list_length(book: Book, call: dict, entries: list[dict]) -> int:
    """How many bytes a list has with its attributes."""
    node = book.sight().node_of(call["handle"])
    after = {"after": attributes(node)} if book.opening.strict and node is not None else {}
    return len(result(list_of(call, entries, False) | after))


def listing(book: Book, call: dict) -> dict:
    """As many names behind the cookie as the reply has room for."""
    sight = book.sight()
    directory = sight.directory_of(call["handle"])
    names = sorted(sight.tree.names_in(directory))
    left = [listed(sight, directory, name, at + 1) for at, name in enumerate(names)][call["cookie"]:]
    most = min(call["count"] if call["procedure"] == READDIR else call["most"], TRANSFER_LIMIT)
    shown = 0
    while shown < len(left) and list_length(book, call, left[:shown + 1]) <= most:
        shown += 1
    if left and not shown:
        return {"procedure": call["procedure"], "status": TOOSMALL}
    return list_of(call, left[:shown], shown == len(left))


def read_reply(node: tuple, call: dict) -> dict:
    data = asked_bytes(node[2], call)[:TRANSFER_LIMIT]
    return {"data": data, "eof": int(call["offset"] + len(data) >= len(node[2]))}


def made_handle(book: Book, number: int, call: dict) -> bytes:
    sight = book.sight()
    if call["procedure"] == CREATE and created(sight, call) != "new":
        return handle_of(entry_of(sight, call["handle"], call["name"])[0])
    return handle_of(book.object_of(number))


def success(book: Book, number: int, call: dict) -> dict:
    """The success of a call that may succeed."""
    sight, procedure = book.sight(), call["procedure"]
    node = sight.node_of(call["handle"])
    reply = {"procedure": procedure, "status": 0}
    if procedure == GETATTR:
        return reply | {"attributes": attributes(node)}
    if procedure == LOOKUP:
        return reply | {"handle": handle_of(sight.found(sight.directory_of(call["handle"]), call["name"]))}
    if procedure == READLINK:
        return reply | {"text": node[2]}
    if procedure == READ:
        return reply | read_reply(node, call)
    if procedure == WRITE:
        return reply | {"count": len(call["data"]), "level": call["level"], "verifier": book.era}
    if procedure in (CREATE, MKDIR, SYMLINK):
        return reply | {"handle": made_handle(book, number, call)}
    if procedure in (READDIR, READDIRPLUS):
        return listing(book, call)
    if procedure == COMMIT:
        return reply | {"verifier": book.era}
    assert procedure in (SETATTR, REMOVE, RMDIR, RENAME)
    return reply


def optional_attributes(book: Book, number: int, call: dict, reply: dict) -> dict:
    """The attributes that a reply carries under the strict profile: of each object that stands (docs/SERVER.md)."""
    before, own = book.sight(), book.object_of(number)
    after = Sight(outcome(before, own, call, reply), before.made | {own})
    nodes = told_nodes(before, after, call, reply["status"])
    return {name: attributes_ahead(node) if name.startswith("before") else attributes(node)
            for name, node in nodes.items() if node is not None}


def reply_to(book: Book, number: int, call: dict) -> dict:
    """The reply to call `number` where the book is now."""
    reply = bare_reply(book, number, call)
    return reply | optional_attributes(book, number, call, reply) if book.opening.strict else reply


def bare_reply(book: Book, number: int, call: dict) -> dict:
    """The same without the attributes that are optional."""
    sight, procedure = book.sight(), call["procedure"]
    if procedure == SYMLINK and len(call["text"]) > TRANSFER_LIMIT:
        return {"procedure": procedure, "status": NAMETOOLONG}
    if allows(sight, call):
        return success(book, number, call)
    held = causes(sight, call)
    return {"procedure": procedure, "status": held[0][1] if held else NOSPC}
