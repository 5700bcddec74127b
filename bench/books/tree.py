"""The tree of a server: what a success does to it, which failures it permits, and how it is printed.

It is written from the rules in docs/PROFILE.md and docs/FORMATS.md, apart from the crates' code.
"""
from books.starts import DIRECTORY, FILE, LINK
from books.wire import (
    COMMIT, CREATE, EXCLUSIVE, GETATTR, GUARDED, LOOKUP, MKDIR, READ, READDIR, READDIRPLUS, READLINK, REMOVE, RENAME,
    RMDIR, SETATTR, SYMLINK, UNCHECKED, WRITE, long, opaque, words,
)

FILE_LIMIT = 16_777_216
TRANSFER_LIMIT = 1_048_576
ROOT = bytes(8)

PERM, NOENT, IO, NXIO, ACCES, EXIST, XDEV, NODEV, NOTDIR, ISDIR, INVAL = 1, 2, 5, 6, 13, 17, 18, 19, 20, 21, 22
FBIG, NOSPC, ROFS, MLINK, NAMETOOLONG, NOTEMPTY, DQUOT, STALE, REMOTE = 27, 28, 30, 31, 63, 66, 69, 70, 71
BADHANDLE, NOT_SYNC, BAD_COOKIE, NOTSUPP, TOOSMALL = 10001, 10002, 10003, 10004, 10005
SERVERFAULT, BADTYPE, JUKEBOX = 10006, 10007, 10008
CAUSED = {NOENT, EXIST, NOTDIR, ISDIR, NOTEMPTY, STALE, BADHANDLE, NOT_SYNC, BAD_COOKIE, TOOSMALL}
EXCUSED = (PERM, IO, NXIO, ACCES, XDEV, NODEV, INVAL, FBIG, NOSPC, ROFS, MLINK, NAMETOOLONG, DQUOT, REMOTE,
           NOTSUPP, SERVERFAULT, BADTYPE, JUKEBOX)

NAMED = (LOOKUP, CREATE, MKDIR, SYMLINK, REMOVE, RMDIR, RENAME)


class Tree:
    """A map from paths, which are tuples of names, to nodes (object, kind, content, create verifier)."""

    def __init__(self, nodes: dict):
        self.nodes = nodes
        self.paths = {node[0]: path for path, node in nodes.items()}

    def entry(self, directory: tuple, name: bytes):
        return self.nodes.get(directory + (name,))

    def node(self, number: int | None):
        """The node of an object, where it stands."""
        path = self.paths.get(number)
        return None if path is None else self.nodes[path]

    def names_in(self, directory: tuple) -> list[bytes]:
        depth = len(directory)
        return [path[-1] for path in self.nodes if len(path) == depth + 1 and path[:depth] == directory]

    def put(self, path: tuple, node: tuple) -> "Tree":
        return Tree({**self.nodes, path: node})

    def without(self, path: tuple) -> "Tree":
        return Tree({other: node for other, node in self.nodes.items() if other != path})

    def moved(self, old: tuple, new: tuple) -> "Tree":
        nodes, depth = {}, len(old)
        for path, node in self.nodes.items():
            if path[:depth] == old:
                nodes[new + path[depth:]] = node
            elif path != new:
                nodes[path] = node
        return Tree(nodes)

    def printed(self) -> bytes:
        out = [words(len(self.nodes))]
        for path in sorted(self.nodes):
            number, kind, content, verifier = self.nodes[path]
            out.append(words(len(path)))
            out.extend(opaque(name) for name in path)
            out.append(long(number) + words(kind))
            if kind == FILE:
                out.append(opaque(content) + (words(0) if verifier is None else words(1) + long(verifier)))
            elif kind == LINK:
                out.append(opaque(content))
        return b"".join(out)


def opening_tree(start: tuple) -> Tree:
    """The root, and what a server held at first."""
    nodes, paths = {(): (0, DIRECTORY, b"", None)}, [()]
    for number, (directory, name, kind, content) in enumerate(start, 1):
        paths.append(paths[directory] + (name,))
        nodes[paths[number]] = (number, kind, content, None)
    return Tree(nodes)


def is_plain(name: bytes) -> bool:
    return name not in (b"", b".", b"..")


def handle_of(number: int) -> bytes:
    return long(number)


class Sight:
    """A tree, and the objects that have a handle."""

    def __init__(self, tree: Tree, made: set[int]):
        self.tree, self.made = tree, made

    def object_of(self, handle: bytes) -> int | None:
        if handle == ROOT:
            return 0
        if len(handle) == 8 and int.from_bytes(handle, "big") in self.made:
            return int.from_bytes(handle, "big")
        return None

    def path_of(self, handle: bytes) -> tuple | None:
        return self.tree.paths.get(self.object_of(handle))

    def node_of(self, handle: bytes):
        path = self.path_of(handle)
        return None if path is None else self.tree.nodes[path]

    def directory_of(self, handle: bytes) -> tuple | None:
        """The path of the directory that a handle names."""
        path = self.path_of(handle)
        return path if path is not None and self.tree.nodes[path][1] == DIRECTORY else None

    def found(self, directory: tuple, name: bytes):
        """What a LOOKUP of the name finds: its object."""
        if name == b".":
            return self.tree.nodes[directory][0]
        if name == b"..":
            return self.tree.nodes[directory[:-1]][0]
        node = self.tree.entry(directory, name)
        return None if node is None else node[0]


def resized(content: bytes, size: int) -> bytes:
    return content[:size] + bytes(max(0, size - len(content)))


def written(content: bytes, offset: int, data: bytes) -> bytes:
    if not data:
        return content
    front = resized(content, max(len(content), offset + len(data)))
    return front[:offset] + data + front[offset + len(data):]


def asked_bytes(content: bytes, call: dict) -> bytes:
    return content[call["offset"]:call["offset"] + call["count"]]


def rename_paths(sight: Sight, call: dict):
    """The paths from and to which a RENAME moves, where it may succeed."""
    source, target = sight.directory_of(call["handle"]), sight.directory_of(call["to_handle"])
    if source is None or target is None or not is_plain(call["name"]) or not is_plain(call["to_name"]):
        return None
    old, new = source + (call["name"],), target + (call["to_name"],)
    nodes = sight.tree.nodes
    if old not in nodes:
        return None
    if old == new:
        return old, new
    if new[:len(old)] == old:
        return None
    if new in nodes:
        if (nodes[old][1] == DIRECTORY) != (nodes[new][1] == DIRECTORY):
            return None
        if nodes[new][1] == DIRECTORY and sight.tree.names_in(new):
            return None
    return old, new


def created(sight: Sight, call: dict) -> str | None:
    """How a CREATE may succeed: "new", or "size" or "same" of a file that is there."""
    directory = sight.directory_of(call["handle"])
    if directory is None or not is_plain(call["name"]):
        return None
    node = sight.tree.entry(directory, call["name"])
    if node is None:
        return "new"
    if node[1] != FILE:
        return None
    if call["mode"] == UNCHECKED:
        return "size"
    return "same" if call["mode"] == EXCLUSIVE and node[3] == call["verifier"] else None


def allows(sight: Sight, call: dict) -> bool:
    """Whether some success of the call has a next tree."""
    procedure, handle = call["procedure"], call["handle"]
    node = sight.node_of(handle)
    if procedure == GETATTR:
        return node is not None
    if procedure == SETATTR:
        return node is not None and (call["size"] is None or node[1] == FILE)
    if procedure == READLINK:
        return node is not None and node[1] == LINK
    if procedure in (READ, WRITE, COMMIT):
        return node is not None and node[1] == FILE
    directory = sight.directory_of(handle)
    if procedure in (READDIR, READDIRPLUS):
        return directory is not None
    if directory is None:
        return False
    name = call["name"]
    if procedure == LOOKUP:
        return sight.found(directory, name) is not None
    if procedure == CREATE:
        return created(sight, call) is not None
    entry = sight.tree.entry(directory, name)
    if procedure in (MKDIR, SYMLINK):
        return is_plain(name) and entry is None
    if procedure == REMOVE:
        return entry is not None and entry[1] != DIRECTORY
    if procedure == RMDIR:
        return entry is not None and entry[1] == DIRECTORY and not sight.tree.names_in(directory + (name,))
    assert procedure == RENAME
    return rename_paths(sight, call) is not None


def next_listing(sight: Sight, call: dict, reply: dict) -> Tree | None:
    directory = sight.directory_of(call["handle"])
    if directory is None:
        return None
    listed = [entry["name"] for entry in reply["entries"]]
    names = sight.tree.names_in(directory)
    if len(set(listed)) != len(listed) or not set(listed) <= {b".", b"..", *names}:
        return None
    if call["cookie"] == 0 and reply["eof"] and not set(names) <= set(listed):
        return None
    if call["procedure"] == READDIRPLUS:
        for entry in reply["entries"]:
            if entry["name"] in (b".", b"..") or entry["handle"] is None:
                continue
            if sight.object_of(entry["handle"]) != sight.tree.entry(directory, entry["name"])[0]:
                return None
    return sight.tree


def next_looked(sight: Sight, call: dict, reply: dict) -> Tree | None:
    """The next tree of a success that changes nothing."""
    procedure, tree = call["procedure"], sight.tree
    if procedure in (READDIR, READDIRPLUS):
        return next_listing(sight, call, reply)
    if not allows(sight, call):
        return None
    node = sight.node_of(call["handle"])
    if procedure == GETATTR:
        size = int.from_bytes(words(*reply["attributes"][5:7]), "big")
        fits = reply["attributes"][0] == node[1] and (node[1] != FILE or size == len(node[2]))
    elif procedure == LOOKUP:
        found = sight.found(sight.directory_of(call["handle"]), call["name"])
        fits = sight.object_of(reply["handle"]) == found
    elif procedure == READLINK:
        fits = reply["text"] == node[2]
    elif procedure == READ:
        data, size = reply["data"], len(node[2])
        count = reply.get("count", len(data))
        fits = (count == len(data) <= call["count"]
                and data == node[2][call["offset"]:call["offset"] + len(data)]
                and bool(reply["eof"]) == (call["offset"] + len(data) >= size))
    else:
        assert procedure == COMMIT
        fits = True
    return tree if fits else None


def next_created(sight: Sight, number: int, call: dict, reply: dict):
    how = created(sight, call)
    if how is None:
        return None
    path = sight.directory_of(call["handle"]) + (call["name"],)
    if how == "new":
        content = b"" if call["mode"] == EXCLUSIVE or call["size"] is None else bytes(call["size"])
        verifier = call["verifier"] if call["mode"] == EXCLUSIVE else None
        return next_made(sight, number, path, (number, FILE, content, verifier), reply)
    held, kind, content, verifier = sight.tree.nodes[path]
    if reply["handle"] is not None and sight.object_of(reply["handle"]) != held:
        return None
    if how == "size" and call["size"] is not None:
        content = resized(content, call["size"])
    return sight.tree.put(path, (held, kind, content, verifier))


def next_made(sight: Sight, number: int, path: tuple, node: tuple, reply: dict):
    bound = Sight(sight.tree, sight.made | {number})
    if reply["handle"] is not None and bound.object_of(reply["handle"]) != number:
        return None
    return sight.tree.put(path, node)


def next_tree(sight: Sight, number: int, call: dict, reply: dict) -> Tree | None:
    """The tree behind a success of a call, where it has one. What the call makes has this number."""
    procedure, tree = call["procedure"], sight.tree
    if procedure in (GETATTR, LOOKUP, READLINK, READ, READDIR, READDIRPLUS, COMMIT):
        return next_looked(sight, call, reply)
    if not allows(sight, call):
        return None
    if procedure == CREATE:
        return next_created(sight, number, call, reply)
    path = sight.path_of(call["handle"])
    if procedure == SETATTR:
        held, kind, content, verifier = tree.nodes[path]
        if call["size"] is None:
            return tree
        return tree.put(path, (held, kind, resized(content, call["size"]), verifier))
    if procedure == WRITE:
        held, kind, content, verifier = tree.nodes[path]
        count = reply["count"]
        if count > len(call["data"]) or reply["level"] < call["level"]:
            return None
        return tree.put(path, (held, kind, written(content, call["offset"], call["data"][:count]), verifier))
    if procedure == RENAME:
        old, new = rename_paths(sight, call)
        return tree if old == new else tree.moved(old, new)
    path += (call["name"],)
    if procedure == MKDIR:
        return next_made(sight, number, path, (number, DIRECTORY, b"", None), reply)
    if procedure == SYMLINK:
        return next_made(sight, number, path, (number, LINK, call["text"], None), reply)
    assert procedure in (REMOVE, RMDIR)
    return tree.without(path)


def causes_of_handles(sight: Sight, call: dict) -> set[int]:
    handles = [call["handle"]] + ([call["to_handle"]] if call["procedure"] == RENAME else [])
    live = [handle for handle in handles if sight.node_of(handle) is not None]
    out = {STALE, BADHANDLE} if len(live) < len(handles) else set()
    if call["procedure"] in NAMED + (READDIR, READDIRPLUS):
        if any(sight.directory_of(handle) is None for handle in live):
            out |= {NOTDIR}
    node = sight.node_of(call["handle"])
    of_data = call["procedure"] in (READ, WRITE, COMMIT) or (call["procedure"] == SETATTR and call["size"] is not None)
    if of_data and node is not None and node[1] == DIRECTORY:
        out |= {ISDIR, INVAL}
    return out


def causes_of_present(call: dict, entry: tuple, is_empty: bool) -> set[int]:
    """What permits a failure where the first name is an entry."""
    procedure, is_directory = call["procedure"], entry[1] == DIRECTORY
    out = set()
    if procedure in (MKDIR, SYMLINK):
        out |= {EXIST}
    if procedure == CREATE:
        if call["mode"] in (GUARDED, EXCLUSIVE) or entry[1] != FILE:
            out |= {EXIST}
        if call["mode"] == UNCHECKED and is_directory:
            out |= {ISDIR}
    if procedure == REMOVE and is_directory:
        out |= {ISDIR, INVAL}
    if procedure == RMDIR:
        if not is_directory:
            out |= {NOTDIR}
        elif not is_empty:
            out |= {NOTEMPTY, EXIST}
    return out


def causes_of_rename(sight: Sight, call: dict, source: tuple, entry: tuple) -> set[int]:
    """What permits a failure of a RENAME whose source is an entry."""
    target = sight.directory_of(call["to_handle"])
    if target is None:
        return set()
    old, new = source + (call["name"],), target + (call["to_name"],)
    out = set()
    other = sight.tree.nodes.get(new)
    if other is not None:
        if entry[1] == DIRECTORY != other[1]:
            out |= {EXIST, NOTDIR}
        if entry[1] != DIRECTORY == other[1]:
            out |= {EXIST, ISDIR}
        if other[1] == DIRECTORY and old != new and sight.tree.names_in(new):
            out |= {NOTEMPTY, EXIST}
    if entry[1] == DIRECTORY and old != new and new[:len(old)] == old:
        out |= {INVAL}
    return out


def permitted(sight: Sight, call: dict) -> set[int]:
    """The judged statuses that stand beside a cause that holds."""
    procedure = call["procedure"]
    out = causes_of_handles(sight, call)
    directory = sight.directory_of(call["handle"])
    if procedure in NAMED:
        names = [call["name"]] + ([call["to_name"]] if procedure == RENAME else [])
        if any(not is_plain(name) for name in names):
            out |= {INVAL, EXIST, NOENT, ISDIR, NOTEMPTY}
        if directory is not None:
            entry = sight.tree.entry(directory, call["name"])
            if entry is None:
                if procedure in (LOOKUP, REMOVE, RMDIR, RENAME):
                    out |= {NOENT}
            else:
                out |= causes_of_present(call, entry, not sight.tree.names_in(directory + (call["name"],)))
                if procedure == RENAME:
                    out |= causes_of_rename(sight, call, directory, entry)
    if procedure == SETATTR and call["guard"] is not None:
        out |= {NOT_SYNC}
    if procedure in (READDIR, READDIRPLUS):
        out |= {TOOSMALL} | ({BAD_COOKIE} if call["cookie"] != 0 else set())
    return out & CAUSED


def is_full(sight: Sight, call: dict, reply: dict) -> bool:
    """Whether a success counts all the data of a WRITE, and gives all that a READ asks for."""
    if call["procedure"] == WRITE:
        return reply["count"] == len(call["data"])
    if call["procedure"] == READ:
        return reply["data"] == asked_bytes(sight.node_of(call["handle"])[2], call)[:TRANSFER_LIMIT]
    return True


def is_free(call: dict, status: int) -> bool:
    """Whether a failure is served whatever else holds."""
    if call["procedure"] in (READDIR, READDIRPLUS):
        return status == TOOSMALL
    return call["procedure"] == SYMLINK and status == NAMETOOLONG and len(call["text"]) > TRANSFER_LIMIT


def outcome(sight: Sight, number: int, call: dict, reply: dict) -> Tree | None:
    """The tree behind a reply that a server may give here; none where it may not."""
    if reply["procedure"] != call["procedure"]:
        return None
    if reply["status"] == 0:
        after = next_tree(sight, number, call, reply)
        return after if after is not None and is_full(sight, call, reply) else None
    status = reply["status"]
    if status in CAUSED and status not in permitted(sight, call):
        return None
    return sight.tree if is_free(call, status) or not allows(sight, call) else None
