"""What each procedure does where it succeeds (RFC 1813, section 3.3). A rule gives the next tree, or None where the success can't be.

Attributes in replies aren't judged here, but for type and size in the reply of GETATTR; `strict` judges the others. `shown` is the reply; a call that is
taken as done without one shows nothing.
"""
from . import layouts as nfs
from .histories import SIZE_LIMIT
from .trees import (NODE_LIMIT, Node, below, entries_of, is_plain, moved, path_of, resized, with_node, without, written)


class Try:
    """One call at one tree. `number` is that of an object that it makes. `shown` is None for a call that is taken as done; `count` is then what a
    WRITE wrote."""

    def __init__(self, binds, tree, number, call_arguments, shown, count=None):
        self.binds, self.tree, self.number = binds, tree, number
        self.arguments, self.shown, self.count = call_arguments, shown, count

    def path(self, field: str):
        """Where the object of a handle stands, or None: the handle isn't live."""
        named = self.binds.object_of(self.arguments[field])
        return None if named is None else path_of(self.tree, named)

    def node(self, field: str, is_right=lambda node: True):
        path = self.path(field)
        if path is None or not is_right(self.tree[path]):
            return None
        return self.tree[path]

    def target(self, dir_field="dir", name_field="name"):
        """The path that a directory handle and a name lead to, or None where the handle is of no directory."""
        path = self.path(dir_field)
        if path is None or not self.tree[path].is_directory:
            return None
        return path + (self.arguments[name_field],)

    def shows(self, handle, node) -> bool:
        """A handle in a reply, if there is one, is that of the node."""
        return handle is None or self.binds.object_of(handle) == node.object

    def shows_made(self, node) -> bool:
        return self.shown is None or self.shows(self.shown["handle"], node)


def getattr_(one):
    node = one.node("object")
    if node is None or one.shown["attributes"]["type"] != node.kind:
        return None
    if node.is_file and one.shown["attributes"]["size"] != len(node.data):
        return None
    return one.tree


def setattr_(one):
    size, path = one.arguments["new"]["size"], one.path("object")
    if path is None or size is None:
        return None if path is None else one.tree
    node = one.tree[path]
    if not node.is_file or size > SIZE_LIMIT:
        return None
    return with_node(one.tree, path, node._replace(data=resized(node.data, size)))


def found(tree: dict, path: tuple):
    """What LOOKUP finds: `.` is the directory itself, `..` its parent, and the root is its own parent."""
    if path[-1] == b".":
        return tree[path[:-1]]
    if path[-1] == b"..":
        return tree[path[:-2]]
    return tree.get(path)


def lookup(one):
    target = one.target()
    node = found(one.tree, target) if target else None
    return one.tree if node and one.binds.object_of(one.shown["handle"]) == node.object else None


def readlink(one):
    node = one.node("object", lambda node: node.is_link)
    return one.tree if node and one.shown["text"] == node.data else None


def read(one):
    node = one.node("object", lambda node: node.is_file)
    if node is None:
        return None
    offset, count = one.arguments["offset"], one.shown["count"]
    if count != len(one.shown["data"]) or count > one.arguments["count"] or node.data[offset:offset + count] != one.shown["data"]:
        return None
    return one.tree if one.shown["eof"] == (offset + count >= len(node.data)) else None


def write(one):
    node = one.node("object", lambda node: node.is_file)
    if node is None:
        return None
    arguments, count = one.arguments, one.count
    if one.shown is not None:
        count = one.shown["count"]
        if one.shown["level"] < arguments["level"]:
            return None
    if count > min(arguments["count"], len(arguments["data"])):
        return None
    data = written(node.data, arguments["offset"], arguments["data"][:count]) if count == 0 or arguments["offset"] + count <= SIZE_LIMIT else None
    return None if data is None else with_node(one.tree, one.path("object"), node._replace(data=data))


def with_new(one, target: tuple, node):
    """The tree with a node that wasn't there. No node has its number yet."""
    if path_of(one.tree, one.number) is not None or len(one.tree) >= NODE_LIMIT:
        return None
    return with_node(one.tree, target, node) if one.shows_made(node) else None


def create(one):
    target, (mode, how) = one.target(), one.arguments["how"]
    if target is None or not is_plain(target[-1]):
        return None
    size = None if mode == nfs.EXCLUSIVE else how["size"]
    if (size or 0) > SIZE_LIMIT:
        return None
    there = one.tree.get(target)
    if there is None:
        return with_new(one, target, Node(one.number, nfs.REGULAR, bytes(size or 0), how if mode == nfs.EXCLUSIVE else None))
    if not there.is_file or not one.shows_made(there) or mode == nfs.GUARDED:
        return None
    if mode == nfs.EXCLUSIVE:
        return one.tree if there.verifier == how else None
    return one.tree if size is None else with_node(one.tree, target, there._replace(data=resized(there.data, size)))


def make(one, kind: int, text: bytes):
    target = one.target()
    if target is None or not is_plain(target[-1]) or target in one.tree:
        return None
    return with_new(one, target, Node(one.number, kind, text))


def mkdir(one):
    return make(one, nfs.DIRECTORY, b"")


def symlink(one):
    return make(one, nfs.LINK_TYPE, one.arguments["text"])


def remove(one):
    target = one.target()
    node = one.tree.get(target) if target else None
    return without(one.tree, target) if node and not node.is_directory else None


def rmdir(one):
    target = one.target()
    node = one.tree.get(target) if target else None
    return without(one.tree, target) if node and node.is_directory and not below(one.tree, target) else None


def rename(one):
    old, new = one.target(), one.target("to_dir", "to_name")
    if old is None or new is None or not is_plain(old[-1]) or not is_plain(new[-1]) or old not in one.tree:
        return None
    if old == new:
        return one.tree
    if new[:len(old)] == old:
        return None
    there = one.tree.get(new)
    if there and (there.is_directory != one.tree[old].is_directory or below(one.tree, new)):
        return None
    return moved(one.tree, old, new)


def listing(one):
    """No name twice, each an entry, `.` or `..`; a whole list from the start has every entry. Handles beside entries are judged."""
    path = one.path("dir")
    if path is None or not one.tree[path].is_directory:
        return None
    entries, names = entries_of(one.tree, path), [entry["name"] for entry in one.shown["entries"]]
    if len(set(names)) < len(names) or any(name not in entries and name not in (b".", b"..") for name in names):
        return None
    if one.arguments["cookie"] == 0 and one.shown["eof"] and not set(entries) <= set(names):
        return None
    for entry in one.shown["entries"]:
        if entry["name"] in entries and not one.shows(entry.get("handle"), entries[entry["name"]]):
            return None
    return one.tree


def commit(one):
    return one.tree if one.node("object", lambda node: node.is_file) else None


RULES = {
    nfs.GETATTR: getattr_, nfs.SETATTR: setattr_, nfs.LOOKUP: lookup, nfs.READLINK: readlink, nfs.READ: read, nfs.WRITE: write, nfs.CREATE: create,
    nfs.MKDIR: mkdir, nfs.SYMLINK: symlink, nfs.REMOVE: remove, nfs.RMDIR: rmdir, nfs.RENAME: rename, nfs.READDIR: listing, nfs.READDIRPLUS: listing,
    nfs.COMMIT: commit,
}


def after_success(binds, tree, number, procedure, call_arguments, shown):
    return RULES[procedure](Try(binds, tree, number, call_arguments, shown))


def after_taken(binds, tree, number, procedure, call_arguments, count):
    """A call that changes the tree, taken as done. A WRITE has the count of bytes that it wrote, another call has none."""
    if procedure not in nfs.MODIFYING or (count is None) == (procedure == nfs.WRITE):
        return None
    return RULES[procedure](Try(binds, tree, number, call_arguments, None, count))
