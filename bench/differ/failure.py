"""Which failures a call may answer at a tree. Ten statuses are judged: each needs one of its causes. Every other failure may always be answered.

That a success would be possible too doesn't matter.
"""
from . import layouts as nfs
from .success import Try
from .trees import below, is_plain

JUDGED_STATUSES = {nfs.STATUSES[name] for name in (
    "NOENT", "EXIST", "NOTDIR", "ISDIR", "NOTEMPTY", "STALE", "BADHANDLE", "NOT_SYNC", "BAD_COOKIE", "TOOSMALL")}
EXCUSED_STATUSES = set(nfs.STATUS_NAMES) - JUDGED_STATUSES - {0}

HANDLE_FIELDS = {
    **{procedure: ["object"] for procedure in (nfs.GETATTR, nfs.SETATTR, nfs.READLINK, nfs.READ, nfs.WRITE, nfs.COMMIT)},
    **{procedure: ["dir"] for procedure in (nfs.LOOKUP, nfs.CREATE, nfs.MKDIR, nfs.SYMLINK, nfs.REMOVE, nfs.RMDIR, nfs.READDIR, nfs.READDIRPLUS)},
    nfs.RENAME: ["dir", "to_dir"],
}
NAME_FIELDS = {
    **{procedure: ["name"] for procedure in (nfs.LOOKUP, nfs.CREATE, nfs.MKDIR, nfs.SYMLINK, nfs.REMOVE, nfs.RMDIR)},
    nfs.RENAME: ["name", "to_name"],
}


def handle_causes(one, procedure):
    """A handle that names nothing that stands; a handle of no directory where one is wanted; data asked of a directory."""
    for field in HANDLE_FIELDS[procedure]:
        node = one.node(field)
        if node is None:
            yield from ("STALE", "BADHANDLE")
        elif field in ("dir", "to_dir"):
            if not node.is_directory:
                yield "NOTDIR"
        elif node.is_directory and (procedure in (nfs.READ, nfs.WRITE, nfs.COMMIT) or
                                    (procedure == nfs.SETATTR and one.arguments["new"]["size"] is not None)):
            yield "ISDIR"


def entry_at(one, dir_field="dir", name_field="name"):
    """Whether the directory is live, and the entry of the name in it. `.`, `..` and the empty name are no entries."""
    target = one.target(dir_field, name_field)
    return target is not None, one.tree.get(target) if target and is_plain(target[-1]) else None


def name_causes(one, procedure):
    """What stands, or doesn't stand, under the name."""
    is_live, node = entry_at(one)
    if not is_live:
        return
    if procedure in (nfs.LOOKUP, nfs.REMOVE, nfs.RMDIR, nfs.RENAME) and node is None:
        yield "NOENT"
    if node is None:
        return
    if procedure in (nfs.MKDIR, nfs.SYMLINK):
        yield "EXIST"
    if procedure == nfs.CREATE:
        is_unchecked = one.arguments["how"][0] == nfs.UNCHECKED
        if not (is_unchecked and node.is_file):
            yield "EXIST"
        if is_unchecked and node.is_directory:
            yield "ISDIR"
    if procedure == nfs.REMOVE and node.is_directory:
        yield "ISDIR"
    if procedure == nfs.RMDIR and not node.is_directory:
        yield "NOTDIR"
    if procedure == nfs.RMDIR and node.is_directory and below(one.tree, one.target()):
        yield from ("NOTEMPTY", "EXIST")


def rename_causes(one):
    """A RENAME of an entry onto another one."""
    _, source = entry_at(one)
    _, there = entry_at(one, "to_dir", "to_name")
    if source is None or there is None:
        return
    if source.is_directory and not there.is_directory:
        yield from ("EXIST", "NOTDIR")
    if not source.is_directory and there.is_directory:
        yield from ("EXIST", "ISDIR")
    if source.object != there.object and there.is_directory and below(one.tree, one.target("to_dir", "to_name")):
        yield from ("NOTEMPTY", "EXIST")


def request_causes(one, procedure):
    """What the arguments alone permit, whatever the handle names: a name that isn't plain, a guard, a cookie, a list."""
    if any(not is_plain(one.arguments[field]) for field in NAME_FIELDS.get(procedure, [])):
        yield from ("EXIST", "NOENT", "ISDIR", "NOTEMPTY")
    if procedure == nfs.SETATTR and one.arguments["guard"] is not None:
        yield "NOT_SYNC"
    if procedure in (nfs.READDIR, nfs.READDIRPLUS):
        yield "TOOSMALL"
        if one.arguments["cookie"] != 0:
            yield "BAD_COOKIE"


def permitted(binds, tree, procedure, call_arguments) -> set:
    """The judged statuses that stand beside a cause."""
    one = Try(binds, tree, None, call_arguments, None)
    names = {*handle_causes(one, procedure), *request_causes(one, procedure)}
    if procedure in NAME_FIELDS:
        names |= {*name_causes(one, procedure)}
    if procedure == nfs.RENAME:
        names |= {*rename_causes(one)}
    return {nfs.STATUSES[name] for name in names}


def may_fail(binds, tree, procedure, call_arguments, status: int) -> bool:
    return status in EXCUSED_STATUSES or status in permitted(binds, tree, procedure, call_arguments)
