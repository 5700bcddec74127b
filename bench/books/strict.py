"""What the strict profile asks of the attributes that a reply carries (RFC 1813, section 2.6).

It is written from the rules in docs/PROFILE.md, apart from the crates' code. Attributes are lists of words: 21 behind a call (fattr3),
of which the first is the type and the sixth and seventh are the size, and six ahead of it (wcc_attr), which begin with the size.
"""
from books.starts import FILE
from books.tree import Sight, is_plain
from books.wire import COMMIT, CREATE, GETATTR, LOOKUP, MKDIR, MODIFYING, READDIRPLUS, RENAME, SYMLINK

WITH_WCC = (*MODIFYING, COMMIT)
MAKERS = (CREATE, MKDIR, SYMLINK)


def carried(procedure: int, status: int) -> list[str]:
    """The attributes that a reply may carry, by the names that they have here; those of entries aside."""
    names = [] if procedure == GETATTR else ["after"]
    if procedure in WITH_WCC:
        names.append("before")
    if procedure == RENAME:
        names += ["after_to", "before_to"]
    if status == 0 and procedure in (LOOKUP, *MAKERS):
        names.append("object")
    return names


def answer_node(sight: Sight, call: dict):
    """What a LOOKUP found, or what stands at the name of a CREATE, MKDIR or SYMLINK."""
    directory = sight.directory_of(call["handle"])
    if directory is None:
        return None
    if call["procedure"] == LOOKUP:
        return sight.tree.node(sight.found(directory, call["name"]))
    return sight.tree.entry(directory, call["name"]) if is_plain(call["name"]) else None


def told_nodes(before: Sight, after: Sight, call: dict, status: int) -> dict:
    """The node that each of the attributes tells of, where it stands."""
    handles = {"": call["handle"], "_to": call.get("to_handle")}
    nodes = {}
    for name in carried(call["procedure"], status):
        when, _, which = name.partition("_")
        if name == "object":
            nodes[name] = answer_node(after, call)
        else:
            sight = before if when == "before" else after
            nodes[name] = sight.node_of(handles["_" + which if which else ""])
    return nodes


def size_in(halves: list[int]) -> int:
    return (halves[0] << 32) + halves[1]


def fits(name: str, node: tuple | None, attributes: list[int] | None) -> bool:
    """Whether attributes are those of what stands. The sizes of directories and links are free."""
    if node is None or attributes is None:
        return True
    is_file, length = node[1] == FILE, len(node[2])
    if name.startswith("before"):
        return not is_file or size_in(attributes[:2]) == length
    return attributes[0] == node[1] and (not is_file or size_in(attributes[5:7]) == length)


def entries_fit(after: Sight, call: dict, reply: dict) -> bool:
    directory = after.directory_of(call["handle"])
    shown = [entry for entry in reply["entries"] if is_plain(entry["name"])]
    return all(fits("entry", after.tree.entry(directory, entry["name"]), entry.get("attributes")) for entry in shown)


def agrees(before: Sight, after: Sight, call: dict, reply: dict) -> bool:
    """Whether all attributes that a reply carries are those of the objects ahead of the call and behind it."""
    nodes = told_nodes(before, after, call, reply["status"])
    if not all(fits(name, node, reply.get(name)) for name, node in nodes.items()):
        return False
    return reply["procedure"] != READDIRPLUS or reply["status"] != 0 or entries_fit(after, call, reply)
