"""Replies that a server may not give, each kind with the procedures that it is of. The model says which of them are wrong
where they are given: some are not, where the tree is as it happens to be."""
from books.book import Book
from books.calls import Calls, PLAIN_NAMES
from books.tree import CAUSED, EXCUSED, NAMETOOLONG, TOOSMALL, allows, created, handle_of, permitted
from books.wire import (
    COMMIT, CREATE, GETATTR, JUDGED, LOOKUP, MKDIR, READ, READDIR, READDIRPLUS, READLINK, REMOVE, RENAME, RMDIR,
    SETATTR, SYMLINK, WRITE,
)


def of_other_procedure(calls: Calls, book: Book, number: int, call: dict) -> dict | None:
    if allows(book.sight(), call) and calls.chance(70):
        return None
    other = calls.dice.choice([procedure for procedure in JUDGED if procedure != call["procedure"]])
    return {"procedure": other, "status": calls.dice.choice(EXCUSED)}


def success_of_other_procedure(calls: Calls, book: Book, number: int, call: dict) -> dict:
    alike = {SETATTR: REMOVE, REMOVE: RMDIR, RMDIR: REMOVE, RENAME: REMOVE}[call["procedure"]]
    return {"procedure": alike, "status": 0}


def success_for_failure(calls: Calls, book: Book, number: int, call: dict) -> dict | None:
    if allows(book.sight(), call):
        return None
    reply = {"procedure": call["procedure"], "status": 0}
    reply |= {"attributes": [1] + [0] * 20, "text": b"a", "data": b"", "eof": 1, "entries": [], "verifier": book.era}
    reply |= {"count": len(call.get("data", b"")), "level": call.get("level", 0)}
    reply["handle"] = handle_of(book.object_of(number))
    if call["procedure"] in (READ, READDIR, READDIRPLUS):
        del reply["count"]
    return reply


def failure_for_success(calls: Calls, book: Book, number: int, call: dict) -> dict | None:
    """A judged failure that has a cause, where a success is possible."""
    judged = sorted(permitted(book.sight(), call) - {TOOSMALL})
    if not judged or not allows(book.sight(), call):
        return None
    return calls.failure(book, number, call, calls.dice.choice(judged))


def excused_for_success(calls: Calls, book: Book, number: int, call: dict) -> dict | None:
    return calls.failure(book, number, call, calls.dice.choice(EXCUSED)) if allows(book.sight(), call) else None


def judged_without_cause(calls: Calls, book: Book, number: int, call: dict) -> dict | None:
    """A judged failure that no cause permits, where no success is possible."""
    if allows(book.sight(), call):
        return None
    return calls.failure(book, number, call, calls.dice.choice(sorted(CAUSED - permitted(book.sight(), call))))


def too_small(calls: Calls, book: Book, number: int, call: dict) -> dict:
    return calls.failure(book, number, call, NAMETOOLONG if call["procedure"] in (SYMLINK, READDIR) else TOOSMALL)


def changed(change):
    """A success that is right but for one change."""
    def make(calls: Calls, book: Book, number: int, call: dict) -> dict | None:
        if not allows(book.sight(), call):
            return None
        return change(calls, book, call, calls.success(book, number, call))
    return make


def other_type(calls, book, call, reply):
    kind = calls.dice.choice([kind for kind in (1, 2, 3, 5, 7) if kind != reply["attributes"][0]])
    return reply | {"attributes": [kind, *reply["attributes"][1:]]}


def other_size(calls, book, call, reply):
    words = list(reply["attributes"])
    words[calls.dice.choice((5, 6))] += 1
    return reply | {"attributes": words}


def other_handle(calls, book, call, reply):
    wrong = [book.object_of(len(book.calls)), book.object_of(len(book.calls) + 1), *sorted(book.made)[-9:], 0]
    return reply | {"handle": calls.dice.choice([handle_of(number) for number in wrong] + [b"", b"odd"])}


def other_handle_there(calls, book, call, reply):
    return None if created(book.sight(), call) == "new" else other_handle(calls, book, call, reply)


def other_text(calls, book, call, reply):
    return reply | {"text": reply["text"] + b"x" if calls.chance(50) else reply["text"][1:]}


def other_data(calls, book, call, reply):
    return reply | {"data": bytes(byte ^ 1 for byte in reply["data"])}


def more_data(calls, book, call, reply):
    return reply | {"data": reply["data"] + b"x"}


def less_data(calls, book, call, reply):
    return reply | {"data": reply["data"][:-1], "eof": 0} if reply["data"] else None


def other_end(calls, book, call, reply):
    return reply | {"eof": 1 - reply["eof"]}


def other_count(calls, book, call, reply):
    count = reply.get("count", len(reply.get("data", b"")))
    return reply | {"count": count + 1}


def less_written(calls, book, call, reply):
    return reply | {"count": reply["count"] - 1} if reply["count"] else None


def lower_level(calls, book, call, reply):
    return reply | {"level": call["level"] - 1} if call["level"] else None


def other_verifier(calls, book, call, reply):
    return reply | {"verifier": calls.dice.choice((0, book.era - 1, book.era + 1, book.era << 32))}


def listed_twice(calls, book, call, reply):
    return reply | {"entries": reply["entries"] + reply["entries"][:1]}


def listed_absent(calls, book, call, reply):
    name = calls.dice.choice(PLAIN_NAMES)
    return reply | {"entries": reply["entries"] + [{"name": name, "fileid": 1, "cookie": 99, "handle": None}]}


def listed_less(calls, book, call, reply):
    return reply | {"entries": reply["entries"][1:], "eof": 1}


def listed_other_handle(calls, book, call, reply):
    handle = calls.dice.choice((handle_of(0), b"", handle_of(book.object_of(len(book.calls) + 9))))
    return reply | {"entries": [entry | {"handle": handle} for entry in reply["entries"]]}


def changed_attributes(name: str, change, is_success: bool = True):
    """A success, or a failure, that is right, also in its attributes, but for one of these."""
    def make(calls: Calls, book: Book, number: int, call: dict) -> dict | None:
        reply = calls.right_reply(book, number, call)
        attributes = reply.get(name)
        if attributes is None or (reply["status"] == 0) != is_success:
            return None
        return reply | {name: change(calls, attributes)}
    return make


def changed_entry(change):
    """A list that is right but for the attributes of an entry."""
    def make(calls: Calls, book: Book, number: int, call: dict) -> dict | None:
        reply = calls.right_reply(book, number, call)
        told = [at for at, entry in enumerate(reply.get("entries", ())) if entry.get("attributes") is not None]
        if not told:
            return None
        entries, at = list(reply["entries"]), calls.dice.choice(told)
        entries[at] = entries[at] | {"attributes": change(calls, entries[at]["attributes"])}
        return reply | {"entries": entries}
    return make


def type_told(calls: Calls, attributes: list[int]) -> list[int]:
    return [calls.dice.choice([kind for kind in (1, 2, 5, 3, 7) if kind != attributes[0]]), *attributes[1:]]


def size_told(calls: Calls, attributes: list[int]) -> list[int]:
    return increased(attributes, calls.dice.choice((5, 6)))


def size_told_ahead(calls: Calls, attributes: list[int]) -> list[int]:
    return increased(attributes, calls.dice.choice((0, 1)))


def increased(attributes: list[int], at: int) -> list[int]:
    return [word + (place == at) for place, word in enumerate(attributes)]


ALL = JUDGED
LISTS = (READDIR, READDIRPLUS)
MAKERS = (CREATE, MKDIR, SYMLINK)
KINDS = {
    "of another procedure": (of_other_procedure, ALL),
    "success of another procedure": (success_of_other_procedure, (SETATTR, REMOVE, RMDIR, RENAME)),
    "success for a failure": (success_for_failure, ALL),
    "success for a failure to make": (success_for_failure, MAKERS),
    "success for a failure to remove": (success_for_failure, (REMOVE, RMDIR, RENAME)),
    "success for a failure to look": (success_for_failure, (LOOKUP, READDIR, READDIRPLUS)),
    "success for a failure to create": (success_for_failure, (CREATE,)),
    "success for a failure of data": (success_for_failure, (READ, WRITE, COMMIT, SETATTR)),
    "permitted failure for a success": (failure_for_success, (SETATTR, READDIR, READDIRPLUS)),
    "permitted failure of an exclusive CREATE": (failure_for_success, (CREATE,)),
    "excused failure for a success": (excused_for_success, ALL),
    "judged failure without a cause": (judged_without_cause, ALL),
    "judged failure of a name without a cause": (judged_without_cause, (LOOKUP, CREATE, REMOVE, RMDIR, RENAME)),
    "too small or too long": (too_small, (READ, READLINK, SYMLINK, READDIR)),
    "another type": (changed(other_type), (GETATTR,)),
    "another size": (changed(other_size), (GETATTR,)),
    "another handle": (changed(other_handle), (LOOKUP,)),
    "another handle of what is made": (changed(other_handle), MAKERS),
    "another handle of what is there": (changed(other_handle_there), (CREATE,)),
    "another text": (changed(other_text), (READLINK,)),
    "other bytes": (changed(other_data), (READ,)),
    "more bytes": (changed(more_data), (READ,)),
    "fewer bytes": (changed(less_data), (READ,)),
    "another end of file": (changed(other_end), (READ,)),
    "another count of bytes": (changed(other_count), (READ,)),
    "fewer bytes written": (changed(less_written), (WRITE,)),
    "more bytes written": (changed(other_count), (WRITE,)),
    "a lower level": (changed(lower_level), (WRITE,)),
    "another verifier of a WRITE": (changed(other_verifier), (WRITE,)),
    "another verifier of a COMMIT": (changed(other_verifier), (COMMIT,)),
    "a name twice": (changed(listed_twice), LISTS),
    "an absent name": (changed(listed_absent), LISTS),
    "a name left out": (changed(listed_less), LISTS),
    "another handle in a list": (changed(listed_other_handle), (READDIRPLUS,)),
}
# These are wrong under the strict profile alone.
STRICT_KINDS = {
    "another type of what was looked at": (changed_attributes("after", type_told), (LOOKUP, READLINK, READ, *LISTS)),
    "another type of what was changed": (changed_attributes("after", type_told), (SETATTR, WRITE, COMMIT)),
    "another type of a directory": (changed_attributes("after", type_told), (*MAKERS, REMOVE, RMDIR, RENAME)),
    "another type in a failure": (changed_attributes("after", type_told, False), [it for it in ALL if it != GETATTR]),
    "another size of what was read": (changed_attributes("after", size_told), (READ,)),
    "another size of what was changed": (changed_attributes("after", size_told), (SETATTR, WRITE, COMMIT)),
    "another size ahead": (changed_attributes("before", size_told_ahead), (SETATTR, WRITE, COMMIT)),
    "a found object of another type": (changed_attributes("object", type_told), (LOOKUP,)),
    "a found object of another size": (changed_attributes("object", size_told), (LOOKUP,)),
    "a made object of another type": (changed_attributes("object", type_told), MAKERS),
    "a made object of another size": (changed_attributes("object", size_told), (CREATE,)),
    "a second directory of another type": (changed_attributes("after_to", type_told), (RENAME,)),
    "an entry of another type": (changed_entry(type_told), (READDIRPLUS,)),
    "an entry of another size": (changed_entry(size_told), (READDIRPLUS,)),
}
ALL_KINDS = {**KINDS, **STRICT_KINDS}


def kinds_of(book: Book) -> list[str]:
    """The kinds of replies that a book refuses."""
    return list(ALL_KINDS if book.opening.strict else KINDS)


def wrong_reply(calls: Calls, book: Book, kind: str, number: int, call: dict) -> dict | None:
    """A reply of this kind to a call that began, where it is wrong."""
    make, procedures = ALL_KINDS[kind]
    if call["procedure"] not in procedures:
        return None
    reply = make(calls, book, number, call)
    if reply is None or book.next_tree(book.begun(number), reply) is not None:
        return None
    return reply
