"""Servers whose replies are written by hand here, item by item as RFC 1813 (sections 2.5, 2.6 and 3.3) has them.

Each procedure succeeds and fails: for a handle that isn't live, after which no attributes come, and for one that is of another kind, whose attributes
come. The model has to say the same. A reply is a list of pieces. `before` and `after` are `pre_op_attr` and `post_op_attr`, which a strict server fills
and a plain one leaves out; a `word(0)` in their place is absent in both.
"""
from books.starts import DIRECTORY, FILE, LINK, Opening
from books.tree import handle_of
from books.wire import EXCLUSIVE, GUARDED, LOOKUP, READDIRPLUS, REMOVE, RMDIR, long, opaque, words
from servers.named import (
    ROOT, commit, create, follow, link, listing, make_directory, named, read, rename, resize, show, write,
)
from servers.run import Run
from servers.server import tell_reply

ERA = 3
# The calls that make the objects: the root's `d` and `e` are directories, its `f` is a file of seven bytes, its `l` a link of five, and `g` in `d` a
# file of three. The object that a call makes has the call's number.
D, E, F, L, G, NONE = map(handle_of, (1, 2, 3, 5, 6, 99))
OBJECTS = (
    make_directory(b"d"), make_directory(b"e"), create(b"f"), write(F, b"letters"), link(b"l", b"a/b/c"), create(b"g", D),
    write(G, b"abc"),
)
OK, NOENT, EXIST, NOTDIR, ISDIR, INVAL, NOTEMPTY, STALE, TOOSMALL = 0, 2, 17, 20, 21, 22, 66, 70, 10005


# A piece is a function from whether the server is strict to bytes.

def word(number: int):
    """A status, a count, a flag, or a level."""
    return lambda strict: words(number)


def double(number: int):
    """A verifier, a cookie, or a file's number."""
    return lambda strict: long(number)


def text(data: bytes):
    """Bytes after their length: a name, a text, or data."""
    return lambda strict: opaque(data)


def handle(number: int):
    return text(handle_of(number))


def attributes(kind: int, size: int, number: int):
    """`fattr3`: the type, the mode 0644, one link, no user and no group; the size; nothing in use, no device, no file system; the number, and three times."""
    return lambda strict: words(kind, 0o644, 1, 0, 0) + long(size) + bytes(24) + long(number) + bytes(24)


def before(size: int):
    """`pre_op_attr`: the size and two times."""
    return lambda strict: words(1) + long(size) + bytes(16) if strict else words(0)


def after(kind: int, size: int, number: int):
    """`post_op_attr`."""
    return lambda strict: words(1) + attributes(kind, size, number)(strict) if strict else words(0)


def changed(kind: int, size: int, number: int, earlier: int | None = None) -> tuple:
    """`wcc_data`: the size that was, which is the same if no other is said, and what is."""
    return before(size if earlier is None else earlier), after(kind, size, number)


def plus(directory: bytes, cookie: int = 0, most: int = 4096) -> dict:
    return {"procedure": READDIRPLUS, "handle": directory, "cookie": cookie, "verifier": 0, "count": most, "most": most}


FAILED = (word(STALE), word(0))
FAILED_CHANGE = (word(STALE), word(0), word(0))
IN_ROOT, IN_D = changed(DIRECTORY, 0, 0), changed(DIRECTORY, 0, 1)
AFTER_ROOT, AFTER_D = after(DIRECTORY, 0, 0), after(DIRECTORY, 0, 1)
AFTER_F, AFTER_L, AFTER_G = after(FILE, 7, 3), after(LINK, 5, 5), after(FILE, 3, 6)

# GETATTR, READLINK, READ and COMMIT of one object each.
OBJECT_LOOKS = (
    (show(ROOT), word(OK), attributes(DIRECTORY, 0, 0)),
    (show(F), word(OK), attributes(FILE, 7, 3)),
    (show(L), word(OK), attributes(LINK, 5, 5)),
    (show(NONE), word(STALE)),
    (follow(L), word(OK), AFTER_L, text(b"a/b/c")),
    (follow(F), word(INVAL), AFTER_F),
    (follow(NONE), *FAILED),
    (read(F, 2, 3), word(OK), AFTER_F, word(3), word(0), text(b"tte")),
    (read(D, 0, 1), word(ISDIR), AFTER_D),
    (read(L, 0, 1), word(INVAL), AFTER_L),
    (read(NONE, 0, 1), *FAILED),
    (commit(F), word(OK), before(7), AFTER_F, double(ERA)),
    (commit(L), word(INVAL), before(5), AFTER_L),
    (commit(NONE), *FAILED_CHANGE),
)
# LOOKUP of a name each.
NAME_LOOKS = (
    (named(LOOKUP, b"f"), word(OK), handle(3), AFTER_F, AFTER_ROOT),
    (named(LOOKUP, b"l"), word(OK), handle(5), AFTER_L, AFTER_ROOT),
    (named(LOOKUP, b"d"), word(OK), handle(1), AFTER_D, AFTER_ROOT),
    (named(LOOKUP, b"g", D), word(OK), handle(6), AFTER_G, AFTER_D),
    (named(LOOKUP, b".", D), word(OK), handle(1), AFTER_D, AFTER_D),
    (named(LOOKUP, b"..", D), word(OK), handle(0), AFTER_ROOT, AFTER_D),
    (named(LOOKUP, b".."), word(OK), handle(0), AFTER_ROOT, AFTER_ROOT),
    (named(LOOKUP, b"x", D), word(NOENT), AFTER_D),
    (named(LOOKUP, b"x", F), word(NOTDIR), AFTER_F),
    (named(LOOKUP, b"x", NONE), *FAILED),
)
ENTRY_F, ENTRY_L = (word(1), double(3), text(b"f"), double(3)), (word(1), double(5), text(b"l"), double(4))
# No attributes of an entry, and its handle.
PLUS_F, PLUS_L = (*ENTRY_F, word(0), word(1), handle(3)), (*ENTRY_L, word(0), word(1), handle(5))
# What is left of a list of which no name is left.
EMPTY = (double(0), word(0), word(1))
# Lists that are whole in both, and failures. A list to which no name is left is given whatever the bytes.
LISTS = (
    (listing(), word(OK), AFTER_ROOT, double(0), word(1), double(1), text(b"d"), double(1), word(1), double(2), text(b"e"), double(2),
     *ENTRY_F, *ENTRY_L, word(0), word(1)),
    (plus(D), word(OK), AFTER_D, double(0), word(1), double(6), text(b"g"), double(1), word(0), word(1), handle(6), word(0), word(1)),
    (listing(E, count=0), word(OK), after(DIRECTORY, 0, 2), *EMPTY),
    (plus(ROOT, 4, 0), word(OK), AFTER_ROOT, *EMPTY),
    (listing(F), word(NOTDIR), AFTER_F),
    (plus(L), word(NOTDIR), AFTER_L),
    (listing(NONE), *FAILED),
    (plus(NONE), *FAILED),
)
# The root's last two names, the first of them alone, and neither.
BOTH = (word(OK), AFTER_ROOT, double(0), *ENTRY_F, *ENTRY_L, word(0), word(1))
FIRST = (word(OK), AFTER_ROOT, double(0), *ENTRY_F, word(0), word(0))
NEITHER = (word(TOOSMALL), AFTER_ROOT)
BOTH_PLUS = (word(OK), AFTER_ROOT, double(0), *PLUS_F, *PLUS_L, word(0), word(1))
FIRST_PLUS = (word(OK), AFTER_ROOT, double(0), *PLUS_F, word(0), word(0))
# Without attributes a list takes 24 bytes, and an entry 28, or 48 with a handle. The directory's attributes take 84 bytes more.
PLAIN_ROOM = (
    (listing(ROOT, 2, 80), *BOTH), (listing(ROOT, 2, 79), *FIRST), (listing(ROOT, 2, 52), *FIRST), (listing(ROOT, 2, 51), *NEITHER),
    (plus(ROOT, 2, 120), *BOTH_PLUS), (plus(ROOT, 2, 119), *FIRST_PLUS), (plus(ROOT, 2, 72), *FIRST_PLUS), (plus(ROOT, 2, 71), *NEITHER),
)
STRICT_ROOM = (
    (listing(ROOT, 2, 164), *BOTH), (listing(ROOT, 2, 163), *FIRST), (listing(ROOT, 2, 136), *FIRST), (listing(ROOT, 2, 135), *NEITHER),
    (plus(ROOT, 2, 204), *BOTH_PLUS), (plus(ROOT, 2, 203), *FIRST_PLUS), (plus(ROOT, 2, 156), *FIRST_PLUS), (plus(ROOT, 2, 155), *NEITHER),
)
# SETATTR: the size before, and the size after.
SIZES = (
    (resize(F, 20), word(OK), *changed(FILE, 20, 3, 7)),
    (resize(F, 4), word(OK), *changed(FILE, 4, 3, 20)),
    (resize(F, None), word(OK), *changed(FILE, 4, 3)),
    (show(F), word(OK), attributes(FILE, 4, 3)),
    (resize(D, None), word(OK), *IN_D),
    (resize(L, None), word(OK), *changed(LINK, 5, 5)),
    (resize(D, 1), word(ISDIR), *IN_D),
    (resize(L, 1), word(INVAL), *changed(LINK, 5, 5)),
    (resize(NONE, 1), *FAILED_CHANGE),
)
# A WRITE within a file, over its end, after a gap, and of no bytes: the size before and after, the count, UNSTABLE, and the verifier.
WRITES = (
    (write(F, b"xy", 0, 1), word(OK), *changed(FILE, 7, 3), word(2), word(0), double(ERA)),
    (write(F, b"xyz", 0, 6), word(OK), *changed(FILE, 9, 3, 7), word(3), word(0), double(ERA)),
    (write(F, b"z", 0, 100), word(OK), *changed(FILE, 101, 3, 9), word(1), word(0), double(ERA)),
    (write(F, b"", 0, 1000), word(OK), *changed(FILE, 101, 3), word(0), word(0), double(ERA)),
    (show(F), word(OK), attributes(FILE, 101, 3)),
    (write(D, b"x"), word(ISDIR), *IN_D),
    (write(L, b"x"), word(INVAL), *changed(LINK, 5, 5)),
    (write(NONE, b"x"), *FAILED_CHANGE),
)


def made(kind: int, size: int, number: int) -> tuple:
    """The handle and the attributes of what was made or found."""
    return word(OK), word(1), handle(number), after(kind, size, number)


# A file that is made, found, cut and refused, and one that an EXCLUSIVE CREATE made. The first of these calls is the eighth of its server.
CREATES = (
    (create(b"n", D, size=9), *made(FILE, 9, 8), *IN_D),
    (show(handle_of(8)), word(OK), attributes(FILE, 9, 8)),
    (create(b"n", D), *made(FILE, 9, 8), *IN_D),
    (create(b"n", D, size=4), *made(FILE, 4, 8), *IN_D),
    (create(b"n", D, GUARDED, 8), word(EXIST), *IN_D),
    (create(b"o", D, GUARDED, 8), *made(FILE, 8, 13), *IN_D),
    (create(b"x", D, EXCLUSIVE) | {"verifier": 77}, *made(FILE, 0, 14), *IN_D),
    (create(b"x", D, EXCLUSIVE) | {"verifier": 77}, *made(FILE, 0, 14), *IN_D),
    (create(b"x", D, EXCLUSIVE) | {"verifier": 78}, word(EXIST), *IN_D),
    (create(b"d"), word(EXIST), *IN_ROOT),
    (create(b"x", F), word(NOTDIR), *changed(FILE, 7, 3)),
    (create(b"x", NONE), *FAILED_CHANGE),
)
# A directory, and a link in it.
MAKES = (
    (make_directory(b"m", D), *made(DIRECTORY, 0, 8), *IN_D),
    (make_directory(b"m", D), word(EXIST), *IN_D),
    (make_directory(b"m", L), word(NOTDIR), *changed(LINK, 5, 5)),
    (make_directory(b"m", NONE), *FAILED_CHANGE),
    (link(b"s", b"over", handle_of(8)), *made(LINK, 4, 12), *changed(DIRECTORY, 0, 8)),
    (show(handle_of(12)), word(OK), attributes(LINK, 4, 12)),
    (link(b"f", b"over"), word(EXIST), *IN_ROOT),
    (link(b"s", b"over", NONE), *FAILED_CHANGE),
)
# The directory's attributes are in the reply, also where it is the name that is wrong. What was removed isn't there to be counted: the directory is
# empty, and goes.
REMOVES = (
    (named(RMDIR, b"d"), word(NOTEMPTY), *IN_ROOT),
    (named(REMOVE, b"g", D), word(OK), *IN_D),
    (show(G), word(STALE)),
    (named(REMOVE, b"g", D), word(NOENT), *IN_D),
    (named(REMOVE, b"e"), word(ISDIR), *IN_ROOT),
    (named(REMOVE, b"g", F), word(NOTDIR), *changed(FILE, 7, 3)),
    (named(REMOVE, b"g", NONE), *FAILED_CHANGE),
    (named(RMDIR, b"f"), word(NOTDIR), *IN_ROOT),
    (named(RMDIR, b"e"), word(OK), *IN_ROOT),
    (show(E), word(STALE)),
    (named(RMDIR, b"e", L), word(NOTDIR), *changed(LINK, 5, 5)),
    (named(RMDIR, b"e", E), *FAILED_CHANGE),
    (named(RMDIR, b"d"), word(OK), *IN_ROOT),
)
# Both directories' attributes, first of the one that a name comes from.
RENAMES = (
    (rename(b"x", b"y", ROOT, D), word(NOENT), *IN_ROOT, *IN_D),
    (rename(b"d", b"y", ROOT, D), word(INVAL), *IN_ROOT, *IN_D),
    (rename(b"f", b"y", ROOT, L), word(NOTDIR), *IN_ROOT, *changed(LINK, 5, 5)),
    (rename(b"x", b"y", F, D), word(NOTDIR), *changed(FILE, 7, 3), *IN_D),
    (rename(b"x", b"y", NONE, D), word(STALE), word(0), word(0), *IN_D),
    (rename(b"g", b"y", D, NONE), word(STALE), *IN_D, word(0), word(0)),
    (rename(b"f", b"g", ROOT, D), word(OK), *IN_ROOT, *IN_D),
    (show(G), word(STALE)),
    (rename(b"g", b"h", D, D), word(OK), *IN_D, *IN_D),
    (rename(b"d", b"d", ROOT, E), word(OK), *IN_ROOT, *changed(DIRECTORY, 0, 2)),
)


def run_rows(run: Run, number: int, rows: tuple) -> None:
    """Calls one after the other; the model has to answer each by the pieces that are written here."""
    for call, *pieces in rows:
        run.record(number, call)
        strict = run.opening.strict
        reply = words(run.xid, 1, 0, 0, 0, 0) + b"".join(piece(strict) for piece in pieces)
        assert run.wanted[-1] == tell_reply(reply), (call, run.wanted[-1], tell_reply(reply))


def run_objects(run: Run, rows: tuple) -> None:
    """A server in its third era: the objects are made, and then come these calls."""
    run.new_server()
    for _ in range(ERA - 1):
        run.crash(0)
    first = run.join()[0]
    for call in OBJECTS:
        run.record(first, call)
    run_rows(run, first, rows)
    run.close([first])


def run_long_name(run: Run, length: int, pieces: tuple) -> None:
    """A READDIR that asks for as many bytes as there are, of a root with one name of this length."""
    run.opening = Opening(((0, b"x" * length, FILE, b""),), run.opening.strict)
    first = run.new_server(lanes=1)[0]
    run_rows(run, first, ((listing(count=2 ** 32 - 1), *pieces),))
    run.close([first])


def run_by_hand(run: Run) -> None:
    """Plain and strict servers whose replies are written here. The longest name that a list of 1,048,576 bytes has room for is given, a longer one isn't."""
    for strict, room, longest in ((False, PLAIN_ROOM, 1_048_528), (True, STRICT_ROOM, 1_048_444)):
        run.opening = Opening((), strict)
        for rows in ((*OBJECT_LOOKS, *NAME_LOOKS, *LISTS, *room), SIZES, WRITES, CREATES, MAKES, REMOVES, RENAMES):
            run_objects(run, rows)
        entry = (word(1), double(1), text(b"x" * longest), double(1))
        run_long_name(run, longest, (word(OK), AFTER_ROOT, double(0), *entry, word(0), word(1)))
        run_long_name(run, longest + 1, NEITHER)
    run.opening = Opening()
