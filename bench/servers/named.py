"""Servers whose commands aren't drawn: each tries one rule in every way."""
from books.odd import headed
from books.starts import DIRECTORY, FILE, LINK, Opening
from books.tree import FILE_LIMIT, TRANSFER_LIMIT, handle_of
from books.wire import (
    COMMIT, CREATE, EXCLUSIVE, GETATTR, GUARDED, LOOKUP, MKDIR, READ, READDIR, READDIRPLUS, READLINK, RECORD_LIMIT,
    REMOVE, RENAME, RMDIR, SETATTR, SYMLINK, UNCHECKED, WRITE, arguments, call_message, opaque, words,
)
from servers.calls import at_limit, cut_everywhere
from servers.messages import UNSERVED
from servers.run import Run

ROOT = handle_of(0)


def named(procedure: int, name: bytes, directory: bytes = ROOT, **more) -> dict:
    return {"procedure": procedure, "handle": directory, "name": name, **more}


def create(name: bytes, directory: bytes = ROOT, mode: int = UNCHECKED, size: int | None = None) -> dict:
    return named(CREATE, name, directory, mode=mode, size=size, verifier=5)


def make_directory(name: bytes, directory: bytes = ROOT) -> dict:
    return named(MKDIR, name, directory, size=None)


def link(name: bytes, text: bytes, directory: bytes = ROOT) -> dict:
    return named(SYMLINK, name, directory, size=None, text=text)


def rename(name: bytes, to_name: bytes, directory: bytes = ROOT, to_directory: bytes = ROOT) -> dict:
    return named(RENAME, name, directory, to_handle=to_directory, to_name=to_name)


def write(file: bytes, data: bytes, level: int = 0, offset: int = 0) -> dict:
    return {"procedure": WRITE, "handle": file, "offset": offset, "level": level, "data": data}


def read(file: bytes, offset: int = 0, count: int = 10) -> dict:
    return {"procedure": READ, "handle": file, "offset": offset, "count": count}


def resize(file: bytes, size: int | None, guard: list | None = None) -> dict:
    return {"procedure": SETATTR, "handle": file, "size": size, "guard": guard}


def commit(file: bytes) -> dict:
    return {"procedure": COMMIT, "handle": file, "offset": 0, "count": 0}


def show(file: bytes) -> dict:
    return {"procedure": GETATTR, "handle": file}


def follow(file: bytes) -> dict:
    return {"procedure": READLINK, "handle": file}


def listing(directory: bytes = ROOT, cookie: int = 0, count: int = 4096) -> dict:
    return {"procedure": READDIR, "handle": directory, "cookie": cookie, "verifier": 0, "count": count}


def listing_plus(directory: bytes = ROOT, cookie: int = 0, most: int = 4096) -> dict:
    asked = {"procedure": READDIRPLUS, "handle": directory, "cookie": cookie, "verifier": 0}
    return asked | {"count": 512, "most": most}


def run_short_life(run: Run, count: int = 10) -> list[int]:
    """A file is made, written and read, a crash takes what wasn't put on stable storage, and it is read again."""
    first, second = run.new_server(lanes=2)
    for call in (create(b"a"), write(handle_of(1), b"abc"), read(handle_of(1), count=count)):
        run.record(first, call)
    run.crash(0)
    run.record(first, named(LOOKUP, b"a"))
    run.xid = 0
    for call in (read(handle_of(1)), listing()):
        run.record(second, call)
    return [first, second]


def run_short_lives(run: Run) -> None:
    """The same life again and again, closed by its passes, by some of them, and by those of another life."""
    run.close(run_short_life(run))
    run.close(run_short_life(run)[1:])
    earlier = run_short_life(run)
    run.close([])
    run_short_life(run)
    run.close(earlier)
    other = run_short_life(run, count=2)
    run.close([])
    own = run_short_life(run)
    run.close([other[0], own[1]])
    own = run_short_life(run)
    run.close([own[1], other[1], own[0]])
    joined = run_short_life(run)
    run.close([*joined, *run.join(2)])


def run_odd_lane(run: Run) -> None:
    """A message of three bytes, a lane that is left twice, and passes of lanes that another server gave, or gives again."""
    first, second, third = run.new_server(lanes=3)
    run.call(first, bytes(3))
    run.leave(first)
    run.leave(first)
    run.record(first, show(ROOT))
    run.call(first, headed(1, 0, b""))
    run.record(second, create(b"a"))
    run.close([first])
    own = run.new_server(lanes=1)
    run.record(third, create(b"b"))
    run.record(own[0], show(handle_of(1)))
    run.close([own[0], third])
    own = run.new_server(lanes=2)
    run.record(own[0], create(b"a"))
    run.record(own[1], create(b"a"))
    run.close([own[0], second])
    spare = run.new_server(lanes=3)[2]
    run.close([])
    run.new_server(lanes=1)
    run.record(spare, create(b"a"))
    own = run.join(2)
    run.record(own[1], create(b"b"))
    run.leave(spare)
    run.record(own[1], show(ROOT))
    run.close([own[1], spare])


def run_makers(run: Run, order: tuple[int, int, int]) -> list[int]:
    """Three passes make a file each, in this order."""
    given = run.new_server(lanes=3)
    for at in order:
        run.xid = 10 * at
        run.record(given[at], create(b"abc"[at:at + 1]))
    return given


def run_lookers(run: Run, xids: tuple[int, int], name: bytes = b"a") -> int:
    """A pass looks for a name twice that isn't there."""
    given = run.new_server(lanes=1)[0]
    for xid in xids:
        run.xid = xid
        run.record(given, named(LOOKUP, name))
    return given


def run_torn(run: Run) -> None:
    """Servers that are closed by passes which tell of as many calls as were answered: of those, of other replies, in another
    order, of other calls with the same replies; and two unused passes of one lane."""
    for orders in (((0, 1, 2), (0, 1, 2)), ((0, 1, 2), (0, 2, 1)), ((2, 1, 0), (0, 1, 2))):
        earlier = run_makers(run, orders[0])
        run.close([])
        own = run_makers(run, orders[1])
        run.close([earlier[2], own[0], earlier[1]])
    for xids, name in (((3, 4), b"a"), ((4, 3), b"a"), ((3, 4), b"b")):
        earlier = run_lookers(run, (3, 4))
        run.close([])
        run_lookers(run, xids, name)
        run.close([earlier])
    unused = run.new_server(lanes=3)
    run.close([])
    own = run.new_server(lanes=3)
    run.record(own[0], show(ROOT))
    run.close([own[2], unused[1], own[0], unused[2], own[1]])


def run_failed_recovery(run: Run) -> None:
    """A device whose first recovery fails."""
    first, second = run.new_server((0, 0, 1), lanes=2)
    run.record(first, create(b"a"))
    run.crash(0)
    run.crash(0)
    run.record(first, create(b"b"))
    run.record(second, show(ROOT))
    run.call(first, headed(1, 0, b""))
    run.call(first, bytes(3))
    run.leave(first)
    run.leave(first)
    run.record(first, show(ROOT))
    run.close([first])


SCRIPT = (
    create(b"a"), write(handle_of(1), b"abc"), write(handle_of(1), b"xy", 1, 2), make_directory(b"d"),
    commit(handle_of(1)), link(b"l", b"a", handle_of(4)), write(handle_of(1), b"z", 0, 9), commit(handle_of(1)),
    rename(b"a", b"b", ROOT, handle_of(4)), resize(handle_of(1), 4), write(handle_of(1), b"", 2), listing(),
    named(REMOVE, b"b", handle_of(4)), named(REMOVE, b"l", handle_of(4)), named(RMDIR, b"d"), create(b"e"),
)


def run_fault(run: Run, faults: tuple[int, int, int], extra: int) -> None:
    """Calls over a device that fails at one of its calls, two crashes, and what then stands."""
    first, second, third, fourth = run.new_server(faults, lanes=4)
    for at, call in enumerate(SCRIPT):
        run.record((first, second)[at % 2], call)
    run.crash(extra)
    for call in (listing_plus(), read(handle_of(1)), show(handle_of(4)), create(b"f"), write(handle_of(1), b"q")):
        run.record(third, call)
    run.crash(0)
    for call in (listing(), read(handle_of(1)), commit(handle_of(1))):
        run.record(fourth, call)
    run.close([first, second, third, fourth])


def run_faults(run: Run) -> None:
    """Each append, each barrier and each recovery fails in turn."""
    for at in range(1, 16):
        run_fault(run, (at, 0, 0), at % 3)
    for at in range(1, 16):
        run_fault(run, (0, at, 0), (at + 1) % 3)
    for at in (1, 2):
        run_fault(run, (0, 0, at), 1)
    run_fault(run, (3, 4, 2), 2 ** 64 - 1)


ALL_CALLS = (
    show(ROOT), resize(handle_of(1), 2, [1, 2]), named(LOOKUP, b"a"), follow(handle_of(3)), read(handle_of(1)),
    write(handle_of(1), b"abcde"), create(b"f"), create(b"f", mode=EXCLUSIVE), make_directory(b"g"), link(b"h", b"text"),
    named(REMOVE, b"f"), named(RMDIR, b"g"), rename(b"a", b"b"), listing(), listing_plus(), commit(handle_of(1)),
)
NO_WORDS = (2, 3, 65, 2 ** 32 - 1)


def run_unreadable(run: Run) -> None:
    """Arguments of each procedure that end early, that go on, and each word of which is another one."""
    first = run.new_server(lanes=1)[0]
    for call in (create(b"a"), make_directory(b"d"), link(b"l", b"a")):
        run.record(first, call)
    for call in ALL_CALLS:
        message = call_message(9, call)
        for cut in cut_everywhere(call):
            run.call(first, cut)
        for more in (b"\0", bytes(4)):
            run.call(first, message + more)
        for at in range(len(message) - len(arguments(call)), len(message), 4):
            for word in NO_WORDS:
                run.call(first, message[:at] + words(word) + message[at + 4:])
    run.close(run.telling())


def run_unserved(run: Run) -> None:
    """What isn't served in each mix with another program, another version and a sealed credential."""
    first = run.new_server(lanes=1)[0]
    for program in (100003, 100005):
        for version in (3, 4):
            for flavor in (0, 6):
                for procedure in (0, READ, *UNSERVED, 22, 2 ** 32 - 1):
                    run.call(first, headed(7, procedure, b"", program=program, version=version, flavor=flavor))
    for procedure in (0, *UNSERVED, 22):
        run.call(first, headed(8, procedure, opaque(ROOT) + b"\1\2\3"))
    long = opaque(bytes(401))
    for head in (words(1, 1, 2), words(1, 2, 2), words(1, 0, 1), words(1, 0, 3)):
        run.call(first, head + words(100003, 3, 0, 0, 0, 0, 0))
    run.call(first, words(1, 0, 2, 100005, 3, 0, 1) + long + words(0, 0))
    run.call(first, words(1, 0, 2, 100005, 3, 0, 0, 0, 6) + long)
    for end in (b"", b"\xff", b"\xff\xff"):
        run.call(first, words(1, 0, 2, 100003, 3, 0, 0, 0, 6, 3) + b"abc" + end)
    for end in range(0, 41):
        run.call(first, headed(1, 0, b"")[:end])
    run.close([])


def run_renames(run: Run) -> None:
    """Each kind of entry is renamed onto each kind of name, in one directory and into another, above it and below it."""
    first = run.new_server(lanes=1)[0]
    for call in (make_directory(b"d"), make_directory(b"e"), make_directory(b"in", handle_of(1)),
                 create(b"f", handle_of(3)), create(b"a"), create(b"b"), link(b"l", b"b"), make_directory(b"x"),
                 create(b"c", handle_of(1))):
        run.record(first, call)
    for directories in ((99, 5), (5, 99), (5, 0), (1, 7)):
        run.record(first, rename(b"c", b"", *map(handle_of, directories)))
    names = (b"a", b"l", b"d", b"x", b"none", b"", b".", b"..")
    for name in names:
        for to_name in (b"a", b"b", b"l", b"d", b"e", b"in", b"", b".", b".."):
            for to_directory in (ROOT, handle_of(1), handle_of(3), handle_of(5), handle_of(99)):
                call = rename(name, to_name, ROOT, to_directory)
                run.record(first, call)
                if run.server.reply["status"] == 0 and (name, ROOT) != (to_name, to_directory):
                    put_back(run, first, call)
    run.record(first, rename(b"in", b"d", handle_of(1), ROOT))
    run.record(first, rename(b"c", b"d", handle_of(1), ROOT))
    run.crash(0)
    run.close([first])


def put_back(run: Run, number: int, call: dict) -> None:
    """What was renamed goes back, and what was replaced is made anew."""
    back = rename(call["to_name"], call["name"], call["to_handle"], call["handle"])
    run.record(number, back)
    kinds = {b"b": create, b"l": lambda name, directory: link(name, b"b", directory), b"a": create, b"e": make_directory,
             b"x": make_directory}
    make = kinds.get(call["to_name"])
    if make is not None and call["to_handle"] == ROOT:
        run.record(number, make(call["to_name"], ROOT))


def run_pages(run: Run) -> None:
    """A directory of thirty names, listed at each size, and in parts from each cookie."""
    first = run.new_server(lanes=1)[0]
    made = [bytes([letter]) * (1 + letter % 9) for letter in b"qwertyuiopasdfghjklzxcvbnm\x7f\x80\xff "]
    for at, name in enumerate(made):
        run.record(first, (create, make_directory)[at % 2](name))
    for size in (0, 23, 24, 25, *range(52, 120, 4), 300, 4096):
        run.record(first, listing(count=size))
        run.record(first, listing_plus(most=size))
    for cookie in (*range(0, 34), 2 ** 32, 2 ** 63, 2 ** 64 - 1):
        run.record(first, listing(cookie=cookie, count=130))
    for cookie in (0, 1, 29, 30, 31, 2 ** 64 - 1):
        run.record(first, listing_plus(cookie=cookie, most=200))
    run.record(first, listing(handle_of(2), count=0))
    run.record(first, listing_plus(handle_of(2), most=0))
    run.close([first])


def run_odd_names(run: Run) -> None:
    """Names that are empty, points, or have odd bytes, at each procedure that takes one; handles of every length."""
    first = run.new_server(lanes=1)[0]
    run.record(first, make_directory(b"d"))
    for name in (b"", b".", b"..", b"\0", b"/", b"a/b", b"\x80", b"\xff\xfe", b"...", b" "):
        for directory in (ROOT, handle_of(1), handle_of(77)):
            for make in (create, make_directory, lambda name, directory: link(name, b"", directory)):
                run.record(first, make(name, directory))
                run.record(first, named(LOOKUP, name, directory))
            run.record(first, rename(name, b"n", directory, ROOT))
            run.record(first, rename(b"n", name, ROOT, directory))
            run.record(first, named(RMDIR, name, directory))
            run.record(first, named(REMOVE, name, directory))
    for handle in (b"", bytes(7), bytes(9), bytes(64), b"h" * 64, handle_of(1)[:4], handle_of(2 ** 64 - 1)):
        for call in ALL_CALLS:
            run.record(first, call | {"handle": handle})
        run.record(first, rename(b"d", b"d", ROOT, handle))
    run.close([first])


def run_creates(run: Run) -> None:
    """CREATEs of each mode over each kind of entry, with sizes and verifiers, and before and behind a crash."""
    first, second = run.new_server(lanes=2)
    for call in (make_directory(b"d"), link(b"l", b"d"), create(b"f"), create(b"x", mode=EXCLUSIVE)):
        run.record(first, call)
    for number in (first, second):
        for name in (b"d", b"l", b"f", b"x", b"new" + bytes([48 + number % 2])):
            for mode in (UNCHECKED, GUARDED, EXCLUSIVE):
                for size in (None, 0, 7):
                    run.record(number, create(name, mode=mode, size=size))
            run.record(number, create(name, mode=EXCLUSIVE) | {"verifier": 6})
        run.record(number, listing_plus())
        for file in range(1, 8):
            run.record(number, show(handle_of(file)))
        if number == first:
            run.crash(1)
    run.close([first, second])


def run_limits(run: Run) -> None:
    """Files, READs, texts and messages at their limits and one beyond, each as cheaply as may be."""
    first = run.new_server(lanes=1)[0]
    file = handle_of(1)
    for call in (
            create(b"f"), write(file, b"", 1, 5), show(file), write(file, b"", 2, 2 ** 64 - 1),
            write(file, b"", 0, FILE_LIMIT + 1), show(file),
            write(file, b"z", 2, at_limit(1)), write(file, b"z", 2, at_limit(0)), write(file, b"zz", 0, at_limit(1)),
            write(file, b"z", 0, 2 ** 64 - 1), write(handle_of(9), b"z", 0, 2 ** 63), show(file),
            read(file, 0, 2 ** 32 - 1), read(file, FILE_LIMIT - 1, 2), read(file, FILE_LIMIT, 2), read(file, 2 ** 64 - 1, 2),
            resize(file, FILE_LIMIT + 1), resize(ROOT, 2 ** 64 - 1), resize(ROOT, FILE_LIMIT), resize(file, 3), read(file),
            create(b"f", size=FILE_LIMIT, mode=GUARDED), create(b"g", size=FILE_LIMIT + 1),
            create(b"g", size=2 ** 64 - 1, mode=GUARDED), create(b"g", size=0),
            make_directory(b"d") | {"size": FILE_LIMIT + 1}, link(b"l", b"d") | {"size": 2 ** 64 - 1},
            link(b"..", b"t" * (TRANSFER_LIMIT + 1), handle_of(99))):
        run.record(first, call)
    for length in (RECORD_LIMIT, RECORD_LIMIT + 4):
        run.call(first, headed(1, 0, bytes(length - 40)))
    run.close([first])


def run_large(run: Run) -> None:
    """Replies, texts, names and messages as long as may be. They cost an unoptimized program some seconds each."""
    first = run.new_server(lanes=1)[0]
    file = handle_of(1)
    for call in (
            create(b"f", size=FILE_LIMIT), write(file, b"z", 2, at_limit(1)),
            read(file, FILE_LIMIT - TRANSFER_LIMIT, TRANSFER_LIMIT + 1),
            read(file, FILE_LIMIT - TRANSFER_LIMIT - 1, TRANSFER_LIMIT + 1), resize(file, FILE_LIMIT), resize(file, 5),
            link(b"l", b"t" * TRANSFER_LIMIT), link(b"m", b"t" * (TRANSFER_LIMIT + 1))):
        run.record(first, call)
    run.record(first, follow(handle_of(len(run.server.book.calls) - 1)))
    run.record(first, named(REMOVE, b"l"))
    room = RECORD_LIMIT - len(call_message(1, create(b"")))
    for length in (room, room + 1, TRANSFER_LIMIT // 2 - 64, TRANSFER_LIMIT // 2):
        run.record(first, create(b"n" * length))
    for cookie in range(5):
        run.record(first, listing(cookie=cookie, count=2 ** 32 - 1))
    run.record(first, listing_plus(cookie=1, most=2 ** 32 - 1))
    run.crash(2 ** 64 - 1)
    run.close([first])


def run_many_lanes(run: Run) -> None:
    """As many lanes as there may be, and one more."""
    run.new_server()
    given = run.join(65_535)
    run.join()
    run.record(given[-1], show(ROOT))
    run.leave(given[-1])
    run.join()
    run.close([given[-1]])


ONE_FILE = ((0, b"a", FILE, b"abc"),)
HELD = ((0, b"held", DIRECTORY, b""), (1, b"text", FILE, b"abc"), (1, b"way", LINK, b"text"))
OPENINGS = (Opening((), True), Opening(HELD, False), Opening(HELD, True))


def run_one_file(run: Run) -> None:
    """A server that holds a file at first: it is found and read, a file is made beside it, and what a crash takes is what came later."""
    first, second = run.new_server(lanes=2)
    for call in (
            read(handle_of(1)), named(LOOKUP, b"a"), show(handle_of(1)), listing(), create(b"b"), show(handle_of(2)),
            write(handle_of(1), b"xyz"), read(handle_of(1)), create(b"a", mode=GUARDED), create(b"a", mode=EXCLUSIVE)):
        run.record(first, call)
    run.crash(0)
    for call in (read(handle_of(1)), listing_plus(), named(REMOVE, b"a"), show(handle_of(1)), listing()):
        run.record(second, call)
    run.close([first, second])


def run_held_tree(run: Run) -> None:
    """A directory that stood at first is renamed with what is in it, emptied and removed."""
    first = run.new_server(lanes=1)[0]
    held, text, way = map(handle_of, (1, 2, 3))
    for call in (
            listing_plus(held), follow(way), follow(text), named(RMDIR, b"held"), rename(b"held", b"moved"), named(LOOKUP, b"..", held),
            write(text, b"z", 2, 5), commit(text), rename(b"text", b"text", held, ROOT), resize(text, 2), read(text),
            rename(b"moved", b"in", ROOT, held), named(REMOVE, b"way", held), follow(way), named(RMDIR, b"moved"),
            named(LOOKUP, b"a", held), make_directory(b"held")):
        run.record(first, call)
    run.crash(0)
    run.record(run.join()[0], listing_plus())
    run.close([number for number in run.own if run.passes[number].exchanges])


def run_long_text(run: Run) -> None:
    """A link's text that is too long."""
    first = run.new_server(lanes=1)[0]
    run.record(first, link(b"l", b"t" * (TRANSFER_LIMIT + 1)))
    run.close([first])


def run_first_faults(run: Run) -> None:
    """The first call of each kind to a device fails."""
    for faults in ((1, 0, 0), (0, 1, 0), (0, 0, 1)):
        run_fault(run, faults, 1)


def run_from(run: Run, opening: Opening, case) -> None:
    """A case of servers that begin so. The objects of the calls that it makes have higher numbers there."""
    run.opening, run.moved = opening, len(opening.start)
    case(run)
    run.opening, run.moved = Opening(), 0


def run_openings(run: Run) -> None:
    """Servers that hold something at first or are strict, by calls that plain ones with an empty root got ahead of them, and others."""
    for opening in OPENINGS:
        for case in OPENED_CASES:
            run_from(run, opening, case)
    for case in (run_pages, run_creates, run_long_text):
        run_from(run, OPENINGS[-1], case)
    for start, case in ((ONE_FILE, run_one_file), (HELD, run_held_tree)):
        for strict in (False, True):
            run.opening = Opening(start, strict)
            case(run)
    run.opening = Opening()


def run_other_openings(run: Run) -> None:
    """The other cases on such servers."""
    for opening in OPENINGS:
        for case in (run_torn, run_faults, run_renames, run_pages, run_odd_names, run_creates, run_limits):
            run_from(run, opening, case)


OPENED_CASES = (run_short_lives, run_odd_lane, run_failed_recovery, run_first_faults)
CASES = (run_short_lives, run_odd_lane, run_torn, run_failed_recovery, run_faults, run_unserved, run_unreadable, run_renames,
         run_pages, run_odd_names, run_creates)
LAST_CASES = (run_limits, run_many_lanes)
