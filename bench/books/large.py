"""A book of long messages: records, texts, names and files at their limits."""
from books.run import Run
from books.tree import FILE_LIMIT, NAMETOOLONG, TRANSFER_LIMIT, handle_of
from books.wire import (
    CREATE, READ, READDIR, RECORD_LIMIT, REMOVE, SETATTR, SYMLINK, UNCHECKED, WRITE, call_message, spell,
)

ROOT = handle_of(0)
# Three names of this length make a list that is longer than a record may be, two don't.
LONG_NAME = 800_000


def place_next(run: Run, call: dict, reply: dict) -> None:
    """Begins a call and places it."""
    number = run.begin(run.lane(), run.new_xid(), call)
    run.place(number, {"procedure": call["procedure"], "status": 0} | reply)


def link(name: bytes, length: int) -> dict:
    return {"procedure": SYMLINK, "handle": ROOT, "name": name, "size": None, "text": b"t" * length}


def try_links(run: Run) -> None:
    """A SYMLINK as long as a record may be, and one byte more; texts about the longest that a server has to take."""
    head = len(call_message(1, link(b"l", 0)))
    longest = RECORD_LIMIT - head
    xid = run.new_xid()
    message = call_message(xid, link(b"l", longest + 1))
    run.ask("begin", f"raw {run.lanes[0]} {spell(message)}", run.book.begin(run.lanes[0], xid, None))
    place_next(run, link(b"l", longest), {"status": NAMETOOLONG})
    place_next(run, link(b"l", TRANSFER_LIMIT + 1), {"handle": handle_of(len(run.book.calls) + 1)})
    place_next(run, {"procedure": REMOVE, "handle": ROOT, "name": b"l"}, {})
    run.flush()
    place_next(run, link(b"l", TRANSFER_LIMIT), {"status": NAMETOOLONG})
    run.end_era()


def entry(run: Run, name: bytes, at: int) -> dict:
    return {"name": name, "fileid": 0, "cookie": at, "handle": None}


def try_names(run: Run) -> None:
    """A list within a record's length, and one beyond it."""
    names = [bytes([letter]) * LONG_NAME for letter in b"abc"]
    for name in names:
        call = {"procedure": CREATE, "handle": ROOT, "name": name, "mode": UNCHECKED, "size": None}
        place_next(run, call, {"handle": handle_of(len(run.book.calls) + 1)})
    for length in (2, 3):
        call = {"procedure": READDIR, "handle": ROOT, "cookie": 0, "verifier": 0, "count": 2 ** 32 - 1}
        entries = [entry(run, name, at + 1) for at, name in enumerate(names[:length])]
        place_next(run, call, {"entries": entries, "eof": int(length == 3), "verifier": 0})
    run.crash(run.book.device.mark)


def try_file(run: Run) -> None:
    """A file of the longest size, of which a READ gives the first bytes alone."""
    call = {"procedure": CREATE, "handle": ROOT, "name": b"f", "mode": UNCHECKED, "size": FILE_LIMIT}
    place_next(run, call, {"handle": None})
    file = handle_of(len(run.book.calls))
    place_next(run, {"procedure": WRITE, "handle": file, "offset": FILE_LIMIT - 1, "level": 2, "data": b"z"},
               {"count": 1, "level": 2, "verifier": run.book.era})
    read = {"procedure": READ, "handle": file, "offset": 0, "count": 2 ** 32 - 1}
    place_next(run, read, {"data": bytes(TRANSFER_LIMIT), "eof": 0})
    place_next(run, {"procedure": SETATTR, "handle": file, "size": 0, "guard": None}, {})
    place_next(run, {"procedure": SETATTR, "handle": file, "size": FILE_LIMIT, "guard": None}, {})
    place_next(run, read, {"data": bytes(TRANSFER_LIMIT + 4), "eof": 0})
    run.crash(run.book.device.mark)


def run_large_book(run: Run) -> None:
    run.new_book((0, 0, 0))
    try_links(run)
    try_names(run)
    try_file(run)
    run.end_book()
