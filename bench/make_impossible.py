#!/usr/bin/env python3
"""Makes histories that no order of their calls explains, each with one fault, by hand: make_impossible.py FOLDER

Each is named after its fault; the comment beside it says which event is the first that no order explains, and why. A file NAME.history is written for
each, and `expected` with a line for each: NAME, the event, the number of its call. `nfsbench decide FOLDER/NAME.history` has to say `no witness: event E call N`.
Further histories are right: parts of WRITEs that were never answered are read, and handles that no reply gave name files.
"""
import pathlib
import sys

from try_decisions import hyper, opaque, word

ROOT = b"\0"
FILE, OTHER = b"\x0a", b"\x0b"
OK, NOENT, STALE = 0, 2, 70
UNSTABLE, DATA_SYNC, FILE_SYNC = 0, 1, 2
FIRST, SECOND = bytes(7) + b"\1", bytes(7) + b"\2"


UNSET = word(0) * 6
NO_WCC, NO_ATTRIBUTES = word(0) + word(0), word(0)


# ---- calls, as a procedure's number with its arguments

def lookup(directory, name):
    return 3, opaque(directory) + opaque(name)


def read(file, count=16):
    return 6, opaque(file) + hyper(0) + word(count)


def write(file, data, level=FILE_SYNC):
    return 7, opaque(file) + hyper(0) + word(len(data)) + word(level) + opaque(data)


def create(directory, name, mode=1):
    return 8, opaque(directory) + opaque(name) + word(mode) + UNSET


def mkdir(directory, name):
    return 9, opaque(directory) + opaque(name) + UNSET


def remove(directory, name):
    return 12, opaque(directory) + opaque(name)


def rename(source, name, target, new_name):
    return 14, opaque(source) + opaque(name) + opaque(target) + opaque(new_name)


def list_names(directory):
    return 16, opaque(directory) + hyper(0) + bytes(8) + word(4096)


def commit(file, offset=0, count=0):
    return 21, opaque(file) + hyper(offset) + word(count)


def get_attributes(file):
    return 1, opaque(file)


# ---- results

def made(handle):
    return word(OK) + word(1) + opaque(handle) + NO_ATTRIBUTES + NO_WCC


def made_unnamed():
    """No handle is given."""
    return word(OK) + word(0) + NO_ATTRIBUTES + NO_WCC


def found(handle):
    return word(OK) + opaque(handle) + NO_ATTRIBUTES + NO_ATTRIBUTES


def bytes_read(data, is_end=1):
    return word(OK) + NO_ATTRIBUTES + word(len(data)) + word(is_end) + opaque(data)


def written(count, level=FILE_SYNC, verifier=FIRST):
    return word(OK) + NO_WCC + word(count) + word(level) + verifier


def committed(verifier=FIRST):
    return word(OK) + NO_WCC + verifier


def changed():
    return word(OK) + NO_WCC


def renamed():
    return word(OK) + NO_WCC + NO_WCC


def listed(*names):
    entries = b"".join(word(1) + hyper(number + 1) + opaque(name) + hyper(number + 1) for number, name in enumerate(names))
    return word(OK) + NO_ATTRIBUTES + bytes(8) + entries + word(0) + word(1)


def size_of_file(size):
    return word(OK) + word(1) + word(0o644) + word(1) + word(0) * 2 + hyper(size) + hyper(size) + word(0) * 2 + hyper(0) * 2 + word(0) * 6


class History:
    """Events, in order. Calls are numbered from 1; each has a lane of its own in an era."""

    def __init__(self):
        self.events, self.calls, self.first_lane = [], 0, 1

    def call(self, asked):
        procedure, arguments = asked
        self.calls += 1
        header = word(self.calls) + word(0) + word(2) + word(100003) + word(3) + word(procedure) + word(0) * 4
        self.events.append(word(0) + word(self.calls) + opaque(header + arguments))
        return self.calls

    def reply(self, number, result):
        self.events.append(word(1) + word(number) + opaque(word(number) + word(1) + word(0) * 4 + result))

    def exchange(self, asked, result):
        number = self.call(asked)
        self.reply(number, result)
        return number

    def crash(self):
        self.events.append(word(3))

    def file(self):
        return b"NFSHIST1" + opaque(ROOT) + word(len(self.events)) + b"".join(self.events)


def torn_read():
    """A READ beside a WRITE gives half of it. Its reply, event 7, comes before that of the WRITE: no order has the half."""
    it = History()
    it.exchange(create(ROOT, b"a"), made(FILE))
    it.exchange(write(FILE, b"aaaa"), written(4))
    writing = it.call(write(FILE, b"bbbb"))
    reading = it.call(read(FILE))
    it.reply(reading, bytes_read(b"bbaa"))
    it.reply(writing, written(4))
    return it, 7, reading


def stale_size():
    """A GETATTR after a WRITE's reply gives the size from before it: event 6."""
    it = History()
    it.exchange(create(ROOT, b"a"), made(FILE))
    it.exchange(write(FILE, b"aa"), written(2))
    asked = it.exchange(get_attributes(FILE), size_of_file(0))
    return it, 6, asked


def found_after_a_removal():
    """A LOOKUP after a REMOVE's reply finds what was removed: event 6."""
    it = History()
    it.exchange(create(ROOT, b"a"), made(FILE))
    it.exchange(remove(ROOT, b"a"), changed())
    asked = it.exchange(lookup(ROOT, b"a"), found(FILE))
    return it, 6, asked


def synced_write_lost():
    """A WRITE was answered as FILE_SYNC; after a crash a READ gives an empty file: event 9."""
    it = History()
    it.exchange(create(ROOT, b"a"), made(FILE))
    it.exchange(write(FILE, b"x"), written(1))
    it.crash()
    it.exchange(lookup(ROOT, b"a"), found(FILE))
    asked = it.exchange(read(FILE), bytes_read(b""))
    return it, 9, asked


def committed_write_lost():
    """An UNSTABLE WRITE and a COMMIT after it were answered; after a crash a READ gives an empty file: event 11."""
    it = History()
    it.exchange(create(ROOT, b"a"), made(FILE))
    it.exchange(write(FILE, b"x", UNSTABLE), written(1, UNSTABLE))
    it.exchange(commit(FILE), committed())
    it.crash()
    it.exchange(lookup(ROOT, b"a"), found(FILE))
    asked = it.exchange(read(FILE), bytes_read(b""))
    return it, 11, asked


def range_committed_write_lost():
    """The same, with a COMMIT of the WRITE's range alone: event 11."""
    it = History()
    it.exchange(create(ROOT, b"a"), made(FILE))
    it.exchange(write(FILE, b"xyz", UNSTABLE), written(3, UNSTABLE))
    it.exchange(commit(FILE, 0, 3), committed())
    it.crash()
    it.exchange(lookup(ROOT, b"a"), found(FILE))
    asked = it.exchange(read(FILE), bytes_read(b""))
    return it, 11, asked


def data_synced_write_lost():
    """A WRITE was asked for as UNSTABLE and answered as DATA_SYNC; after a crash a READ gives an empty file: event 9."""
    it = History()
    it.exchange(create(ROOT, b"a"), made(FILE))
    it.exchange(write(FILE, b"x", UNSTABLE), written(1, DATA_SYNC))
    it.crash()
    it.exchange(lookup(ROOT, b"a"), found(FILE))
    asked = it.exchange(read(FILE), bytes_read(b""))
    return it, 9, asked


def two_verifiers_behind_a_crash():
    """Behind a crash two WRITEs show two write verifiers, of which the second, event 9, can't be of that era."""
    it = History()
    it.exchange(create(ROOT, b"a"), made(FILE))
    it.exchange(write(FILE, b"x"), written(1))
    it.crash()
    it.exchange(write(FILE, b"y"), written(1, verifier=SECOND))
    asked = it.exchange(write(FILE, b"z"), written(1))
    return it, 9, asked


def verifier_kept_over_a_loss():
    """An UNSTABLE WRITE is lost in a crash, and a later WRITE shows the same verifier. The READ that shows the loss, event 9, fits nowhere: since event 11
    shows the verifier again, the WRITE can't be lost."""
    it = History()
    it.exchange(create(ROOT, b"a"), made(FILE))
    it.exchange(write(FILE, b"x", UNSTABLE), written(1, UNSTABLE))
    it.crash()
    it.exchange(lookup(ROOT, b"a"), found(FILE))
    asked = it.exchange(read(FILE), bytes_read(b""))
    it.exchange(write(FILE, b"y", UNSTABLE), written(1, UNSTABLE))
    return it, 9, asked


def two_makers():
    """Two GUARDED CREATEs of one name both succeed, and nothing removes it: whichever is answered second, event 4."""
    it = History()
    first = it.call(create(ROOT, b"a"))
    second = it.call(create(ROOT, b"a"))
    it.reply(first, made(FILE))
    it.reply(second, made(OTHER))
    return it, 4, second


def directory_below_itself():
    """A directory is renamed to a name below itself: event 4."""
    it = History()
    it.exchange(mkdir(ROOT, b"a"), made(FILE))
    asked = it.exchange(rename(ROOT, b"a", FILE, b"b"), renamed())
    return it, 4, asked


def listed_twice():
    """A list from cookie 0 on has a name twice: event 4."""
    it = History()
    it.exchange(create(ROOT, b"a"), made(FILE))
    asked = it.exchange(list_names(ROOT), listed(b".", b"..", b"a", b"a"))
    return it, 4, asked


def write_read_in_part(length):
    """A WRITE is never answered, and a READ behind it gives half of its bytes: as much of it was done."""
    it = History()
    it.exchange(create(ROOT, b"a"), made(FILE))
    it.call(write(FILE, b"w" * length))
    it.exchange(read(FILE, max(100, length)), bytes_read(b"w" * (length // 2)))
    return it


def over_a_crash(before, after):
    """A WRITE is never answered, a READ gives so many of its bytes, and after a crash a READ gives so many: with its number, if it fits."""
    it = History()
    it.exchange(create(ROOT, b"a"), made(FILE))
    it.call(write(FILE, b"w" * 100))
    it.exchange(read(FILE, 100), bytes_read(b"w" * before))
    it.crash()
    it.exchange(lookup(ROOT, b"a"), found(FILE))
    asked = it.exchange(read(FILE, 100), bytes_read(b"w" * after))
    return it, asked


def open_write_of_two_counts():
    """A WRITE that got no reply wrote 40 bytes before a crash, and 60 after it: event 10."""
    history, asked = over_a_crash(40, 60)
    return history, 10, asked


def unmade_handle_written():
    """A WRITE succeeds by a handle that no reply gave, and the root is all that exists: event 2."""
    it = History()
    asked = it.exchange(write(FILE, b"x"), written(1))
    return it, 2, asked


def handle_after(*between):
    """A CREATE that gives no handle, and calls after it on one that no reply gave; the last has a reply that fits or doesn't."""
    it = History()
    it.exchange(create(ROOT, b"a"), made_unnamed())
    asked = [it.exchange(call, result) for call, result in between]
    return it, 2 * it.calls, asked[-1]


def handle_that_was_stale():
    """A handle that no reply gave is stale while the one file exists, and names a file later, though none was made: event 6."""
    return handle_after((get_attributes(FILE), word(STALE)), (read(FILE), bytes_read(b"")))


def handle_of_two_files():
    """A handle that no reply gave has the one file's bytes, and others though nothing wrote: event 6."""
    return handle_after((read(FILE), bytes_read(b"")), (read(FILE), bytes_read(b"x")))


def removed_file_brought_back():
    """A REMOVE is never answered. The file's handle, which no reply gave, is stale, and after a crash that lost the REMOVE it names the file again."""
    it = History()
    it.exchange(create(ROOT, b"a"), made_unnamed())
    it.call(remove(ROOT, b"a"))
    it.exchange(get_attributes(FILE), word(STALE))
    it.crash()
    it.exchange(read(FILE), bytes_read(b""))
    return it


def one_of_many(count, data=b""):
    """A READ succeeds by a handle that no reply gave, and any of so many empty files may be what it names."""
    it = History()
    for number in range(count):
        it.exchange(create(ROOT, b"f%d" % number), made_unnamed())
    it.exchange(read(FILE), bytes_read(data))
    return it


def unanswered_call_by_an_empty_handle():
    """A CREATE by a handle of no bytes is never answered, and one by a handle that no reply gave is stale: the first never came to be."""
    it = History()
    it.call(create(b"", b"a"))
    it.exchange(create(FILE, b"a"), word(STALE) + NO_WCC)
    return it


RIGHT = {
    "unanswered_call_by_an_empty_handle": unanswered_call_by_an_empty_handle(),
    "removed_file_brought_back": removed_file_brought_back(),
    "one_of_sixty_files": one_of_many(60),
    "one_of_seventy_files": one_of_many(70),
    # That none of them has these bytes isn't decided.
    "none_of_seventy_files": one_of_many(70, b"x"),
    "write_of_64_read_in_part": write_read_in_part(64),
    "write_of_65_read_in_part": write_read_in_part(65),
    "write_of_4096_read_in_part": write_read_in_part(4096),
    "open_write_kept_over_a_crash": over_a_crash(40, 40)[0],
    "open_write_lost_in_a_crash": over_a_crash(40, 0)[0],
}
MADE = [unmade_handle_written, handle_that_was_stale, handle_of_two_files, open_write_of_two_counts, torn_read, stale_size, found_after_a_removal, synced_write_lost, committed_write_lost, range_committed_write_lost, data_synced_write_lost,
        two_verifiers_behind_a_crash, verifier_kept_over_a_loss, two_makers, directory_below_itself, listed_twice]


def main():
    folder = pathlib.Path(sys.argv[1])
    folder.mkdir(parents=True, exist_ok=True)
    lines = []
    for make in MADE:
        history, event, call = make()
        (folder / f"{make.__name__}.history").write_bytes(history.file())
        lines.append(f"{make.__name__} {event} {call}\n")
    for name, history in RIGHT.items():
        (folder / f"{name}.history").write_bytes(history.file())
    (folder / "expected").write_text("".join(lines))


if __name__ == "__main__":
    main()
