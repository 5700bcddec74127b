"""Calls of NFS version 3, and how each ended, laid out after RFC 1813, section 3.3."""
import dataclasses

from cases.xdr import UNTOLD, UNTOLD_BOTH, attributes, double, flag, handle, name, opaque, optional, settings, word
from cases.xdr import FILE_SYNC, OK


@dataclasses.dataclass(frozen=True)
class Call:
    """A call, and how it ended: with a result, or without a reply. Where no reply came, `take` are the words behind its
    number by which it is taken as done, or None where it is left out."""

    procedure: int
    arguments: bytes
    success: object  # lays out what stands behind the status OK
    failure: bytes  # what stands behind any other status
    result: bytes | None = None
    take: str | None = None

    def gives(self, *told, **more):
        """It succeeds, and tells this."""
        return dataclasses.replace(self, result=word(OK) + self.success(*told, **more))

    def fails(self, status):
        return dataclasses.replace(self, result=word(status) + self.failure)

    def taken(self, count=None):
        """No reply comes, and it is taken as done: a WRITE with a count."""
        return dataclasses.replace(self, take="" if count is None else " %d" % count)


def of_object(given):
    """The handle of what was made, if one is given."""
    return optional(None if given is None else handle(given))


def made(given=None):
    return of_object(given) + UNTOLD + UNTOLD_BOTH


def get_attributes(of):
    return Call(1, handle(of), attributes, b"")


def set_attributes(of, size=None, guard=None):
    """The guard is a time in seconds."""
    guarded = optional(None if guard is None else word(guard) + word(0))
    return Call(2, handle(of) + settings(size) + guarded, lambda: UNTOLD_BOTH, UNTOLD_BOTH)


def look_up(directory, entry):
    return Call(3, handle(directory) + name(entry), lambda found: handle(found) + UNTOLD + UNTOLD, UNTOLD)


def read_link(of):
    return Call(5, handle(of), lambda text: UNTOLD + opaque(text), UNTOLD)


def read(of, offset=0, count=100):
    def success(data, eof, told=None):
        """`told` is the count that is told, if it isn't that of the data."""
        return UNTOLD + word(len(data) if told is None else told) + flag(eof) + opaque(data)

    return Call(6, handle(of) + double(offset) + word(count), success, UNTOLD)


def write(of, offset, data, level=FILE_SYNC, count=None):
    """The count is that of the data, if no other is given. It tells how many bytes were written, all if no count is given."""
    asked = len(data) if count is None else count

    def success(told=None, at=level, verifier=1):
        return UNTOLD_BOTH + word(asked if told is None else told) + word(at) + double(verifier)

    return Call(7, handle(of) + double(offset) + word(asked) + word(level) + opaque(data), success, UNTOLD_BOTH)


def create(directory, entry, size=None):
    """Unchecked: a file that is there is taken."""
    return create_in_mode(directory, entry, word(0) + settings(size))


def create_guarded(directory, entry, size=None):
    return create_in_mode(directory, entry, word(1) + settings(size))


def create_exclusive(directory, entry, verifier):
    return create_in_mode(directory, entry, word(2) + double(verifier))


def create_in_mode(directory, entry, mode):
    return Call(8, handle(directory) + name(entry) + mode, made, UNTOLD_BOTH)


def make_directory(directory, entry, size=None):
    return Call(9, handle(directory) + name(entry) + settings(size), made, UNTOLD_BOTH)


def make_link(directory, entry, text, size=None):
    return Call(10, handle(directory) + name(entry) + settings(size) + opaque(text), made, UNTOLD_BOTH)


def remove(directory, entry):
    return Call(12, handle(directory) + name(entry), lambda: UNTOLD_BOTH, UNTOLD_BOTH)


def remove_directory(directory, entry):
    return Call(13, handle(directory) + name(entry), lambda: UNTOLD_BOTH, UNTOLD_BOTH)


def rename(directory, entry, to_directory, to_entry):
    arguments = handle(directory) + name(entry) + handle(to_directory) + name(to_entry)
    return Call(14, arguments, lambda: UNTOLD_BOTH + UNTOLD_BOTH, UNTOLD_BOTH + UNTOLD_BOTH)


def listing(entries, eof):
    return b"".join(flag(True) + entry for entry in entries) + flag(False) + flag(eof)


def list_names(directory, cookie=0):
    """READDIR. A success tells the names, and whether the list ends with them."""

    def success(names, eof):
        return UNTOLD + double(0) + listing([double(1) + name(entry) + double(1) for entry in names], eof)

    return Call(16, handle(directory) + double(cookie) + double(0) + word(1000), success, UNTOLD)


def list_entries(directory, cookie=0):
    """READDIRPLUS. A success tells pairs of a name and the object whose handle is beside it, or None."""

    def success(entries, eof):
        laid_out = [double(1) + name(entry) + double(1) + UNTOLD + of_object(given) for entry, given in entries]
        return UNTOLD + double(0) + listing(laid_out, eof)

    return Call(17, handle(directory) + double(cookie) + double(0) + word(1000) + word(1000), success, UNTOLD)


def commit(of, offset=0, count=0):
    return Call(21, handle(of) + double(offset) + word(count), lambda verifier=1: UNTOLD_BOTH + double(verifier), UNTOLD_BOTH)


# The procedures of which nothing is judged but LINK's and MKNOD's status; their results are a status and what is given.


def link(of, directory, entry):
    return Call(15, handle(of) + handle(directory) + name(entry), lambda behind: behind, UNTOLD + UNTOLD_BOTH)


def make_node(directory, entry):
    """MKNOD of a named pipe."""
    return Call(11, handle(directory) + name(entry) + word(7) + settings(), lambda behind: behind, UNTOLD_BOTH)


def other_procedure(number, arguments=b""):
    return Call(number, arguments, lambda behind=b"": behind, b"")
