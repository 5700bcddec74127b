"""Items of XDR (RFC 4506) as bytes, and the structs of RFC 1813 that many messages have."""
import struct


def word(number):
    return struct.pack(">I", number)


def double(number):
    return struct.pack(">Q", number)


def flag(value):
    return word(1 if value else 0)


def opaque(data):
    """Bytes behind their length, filled up with zeros to a multiple of four."""
    return word(len(data)) + data + bytes(-len(data) % 4)


def optional(item):
    """An item behind a flag, or a flag alone where there is none."""
    return flag(False) if item is None else flag(True) + item


# The statuses of RFC 1813, section 2.6.
OK, PERM, NOENT, IO, NXIO, ACCES, EXIST, XDEV, NODEV, NOTDIR = 0, 1, 2, 5, 6, 13, 17, 18, 19, 20
ISDIR, INVAL, FBIG, NOSPC, ROFS, MLINK, NAMETOOLONG, NOTEMPTY, DQUOT, STALE = 21, 22, 27, 28, 30, 31, 63, 66, 69, 70
REMOTE, BADHANDLE, NOT_SYNC, BAD_COOKIE, NOTSUPP = 71, 10001, 10002, 10003, 10004
TOOSMALL, SERVERFAULT, BADTYPE, JUKEBOX = 10005, 10006, 10007, 10008

# The types of objects (section 2.3.4, ftype3), and how far data is written (section 3.3.7, stable_how).
REG, DIR, BLK, CHR, LNK, SOCK, FIFO = 1, 2, 3, 4, 5, 6, 7
UNSTABLE, DATA_SYNC, FILE_SYNC = 0, 1, 2


def handle(of):
    """A handle (nfs_fh3) of these bytes, or of the byte of this number."""
    return opaque(of if isinstance(of, bytes) else bytes([of]))


def name(text):
    return opaque(text if isinstance(text, bytes) else text.encode())


def attributes(of_type, size):
    """The attributes of an object (fattr3). None but these two is judged."""
    mode, links, user, group = word(0o644), word(1), word(0), word(0)
    used, device, system, number, times = double(size), double(0), double(0), double(1), bytes(24)
    return word(of_type) + mode + links + user + group + double(size) + used + device + system + number + times


def settings(size=None):
    """What of an object's attributes is to be set (sattr3): nothing, or its size."""
    mode, user, group, access_time, modify_time = word(0), word(0), word(0), word(0), word(0)
    return mode + user + group + optional(None if size is None else double(size)) + access_time + modify_time


# No attributes of an object (post_op_attr), and neither of before nor of after (wcc_data).
UNTOLD = word(0)
UNTOLD_BOTH = word(0) + word(0)
