"""The messages of NFS version 3 (RFC 1813, sections 2.5, 2.6 and 3.3): arguments and results of the fifteen procedures that are judged."""
from .items import Chain, Choice, Fixed, Flag, Hyper, Opaque, Optional, Source, Struct, Word

PROGRAM, VERSION = 100003, 3

NULL, GETATTR, SETATTR, LOOKUP, ACCESS, READLINK, READ, WRITE, CREATE, MKDIR, SYMLINK, MKNOD = range(12)
REMOVE, RMDIR, RENAME, LINK, READDIR, READDIRPLUS, FSSTAT, FSINFO, PATHCONF, COMMIT = range(12, 22)

NAMES = ["NULL", "GETATTR", "SETATTR", "LOOKUP", "ACCESS", "READLINK", "READ", "WRITE", "CREATE", "MKDIR", "SYMLINK", "MKNOD", "REMOVE", "RMDIR",
         "RENAME", "LINK", "READDIR", "READDIRPLUS", "FSSTAT", "FSINFO", "PATHCONF", "COMMIT"]
UNJUDGED = {NULL, ACCESS, MKNOD, LINK, FSSTAT, FSINFO, PATHCONF}
JUDGED = set(range(22)) - UNJUDGED
MODIFYING = {SETATTR, WRITE, CREATE, MKDIR, SYMLINK, REMOVE, RMDIR, RENAME}

REGULAR, DIRECTORY, LINK_TYPE = 1, 2, 5
UNCHECKED, GUARDED, EXCLUSIVE = 0, 1, 2
UNSTABLE, DATA_SYNC, FILE_SYNC = 0, 1, 2

STATUSES = {
    "OK": 0, "PERM": 1, "NOENT": 2, "IO": 5, "NXIO": 6, "ACCES": 13, "EXIST": 17, "XDEV": 18, "NODEV": 19, "NOTDIR": 20, "ISDIR": 21, "INVAL": 22,
    "FBIG": 27, "NOSPC": 28, "ROFS": 30, "MLINK": 31, "NAMETOOLONG": 63, "NOTEMPTY": 66, "DQUOT": 69, "STALE": 70, "REMOTE": 71,
    "BADHANDLE": 10001, "NOT_SYNC": 10002, "BAD_COOKIE": 10003, "NOTSUPP": 10004, "TOOSMALL": 10005, "SERVERFAULT": 10006, "BADTYPE": 10007,
    "JUKEBOX": 10008,
}
STATUS_NAMES = {number: name for name, number in STATUSES.items()}

HANDLE_LIMIT = 64

handle = Opaque(HANDLE_LIMIT)
name = Opaque()
time = Struct(seconds=Word(), nanoseconds=Word())
attributes = Struct(type=Word(range(1, 8)), mode=Word(), nlink=Word(), uid=Word(), gid=Word(), size=Hyper(), used=Hyper(), rdev_major=Word(),
                    rdev_minor=Word(), fsid=Hyper(), fileid=Hyper(), atime=time, mtime=time, ctime=time)
post = Optional(attributes)
weak = Struct(before=Optional(Struct(size=Hyper(), mtime=time, ctime=time)), after=post)
when = Choice(_0=None, _1=None, _2=time)
wanted = Struct(mode=Optional(Word()), uid=Optional(Word()), gid=Optional(Word()), size=Optional(Hyper()), atime=when, mtime=when)
verifier = Fixed(8)
level = Word(range(3))

ARGUMENTS = {
    GETATTR: Struct(object=handle),
    SETATTR: Struct(object=handle, new=wanted, guard=Optional(time)),
    LOOKUP: Struct(dir=handle, name=name),
    READLINK: Struct(object=handle),
    READ: Struct(object=handle, offset=Hyper(), count=Word()),
    WRITE: Struct(object=handle, offset=Hyper(), count=Word(), level=level, data=Opaque()),
    CREATE: Struct(dir=handle, name=name, how=Choice(_0=wanted, _1=wanted, _2=verifier)),
    MKDIR: Struct(dir=handle, name=name, new=wanted),
    SYMLINK: Struct(dir=handle, name=name, new=wanted, text=Opaque()),
    REMOVE: Struct(dir=handle, name=name),
    RMDIR: Struct(dir=handle, name=name),
    RENAME: Struct(dir=handle, name=name, to_dir=handle, to_name=name),
    READDIR: Struct(dir=handle, cookie=Hyper(), verifier=verifier, count=Word()),
    READDIRPLUS: Struct(dir=handle, cookie=Hyper(), verifier=verifier, dircount=Word(), maxcount=Word()),
    COMMIT: Struct(object=handle, offset=Hyper(), count=Word()),
}

made = Struct(handle=Optional(handle), post=post, weak=weak)
changed = Struct(weak=weak)
entry = Struct(fileid=Hyper(), name=name, cookie=Hyper())
entry_plus = Struct(fileid=Hyper(), name=name, cookie=Hyper(), post=post, handle=Optional(handle))

RESULTS = {
    GETATTR: Struct(attributes=attributes),
    SETATTR: changed,
    LOOKUP: Struct(handle=handle, post=post, dir_post=post),
    READLINK: Struct(post=post, text=Opaque()),
    READ: Struct(post=post, count=Word(), eof=Flag(), data=Opaque()),
    WRITE: Struct(weak=weak, count=Word(), level=level, verifier=verifier),
    CREATE: made,
    MKDIR: made,
    SYMLINK: made,
    REMOVE: changed,
    RMDIR: changed,
    RENAME: Struct(weak=weak, to_weak=weak),
    READDIR: Struct(post=post, verifier=verifier, entries=Chain(entry), eof=Flag()),
    READDIRPLUS: Struct(post=post, verifier=verifier, entries=Chain(entry_plus), eof=Flag()),
    COMMIT: Struct(weak=weak, verifier=verifier),
}

FAILURES = {
    GETATTR: Struct(),
    RENAME: Struct(weak=weak, to_weak=weak),
    **{procedure: Struct(post=post) for procedure in (LOOKUP, READLINK, READ, READDIR, READDIRPLUS)},
    **{procedure: changed for procedure in (SETATTR, WRITE, CREATE, MKDIR, SYMLINK, REMOVE, RMDIR, COMMIT)},
}


def result_kind(procedure: int, status: int) -> Struct:
    """What stands behind the status word."""
    return FAILURES[procedure] if status else RESULTS[procedure]


def read_result(procedure: int, data: bytes):
    """The status and what stands behind it."""
    source = Source(data)
    status = Word(STATUS_NAMES).read(source)
    value = result_kind(procedure, status).read(source)
    source.end()
    return status, value
