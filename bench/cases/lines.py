"""History files, and the lines that are shown of their events. The lines are told from the bytes, after RFC 1813, RFC 5531 and
docs/FORMATS.md."""
import struct

from cases import messages, recorded
from cases.faults import EXAMPLE
from cases.history import (CRASH_EVENT, GARBAGE_ARGS, PROGRAM, SEALED, STRICT, VERSION, call_event, call_message, close_event, history_file,
                           reply_event, reply_message, start_directory, start_file, start_link, started_file)
from cases.xdr import FILE_SYNC, OK, STALE, UNTOLD, UNTOLD_BOTH, attributes, double, flag, handle, name, opaque, optional, word

# RFC 1813, sections 3.3 and 2.6, and RFC 5531, section 9.
PROCEDURES = ("NULL GETATTR SETATTR LOOKUP ACCESS READLINK READ WRITE CREATE MKDIR SYMLINK MKNOD REMOVE RMDIR RENAME LINK READDIR "
              "READDIRPLUS FSSTAT FSINFO PATHCONF COMMIT").split()
STATUSES = {0: "NFS3_OK", **{number: "NFS3ERR_" + called for number, called in {
    1: "PERM", 2: "NOENT", 5: "IO", 6: "NXIO", 13: "ACCES", 17: "EXIST", 18: "XDEV", 19: "NODEV", 20: "NOTDIR", 21: "ISDIR",
    22: "INVAL", 27: "FBIG", 28: "NOSPC", 30: "ROFS", 31: "MLINK", 63: "NAMETOOLONG", 66: "NOTEMPTY", 69: "DQUOT", 70: "STALE",
    71: "REMOTE", 10001: "BADHANDLE", 10002: "NOT_SYNC", 10003: "BAD_COOKIE", 10004: "NOTSUPP", 10005: "TOOSMALL",
    10006: "SERVERFAULT", 10007: "BADTYPE", 10008: "JUKEBOX"}.items()}}
LEVELS = ["UNSTABLE", "DATA_SYNC", "FILE_SYNC"]
TYPES = dict(enumerate(["NF3REG", "NF3DIR", "NF3BLK", "NF3CHR", "NF3LNK", "NF3SOCK", "NF3FIFO"], 1))
REFUSALS = ["AUTH_OK", "AUTH_BADCRED", "AUTH_REJECTEDCRED", "AUTH_BADVERF", "AUTH_REJECTEDVERF", "AUTH_TOOWEAK", "AUTH_INVALIDRESP",
            "AUTH_FAILED", "AUTH_KERB_GENERIC", "AUTH_TIMEEXPIRE", "AUTH_TKT_FILE", "AUTH_DECODE", "AUTH_NET_ADDR",
            "RPCSEC_GSS_CREDPROBLEM", "RPCSEC_GSS_CTXPROBLEM"]
ACCEPTED = ["SUCCESS", "PROG_UNAVAIL", "PROG_MISMATCH", "PROC_UNAVAIL", "GARBAGE_ARGS", "SYSTEM_ERR"]

# The procedures whose arguments and results are told in words.
TOLD = (1, 2, 3, 5, 6, 7, 8, 9, 10, 12, 13, 14, 16, 17, 21)


class Unreadable(Exception):
    """An item can't be read; its offset."""


class Items:
    """Items of XDR from the front of some bytes."""

    def __init__(self, data):
        self.data, self.at = data, 0

    def take(self, count):
        if len(self.data) - self.at < count:
            raise Unreadable(self.at)
        self.at += count
        return self.data[self.at - count:self.at]

    def word(self, most=2**32 - 1, least=0):
        at = self.at
        number = struct.unpack(">I", self.take(4))[0]
        if not least <= number <= most:
            raise Unreadable(at)
        return number

    def double(self):
        return struct.unpack(">Q", self.take(8))[0]

    def opaque(self, most=2**32 - 1):
        at = self.at
        try:
            length = self.word(most)
            return self.take(length + -length % 4)[:length]
        except Unreadable:
            raise Unreadable(at)

    def optional(self, item):
        return item() if self.word(1) else None

    def rest(self):
        return self.data[self.at:]

    def end(self):
        if self.rest():
            raise Unreadable(self.at)


def quoted(text):
    def shown(byte):
        if byte in b'"\\':
            return "\\" + chr(byte)
        return chr(byte) if 32 <= byte <= 126 else "\\x%02x" % byte

    return '"%s"' % "".join(map(shown, text))


def hexed(data):
    return data.hex() or "empty"


def first_bytes(data):
    shown = " " + data[:16].hex() if data else ""
    return "%d bytes%s%s" % (len(data), shown, ".." if len(data) > 16 else "")


def place(items):
    return "%s name %s" % (hexed(items.opaque(64)), quoted(items.opaque()))


def time(items):
    return "%d s %d ns" % (items.word(), items.word())


def set_attributes(items):
    told = [("mode", items.optional(items.word)), ("user", items.optional(items.word)), ("group", items.optional(items.word)),
            ("size", items.optional(items.double))]
    words = [" %s %s" % (what, "0%o" % number if what == "mode" else number) for what, number in told if number is not None]
    for what in ("access", "modify"):
        way = items.word(2)
        if way:
            words.append(" %s time %s" % (what, "SET_TO_SERVER_TIME" if way == 1 else time(items)))
    return "".join(words)


def verifier(items):
    return items.take(8).hex()


def arguments(procedure, items):
    if procedure == 1:
        return "object " + hexed(items.opaque(64))
    if procedure == 2:
        told = "object %s%s" % (hexed(items.opaque(64)), set_attributes(items))
        guard = items.optional(lambda: time(items))
        return told if guard is None else "%s guard %s" % (told, guard)
    if procedure in (3, 12, 13):
        return "directory " + place(items)
    if procedure == 5:
        return "link " + hexed(items.opaque(64))
    if procedure in (6, 21):
        return "file %s offset %d count %d" % (hexed(items.opaque(64)), items.double(), items.word())
    if procedure == 7:
        told = "file %s offset %d count %d" % (hexed(items.opaque(64)), items.double(), items.word())
        return "%s %s data %s" % (told, LEVELS[items.word(2)], first_bytes(items.opaque()))
    if procedure == 8:
        told = "directory " + place(items)
        mode = items.word(2)
        if mode == 2:
            return "%s EXCLUSIVE verifier %s" % (told, verifier(items))
        return "%s %s%s" % (told, ["UNCHECKED", "GUARDED"][mode], set_attributes(items))
    if procedure == 9:
        return "directory %s%s" % (place(items), set_attributes(items))
    if procedure == 10:
        told, setting = place(items), set_attributes(items)
        return "directory %s target %s%s" % (told, quoted(items.opaque()), setting)
    if procedure == 14:
        return "from directory %s to directory %s" % (place(items), place(items))
    told = "directory %s cookie %d verifier %s" % (hexed(items.opaque(64)), items.double(), verifier(items))
    if procedure == 16:
        return "%s count %d" % (told, items.word())
    return "%s dircount %d maxcount %d" % (told, items.word(), items.word())


def attributes_of(items):
    of_type = TYPES[items.word(7, 1)]
    mode, links, user, group = (items.word() for _ in range(4))
    size, _used = items.double(), items.double()
    _device = items.word(), items.word()
    _system, number = items.double(), items.double()
    times(items, 3)
    return " %s mode 0%o links %d user %d group %d size %d fileid %d" % (of_type, mode, links, user, group, size, number)


def times(items, count):
    for _ in range(2 * count):
        items.word()


def if_there(items):
    return items.optional(lambda: attributes_of(items)) or ""


def both(items):
    """Attributes before and after, which aren't told."""
    items.optional(lambda: (items.double(), times(items, 2)))
    if_there(items)


def entries(items, plus):
    words = []
    while items.word(1):
        items.double()
        words.append(" " + quoted(items.opaque()))
        items.double()
        if plus:
            if_there(items)
            given = items.optional(lambda: hexed(items.opaque(64)))
            words[-1] += "" if given is None else " object " + given
    return " entries %d%s%s" % (len(words), "".join(words), " eof" if items.word(1) else "")


def success(procedure, items):
    if procedure == 1:
        return attributes_of(items)
    if procedure == 3:
        told = " object %s%s" % (hexed(items.opaque(64)), if_there(items))
        if_there(items)
        return told
    if procedure == 5:
        if_there(items)
        return " target " + quoted(items.opaque())
    if procedure == 6:
        if_there(items)
        told = " count %d%s" % (items.word(), " eof" if items.word(1) else "")
        return "%s data %s" % (told, first_bytes(items.opaque()))
    if procedure == 7:
        both(items)
        return " count %d %s verifier %s" % (items.word(), LEVELS[items.word(2)], verifier(items))
    if procedure in (8, 9, 10):
        given = items.optional(lambda: hexed(items.opaque(64)))
        told = (" no object" if given is None else " object " + given) + if_there(items)
        both(items)
        return told
    if procedure in (16, 17):
        if_there(items)
        verifier(items)
        return entries(items, procedure == 17)
    both(items)
    if procedure == 14:
        both(items)
    return " verifier " + verifier(items) if procedure == 21 else ""


def failure(procedure, items):
    """What stands behind the status isn't told."""
    if procedure in (2, 7, 8, 9, 10, 12, 13, 14, 21):
        both(items)
    if procedure == 14:
        both(items)
    if procedure in (3, 5, 6, 16, 17):
        if_there(items)


def result(procedure, items):
    status = items.word()
    if status not in STATUSES:
        raise Unreadable(0)
    if status == OK:
        return " NFS3_OK" + success(procedure, items)
    failure(procedure, items)
    return " " + STATUSES[status]


def rest(what, data):
    return " %s %s" % (what, first_bytes(data)) if data else ""


def in_words(what, of, procedure, data):
    """The items in words, or where the first at fault stands."""
    items = Items(data)
    try:
        words = of(procedure, items)
        items.end()
        return words
    except Unreadable as fault:
        return " bad %s %s fault at byte %d" % (what, first_bytes(data), fault.args[0])


def auth(items):
    flavor = items.word()
    items.opaque(400)
    return flavor


def call_head(message):
    """Transaction number, program, version, procedure, flavor and arguments, or none."""
    items = Items(message)
    try:
        xid = items.word()
        items.word(0)
        items.word(2, 2)
        head = items.word(), items.word(), items.word()
        flavor = auth(items)
        auth(items)
        return xid, *head, flavor, items.rest()
    except Unreadable:
        return None


def reply_head(message):
    """Transaction number, the words of an RPC failure or none, and the result, or none."""
    items = Items(message)
    try:
        xid = items.word()
        items.word(1, 1)
        if items.word(1) == 0:
            auth(items)
            state = items.word(5)
            if state == 0:
                return xid, None, items.rest()
            words = " " + ACCEPTED[state] + (" low %d high %d" % (items.word(), items.word()) if state == 2 else "")
        elif items.word(1) == 0:
            words = " RPC_MISMATCH low %d high %d" % (items.word(), items.word())
        else:
            why = items.word()
            words = " AUTH_ERROR %s" % (REFUSALS[why] if why < len(REFUSALS) else why)
        items.end()
        return xid, words, b""
    except Unreadable:
        return None


def called(program, version, procedure):
    if (program, version) != (PROGRAM, VERSION):
        return " program %d version %d procedure %d" % (program, version, procedure)
    return " " + PROCEDURES[procedure] if procedure < 22 else " procedure %d" % procedure


def call_words(program, version, procedure, flavor, data):
    words = called(program, version, procedure)
    if flavor == SEALED:
        return words + " sealed" + rest("arguments", data)
    if (program, version) != (PROGRAM, VERSION):
        return words + rest("arguments", data)
    if procedure in TOLD:
        told = in_words("arguments", lambda number, items: " " + arguments(number, items), procedure, data)
        return words + told
    if procedure in (4, 11, 15, 18, 19, 20):
        items = Items(data)
        try:
            words += " object " + hexed(items.opaque(64))
        except Unreadable:
            return words + rest("arguments", data)
        return words + rest("arguments", items.rest())
    return words + rest("arguments", data)


def reply_words(asked, failed, data):
    if asked is None:
        return failed or " SUCCESS" + rest("results", data)
    program, version, procedure, flavor = asked
    words = called(program, version, procedure)
    if failed:
        return words + failed
    if flavor == SEALED:
        return words + " SUCCESS sealed" + rest("results", data)
    if (program, version) == (PROGRAM, VERSION) and procedure in TOLD:
        return words + in_words("results", result, procedure, data)
    if (program, version) == (PROGRAM, VERSION) and 0 < procedure < 22 and len(data) >= 4:
        status = Items(data).word()
        return words + " " + STATUSES.get(status, "status %d" % status) + rest("results", data[4:])
    return words + " SUCCESS" + rest("results", data)


class Refused(Exception):
    """A fault of a start. It is told alone, since the whole start is read before the first line."""


def start_words(number, parent, called, kind, told):
    where = "start %d in %d" % (number, parent)
    if kind == 1:
        return "%s file %s %s" % (where, quoted(called), first_bytes(told))
    return "%s directory %s" % (where, quoted(called)) if kind == 2 else "%s link %s to %s" % (where, quoted(called), quoted(told))


def start_told(items, opaque_within):
    """The lines of the profile and of the starting objects of a history of version 2."""
    profile = items.word()
    if profile > 1:
        raise Refused("BadProfile")
    count = items.word()
    if count > 1_000_000:
        raise OverflowError
    lines, directories, names = ["profile strict"] * profile, {0}, set()
    for number in range(1, count + 1):
        bad = Refused("BadStart %d" % number)
        parent = items.double()
        if parent not in directories:
            raise bad
        called = opaque_within(1_048_576)
        if called in (b"", b".", b"..") or (parent, called) in names:
            raise bad
        names.add((parent, called))
        kind = items.word()
        if kind not in (1, 2, 5):
            raise bad
        told = b"" if kind == 2 else opaque_within(16_777_216 if kind == 1 else 1_048_576)
        if kind == 2:
            directories.add(number)
        lines.append(start_words(number, parent, called, kind, told))
    return lines


def lines_of(data, first=1, last=1_000_000, only=0):
    """The lines that are shown of a file, and its fault, where it has one."""
    if data[:8] not in (b"NFSHIST1", b"NFSHIST2"):
        return ["BadMagic"]
    items, lines = Items(data), []
    items.take(8)

    def fault():
        return lines + ["Truncated"]

    def opaque_within(most):
        length = items.word()
        if length > most:
            raise OverflowError
        return items.take(length + -length % 4)[:length]

    def show(number, call, words):
        if first <= number <= last and only in (0, call):
            lines.append("%d %s" % (number, words))

    try:
        opaque_within(64)
        told = start_told(items, opaque_within) if data[:8] == b"NFSHIST2" else []
        count = items.word()
        if count > 1_000_000:
            return ["TooLarge"]
        if first <= 1 and only == 0:
            lines += told
        calls, unanswered = 0, {}
        for number in range(1, count + 1):
            kind = items.word()
            if kind > 3:
                return lines + ["BadEvent %d" % number]
            if kind == 3:
                show(number, None, "crash")
                continue
            lane = items.word()
            if kind == 2:
                show(number, None, "close lane %d" % lane)
                continue
            message = opaque_within(2_097_152)
            if kind == 0:
                calls += 1
                head = call_head(message)
                front = "call %d lane %d" % (calls, lane)
                if head is None:
                    show(number, calls, "%s no RPC call %s" % (front, first_bytes(message)))
                    continue
                xid, *asked, told = head
                unanswered[lane, xid] = calls, asked
                show(number, calls, "%s xid 0x%08x%s" % (front, xid, call_words(*asked, told)))
                continue
            head = reply_head(message)
            if head is None:
                show(number, None, "reply to no call lane %d no RPC reply %s" % (lane, first_bytes(message)))
                continue
            xid, failed, told = head
            call, asked = unanswered.pop((lane, xid), (None, None))
            to = "no call" if call is None else "call %d" % call
            show(number, call, "reply to %s lane %d xid 0x%08x%s" % (to, lane, xid, reply_words(asked, failed, told)))
        if items.rest():
            return lines + ["Trailing"]
    except Unreadable:
        return fault()
    except OverflowError:
        return lines + ["TooLarge"]
    except Refused as refused:
        return [str(refused)]
    return lines


def add_all(cases):
    of_recorded(cases)
    of_messages(cases)
    of_names(cases)
    of_other_calls(cases)
    of_rpc(cases)
    of_replies(cases)
    of_files(cases)
    of_selections(cases)
    of_starts(cases)


def show(cases, case, data, *selection, told=None):
    """`told` are the lines, where they are written here: they are those of the bytes."""
    lines = lines_of(data, *selection)
    assert told is None or lines == told, (case, lines)
    assert all(" " <= letter <= "~" for line in lines for letter in line), case
    first, last, only = (*selection, 1, 1_000_000, 0)[:3] if len(selection) == 3 else (1, 1_000_000, 0)
    case = "lines-of-" + case
    cases.add_text(case, "%s lines %d %d %d %s\n" % (case, first, last, only, data.hex()), "".join(line + "\n" for line in [case + ":", *lines]))


def one_call(procedure, data, result=None, lane=1, xid=7, **head):
    events = [call_event(lane, call_message(xid, procedure, data, **head))]
    return history_file(events if result is None else events + [reply_event(lane, reply_message(xid, result))])


def of_recorded(cases):
    """Files that no code of this folder has made."""
    for case, _answer, data, _text in recorded.entries():
        show(cases, case, data)


def of_messages(cases):
    """A call of each procedure, with a success and a failure, and each of these cut off."""
    for case, procedure, asked, success_text, failure_text in messages.LAYOUTS:
        show(cases, case, one_call(procedure, asked, success_text))
        show(cases, case + "-fails", one_call(procedure, asked, failure_text))
        show(cases, case + "-cut", one_call(procedure, asked[:-4], success_text[:-4]))
        show(cases, case + "-and-more", one_call(procedure, asked + word(0), failure_text + word(0)))
    show(cases, "example", EXAMPLE, told=[
        '1 call 1 lane 1 xid 0x00000001 CREATE directory 00 name "a" UNCHECKED',
        "2 reply to call 1 lane 1 xid 0x00000001 CREATE NFS3_OK object aa",
        "3 call 2 lane 1 xid 0x00000002 WRITE file aa offset 0 count 3 FILE_SYNC data 3 bytes 616263",
        "4 reply to call 2 lane 1 xid 0x00000002 WRITE NFS3_OK count 3 FILE_SYNC verifier 0000000000000001",
        "5 call 3 lane 2 xid 0x00000003 READ file aa offset 0 count 10",
        "6 reply to call 3 lane 2 xid 0x00000003 READ NFS3_OK count 3 eof data 3 bytes 616263",
    ])
    for status in STATUSES:
        show(cases, "status-%d" % status, one_call(13, handle(0) + name("d"), word(status) + UNTOLD_BOTH))
    for of_type in TYPES:
        show(cases, "type-%d" % of_type, one_call(1, handle(0), word(OK) + attributes(of_type, 5)))


def of_names(cases):
    """Names, handles and data of all bytes."""
    every = bytes(range(256))
    show(cases, "name-of-every-byte", one_call(3, handle(0) + name(every)))
    show(cases, "name-with-a-line-feed", one_call(12, handle(0) + name(b'a\n"b"\\\x7f\xff ~'), word(STALE) + UNTOLD_BOTH), told=[
        '1 call 1 lane 1 xid 0x00000007 REMOVE directory 00 name "a\\x0a\\"b\\"\\\\\\x7f\\xff ~"',
        "2 reply to call 1 lane 1 xid 0x00000007 REMOVE NFS3ERR_STALE",
    ])
    show(cases, "name-of-no-bytes", one_call(13, handle(b"") + name("")))
    show(cases, "target-of-every-byte", one_call(5, handle(every[:64]), word(OK) + UNTOLD + opaque(every)))
    for length in (0, 1, 15, 16, 17, 1000):
        data = every[:length] if length < 256 else bytes(length)
        show(cases, "data-of-%d-bytes" % length, one_call(7, handle(1) + double(2**64 - 1) + word(length) + word(FILE_SYNC) + opaque(data)))
    for mode in (0, 7, 8, 0o644, 0o7777, 2**32 - 1):
        setting = optional(word(mode)) + bytes(20)
        show(cases, "mode-%o" % mode, one_call(9, handle(0) + name("d") + setting))
    show(cases, "time-of-the-server", one_call(2, handle(0) + bytes(16) + word(1) + word(1) + word(0)))


def of_other_calls(cases):
    """Calls whose procedures or programs aren't told in words."""
    for number in (0, 4, 11, 15, 18, 19, 20, 22):
        show(cases, "procedure-%d" % number, one_call(number, handle(b"\xaa\xbb") + word(31), word(OK) + UNTOLD + word(31)))
        show(cases, "procedure-%d-without-arguments" % number, one_call(number, b"", b""))
        show(cases, "procedure-%d-with-a-long-handle" % number, one_call(number, word(65) + bytes(68), word(99) + word(1)))
    show(cases, "program-of-mounts", one_call(1, opaque(b"/export"), word(0) + handle(0), program=100005))
    show(cases, "version-2", one_call(1, bytes(32), word(0), version=2))
    show(cases, "sealed", one_call(3, handle(0) + name("a"), word(OK), flavor=SEALED))
    show(cases, "sealed-without-arguments", one_call(0, b"", b"", flavor=SEALED))


def of_rpc(cases):
    """Messages that are no calls and no replies (RFC 5531, section 9), and calls that RPC refused."""
    call, reply = call_message(7, 1, handle(0)), reply_message(7, word(STALE))
    for case, message in (("no-bytes", b""), ("three-bytes", b"abc"), ("a-reply", reply), ("version-3", call[:11] + b"\3" + call[12:]),
                          ("a-long-credential", call[:28] + word(401) + call[32:])):
        show(cases, "no-call-of-" + case, history_file([call_event(1, message), reply_event(1, reply)]))
    for case, message in (("no-bytes", b""), ("a-call", call), ("state-2", reply[:8] + word(2) + reply[12:])):
        show(cases, "no-reply-of-" + case, history_file([call_event(1, call), reply_event(1, message)]))

    def answered(case, answer):
        show(cases, case, history_file([call_event(1, call), reply_event(1, word(7) + word(1) + answer)]))

    accepted, denied = word(0) + word(0) + word(0), word(1)
    answered("prog-unavail", accepted + word(1))
    answered("prog-mismatch", accepted + word(2) + word(2) + word(4))
    answered("proc-unavail", accepted + word(3))
    answered("garbage-args", accepted + word(GARBAGE_ARGS))
    answered("system-err", accepted + word(5))
    answered("rpc-mismatch", denied + word(0) + word(1) + word(3))
    answered("garbage-args-and-more", accepted + word(4) + word(0))
    for why in (*range(15), 15, 2**32 - 1):
        answered("auth-error-%d" % why, denied + word(1) + word(why))


def of_replies(cases):
    """Which call a reply answers."""
    def call(xid, procedure=1, data=handle(0)):
        return call_message(xid, procedure, data)

    stale = word(STALE)
    show(cases, "replies-to-no-call", history_file([reply_event(1, reply_message(9, stale)), reply_event(1, word(9) + word(1) + word(1) + word(1) + word(1))]),
         told=["1 reply to no call lane 1 xid 0x00000009 SUCCESS results 4 bytes 00000046",
               "2 reply to no call lane 1 xid 0x00000009 AUTH_ERROR AUTH_BADCRED"])
    show(cases, "replies-in-another-order", history_file([
        call_event(1, call(1)), call_event(1, call(2, 3, handle(0) + name("a"))), call_event(2, call(1, 5)),
        reply_event(1, reply_message(2, stale + UNTOLD)), reply_event(2, reply_message(1, stale + UNTOLD)), reply_event(1, reply_message(1, stale)),
        reply_event(1, reply_message(1, stale)), call_event(1, call(1)), reply_event(2, reply_message(1, stale))]))
    show(cases, "xid-in-use", history_file([call_event(1, call(1)), call_event(1, call(1, 5)), reply_event(1, reply_message(1, stale + UNTOLD)),
                                            reply_event(1, reply_message(1, stale))]))
    show(cases, "closes-and-crashes", history_file([CRASH_EVENT, close_event(2**32 - 1), call_event(1, call(2**32 - 1)), CRASH_EVENT, close_event(1)]),
         told=["1 crash", "2 close lane 4294967295", "3 call 1 lane 1 xid 0xffffffff GETATTR object 00", "4 crash", "5 close lane 1"])


def of_files(cases):
    """Files at fault, with what stands ahead of the fault."""
    show(cases, "file-of-no-bytes", b"", told=["BadMagic"])
    show(cases, "file-of-another-magic", b"NFSHIST3" + EXAMPLE[8:], told=["BadMagic"])
    show(cases, "file-of-the-other-version", b"NFSHIST2" + EXAMPLE[8:], told=["BadProfile"])
    show(cases, "file-of-a-magic", b"NFSHIST1", told=["Truncated"])
    show(cases, "file-with-a-root-of-65-bytes", history_file([], root=bytes(65)), told=["TooLarge"])
    show(cases, "file-without-a-count", history_file([])[:-4], told=["Truncated"])
    show(cases, "file-of-too-many-events", history_file([])[:-4] + word(1_000_001), told=["TooLarge"])
    show(cases, "file-of-no-events", history_file([]), told=[])
    show(cases, "file-with-an-event-missing", history_file([])[:-4] + word(1), told=["Truncated"])
    show(cases, "file-with-a-byte-behind", EXAMPLE + b"\0")
    for length in (20, 23, 31, 116, 180, 200, 300, len(EXAMPLE) - 1):
        show(cases, "file-cut-at-%d" % length, EXAMPLE[:length])
    show(cases, "file-of-an-unknown-event", history_file([CRASH_EVENT, word(4)]), told=["1 crash", "BadEvent 2"])
    show(cases, "file-of-a-long-message", history_file([CRASH_EVENT, word(1) + word(1) + word(2_097_153)]), told=["1 crash", "TooLarge"])


def of_selections(cases):
    """Some of the events."""
    show(cases, "events-from-3", EXAMPLE, 3, 1_000_000, 0)
    show(cases, "events-to-3", EXAMPLE, 1, 3, 0)
    show(cases, "event-4", EXAMPLE, 4, 4, 0)
    show(cases, "no-event", EXAMPLE, 5, 4, 0, told=[])
    show(cases, "events-to-0", EXAMPLE, 0, 0, 0, told=[])
    for call in (1, 2, 3, 4):
        show(cases, "call-%d" % call, EXAMPLE, 1, 1_000_000, call)
    show(cases, "call-2-from-4", EXAMPLE, 4, 1_000_000, 2)
    show(cases, "call-without-closes", history_file([CRASH_EVENT, close_event(2), call_event(1, call_message(1, 0, b"")), CRASH_EVENT]), 1, 9, 1)
    show(cases, "fault-behind-the-selection", EXAMPLE[:-1], 1, 2, 0)


def of_starts(cases):
    """What a server held at first, and the profile, ahead of the events."""
    objects = [start_file(0, "a", b"abc"), start_directory(0, "d"), start_link(2, "l", b"../a"), start_file(2, b"\x01\"", bytes(range(20)))]
    told = ['start 1 in 0 file "a" 3 bytes 616263', 'start 2 in 0 directory "d"', 'start 3 in 2 link "l" to "../a"',
            'start 4 in 2 file "\\x01\\"" 20 bytes 000102030405060708090a0b0c0d0e0f..']
    plain, strict = started_file([CRASH_EVENT], objects), started_file([CRASH_EVENT], objects, STRICT)
    show(cases, "start", plain, told=[*told, "1 crash"])
    show(cases, "strict-start", strict, told=["profile strict", *told, "1 crash"])
    show(cases, "start-of-nothing", started_file([], []), told=[])
    show(cases, "start-of-nothing-and-strict", started_file([], [], STRICT), told=["profile strict"])
    show(cases, "events-behind-a-start", strict, 2, 1_000_000, 0, told=[])
    show(cases, "call-behind-a-start", strict, 1, 1_000_000, 1, told=[])
    show(cases, "start-without-events", strict, 1, 0, 0, told=["profile strict", *told])
    show(cases, "start-with-an-object-at-fault", started_file([CRASH_EVENT], [*objects, start_directory(1, "e")]), told=["BadStart 5"])
    show(cases, "start-of-an-unknown-profile", started_file([CRASH_EVENT], objects, 2), told=["BadProfile"])
    for length in (19, 23, 40, len(plain) - 9, len(plain) - 5, len(plain) - 1):
        show(cases, "start-cut-at-%d" % length, plain[:length])
