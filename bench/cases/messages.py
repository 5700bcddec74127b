"""Messages, history files and certificates that are read, and written again, and faults of each kind of item."""
from cases import grammar
from cases.faults import CREATE, EXAMPLE, READ, WRITE
from cases.history import (CRASH_EVENT, STRICT, call_event, call_message, close_event, history_file, reply_event, reply_message,
                           start_directory, start_file, start_link, started_file)
from cases.xdr import (ACCES, BAD_COOKIE, EXIST, INVAL, IO, ISDIR, JUKEBOX, NAMETOOLONG, NOENT, NOSPC, NOT_SYNC, NOTEMPTY, OK, PERM, STALE,
                       TOOSMALL, UNTOLD, UNTOLD_BOTH, XDEV, DQUOT, double, flag, handle, name, opaque, optional, word)

# Each item of these has a number of its own (RFC 1813, section 2.6).
FATTR = b"".join([word(1), word(0o644), word(1), word(2), word(3), double(5), double(4096), word(6), word(7), double(8), double(9),
                  *(word(n) for n in range(10, 16))])
POST_OP_ATTR = optional(FATTR)
WCC_DATA = optional(double(3) + word(1) + word(2) + word(3) + word(4)) + POST_OP_ATTR
AFTER = UNTOLD + POST_OP_ATTR
BEFORE = optional(double(3) + word(1) + word(2) + word(3) + word(4)) + UNTOLD
MODE_GROUP_TIMES = optional(word(0o600)) + UNTOLD + optional(word(7)) + optional(double(5)) + word(1) + word(2) + word(16) + word(17)
NOTHING_SET = bytes(24)
VERIFIER = bytes(range(1, 9))
D1, AA = handle(b"\xd1"), handle(b"\xaa")
A = name("a")

# A call of each procedure, a success and a failure (section 3.3).
LAYOUTS = [
    ("getattr", 1, D1, word(OK) + FATTR, word(STALE)),
    ("setattr", 2, AA + MODE_GROUP_TIMES + optional(word(18) + word(19)), word(OK) + WCC_DATA, word(NOT_SYNC) + UNTOLD_BOTH),
    ("lookup", 3, D1 + A, word(OK) + AA + POST_OP_ATTR + UNTOLD, word(NOENT) + POST_OP_ATTR),
    ("readlink", 5, AA, word(OK) + UNTOLD + opaque(b"b/c"), word(INVAL) + POST_OP_ATTR),
    ("read", 6, AA + double(1) + word(10), word(OK) + UNTOLD + word(2) + flag(True) + opaque(b"bc"), word(ISDIR) + UNTOLD),
    ("write", 7, AA + double(2**32) + word(3) + word(1) + opaque(b"abc"), word(OK) + WCC_DATA + word(3) + word(2) + VERIFIER,
     word(NOSPC) + WCC_DATA),
    ("create-guarded", 8, D1 + A + word(1) + MODE_GROUP_TIMES, word(OK) + optional(AA) + POST_OP_ATTR + UNTOLD_BOTH, word(EXIST) + WCC_DATA),
    ("create-exclusive", 8, D1 + A + word(2) + VERIFIER, word(OK) + UNTOLD + UNTOLD + UNTOLD_BOTH, word(ACCES) + UNTOLD_BOTH),
    ("mkdir", 9, D1 + A + MODE_GROUP_TIMES, word(OK) + optional(AA) + UNTOLD + WCC_DATA, word(DQUOT) + UNTOLD_BOTH),
    ("symlink", 10, D1 + A + NOTHING_SET + opaque(b"b/c"), word(OK) + UNTOLD + POST_OP_ATTR + WCC_DATA, word(NAMETOOLONG) + WCC_DATA),
    ("remove", 12, D1 + A, word(OK) + WCC_DATA, word(PERM) + UNTOLD_BOTH),
    ("rmdir", 13, D1 + A, word(OK) + UNTOLD_BOTH, word(NOTEMPTY) + WCC_DATA),
    ("rename", 14, D1 + A + AA + name("bc"), word(OK) + WCC_DATA + UNTOLD_BOTH, word(XDEV) + UNTOLD_BOTH + WCC_DATA),
    ("readdir", 16, D1 + double(2) + VERIFIER + word(4096),
     word(OK) + POST_OP_ATTR + VERIFIER + flag(True) + double(8) + A + double(1) + flag(True) + double(9) + name("bc") + double(2)
     + flag(False) + flag(True), word(BAD_COOKIE) + UNTOLD),
    ("readdirplus", 17, D1 + double(0) + VERIFIER + word(512) + word(8192),
     word(OK) + UNTOLD + VERIFIER + flag(True) + double(8) + A + double(1) + POST_OP_ATTR + optional(AA) + flag(True) + double(9) + name("bc")
     + double(2) + UNTOLD + UNTOLD + flag(False) + flag(False), word(TOOSMALL) + POST_OP_ATTR),
    ("commit", 21, AA + double(0) + word(0), word(OK) + WCC_DATA + VERIFIER, word(IO) + UNTOLD_BOTH),
    ("setattr-of-nothing", 2, AA + NOTHING_SET + UNTOLD, word(OK) + BEFORE, word(JUKEBOX) + AFTER),
]


def add_all(cases):
    runs(cases)
    layouts(cases)
    statuses(cases)
    argument_faults(cases)
    result_faults(cases)
    padding(cases)
    damage(cases)
    rpc_calls(cases)
    rpc_replies(cases)
    histories(cases)
    certificates(cases)
    streams(cases)


def message(cases, case, kind, procedure, data, answer):
    # The answer that is written here is also that of the grammars.
    assert answer == grammar.answer(kind, procedure, data), case
    cases.add(case, "%s %s %d %s\n" % (case, kind, procedure, data.hex()), answer)


def runs(cases):
    """The calls of the example history, and their results."""
    for case, call in (("create", CREATE), ("write", WRITE), ("read", READ)):
        message(cases, "the-%s-of-a-run" % case, "call", call.procedure, call.arguments, "ok")
        message(cases, "the-%s-of-a-run-is-answered" % case, "result", call.procedure, call.result, "ok")


def layouts(cases):
    for case, procedure, arguments, success, failure in LAYOUTS:
        message(cases, case, "call", procedure, arguments, "ok")
        message(cases, case + "-succeeds", "result", procedure, success, "ok")
        message(cases, case + "-fails", "result", procedure, failure, "ok")


def statuses(cases):
    """A status that RFC 1813 has is read, and one that it doesn't have is not."""
    for status in (1, 2, 5, 6, 13, 17, 18, 19, 20, 21, 22, 27, 28, 30, 31, 63, 66, 69, 70, 71, *range(10001, 10009)):
        message(cases, "status-%d" % status, "result", 1, word(status), "ok")
    for status in (3, 4, 7, 12, 14, 16, 23, 26, 29, 32, 62, 64, 65, 67, 68, 72, 10000, 10009, 2**32 - 1):
        message(cases, "status-%d-is-none" % status, "result", 1, word(status), "at byte 0: a word is outside its list")


def argument_faults(cases):
    def bad(case, procedure, data, answer):
        message(cases, case, "call", procedure, data, answer)

    bad("a-call-without-arguments", 1, b"", "at byte 0: bytes are missing")
    bad("data-of-which-two-bytes-are-missing", 7, WRITE.arguments[:30], "at byte 24: bytes are missing")
    bad("a-read-with-the-arguments-of-a-write", 6, WRITE.arguments, "at byte 20: bytes stand behind the last item")
    bad("a-level-of-three", 7, AA + double(0) + word(3) + word(3) + opaque(b"abc"), "at byte 20: a word is outside its list")
    bad("a-create-in-mode-three", 8, D1 + A + word(3), "at byte 16: a word is outside its list")
    bad("a-time-that-is-set-in-way-three", 2, AA + bytes(16) + word(3), "at byte 24: a word is outside its list")
    bad("a-mode-that-is-set-or-not", 2, AA + word(2), "at byte 8: a flag is neither 0 nor 1")
    bad("a-guard-that-is-there-or-not", 2, AA + NOTHING_SET + word(2), "at byte 32: a flag is neither 0 nor 1")
    for number in (0, 4, 11, 15, 18, 19, 20, 22):
        bad("procedure-%d-is-not-read" % number, number, READ.arguments, "at byte 0: the procedure is not judged")
    bad("a-handle-over-64-bytes-of-which-none-is-there", 6, word(65), "at byte 0: a length is over its limit")
    bad("a-handle-of-64-bytes", 1, opaque(bytes(64)), "ok")
    bad("a-handle-of-no-bytes", 1, opaque(b""), "ok")
    bad("a-name-of-the-most-bytes-of-which-one-is-there", 3, D1 + word(2**32 - 1) + b"a\0\0\0", "at byte 8: bytes are missing")
    bad("a-second-handle-over-64-bytes", 14, D1 + A + word(65), "at byte 16: a length is over its limit")


def result_faults(cases):
    def bad(case, procedure, data, answer):
        message(cases, case, "result", procedure, data, answer)

    bad("a-result-of-no-bytes", 1, b"", "at byte 0: bytes are missing")
    bad("an-end-of-two", 6, READ.result[:15] + b"\2" + READ.result[16:], "at byte 12: a flag is neither 0 nor 1")
    bad("a-created-file-of-status-three", 8, word(3) + CREATE.result[4:], "at byte 0: a word is outside its list")
    bad("attributes-of-type-eight", 6, word(JUKEBOX) + flag(True) + word(8), "at byte 8: a word is outside its list")
    bad("attributes-of-type-zero", 1, word(OK) + word(0) + bytes(80), "at byte 4: a word is outside its list")
    bad("a-list-that-does-not-end", 16, word(OK) + UNTOLD + double(1) + flag(True) + double(8) + A + double(1), "at byte 44: bytes are missing")
    bad("a-given-handle-over-64-bytes", 3, word(OK) + word(65), "at byte 4: a length is over its limit")
    bad("a-failure-with-a-byte-behind-it", 1, word(STALE) + b"\0", "at byte 4: bytes stand behind the last item")
    bad("a-result-of-access", 4, word(OK), "at byte 0: the procedure is not judged")


def padding(cases):
    """Bytes behind a name or data are read, whatever they are, and written as zeros."""
    message(cases, "a-name-with-bytes-behind-it", "call", 3, D1 + word(1) + b"axyz", "respelled")
    message(cases, "data-with-a-byte-behind-it", "result", 6, READ.result[:-1] + b"x", "respelled")
    message(cases, "a-handle-with-bytes-behind-it", "call", 1, word(1) + b"\xd1\0\0\1", "respelled")


def damage(cases):
    """Each message cut off and with other bits, at places that look random. The grammars say what is at fault."""
    seed = 1

    def number(below):
        nonlocal seed
        seed = (seed * 6364136223846793005 + 1442695040888963407) % 2**64
        return (seed >> 33) % below

    for case, procedure, *texts in LAYOUTS:
        for kind, what, text in zip(("call", "result", "result"), ("", "-success", "-failure"), texts):
            for turn in range(8):
                place = number(len(text))
                if turn < 3:
                    damaged, how = text[:place], "cut"
                else:
                    damaged, how = text[:place] + bytes([text[place] ^ 1 << number(8)]) + text[place + 1:], "changed"
                message(cases, "%s%s-%s-%d" % (case, what, how, turn), kind, procedure, damaged, grammar.answer(kind, procedure, damaged))


def rpc_call_with(flavor, credential, verifier):
    return call_message(1, 8, b"")[:24] + word(flavor) + opaque(credential) + word(0) + opaque(verifier) + b"b"


def rpc_calls(cases):
    """The heads of calls (RFC 5531, section 9). What is written has no credential."""

    def head(case, data, answer):
        cases.add(case, "%s rpc-call %s\n" % (case, data.hex()), answer)

    create, reply = call_message(1, 8, CREATE.arguments), reply_message(1, CREATE.result)
    head("a-create-is-called", create, "ok")
    head("another-program-is-called", call_message(2**32 - 1, 7, b"abc", program=100_005, version=9), "ok")
    head("a-call-without-arguments-behind-its-head", create[:40], "ok")
    head("a-head-that-is-cut", create[:39], "bytes are missing")
    head("an-rpc-call-of-no-bytes", b"", "bytes are missing")
    head("a-reply-as-a-call", reply, "the message is no call")
    head("a-call-without-its-number", create[4:], "a word is none of its list")
    head("a-call-in-version-three-of-the-protocol", create[:11] + b"\3" + create[12:], "the version of the protocol isn't 2")
    for flavor in (0, 1, 6, 99):
        head("an-rpc-credential-of-flavor-%d" % flavor, rpc_call_with(flavor, b"abcde", b"xyz"), "respelled")
    head("a-credential-and-a-verifier-of-400-bytes", rpc_call_with(1, bytes(400), bytes(400)), "respelled")
    head("a-credential-of-401-bytes", rpc_call_with(1, bytes(401), b""), "a credential or a verifier is too long")
    head("a-verifier-of-401-bytes", rpc_call_with(1, b"", bytes(401)), "a credential or a verifier is too long")


def rpc_replies(cases):
    """The heads of replies (RFC 5531, section 9)."""

    def head(case, data, answer):
        cases.add(case, "%s rpc-reply %s\n" % (case, data.hex()), answer)

    def accepted(state, behind=b""):
        return word(9) + word(1) + word(0) + word(0) + word(0) + word(state) + behind

    def denied(state, behind=b""):
        return word(9) + word(1) + word(1) + word(state) + behind

    head("a-create-is-answered", reply_message(1, CREATE.result), "ok")
    head("three-bytes-of-a-result", accepted(0, b"abc"), "ok")
    head("no-such-program", accepted(1), "ok")
    head("versions-2-to-4-of-the-program", accepted(2, word(2) + word(4)), "ok")
    head("no-such-procedure", accepted(3), "ok")
    head("garbage-as-arguments", accepted(4), "ok")
    head("a-fault-of-the-system", accepted(5), "ok")
    head("versions-1-to-3-of-the-protocol", denied(0, word(1) + word(3)), "ok")
    head("a-credential-that-is-too-weak", denied(1, word(5)), "ok")
    head("a-reply-with-a-verifier", word(9) + word(1) + word(0) + word(1) + opaque(b"abcde") + word(0) + b"abc", "respelled")
    head("a-call-as-a-reply", call_message(1, 8, CREATE.arguments), "the message is no reply")
    head("an-rpc-reply-of-no-bytes", b"", "bytes are missing")
    head("versions-of-which-one-is-missing", accepted(2, word(2)), "bytes are missing")
    head("garbage-with-a-word-behind-it", accepted(4, word(0)), "bytes stand behind the reply")
    head("an-accepted-reply-in-no-state", accepted(6), "a word is none of its list")
    head("a-denied-reply-in-no-state", denied(2), "a word is none of its list")
    head("a-reply-neither-accepted-nor-denied", word(9) + word(1) + word(2), "a word is none of its list")
    head("a-verifier-over-400-bytes", word(9) + word(1) + word(0) + word(0) + word(401), "a credential or a verifier is too long")


def streams(cases):
    """The records of a stream (RFC 5531, section 11): a last fragment's header has its first bit set. What is written of a record is one
    fragment, and of what is no whole record nothing."""
    last = 1 << 31

    def stream(case, data, answer):
        cases.add(case, "%s records %s\n" % (case, data.hex()), answer)

    two = word(last + 3) + b"abc" + word(last) + word(last + 9) + b"abcdefghi"
    stream("a-stream-of-no-bytes", b"", "ok")
    stream("three-records-one-of-them-empty", two, "ok")
    stream("a-record-of-two-fragments", word(2) + b"ab" + word(last + 1) + b"c", "respelled")
    stream("a-record-with-empty-fragments", word(0) + word(0) + word(last + 1) + b"c", "respelled")
    stream("a-stream-that-breaks-off", two[:-1], "respelled")
    stream("a-header-of-the-longest-record", word(last + 2097152), "respelled")
    stream("a-header-of-a-longer-record", word(last + 2097153), "a record is over its limit")
    stream("a-second-fragment-that-takes-a-record-over-its-limit", word(1) + b"a" + word(last + 2097152), "a record is over its limit")


def histories(cases):
    """History files (docs/FORMATS.md), also where their messages are none."""

    def file(case, data, answer):
        cases.add(case, "%s history %s\n" % (case, data.hex()), answer)

    four = history_file([call_event(1, b"ab"), reply_event(1, b"c"), close_event(1), CRASH_EVENT], root=b"\xaa")
    file("a-file-of-each-kind-of-event", four, "ok")
    file("a-file-of-the-example", EXAMPLE, "ok")
    file("a-file-without-events", history_file([], root=b""), "ok")
    file("a-file-with-the-longest-root-handle", history_file([], root=bytes(64)), "ok")
    file("a-file-with-bytes-behind-its-root-handle", four[:13] + b"\0\0\1" + four[16:], "respelled")
    file("a-file-with-bytes-behind-a-message", four[:34] + b"\7\7" + four[36:], "respelled")
    file("a-file-of-another-magic", b"M" + four[1:], "BadMagic")
    file("a-file-with-a-root-handle-of-65-bytes", four[:11] + b"\x41" + four[12:], "TooLarge")
    file("a-file-of-five-events-of-which-four-are-there", four[:19] + b"\5" + four[20:], "Truncated")
    file("a-file-of-three-events-and-one-behind-them", four[:19] + b"\3" + four[20:], "Trailing")
    file("a-file-with-a-third-event-of-no-kind", four[:55] + b"\7" + four[56:], "BadEvent 3")

    objects = [start_file(0, "a", b"abcde"), start_directory(0, "d"), start_link(2, "l", b"../a"), start_file(2, b"", b"")]
    three = started_file([CRASH_EVENT], objects[:3], STRICT)
    file("a-file-of-each-kind-of-starting-object", three, "ok")
    file("a-file-of-no-starting-objects", started_file([], []), "ok")
    file("a-file-with-bytes-behind-a-starting-name", three[:37] + b"\1\2\3" + three[40:], "respelled")
    file("a-file-with-a-starting-object-of-no-name", started_file([], objects), "BadStart 4")
    file("a-file-of-a-third-profile", started_file([], objects[:3], 2), "BadProfile")
    file("a-file-with-a-starting-object-missing", started_file([], objects[:3], count=4), "Truncated")


def certificates(cases):
    """Certificates (docs/FORMATS.md), also such as don't end in a line feed."""

    def text(case, data, answer):
        cases.add(case, "%s certificate %s\n" % (case, data.encode().hex()), answer)

    text("a-certificate-of-binds-and-places", "witness 1\nbind aa 1\nplace 1\nplace 2\nplace 3\nend\n", "ok")
    text("a-certificate-of-eras",
         "witness 1\nbind 00ff 0\nbind 01 18446744073709551615\nplace 1\ntake 2 4294967295\ncut 0\ntake 3\ncut 18446744073709551615\nend\n", "ok")
    text("a-certificate-without-places", "witness 1\nend\n", "ok")
    text("a-certificate-with-the-longest-handle", "witness 1\nbind %s 7\nend\n" % ("ab" * 64), "ok")
    text("a-certificate-with-a-handle-of-65-bytes", "witness 1\nbind %s 7\nend\n" % ("ab" * 65), "BadLine 2")
    text("a-certificate-with-a-handle-of-no-bytes", "witness 1\nbind  7\nend\n", "BadLine 2")
    text("a-certificate-of-no-bytes", "", "BadLine 1")
    text("a-certificate-of-half-a-line", "witness 1", "BadLine 1")
    text("a-certificate-whose-end-has-no-line-feed", "witness 1\nplace 1\nend", "BadLine 3")
    text("a-certificate-with-an-empty-line-behind-it", "witness 1\nplace 1\nend\n\n", "BadLine 4")
    text("a-certificate-with-an-empty-line-in-it", "witness 1\n\nend\n", "BadLine 2")
