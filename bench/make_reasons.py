#!/usr/bin/env python3
"""Makes histories with certificates that are no witnesses of them, each for the explanation of one fault: make_reasons.py FOLDER

It writes files NAME.history and NAME.certificate; some histories have several certificates. The comment beside each says what is wrong. `command_cases` has
what `nfsbench explain` says of each certificate. Histories that begin with `refused_` are refused, and have no certificate.
"""
import dataclasses
import pathlib
import sys

from cases import calls
from cases.history import (CRASH_EVENT, SEALED, STRICT, call_event, call_message, certificate, close_event, history_file, reply_event, reply_message,
                           start_directory, start_file, started_file)
from cases.xdr import (BAD_COOKIE, BADHANDLE, DATA_SYNC, EXIST, FILE_SYNC, ISDIR, NOENT, NOT_SYNC, NOTDIR, NOTEMPTY, OK, REG, STALE, TOOSMALL, UNSTABLE, UNTOLD,
                       attributes, double, flag, opaque, optional, word)

ROOT, FILE, OTHER, FOLDER, LINK = b"\0", b"\xaa", b"\xbb", b"\xd1", b"\x11"
FIRST, SECOND = 1, 2
ONE = [(FILE, 1)]


class Story:
    """Events, in order, each call on a lane of its own, and certificates."""

    def __init__(self, objects=None, profile=0):
        self.events, self.calls, self.objects, self.profile = [], [], objects, profile
        self.certificates = {}

    def ask(self, call):
        self.calls.append(call)
        number = len(self.calls)
        self.events.append(call_event(number, call_message(number, call.procedure, call.arguments)))
        return number

    def answer(self, number):
        self.events.append(reply_event(number, reply_message(number, self.calls[number - 1].result)))

    def exchange(self, *all_calls):
        for call in all_calls:
            self.answer(self.ask(call))

    def at_once(self, *all_calls):
        """Each begins before one is answered."""
        for number in [self.ask(call) for call in all_calls]:
            self.answer(number)

    def crash(self):
        self.events.append(CRASH_EVENT)

    def certify(self, name, lines, binds=ONE):
        self.certificates[name] = certificate(lines, binds)

    def in_order(self, name, binds=ONE):
        self.certify(name, placed(*range(1, len(self.calls) + 1)), binds)

    def file(self):
        if self.objects is None:
            return history_file(self.events, ROOT)
        return started_file(self.events, self.objects, self.profile, ROOT)


def placed(*numbers):
    return [f"place {number}" for number in numbers]


CREATE = calls.create(ROOT, "f").gives(FILE)
WRITE = calls.write(FILE, 0, b"abc").gives()
SIX = calls.write(FILE, 0, b"abcdef").gives()


# ---- a reply that the tree doesn't take, one for each procedure

def reason_getattr():
    """The size from before a SETATTR. In another order the GETATTR stands ahead of the SETATTR, which had ended when it began."""
    it = Story()
    it.exchange(CREATE, WRITE, calls.set_attributes(FILE, size=1).gives(), calls.get_attributes(FILE).gives(REG, 3))
    it.in_order("reason_getattr")
    it.certify("reason_early", placed(1, 2, 4, 3))
    return it


def reason_setattr():
    """NOT_SYNC, and there was no guard."""
    it = Story()
    it.exchange(CREATE, calls.set_attributes(FILE, size=5).fails(NOT_SYNC))
    it.in_order("reason_setattr")
    return it


def reason_lookup():
    """The file that a RENAME took away."""
    it = Story()
    it.exchange(CREATE, calls.create(ROOT, "g").gives(OTHER), calls.rename(ROOT, "f", ROOT, "g").gives(), calls.look_up(ROOT, "g").gives(OTHER))
    it.in_order("reason_lookup", [(FILE, 1), (OTHER, 2)])
    return it


def reason_readlink():
    """Another text."""
    it = Story()
    it.exchange(calls.make_link(ROOT, "l", b"a/b").gives(LINK), calls.read_link(LINK).gives(b"a/c"))
    it.in_order("reason_readlink", [(LINK, 1)])
    return it


def reason_read():
    """Two bytes from before the last WRITE."""
    digits = b"0123456789" * 4
    it = Story()
    it.exchange(CREATE, calls.write(FILE, 0, digits).gives(), calls.write(FILE, 20, b"XY").gives(), calls.read(FILE, 8, 24).gives(digits[8:32], False))
    it.in_order("reason_read")
    return it


def reason_read_long():
    """More bytes than were asked for: four for three, one for none, and four for two, of which half lie behind the file's end, with the count that was asked
    for and without `eof`."""
    it = Story()
    it.exchange(CREATE, SIX)
    it.at_once(calls.read(FILE, 0, 3).gives(b"abcd", False), calls.read(FILE, 0, 0).gives(b"a", False),
               calls.read(FILE, 4, 2).gives(b"efgh", False, told=2))
    it.certify("reason_read_long", placed(1, 2, 3, 4, 5))
    it.certify("reason_read_none", placed(1, 2, 4, 3, 5))
    it.certify("reason_read_wrong", placed(1, 2, 5, 3, 4))
    return it


def reason_read_count():
    """All bytes, and the count of half of them."""
    it = Story()
    it.exchange(CREATE, SIX, calls.read(FILE).gives(b"abcdef", True, told=3))
    it.in_order("reason_read_count")
    return it


def reason_read_no_eof():
    """All bytes, none from behind the end, and none of a file that is empty until the WRITE: each time `eof` is left out."""
    it = Story()
    it.exchange(CREATE)
    it.at_once(SIX, calls.read(FILE).gives(b"abcdef", False), calls.read(FILE, 10, 5).gives(b"", False), calls.read(FILE, 0, 0).gives(b"", False))
    it.certify("reason_read_no_eof", placed(1, 2, 3, 4, 5))
    it.certify("reason_read_behind", placed(1, 2, 4, 3, 5))
    it.certify("reason_read_empty", placed(1, 5, 2, 3, 4))
    return it


def reason_read_eof():
    """Half of the bytes, which may be, and `eof`."""
    it = Story()
    it.exchange(CREATE, SIX, calls.read(FILE).gives(b"abc", True))
    it.in_order("reason_read_eof")
    return it


def reason_read_short():
    """Half of the bytes, which may be. Attributes are judged: it tells that the file has seven."""
    it = Story([], STRICT)
    success = word(OK) + optional(attributes(REG, 7)) + word(3) + flag(False) + opaque(b"abc")
    it.exchange(CREATE, SIX, dataclasses.replace(calls.read(FILE), result=success))
    it.in_order("reason_read_short")
    return it


def reason_write():
    """Less safe than was asked."""
    it = Story()
    it.exchange(CREATE, calls.write(FILE, 0, b"abc", FILE_SYNC).gives(at=UNSTABLE))
    it.in_order("reason_write")
    return it


def reason_create():
    """GUARDED, and the name is there."""
    it = Story()
    it.exchange(CREATE, calls.create_guarded(ROOT, "f").gives(OTHER))
    it.in_order("reason_create", [(FILE, 1), (OTHER, 2)])
    return it


def reason_mkdir():
    """EXIST, and the name was removed."""
    it = Story()
    it.exchange(calls.make_directory(ROOT, "d").gives(FOLDER), calls.remove_directory(ROOT, "d").gives(), calls.make_directory(ROOT, "d").fails(EXIST))
    it.in_order("reason_mkdir", [(OTHER, 3), (FOLDER, 1)])
    return it


def reason_symlink():
    """With the handle of a file."""
    it = Story()
    it.exchange(CREATE, calls.make_link(ROOT, "l", b"a/b").gives(FILE))
    it.in_order("reason_symlink")
    return it


def reason_remove():
    """Of a directory."""
    it = Story()
    it.exchange(calls.make_directory(ROOT, "d").gives(FOLDER), calls.remove(ROOT, "d").gives())
    it.in_order("reason_remove", [(FOLDER, 1)])
    return it


def reason_rmdir():
    """Of a directory that isn't empty."""
    it = Story()
    it.exchange(calls.make_directory(ROOT, "d").gives(FOLDER), calls.create(FOLDER, "f").gives(FILE), calls.remove_directory(ROOT, "d").gives())
    it.in_order("reason_rmdir", [(FILE, 2), (FOLDER, 1)])
    return it


def reason_rename():
    """Onto a directory that isn't empty."""
    it = Story()
    it.exchange(calls.make_directory(ROOT, "d").gives(FOLDER), calls.make_directory(ROOT, "e").gives(OTHER), calls.create(OTHER, "f").gives(FILE),
                calls.rename(ROOT, "d", ROOT, "e").gives())
    it.in_order("reason_rename", [(FILE, 3), (FOLDER, 1), (OTHER, 2)])
    return it


def reason_readdir():
    """A name twice, one that isn't there, and one left out."""
    it = Story()
    it.exchange(CREATE, calls.create(ROOT, "g").gives(OTHER), calls.list_names(ROOT).gives([".", "..", "f", "f", "h"], True))
    it.in_order("reason_readdir", [(FILE, 1), (OTHER, 2)])
    return it


def reason_readdirplus():
    """One file's handle beside another's name."""
    it = Story()
    it.exchange(CREATE, calls.create(ROOT, "g").gives(OTHER), calls.list_entries(ROOT).gives([("f", FILE), ("g", FILE)], True))
    it.in_order("reason_readdirplus", [(FILE, 1), (OTHER, 2)])
    return it


def reason_commit():
    """STALE, and the file is there."""
    it = Story()
    it.exchange(CREATE, calls.write(FILE, 0, b"abc", UNSTABLE).gives(), calls.commit(FILE).fails(STALE))
    it.in_order("reason_commit")
    return it


# ---- other calls that can't have come out so

def reason_gone():
    """A READ of a file that was removed. Where the WRITE, which got no reply, is taken as done behind the removal, that is at fault ahead of it."""
    it = Story()
    it.exchange(CREATE)
    writing = it.ask(calls.write(FILE, 0, b"abc"))
    it.exchange(calls.remove(ROOT, "f").gives(), calls.read(FILE).gives(b"", True))
    it.certify("reason_gone", placed(1, 3, 4))
    it.certify("reason_taken", [*placed(1, 3), f"take {writing} 3", *placed(4)])
    return it


def reason_claims():
    """In a directory with a file, both there from the start, failures without a cause. All calls overlap, and each certificate begins with another one."""
    it = Story([start_directory(0, b"d"), start_file(1, b"f", b"abc")])
    it.at_once(calls.look_up(FOLDER, "f").fails(NOENT), calls.list_names(FOLDER).fails(NOTDIR), calls.write(FILE, 0, b"x").fails(ISDIR),
               calls.remove_directory(FOLDER, "e").fails(NOTEMPTY), calls.get_attributes(FOLDER).fails(BADHANDLE), calls.list_names(FOLDER).fails(BAD_COOKIE),
               calls.read(FILE).fails(TOOSMALL))
    for number, name in enumerate(["noent", "notdir", "isdir", "notempty", "badhandle", "bad_cookie", "toosmall"], 1):
        others = [other for other in range(1, 8) if other != number]
        it.certify(f"reason_{name}", placed(number, *others), [(FILE, 2), (FOLDER, 1)])
    return it


def reason_quoted():
    """Names that would end a quotation, a line or a direction of text. The last is told absent, and is there."""
    first, second = b'a" UNCHECKED\n2 reply', b"\\\x7f\xe2\x80\xae\xff"
    it = Story()
    it.exchange(calls.create(ROOT, first).gives(FILE), calls.rename(ROOT, first, ROOT, second).gives(), calls.look_up(ROOT, second).fails(NOENT))
    it.in_order("reason_quoted")
    return it


def reason_strict():
    """Attributes are judged: a WRITE of three bytes to a new file tells that it has four then."""
    it = Story([], STRICT)
    success = word(OK) + UNTOLD + optional(attributes(REG, 4)) + word(3) + word(FILE_SYNC) + double(FIRST)
    it.exchange(CREATE, dataclasses.replace(WRITE, result=success))
    it.in_order("reason_strict")
    return it


# ---- crashes

def reason_lost():
    """A WRITE that was committed is lost. Where both WRITEs are lost, a READ gives more than is there."""
    it = Story()
    it.exchange(CREATE, WRITE, calls.write(FILE, 0, b"xyz", UNSTABLE).gives(), calls.commit(FILE, 2, 1).gives())
    it.crash()
    it.exchange(calls.read(FILE, 0, 10).gives(b"abc", True))
    it.certify("reason_lost_commit", [*placed(1, 2, 3, 4), "cut 2", *placed(5)])
    it.certify("reason_lost_read", [*placed(1, 2, 3, 4), "cut 1", *placed(5)])
    return it


def reason_synced():
    """A WRITE that was asked for UNSTABLE and answered DATA_SYNC is lost."""
    it = Story()
    it.exchange(CREATE, calls.write(FILE, 0, b"abc", UNSTABLE).gives(at=DATA_SYNC))
    it.crash()
    it.certify("reason_lost_write", [*placed(1, 2), "cut 1"])
    return it


def reason_verifiers():
    """Two write verifiers in one era."""
    it = Story()
    it.exchange(CREATE, WRITE, calls.commit(FILE).gives(SECOND))
    it.in_order("reason_verifiers")
    return it


def reason_hidden():
    """An UNSTABLE WRITE is lost, and its verifier is shown again. Behind it comes one more that is lost, and brought no bytes."""
    it = Story()
    it.exchange(CREATE, calls.write(FILE, 0, b"abc", UNSTABLE).gives(verifier=FIRST), calls.write(FILE, 0, b"", UNSTABLE).gives(verifier=FIRST))
    it.crash()
    it.exchange(calls.read(FILE, 0, 10).gives(b"", True), calls.commit(FILE).gives(FIRST))
    it.certify("reason_hidden", [*placed(1, 2, 3), "cut 1", *placed(4, 5)])
    return it


# ---- plans that are none of these calls

def reason_shape():
    """Each certificate has too few eras, or one place or cut that can't be. The last loses the CREATE of the file that is read behind the crash."""
    it = Story()
    it.exchange(CREATE, calls.write(FILE, 0, b"abc", UNSTABLE).gives())
    it.ask(calls.write(FILE, 3, b"de", UNSTABLE))
    it.ask(calls.get_attributes(FILE))
    it.ask(calls.remove(ROOT, "f"))
    it.exchange(dataclasses.replace(calls.other_procedure(0), result=b""))
    it.crash()
    it.exchange(calls.read(FILE, 0, 10).gives(b"abc", True))
    it.certify("reason_wrong_eras", placed(1, 2, 7))
    plans = {"unknown": placed(1, 2, 8), "twice": placed(1, 2, 1), "unjudged": placed(1, 2, 6), "unanswered": placed(1, 2, 3),
             "answered": ["place 1", "take 2 3"], "no_change": [*placed(1, 2), "take 4"], "no_count": [*placed(1, 2), "take 3"],
             "long_count": [*placed(1, 2), "take 3 9"], "count": [*placed(1, 2), "take 5 1"], "missing": placed(1)}
    for name, lines in plans.items():
        it.certify(f"reason_{name}", [*lines, "cut 2", *placed(7)])
    it.certify("reason_wrong_era", [*placed(1, 2, 7), "cut 2"])
    it.certify("reason_bad_cut", [*placed(1, 2), "cut 5", *placed(7)])
    it.certify("reason_lost_file", [*placed(1, 2), "cut 0", *placed(7)])
    return it


# ---- files that are refused, each for another fault: the two here of a call's end or a version, those below by their events

def sent(call, xid=1, lane=1, **head):
    return call_event(lane, call_message(xid, call.procedure, call.arguments, **head))


def answered(result, xid=1, lane=1):
    return reply_event(lane, reply_message(xid, result))


ASKED = calls.get_attributes(ROOT)
TWO_ANSWERED = [sent(CREATE), answered(CREATE.result)]
REFUSED = {
    # the magic of a version that there isn't
    "magic": b"NFSHIST3" + history_file([])[8:],
    # a message of one byte more than there may be
    "length": history_file([word(0) + word(1) + word(2097153)]),
    "kind": history_file([*TWO_ANSWERED, word(9)]),
    "profile": started_file([], [], 2),
    # a byte behind the last event
    "behind": history_file(TWO_ANSWERED) + b"\0",
    "closed": history_file([*TWO_ANSWERED, close_event(1), sent(ASKED, 2)]),
    # a lane from before a crash
    "crashed": history_file([*TWO_ANSWERED, CRASH_EVENT, sent(ASKED, 2)]),
    # RPC of version 3
    "call": history_file([call_event(1, word(1) + word(0) + word(3) + call_message(1, 1, b"")[12:])]),
    # a call where a reply has to be
    "reply": history_file([sent(ASKED), reply_event(1, call_message(1, 1, b""))]),
    "transaction": history_file([sent(ASKED), sent(CREATE)]),
    "sealed": history_file([sent(ASKED, flavor=SEALED)]),
    # a handle of 65 bytes
    "arguments": history_file([call_event(1, call_message(1, 1, word(65) + bytes(68)))]),
    # of a READ the flag of the file's end is 2; the reply isn't the event behind the call
    "result": history_file([sent(calls.read(FILE)), sent(ASKED, 2, 2), answered(word(NOENT), 2, 2),
                            answered(word(OK) + word(0) + word(0) + word(2) + word(0))]),
    # a LINK that is answered without a status
    "status": history_file([sent(calls.link(FILE, ROOT, "g")), answered(b"")]),
    "link": history_file([sent(calls.link(FILE, ROOT, "g"))]),
    "node": history_file([sent(calls.make_node(ROOT, "n")), answered(word(OK) + bytes(12))]),
    # of three bytes a count of four
    "count": history_file([sent(dataclasses.replace(WRITE, arguments=calls.write(FILE, 0, b"abc", count=4).arguments))]),
    # a size of one byte over 16 MiB
    "far": history_file([sent(calls.set_attributes(FILE, size=16777217))]),
}


MADE = [reason_getattr, reason_setattr, reason_lookup, reason_readlink, reason_read, reason_read_long, reason_read_count, reason_read_no_eof,
        reason_read_eof, reason_read_short, reason_write, reason_create, reason_mkdir, reason_symlink, reason_remove, reason_rmdir, reason_rename,
        reason_readdir, reason_readdirplus, reason_commit, reason_gone, reason_claims, reason_quoted, reason_strict, reason_lost, reason_synced,
        reason_verifiers, reason_hidden, reason_shape]


def main():
    folder = pathlib.Path(sys.argv[1])
    folder.mkdir(parents=True, exist_ok=True)
    for make in MADE:
        it = make()
        (folder / f"{make.__name__}.history").write_bytes(it.file())
        for name, text in it.certificates.items():
            (folder / f"{name}.certificate").write_text(text)
    for name, data in REFUSED.items():
        (folder / f"refused_{name}.history").write_bytes(data)


if __name__ == "__main__":
    main()
