"""Faults of histories (docs/FORMATS.md, the section on history files), and calls without effect."""
from cases.calls import create, link, make_node, other_procedure, read, write
from cases.history import (CRASH_EVENT, GARBAGE_ARGS, PROGRAM, SEALED, VERSION, call_event, call_message, certificate, close_event,
                           history_file, reply_event, reply_message)
from cases.xdr import NOTSUPP, OK, word

FILE = b"\xaa"
BINDS = [(FILE, 1)]
CREATE, WRITE, READ = create(0, "a").gives(FILE), write(FILE, 0, b"abc").gives(), read(FILE, 0, 10).gives(b"abc", True)


def sent(lane, xid, call, **head):
    return call_event(lane, call_message(xid, call.procedure, call.arguments, **head))


def answered(lane, xid, call):
    return reply_event(lane, reply_message(xid, call.result))


# A file is made and written on one lane, and read on another.
EXAMPLE = history_file([sent(1, 1, CREATE), answered(1, 1, CREATE), sent(1, 2, WRITE), answered(1, 2, WRITE), sent(2, 3, READ),
                        answered(2, 3, READ)])
CREATE_SENT, CREATE_ANSWERED = sent(1, 1, CREATE), answered(1, 1, CREATE)
# A call and a reply of no bytes, which are no RPC messages.
EMPTY_CALL, EMPTY_REPLY = call_event(1, b""), reply_event(1, b"")

NO_PLACES, ALL_PLACES = certificate([]), certificate(["place 1", "place 2", "place 3"], BINDS)


def add_all(cases):
    files(cases)
    changed_bytes(cases)
    two_changes(cases)
    transactions(cases)
    lanes(cases)
    first_events(cases)
    crashed_lanes(cases)
    calls_without_effect(cases)
    calls_with_an_effect(cases)
    sealed(cases)
    events_ahead_of_calls(cases)


def files(cases):
    def refused(case, answer, digits):
        cases.judge(case, answer, bytes.fromhex(digits), NO_PLACES)

    cases.judge("a-history-without-events", "yes", history_file([]), NO_PLACES)
    cases.judge("a-root-handle-of-64-bytes", "yes", history_file([], root=bytes(64)), NO_PLACES)
    refused("an-empty-file", "refused: BadMagic", "")
    refused("a-file-that-ends-in-its-magic", "refused: BadMagic", "4e465348495354")
    refused("a-file-that-ends-in-its-count", "refused: Truncated", "4e465348495354310000000100000000000000")
    refused("a-file-with-a-byte-behind-it", "refused: Trailing", "4e4653484953543100000001000000000000000000")
    refused("a-million-events-and-one", "refused: TooLarge", "4e465348495354310000000100000000000f4241")
    refused("a-million-events-of-which-none-is-there", "refused: Truncated", "4e465348495354310000000100000000000f4240")
    refused("an-event-of-no-kind", "refused: BadEvent 1", "4e4653484953543100000001000000000000000100000009")
    # The third event begins at byte 52.
    three = history_file([call_event(1, b"ab"), reply_event(1, b"c"), close_event(1), CRASH_EVENT])
    cases.judge("a-third-event-of-no-kind", "refused: BadEvent 3", three[:55] + b"\7" + three[56:], NO_PLACES)


def changed_bytes(cases):
    """The example with another byte at one place."""

    def changed(case, answer, at, byte):
        cases.judge(case, answer, with_byte(EXAMPLE, at, byte), ALL_PLACES)

    cases.judge("a-file-is-made-written-and-read", "yes", EXAMPLE, ALL_PLACES)
    changed("another-magic", "refused: BadMagic", 0, 0x4D)
    changed("a-root-handle-of-65-bytes", "refused: TooLarge", 11, 65)
    changed("sixteen-million-events", "refused: TooLarge", 17, 0xFF)
    changed("not-quite-a-million-events", "refused: Truncated", 17, 0x0F)
    changed("seven-events-of-which-six-are-there", "refused: Truncated", 19, 7)
    changed("five-events-and-one-behind-them", "refused: Trailing", 19, 5)
    changed("a-first-event-of-no-kind", "refused: BadEvent 1", 23, 9)
    # What follows the crash are the words of the call: a lane, which is read as a reply, and so on.
    changed("a-call-that-is-read-as-a-crash", "refused: BadEvent 5", 23, 3)
    changed("a-message-over-its-limit", "refused: TooLarge", 28, 0xFF)
    changed("a-call-that-is-a-reply", "refused: BadRpc 1", 39, 1)
    changed("a-reply-that-is-a-call", "refused: BadRpc 2", 135, 0)
    changed("a-reply-on-another-lane", "refused: NoSuchCall 2", 123, 2)
    changed("a-reply-to-another-transaction", "refused: NoSuchCall 2", 131, 9)
    changed("a-credential-that-hides-the-arguments", "refused: Sealed 3", 367, 6)
    changed("a-handle-of-too-many-bytes", "refused: BadArgs 3", 380, 1)
    changed("an-end-that-is-no-flag", "refused: BadResult 3", 443, 2)
    changed("a-count-that-is-not-that-of-the-data", "refused: Outside 2 CountDiffers", 251, 4)
    changed("a-write-far-behind-the-limit", "refused: Outside 2 TooFar", 240, 1)


def with_byte(data, at, byte):
    return data[:at] + bytes([byte]) + data[at + 1:]


def two_changes(cases):
    """The example with two faults, of which one is named."""

    def changed(case, answer, first, second):
        cases.judge(case, answer, with_byte(with_byte(EXAMPLE, *first), *second), ALL_PLACES)

    changed("bytes-behind-the-file-ahead-of-a-call", "refused: Trailing", (19, 5), (363, 1))
    changed("a-call-that-is-none-ahead-of-a-later-procedure", "refused: BadRpc 1", (39, 1), (363, 1))
    changed("a-call-that-is-none-ahead-of-a-later-reply", "refused: BadRpc 1", (39, 1), (135, 0))
    changed("a-reply-that-is-none-ahead-of-its-transaction", "refused: BadRpc 2", (135, 0), (131, 9))
    changed("an-earlier-call-ahead-of-a-later-one", "refused: Outside 2 CountDiffers", (251, 4), (380, 1))
    changed("a-sealed-call-ahead-of-its-arguments", "refused: Sealed 3", (367, 6), (380, 1))
    changed("arguments-ahead-of-the-result", "refused: BadArgs 3", (380, 1), (443, 2))


def history(cases, case, answer, *events, places=()):
    cases.judge(case, answer, history_file(events), certificate(places, BINDS))


def transactions(cases):
    history(cases, "a-transaction-number-still-in-use", "refused: XidInUse 2", CREATE_SENT, CREATE_SENT, CREATE_ANSWERED, CREATE_ANSWERED)
    history(cases, "a-second-reply-to-one-call", "refused: NoSuchCall 3", CREATE_SENT, CREATE_ANSWERED, CREATE_ANSWERED, CREATE_SENT)
    history(cases, "a-transaction-number-free-again", "yes", CREATE_SENT, CREATE_ANSWERED, CREATE_SENT, CREATE_ANSWERED,
            places=["place 1", "place 2"])
    history(cases, "a-transaction-number-on-two-lanes", "yes", CREATE_SENT, sent(2, 1, CREATE), answered(2, 1, CREATE), CREATE_ANSWERED,
            places=["place 1", "place 2"])
    history(cases, "a-reply-to-no-call", "refused: NoSuchCall 1", reply_event(1, reply_message(9, word(OK))))


def lanes(cases):
    one, two = close_event(1), close_event(2)
    history(cases, "a-call-on-a-closed-lane", "refused: LaneClosed 2", one, CREATE_SENT, CREATE_ANSWERED)
    history(cases, "a-reply-on-a-closed-lane", "refused: LaneClosed 3", CREATE_SENT, one, CREATE_ANSWERED)
    history(cases, "a-lane-that-is-closed-twice", "refused: LaneClosed 3", one, two, one)
    history(cases, "a-message-on-a-closed-lane-is-not-looked-at", "refused: LaneClosed 2", one, EMPTY_CALL, CREATE_ANSWERED)
    history(cases, "a-reply-message-on-a-closed-lane-is-not-looked-at", "refused: LaneClosed 2", one, EMPTY_REPLY, CREATE_ANSWERED)
    history(cases, "another-lane-closed-ahead", "yes", two, CREATE_SENT, CREATE_ANSWERED, places=["place 1"])
    history(cases, "another-lane-closed-between", "yes", CREATE_SENT, two, CREATE_ANSWERED, places=["place 1"])
    history(cases, "a-lane-closed-behind-its-reply", "yes", CREATE_SENT, CREATE_ANSWERED, one, places=["place 1"])
    history(cases, "a-lane-closed-ahead-of-its-reply", "yes", CREATE_SENT, one, two)


def first_events(cases):
    history(cases, "a-call-of-no-bytes", "refused: BadRpc 1", EMPTY_CALL, CREATE_ANSWERED)
    history(cases, "a-reply-of-no-bytes", "refused: BadRpc 1", EMPTY_REPLY, close_event(1))
    history(cases, "a-reply-to-no-call-ahead-of-a-bad-call", "refused: NoSuchCall 1", CREATE_ANSWERED, EMPTY_CALL)
    history(cases, "a-second-event-of-no-bytes", "refused: BadRpc 2", CREATE_SENT, EMPTY_REPLY)
    history(cases, "a-call-that-is-sent-twice", "refused: XidInUse 2", CREATE_SENT, CREATE_SENT)


def crashed_lanes(cases):
    """A crash closes each lane that had an event before it."""
    first, again = sent(1, 1, READ), answered(1, 1, READ)
    history(cases, "a-lane-used-again-behind-a-crash", "refused: LaneClosed 4", first, again, CRASH_EVENT, first)
    history(cases, "a-reply-behind-a-crash", "refused: LaneClosed 3", first, CRASH_EVENT, again)
    history(cases, "a-lane-closed-behind-a-crash", "refused: LaneClosed 3", first, CRASH_EVENT, close_event(1))
    history(cases, "a-lane-closed-ahead-of-a-crash", "refused: LaneClosed 3", close_event(1), CRASH_EVENT, first)
    history(cases, "a-lane-first-used-behind-a-crash", "refused: LaneClosed 4", CRASH_EVENT, first, CRASH_EVENT, first)
    history(cases, "a-reply-behind-two-crashes", "refused: LaneClosed 4", first, CRASH_EVENT, CRASH_EVENT, again)
    history(cases, "a-lane-that-was-never-used-is-open-behind-a-crash", "refused: NoSuchCall 3", first, CRASH_EVENT, answered(2, 1, READ))
    history(cases, "a-transaction-number-in-use-behind-a-crash", "refused: XidInUse 3", CRASH_EVENT, first, first)


def calls_without_effect(cases):
    """Each is accepted without a place, and can't get one."""
    garbage = reply_event(2, reply_message(3, b"", GARBAGE_ARGS))

    def unjudged(case, call, reply=None, **head):
        events = [sent(2, 3, call, **head), answered(2, 3, call) if reply is None else reply]
        history(cases, case, "yes", *events)
        history(cases, case + "-and-gets-no-place", "no: NotToPlace 1", *events, places=["place 1"])

    unjudged("another-program", READ, program=PROGRAM + 1)
    unjudged("another-version", READ, version=VERSION + 1)
    unjudged("a-call-of-nothing", other_procedure(0).gives())
    unjudged("an-access-that-failed", other_procedure(4, READ.arguments).fails(NOTSUPP))
    for number, procedure in ((18, "fsstat"), (19, "fsinfo"), (20, "pathconf"), (22, "procedure-22")):
        unjudged("a-call-of-" + procedure, other_procedure(number, READ.arguments).gives(b"of any bytes"))
    unjudged("a-link-that-failed", link(FILE, 0, "b").fails(NOTSUPP))
    unjudged("a-node-that-failed", make_node(0, "p").fails(NOTSUPP))
    unjudged("a-link-of-an-unknown-status", link(FILE, 0, "b").fails(3))
    unjudged("a-link-taken-for-garbage", link(FILE, 0, "b"), garbage)
    unjudged("attributes-taken-for-garbage", other_procedure(1, READ.arguments), garbage)
    unjudged("a-sealed-call-taken-for-garbage", READ, garbage, flavor=SEALED)
    unjudged("a-read-without-arguments-taken-for-garbage", other_procedure(6), garbage)
    history(cases, "a-call-of-nothing-without-a-reply", "yes", sent(2, 3, other_procedure(0)))


def calls_with_an_effect(cases):
    closed, short = close_event(1), reply_event(2, reply_message(3, b"\0\1\0"))
    for case, call, which in (("link", link(FILE, 0, "b").gives(bytes(12)), "Link"), ("node", make_node(0, "p").gives(bytes(12)), "Node")):
        asked = sent(2, 3, call)
        history(cases, "a-%s-that-succeeded" % case, "refused: Outside 1 " + which, asked, answered(2, 3, call))
        history(cases, "a-%s-without-a-reply" % case, "refused: Outside 1 " + which, asked, closed)
        history(cases, "a-%s-without-a-status" % case, "refused: BadResult 1", asked, short)
    history(cases, "a-read-without-a-status", "refused: BadResult 1", sent(2, 3, READ), short)
    history(cases, "a-read-without-arguments", "refused: BadArgs 1", sent(2, 3, other_procedure(6)))
    history(cases, "attributes-without-a-result", "refused: BadResult 1", sent(1, 1, other_procedure(1, READ.arguments[:8])),
            reply_event(1, reply_message(1, b"")))


def sealed(cases):
    """A credential of RPCSEC_GSS hides the arguments of any procedure."""
    asked = sent(2, 3, READ, flavor=SEALED)
    history(cases, "a-sealed-call-without-a-reply", "refused: Sealed 1", asked, close_event(1))
    history(cases, "a-sealed-call-that-failed", "refused: Sealed 1", asked, answered(2, 3, READ.fails(NOTSUPP)))
    history(cases, "a-sealed-call-of-nothing", "refused: Sealed 1", sent(2, 3, other_procedure(0), flavor=SEALED))
    for flavor in (1, 99):
        history(cases, "a-credential-of-flavor-%d" % flavor, "yes", sent(1, 1, CREATE, flavor=flavor), CREATE_ANSWERED, places=["place 1"])


def events_ahead_of_calls(cases):
    """A fault of any event comes ahead of those of calls."""
    bare, asked = sent(2, 3, other_procedure(6)), sent(2, 3, READ, flavor=SEALED)
    history(cases, "bad-arguments-and-a-close", "refused: BadArgs 1", bare, close_event(1))
    history(cases, "bad-arguments-and-a-transaction-in-use", "refused: XidInUse 2", bare, asked)
    history(cases, "bad-arguments-and-a-call-of-no-bytes", "refused: BadRpc 2", bare, EMPTY_CALL)
    history(cases, "a-sealed-call-and-a-crash", "refused: Sealed 1", asked, CRASH_EVENT)
    history(cases, "a-call-of-no-bytes-and-a-crash", "refused: BadRpc 1", EMPTY_CALL, CRASH_EVENT)
    history(cases, "a-sealed-call-behind-another", "refused: Sealed 2", CREATE_SENT, asked)
    history(cases, "a-sealed-call-behind-a-close", "refused: Sealed 1", close_event(1), asked)
