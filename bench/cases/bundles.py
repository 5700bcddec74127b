"""Whole histories, most of them of three to six calls, and what is said of their certificates."""
from cases.calls import (create, create_exclusive, get_attributes, list_names, look_up, make_directory, read, remove, rename, write)
from cases.faults import BINDS, FILE, answered, sent
from cases.history import certificate, close_event, history_file, reply_event, reply_message
from cases.sample import run
from cases.xdr import IO, NOENT, NOTEMPTY, REG, attributes, word

ROOT, DIRECTORY, OTHER, INNER = 0, b"\xd1", b"\xe1", b"\xf1"


def add_all(cases):
    order_of_a_read(cases)
    one_object_to_a_handle(cases)
    renamed_directories(cases)
    transactions(cases)
    gaps(cases)
    exclusive_creates(cases)
    listings(cases)
    failed_removals(cases)


def order_of_a_read(cases):
    """A file is written twice, and read with the bytes of the first WRITE."""
    made, first = create(ROOT, "a").gives(FILE), write(FILE, 0, b"abc").gives()
    second, seen = write(FILE, 0, b"xyz").gives(), read(FILE, 0, 10).gives(b"abc", True)
    begun = [sent(1, 1, made), answered(1, 1, made), sent(2, 2, first), answered(2, 2, first)]
    overlapping = history_file([*begun, sent(3, 3, second), sent(4, 4, seen), answered(4, 4, seen), answered(3, 3, second)])
    apart = history_file([*begun, sent(3, 3, second), answered(3, 3, second), sent(4, 4, seen), answered(4, 4, seen)])
    in_order = certificate(["place 1", "place 2", "place 3", "place 4"], BINDS)
    read_ahead = certificate(["place 1", "place 2", "place 4", "place 3"], BINDS)
    cases.judge("a-write-that-overlaps-a-read-may-come-behind-it", "yes", overlapping, read_ahead)
    cases.judge("a-write-ahead-of-a-read-is-read", "no: Illegal 4", overlapping, in_order)
    cases.judge("a-write-that-has-ended-is-read", "no: Illegal 4", apart, in_order)
    cases.judge("a-write-that-has-ended-comes-ahead-of-a-later-read", "no: Early 4 3", apart, read_ahead)
    for case, answer, data, eof in (("the-whole-file", "yes", b"abc", True), ("the-whole-file-without-its-end", "no: Illegal 3", b"abc", False),
                                    ("a-part-as-the-whole", "no: Illegal 3", b"ab", True), ("a-part", "yes", b"ab", False)):
        run(cases, "a-file-that-is-written-is-read-as-" + case, answer, made, first, read(FILE, 0, 10).gives(data, eof), binds=BINDS)


def one_object_to_a_handle(cases):
    """Two files are made, and both are given one handle."""
    calls = [create(ROOT, "a").gives(FILE), create(ROOT, "b").gives(FILE)]
    run(cases, "a-handle-of-the-first-of-two-files", "no: Illegal 2", *calls, binds=[(FILE, 1)])
    run(cases, "a-handle-of-the-second-of-two-files", "no: Illegal 1", *calls, binds=[(FILE, 2)])
    run(cases, "a-handle-that-is-not-bound", "no: Illegal 1", *calls, binds=[])
    # A handle is given to no second object, also where the first is gone.
    run(cases, "a-handle-of-a-file-that-is-gone", "no: Illegal 3", calls[0], remove(ROOT, "a").gives(), calls[1], binds=[(FILE, 1)])


def renamed_directories(cases):
    inside = [make_directory(ROOT, "d").gives(DIRECTORY), create(DIRECTORY, "f").gives(INNER), write(INNER, 0, b"hi").gives(),
              rename(ROOT, "d", ROOT, "e").gives(), read(INNER, 0, 5).gives(b"hi", True), look_up(ROOT, "d").fails(NOENT)]
    run(cases, "what-a-renamed-directory-holds-stays-at-its-handle", "yes", *inside, binds=[(DIRECTORY, 1), (INNER, 2)])
    two = [make_directory(ROOT, "d").gives(DIRECTORY), make_directory(ROOT, "e").gives(OTHER), create(OTHER, "f").gives(INNER)]
    binds, onto = [(DIRECTORY, 1), (OTHER, 2), (INNER, 3)], rename(ROOT, "d", ROOT, "e")
    run(cases, "a-directory-is-not-renamed-onto-a-filled-one", "no: Illegal 4", *two, onto.gives(), binds=binds)
    run(cases, "a-rename-onto-a-filled-directory-is-refused", "yes", *two, onto.fails(NOTEMPTY), binds=binds)


def transactions(cases):
    asked = look_up(ROOT, "a").fails(NOENT)
    sent_once, answered_once = sent(1, 7, asked), answered(1, 7, asked)
    places = certificate(["place 1", "place 2"])
    cases.judge("a-transaction-number-used-again-behind-its-reply", "yes",
                history_file([sent_once, answered_once, sent_once, answered_once]), places)
    cases.judge("a-transaction-number-used-again-ahead-of-its-reply", "refused: XidInUse 2",
                history_file([sent_once, sent_once, answered_once, answered_once]), places)
    cases.judge("a-result-to-no-call", "refused: NoSuchCall 1",
                history_file([reply_event(1, reply_message(9, word(0) + attributes(REG, 0)))]), certificate([]))
    cases.judge("a-call-behind-the-close-of-its-lane", "refused: LaneClosed 2", history_file([close_event(1), sent(1, 1, asked)]),
                certificate([]))


def gaps(cases):
    run(cases, "a-gap-is-read-as-zeros", "yes", create(ROOT, "a").gives(FILE), write(FILE, 0, b"abc").gives(), write(FILE, 5, b"z").gives(),
        read(FILE, 0, 10).gives(b"abc\0\0z", True), binds=BINDS)


def exclusive_creates(cases):
    """An exclusive CREATE without a reply, and one with its verifier that succeeds."""
    first, second = create_exclusive(ROOT, "a", 0x7777777777777777), create_exclusive(ROOT, "a", 0x7777777777777777).gives(FILE)
    run(cases, "a-create-without-a-reply-made-the-file", "yes", first.taken(), second, binds=[(FILE, 1)])
    run(cases, "a-create-without-a-reply-made-nothing", "yes", first, second, binds=[(FILE, 2)])
    run(cases, "a-file-that-a-create-found-is-not-its-own", "no: Illegal 2", first.taken(), second, binds=[(FILE, 2)])


def listings(cases):
    made = create(ROOT, "a").gives(FILE)
    looked = look_up(ROOT, "a").gives(FILE)
    run(cases, "a-directory-is-listed-whole", "yes", made, looked, list_names(ROOT).gives([".", "..", "a"], True), binds=BINDS)
    run(cases, "a-list-without-its-entry", "no: Illegal 3", made, looked, list_names(ROOT).gives([".", ".."], True), binds=BINDS)
    run(cases, "a-list-with-an-entry-twice", "no: Illegal 3", made, looked, list_names(ROOT).gives(["a", "a"], True), binds=BINDS)


def failed_removals(cases):
    calls = [create(ROOT, "a").gives(FILE), write(FILE, 0, b"abc").gives(), remove(ROOT, "a").fails(IO)]
    run(cases, "a-remove-that-failed-left-the-file", "yes", *calls, get_attributes(FILE).gives(REG, 3), binds=BINDS)
    run(cases, "a-remove-that-failed-left-the-size", "no: Illegal 4", *calls, get_attributes(FILE).gives(REG, 4), binds=BINDS)
